//! The quick look at one word of all n members: their weights, the sums that are 0 where the values
//! lie on one polynomial of degree at most t, and what the program `weights` prints. Opening here
//! does not use it.

use std::sync::OnceLock;

use super::field::{P, add, mul};
use super::sharing::{Layout, points};
use super::{allowed, everybody};

/// The product of 1 to `k`.
fn factorial(k: usize) -> u32 {
    (1..=k).fold(1, |product, factor| mul(product, factor as u32))
}

/// The field word whose product with the factorials of i - 1 and of n - i is 1 if n - i is even and
/// 65520 if it is odd, sought among all field words.
fn weight(n: usize, i: usize) -> u32 {
    let factorials = mul(factorial(i - 1), factorial(n - i));
    let wanted = if (n - i).is_multiple_of(2) { 1 } else { 65520 };
    let fits = |word: &u32| mul(*word, factorials) == wanted;
    (0..P).find(fits).expect("no factorial up to 30 is 0")
}

/// The weights of the members 1 to n, for n = 3, 5, .. 31.
pub fn weights(n: usize) -> &'static [u32] {
    static TABLE: OnceLock<Vec<Vec<u32>>> = OnceLock::new();
    let of = |t: usize| (1..=2 * t + 1).map(|i| weight(2 * t + 1, i)).collect();
    let table = TABLE.get_or_init(|| (1..=15).map(of).collect());
    assert!(n % 2 == 1 && allowed(n / 2));
    &table[n / 2 - 1]
}

/// For m from 0 to t - 1, the sum of each member's weight times its number to the power m times its
/// value; there are n = 2t + 1 values.
pub fn sums(values: &[u32]) -> Vec<u32> {
    let n = values.len();
    let mut terms: Vec<u32> = (0..n).map(|i| mul(weights(n)[i], values[i])).collect();
    let mut sums = Vec::new();
    for _ in 0..n / 2 {
        sums.push(terms.iter().fold(0, |sum, term| add(sum, *term)));
        for (i, term) in (1..).zip(terms.iter_mut()) {
            *term = mul(*term, i);
        }
    }
    sums
}

/// Whether all sums are 0.
pub fn passes(values: &[u32]) -> bool {
    sums(values).iter().all(|sum| *sum == 0)
}

/// The first word, from 0, that does not pass.
pub fn first_to_fail(layout: Layout, shares: &[u16]) -> Option<usize> {
    (0..layout.d).find(|k| {
        let points = points(layout, everybody(layout.n), shares, *k);
        let values: Vec<u32> = points.iter().map(|point| point.1).collect();
        !passes(&values)
    })
}

/// What the program `weights` prints: n, i and the weight, n rising and i rising within n.
pub fn printed() -> String {
    let mut lines = String::new();
    for n in (3..=31).step_by(2) {
        for (i, word) in (1..).zip(weights(n)) {
            lines += &format!("{n}\t{i}\t{word}\n");
        }
    }
    lines
}
