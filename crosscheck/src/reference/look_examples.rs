//! Examples of the quick look, and what is known of it.

use super::field::{P, add, mul};
use super::look::{first_to_fail, passes, printed, sums, weights};
use super::polynomial::{self, interpolate, value};
use super::sharing::Layout;
use super::{everybody, members};
use crate::random::Random;

/// A polynomial of degree exactly that, or 0 for degree 0 now and then.
fn of_degree(random: &mut Random, degree: usize) -> Vec<u32> {
    let mut coefficients: Vec<u32> = random.fields(degree + 1).iter().map(wide).collect();
    if degree > 0 {
        coefficients[degree] = random.within(1, 65520) as u32;
    }
    coefficients
}

fn wide(word: &u16) -> u32 {
    *word as u32
}

fn values(n: usize, coefficients: &[u32]) -> Vec<u32> {
    (1..=n).map(|i| value(coefficients, i as u32)).collect()
}

/// Whether the polynomial through the first t + 1 has the other values too.
fn on_one(t: usize, values: &[u32]) -> bool {
    let first: Vec<u32> = (1..=t as u32 + 1).collect();
    let through = interpolate(&first, &values[..=t]);
    (1..).zip(values).all(|(i, y)| value(&through, i) == *y)
}

/// That both say the same, which is given back.
fn both(t: usize, values: &[u32]) -> bool {
    let passed = passes(values);
    assert_eq!(passed, on_one(t, values), "t = {t}, {values:?}");
    passed
}

#[test]
fn three_members() {
    assert_eq!(weights(3), [32761, 65520, 32761]);
    // 1, 2, 3 lie on a line, and 1, 2, 4 do not
    assert_eq!(sums(&[1, 2, 3]), [0]);
    assert_eq!(sums(&[1, 2, 4]), [32761]);
    // 24, 6, 4, 6, 24 times these is 1, -1, 1, -1, 1
    let factorials = [24, 6, 4, 6, 24].into_iter().zip(weights(5));
    let products: Vec<u32> = factorials.map(|(f, word)| mul(f, *word)).collect();
    assert_eq!(products, [1, 65520, 1, 65520, 1]);
}

/// The rule by whole numbers, without the field's own product.
#[test]
fn the_rule() {
    let times = |product: u64, factor: usize| product * factor as u64 % 65521;
    let mut count = 0;
    for n in (3..=31).step_by(2) {
        assert_eq!(weights(n).len(), n);
        for i in 1..=n {
            let product = (1..i)
                .chain(1..=n - i)
                .fold(weights(n)[i - 1] as u64, times);
            let even = (n - i) % 2 == 0;
            assert_eq!(product, if even { 1 } else { 65520 }, "n = {n}, i = {i}");
            count += 1;
        }
    }
    assert_eq!(count, 255);
}

/// Up to a factor they are the weights by which the others' values give the one at i.
#[test]
fn as_interpolation_has_them() {
    for n in (3..=31).step_by(2) {
        for i in 1..=n as u32 {
            let others: Vec<u32> = (1..=n as u32).filter(|j| *j != i).collect();
            let own = weights(n)[i as usize - 1];
            for (j, weight) in others.iter().zip(polynomial::weights(&others, i)) {
                assert_eq!(add(weights(n)[*j as usize - 1], mul(own, weight)), 0);
            }
        }
    }
}

#[test]
fn curves_pass() {
    let mut random = Random::new(1);
    for t in 1..=15 {
        for degree in 0..=t {
            for _ in 0..20 {
                let coefficients = of_degree(&mut random, degree);
                let values = values(2 * t + 1, &coefficients);
                assert_eq!(sums(&values), vec![0; t]);
                assert!(both(t, &values));
            }
        }
    }
}

/// Of degree t + e, e from 1 to t, the sums are 0 up to power t - e - 1, and the next one is the
/// coefficient of the highest power. So for t + 1 all are 0 but the last.
#[test]
fn higher_degrees_fail_at_one_power() {
    let mut random = Random::new(2);
    for t in 1..=15 {
        for above in 1..=t {
            for _ in 0..20 {
                let coefficients = of_degree(&mut random, t + above);
                let values = values(2 * t + 1, &coefficients);
                let sums = sums(&values);
                let first = sums.iter().position(|sum| *sum != 0);
                assert_eq!(first, Some(t - above));
                assert_eq!(sums[t - above], coefficients[t + above]);
                assert!(!both(t, &values));
            }
        }
    }
}

/// One altered value makes every sum differ from 0, up to t of them at least one.
#[test]
fn altered_values_fail() {
    let mut random = Random::new(3);
    for t in 1..=15 {
        let n = 2 * t + 1;
        for i in 1..=n {
            let coefficients = of_degree(&mut random, t);
            let mut values = values(n, &coefficients);
            let word = values[i - 1] as u16;
            values[i - 1] = random.other(word) as u32;
            assert!(sums(&values).iter().all(|sum| *sum != 0));
            assert!(!both(t, &values));
        }
        for count in 1..=t {
            let coefficients = of_degree(&mut random, t);
            let mut values = values(n, &coefficients);
            for i in members(random.choose(everybody(n), count)) {
                let word = values[i - 1] as u16;
                values[i - 1] = random.other(word) as u32;
            }
            assert!(!both(t, &values));
        }
    }
}

/// Near misses: all but one or two on a polynomial, two polynomials with t common points, few
/// different values, and any.
#[test]
fn the_same_as_interpolation() {
    let mut random = Random::new(4);
    let (mut passed, mut failed) = (0, 0);
    for turn in 0..6000 {
        let t = 1 + turn % 15;
        let n = 2 * t + 1;
        let degree = random.within(0, t);
        let coefficients = of_degree(&mut random, degree);
        let mut values = values(n, &coefficients);
        match random.below(5) {
            0 => {
                let i = random.within(1, n);
                values[i - 1] = add(values[i - 1], random.below(2) as u32);
            }
            1 => {
                let (i, j) = (random.within(1, n), random.within(1, n));
                values.swap(i - 1, j - 1);
            }
            2 => {
                // a second polynomial from some member on, the same at members 1 to t
                for i in random.within(t + 1, n + 1)..=n {
                    let added = (1..=t).fold(1, |product, root| mul(product, (i - root) as u32));
                    values[i - 1] = add(values[i - 1], added);
                }
            }
            3 => {
                let range = random.pick(&[1, 2, 3]);
                values.fill_with(|| random.below(range) as u32);
            }
            _ => values.fill_with(|| random.field() as u32),
        }
        match both(t, &values) {
            true => passed += 1,
            false => failed += 1,
        }
    }
    assert!(passed > 500 && failed > 500, "{passed} {failed}");
}

/// All 65521 values of one member: just one of them passes.
#[test]
fn one_value_in_all_passes() {
    let mut random = Random::new(5);
    for t in [1, 2, 15] {
        let n = 2 * t + 1;
        let coefficients = of_degree(&mut random, t);
        let right = values(n, &coefficients);
        for i in [1, t + 1, n] {
            let mut values = right.clone();
            for y in 0..P {
                values[i - 1] = y;
                assert_eq!(passes(&values), y == right[i - 1]);
            }
        }
    }
}

#[test]
fn the_first_word_to_fail() {
    let layout = Layout::new(2, 3);
    let mut shares = vec![0; layout.total()];
    assert_eq!(first_to_fail(layout, &shares), None);
    shares[layout.word(5, 2)] = 1;
    assert_eq!(first_to_fail(layout, &shares), Some(2));
    shares[layout.word(1, 1)] = 1;
    assert_eq!(first_to_fail(layout, &shares), Some(1));
    // words of 1 in all places are a polynomial of degree 0
    for i in 1..=5 {
        shares[layout.word(i, 0)] = 1;
    }
    assert_eq!(first_to_fail(layout, &shares), Some(1));
}

#[test]
fn the_program_prints() {
    let text = printed();
    assert!(text.starts_with("3\t1\t32761\n3\t2\t65520\n3\t3\t32761\n5\t1\t"));
    assert!(text.ends_with(&format!("\n31\t31\t{}\n", weights(31)[30])));
    assert_eq!((text.len(), text.lines().count()), (2858, 255));
    let place = |n: usize, i: usize| (n / 2) * (n / 2) - 1 + i - 1;
    let lines: Vec<&str> = text.lines().collect();
    for n in (3..=31).step_by(2) {
        for i in 1..=n {
            let start = format!("{n}\t{i}\t");
            assert!(lines[place(n, i)].starts_with(&start));
        }
    }
}
