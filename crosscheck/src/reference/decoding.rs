//! Decoding one word, by Berlekamp and Welch's linear system and by trying all subsets.

use super::elimination::kernel_vector;
use super::field::{P, mul, sub};
use super::polynomial::{divide, interpolate, value, weights};
use super::{BLANK, LARGEST, allowed, everybody, members, need};

/// How the polynomial is sought.
#[derive(Clone, Copy, Debug, PartialEq, Eq)]
pub enum Way {
    Elimination,
    Subsets,
}

/// One member's point and value.
pub type Point = (u32, u32);

/// The members of the set whose values lie on the polynomial.
pub fn agreeing(points: &[Point], coefficients: &[u32]) -> u32 {
    let on = |p: &&Point| value(coefficients, p.0) == p.1;
    points
        .iter()
        .filter(on)
        .fold(0, |set, p| set | 1 << (p.0 - 1))
}

/// The polynomial of degree at most `t` that meets at least `need` of the points.
pub fn polynomial_through(t: usize, points: &[Point], way: Way) -> Option<Vec<u32>> {
    match way {
        Way::Elimination => by_elimination(t, points),
        Way::Subsets => by_subsets(t, points),
    }
}

/// Q(x) = y E(x) at every point, with E of degree at most e and Q of degree at most t + e. If the
/// polynomial sought exists, every nonzero solution has it as the quotient Q / E.
fn by_elimination(t: usize, points: &[Point]) -> Option<Vec<u32>> {
    let wanted = need(t, points.len());
    let errors = points.len() - wanted;
    let rows = points.iter().map(|p| equation(t, errors, *p)).collect();
    let found = kernel_vector(rows, t + 2 * errors + 2)?;
    let (locator, product) = found.split_at(errors + 1);
    let mut quotient = divide(product, locator)?;
    if quotient.iter().skip(t + 1).any(|c| *c != 0) {
        return None;
    }
    quotient.resize(t + 1, 0);
    let enough = agreeing(points, &quotient).count_ones() as usize >= wanted;
    enough.then_some(quotient)
}

/// The coefficients of E, then those of Q, in y E(x) - Q(x) = 0.
fn equation(t: usize, errors: usize, (x, y): Point) -> Vec<u32> {
    let mut powers = vec![1];
    for k in 0..t + errors {
        powers.push(mul(powers[k], x));
    }
    let locator = powers.iter().take(errors + 1).map(|power| mul(y, *power));
    let product = powers.iter().map(|power| sub(0, *power));
    locator.chain(product).collect()
}

fn by_subsets(t: usize, points: &[Point]) -> Option<Vec<u32>> {
    let wanted = need(t, points.len());
    for places in subsets(points.len(), t + 1) {
        let xs: Vec<u32> = places.iter().map(|i| points[*i].0).collect();
        let ys: Vec<u32> = places.iter().map(|i| points[*i].1).collect();
        let hits = points.iter().filter(|(x, y)| {
            let terms = weights(&xs, *x);
            terms
                .iter()
                .zip(&ys)
                .fold(0, |s, (w, v)| (s + mul(*w, *v)) % P)
                == *y
        });
        if hits.count() >= wanted {
            return Some(interpolate(&xs, &ys));
        }
    }
    None
}

/// All choices of `size` out of the numbers below `count`, in order.
pub fn subsets(count: usize, size: usize) -> Vec<Vec<usize>> {
    let mut all = vec![Vec::new()];
    for _ in 0..size {
        let mut longer = Vec::new();
        for chosen in &all {
            let first = chosen.last().map_or(0, |last| last + 1);
            for next in first..count {
                let mut more: Vec<usize> = chosen.clone();
                more.push(next);
                longer.push(more);
            }
        }
        all = longer;
    }
    all
}

/// The call: writes the t + 1 coefficients, or 65535 everywhere, and answers the refusal number.
pub fn decode(t: usize, values: &[u16], set: u32, coefficients: &mut [u16], way: Way) -> u16 {
    coefficients.fill(BLANK);
    match sought(t, values, set, coefficients.len(), way) {
        Ok(found) => {
            for (place, c) in coefficients.iter_mut().zip(found) {
                *place = c as u16;
            }
            0
        }
        Err(number) => number,
    }
}

fn sought(t: usize, values: &[u16], set: u32, room: usize, way: Way) -> Result<Vec<u32>, u16> {
    if !allowed(t) {
        return Err(1);
    }
    let n = 2 * t + 1;
    if values.len() != n {
        return Err(11);
    }
    if room != t + 1 {
        return Err(19);
    }
    if set & !everybody(n) != 0 {
        return Err(12);
    }
    let points: Vec<Point> = members(set)
        .iter()
        .map(|i| (*i as u32, values[i - 1] as u32))
        .collect();
    if points.len() < t + 1 {
        return Err(17);
    }
    if points.iter().any(|p| p.1 > LARGEST as u32) {
        return Err(18);
    }
    polynomial_through(t, &points, way).ok_or(16)
}
