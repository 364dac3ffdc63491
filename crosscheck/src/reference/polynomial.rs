//! Polynomials as lists of coefficients, power 0 first.

use super::field::{add, inverse, mul, sub};

/// The value at `x`, as the sum of coefficients times powers.
pub fn value(coefficients: &[u32], x: u32) -> u32 {
    let mut sum = 0;
    let mut power = 1;
    for c in coefficients {
        sum = add(sum, mul(*c, power));
        power = mul(power, x);
    }
    sum
}

/// Lagrange's weights: the value at `x` of the polynomial through the points is the sum of their
/// values times these.
pub fn weights(points: &[u32], x: u32) -> Vec<u32> {
    points.iter().map(|own| weight(points, *own, x)).collect()
}

fn weight(points: &[u32], own: u32, x: u32) -> u32 {
    let (mut over, mut under) = (1, 1);
    for other in points.iter().filter(|p| **p != own) {
        over = mul(over, sub(x, *other));
        under = mul(under, sub(own, *other));
    }
    mul(over, inverse(under))
}

/// The polynomial of least degree through the points, as many coefficients as points.
pub fn interpolate(points: &[u32], values: &[u32]) -> Vec<u32> {
    let mut sum = vec![0; points.len()];
    for (own, y) in points.iter().zip(values) {
        let mut product = vec![1];
        let mut under = 1;
        for other in points.iter().filter(|p| *p != own) {
            product = times_linear(&product, *other);
            under = mul(under, sub(*own, *other));
        }
        let scale = mul(*y, inverse(under));
        for (s, c) in sum.iter_mut().zip(&product) {
            *s = add(*s, mul(scale, *c));
        }
    }
    sum
}

/// The product with x - root.
pub fn times_linear(coefficients: &[u32], root: u32) -> Vec<u32> {
    let mut product = vec![0; coefficients.len() + 1];
    for (k, c) in coefficients.iter().enumerate() {
        product[k + 1] = add(product[k + 1], *c);
        product[k] = sub(product[k], mul(root, *c));
    }
    product
}

/// The quotient if the divisor is not 0 and leaves no remainder.
pub fn divide(dividend: &[u32], divisor: &[u32]) -> Option<Vec<u32>> {
    let degree = divisor.iter().rposition(|c| *c != 0)?;
    let lead = inverse(divisor[degree]);
    let mut rest = dividend.to_vec();
    let mut quotient = vec![0; dividend.len()];
    for place in (degree..rest.len()).rev() {
        let factor = mul(rest[place], lead);
        quotient[place - degree] = factor;
        let span = &mut rest[place - degree..=place];
        for (r, c) in span.iter_mut().zip(divisor) {
            *r = sub(*r, mul(factor, *c));
        }
    }
    rest.iter().all(|c| *c == 0).then_some(quotient)
}
