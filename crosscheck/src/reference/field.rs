//! Arithmetic modulo 65521 on numbers below it.

/// The prime.
pub const P: u32 = 65521;

pub fn add(a: u32, b: u32) -> u32 {
    (a + b) % P
}

pub fn sub(a: u32, b: u32) -> u32 {
    (a + P - b) % P
}

pub fn mul(a: u32, b: u32) -> u32 {
    (a * b) % P
}

/// The inverse by the extended Euclidean algorithm; 0 for 0.
pub fn inverse(a: u32) -> u32 {
    let (mut r0, mut r1) = (P as i64, (a % P) as i64);
    let (mut s0, mut s1) = (0i64, 1i64);
    while r1 != 0 {
        let quotient = r0 / r1;
        (r0, r1) = (r1, r0 - quotient * r1);
        (s0, s1) = (s1, s0 - quotient * s1);
    }
    if r0 != 1 {
        return 0;
    }
    s0.rem_euclid(P as i64) as u32
}
