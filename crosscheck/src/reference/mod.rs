//! The other implementation, written from the rules alone. It prefers the plainest way to each
//! result over the fastest one, and has two ways for whatever needs decoding.

pub mod decoding;
pub mod elimination;
pub mod field;
pub mod look;
pub mod polynomial;
pub mod program;
pub mod pruning;
pub mod sharing;
pub mod text;

#[cfg(test)]
mod examples;
#[cfg(test)]
mod look_examples;

/// The largest word that is a field word.
pub const LARGEST: u16 = 65520;
/// What a refusal writes over a secret or over coefficients.
pub const BLANK: u16 = 65535;

/// The members of a set, in order.
pub fn members(set: u32) -> Vec<usize> {
    (1..=32).filter(|i| holds(set, *i)).collect()
}

/// Whether member `i` is in the set.
pub fn holds(set: u32, i: usize) -> bool {
    (set >> (i - 1)) & 1 == 1
}

/// The set of members 1 to `n`, where `n` is at most 32.
pub fn everybody(n: usize) -> u32 {
    (1..=n).fold(0, |set, i| set | 1 << (i - 1))
}

/// How many members of a set of `s` have to agree on a polynomial of degree at most `t`.
pub fn need(t: usize, s: usize) -> usize {
    let surplus = s - (t + 1);
    t + 1 + surplus.div_ceil(2)
}

/// Whether `t` is one the rules allow.
pub fn allowed(t: usize) -> bool {
    (1..=15).contains(&t)
}

/// Whether the word is a day.
pub fn is_day(word: u16) -> bool {
    (1..=LARGEST).contains(&word)
}
