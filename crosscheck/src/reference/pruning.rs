//! The survivors of the votes, found by striking one member at a time, the last first.

use super::{allowed, everybody, holds};

/// The largest set whose members are each accepted by at least t + 1 members of it.
pub fn survivors(t: usize, rows: &[u32]) -> u32 {
    let mut set = everybody(rows.len());
    while let Some(struck) = (1..=rows.len()).rfind(|i| to_strike(t, rows, set, *i)) {
        set -= 1 << (struck - 1);
    }
    set
}

fn to_strike(t: usize, rows: &[u32], set: u32, i: usize) -> bool {
    let accepts = |j: &usize| holds(set, *j) && holds(rows[i - 1], *j);
    holds(set, i) && (1..=rows.len()).filter(accepts).count() < t + 1
}

/// The call: the refusal number and the survivors.
pub fn prune(t: usize, rows: &[u32]) -> (u16, u32) {
    if !allowed(t) {
        return (1, 0);
    }
    let n = 2 * t + 1;
    if rows.len() != n {
        return (10, 0);
    }
    if rows.iter().any(|row| row & !everybody(n) != 0) {
        return (12, 0);
    }
    (0, survivors(t, rows))
}
