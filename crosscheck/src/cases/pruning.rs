//! Vote rows of all kinds, and rows of any number.

use super::Round;
use crate::calls::Prune;
use crate::random::Random;
use crate::reference::{everybody, members};

pub fn all(round: &mut Round) {
    for _ in 0..24 {
        let t = round.some_t();
        let rows = some_rows(&mut round.random, t);
        let call = Prune {
            t,
            rows,
            survivors: round.random.mask(),
        };
        let answer = round.ledger.compare("pruning", &call);
        note(round, &call, answer.survivors);
    }
    for _ in 0..8 {
        lengths(round);
        one_bit_beyond(round);
    }
}

fn note(round: &mut Round, call: &Prune, survivors: u32) {
    let everybody = everybody(call.rows.len());
    let first = |i: &usize| (call.rows[i - 1].count_ones() as usize) > call.t;
    let counted_once = members(everybody).into_iter().filter(first).count();
    if survivors == 0 {
        round.ledger.note("prune: nobody survives");
        if call.t > 1 && counted_once + 1 == call.rows.len() {
            round.ledger.note("prune: one short member brings all down");
        }
    } else if survivors == everybody {
        round.ledger.note("prune: all survive");
    } else {
        round.ledger.note("prune: some survive");
        if counted_once > survivors.count_ones() as usize {
            round.ledger.note("prune: one strike brings another");
        }
    }
    round.ledger.note(format!("prune: t = {}", call.t));
}

/// Rows for 2t + 1 members.
pub fn some_rows(random: &mut Random, t: usize) -> Vec<u32> {
    let n = 2 * t + 1;
    let all = everybody(n);
    match random.below(6) {
        0 => (0..n).map(|_| random.mask() & all).collect(),
        1 => (0..n).map(|_| random.part(all)).collect(),
        2 => (0..n).map(|_| exact(random, t, all)).collect(),
        3 => chain(random, t),
        4 => core(random, t),
        _ => symmetric(random, n),
    }
}

/// Just t, t + 1 or t + 2 votes.
fn exact(random: &mut Random, t: usize, all: u32) -> u32 {
    let most = all.count_ones() as usize;
    let count = random.pick(&[t, t + 1, t + 1, t + 1, t + 2]).min(most);
    random.choose(all, count)
}

/// Each member stands on those before it in some order, so strikes go one by one.
fn chain(random: &mut Random, t: usize) -> Vec<u32> {
    let n = 2 * t + 1;
    let mut order: Vec<usize> = (1..=n).collect();
    random.shuffle(&mut order);
    let broken = random.within(t, n - 1);
    let mut rows = vec![0; n];
    for place in 0..n {
        let first = place.saturating_sub(t);
        let before = &order[first..=place];
        rows[order[place] - 1] = before.iter().fold(0, |set, i| set | 1 << (i - 1));
        if place <= t {
            rows[order[place] - 1] = order[..=t].iter().fold(0, |set, i| set | 1 << (i - 1));
        }
    }
    if random.coin() {
        rows[order[broken] - 1] &= !(1 << (order[broken - 1] - 1));
    }
    rows
}

/// A group that accepts itself wholly; outsiders have some votes of it.
fn core(random: &mut Random, t: usize) -> Vec<u32> {
    let n = 2 * t + 1;
    let size = random.within(t, n);
    let group = random.choose(everybody(n), size);
    let mut rows: Vec<u32> = (0..n).map(|_| exact(random, t, everybody(n))).collect();
    for i in members(group) {
        rows[i - 1] = group | random.part(everybody(n));
        if random.once_in(8) {
            rows[i - 1] &= !(1 << (i - 1));
        }
    }
    rows
}

fn symmetric(random: &mut Random, n: usize) -> Vec<u32> {
    let mut rows = vec![0; n];
    for i in 0..n {
        for j in 0..=i {
            if !random.once_in(3) {
                rows[i] |= 1 << j;
                rows[j] |= 1 << i;
            }
        }
    }
    rows
}

fn lengths(round: &mut Round) {
    let t = round.some_t();
    let n = 2 * t + 1;
    let exact = round.random.pick(&[n, 30, 31, 32, 33]);
    let count = round.length(n, exact);
    let given = if round.random.once_in(4) {
        round.bad_t()
    } else {
        t
    };
    let all = if round.random.once_in(3) {
        u32::MAX
    } else {
        everybody(n)
    };
    let call = Prune {
        t: given,
        rows: (0..count).map(|_| round.random.mask() & all).collect(),
        survivors: round.random.mask(),
    };
    round.ledger.compare("pruning any number of rows", &call);
}

/// A single bit beyond member n in one row, also in the row of a member that is struck.
fn one_bit_beyond(round: &mut Round) {
    let t = round.some_t();
    let n = 2 * t + 1;
    let mut rows = some_rows(&mut round.random, t);
    let place = round.random.pick(&[0, n - 1, t]);
    if round.random.coin() {
        rows[place] = 0;
    }
    let bit = round.random.within(n, 31);
    rows[place] |= 1 << round.random.pick(&[n, 31, bit]);
    let call = Prune {
        t,
        rows,
        survivors: round.random.mask(),
    };
    round.ledger.compare("pruning with a bit beyond", &call);
}
