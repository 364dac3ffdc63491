//! Openings for a day: what was dealt for another day, and mixes of two days' shares. All words
//! are as some dealing wrote them.

use super::opening::{kinds, near_quorum};
use super::pruning::some_rows;
use super::station::{Handed, Keys, Station, random_for};
use super::{END_DAYS, Round};
use crate::calls::{Opened, Prune};
use crate::random::Random;
use crate::reference::sharing::{Pairs, random_words};
use crate::reference::{everybody, holds, members};

pub fn all(round: &mut Round) {
    each_day(round);
    complete(round);
    part(round);
    all_alphas_0(round);
    for _ in 0..2 {
        some_alphas_0(round);
        two_days(round);
        two_dealings(round);
    }
}

/// A dealing in which alpha of key(j, i) is 0 just where row i holds j: on another day, j accepts
/// i just there.
fn dealt_with(round: &mut Round, t: usize, d: usize, rows: &[u32]) -> Station {
    let mut random = round.random.fields(random_words(t, d));
    for (place, key) in random[t * d..].chunks_mut(2).enumerate() {
        let (j, i) = (place / rows.len() + 1, place % rows.len() + 1);
        key[0] = match holds(rows[i - 1], j) {
            true => 0,
            false => round.random.within(1, 65520) as u16,
        };
    }
    let day = round.random.day();
    Station::with(round, t, d, day, random)
}

/// A dealing of some size with no alpha equal to 0.
pub fn no_alpha_0(round: &mut Round) -> Station {
    let (t, d) = (round.some_t(), round.some_d());
    dealt_with(round, t, d, &vec![0; 2 * t + 1])
}

/// Each end of the days opens what was dealt for it; the round's word that is no day is refused.
fn each_day(round: &mut Round) {
    let kind = "each day";
    for day in END_DAYS {
        let station = Station::some(round).again(round, day);
        let mut handed = station.hand_in(&mut round.random);
        let all = vec![station.everybody(); station.layout.n];
        let number = foresee(round, kind, &handed, &all).number;
        round.ledger.note(format!("open: {number}, day {day}"));
        handed.day = round.no_day;
        handed.expect(round, kind, &handed.refused(32, Pairs::default()));
    }
    round.ledger.note(format!("open: 32, day {}", round.no_day));
}

/// All shares of another day, and no alpha is 0: 15 for every quorum.
fn complete(round: &mut Round) {
    let kind = "another day, complete";
    let (t, d) = (round.t, round.d);
    let station = dealt_with(round, t, d, &vec![0; 2 * t + 1]);
    let mut handed = station.hand_in(&mut round.random);
    handed.present = station.everybody();
    handed.day = round.random.other_day(station.day);
    let n = station.layout.n as u16;
    let pairs = Pairs {
        accepted: 0,
        mismatched: n * n,
        unread: 0,
    };
    let any = round.random.within(t + 1, n as usize) as u16;
    for quorum in [0, t as u16 + 1, n, any] {
        handed.quorum = quorum;
        handed.expect(round, kind, &handed.refused(15, pairs));
    }
    round.ledger.note(format!("open: another day, 15, t = {t}"));
}

/// Some shares of another day, and no alpha is 0: 15, or 14 if the quorum is not met.
fn part(round: &mut Round) {
    let station = no_alpha_0(round);
    let mut handed = station.hand_in(&mut round.random);
    handed.present = round.random.part(station.everybody());
    handed.day = round.random.other_day(station.day);
    let nobody = vec![0; station.layout.n];
    another_day(round, "another day, in part", handed, &nobody);
}

/// With all alphas 0 the day does not matter.
fn all_alphas_0(round: &mut Round) {
    let station = Station::deal_some(round, Keys::Blind);
    let mut handed = station.hand_in(&mut round.random);
    handed.day = round.random.other_day(station.day);
    let all = vec![station.everybody(); station.layout.n];
    another_day(round, "another day, all alphas 0", handed, &all);
}

/// With some alphas 0, any votes can come about.
fn some_alphas_0(round: &mut Round) {
    let (t, d) = (round.some_t(), round.some_d());
    let rows = some_rows(&mut round.random, t);
    let station = dealt_with(round, t, d, &rows);
    let mut handed = station.hand_in(&mut round.random);
    handed.day = round.random.other_day(station.day);
    another_day(round, "another day, some alphas 0", handed, &rows);
}

/// Opens with some quorum, and notes how it ended.
fn another_day(round: &mut Round, kind: &str, mut handed: Handed, rows: &[u32]) {
    let present = handed.present;
    near_quorum(&mut round.random, &mut handed, present);
    let number = foresee(round, kind, &handed, rows).number;
    round.ledger.note(format!("open: {kind}, {number}"));
}

/// Opens share words that are all as dealt, where j accepts i if row i holds j and both are
/// present. The answer is the one that pruning these votes leads to.
fn foresee(round: &mut Round, kind: &str, handed: &Handed, rows: &[u32]) -> Opened {
    let (n, present) = (handed.layout().n, handed.present);
    let row = |i: usize| match holds(present, i) {
        true => rows[i - 1] & present,
        false => 0,
    };
    let rows: Vec<u32> = (1..=n).map(row).collect();
    let accepted: u32 = rows.iter().map(|row| row.count_ones()).sum();
    let mismatched = present.count_ones().pow(2) - accepted;
    let pairs = kinds(n, present, mismatched as usize);
    let votes = Prune {
        t: handed.station.t,
        rows,
        survivors: round.random.mask(),
    };
    let survivors = round.ledger.compare(kind, &votes).survivors;
    let asked = handed.call(&mut round.random).asked();
    let wanted = if (present.count_ones() as usize) < asked {
        handed.refused(14, pairs)
    } else if survivors == 0 {
        handed.refused(15, pairs)
    } else {
        Opened {
            number: 0,
            secret: handed.station.secret.clone(),
            survivors,
            agreeing: survivors,
            pairs,
        }
    };
    handed.expect(round, kind, &wanted);
    wanted
}

/// Gives the members in the set their shares of the other dealing.
fn take(handed: &mut Handed, other: &Station, set: u32) {
    let layout = handed.layout();
    for i in members(set) {
        let place = layout.word(i, 0)..layout.word(i + 1, 0);
        handed.shares[place.clone()].copy_from_slice(&other.shares[place]);
    }
}

/// No alpha 0, some, or all.
fn some_votes(random: &mut Random, t: usize) -> Vec<u32> {
    let n = 2 * t + 1;
    match random.below(4) {
        0 => vec![everybody(n); n],
        1 => some_rows(random, t),
        _ => vec![0; n],
    }
}

/// One secret dealt for two days with the same random words: the members' shares are of one or of
/// the other, around t + 1 of them of the first. Shares of the day opened for have all votes, the
/// others those of alphas 0.
fn two_days(round: &mut Round) {
    let kind = "two days, one dealing";
    let (t, d) = (round.some_t(), round.some_d());
    let rows = some_votes(&mut round.random, t);
    let station = dealt_with(round, t, d, &rows);
    let day = round.random.other_day(station.day);
    let other = station.again(round, day);
    let mut handed = station.hand_in(&mut round.random);
    let any = round.random.within(0, handed.present.count_ones() as usize);
    let count = round.random.pick(&[t, t + 1, any]);
    let first = round.random.choose(handed.present, count);
    take(&mut handed, &other, station.everybody() & !first);
    let third = round.random.day();
    handed.day = round
        .random
        .pick(&[station.day, station.day, station.day, day, third]);
    let row = |i: usize| {
        let own = if holds(first, i) { station.day } else { day };
        match own == handed.day {
            true => station.everybody(),
            false => rows[i - 1],
        }
    };
    let rows: Vec<u32> = (1..=station.layout.n).map(row).collect();
    let present = handed.present;
    near_quorum(&mut round.random, &mut handed, present);
    let answer = foresee(round, kind, &handed, &rows);
    note_mix(round, kind, &handed, first, &answer);
}

/// Two secrets dealt for two days, with the same random words or others: some members, around half
/// the surplus, hand in their shares of the second.
fn two_dealings(round: &mut Round) {
    let kind = "two days, two dealings";
    let keys = round.random.pick(&[Keys::Random, Keys::Zero, Keys::Blind]);
    let station = Station::deal_some(round, keys);
    let (t, d) = (station.t, station.layout.d);
    let random = match round.random.coin() {
        true => station.random.clone(),
        false => random_for(&mut round.random, t, d, keys),
    };
    let day = round.random.other_day(station.day);
    let other = Station::with(round, t, d, day, random);
    let mut handed = station.hand_in(&mut round.random);
    let (present, half) = (handed.present, handed.surplus() / 2);
    let any = round.random.within(0, present.count_ones() as usize);
    let count = round.random.pick(&[half, half + 1, any]);
    let second = round.random.choose(present, count);
    take(&mut handed, &other, second);
    handed.day = round.random.pick(&[station.day, day]);
    near_quorum(&mut round.random, &mut handed, present);
    let answer = handed.open(round, kind);
    note_mix(round, kind, &handed, present & !second, &answer);
}

/// Notes how a mix ended, if there are shares of both in it.
fn note_mix(round: &mut Round, kind: &str, handed: &Handed, first: u32, answer: &Opened) {
    if first == 0 || first == handed.present {
        return;
    }
    round
        .ledger
        .note(format!("open: {kind}, {}", answer.number));
    if answer.number == 0 {
        let both = answer.survivors & first != 0 && answer.survivors & !first != 0;
        let which = if both {
            "both survive"
        } else {
            "one is struck"
        };
        round.ledger.note(format!("open: {kind}, {which}"));
    }
}
