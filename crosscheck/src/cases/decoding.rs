//! Decoding: values on a polynomial with errors, two polynomials at once, and any lengths.

use super::Round;
use crate::calls::{Decode, Decoded};
use crate::random::Random;
use crate::reference::polynomial::value;
use crate::reference::{everybody, holds, members, need};

pub fn all(round: &mut Round) {
    for _ in 0..20 {
        errors(round);
    }
    for _ in 0..10 {
        two_polynomials(round);
        anything(round);
        lengths(round);
        one_above(round);
    }
}

/// A set of at least t + 1 members.
fn some_set(random: &mut Random, t: usize) -> u32 {
    let n = 2 * t + 1;
    let any = random.within(t + 1, n);
    let count = random
        .pick(&[t + 1, (t + 2).min(n), n, n - 1, any])
        .max(t + 1);
    random.choose(everybody(n), count)
}

/// The polynomial's values in the set, anything outside it.
fn values_on(random: &mut Random, n: usize, set: u32, coefficients: &[u16]) -> Vec<u16> {
    let wide: Vec<u32> = coefficients.iter().map(|c| *c as u32).collect();
    let one = |i: usize| match holds(set, i) {
        true => value(&wide, i as u32) as u16,
        false => random.word() | 0xff00,
    };
    (1..=n).map(one).collect()
}

fn submit(round: &mut Round, kind: &str, call: Decode) -> Decoded {
    let answer = round.ledger.compare(kind, &call);
    if answer.number == 0 {
        let t = call.t;
        let surplus = call.set.count_ones() as usize - (t + 1);
        round.ledger.note(format!("decode: decoded, t = {t}"));
        round
            .ledger
            .note(format!("decode: decoded, surplus {surplus}"));
    }
    answer
}

/// The call with a buffer of the right length.
fn call(random: &mut Random, t: usize, values: Vec<u16>, set: u32) -> Decode {
    Decode {
        t,
        values,
        set,
        coefficients: random.words(t + 1),
    }
}

/// Errors around half the surplus.
fn errors(round: &mut Round) {
    let t = round.some_t();
    let n = 2 * t + 1;
    let set = some_set(&mut round.random, t);
    let degree = round.random.within(0, t);
    let mut coefficients = round.random.fields(degree + 1);
    coefficients.resize(t + 1, 0);
    let mut values = values_on(&mut round.random, n, set, &coefficients);
    let half = (set.count_ones() as usize - (t + 1)) / 2;
    let count = round.random.pick(&[0, half, half, half + 1]);
    for i in members(round.random.choose(set, count)) {
        values[i - 1] = round.random.other(values[i - 1]);
    }
    let call = call(&mut round.random, t, values, set);
    let answer = submit(round, "decoding errors", call.clone());
    if count <= half {
        let right = answer.number == 0 && answer.coefficients == coefficients;
        let what = "not the polynomial within half the surplus";
        round
            .ledger
            .demand(right, "decoding errors", &call, what, &answer);
    }
    if count == half && count > 0 {
        round.ledger.note("decode: decoded at half the surplus");
    }
    if count == half + 1 && answer.number == 16 {
        round.ledger.note("decode: 16 one beyond half the surplus");
    }
}

/// Part of the set on one polynomial and the rest on another through common points.
fn two_polynomials(round: &mut Round) {
    let t = round.some_t();
    let n = 2 * t + 1;
    let set = some_set(&mut round.random, t);
    let one = round.random.fields(t + 1);
    let other = round.random.fields(t + 1);
    let mut values = values_on(&mut round.random, n, set, &one);
    let second = values_on(&mut round.random, n, set, &other);
    let s = set.count_ones() as usize;
    let wanted = need(t, s);
    let count = round.random.pick(&[wanted, wanted - 1, s / 2]);
    for i in members(round.random.choose(set, count)) {
        values[i - 1] = second[i - 1];
    }
    let call = call(&mut round.random, t, values, set);
    submit(round, "decoding two polynomials", call);
}

/// Few different values in any set.
fn anything(round: &mut Round) {
    let t = round.some_t();
    let n = 2 * t + 1;
    let set = round.random.part(everybody(n));
    let range = round.random.pick(&[2, 3, 65521]);
    let values = (0..n).map(|_| round.random.below(range) as u16).collect();
    let call = call(&mut round.random, t, values, set);
    submit(round, "decoding anything", call);
}

fn lengths(round: &mut Round) {
    let t = round.some_t();
    let n = 2 * t + 1;
    let (values, room) = (round.length(n, n), round.length(n, t + 1));
    let given = if round.random.once_in(4) {
        round.bad_t()
    } else {
        t
    };
    let stray = round.random.pick(&[0, 0, 1 << 31, 1 << n]);
    let call = Decode {
        t: given,
        values: round.random.fields(values),
        set: round.random.part(everybody(n)) | stray,
        coefficients: round.random.words(room),
    };
    round.ledger.compare("decoding with any lengths", &call);
}

/// A value above 65520 inside or outside the set.
fn one_above(round: &mut Round) {
    let t = round.some_t();
    let n = 2 * t + 1;
    let set = some_set(&mut round.random, t);
    let coefficients = round.random.fields(t + 1);
    let mut values = values_on(&mut round.random, n, set, &coefficients);
    let i = round.random.within(1, n);
    values[i - 1] = round.random.above();
    let call = call(&mut round.random, t, values, set);
    submit(round, "decoding a value above", call);
    if !holds(set, i) {
        round.ledger.note("decode: above 65520 outside the set");
    }
}
