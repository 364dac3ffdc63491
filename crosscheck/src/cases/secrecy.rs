//! What t members hold of one secret they can hold of any other of its length: the coefficients for
//! it are found by elimination. If one of the t is to hold something else, the coefficients are
//! others.

use super::Round;
use super::station::{Keys, Station};
use crate::calls::{Deal, Dealt};
use crate::reference::elimination::kernel_vector;
use crate::reference::field::{mul, sub};
use crate::reference::members;

pub fn all(round: &mut Round) {
    let (t, d) = (round.t, round.d);
    let station = Station::deal(round, t, d, Keys::Random);
    another_secret(round, &station);
    round.ledger.note(format!("deal: another secret, t = {t}"));
    round.ledger.note(format!("deal: another secret, d = {d}"));
    let station = Station::some(round);
    another_secret(round, &station);
}

/// Deals another secret so that t members hold what they held; and again so that all of them but
/// one do.
fn another_secret(round: &mut Round, station: &Station) {
    let kind = "another secret, the same t shares";
    let layout = station.layout;
    let set = members(round.random.choose(station.everybody(), station.t));
    let secret = another(round, &station.secret);
    let same = |dealt: &Dealt, i: usize| {
        layout.share(&dealt.shares, i) == layout.share(&station.shares, i)
    };
    let mut held = station.shares.clone();
    let (call, dealt) = deal(round, kind, station, &secret, &set, &held);
    let right = set.iter().all(|i| same(&dealt, *i));
    let what = "a member of the t holds another share";
    round.ledger.demand(right, kind, &call, what, &dealt);
    let off = apart(&secret, &station.secret);
    let moved = |i| {
        apart(
            layout.words(&dealt.shares, i),
            layout.words(&station.shares, i),
        )
    };
    let right = (1..=layout.n).all(|i| set.contains(&i) || moved(i) == off);
    let what = "another member's words do not differ just where the secrets do";
    round.ledger.demand(right, kind, &call, what, &dealt);

    let kind = "another secret, the same t - 1 shares";
    let (one, k) = (round.random.pick(&set), round.random.below(layout.d));
    let place = layout.word(one, k);
    held[place] = round.random.other(held[place]);
    let (call, dealt) = deal(round, kind, station, &secret, &set, &held);
    let right = set.iter().all(|i| same(&dealt, *i) == (*i != one));
    let what = "not just one of the t holds another share";
    round.ledger.demand(right, kind, &call, what, &dealt);
}

/// Deals the secret with the station's keys, so that the members' share words are those held.
fn deal(
    round: &mut Round,
    kind: &str,
    station: &Station,
    secret: &[u16],
    set: &[usize],
    held: &[u16],
) -> (Deal, Dealt) {
    let (t, layout) = (station.t, station.layout);
    let mut random = station.random.clone();
    for (k, word) in secret.iter().enumerate() {
        let points: Vec<(usize, u16)> =
            set.iter().map(|i| (*i, held[layout.word(*i, k)])).collect();
        random[t * k..t * (k + 1)].copy_from_slice(&coefficients(&points, *word));
    }
    let call = Deal {
        t,
        day: station.day,
        secret: secret.to_vec(),
        random,
        shares: round.random.words(layout.total()),
    };
    let dealt = round.ledger.compare(kind, &call);
    (call, dealt)
}

/// Field words of which at least one is another.
fn another(round: &mut Round, secret: &[u16]) -> Vec<u16> {
    let mut words = match round.random.coin() {
        true => secret.to_vec(),
        false => round.random.fields(secret.len()),
    };
    let place = round.random.below(secret.len());
    words[place] = round.random.other(secret[place]);
    words
}

/// The coefficients of powers 1 to t with which a polynomial goes through t points, with `word` as
/// its value at 0: the one solution of a system of t equations.
fn coefficients(points: &[(usize, u16)], word: u16) -> Vec<u16> {
    let t = points.len();
    let row = |(i, seen): &(usize, u16)| {
        let mut powers = vec![*i as u32];
        while powers.len() < t {
            powers.push(mul(powers[powers.len() - 1], *i as u32));
        }
        powers.push(sub(word as u32, *seen as u32));
        powers
    };
    let found = kernel_vector(points.iter().map(row).collect(), t + 1).expect("one unknown more");
    assert_eq!(found[t], 1, "the t equations have one solution");
    found[..t].iter().map(|c| *c as u16).collect()
}

/// Where the words of two lists differ.
fn apart(a: &[u16], b: &[u16]) -> Vec<bool> {
    a.iter().zip(b).map(|(a, b)| a != b).collect()
}
