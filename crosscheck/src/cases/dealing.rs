//! Dealings: all kinds of random words and days, and buffers of any length.

use super::Round;
use super::station::{Keys, Station};
use crate::calls::{Deal, Tag};
use crate::reference::sharing::{Layout, random_words};

pub fn all(round: &mut Round) {
    let (t, d) = (round.t, round.d);
    Station::deal(round, t, d, Keys::Random);
    round.ledger.note(format!("deal: t = {t}"));
    round.ledger.note(format!("deal: d = {d}"));
    for keys in [Keys::Random, Keys::Zero, Keys::Blind] {
        Station::deal_some(round, keys);
    }
    all_equal(round);
    days(round);
    tags(round);
    for _ in 0..6 {
        lengths(round);
        words_above(round);
    }
}

/// All words 0, or all 65520.
fn all_equal(round: &mut Round) {
    let (t, d) = (round.some_t(), round.some_d());
    for word in [0, 65520] {
        let call = Deal {
            t,
            day: round.random.day(),
            secret: vec![word; d],
            random: vec![word; random_words(t, d)],
            shares: round.random.words(Layout::new(t, d).total()),
        };
        round.ledger.compare("dealing equal words", &call);
    }
}

fn lengths(round: &mut Round) {
    let t = round.some_t();
    let n = 2 * t + 1;
    let d = round.some_d();
    let d = round.length(n, d);
    let random = round.length(n, random_words(t, d));
    let shares = round.length(n, Layout::new(t, d).total());
    let given = if round.random.once_in(4) {
        round.bad_t()
    } else {
        t
    };
    let call = Deal {
        t: given,
        day: round.some_day(),
        secret: round.random.fields(d),
        random: round.random.fields(random),
        shares: round.random.words(shares),
    };
    round.ledger.compare("dealing with any lengths", &call);
}

/// A dealing that is accepted.
fn good(round: &mut Round) -> Deal {
    let (t, d) = (round.some_t(), round.some_d());
    Deal {
        t,
        day: round.random.day(),
        secret: round.random.fields(d),
        random: round.random.fields(random_words(t, d)),
        shares: round.random.words(Layout::new(t, d).total()),
    }
}

/// Each end of the days is accepted; the round's word that is no day is refused and leaves the
/// buffer as it is.
fn days(round: &mut Round) {
    let kind = "dealing, each day";
    for (day, number) in round.tried_days(32) {
        let call = Deal { day, ..good(round) };
        let answer = round.ledger.compare(kind, &call);
        let kept = number == 0 || answer.shares == call.shares;
        let right = answer.number == number && kept;
        let what = format!("{number} expected");
        round.ledger.demand(right, kind, &call, &what, &answer);
        round.ledger.note(format!("deal: {number}, day {day}"));
    }
}

/// Some dealt tags are those that the call for tags gives for the day and then the share words.
fn tags(round: &mut Round) {
    let kind = "a dealt tag";
    let Station {
        day,
        layout,
        shares,
        ..
    } = Station::deal_some(round, Keys::Random);
    for _ in 0..4 {
        let (i, j) = (
            round.random.within(1, layout.n),
            round.random.within(1, layout.n),
        );
        let mut words = vec![day];
        words.extend(layout.words(&shares, i));
        let key = layout.key(j, i);
        let call = Tag {
            alpha: shares[key],
            beta: shares[key + 1],
            words,
        };
        let tag = round.ledger.compare(kind, &call);
        let dealt = tag == shares[layout.tag(i, j)];
        let what = "another tag was dealt";
        round.ledger.demand(dealt, kind, &call, what, &tag);
    }
    round.ledger.note("deal: tags by the call for tags");
}

/// One word at the border or above, first, last or anywhere.
fn words_above(round: &mut Round) {
    let mut call = good(round);
    let word = round.random.pick(&[65520, 65521, 65522, 65535]);
    let list = if round.random.coin() {
        &mut call.secret
    } else {
        &mut call.random
    };
    let last = list.len() - 1;
    let place = round.random.within(0, last);
    let place = round.random.pick(&[0, last, place]);
    list[place] = word;
    round.ledger.compare("dealing a word above", &call);
}
