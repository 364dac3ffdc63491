//! Openings: honest, lossy and hostile hand-ins, and buffers of any length.

use super::Round;
use super::station::{Handed, Keys, Station};
use crate::calls::Open;
use crate::random::Random;
use crate::reference::decoding::{Way, polynomial_through};
use crate::reference::field::{add, mul, sub};
use crate::reference::sharing::{Layout, Pairs, points};
use crate::reference::{everybody, holds, members, need};

type Kind = fn(&mut Round);

const KINDS: &[Kind] = &[
    honest,
    quorums,
    bounded_errors,
    bounded_errors,
    other_polynomial,
    other_polynomial,
    scattered,
    one_by_one,
    struck_and_surviving,
    any_votes,
    accusers,
    colluders,
    above_the_field,
    absent_garbage,
    nobody_left,
    known_kinds,
    a_few_words,
    noise,
    lengths,
];

/// Every kind of opening once.
pub fn all(round: &mut Round) {
    for kind in KINDS {
        kind(round);
    }
    extreme(round);
}

/// The round's own t, with the round's d, so that all of both come up.
fn extreme(round: &mut Round) {
    let (t, d) = (round.t, round.d);
    let station = Station::deal(round, t, d, Keys::Zero);
    let mut handed = station.hand_in(&mut round.random);
    handed.open(round, "honest, each size");
    handed.present = station.everybody();
    let errors = handed.surplus() / 2 + 1;
    let moved = round.random.choose(handed.present, errors);
    for i in members(moved) {
        handed.alter(&mut round.random, i, d - 1);
    }
    handed.open(round, "one too many in the last word");
}

fn honest(round: &mut Round) {
    let station = Station::some(round);
    let mut handed = station.hand_in(&mut round.random);
    met_quorum(&mut round.random, &mut handed);
    handed.open(round, "honest");
}

/// Sometimes asks for a quorum that the usable members meet.
fn met_quorum(random: &mut Random, handed: &mut Handed) {
    let usable = handed.usable().count_ones() as usize;
    let t = handed.station.t;
    if usable > t && random.once_in(3) {
        handed.quorum = random.within(t + 1, usable) as u16;
    }
}

/// Quorums at and around t + 1, n and the count of usable members.
fn quorums(round: &mut Round) {
    let station = Station::some(round);
    let mut handed = station.hand_in(&mut round.random);
    if round.random.coin() {
        handed.present = round.random.part(station.everybody());
    }
    if round.random.once_in(3) {
        one_above(&mut round.random, &mut handed);
    }
    let usable = handed.usable().count_ones() as u16;
    let (low, n) = (station.t as u16 + 1, station.layout.n as u16);
    let tried = [0, 1, low - 1, low, low + 1, n - 1, n, n + 1, u16::MAX];
    let near = [usable.saturating_sub(1), usable, usable + 1];
    for quorum in tried.into_iter().chain(near) {
        handed.quorum = quorum;
        let number = handed.open(round, "quorums").number;
        if quorum >= low && quorum == usable && number == 0 {
            round.ledger.note("open: quorum just met");
        }
        if quorum > low && quorum == usable + 1 && number == 14 {
            round.ledger.note("open: quorum missed by one");
        }
        if quorum == 0 && usable == low + 1 && number == 0 {
            round.ledger.note("open: quorum 0 just met");
        }
        if quorum == 0 && usable == low && number == 14 {
            round.ledger.note("open: quorum 0 missed by one");
        }
    }
}

/// Puts a word above 65520 anywhere in a present member's share.
fn one_above(random: &mut Random, handed: &mut Handed) {
    let present = members(handed.present);
    if present.is_empty() {
        return;
    }
    let i = random.pick(&present);
    raise(random, handed, i);
}

/// Puts a word above 65520 anywhere in member `i`'s share.
fn raise(random: &mut Random, handed: &mut Handed, i: usize) {
    let layout = handed.layout();
    let place = layout.word(i, random.below(layout.width()));
    handed.shares[place] = random.above();
}

/// Altered survivors around half the surplus, in some or all words.
fn bounded_errors(round: &mut Round) {
    let station = Station::some(round);
    let mut handed = station.hand_in(&mut round.random);
    let half = handed.surplus() / 2;
    let count = round.random.pick(&[half, half, half + 1, half.max(1) - 1]);
    let moved = round.random.choose(handed.present, count);
    let d = station.layout.d;
    let style = round.random.below(4);
    for i in members(moved) {
        let single = round.random.below(d);
        for k in 0..d {
            let chosen = match style {
                0 => true,
                1 => k == single,
                2 => k == d - 1,
                _ => k == single || round.random.coin(),
            };
            if chosen {
                handed.alter(&mut round.random, i, k);
            }
        }
    }
    let everybody = station.everybody();
    handed.forge(moved, everybody);
    met_quorum(&mut round.random, &mut handed);
    handed.open(round, "errors around half the surplus");
}

/// Adds to word `k` of the movers a polynomial that is 0 at the members kept.
pub fn shift(random: &mut Random, handed: &mut Handed, k: usize, kept: u32, movers: u32) {
    let scale = random.within(1, 65520) as u32;
    for i in members(movers) {
        let factors = members(kept).into_iter().map(|j| sub(i as u32, j as u32));
        let added = factors.fold(scale, mul);
        let place = handed.layout().word(i, k);
        handed.shares[place] = add(handed.shares[place] as u32, added) as u16;
    }
}

/// Altered members on a second polynomial through up to t honest points, just enough or one short.
fn other_polynomial(round: &mut Round) {
    let station = Station::some(round);
    let mut handed = station.hand_in(&mut round.random);
    let s = handed.present.count_ones() as usize;
    let t = station.t;
    let kept_count = if round.random.coin() {
        t
    } else {
        round.random.within(0, t)
    };
    let short = round.random.below(2);
    let movers_count = (need(t, s) - kept_count - short).min(s - kept_count);
    let kept = round.random.choose(handed.present, kept_count);
    let movers = round.random.choose(handed.present & !kept, movers_count);
    let style = round.random.below(3);
    let single = round.random.below(station.layout.d);
    for k in 0..station.layout.d {
        let others = handed.present & !movers;
        let kept = match style {
            2 => round.random.choose(others, kept_count),
            _ => kept,
        };
        if style != 1 || k == single {
            shift(&mut round.random, &mut handed, k, kept, movers);
        }
    }
    let everybody = station.everybody();
    handed.forge(movers, everybody);
    met_quorum(&mut round.random, &mut handed);
    handed.open(round, "a second polynomial");
}

/// Different members altered in different words, each word alone within half the surplus.
fn scattered(round: &mut Round) {
    let t = round.some_t().max(2);
    let d = round.some_d().max(2);
    let station = Station::deal(round, t, d, Keys::Random);
    let mut handed = station.hand_in(&mut round.random);
    let half = handed.surplus() / 2;
    let pool = match round.random.below(3) {
        0 => round.random.choose(handed.present, half),
        1 => round.random.choose(handed.present, half + 1),
        _ => handed.present,
    };
    let mut moved = 0;
    for k in 0..d {
        let count = round.random.within(0, half);
        let here = round.random.choose(pool, count);
        for i in members(here) {
            handed.alter(&mut round.random, i, k);
        }
        moved |= here;
    }
    handed.forge(moved, station.everybody());
    let answer = handed.open(round, "scattered alterations");
    if answer.number == 16 && each_word_decodes(&handed, answer.survivors) {
        round.ledger.note("open: 16 though each word alone decodes");
    }
}

/// Each word takes one more member out of those who agree, up to half the surplus or one more.
fn one_by_one(round: &mut Round) {
    let t = round.some_t().max(2);
    let d = round.some_d().max(t);
    let station = Station::deal(round, t, d, Keys::Blind);
    let mut handed = station.hand_in(&mut round.random);
    let count = handed.surplus() / 2 + round.random.below(2);
    let moved = round.random.choose(handed.present, count);
    let mut places: Vec<usize> = (0..d).collect();
    if round.random.coin() {
        round.random.shuffle(&mut places);
    }
    for (i, k) in members(moved).into_iter().zip(places) {
        handed.alter(&mut round.random, i, k);
    }
    let number = handed.open(round, "one member a word").number;
    if count > 1 {
        round.ledger.note(match number {
            0 => "open: one altered member a word, opened",
            _ => "open: one altered member a word, 16",
        });
    }
}

/// Some altered members fail the votes, the others survive around half of what is left over.
fn struck_and_surviving(round: &mut Round) {
    let t = round.some_t().max(2);
    let d = round.some_d();
    let station = Station::deal(round, t, d, Keys::Random);
    let mut handed = station.hand_in(&mut round.random);
    let struck_count = round.random.within(0, handed.surplus());
    let struck = round.random.choose(handed.present, struck_count);
    let half = (handed.surplus() - struck_count) / 2;
    let moved_count = half + round.random.below(2);
    let moved = round.random.choose(handed.present & !struck, moved_count);
    for i in members(struck | moved) {
        let k = round.random.below(d);
        handed.alter(&mut round.random, i, k);
    }
    handed.forge(moved, station.everybody());
    for i in members(struck) {
        let votes = round.random.within(0, t);
        let friends = round.random.choose(station.everybody(), votes);
        handed.forge(1 << (i - 1), friends);
        for j in members(station.everybody() & !friends) {
            handed.spoil(&mut round.random, i, j);
        }
    }
    let answer = handed.open(round, "some struck, some surviving");
    if answer.number == 0 && struck != 0 && moved != 0 {
        round
            .ledger
            .note("open: altered ones struck, altered ones survive, opened");
    }
}

fn each_word_decodes(handed: &Handed, survivors: u32) -> bool {
    (0..handed.layout().d).all(|k| {
        let points = points(handed.layout(), survivors, &handed.shares, k);
        polynomial_through(handed.station.t, &points, Way::Elimination).is_some()
    })
}

/// Any vote matrix, made by forged and spoilt tags.
fn any_votes(round: &mut Round) {
    let station = Station::some(round);
    let mut handed = station.hand_in(&mut round.random);
    let rows = super::pruning::some_rows(&mut round.random, station.t);
    if round.random.coin() {
        let count = round.random.within(0, station.t);
        for i in members(round.random.choose(station.everybody(), count)) {
            handed.alter(&mut round.random, i, 0);
        }
    }
    for i in 1..=station.layout.n {
        for j in 1..=station.layout.n {
            if holds(rows[i - 1], j) {
                handed.forge(1 << (i - 1), 1 << (j - 1));
            } else {
                handed.spoil(&mut round.random, i, j);
            }
        }
    }
    handed.open(round, "any votes");
}

/// Members that change the keys they judge others by; altered ones forge tags for some judges.
fn accusers(round: &mut Round) {
    let station = Station::deal_some(round, Keys::Random);
    let mut handed = station.hand_in(&mut round.random);
    let layout = station.layout;
    let most = handed.surplus();
    let count = round.random.within(0, most);
    let bad = round.random.choose(handed.present, count);
    for i in members(bad) {
        for j in 1..=layout.n {
            if round.random.coin() {
                let place = layout.key(i, j) + round.random.below(2);
                handed.shares[place] = round.random.other(handed.shares[place]);
            }
        }
        let k = round.random.below(layout.d);
        handed.alter(&mut round.random, i, k);
        let votes = round.random.pick(&[station.t, station.t + 1, layout.n]);
        let judges = round.random.choose(station.everybody(), votes);
        handed.forge(1 << (i - 1), judges);
    }
    handed.open(round, "accusers");
}

/// A group with shares of its own making: mutual keys and tags fit, and some tags fit outsiders.
fn colluders(round: &mut Round) {
    let station = Station::deal_some(round, Keys::Random);
    let mut handed = station.hand_in(&mut round.random);
    let layout = station.layout;
    let present = handed.present.count_ones() as usize;
    let count = round
        .random
        .pick(&[station.t, station.t + 1, present / 2, present]);
    let group = round.random.choose(handed.present, count);
    let outsiders = handed.present & !group;
    let polynomials: Vec<Vec<u16>> = (0..layout.d)
        .map(|_| round.random.fields(station.t + 1))
        .collect();
    let own = round.random.coin();
    for i in members(group) {
        replace_share(
            &mut round.random,
            &mut handed,
            i,
            own.then_some(&polynomials),
        );
    }
    handed.forge(group, group);
    if round.random.coin() {
        let fooled = round.random.part(outsiders);
        handed.forge(group, fooled);
    }
    let answer = handed.open(round, "colluders");
    if answer.survivors != 0 && answer.survivors & !group == 0 {
        round.ledger.note("open: only colluders survive");
    }
    if answer.number == 0 && answer.survivors & group == 0 {
        round.ledger.note("open: all colluders struck");
    }
}

/// Random words in the whole share; share words on the given polynomials, if any.
fn replace_share(
    random: &mut Random,
    handed: &mut Handed,
    i: usize,
    polynomials: Option<&Vec<Vec<u16>>>,
) {
    let layout = handed.layout();
    let fresh = random.fields(layout.width());
    handed.shares[layout.word(i, 0)..layout.word(i + 1, 0)].copy_from_slice(&fresh);
    for (k, polynomial) in polynomials.into_iter().flatten().enumerate() {
        let wide: Vec<u32> = polynomial.iter().map(|c| *c as u32).collect();
        let value = crate::reference::polynomial::value(&wide, i as u32);
        handed.shares[layout.word(i, k)] = value as u16;
    }
}

/// Words above 65520 in share words, tags or keys, also those for absent members.
fn above_the_field(round: &mut Round) {
    let station = Station::some(round);
    let mut handed = station.hand_in(&mut round.random);
    let layout = station.layout;
    let most = handed.present.count_ones() as usize;
    let count = round.random.within(1, most);
    for i in members(round.random.choose(handed.present, count)) {
        let j = round.random.within(1, layout.n);
        let place = match round.random.below(4) {
            0 => layout.word(i, round.random.below(layout.d)),
            1 => layout.tag(i, j),
            2 => layout.key(i, j),
            _ => layout.key(i, j) + 1,
        };
        handed.shares[place] = match round.random.below(3) {
            0 => (handed.shares[place] as u32 + 65521).min(65535) as u16,
            _ => round.random.above(),
        };
        let aside = place >= layout.tag(i, 1) && !holds(handed.present, j);
        if aside && handed.usable().count_ones() as usize > station.t {
            round.ledger.note("open: above 65520 for an absent member");
        }
    }
    handed.open(round, "words above 65520");
}

/// Anything at all in the places of absent members.
fn absent_garbage(round: &mut Round) {
    let station = Station::some(round);
    let mut handed = station.hand_in(&mut round.random);
    let layout = station.layout;
    if round.random.coin() {
        handed.present = round.random.part(station.everybody());
    }
    let style = round.random.below(3);
    for i in members(station.everybody() & !handed.present) {
        let fresh = match style {
            0 => vec![0; layout.width()],
            1 => vec![u16::MAX; layout.width()],
            _ => round.random.words(layout.width()),
        };
        handed.shares[layout.word(i, 0)..layout.word(i + 1, 0)].copy_from_slice(&fresh);
    }
    let answer = handed.open(round, "garbage for absent members");
    if answer.number == 0 && handed.present != station.everybody() {
        let names = ["zeros", "65535", "any words"];
        let outcome = format!("open: opened, {} for absent members", names[style]);
        round.ledger.note(outcome);
    }
}

/// Just t + 1 members, one vote short somewhere: nobody survives.
fn nobody_left(round: &mut Round) {
    let station = Station::some(round);
    let mut handed = station.hand_in(&mut round.random);
    handed.present = round.random.choose(station.everybody(), station.t + 1);
    handed.quorum = station.t as u16 + 1;
    let present = members(handed.present);
    let (i, j) = (round.random.pick(&present), round.random.pick(&present));
    handed.spoil(&mut round.random, i, j);
    handed.open(round, "one vote short");
}

/// Votes whose kinds are known beforehand: altered members forge all their tags, then some votes
/// are spoilt one by one, and then some members get a word above 65520.
fn known_kinds(round: &mut Round) {
    let kind = "kinds known beforehand";
    let station = Station::some(round);
    let mut handed = station.hand_in(&mut round.random);
    let count = round.random.within(0, handed.surplus() / 2 + 1);
    let moved = round.random.choose(handed.present, count);
    for i in members(moved) {
        handed.alter(&mut round.random, i, 0);
    }
    handed.forge(moved, station.everybody());
    let spoilt = some_pairs(&mut round.random, station.layout.n);
    for (i, j) in &spoilt {
        spoil_either(&mut round.random, &mut handed, *i, *j);
    }
    let any = round.random.within(0, handed.present.count_ones() as usize);
    let count = round.random.pick(&[0, 1, any]);
    let unusable = round.random.choose(handed.present, count);
    for i in members(unusable) {
        raise(&mut round.random, &mut handed, i);
    }
    let usable = handed.present & !unusable;
    near_quorum(&mut round.random, &mut handed, usable);
    let call = handed.call(&mut round.random);
    let answer = handed.open(round, kind);
    let read = |(i, j): &&(usize, usize)| holds(usable, *i) && holds(usable, *j);
    let mismatched = spoilt.iter().filter(read).count();
    let right = answer.pairs == kinds(station.layout.n, usable, mismatched);
    let what = "not the votes that were made";
    round.ledger.demand(right, kind, &call, what, &answer);
    let own = spoilt.iter().all(|(i, j)| i == j);
    if answer.number == 0 && answer.pairs.mismatched > 0 && own {
        round
            .ledger
            .note("open: opened, members mismatched by themselves alone");
    }
}

/// Some pairs (i, i) alone, a few pairs, or about half of all.
fn some_pairs(random: &mut Random, n: usize) -> Vec<(usize, usize)> {
    let style = random.below(3);
    let all = (1..=n).flat_map(|i| (1..=n).map(move |j| (i, j)));
    let chosen = |(i, j): &(usize, usize)| match style {
        0 => i == j && random.coin(),
        1 => random.once_in(n),
        _ => random.coin(),
    };
    all.filter(chosen).collect()
}

/// Makes tag(i, j) fail, by itself or by the key that judges it, and no other tag.
fn spoil_either(random: &mut Random, handed: &mut Handed, i: usize, j: usize) {
    if random.coin() {
        handed.spoil(random, i, j);
    } else {
        let beta = handed.layout().key(j, i) + 1;
        handed.shares[beta] = random.other(handed.shares[beta]);
    }
}

/// A quorum that is allowed: 0, the least, or one that is just met or missed by one.
pub fn near_quorum(random: &mut Random, handed: &mut Handed, usable: u32) {
    let (low, n) = (handed.station.t as u16 + 1, handed.layout().n as u16);
    let count = usable.count_ones() as u16;
    let near = [count, count + 1].map(|quorum| quorum.clamp(low, n));
    handed.quorum = random.pick(&[0, low, near[0], near[1]]);
}

/// How many votes there are of each kind if so many between the usable members fail.
pub fn kinds(n: usize, usable: u32, mismatched: usize) -> Pairs {
    let both = (usable.count_ones() as usize).pow(2);
    Pairs {
        accepted: (both - mismatched) as u16,
        mismatched: mismatched as u16,
        unread: (n * n - both) as u16,
    }
}

/// A few words changed anywhere, to anything.
fn a_few_words(round: &mut Round) {
    let station = Station::some(round);
    let mut handed = station.hand_in(&mut round.random);
    for _ in 0..round.random.within(1, 6) {
        let place = round.random.below(handed.shares.len());
        handed.shares[place] = match round.random.below(4) {
            0 => round.random.word(),
            1 => 0,
            _ => round.random.field(),
        };
    }
    handed.open(round, "a few words changed");
}

/// Shares of random words, or all of one word.
fn noise(round: &mut Round) {
    let station = Station::some(round);
    let mut handed = station.hand_in(&mut round.random);
    let one = round.random.field();
    let style = round.random.below(3);
    for word in handed.shares.iter_mut() {
        *word = match style {
            0 => round.random.field(),
            1 => one,
            _ => round.random.word() % 2,
        };
    }
    handed.open(round, "noise");
}

/// Buffers of any length, and any t.
fn lengths(round: &mut Round) {
    for _ in 0..6 {
        let t = round.some_t();
        let n = 2 * t + 1;
        let d = round.some_d();
        let d = round.length(n, d);
        let shares = round.length(n, Layout::new(t, d).total());
        let given = if round.random.once_in(4) {
            round.bad_t()
        } else {
            t
        };
        let stray = if round.random.coin() {
            0
        } else {
            round.random.mask()
        };
        let call = Open {
            t: given,
            day: round.some_day(),
            present: everybody(n) ^ stray,
            quorum: round.random.pick(&[0, 0, t as u16 + 1, n as u16, 65535]),
            shares: round.random.fields(shares),
            secret: round.random.words(d),
            survivors: round.random.mask(),
            agreeing: round.random.mask(),
            pairs: round.random.three(),
        };
        round.ledger.compare("opening with any lengths", &call);
    }
}
