//! Openings around the quick look at all n members: words that pass it, words that fail it, at which
//! place and power, and hand-ins with a member gone, where it must not be used. What comes out is
//! known beforehand.

use super::Round;
use super::opening::{kinds, shift};
use super::program::try_hand_in;
use super::station::{Handed, Keys, Station};
use crate::calls::{Opened, Text, Weights};
use crate::random::Random;
use crate::reference::field::{add, inverse, mul};
use crate::reference::look::{first_to_fail, sums, weights};
use crate::reference::polynomial::{interpolate, value};
use crate::reference::sharing::points;
use crate::reference::{members, need};

/// How a member goes.
pub const GONE: [&str; 3] = ["absent", "unusable", "struck"];
/// One in so many of the hand-ins may go to the program `opening` as text too.
const HAND_INS: usize = 4;
/// One in so many rounds runs the program `weights`.
const ROUNDS: u64 = 16;

pub fn all(round: &mut Round) {
    let (t, d, turn) = (round.t, round.d, turn(round));
    let station = deal(round, t, d);
    nobody_off(round, &station);
    some_off(round, &station);
    match turn % 3 {
        0 => other_polynomials(round, &station),
        1 => one_too_high(round, &station),
        _ => one_gone(round, &station, turn / 3 % GONE.len()),
    }
    let station = deal(round, t, 3);
    one_off(round, &station);
    let d = round.random.within(1, 3);
    let station = deal(round, t, d);
    some_off(round, &station);
    other_polynomials(round, &station);
    one_too_high(round, &station);
    higher_degrees(round, &station);
    one_sum(round, &station);
    for way in 0..GONE.len() {
        one_gone(round, &station, way);
    }
    if round.ledger.seed.is_multiple_of(ROUNDS) {
        printed(round);
    }
}

/// How often the round's t was there before. What comes in turn needs 16 turns, 240 rounds.
fn turn(round: &Round) -> usize {
    (round.ledger.seed / 15) as usize
}

fn deal(round: &mut Round, t: usize, d: usize) -> Station {
    let keys = round.random.pick(&[Keys::Random, Keys::Zero, Keys::Blind]);
    Station::deal(round, t, d, keys)
}

/// What the program `weights` prints, with nothing to read or with something.
fn printed(round: &mut Round) {
    let count = round.random.pick(&[0, 1, 40001]);
    let call = Weights {
        text: Text(round.random.bytes(count)),
    };
    round.ledger.compare("weights", &call);
    round.ledger.note("weights: printed");
}

/// What all members hand in. Each word has its polynomial of degree at most t, and some members may
/// be off it.
struct Plan<'a> {
    handed: Handed<'a>,
    /// The polynomials at 0.
    secret: Vec<u16>,
    /// Who is off, for each word. It is everybody where no polynomial has enough members on it.
    off: Vec<u32>,
}

impl<'a> Plan<'a> {
    /// The shares as dealt, with some quorum.
    fn new(random: &mut Random, station: &'a Station) -> Plan<'a> {
        let mut handed = station.hand_in(random);
        handed.present = station.everybody();
        let (least, n) = (station.t as u16 + 1, station.layout.n as u16);
        handed.quorum = random.pick(&[0, least, n]);
        Plan {
            handed,
            secret: station.secret.clone(),
            off: vec![0; station.layout.d],
        }
    }

    /// The same with some words on other polynomials than the dealt ones.
    fn replanted(random: &mut Random, station: &'a Station) -> Plan<'a> {
        let mut plan = Plan::new(random, station);
        let some = random.coin();
        for k in 0..station.layout.d {
            if some && random.once_in(3) {
                let degree = random.within(0, station.t);
                plan.plant(k, &of_degree(random, degree));
            }
        }
        plan
    }

    fn everybody(&self) -> u32 {
        self.handed.station.everybody()
    }

    /// How many have to be on all polynomials.
    fn need(&self) -> usize {
        need(self.handed.station.t, self.handed.layout().n)
    }

    /// Puts word `k` of all members on this polynomial.
    fn plant(&mut self, k: usize, coefficients: &[u32]) {
        let layout = self.handed.layout();
        for i in 1..=layout.n {
            self.handed.shares[layout.word(i, k)] = value(coefficients, i as u32) as u16;
        }
        self.secret[k] = coefficients[0] as u16;
    }

    /// Takes members off word `k`'s polynomial so that no other one has enough members on it. Any
    /// values do if there are so few of them that they and t more are not enough.
    fn take_off(&mut self, random: &mut Random, k: usize, set: u32) {
        let few = self.handed.station.t + (set.count_ones() as usize) < self.need();
        if few && random.coin() {
            for i in members(set) {
                self.handed.alter(random, i, k);
            }
            self.off[k] = set;
        } else {
            self.raise(random, k, set);
        }
    }

    /// Takes them off by adding a polynomial that is 0 at the others. The sum is of degree n less
    /// the members off, which is above t, so it meets none of degree at most t in more points.
    fn raise(&mut self, random: &mut Random, k: usize, set: u32) {
        let others = self.everybody() & !set;
        shift(random, &mut self.handed, k, others, set);
        self.off[k] = set;
    }

    /// Makes the sum of power `m` the only one of word `k` that is not 0, by adding to the words of
    /// t members. For each of these take the polynomial that is 1 at it and 0 at the others of
    /// them, and its coefficient of power m: times the numbers to a power below t, these
    /// coefficients have the sum 1 if the power is m, and 0 otherwise.
    fn spoil_sum(&mut self, random: &mut Random, k: usize, m: usize) {
        let (t, layout) = (self.handed.station.t, self.handed.layout());
        let set = members(random.choose(self.everybody(), t));
        let points: Vec<u32> = set.iter().map(|i| *i as u32).collect();
        let scale = random.within(1, 65520) as u32;
        for i in &set {
            let own: Vec<u32> = set.iter().map(|j| (i == j) as u32).collect();
            let term = mul(scale, interpolate(&points, &own)[m]);
            let added = mul(term, inverse(weights(layout.n)[i - 1]));
            let place = layout.word(*i, k);
            self.handed.shares[place] = add(self.handed.shares[place] as u32, added) as u16;
        }
        self.off[k] = self.everybody();
    }

    /// The first word with a member off.
    fn first(&self) -> Option<usize> {
        self.off.iter().position(|off| *off != 0)
    }

    /// Makes all tags pass. Where all alphas are 0 they do.
    fn forge(&mut self) {
        let (station, everybody) = (self.handed.station, self.everybody());
        let keys = &station.random[station.t * station.layout.d..];
        if keys.iter().step_by(2).any(|alpha| *alpha != 0) {
            let moved = self.handed.altered(everybody);
            self.handed.forge(moved, everybody);
        }
    }

    /// The answer: all survive, and those agree that are on every polynomial.
    fn wanted(&self) -> Opened {
        let everybody = self.everybody();
        let agreeing = self.off.iter().fold(everybody, |on, off| on & !off);
        let pairs = kinds(self.handed.layout().n, everybody, 0);
        match agreeing.count_ones() as usize >= self.need() {
            true => Opened {
                number: 0,
                secret: self.secret.clone(),
                survivors: everybody,
                agreeing,
                pairs,
            },
            false => Opened {
                survivors: everybody,
                ..self.handed.refused(16, pairs)
            },
        }
    }

    /// Opens, demands that answer, and that the look fails at the word where it should.
    fn expect(&mut self, round: &mut Round, kind: &str) {
        self.forge();
        let (first, wanted) = (self.first(), self.wanted());
        expect(round, kind, &self.handed, &wanted, first);
        self.note(round, wanted.number);
    }

    fn note(&self, round: &mut Round, number: u16) {
        let (t, d) = (self.handed.station.t, self.handed.layout().d);
        let ledger = &mut *round.ledger;
        let Some(k) = self.first() else {
            ledger.note("look: all words pass");
            ledger.note(format!("look: all words pass, t = {t}"));
            ledger.note(format!("look: all words pass, d = {d}"));
            return;
        };
        let place = match k {
            0 => "the first",
            _ if k + 1 == d => "the last",
            _ => "a middle",
        };
        let end = end(number);
        ledger.note(format!("look: fails at {place} word, {end}"));
        ledger.note(format!("look: fails, {end}, t = {t}"));
        ledger.note(format!("look: fails, d = {d}"));
        if let Some(m) = self.powers(k).first() {
            ledger.note(format!("look: fails at power {m} first"));
        }
    }

    /// The powers whose sums are not 0 for word `k`.
    fn powers(&self, k: usize) -> Vec<usize> {
        let everybody = self.everybody();
        let points = points(self.handed.layout(), everybody, &self.handed.shares, k);
        let values: Vec<u32> = points.iter().map(|point| point.1).collect();
        let sums = sums(&values);
        (0..sums.len()).filter(|m| sums[*m] != 0).collect()
    }

    /// Demands something about the sums, which are no part of the answer.
    fn demand(&self, round: &mut Round, holds: bool, what: &str) {
        let call = self.handed.call(&mut round.random);
        let wanted = self.wanted();
        round.ledger.demand(holds, "the sums", &call, what, &wanted);
    }
}

/// How an opening ended, as the outcomes have it.
fn end(number: u16) -> &'static str {
    match number {
        0 => "opened",
        _ => "16",
    }
}

/// Opens, demands that answer, and that the first word to fail the look is that one.
fn expect(round: &mut Round, kind: &str, handed: &Handed, wanted: &Opened, first: Option<usize>) {
    let answer = handed.open_by_calls(round, kind);
    handed.demand(round, kind, wanted, &answer);
    let there = first_to_fail(handed.layout(), &handed.shares) == first;
    let call = handed.call(&mut round.random);
    let what = format!("{first:?} is the first word to fail the look");
    round.ledger.demand(there, kind, &call, &what, wanted);
    if round.random.once_in(HAND_INS) {
        try_hand_in(round, kind, handed);
    }
}

/// A polynomial of degree exactly that; of degree 0 it may be 0.
fn of_degree(random: &mut Random, degree: usize) -> Vec<u32> {
    let words = random.fields(degree + 1);
    let mut coefficients: Vec<u32> = words.into_iter().map(u32::from).collect();
    if degree > 0 {
        coefficients[degree] = random.within(1, 65520) as u32;
    }
    coefficients
}

/// All as dealt.
fn nobody_off(round: &mut Round, station: &Station) {
    let mut plan = Plan::new(&mut round.random, station);
    plan.expect(round, "all on the dealt polynomials");
}

/// Two members in turn, each off alone: in the first, the middle, the last and all of three words;
/// and where all words of all members are 0 but one of its own.
fn one_off(round: &mut Round, station: &Station) {
    let n = station.layout.n;
    for i in [0, 1].map(|next| (2 * turn(round) + next) % n + 1) {
        for words in [vec![0], vec![1], vec![2], vec![0, 1, 2]] {
            let mut plan = Plan::replanted(&mut round.random, station);
            for k in words {
                plan.take_off(&mut round.random, k, 1 << (i - 1));
            }
            plan.expect(round, "one member off");
        }
        let mut plan = Plan::new(&mut round.random, station);
        for k in 0..station.layout.d {
            plan.plant(k, &[0]);
        }
        plan.take_off(&mut round.random, 0, 1 << (i - 1));
        plan.expect(round, "one member off");
        let outcome = format!("look: member {i} of {n} off alone");
        round.ledger.note(outcome);
        let outcome = format!("look: member {i} of {n} alone not 0");
        round.ledger.note(outcome);
    }
}

/// Half the surplus off, or one more: in one word, or in words of their own.
fn some_off(round: &mut Round, station: &Station) {
    let (half, d) = (station.t / 2, station.layout.d);
    for count in [half.max(1), half + 1] {
        let mut plan = Plan::replanted(&mut round.random, station);
        let set = round.random.choose(station.everybody(), count);
        let middle = round.random.below(d);
        let first = round.random.pick(&[0, middle, d - 1]);
        let mut off = vec![0; d];
        if round.random.coin() {
            off[first] = set;
        } else {
            for i in members(set) {
                off[round.random.within(first, d - 1)] |= 1 << (i - 1);
            }
        }
        let words: Vec<usize> = (0..d).filter(|k| off[*k] != 0).collect();
        for k in &words {
            plan.take_off(&mut round.random, *k, off[*k]);
        }
        plan.expect(round, "some members off");
        let end = end(plan.wanted().number);
        let outcome = match words.len() {
            1 if count > 1 => format!("look: some off in the same word, {end}"),
            2.. => format!("look: some off in words of their own, {end}"),
            _ => continue,
        };
        round.ledger.note(outcome);
    }
}

/// All words on polynomials of degree at most t other than the dealt ones; now and then all words
/// of all members are the same.
fn other_polynomials(round: &mut Round, station: &Station) {
    let mut plan = Plan::new(&mut round.random, station);
    let same = round.random.once_in(4);
    let word = round.random.pick(&[0, 1, 65520]);
    for k in 0..station.layout.d {
        let any = round.random.within(0, station.t);
        let degree = round.random.pick(&[any, station.t]);
        let coefficients = match same {
            true => vec![word],
            false => of_degree(&mut round.random, degree),
        };
        plan.plant(k, &coefficients);
    }
    plan.expect(round, "all on other polynomials");
    let outcome = format!("look: all on other polynomials, t = {}", station.t);
    round.ledger.note(outcome);
}

/// One word of degree t + 1 at all points, the words before and after it as dealt.
fn one_too_high(round: &mut Round, station: &Station) {
    let plan = Plan::new(&mut round.random, station);
    let k = round.random.below(station.layout.d);
    too_high(round, plan, k, 1);
    if k > 0 {
        let outcome = "look: degree t + 1 after a word as dealt";
        round.ledger.note(outcome);
    }
}

/// One word of each degree from t + 1 to n - 1 at all points: any such polynomial, or one that meets
/// the dealt one at as many members as its degree.
fn higher_degrees(round: &mut Round, station: &Station) {
    let t = station.t;
    for above in 1..=t {
        let mut plan = Plan::new(&mut round.random, station);
        let k = round.random.below(station.layout.d);
        if round.random.coin() {
            let set = round.random.choose(station.everybody(), t + 1 - above);
            plan.raise(&mut round.random, k, set);
            plan.expect(round, "a higher degree, the most on one of degree t");
            check_power(round, &plan, k, above);
        } else {
            too_high(round, plan, k, above);
        }
    }
}

/// Word `k` of degree t + `above`. It meets those of degree at most t in at most as many points as
/// its degree, so if more are needed it is 16.
fn too_high(round: &mut Round, mut plan: Plan, k: usize, above: usize) {
    let kind = "a higher degree";
    let t = plan.handed.station.t;
    plan.plant(k, &of_degree(&mut round.random, t + above));
    plan.off[k] = plan.everybody();
    if t + above < plan.need() {
        plan.expect(round, kind);
    } else {
        plan.forge();
        plan.handed.open(round, kind);
    }
    check_power(round, &plan, k, above);
}

/// The sums of word `k`, of degree t + `above`, are 0 up to power t - `above` - 1.
fn check_power(round: &mut Round, plan: &Plan, k: usize, above: usize) {
    let t = plan.handed.station.t;
    let there = plan.powers(k).first() == Some(&(t - above));
    plan.demand(round, there, "another power is the first to fail");
    let ledger = &mut *round.ledger;
    ledger.note(format!("look: degree t + {above} at all points"));
    if above == 1 {
        ledger.note(format!("look: degree t + 1 at all points, t = {t}"));
    }
}

/// Two powers in turn, each the only one whose sum is not 0 in one word. If so many sums in a row
/// are 0, and not all, more members than that are off every polynomial of degree at most t. Those
/// below power m or those above it are at least half the surplus rounded down, so it is 16.
fn one_sum(round: &mut Round, station: &Station) {
    let t = station.t;
    for m in [0, 1].map(|next| (2 * turn(round) + next) % t) {
        let mut plan = Plan::new(&mut round.random, station);
        let k = round.random.below(station.layout.d);
        plan.spoil_sum(&mut round.random, k, m);
        plan.expect(round, "one sum is not 0");
        let alone = plan.powers(k) == [m];
        plan.demand(round, alone, "another sum is not 0");
        let outcome = format!("look: fails at power {m} alone, t = {t}");
        round.ledger.note(outcome);
    }
}

/// One member goes, or up to t of them, and the others survive and agree. The words of all n pass
/// the look, or only those of the others lie on polynomials.
fn one_gone(round: &mut Round, station: &Station, way: usize) {
    let (t, d, name) = (station.t, station.layout.d, GONE[way]);
    let mut plan = Plan::replanted(&mut round.random, station);
    let any = round.random.within(1, t);
    let count = round.random.pick(&[1, 1, any]);
    let gone = round.random.choose(station.everybody(), count);
    if round.random.once_in(4) {
        plan.take_off(&mut round.random, d - 1, gone);
    }
    plan.forge();
    let mut mismatched = 0;
    for i in members(gone) {
        mismatched += send_away(&mut round.random, &mut plan.handed, i, way);
    }
    let left = station.everybody() & !gone;
    let usable = plan.handed.usable();
    let (least, most) = (t as u16 + 1, usable.count_ones() as u16);
    let default = if most > least { 0 } else { least };
    plan.handed.quorum = round.random.pick(&[least, most, default]);
    let wanted = Opened {
        number: 0,
        secret: plan.secret.clone(),
        survivors: left,
        agreeing: left,
        pairs: kinds(station.layout.n, usable, mismatched),
    };
    let first = plan.first();
    expect(round, "not all survive", &plan.handed, &wanted, first);
    if first.is_some() {
        let outcome = format!("look: {name}, the words of all would fail");
        round.ledger.note(outcome);
        return;
    }
    let outcome = format!("look: {name}, the words of all would pass, t = {t}");
    round.ledger.note(outcome);
    if count == 1 {
        let outcome = format!("look: one {name}, the words of all would pass");
        round.ledger.note(outcome);
    }
}

/// Sees that member `i` does not survive, and leaves its share words. Gives the votes spoilt.
fn send_away(random: &mut Random, handed: &mut Handed, i: usize, way: usize) -> usize {
    let (layout, everybody) = (handed.layout(), handed.station.everybody());
    match GONE[way] {
        "absent" => {
            handed.present -= 1 << (i - 1);
            0
        }
        "unusable" => {
            let beside = random.within(layout.d, layout.width() - 1);
            handed.shares[layout.word(i, beside)] = random.above();
            0
        }
        _ => {
            let votes = random.within(0, handed.station.t);
            let friends = random.choose(everybody, votes);
            let judges = members(everybody & !friends);
            for j in &judges {
                handed.spoil(random, i, *j);
            }
            judges.len()
        }
    }
}
