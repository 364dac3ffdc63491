//! The order of the refusals. For each two faults of a call: a good input gets the second fault,
//! and is refused for it; then it gets the first fault too, and is refused for that one.

use super::Round;
use crate::calls::{Call, Deal, Decode, Open, Prune, Text, Write};
use crate::random::Random;
use crate::reference::field::mul;
use crate::reference::sharing::{Layout, random_words};
use crate::reference::text::LONGEST_WRITTEN;
use crate::reference::{LARGEST, everybody};

/// A call's refusals in their order. Any two of them can stand together.
pub struct Order {
    pub call: &'static str,
    pub numbers: &'static [u16],
}

pub const DEAL: Order = Order {
    call: "deal",
    numbers: &[1, 2, 32, 3, 4, 5, 6],
};
pub const OPEN: Order = Order {
    call: "open",
    numbers: &[1, 2, 32, 11, 12, 13, 14, 15, 16],
};
pub const PRUNE: Order = Order {
    call: "prune",
    numbers: &[1, 10, 12],
};
pub const DECODE: Order = Order {
    call: "decode",
    numbers: &[1, 11, 19, 12, 17, 18, 16],
};
pub const WRITE: Order = Order {
    call: "write",
    numbers: &[1, 2, 32, 11, 12, 31],
};

impl Order {
    /// All pairs, each in order.
    pub fn pairs(&self) -> Vec<(u16, u16)> {
        let mut pairs = Vec::new();
        for (place, first) in self.numbers.iter().enumerate() {
            pairs.extend(
                self.numbers[place + 1..]
                    .iter()
                    .map(|second| (*first, *second)),
            );
        }
        pairs
    }

    /// The name of a pair's outcome.
    pub fn outcome(&self, pair: (u16, u16)) -> String {
        format!("{}: {} goes before {}", self.call, pair.0, pair.1)
    }
}

/// A call that the orders are tried on.
trait Faulty: Call {
    /// An input that is accepted.
    fn good(random: &mut Random) -> Self;
    /// Adds the fault. Any fault that the input has already comes later in the order, and stays.
    fn spoil(&mut self, random: &mut Random, fault: u16);
}

pub fn all(round: &mut Round) {
    each::<Deal>(round, &DEAL);
    each::<Open>(round, &OPEN);
    each::<Prune>(round, &PRUNE);
    each::<Decode>(round, &DECODE);
    each::<Write>(round, &WRITE);
}

/// No fault, every single fault and every pair.
fn each<C: Faulty>(round: &mut Round, order: &Order) {
    let good = C::good(&mut round.random);
    expect(round, &good, 0);
    for number in order.numbers {
        let mut call = C::good(&mut round.random);
        spoil_and_expect(round, &mut call, *number);
    }
    for pair in order.pairs() {
        let mut call = C::good(&mut round.random);
        let alone = spoil_and_expect(round, &mut call, pair.1);
        let before = spoil_and_expect(round, &mut call, pair.0);
        if alone && before {
            round.ledger.note(order.outcome(pair));
        }
    }
}

/// Adds the fault; true if the call is then refused for it.
fn spoil_and_expect<C: Faulty>(round: &mut Round, call: &mut C, fault: u16) -> bool {
    call.spoil(&mut round.random, fault);
    expect(round, call, fault)
}

fn expect<C: Call>(round: &mut Round, call: &C, number: u16) -> bool {
    let kind = "order of refusals";
    let answer = round.ledger.compare(kind, call);
    let right = C::number(&answer) == Some(number);
    let what = format!("{number} expected");
    round.ledger.demand(right, kind, call, &what, &answer);
    right
}

/// One more or one fewer.
fn change_length<T: Copy>(random: &mut Random, list: &mut Vec<T>, filler: T) {
    let length = match random.coin() {
        true => list.len() - 1,
        false => list.len() + 1,
    };
    list.resize(length, filler);
}

/// Puts a word above 65520 anywhere but in the last place, which may get lost.
fn raise(random: &mut Random, words: &mut [u16]) {
    let place = random.below(words.len() - 1);
    words[place] = random.above();
}

fn is_above(word: &u16) -> bool {
    *word > LARGEST
}

/// A bit beyond member n.
fn beyond(random: &mut Random, t: usize) -> u32 {
    let bit = random.within(2 * t + 1, 31);
    1 << random.pick(&[2 * t + 1, 31, bit])
}

/// A t outside 1..15. A member of the set that was beyond n still is.
fn bad_t(random: &mut Random, t: usize, set: u32) -> usize {
    match set & !everybody(2 * t + 1) {
        0 => random.pick(&[0, 16, 17]),
        _ => 0,
    }
}

/// No polynomial of degree t meets more than t + 1 of the values i to the power t + 1.
fn stray_value(t: usize, i: usize) -> u16 {
    (0..t + 1).fold(1, |power, _| mul(power, i as u32)) as u16
}

impl Faulty for Deal {
    fn good(random: &mut Random) -> Deal {
        let (t, d) = (random.within(1, 15), random.within(2, 5));
        Deal {
            t,
            day: random.day(),
            secret: random.fields(d),
            random: random.fields(random_words(t, d)),
            shares: random.words(Layout::new(t, d).total()),
        }
    }

    fn spoil(&mut self, random: &mut Random, fault: u16) {
        match fault {
            1 => self.t = bad_t(random, self.t, 0),
            2 => {
                let none = !self.secret.iter().any(is_above) && random.coin();
                let length = if none { 0 } else { random.within(65, 70) };
                self.secret.resize(length, 0);
            }
            32 => self.day = random.no_day(),
            3 => change_length(random, &mut self.random, 0),
            4 => change_length(random, &mut self.shares, 0),
            5 => raise(random, &mut self.secret),
            _ => raise(random, &mut self.random),
        }
    }
}

impl Open {
    /// A quorum that is neither 0 nor t + 1 to n; one that was not met still is not.
    fn bad_quorum(&self, random: &mut Random) -> u16 {
        let t = self.t as u16;
        let met = self.present.count_ones() as usize >= self.asked();
        let small = random.within(1, self.t) as u16;
        let large = random.pick(&[2 * t + 2, u16::MAX]);
        match met && random.coin() {
            true => random.pick(&[small, t]),
            false => large,
        }
    }

    /// Leaves fewer members present than asked for, often just one fewer.
    fn miss_quorum(&mut self, random: &mut Random) {
        let most = self.asked() - 1;
        let fewer = random.within(0, most);
        let count = random.pick(&[most, fewer]);
        self.present = random.choose(self.present, count);
    }
}

impl Faulty for Open {
    /// All words 0: dealt so for any day with keys and coefficients 0.
    fn good(random: &mut Random) -> Open {
        let (t, d) = (random.within(2, 15), random.within(1, 3));
        let layout = Layout::new(t, d);
        let quorum = random.within(t + 1, layout.n) as u16;
        Open {
            t,
            day: random.day(),
            present: everybody(layout.n),
            quorum: random.pick(&[0, quorum, layout.n as u16]),
            shares: vec![0; layout.total()],
            secret: random.words(d),
            survivors: random.mask(),
            agreeing: random.mask(),
            pairs: random.three(),
        }
    }

    fn spoil(&mut self, random: &mut Random, fault: u16) {
        let layout = Layout::new(self.t, self.secret.len());
        match fault {
            1 => self.t = bad_t(random, self.t, self.present),
            2 => self.secret.resize(random.pick(&[0, 65, 66]), 0),
            32 => self.day = random.no_day(),
            11 => change_length(random, &mut self.shares, 0),
            12 => self.present |= beyond(random, self.t),
            13 => self.quorum = self.bad_quorum(random),
            14 => self.miss_quorum(random),
            15 => {
                for i in 1..=layout.n {
                    self.shares[layout.tag(i, 1)..layout.key(i, 1)].fill(1);
                }
            }
            _ => {
                for i in 1..=layout.n {
                    self.shares[layout.word(i, layout.d - 1)] = stray_value(self.t, i);
                }
            }
        }
    }
}

impl Faulty for Prune {
    fn good(random: &mut Random) -> Prune {
        let t = random.within(1, 15);
        let n = 2 * t + 1;
        Prune {
            t,
            rows: (0..n).map(|_| random.mask() & everybody(n)).collect(),
            survivors: random.mask(),
        }
    }

    fn spoil(&mut self, random: &mut Random, fault: u16) {
        match fault {
            1 => {
                let all = self.rows.iter().fold(0, |set, row| set | row);
                self.t = bad_t(random, self.t, all);
            }
            10 => change_length(random, &mut self.rows, 0),
            _ => {
                let place = random.below(self.rows.len() - 1);
                self.rows[place] |= beyond(random, self.t);
            }
        }
    }
}

impl Decode {
    /// Leaves at most t members in the set; one whose value is above 65520 stays.
    fn too_few(&mut self, random: &mut Random) {
        let kept: u32 = match self.values.iter().position(is_above) {
            Some(place) => 1 << place,
            None => 0,
        };
        let others = random.within(0, self.t - kept.count_ones() as usize);
        self.set = kept | random.choose(self.set & !kept, others);
    }
}

impl Faulty for Decode {
    fn good(random: &mut Random) -> Decode {
        let t = random.within(1, 15);
        let n = 2 * t + 1;
        Decode {
            t,
            values: vec![random.field(); n],
            set: everybody(n),
            coefficients: random.words(t + 1),
        }
    }

    fn spoil(&mut self, random: &mut Random, fault: u16) {
        match fault {
            1 => self.t = bad_t(random, self.t, self.set),
            11 => change_length(random, &mut self.values, 0),
            19 => change_length(random, &mut self.coefficients, 0),
            12 => self.set |= beyond(random, self.t),
            17 => self.too_few(random),
            18 => raise(random, &mut self.values),
            _ => {
                self.values = (1..=2 * self.t + 1)
                    .map(|i| stray_value(self.t, i))
                    .collect()
            }
        }
    }
}

/// How many bytes the shortest text would have, for whatever t, d and day.
const SHORTEST: usize = 10;

impl Write {
    /// A buffer that was too short still is, whatever t, d and the day become.
    fn keep_short(&mut self, random: &mut Random) {
        if self.by_reference().number == 31 {
            self.text.0.truncate(random.below(SHORTEST));
        }
    }
}

impl Faulty for Write {
    fn good(random: &mut Random) -> Write {
        let (t, d) = (random.within(1, 15), random.within(1, 3));
        let layout = Layout::new(t, d);
        let mut call = Write {
            t,
            d,
            quorum: random.word(),
            day: random.day(),
            present: random.mask() & everybody(layout.n),
            shares: random.words(layout.total()),
            text: Text(random.bytes(LONGEST_WRITTEN)),
            count: random.draw() as usize,
        };
        if random.coin() {
            let length = call.by_reference().count;
            call.text.0.truncate(length);
        }
        call
    }

    fn spoil(&mut self, random: &mut Random, fault: u16) {
        match fault {
            1 => {
                self.keep_short(random);
                self.t = bad_t(random, self.t, self.present);
            }
            2 => {
                self.keep_short(random);
                self.d = random.pick(&[0, 65, 66]);
            }
            32 => {
                self.keep_short(random);
                self.day = random.no_day();
            }
            11 => change_length(random, &mut self.shares, 0),
            12 => self.present |= beyond(random, self.t),
            _ => {
                let length = self.by_reference().count;
                let any = random.below(length);
                self.text.0.truncate(random.pick(&[length - 1, any]));
            }
        }
    }
}
