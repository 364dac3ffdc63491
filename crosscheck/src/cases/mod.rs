//! The cases. A round is one seed's run of a fixed list of generators.

pub mod days;
pub mod dealing;
pub mod decoding;
pub mod look;
pub mod opening;
pub mod orders;
pub mod page;
pub mod program;
pub mod pruning;
pub mod reading;
pub mod secrecy;
pub mod station;
pub mod tags;
pub mod writing;

use crate::compare::Ledger;
use crate::random::Random;
use crate::reference::LARGEST;

/// What a generator works with: its own random numbers and the round's sizes.
pub struct Round<'a> {
    pub random: Random,
    pub ledger: &'a mut Ledger,
    /// The round's t, d and word that is no day; all of them come up in turn.
    pub t: usize,
    pub d: usize,
    pub no_day: u16,
}

/// The words that are no days.
pub fn no_days() -> Vec<u16> {
    let mut words = vec![0];
    words.extend(LARGEST + 1..=u16::MAX);
    words
}

/// The first and the last day.
pub const END_DAYS: [u16; 2] = [1, LARGEST];

type Generator = fn(&mut Round);

const GENERATORS: &[Generator] = &[
    dealing::all,
    opening::all,
    pruning::all,
    decoding::all,
    tags::all,
    reading::all,
    writing::all,
    orders::all,
    program::all,
    days::all,
    look::all,
    secrecy::all,
];

/// Runs all generators for one seed.
pub fn round(seed: u64, ledger: &mut Ledger) {
    ledger.seed = seed;
    let no_days = no_days();
    for (place, generator) in GENERATORS.iter().enumerate() {
        let mut random = Random::new(seed.wrapping_mul(64).wrapping_add(place as u64));
        random.draw();
        generator(&mut Round {
            random,
            ledger,
            t: 1 + (seed % 15) as usize,
            d: 1 + (seed % 64) as usize,
            no_day: no_days[(seed % no_days.len() as u64) as usize],
        });
    }
}

impl Round<'_> {
    /// A t: the round's, an end of the range, a small one or any.
    pub fn some_t(&mut self) -> usize {
        match self.random.below(6) {
            0 | 1 => self.t,
            2 => self.random.pick(&[1, 15]),
            3 | 4 => self.random.within(1, 5),
            _ => self.random.within(1, 15),
        }
    }

    /// A d: the round's, an end of the range, a small one or any.
    pub fn some_d(&mut self) -> usize {
        match self.random.below(8) {
            0 => self.d,
            1 => self.random.pick(&[1, 64]),
            2 => self.random.within(1, 64),
            _ => self.random.within(1, 6),
        }
    }

    /// Each end of the days, and the round's word that is no day, with the number that it meets.
    pub fn tried_days(&self, refusal: u16) -> [(u16, u16); 3] {
        let [first, last] = END_DAYS;
        [(first, 0), (last, 0), (self.no_day, refusal)]
    }

    /// A day, and now and then a word that is none.
    pub fn some_day(&mut self) -> u16 {
        match self.random.once_in(6) {
            true => self.random.no_day(),
            false => self.random.day(),
        }
    }

    /// A length worth trying where `exact` is right.
    pub fn length(&mut self, n: usize, exact: usize) -> usize {
        let tried = [
            0,
            1,
            n - 1,
            n,
            n + 1,
            63,
            64,
            65,
            4866,
            4867,
            4868,
            exact.saturating_sub(1),
            exact,
            exact,
            exact + 1,
        ];
        self.random.pick(&tried)
    }

    /// A t outside 1..15, also ones that are good when cut to fewer bits.
    pub fn bad_t(&mut self) -> usize {
        let good = self.random.within(1, 15);
        let shift = self.random.pick(&[4, 5, 8, 16, 31, 32, 48, 63]);
        self.random
            .pick(&[0, 16, 17, 31, 32, usize::MAX, good + (1 << shift)])
    }

    /// A d outside 1..64, also ones that are good when cut to fewer bits.
    pub fn bad_d(&mut self) -> usize {
        let good = self.random.within(1, 64);
        let shift = self.random.pick(&[7, 8, 16, 31, 32, 48, 63]);
        self.random
            .pick(&[0, 65, 66, 128, usize::MAX, good + (1 << shift)])
    }
}
