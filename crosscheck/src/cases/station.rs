//! A dealt station, and what its members hand in: alterations and the check of the demands.

use super::{Round, program};
use crate::calls::{Deal, Open, Opened};
use crate::compare::Ledger;
use crate::random::Random;
use crate::reference::look::first_to_fail;
use crate::reference::sharing::{Layout, Pairs, random_words, same_share, usable};
use crate::reference::{everybody, members};

/// How the keys of a dealing are made.
#[derive(Clone, Copy, Debug, PartialEq, Eq)]
pub enum Keys {
    Random,
    Zero,
    /// Alpha 0 only: tags do not depend on the day or the words, any alteration passes.
    Blind,
}

/// A dealing.
pub struct Station {
    pub t: usize,
    pub day: u16,
    pub layout: Layout,
    pub secret: Vec<u16>,
    pub random: Vec<u16>,
    pub shares: Vec<u16>,
}

impl Station {
    /// Deals for some day.
    pub fn deal(round: &mut Round, t: usize, d: usize, keys: Keys) -> Station {
        let random = random_for(&mut round.random, t, d, keys);
        let day = round.random.day();
        Station::with(round, t, d, day, random)
    }

    /// Deals some secret with those random words.
    pub fn with(round: &mut Round, t: usize, d: usize, day: u16, random: Vec<u16>) -> Station {
        let secret = round.random.fields(d);
        Station::of(round, t, day, secret, random)
    }

    /// The same secret with the same random words, for that day.
    pub fn again(&self, round: &mut Round, day: u16) -> Station {
        let (secret, random) = (self.secret.clone(), self.random.clone());
        Station::of(round, self.t, day, secret, random)
    }

    /// Deals by both sides and keeps the answer.
    fn of(round: &mut Round, t: usize, day: u16, secret: Vec<u16>, random: Vec<u16>) -> Station {
        let layout = Layout::new(t, secret.len());
        let call = Deal {
            t,
            day,
            secret,
            random,
            shares: round.random.words(layout.total()),
        };
        let dealt = round.ledger.compare("dealing for an opening", &call);
        Station {
            t,
            day,
            layout,
            secret: call.secret,
            random: call.random,
            shares: dealt.shares,
        }
    }

    /// A station of some size and kind of keys.
    pub fn some(round: &mut Round) -> Station {
        let (t, d) = (round.some_t(), round.some_d());
        let keys = round
            .random
            .pick(&[Keys::Random, Keys::Random, Keys::Zero, Keys::Blind]);
        Station::deal(round, t, d, keys)
    }

    /// A station of some size with keys of the given kind.
    pub fn deal_some(round: &mut Round, keys: Keys) -> Station {
        let (t, d) = (round.some_t(), round.some_d());
        Station::deal(round, t, d, keys)
    }

    pub fn everybody(&self) -> u32 {
        everybody(self.layout.n)
    }

    /// The shares as dealt, handed in by some members for the dealing's day, at least t + 1 of
    /// them, with a quorum that they meet: t + 1, or 0 if there are more.
    pub fn hand_in(&self, random: &mut Random) -> Handed<'_> {
        let n = self.layout.n;
        let count = match random.below(4) {
            0 | 1 => n,
            2 => random.within(self.t + 1, n),
            _ => random.within(self.t + 1, (self.t + 3).min(n)),
        };
        let least = self.t + 1;
        let default = count > least && random.coin();
        Handed {
            station: self,
            day: self.day,
            shares: self.shares.clone(),
            present: random.choose(self.everybody(), count),
            quorum: if default { 0 } else { least as u16 },
        }
    }
}

/// Random words for a dealing with keys of that kind.
pub fn random_for(random: &mut Random, t: usize, d: usize, keys: Keys) -> Vec<u16> {
    let mut words = random.fields(random_words(t, d));
    if random.once_in(12) {
        words[..t * d].fill(0);
    }
    let key_words = words[t * d..].iter_mut().enumerate();
    for (place, word) in key_words {
        let blind = keys == Keys::Blind && place % 2 == 0;
        if blind || keys == Keys::Zero {
            *word = 0;
        }
    }
    words
}

/// What is handed in for a station.
#[derive(Clone)]
pub struct Handed<'a> {
    pub station: &'a Station,
    /// The day that it is opened for.
    pub day: u16,
    pub shares: Vec<u16>,
    pub present: u32,
    pub quorum: u16,
}

impl Handed<'_> {
    pub fn layout(&self) -> Layout {
        self.station.layout
    }

    /// How many more than t + 1 are present.
    pub fn surplus(&self) -> usize {
        self.present.count_ones() as usize - (self.station.t + 1)
    }

    /// Gives member `i`'s share word `k` another value.
    pub fn alter(&mut self, random: &mut Random, i: usize, k: usize) {
        let place = self.layout().word(i, k);
        self.shares[place] = random.other(self.shares[place]);
    }

    /// Makes the members' tags pass the keys that the judges hand in.
    pub fn forge(&mut self, of: u32, judges: u32) {
        let layout = self.layout();
        for i in members(of) {
            for j in members(judges) {
                self.shares[layout.tag(i, j)] = layout.asked(self.day, &self.shares, i, j);
            }
        }
    }

    /// Makes tag(i, j) fail.
    pub fn spoil(&mut self, random: &mut Random, i: usize, j: usize) {
        let layout = self.layout();
        let asked = layout.asked(self.day, &self.shares, i, j);
        self.shares[layout.tag(i, j)] = random.other(asked);
    }

    pub fn usable(&self) -> u32 {
        usable(self.layout(), self.present, &self.shares)
    }

    /// The call that opens it.
    pub fn call(&self, random: &mut Random) -> Open {
        Open {
            t: self.station.t,
            day: self.day,
            present: self.present,
            quorum: self.quorum,
            shares: self.shares.clone(),
            secret: random.words(self.layout().d),
            survivors: random.mask(),
            agreeing: random.mask(),
            pairs: random.three(),
        }
    }

    /// Opens by both sides, checks the demands and notes the classes. Now and then the program
    /// opens it too.
    pub fn open(&self, round: &mut Round, kind: &str) -> Opened {
        let answer = self.open_by_calls(round, kind);
        program::try_hand_in(round, kind, self);
        answer
    }

    /// The same without the program.
    pub fn open_by_calls(&self, round: &mut Round, kind: &str) -> Opened {
        let call = self.call(&mut round.random);
        let answer = round.ledger.compare(kind, &call);
        self.check_pairs(round.ledger, kind, &call, &answer);
        self.note_pairs(round.ledger, &answer);
        if matches!(answer.number, 0 | 15 | 16) {
            self.check_demands(round, kind, &call, &answer);
            self.check_look(round.ledger, kind, &call, &answer);
            self.note(round, &answer);
        }
        answer
    }

    /// Opens, and demands that answer.
    pub fn expect(&self, round: &mut Round, kind: &str, wanted: &Opened) {
        let answer = self.open(round, kind);
        self.demand(round, kind, wanted, &answer);
    }

    /// Demands that the answer is the wanted one.
    pub fn demand(&self, round: &mut Round, kind: &str, wanted: &Opened, answer: &Opened) {
        let call = self.call(&mut round.random);
        let right = answer == wanted;
        let what = format!("{wanted:?} expected");
        round.ledger.demand(right, kind, &call, &what, answer);
    }

    /// The answer of an opening that is refused, but for 16.
    pub fn refused(&self, number: u16, pairs: Pairs) -> Opened {
        Opened {
            number,
            secret: vec![65535; self.layout().d],
            survivors: 0,
            agreeing: 0,
            pairs,
        }
    }

    /// The members whose shares are as dealt; nobody if the dealing was for another day.
    fn as_dealt(&self) -> u32 {
        if self.day != self.station.day {
            return 0;
        }
        let layout = self.layout();
        let kept =
            |i: &usize| same_share(layout, &self.shares, &self.station.shares, self.present, *i);
        (1..=layout.n)
            .filter(kept)
            .fold(0, |set, i| set | 1 << (i - 1))
    }

    /// The members of the set with at least one share word that is not the dealt one.
    pub fn altered(&self, set: u32) -> u32 {
        let layout = self.layout();
        let moved =
            |i: &usize| layout.words(&self.shares, *i) != layout.words(&self.station.shares, *i);
        let moved = members(set).into_iter().filter(moved);
        moved.fold(0, |set, i| set | 1 << (i - 1))
    }

    /// With t + 1 shares as dealt: all of those survive; and if at most half the surplus of the
    /// survivors have altered share words, the dealt secret is opened.
    fn check_demands(&self, round: &mut Round, kind: &str, call: &Open, answer: &Opened) {
        let honest = self.as_dealt();
        if (honest.count_ones() as usize) < self.station.t + 1 {
            return;
        }
        round.ledger.note("open: demand 3 checked");
        let kept = answer.survivors & honest == honest;
        round
            .ledger
            .demand(kept, kind, call, "a share as dealt is struck", answer);
        let altered = self.altered(answer.survivors);
        let surplus = answer.survivors.count_ones() as usize - (self.station.t + 1);
        if 2 * altered.count_ones() as usize <= surplus {
            let agreeing = answer.survivors & !altered;
            let right = answer.number == 0
                && answer.secret == self.station.secret
                && answer.agreeing == agreeing;
            round
                .ledger
                .demand(right, kind, call, "the dealt secret is not opened", answer);
            round.ledger.note("open: demand 3's last clause checked");
        }
        if honest == self.present {
            let whole = answer.survivors == honest && answer.agreeing == honest;
            round
                .ledger
                .demand(whole, kind, call, "an honest member is left out", answer);
            round.ledger.note("open: demand 2 checked");
        }
    }

    /// The pairs add up to n times n, or to 0 where nobody was looked at. Members whose shares are
    /// as dealt accept each other; if nobody else is present, nothing is mismatched.
    fn check_pairs(&self, ledger: &mut Ledger, kind: &str, call: &Open, answer: &Opened) {
        let Pairs {
            accepted,
            mismatched,
            unread,
        } = answer.pairs;
        let n = self.layout().n as u16;
        let looked = matches!(answer.number, 0 | 14 | 15 | 16);
        let all = if looked { n * n } else { 0 };
        let whole = accepted + mismatched + unread == all;
        ledger.demand(whole, kind, call, "the pairs do not add up", answer);
        if !looked {
            return;
        }
        let honest = self.as_dealt();
        let each_other = (honest.count_ones() as u16).pow(2);
        let kept = accepted >= each_other;
        let what = "shares as dealt do not accept each other";
        ledger.demand(kept, kind, call, what, answer);
        if honest == self.present {
            let clean = accepted == each_other && mismatched == 0;
            ledger.demand(clean, kind, call, "a mismatch with all as dealt", answer);
        }
    }

    /// If all survive, they all agree just if all words pass the quick look.
    fn check_look(&self, ledger: &mut Ledger, kind: &str, call: &Open, answer: &Opened) {
        let everybody = self.station.everybody();
        if answer.survivors == everybody {
            let agree = answer.number == 0 && answer.agreeing == everybody;
            let pass = first_to_fail(self.layout(), &self.shares).is_none();
            let what = "the look says otherwise";
            ledger.demand(agree == pass, kind, call, what, answer);
        }
    }

    /// Notes what kinds of votes came together.
    fn note_pairs(&self, ledger: &mut Ledger, answer: &Opened) {
        let Pairs {
            accepted,
            mismatched,
            unread,
        } = answer.pairs;
        let number = answer.number;
        if accepted > 0 && mismatched > 0 && unread > 0 {
            ledger.note(format!("open: {number}, votes of all three kinds"));
        }
        if accepted > 0 && mismatched == 0 {
            if number == 14 {
                ledger.note("open: 14, nothing mismatched");
            }
            if self.usable() != self.present {
                ledger.note("open: an unusable member present, nothing mismatched");
            }
        }
    }

    fn note(&self, round: &mut Round, answer: &Opened) {
        if answer.survivors == 0 {
            return;
        }
        let t = self.station.t;
        let surplus = answer.survivors.count_ones() as usize - (t + 1);
        let altered = self.altered(answer.survivors).count_ones() as usize;
        let honest = self.as_dealt().count_ones() as usize > t;
        let ledger = &mut *round.ledger;
        match answer.number {
            0 => {
                ledger.note(format!("open: opened, t = {t}"));
                ledger.note(format!("open: opened, d = {}", self.layout().d));
                note_opened(ledger, surplus, altered);
                if answer.secret != self.station.secret && honest {
                    ledger.note("open: opened to another secret beside t + 1 as dealt");
                }
            }
            _ => {
                ledger.note(format!("open: 16, t = {t}"));
                if altered == surplus / 2 + 1 {
                    ledger.note("open: 16 one beyond half the surplus");
                }
            }
        }
        if answer.survivors != self.usable() {
            ledger.note("open: a usable member struck, others survive");
        }
        if self.usable() != self.present {
            ledger.note("open: an unusable member present, others survive");
        }
    }
}

fn note_opened(ledger: &mut Ledger, surplus: usize, altered: usize) {
    ledger.note(format!("open: opened, surplus {surplus}"));
    if altered > 0 {
        ledger.note("open: opened with altered survivors");
        if altered == surplus / 2 {
            let parity = if surplus.is_multiple_of(2) {
                "even"
            } else {
                "odd"
            };
            ledger.note(format!(
                "open: opened exactly at half the surplus, {parity}"
            ));
        }
    }
}
