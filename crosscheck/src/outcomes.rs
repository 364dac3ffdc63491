//! The outcomes that a run must have reached.

use crate::cases::look::GONE;
use crate::cases::orders::{DEAL, DECODE, OPEN, PRUNE, WRITE};
use crate::cases::reading::{DAMAGES, DAY_FAULTS, ENDS, ORDERS};
use crate::cases::{END_DAYS, no_days};

const CLASSES: &[&str] = &[
    "deal: tags by the call for tags",
    "open: demand 2 checked",
    "open: demand 3 checked",
    "open: demand 3's last clause checked",
    "open: opened with altered survivors",
    "open: opened exactly at half the surplus, even",
    "open: opened exactly at half the surplus, odd",
    "open: 16 one beyond half the surplus",
    "open: 16 though each word alone decodes",
    "open: opened to another secret beside t + 1 as dealt",
    "open: a usable member struck, others survive",
    "open: an unusable member present, others survive",
    "open: above 65520 for an absent member",
    "open: one altered member a word, opened",
    "open: one altered member a word, 16",
    "open: altered ones struck, altered ones survive, opened",
    "open: opened, zeros for absent members",
    "open: opened, 65535 for absent members",
    "open: opened, any words for absent members",
    "open: only colluders survive",
    "open: all colluders struck",
    "open: quorum just met",
    "open: quorum missed by one",
    "open: quorum 0 just met",
    "open: quorum 0 missed by one",
    "open: 0, votes of all three kinds",
    "open: 14, votes of all three kinds",
    "open: 15, votes of all three kinds",
    "open: 16, votes of all three kinds",
    "open: 14, nothing mismatched",
    "open: an unusable member present, nothing mismatched",
    "open: opened, members mismatched by themselves alone",
    "open: another day, in part, 14",
    "open: another day, in part, 15",
    "open: another day, all alphas 0, 0",
    "open: another day, all alphas 0, 14",
    "open: another day, some alphas 0, 0",
    "open: another day, some alphas 0, 14",
    "open: another day, some alphas 0, 15",
    "open: two days, one dealing, 0",
    "open: two days, one dealing, 14",
    "open: two days, one dealing, 15",
    "open: two days, one dealing, one is struck",
    "open: two days, one dealing, both survive",
    "open: two days, two dealings, 0",
    "open: two days, two dealings, 14",
    "open: two days, two dealings, 15",
    "open: two days, two dealings, 16",
    "open: two days, two dealings, one is struck",
    "open: two days, two dealings, both survive",
    "open: done, compared with the search too",
    "look: all words pass",
    "look: fails at the first word, opened",
    "look: fails at a middle word, opened",
    "look: fails at the last word, opened",
    "look: fails at the first word, 16",
    "look: fails at a middle word, 16",
    "look: fails at the last word, 16",
    "look: some off in the same word, opened",
    "look: some off in the same word, 16",
    "look: some off in words of their own, opened",
    "look: some off in words of their own, 16",
    "look: degree t + 1 after a word as dealt",
    "weights: printed",
    "prune: nobody survives",
    "prune: some survive",
    "prune: all survive",
    "prune: one strike brings another",
    "prune: one short member brings all down",
    "decode: decoded at half the surplus",
    "decode: 16 one beyond half the surplus",
    "decode: above 65520 outside the set",
    "decode: done, compared with the search too",
    "tag: of no words",
    "tag: of field words",
    "tag: with words above 65520",
    "read: good with no share",
    "read: good with all shares",
    "read: the longest good text",
    "read: first line, t outside",
    "read: first line, d outside",
    "read: member 0",
    "read: member n + 1",
    "read: member far outside",
    "read: member met before",
    "read: 40000 bytes",
    "read: 40001 bytes",
    "write: nobody present",
    "write: some present",
    "write: everybody present",
    "write: the longest text",
    "write: a quorum that opening refuses",
    "write: quorum 65535",
    "write: present members above 65520",
    "write: absent members above 65520",
    "write: buffer just long enough",
    "write: bytes past the text",
    "write: one byte short",
    "write: an empty buffer",
    "write: read back",
    "write: read back and opened",
    "write: read back and refused by opening",
    "write: a text read and written again",
];

/// What the program must have been given, and what it must have come to.
const PROGRAM: &[&str] = &[
    "honest",
    "honest, each size",
    "one too many in the last word",
    "quorums",
    "errors around half the surplus",
    "a second polynomial",
    "scattered alterations",
    "one member a word",
    "some struck, some surviving",
    "any votes",
    "accusers",
    "colluders",
    "words above 65520",
    "garbage for absent members",
    "one vote short",
    "kinds known beforehand",
    "a few words changed",
    "noise",
    "each day",
    "another day, complete",
    "another day, in part",
    "another day, all alphas 0",
    "another day, some alphas 0",
    "two days, one dealing",
    "two days, two dealings",
    "all on the dealt polynomials",
    "one member off",
    "some members off",
    "all on other polynomials",
    "a higher degree",
    "a higher degree, the most on one of degree t",
    "one sum is not 0",
    "not all survive",
    "a complete text of another day",
    "a hand-in, its text spoilt",
    "good text",
    "longest good text",
    "first line spoilt",
    "day spoilt",
    "each day in a text",
    "share line spoilt",
    "wrong member",
    "ends of a text",
    "edited text",
    "long text",
    "two faults",
    "written text",
    "empty",
    "no line end",
    "40000 bytes",
    "40001 bytes",
    "200000 bytes",
    "16 with survivors",
    "opened, a survivor does not agree",
    "opened, lines in another order",
    "opened, t = 15 and d = 64",
];

/// The name of every outcome that must come up at least once.
pub fn required() -> Vec<String> {
    let mut names: Vec<String> = CLASSES.iter().map(|name| name.to_string()).collect();
    for order in [&DEAL, &OPEN, &PRUNE, &DECODE, &WRITE] {
        let numbers = [0].iter().chain(order.numbers);
        names.extend(numbers.map(|number| format!("{}: {number}", order.call)));
        names.extend(order.pairs().into_iter().map(|pair| order.outcome(pair)));
    }
    names.extend([0, 21, 22, 23, 24, 25].map(|number| format!("read: {number}")));
    names.extend(ORDERS.iter().map(|(name, ..)| format!("read: {name}")));
    names.extend(ENDS.iter().map(|name| format!("read: {name}")));
    for name in DAMAGES {
        names.push(format!("read: first line, {name}"));
        names.push(format!("read: share line, {name}"));
    }
    for name in DAY_FAULTS {
        names.push(format!("read: first line, {name}"));
    }
    names.extend(PROGRAM.iter().map(|name| format!("program: {name}")));
    let numbers = [0, 13, 14, 15, 16, 21, 22, 23, 24];
    names.extend(numbers.map(|number| format!("program: {number}")));
    names.extend(sizes());
    names.extend(days());
    names.extend(looks());
    names
}

/// Where the quick look passes and fails: each t, d, power and degree, each member off alone, and
/// each way to be gone, where it must not be used.
fn looks() -> Vec<String> {
    let mut names = Vec::new();
    for t in 1..=15 {
        for class in [
            "all words pass",
            "all on other polynomials",
            "fails, 16",
            "degree t + 1 at all points",
        ] {
            names.push(format!("look: {class}, t = {t}"));
        }
        // with three members nobody may be off
        if t > 1 {
            names.push(format!("look: fails, opened, t = {t}"));
        }
        names.push(format!("look: fails at power {} first", t - 1));
        names.push(format!("look: degree t + {t} at all points"));
        names.extend((0..t).map(|m| format!("look: fails at power {m} alone, t = {t}")));
        let n = 2 * t + 1;
        names.extend((1..=n).map(|i| format!("look: member {i} of {n} off alone")));
        names.extend((1..=n).map(|i| format!("look: member {i} of {n} alone not 0")));
        let passing = |way| format!("look: {way}, the words of all would pass, t = {t}");
        names.extend(GONE.map(passing));
    }
    for d in 1..=64 {
        names.push(format!("look: all words pass, d = {d}"));
        names.push(format!("look: fails, d = {d}"));
    }
    for way in GONE {
        names.push(format!("look: one {way}, the words of all would pass"));
        names.push(format!("look: {way}, the words of all would fail"));
    }
    names
}

/// Each end of the days, and each word that is no day, with its number.
fn days() -> Vec<String> {
    let mut names = Vec::new();
    for (call, number) in [("deal", 32), ("open", 32), ("write", 32), ("read", 22)] {
        names.extend(END_DAYS.map(|day| format!("{call}: 0, day {day}")));
        let refused = no_days().into_iter();
        names.extend(refused.map(|day| format!("{call}: {number}, day {day}")));
    }
    names
}

/// Each t, each d and each surplus.
fn sizes() -> Vec<String> {
    let mut names = Vec::new();
    for t in 1..=15 {
        for class in [
            "deal: t",
            "deal: another secret, t",
            "open: opened, t",
            "open: 16, t",
            "open: another day, 15, t",
            "prune: t",
            "decode: decoded, t",
            "write: t",
        ] {
            names.push(format!("{class} = {t}"));
        }
    }
    for d in 1..=64 {
        names.push(format!("deal: d = {d}"));
        names.push(format!("deal: another secret, d = {d}"));
        names.push(format!("open: opened, d = {d}"));
        names.push(format!("write: d = {d}"));
    }
    for surplus in 0..=15 {
        names.push(format!("open: opened, surplus {surplus}"));
        names.push(format!("decode: decoded, surplus {surplus}"));
    }
    names
}
