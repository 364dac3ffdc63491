//! Hand-ins to write as text: words, masks, quorums and days of all kinds, and buffers of any
//! length. Every text that is written is read back.

use super::page::Page;
use super::reading::{self, some_page, some_word};
use super::station::{Handed, Station};
use super::{END_DAYS, Round};
use crate::calls::{ReadAnswer, Text, Write, Written};
use crate::compare::Ledger;
use crate::random::Random;
use crate::reference::sharing::Layout;
use crate::reference::text::{LONGEST_WRITTEN, ROOM};
use crate::reference::{LARGEST, everybody, members};

pub fn all(round: &mut Round) {
    each_size(round);
    for _ in 0..3 {
        any_size(round);
        outside(round);
        outside(round);
        lengths(round);
    }
    days(round);
    longest(round);
    opened(round);
    written_again(round);
}

/// A hand-in of any words, its buffer still empty.
fn hand_in(random: &mut Random, t: usize, d: usize) -> Write {
    let layout = Layout::new(t, d);
    let all = everybody(layout.n);
    let (one, some) = (random.choose(all, 1), random.part(all));
    let present = random.pick(&[0, all, one, some, some, some]);
    let mut shares = some_words(random, layout.total());
    leave(random, layout, all & !present, &mut shares);
    Write {
        t,
        d,
        quorum: some_quorum(random, t),
        day: random.day(),
        present,
        shares,
        text: Text(Vec::new()),
        count: random.draw() as usize,
    }
}

fn some_words(random: &mut Random, count: usize) -> Vec<u16> {
    match random.below(6) {
        0 => random.words(count),
        1 => random.fields(count),
        2 => (0..count).map(|_| random.above()).collect(),
        _ => (0..count).map(|_| some_word(random) as u16).collect(),
    }
}

/// What stands in the places of absent members.
fn leave(random: &mut Random, layout: Layout, absent: u32, shares: &mut [u16]) {
    let way = random.below(4);
    for i in members(absent) {
        for word in &mut shares[layout.word(i, 0)..layout.word(i + 1, 0)] {
            *word = match way {
                0 => 0,
                1 => random.above(),
                2 => random.word(),
                _ => *word,
            };
        }
    }
}

/// A quorum, also one that opening refuses.
fn some_quorum(random: &mut Random, t: usize) -> u16 {
    let (low, n) = (t as u16 + 1, 2 * t as u16 + 1);
    let any = some_word(random) as u16;
    random.pick(&[0, 1, low - 1, low, n, n + 1, u16::MAX, any, any])
}

/// The text by the lines of a page.
fn text_of(call: &Write) -> Vec<u8> {
    let order = members(call.present);
    let page = Page::of(call.t, call.d, call.quorum, call.day, &call.shares, &order);
    page.bytes()
}

/// The shares as they are read back.
fn words_of(call: &Write) -> Vec<u16> {
    let layout = Layout::new(call.t, call.d);
    let mut words = call.shares.clone();
    for i in members(everybody(layout.n) & !call.present) {
        words[layout.word(i, 0)..layout.word(i + 1, 0)].fill(0);
    }
    words.resize(ROOM, 0);
    words
}

/// The hand-in with a buffer of so many bytes, any ones.
fn with_room(random: &mut Random, hand_in: &Write, room: usize) -> Write {
    Write {
        text: Text(random.bytes(room)),
        count: random.draw() as usize,
        ..hand_in.clone()
    }
}

/// The answer for that text: it fits, or 31.
fn wanted(call: &Write, text: &[u8]) -> Written {
    let mut buffer = call.text.clone();
    let fits = text.len() <= buffer.0.len();
    if fits {
        buffer.0[..text.len()].copy_from_slice(text);
    }
    Written {
        number: if fits { 0 } else { 31 },
        text: buffer,
        count: if fits { text.len() } else { 0 },
    }
}

/// Writes by both sides a hand-in that is refused for its buffer alone, if at all.
fn submit(round: &mut Round, kind: &str, hand_in: &Write, room: usize) -> Written {
    let call = with_room(&mut round.random, hand_in, room);
    let answer = round.ledger.compare(kind, &call);
    let text = text_of(&call);
    let right = answer == wanted(&call, &text);
    let what = "not the lines, or not where they fit";
    round.ledger.demand(right, kind, &call, what, &answer);
    note_room(round.ledger, room, text.len());
    if answer.number == 0 {
        note_written(round.ledger, &call, text.len());
        read_back(round, &call, &answer);
    }
    answer
}

/// Reads by both sides what was written.
fn read_back(round: &mut Round, call: &Write, answer: &Written) -> ReadAnswer {
    let kind = "written text";
    let text = answer.text.0[..answer.count].to_vec();
    let (read, found) = reading::submit(round, kind, text, ROOM);
    let wanted = ReadAnswer {
        number: 0,
        words: words_of(call),
        t: call.t,
        d: call.d,
        quorum: call.quorum,
        day: call.day,
        present: call.present,
    };
    let same = found == wanted;
    let what = "not what was written is read";
    round.ledger.demand(same, kind, &read, what, &found);
    if same {
        round.ledger.note("write: read back");
    }
    found
}

fn note_room(ledger: &mut Ledger, room: usize, length: usize) {
    if room == length {
        ledger.note("write: buffer just long enough");
    } else if room > length {
        ledger.note("write: bytes past the text");
    } else if room + 1 == length {
        ledger.note("write: one byte short");
    } else if room == 0 {
        ledger.note("write: an empty buffer");
    }
}

fn note_written(ledger: &mut Ledger, call: &Write, length: usize) {
    let layout = Layout::new(call.t, call.d);
    let all = everybody(layout.n);
    ledger.note(format!("write: t = {}", call.t));
    ledger.note(format!("write: d = {}", call.d));
    ledger.note(match call.present {
        0 => "write: nobody present",
        given if given == all => "write: everybody present",
        _ => "write: some present",
    });
    if length == LONGEST_WRITTEN {
        ledger.note("write: the longest text");
    }
    let quorum = call.quorum as usize;
    if quorum != 0 && !(call.t + 1..=layout.n).contains(&quorum) {
        ledger.note("write: a quorum that opening refuses");
    }
    if call.quorum == u16::MAX {
        ledger.note("write: quorum 65535");
    }
    let above = |i: &usize| layout.share(&call.shares, *i).iter().any(|w| *w > LARGEST);
    if members(call.present).iter().any(above) {
        ledger.note("write: present members above 65520");
    }
    if members(all & !call.present).iter().any(above) {
        ledger.note("write: absent members above 65520");
    }
}

/// Buffers around the text's length and at the ends.
fn buffers(round: &mut Round, kind: &str, hand_in: &Write) {
    let length = text_of(hand_in).len();
    let longer = length + round.random.within(1, 40);
    let shorter = round.random.below(length);
    for room in [length, longer, LONGEST_WRITTEN, length - 1, shorter, 0] {
        submit(round, kind, hand_in, room);
    }
}

/// The round's own t and d, so that all of both come up.
fn each_size(round: &mut Round) {
    let hand_in = hand_in(&mut round.random, round.t, round.d);
    buffers(round, "writing, each size", &hand_in);
}

fn some_hand_in(round: &mut Round) -> Write {
    let (t, d) = (round.some_t(), round.some_d());
    hand_in(&mut round.random, t, d)
}

fn any_size(round: &mut Round) {
    let hand_in = some_hand_in(round);
    buffers(round, "writing", &hand_in);
}

/// The longest text there is: every numeral of five digits.
fn longest(round: &mut Round) {
    let random = &mut round.random;
    let mut call = hand_in(random, 15, 64);
    call.present = everybody(31);
    call.quorum = random.within(10000, 65535) as u16;
    call.day = random.within(10000, LARGEST as usize) as u16;
    for word in &mut call.shares {
        *word = random.within(10000, 65535) as u16;
    }
    for room in [LONGEST_WRITTEN, LONGEST_WRITTEN - 1] {
        submit(round, "the longest text", &call, room);
    }
}

/// Each end of the days is written; the round's word that is no day is refused.
fn days(round: &mut Round) {
    for day in END_DAYS {
        let mut call = some_hand_in(round);
        call.day = day;
        let number = submit(round, "writing, each day", &call, LONGEST_WRITTEN).number;
        round.ledger.note(format!("write: {number}, day {day}"));
    }
    let mut call = some_hand_in(round);
    call.day = round.no_day;
    refuse(round, &call, 32);
    round
        .ledger
        .note(format!("write: 32, day {}", round.no_day));
}

/// One thing outside: t, d, the day, the count of words or the mask.
fn outside(round: &mut Round) {
    let mut call = some_hand_in(round);
    let (n, total) = (2 * call.t + 1, call.shares.len());
    let number = round.random.pick(&[1, 2, 32, 11, 12]);
    match number {
        1 => call.t = round.bad_t(),
        2 => call.d = round.bad_d(),
        32 => call.day = round.random.no_day(),
        11 => {
            let length = round.length(n, total);
            let length = if length == total { total + n } else { length };
            call.shares.resize(length, 7);
        }
        _ => call.present |= 1 << round.random.within(n, 31),
    }
    refuse(round, &call, number);
}

/// Writes by both sides into any buffer, which is left as it is for that number.
fn refuse(round: &mut Round, hand_in: &Write, number: u16) {
    let kind = "writing, one thing outside";
    let any = round.random.within(0, LONGEST_WRITTEN);
    let room = round.random.pick(&[0, any, LONGEST_WRITTEN]);
    let call = with_room(&mut round.random, hand_in, room);
    let answer = round.ledger.compare(kind, &call);
    let wanted = Written {
        number,
        text: call.text.clone(),
        count: 0,
    };
    let right = answer == wanted;
    let what = format!("{number} expected, and nothing written");
    round.ledger.demand(right, kind, &call, &what, &answer);
}

/// Lengths, masks and sizes that need not fit each other.
fn lengths(round: &mut Round) {
    let t = round.some_t();
    let n = 2 * t + 1;
    let d = round.some_d();
    let d = round.length(n, d);
    let shares = round.length(n, Layout::new(t, d).total());
    let bad_t = round.bad_t();
    let (any, part) = (round.random.mask(), round.random.part(everybody(n)));
    let room = round.length(n, LONGEST_WRITTEN);
    let call = Write {
        t: round.random.pick(&[t, t, t, bad_t]),
        d,
        quorum: round.random.word(),
        day: round.some_day(),
        present: round.random.pick(&[any, part, part]),
        shares: round.random.words(shares),
        text: Text(round.random.bytes(room)),
        count: round.random.draw() as usize,
    };
    round.ledger.compare("writing with any lengths", &call);
}

/// What a station's members hand in, some of it altered: opening what was written and read gives
/// what opening it at once gives.
fn opened(round: &mut Round) {
    let kind = "a hand-in, written and read";
    let station = Station::some(round);
    let mut handed = station.hand_in(&mut round.random);
    let count = round.random.within(0, handed.surplus() / 2 + 1);
    for i in members(round.random.choose(handed.present, count)) {
        let k = round.random.below(station.layout.d);
        handed.alter(&mut round.random, i, k);
    }
    let absent = station.everybody() & !handed.present;
    leave(
        &mut round.random,
        station.layout,
        absent,
        &mut handed.shares,
    );
    handed.quorum = round.random.pick(&[0, 0, station.t as u16 + 1]);
    let call = Write {
        t: station.t,
        d: station.layout.d,
        quorum: handed.quorum,
        day: handed.day,
        present: handed.present,
        shares: handed.shares.clone(),
        text: Text(Vec::new()),
        count: 0,
    };
    let call = with_room(&mut round.random, &call, LONGEST_WRITTEN);
    let answer = round.ledger.compare(kind, &call);
    let found = read_back(round, &call, &answer);
    let at_once = handed.open(round, kind);
    let read = Handed {
        station: &station,
        day: found.day,
        shares: found.words[..station.layout.total()].to_vec(),
        present: found.present,
        quorum: found.quorum,
    };
    let same = read.open(round, kind) == at_once;
    let what = "what was read opens to something else";
    round.ledger.demand(same, kind, &call, what, &answer);
    round.ledger.note(match at_once.number {
        0 => "write: read back and opened",
        _ => "write: read back and refused by opening",
    });
}

/// A text with its lines in any order, read and written again: the lines by rising member.
fn written_again(round: &mut Round) {
    let kind = "read and written again";
    let mut page = some_page(round);
    let (_, found) = reading::submit(round, kind, page.bytes(), ROOM);
    let call = Write {
        t: found.t,
        d: found.d,
        quorum: found.quorum,
        day: found.day,
        present: found.present,
        shares: found.words[..page.layout.total()].to_vec(),
        text: Text(Vec::new()),
        count: 0,
    };
    page.lines[1..].sort_by_key(|line| (line[1].len(), line[1].clone()));
    let text = page.bytes();
    let answer = submit(round, kind, &call, text.len());
    let same = answer.text.0 == text;
    let what = "another text than was read";
    round.ledger.demand(same, kind, &call, what, &answer);
    if same && !found.present.is_power_of_two() && found.present != 0 {
        round.ledger.note("write: a text read and written again");
    }
}
