//! Texts for the program `opening`. Most of them come from the other cases: some of the hand-ins
//! that the library opens, and some of the texts that it reads, go to the program too.

use super::page::{Page, numeral};
use super::reading::{DAY, Fault, Faulty};
use super::station::{Handed, Keys, Station};
use super::{Round, days};
use crate::calls::{Print, Text};
use crate::random::Random;
use crate::reference::members;
use crate::reference::text::LONGEST;

/// One in so many of the hand-ins, of the texts and of the rounds.
const HAND_INS: usize = 4;
const TEXTS: usize = 12;
const ROUNDS: usize = 8;

pub fn all(round: &mut Round) {
    damaged(round);
    another_day(round);
    if round.random.once_in(ROUNDS) {
        largest(round);
    }
}

/// Gives some of the hand-ins to the program.
pub fn try_hand_in(round: &mut Round, kind: &str, handed: &Handed) {
    if round.random.once_in(HAND_INS) {
        let order = any_order(&mut round.random, handed);
        let number = submit(round, kind, printed(handed, &order).bytes());
        if number == Some(0) && !order.is_sorted() {
            round.ledger.note("program: opened, lines in another order");
        }
    }
}

/// Gives some of the texts to the program.
pub fn try_text(round: &mut Round, kind: &str, text: &[u8]) {
    if round.random.once_in(TEXTS) {
        submit(round, kind, text.to_vec());
    }
}

/// The members that hand in, in any order.
fn any_order(random: &mut Random, handed: &Handed) -> Vec<usize> {
    let mut order = members(handed.present);
    random.shuffle(&mut order);
    order
}

/// What these members hand in, as a text.
fn printed(handed: &Handed, order: &[usize]) -> Page {
    let (t, d) = (handed.station.t, handed.layout().d);
    Page::of(t, d, handed.quorum, handed.day, &handed.shares, order)
}

/// Has both sides print, notes the classes and gives the number, 0 for a text that opens.
fn submit(round: &mut Round, kind: &str, text: Vec<u8>) -> Option<u16> {
    print(round, kind, &Print { text: Text(text) }).number()
}

fn print(round: &mut Round, kind: &str, call: &Print) -> Text {
    let answer = round.ledger.compare(kind, call);
    round.ledger.note(format!("program: {kind}"));
    if let Some(class) = class_of_text(&call.text.0) {
        round.ledger.note(format!("program: {class}"));
    }
    if let Some(class) = class_of_answer(&answer) {
        round.ledger.note(format!("program: {class}"));
    }
    answer
}

fn class_of_text(text: &[u8]) -> Option<&'static str> {
    match text.len() {
        0 => Some("empty"),
        LONGEST => Some("40000 bytes"),
        40001 => Some("40001 bytes"),
        200000.. => Some("200000 bytes"),
        _ if !text.contains(&b'\n') => Some("no line end"),
        _ => None,
    }
}

fn class_of_answer(answer: &Text) -> Option<&'static str> {
    match answer.first_line()[..] {
        [b"REFUSED", b"16", survivors] if survivors != b"0" => Some("16 with survivors"),
        [b"OPEN", survivors, agreeing] if survivors != agreeing => {
            Some("opened, a survivor does not agree")
        }
        _ => None,
    }
}

/// A hand-in whose text is spoilt.
fn damaged(round: &mut Round) {
    let station = Station::some(round);
    let handed = station.hand_in(&mut round.random);
    let order = any_order(&mut round.random, &handed);
    let mut text = Faulty::new(printed(&handed, &order));
    let shape = Fault::Shape(round.random.below(2));
    let member = Fault::Member(round.random.below(2));
    let fault = round
        .random
        .pick(&[Fault::TooLong, Fault::FirstLine, shape, member]);
    text.spoil(&mut round.random, fault);
    submit(round, "a hand-in, its text spoilt", text.page.bytes());
}

/// A complete hand-in whose text names another day: nobody survives, if no alpha is 0.
fn another_day(round: &mut Round) {
    let kind = "a complete text of another day";
    let station = days::no_alpha_0(round);
    let mut handed = station.hand_in(&mut round.random);
    handed.present = station.everybody();
    let order = any_order(&mut round.random, &handed);
    let mut page = printed(&handed, &order);
    let day = round.random.other_day(station.day);
    page.lines[0][DAY] = numeral(day as usize);
    let call = Print {
        text: Text(page.bytes()),
    };
    let answer = print(round, kind, &call);
    let refused = answer.0 == b"REFUSED\t15\t0\n";
    round
        .ledger
        .demand(refused, kind, &call, "15 expected", &answer);
}

/// 31 members, 64 words, some of them altered in ways that pass the votes.
fn largest(round: &mut Round) {
    let station = Station::deal(round, 15, 64, Keys::Blind);
    let mut handed = station.hand_in(&mut round.random);
    handed.present = station.everybody();
    let count = round.random.within(0, 8);
    for i in members(round.random.choose(handed.present, count)) {
        let k = round.random.below(64);
        handed.alter(&mut round.random, i, k);
    }
    let order = any_order(&mut round.random, &handed);
    let text = printed(&handed, &order).bytes();
    let number = submit(round, "31 members, 64 words", text);
    if number == Some(0) {
        round.ledger.note("program: opened, t = 15 and d = 64");
    }
}
