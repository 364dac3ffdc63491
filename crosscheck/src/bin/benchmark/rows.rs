//! The rows of the first table.

use std::hint::black_box;

use crosscheck::library::plain;
use crosscheck::random::Random;
use crosscheck::reference::decoding::{Way, decode};
use crosscheck::reference::polynomial::value;
use crosscheck::reference::pruning::prune;
use crosscheck::reference::sharing::{Layout, deal, open, random_words};
use crosscheck::reference::text::{LONGEST_WRITTEN, ROOM, read, write};
use crosscheck::reference::{BLANK, everybody, members};

use crate::shares::{DAY, altered, blind_shares, dealt, one_word_each};

pub const T: usize = 15;
pub const D: usize = 64;
/// The quorum and the day in the texts.
const QUORUM: u16 = 65535;
const LAST_DAY: u16 = 65520;

/// One thing measured: each side's work, with its answer's number.
pub struct Row {
    pub name: &'static str,
    pub library: Box<dyn FnMut() -> u16>,
    pub reference: Box<dyn FnMut() -> u16>,
    pub number: u16,
    /// How long the text is, where one is read or written.
    pub bytes: Option<usize>,
}

fn dealing(secret: Vec<u16>, tape: Vec<u16>) -> Row {
    let total = Layout::new(T, D).total();
    let (mut mine, mut theirs) = (vec![0; total], vec![0; total]);
    let (other_secret, other_tape) = (secret.clone(), tape.clone());
    Row {
        name: "dealing",
        library: Box::new(move || plain::deal(T, DAY, &secret, &tape, black_box(&mut mine))),
        reference: Box::new(move || {
            let shares = black_box(&mut theirs);
            deal(T, DAY, &other_secret, &other_tape, shares)
        }),
        number: 0,
        bytes: None,
    }
}

/// With the least quorum.
fn opening(name: &'static str, present: u32, shares: Vec<u16>, number: u16) -> Row {
    let quorum = T as u16 + 1;
    let (mut mine, mut theirs) = (vec![0; D], vec![0; D]);
    let other = shares.clone();
    Row {
        name,
        library: Box::new(move || {
            let secret = black_box(&mut mine);
            plain::open(T, DAY, present, quorum, &shares, secret).0
        }),
        reference: Box::new(move || {
            let secret = black_box(&mut theirs);
            open(T, DAY, present, quorum, &other, secret, Way::Elimination).number
        }),
        number,
        bytes: None,
    }
}

/// A hundred times, since once takes the library less than a microsecond.
fn pruning() -> Row {
    let rows = one_after_the_other();
    let other = rows.clone();
    let hundred = |call: fn(usize, &[u32]) -> (u16, u32), rows: &[u32]| {
        (0..100).fold(0, |all, _| {
            let (number, survivors) = black_box(call(T, black_box(rows)));
            assert_eq!(survivors, 0);
            all | number
        })
    };
    Row {
        name: "pruning 100 times, 31 struck one after the other",
        library: Box::new(move || hundred(plain::prune, &rows)),
        reference: Box::new(move || hundred(prune, &other)),
        number: 0,
        bytes: None,
    }
}

/// Rows of which only the first is short, by one vote. Each of the next t has just t + 1 votes, one
/// of them from the member before it, and nobody else's vote comes off before it is struck. After
/// t + 1 strikes t members are left, too few, whom everybody accepts.
fn one_after_the_other() -> Vec<u32> {
    let n = 2 * T + 1;
    let first = everybody(T);
    let chain = (0..T).map(|before| everybody(T + 1) << before);
    let rows: Vec<u32> = std::iter::once(first).chain(chain).collect();
    [rows, vec![everybody(n); T]].concat()
}

/// 64 calls. Each has no hint, so that no word is helped by the one before.
fn decoding() -> Row {
    let (words, polynomials) = words_with_errors();
    let (other_words, other_polynomials) = (words.clone(), polynomials.clone());
    let (mut mine, mut theirs) = (vec![0; polynomials.len()], vec![0; polynomials.len()]);
    let all = everybody(2 * T + 1);
    Row {
        name: "decoding 64 words with 7 errors each, in full",
        library: Box::new(move || {
            let call = |values: &[u16], place: &mut [u16]| plain::decode(T, values, all, place);
            decode_all(call, &words, &polynomials, black_box(&mut mine))
        }),
        reference: Box::new(move || {
            let call =
                |values: &[u16], place: &mut [u16]| decode(T, values, all, place, Way::Elimination);
            decode_all(
                call,
                &other_words,
                &other_polynomials,
                black_box(&mut theirs),
            )
        }),
        number: 0,
        bytes: None,
    }
}

/// Decodes every word by itself. If none is refused, the polynomials have to be those wanted.
fn decode_all(
    call: impl Fn(&[u16], &mut [u16]) -> u16,
    words: &[u16],
    wanted: &[u16],
    found: &mut [u16],
) -> u16 {
    found.fill(BLANK);
    let places = found.chunks_mut(T + 1);
    let each = words.chunks(2 * T + 1).zip(places);
    let number = each.fold(0, |all, (values, place)| all | call(values, place));
    assert!(number != 0 || found == wanted, "a word decoded wrongly");
    number
}

/// 64 words with 7 errors each, and the polynomials that they are of, all of degree t.
fn words_with_errors() -> (Vec<u16>, Vec<u16>) {
    let mut random = Random::new(3);
    let (mut words, mut polynomials) = (Vec::new(), Vec::new());
    for _ in 0..64 {
        let mut polynomial = random.fields(T);
        polynomial.push(random.other(0));
        words.extend(values_with_errors(&mut random, &polynomial));
        polynomials.extend(polynomial);
    }
    (words, polynomials)
}

/// The values at 1 to n, 7 of them altered. One of the first t + 1 is among these, so that the
/// polynomial through the first t + 1 is not the one sought.
fn values_with_errors(random: &mut Random, polynomial: &[u16]) -> Vec<u16> {
    let n = 2 * T + 1;
    let coefficients: Vec<u32> = polynomial.iter().map(|c| *c as u32).collect();
    let at = |x: usize| value(&coefficients, x as u32) as u16;
    let mut values: Vec<u16> = (1..=n).map(at).collect();
    let places = random.choose(everybody(n), 7);
    assert_ne!(places & everybody(T + 1), 0);
    for i in members(places) {
        values[i - 1] = random.other(values[i - 1]);
    }
    values
}

fn reading(shares: &[u16]) -> Row {
    let text = full_text(shares);
    let other = text.clone();
    let (mut mine, mut theirs) = (vec![0; ROOM], vec![0; ROOM]);
    Row {
        name: "reading 31 shares, 29368 bytes",
        library: Box::new(move || plain::read(&text, black_box(&mut mine)).0),
        reference: Box::new(move || read(&other, black_box(&mut theirs)).number),
        number: 0,
        bytes: Some(LONGEST_WRITTEN),
    }
}

fn writing(shares: &[u16]) -> Row {
    let words = five_digits(shares);
    let other = words.clone();
    let all = everybody(2 * T + 1);
    let (mut mine, mut theirs) = (vec![0; LONGEST_WRITTEN], vec![0; LONGEST_WRITTEN]);
    Row {
        name: "writing 31 shares, 29368 bytes",
        library: Box::new(move || {
            let text = black_box(&mut mine);
            plain::write(T, D, QUORUM, LAST_DAY, all, &words, text).0
        }),
        reference: Box::new(move || {
            let text = black_box(&mut theirs);
            write(T, D, QUORUM, LAST_DAY, all, &other, text).0
        }),
        number: 0,
        bytes: Some(LONGEST_WRITTEN),
    }
}

/// Words of five digits each.
fn five_digits(shares: &[u16]) -> Vec<u16> {
    shares.iter().map(|word| 10000 + word % 50000).collect()
}

/// The longest text that can be read or written: every numeral of five digits.
fn full_text(shares: &[u16]) -> Vec<u8> {
    let layout = Layout::new(T, D);
    let words = five_digits(shares);
    let mut text = format!("D\t{T}\t{D}\t{QUORUM}\t{LAST_DAY}\n");
    for i in 1..=layout.n {
        text += &format!("P\t{i}");
        for word in layout.share(&words, i) {
            text += &format!("\t{word}");
        }
        text += "\n";
    }
    assert_eq!(text.len(), LONGEST_WRITTEN);
    text.into_bytes()
}

pub fn rows() -> Vec<Row> {
    let mut random = Random::new(1);
    let layout = Layout::new(T, D);
    let secret = random.fields(D);
    let tape = random.fields(random_words(T, D));
    let shares = dealt(T, &secret, &tape);
    let blind = blind_shares(&mut random, T, &secret);
    let all = everybody(layout.n);
    let half = everybody(T + 1);
    let seven = altered(layout, &blind, 7, 0..D);
    let last = altered(layout, &blind, 8, D - 1..D);
    let each = one_word_each(layout, &blind, 7);
    let one = altered(layout, &blind, 1, D - 1..D);
    vec![
        dealing(secret, tape),
        opening("opening, 31 honest", all, shares.clone(), 0),
        opening("opening, 16 present, honest", half, shares.clone(), 0),
        opening(
            "opening, 1 of 31 altered in the last word, all survive",
            all,
            one,
            0,
        ),
        opening("opening, 7 of 31 altered, all survive", all, seven, 0),
        opening("opening, 7 of 31 altered, in one word each", all, each, 0),
        opening("opening, 16 in the last word", all, last, 16),
        pruning(),
        reading(&shares),
        writing(&shares),
        decoding(),
    ]
}
