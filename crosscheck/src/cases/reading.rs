//! Hand-in texts: good ones in any order, and every kind of damage to lines and numerals.

use super::page::{Page, numeral};
use super::{Round, program};
use crate::calls::{Read, ReadAnswer, Text};
use crate::random::Random;
use crate::reference::LARGEST;
use crate::reference::text::{LONGEST, LONGEST_WRITTEN, ROOM};

/// Where the quorum and the day stand in the first line.
const QUORUM: usize = 3;
pub const DAY: usize = 4;

/// A reason to refuse a text. Lines are counted back from the last one.
#[derive(Clone, Copy)]
pub enum Fault {
    Room,
    TooLong,
    FirstLine,
    Shape(usize),
    Member(usize),
}

impl Fault {
    fn number(self) -> u16 {
        match self {
            Fault::Room => 25,
            Fault::TooLong => 21,
            Fault::FirstLine => 22,
            Fault::Shape(_) => 23,
            Fault::Member(_) => 24,
        }
    }
}

/// Each two faults, the one that the reader names first, and how the outcomes call it.
pub const ORDERS: &[(&str, Fault, Fault)] = &[
    ("25 goes before 21", Fault::Room, Fault::TooLong),
    ("25 goes before 22", Fault::Room, Fault::FirstLine),
    ("25 goes before 23", Fault::Room, Fault::Shape(0)),
    ("25 goes before 24", Fault::Room, Fault::Member(0)),
    ("21 goes before 22", Fault::TooLong, Fault::FirstLine),
    ("21 goes before 23", Fault::TooLong, Fault::Shape(0)),
    ("21 goes before 24", Fault::TooLong, Fault::Member(0)),
    ("22 goes before 23", Fault::FirstLine, Fault::Shape(0)),
    ("22 goes before 24", Fault::FirstLine, Fault::Member(0)),
    (
        "23 goes before 24 on one line",
        Fault::Shape(0),
        Fault::Member(0),
    ),
    ("23 on a line before 24", Fault::Shape(1), Fault::Member(0)),
    ("24 on a line before 23", Fault::Member(1), Fault::Shape(0)),
];

pub fn all(round: &mut Round) {
    for _ in 0..4 {
        good(round);
        first_lines(round);
        day_faults(round);
        share_lines(round);
        share_lines(round);
        member_faults(round);
        ends(round);
        edits(round);
        edits(round);
    }
    days(round);
    longest_good(round);
    long(round);
    lengths(round);
    orders(round);
}

/// A word of any count of digits, each border included.
pub fn some_word(random: &mut Random) -> usize {
    let any = random.word() as usize;
    let width = random.within(0, 4) as u32;
    let tried = [0, 9, 10, 65520, 65521, 65535, 60000, 59999, 10000, 9999];
    let short = any % 10usize.pow(width);
    let border = random.pick(&tried);
    random.pick(&[any, any, short, short, border])
}

fn some_numeral(random: &mut Random) -> Vec<u8> {
    numeral(some_word(random))
}

/// A good text with lines for some members.
fn page(random: &mut Random, t: usize, d: usize) -> Page {
    let mut page = Page::new(t, d, some_word(random), random.day());
    let (n, width) = (page.layout.n, page.layout.width());
    let mut order: Vec<usize> = (1..=n).collect();
    random.shuffle(&mut order);
    let count = random.within(0, n);
    order.truncate(random.pick(&[count, count, n, 1]));
    for i in order {
        page.add(i, (0..width).map(|_| some_numeral(random)));
    }
    page
}

pub fn some_page(round: &mut Round) -> Page {
    let (t, d) = match round.random.once_in(6) {
        true => (round.some_t(), round.some_d()),
        false => (round.random.within(1, 3), round.random.within(1, 4)),
    };
    page(&mut round.random, t, d)
}

/// A page with at least `count` share lines.
fn page_with(round: &mut Round, count: usize) -> Page {
    loop {
        let page = some_page(round);
        if page.lines.len() > count {
            return page;
        }
    }
}

/// Reads by both sides; a refusal gives nothing but zeros. Now and then the program reads it too.
pub fn submit(round: &mut Round, kind: &str, text: Vec<u8>, room: usize) -> (Read, ReadAnswer) {
    let call = Read {
        text: Text(text),
        words: round.random.words(room),
        t: round.random.draw() as usize,
        d: round.random.draw() as usize,
        quorum: round.random.word(),
        day: round.random.word(),
        present: round.random.mask(),
    };
    let answer = round.ledger.compare(kind, &call);
    let nothing = ReadAnswer {
        number: answer.number,
        words: vec![0; room],
        t: 0,
        d: 0,
        quorum: 0,
        day: 0,
        present: 0,
    };
    let right = answer.number == 0 || answer == nothing;
    let what = "not all 0 after a refusal";
    round.ledger.demand(right, kind, &call, what, &answer);
    if room == ROOM {
        program::try_text(round, kind, &call.text.0);
    }
    (call, answer)
}

/// Reads a text whose number is known; true if it is the one given.
fn expect(round: &mut Round, kind: &str, text: Vec<u8>, room: usize, number: u16) -> bool {
    let (call, answer) = submit(round, kind, text, room);
    let right = answer.number == number;
    let what = format!("{number} expected");
    round.ledger.demand(right, kind, &call, &what, &answer);
    right
}

fn good(round: &mut Round) {
    let page = some_page(round);
    let shares = page.lines.len() - 1;
    if shares == 0 {
        round.ledger.note("read: good with no share");
    }
    if shares == page.layout.n {
        round.ledger.note("read: good with all shares");
    }
    expect(round, "good text", page.bytes(), ROOM, 0);
}

/// Each end of the days is read, and the round's word that is no day is refused.
fn days(round: &mut Round) {
    for (day, number) in round.tried_days(22) {
        let kind = "each day in a text";
        let mut page = some_page(round);
        page.lines[0][DAY] = numeral(day as usize);
        let (call, answer) = submit(round, kind, page.bytes(), ROOM);
        let given = if number == 0 { day } else { 0 };
        let right = (answer.number, answer.day) == (number, given);
        let what = format!("{number} and day {given} expected");
        round.ledger.demand(right, kind, &call, &what, &answer);
        round.ledger.note(format!("read: {number}, day {day}"));
    }
}

/// The longest good text there is.
fn longest_good(round: &mut Round) {
    let mut page = page(&mut round.random, 15, 64);
    for line in page.lines.iter_mut().skip(1) {
        for field in line.iter_mut().skip(2) {
            *field = numeral(round.random.within(10000, 65535));
        }
    }
    page.lines[0][QUORUM] = numeral(round.random.within(10000, 65535));
    page.lines[0][DAY] = numeral(round.random.within(10000, LARGEST as usize));
    if page.bytes().len() == LONGEST_WRITTEN {
        round.ledger.note("read: the longest good text");
    }
    expect(round, "longest good text", page.bytes(), ROOM, 0);
}

/// Names of the kinds of damage that spoil a line's shape.
pub const DAMAGES: &[&str] = &[
    "leading zero",
    "65536",
    "65537 to 99999",
    "six digits",
    "six digits with leading zeros",
    "empty field",
    "field too many",
    "field missing",
    "double tab",
    "small letter",
    "other letter",
    "carriage return",
    "space or sign",
    "stray byte in a numeral",
    "letter in a numeral",
    "trailing tab",
    "letter doubled",
    "leading tab",
    "blank line",
    "00",
];

/// The kinds that, done to a line's last field, leave its member's field in place.
const BESIDE_MEMBER: [usize; 18] = [0, 1, 2, 3, 4, 5, 6, 7, 8, 9, 10, 11, 12, 13, 14, 15, 16, 19];

/// Spoils a line's shape in the way of that place in the list.
fn damage(random: &mut Random, line: &mut Vec<Vec<u8>>, way: usize) {
    let place = random.within(1, line.len() - 1);
    let place = random.pick(&[place, line.len() - 1, 1]);
    damage_at(random, line, place, way);
}

fn damage_at(random: &mut Random, line: &mut Vec<Vec<u8>>, place: usize, way: usize) {
    match way {
        0 => line[place].insert(0, b'0'),
        1 => line[place] = b"65536".to_vec(),
        2 => line[place] = numeral(random.within(65537, 99999)),
        3 => line[place] = numeral(random.within(100000, 999999)),
        4 => line[place] = format!("{:06}", random.below(65536)).into_bytes(),
        5 => line[place].clear(),
        6 => line.push(b"1".to_vec()),
        7 => drop(line.pop()),
        8 => line.insert(place, Vec::new()),
        15 => line.push(Vec::new()),
        17 => line.insert(0, Vec::new()),
        18 => *line = vec![Vec::new()],
        19 => line[place] = b"00".to_vec(),
        9 | 10 | 16 => letter_damage(random, &mut line[0], way),
        _ => byte_damage(random, line, place, way),
    }
}

fn letter_damage(random: &mut Random, field: &mut Vec<u8>, way: usize) {
    match way {
        9 => field.make_ascii_lowercase(),
        10 => {
            let other = if field == b"D" { b'P' } else { b'D' };
            field[0] = random.pick(&[other, b'A', b'Q', 0, 0xff]);
        }
        _ => field.push(field[0]),
    }
}

fn byte_damage(random: &mut Random, line: &mut [Vec<u8>], place: usize, way: usize) {
    let last = line.len() - 1;
    let byte = match way {
        11 => b'\r',
        12 => random.pick(b" +-._"),
        13 => random.pick(&[0, 8, 11, 12, b'/', b':', b'a', 0x7f, 0x80, 0xb5, 0xff]),
        _ => random.pick(b"DP"),
    };
    let field = if way == 11 {
        &mut line[last]
    } else {
        &mut line[place]
    };
    let at = match (way, random.coin()) {
        (11, _) | (_, true) => field.len(),
        _ => random.within(0, field.len()),
    };
    if way > 11 && at < field.len() && random.coin() {
        field[at] = byte;
    } else {
        field.insert(at, byte);
    }
}

/// Damage to the first line: shape, t or d.
fn first_lines(round: &mut Round) {
    let mut page = some_page(round);
    let way = round.random.below(DAMAGES.len() + 2);
    let line = &mut page.lines[0];
    if way < DAMAGES.len() {
        damage(&mut round.random, line, way);
        let name = DAMAGES[way];
        round.ledger.note(format!("read: first line, {name}"));
    } else if way == DAMAGES.len() {
        line[1] = round.random.pick(&[0, 16, 17, 65535]).to_string().into();
        round.ledger.note("read: first line, t outside");
    } else {
        line[2] = round.random.pick(&[0, 65, 128, 65535]).to_string().into();
        round.ledger.note("read: first line, d outside");
    }
    expect(round, "first line spoilt", page.bytes(), ROOM, 22);
}

/// Names of what is no day at the end of a first line.
pub const DAY_FAULTS: &[&str] = &[
    "day 0",
    "day above 65520",
    "day that is good modulo 65536",
    "day with a leading zero",
    "day empty",
    "day missing",
    "day missing, the quorum one",
    "day doubled",
    "day before the quorum, which is none",
];

/// Puts that in place of the day.
fn spoil_day(random: &mut Random, line: &mut Vec<Vec<u8>>, way: usize) {
    match way {
        0 => line[DAY] = numeral(0),
        1 => line[DAY] = numeral(random.above() as usize),
        2 => line[DAY] = numeral(random.day() as usize + 65536),
        3 => line[DAY].insert(0, b'0'),
        4 => line[DAY].clear(),
        5 => drop(line.pop()),
        6 => drop(line.remove(QUORUM)),
        7 => line.push(line[DAY].clone()),
        _ => {
            line[QUORUM] = numeral(random.no_day() as usize);
            line.swap(QUORUM, DAY);
        }
    }
}

/// A first line that is good but for the day.
fn day_faults(round: &mut Round) {
    let mut page = some_page(round);
    let way = round.random.below(DAY_FAULTS.len());
    spoil_day(&mut round.random, &mut page.lines[0], way);
    let name = DAY_FAULTS[way];
    round.ledger.note(format!("read: first line, {name}"));
    expect(round, "day spoilt", page.bytes(), ROOM, 22);
}

/// Damage to a share line's shape.
fn share_lines(round: &mut Round) {
    let mut page = page_with(round, 1);
    let way = round.random.below(DAMAGES.len());
    let line = round.random.within(1, page.lines.len() - 1);
    damage(&mut round.random, &mut page.lines[line], way);
    let name = DAMAGES[way];
    round.ledger.note(format!("read: share line, {name}"));
    expect(round, "share line spoilt", page.bytes(), ROOM, 23);
}

/// Gives a share line a member that is outside 1..n or was met before.
fn wrong_member(random: &mut Random, page: &mut Page, line: usize) -> &'static str {
    let n = page.layout.n;
    let before: Vec<Vec<u8>> = page.lines[1..line].iter().map(|l| l[1].clone()).collect();
    let (name, member) = match random.below(4) {
        0 => ("0", numeral(0)),
        1 => ("n + 1", numeral(n + 1)),
        2 => {
            let any = random.within(n + 1, 65535);
            ("far outside", numeral(random.pick(&[32, 33, 65535, any])))
        }
        _ if before.is_empty() => ("0", numeral(0)),
        _ => {
            let place = random.below(before.len());
            ("met before", before[place].clone())
        }
    };
    page.lines[line][1] = member;
    name
}

fn member_faults(round: &mut Round) {
    let mut page = page_with(round, 2);
    let line = round.random.within(1, page.lines.len() - 1);
    let name = wrong_member(&mut round.random, &mut page, line);
    round.ledger.note(format!("read: member {name}"));
    expect(round, "wrong member", page.bytes(), ROOM, 24);
}

/// Names of what can stand at a text's end.
pub const ENDS: &[&str] = &[
    "no last line end",
    "a blank line",
    "bytes after the end",
    "a carriage return",
    "no line end at all",
    "empty",
    "one line end",
];

fn ends(round: &mut Round) {
    let page = page_with(round, 1);
    let mut text = page.bytes();
    let way = round.random.below(ENDS.len());
    let number = match way {
        0 => {
            text.pop();
            23
        }
        1 => {
            text.push(b'\n');
            23
        }
        2 => {
            text.push(round.random.pick(b"DP\t0\0"));
            23
        }
        3 => {
            text.insert(text.len() - 1, b'\r');
            23
        }
        4 => {
            let end = text.iter().position(|b| *b == b'\n').unwrap_or(0);
            text.truncate(end);
            22
        }
        5 => {
            text.clear();
            22
        }
        _ => {
            text = vec![b'\n'];
            22
        }
    };
    round.ledger.note(format!("read: {}", ENDS[way]));
    expect(round, "ends of a text", text, ROOM, number);
}

/// A few bytes changed, put in or taken out anywhere.
fn edits(round: &mut Round) {
    let mut text = some_page(round).bytes();
    let random = &mut round.random;
    for _ in 0..random.within(1, 3) {
        let place = random.below(text.len());
        let any = random.word() as u8;
        let byte = random.pick(&[b'\t', b'\n', b'0', b'7', b'D', b'P', any]);
        match random.below(4) {
            0 => text.insert(place, byte),
            1 if text.len() > 1 => drop(text.remove(place)),
            2 => text.truncate(place.max(1)),
            _ => text[place] = byte,
        }
    }
    submit(round, "edited text", text, ROOM);
}

/// Texts as long as allowed and longer.
fn long(round: &mut Round) {
    for size in [40000, 40001, 40002, 66000, 200000] {
        let start = some_page(round).bytes();
        let mut text = match round.random.below(3) {
            0 => Vec::new(),
            _ => start.clone(),
        };
        let filler = match round.random.below(4) {
            0 => b"0".to_vec(),
            1 => b"\n".to_vec(),
            2 => round.random.words(7).iter().map(|w| *w as u8).collect(),
            _ => start,
        };
        while text.len() < size {
            text.extend(&filler);
        }
        text.truncate(size);
        let (call, answer) = submit(round, "long text", text, ROOM);
        let right = (answer.number == 21) == (size > 40000);
        let what = "21 just above 40000 bytes";
        round
            .ledger
            .demand(right, "long text", &call, what, &answer);
        round.ledger.note(format!("read: {size} bytes"));
    }
}

/// Buffers of any length.
fn lengths(round: &mut Round) {
    for room in [0, 1, 30, 63, 64, 65, 4866, 4868, 5000] {
        let page = some_page(round);
        expect(round, "any buffer", page.bytes(), room, 25);
    }
}

/// A page with faults, and the length of the buffer that it is read into.
pub struct Faulty {
    pub page: Page,
    room: usize,
}

impl Faulty {
    pub fn new(page: Page) -> Faulty {
        Faulty { page, room: ROOM }
    }

    /// Adds the fault, and leaves the others in place.
    pub fn spoil(&mut self, random: &mut Random, fault: Fault) {
        let last = self.page.lines.len() - 1;
        match fault {
            Fault::Room => self.room = random.pick(&[4866, 4868]),
            Fault::TooLong => {
                let more = self.page.bytes();
                while self.page.tail.len() <= LONGEST {
                    self.page.tail.extend(&more);
                }
            }
            Fault::FirstLine => {
                let line = &mut self.page.lines[0];
                let (shape, day) = (random.below(DAMAGES.len()), random.below(DAY_FAULTS.len()));
                match random.coin() {
                    true => damage(random, line, shape),
                    false => spoil_day(random, line, day),
                }
            }
            Fault::Shape(back) => {
                let line = &mut self.page.lines[last - back];
                let way = random.pick(&BESIDE_MEMBER);
                damage_at(random, line, line.len() - 1, way);
            }
            Fault::Member(back) => drop(wrong_member(random, &mut self.page, last - back)),
        }
    }

    /// Adds the fault; true if the text is then refused for it.
    fn spoil_and_expect(&mut self, round: &mut Round, fault: Fault) -> bool {
        self.spoil(&mut round.random, fault);
        let text = self.page.bytes();
        expect(round, "two faults", text, self.room, fault.number())
    }
}

/// For each two faults: a good text gets the second one, and then the first one too.
fn orders(round: &mut Round) {
    for (name, first, second) in ORDERS {
        let mut text = Faulty::new(page_with(round, 2));
        let alone = text.spoil_and_expect(round, *second);
        let before = text.spoil_and_expect(round, *first);
        if alone && before {
            round.ledger.note(format!("read: {name}"));
        }
    }
}
