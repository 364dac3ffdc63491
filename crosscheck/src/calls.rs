//! The library's calls, the program's texts and their answers as plain data, and how each side
//! answers them.

use std::fmt;

use crate::library;
use crate::program;
use crate::reference::decoding::{Way, decode};
use crate::reference::look;
use crate::reference::program::printed;
use crate::reference::pruning::prune;
use crate::reference::sharing::{Pairs, deal, open, tag};
use crate::reference::text::{read, write};

/// What is wrong beside the answer: a lent input changed, or a word beside a buffer.
pub type Damage = Vec<&'static str>;

/// The things tested: the library, the program `opening` and the program `weights`.
pub const LIBRARY: &str = "library";
pub const PROGRAM: &str = "program";
pub const WEIGHTS: &str = "weights";

/// A call with all that it is lent, each buffer as it is before the call.
pub trait Call: fmt::Debug {
    type Answer: fmt::Debug + PartialEq;
    const NAME: &'static str;
    /// What answers it.
    const TESTED: &'static str = LIBRARY;

    fn by_reference(&self) -> Self::Answer;
    fn under_test(&self) -> (Self::Answer, Damage);
    /// The refusal number, where the call has one.
    fn number(answer: &Self::Answer) -> Option<u16>;
    /// The other implementation's second way, where it has one and it is not too long.
    fn second_way(&self, _patient: bool) -> Option<Self::Answer> {
        None
    }
}

#[derive(Clone, Debug)]
pub struct Deal {
    pub t: usize,
    pub day: u16,
    pub secret: Vec<u16>,
    pub random: Vec<u16>,
    pub shares: Vec<u16>,
}

#[derive(Clone, Debug, PartialEq, Eq)]
pub struct Dealt {
    pub number: u16,
    pub shares: Vec<u16>,
}

impl Call for Deal {
    type Answer = Dealt;
    const NAME: &'static str = "deal";

    fn by_reference(&self) -> Dealt {
        let mut shares = self.shares.clone();
        let number = deal(self.t, self.day, &self.secret, &self.random, &mut shares);
        Dealt { number, shares }
    }

    fn under_test(&self) -> (Dealt, Damage) {
        library::deal(self)
    }

    fn number(answer: &Dealt) -> Option<u16> {
        Some(answer.number)
    }
}

#[derive(Clone, Debug)]
pub struct Open {
    pub t: usize,
    pub day: u16,
    pub present: u32,
    pub quorum: u16,
    pub shares: Vec<u16>,
    pub secret: Vec<u16>,
    pub survivors: u32,
    pub agreeing: u32,
    pub pairs: [u16; 3],
}

#[derive(Clone, Debug, PartialEq, Eq)]
pub struct Opened {
    pub number: u16,
    pub secret: Vec<u16>,
    pub survivors: u32,
    pub agreeing: u32,
    pub pairs: Pairs,
}

impl Open {
    /// How many usable members the quorum asks for.
    pub fn asked(&self) -> usize {
        match self.quorum {
            0 => self.t + 2,
            given => given as usize,
        }
    }

    fn by(&self, way: Way) -> Opened {
        let mut secret = self.secret.clone();
        let opening = open(
            self.t,
            self.day,
            self.present,
            self.quorum,
            &self.shares,
            &mut secret,
            way,
        );
        Opened {
            number: opening.number,
            secret,
            survivors: opening.survivors,
            agreeing: opening.agreeing,
            pairs: opening.pairs,
        }
    }
}

impl Call for Open {
    type Answer = Opened;
    const NAME: &'static str = "open";

    fn by_reference(&self) -> Opened {
        self.by(Way::Elimination)
    }

    fn under_test(&self) -> (Opened, Damage) {
        library::open(self)
    }

    fn number(answer: &Opened) -> Option<u16> {
        Some(answer.number)
    }

    fn second_way(&self, patient: bool) -> Option<Opened> {
        searched(self.t, patient).then(|| self.by(Way::Subsets))
    }
}

/// Whether all subsets are tried: always for small t, for some larger ones now and then.
fn searched(t: usize, patient: bool) -> bool {
    t <= 3 || (t <= 5 && patient)
}

#[derive(Clone, Debug)]
pub struct Prune {
    pub t: usize,
    pub rows: Vec<u32>,
    pub survivors: u32,
}

#[derive(Clone, Debug, PartialEq, Eq)]
pub struct Pruned {
    pub number: u16,
    pub survivors: u32,
}

impl Call for Prune {
    type Answer = Pruned;
    const NAME: &'static str = "prune";

    fn by_reference(&self) -> Pruned {
        let (number, survivors) = prune(self.t, &self.rows);
        Pruned { number, survivors }
    }

    fn under_test(&self) -> (Pruned, Damage) {
        library::prune(self)
    }

    fn number(answer: &Pruned) -> Option<u16> {
        Some(answer.number)
    }
}

#[derive(Clone, Debug)]
pub struct Decode {
    pub t: usize,
    pub values: Vec<u16>,
    pub set: u32,
    pub coefficients: Vec<u16>,
}

#[derive(Clone, Debug, PartialEq, Eq)]
pub struct Decoded {
    pub number: u16,
    pub coefficients: Vec<u16>,
}

impl Decode {
    fn by(&self, way: Way) -> Decoded {
        let mut coefficients = self.coefficients.clone();
        let number = decode(self.t, &self.values, self.set, &mut coefficients, way);
        Decoded {
            number,
            coefficients,
        }
    }
}

impl Call for Decode {
    type Answer = Decoded;
    const NAME: &'static str = "decode";

    fn by_reference(&self) -> Decoded {
        self.by(Way::Elimination)
    }

    fn under_test(&self) -> (Decoded, Damage) {
        library::decode(self)
    }

    fn number(answer: &Decoded) -> Option<u16> {
        Some(answer.number)
    }

    fn second_way(&self, patient: bool) -> Option<Decoded> {
        searched(self.t, patient).then(|| self.by(Way::Subsets))
    }
}

#[derive(Clone, Debug)]
pub struct Tag {
    pub alpha: u16,
    pub beta: u16,
    pub words: Vec<u16>,
}

impl Call for Tag {
    type Answer = u16;
    const NAME: &'static str = "tag";

    fn by_reference(&self) -> u16 {
        tag(self.alpha, self.beta, &self.words)
    }

    fn under_test(&self) -> (u16, Damage) {
        library::tag(self)
    }

    fn number(_: &u16) -> Option<u16> {
        None
    }
}

/// A text, shown with its tabs and line ends written out.
#[derive(Clone, PartialEq, Eq)]
pub struct Text(pub Vec<u8>);

impl Text {
    /// The fields of the first line.
    pub fn first_line(&self) -> Vec<&[u8]> {
        let mut lines = self.0.split(|byte| *byte == b'\n');
        let first = lines.next().unwrap_or_default();
        first.split(|byte| *byte == b'\t').collect()
    }

    /// The number of what the program printed: 0 if it opened.
    pub fn number(&self) -> Option<u16> {
        match self.first_line()[..] {
            [b"OPEN", ..] => Some(0),
            [b"REFUSED", number, ..] => str::from_utf8(number).ok()?.parse().ok(),
            _ => None,
        }
    }
}

impl fmt::Debug for Text {
    fn fmt(&self, f: &mut fmt::Formatter<'_>) -> fmt::Result {
        write!(f, "{} bytes \"{}\"", self.0.len(), self.0.escape_ascii())
    }
}

#[derive(Clone, Debug)]
pub struct Read {
    pub text: Text,
    pub words: Vec<u16>,
    pub t: usize,
    pub d: usize,
    pub quorum: u16,
    pub day: u16,
    pub present: u32,
}

#[derive(Clone, Debug, PartialEq, Eq)]
pub struct ReadAnswer {
    pub number: u16,
    pub words: Vec<u16>,
    pub t: usize,
    pub d: usize,
    pub quorum: u16,
    pub day: u16,
    pub present: u32,
}

impl Call for Read {
    type Answer = ReadAnswer;
    const NAME: &'static str = "read";

    fn by_reference(&self) -> ReadAnswer {
        let mut words = self.words.clone();
        let reading = read(&self.text.0, &mut words);
        ReadAnswer {
            number: reading.number,
            words,
            t: reading.t,
            d: reading.d,
            quorum: reading.quorum,
            day: reading.day,
            present: reading.present,
        }
    }

    fn under_test(&self) -> (ReadAnswer, Damage) {
        library::read(self)
    }

    fn number(answer: &ReadAnswer) -> Option<u16> {
        Some(answer.number)
    }
}

#[derive(Clone, Debug)]
pub struct Write {
    pub t: usize,
    pub d: usize,
    pub quorum: u16,
    pub day: u16,
    pub present: u32,
    pub shares: Vec<u16>,
    pub text: Text,
    pub count: usize,
}

#[derive(Clone, Debug, PartialEq, Eq)]
pub struct Written {
    pub number: u16,
    pub text: Text,
    pub count: usize,
}

impl Call for Write {
    type Answer = Written;
    const NAME: &'static str = "write";

    fn by_reference(&self) -> Written {
        let mut text = self.text.clone();
        let (number, count) = write(
            self.t,
            self.d,
            self.quorum,
            self.day,
            self.present,
            &self.shares,
            &mut text.0,
        );
        Written {
            number,
            text,
            count,
        }
    }

    fn under_test(&self) -> (Written, Damage) {
        library::write(self)
    }

    fn number(answer: &Written) -> Option<u16> {
        Some(answer.number)
    }
}

/// A text for the program `opening`, whose answer is what it prints.
#[derive(Clone, Debug)]
pub struct Print {
    pub text: Text,
}

impl Call for Print {
    type Answer = Text;
    const NAME: &'static str = PROGRAM;
    const TESTED: &'static str = PROGRAM;

    fn by_reference(&self) -> Text {
        Text(printed(&self.text.0).into_bytes())
    }

    fn under_test(&self) -> (Text, Damage) {
        let (output, damage) = program::run(&program::OPENING, &self.text.0);
        (Text(output), damage)
    }

    fn number(answer: &Text) -> Option<u16> {
        answer.number()
    }
}

/// A run of the program `weights`, which prints the same whatever it could read.
#[derive(Clone, Debug)]
pub struct Weights {
    pub text: Text,
}

impl Call for Weights {
    type Answer = Text;
    const NAME: &'static str = WEIGHTS;
    const TESTED: &'static str = WEIGHTS;

    fn by_reference(&self) -> Text {
        Text(look::printed().into_bytes())
    }

    fn under_test(&self) -> (Text, Damage) {
        let (output, damage) = program::run(&program::WEIGHTS, &self.text.0);
        (Text(output), damage)
    }

    fn number(_: &Text) -> Option<u16> {
        None
    }
}
