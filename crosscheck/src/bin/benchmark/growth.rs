//! The second table: how the library's cost grows with t and d.

use std::hint::black_box;

use crosscheck::library::plain;
use crosscheck::random::Random;
use crosscheck::reference::everybody;
use crosscheck::reference::sharing::{Layout, random_words};

use crate::shares::{DAY, altered, blind_shares, dealt};
use crate::times::{Times, timed};

const THRESHOLDS: [usize; 4] = [1, 3, 7, 15];
const LENGTHS: [usize; 3] = [1, 8, 64];
/// What one measurement takes at the least, in microseconds; the clock is far finer.
const LONG_ENOUGH: f64 = 50.0;

/// One thing measured: a call that is not refused, made so often that the clock does not matter.
struct Work {
    call: Box<dyn FnMut() -> u16>,
    calls: usize,
    times: Times,
}

impl Work {
    fn new(call: Box<dyn FnMut() -> u16>) -> Self {
        let times = Times::default();
        let mut work = Work {
            call,
            calls: 1,
            times,
        };
        while work.quickest_of_five() < LONG_ENOUGH {
            work.calls *= 2;
        }
        work
    }

    /// Microseconds of all calls of one measurement.
    fn measurement(&mut self) -> f64 {
        let calls = self.calls;
        let (time, number) = timed(&mut || (0..calls).fold(0, |all, _| all | (self.call)()));
        assert_eq!(number, 0);
        time
    }

    fn quickest_of_five(&mut self) -> f64 {
        Times((0..5).map(|_| self.measurement()).collect()).least()
    }

    /// Notes the time of one call.
    fn measure(&mut self) {
        let time = self.measurement() / self.calls as f64;
        self.times.0.push(time);
    }
}

/// One line of the table.
struct Line {
    t: usize,
    d: usize,
    /// Dealing, honest opening, and opening with t/2 altered, if that is not 0.
    works: [Option<Work>; 3],
}

impl Line {
    fn new(random: &mut Random, t: usize, d: usize) -> Self {
        let secret = random.fields(d);
        let tape = random.fields(random_words(t, d));
        let honest = opening(t, dealt(t, &secret, &tape), &secret, 0);
        let liars = (t / 2 > 0).then(|| opening_altered(random, t, &secret));
        let works = [Some(dealing(t, secret, tape)), Some(honest), liars];
        Line { t, d, works }
    }

    fn measure(&mut self) {
        self.works.iter_mut().flatten().for_each(Work::measure);
    }

    fn print(&self) {
        print!("| {} | {} | {} |", self.t, 2 * self.t + 1, self.d);
        for work in &self.works {
            match work {
                Some(Work { times, .. }) => {
                    print!(" {:.2} | {:.2} |", times.median(), times.least())
                }
                None => print!(" - | - |"),
            }
        }
        println!();
    }
}

fn dealing(t: usize, secret: Vec<u16>, tape: Vec<u16>) -> Work {
    let mut shares = vec![0; Layout::new(t, secret.len()).total()];
    let call = move || plain::deal(t, DAY, &secret, &tape, black_box(&mut shares));
    Work::new(Box::new(call))
}

/// With everybody present and the least quorum. All have to survive, and the first `liars` alone
/// must not agree.
fn opening(t: usize, shares: Vec<u16>, secret: &[u16], liars: usize) -> Work {
    let all = everybody(2 * t + 1);
    let quorum = t as u16 + 1;
    let mut found = vec![0; secret.len()];
    let (number, survivors, agreeing, _) = plain::open(t, DAY, all, quorum, &shares, &mut found);
    assert_eq!((number, survivors), (0, all));
    assert_eq!(agreeing, all & !everybody(liars));
    assert_eq!(found, secret);
    let call = move || plain::open(t, DAY, all, quorum, &shares, black_box(&mut found)).0;
    Work::new(Box::new(call))
}

/// The first t/2 members are altered in all words.
fn opening_altered(random: &mut Random, t: usize, secret: &[u16]) -> Work {
    let d = secret.len();
    let blind = blind_shares(random, t, secret);
    let handed = altered(Layout::new(t, d), &blind, t / 2, 0..d);
    opening(t, handed, secret, t / 2)
}

/// Measures every line once in each repetition.
fn measured(count: usize) -> Vec<Line> {
    let mut random = Random::new(4);
    let mut lines = Vec::new();
    for t in THRESHOLDS {
        for d in LENGTHS {
            lines.push(Line::new(&mut random, t, d));
        }
    }
    for _ in 0..count {
        lines.iter_mut().for_each(Line::measure);
    }
    lines
}

pub fn print_growth(count: usize) {
    let lines = measured(count);
    println!("How the cost grows: the library's times in microseconds, {count} repetitions. Short");
    println!("calls are made several times in a row, and the time is that of one. The t/2 members");
    println!("are altered in all words, and all survive.");
    println!();
    println!(
        "| t | n | d | dealing, median | dealing, least | opening, n honest, median | opening, n honest, least | opening, t/2 altered, median | opening, t/2 altered, least |"
    );
    println!("|---:|---:|---:|---:|---:|---:|---:|---:|---:|");
    lines.iter().for_each(Line::print);
}
