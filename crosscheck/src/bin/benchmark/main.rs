//! Measures the library beside the other implementation at full size (t = 15, d = 64, n = 31),
//! then the library alone at several sizes, and prints tables. `benchmark [REPETITIONS]`; it wants
//! a release build.
//!
//! Each repetition measures every row of a table once, so that all of them meet the same
//! conditions. The plain pass is 961 tags of 64 words by Horner's rule, each of its own data.

mod growth;
mod plain_pass;
mod rows;
mod shares;
mod times;

use growth::print_growth;
use plain_pass::Pass;
use rows::{Row, rows};
use times::{Times, timed};

/// The times of the first table: both sides' by row, and the plain pass.
struct Measured {
    library: Vec<Times>,
    reference: Vec<Times>,
    pass: Times,
}

fn measure(rows: &mut [Row], count: usize) -> Measured {
    let pass = Pass::new();
    let mut measured = Measured {
        library: vec![Times::default(); rows.len()],
        reference: vec![Times::default(); rows.len()],
        pass: Times::default(),
    };
    for _ in 0..count {
        measured.pass.0.push(timed(&mut || pass.run()).0);
        for (place, row) in rows.iter_mut().enumerate() {
            let (mine, number) = timed(&mut row.library);
            assert_eq!(number, row.number, "{}", row.name);
            let (theirs, number) = timed(&mut row.reference);
            assert_eq!(number, row.number, "{}", row.name);
            measured.library[place].0.push(mine);
            measured.reference[place].0.push(theirs);
        }
    }
    measured
}

fn print_table(rows: &[Row], measured: &Measured) {
    let pass = &measured.pass;
    let count = pass.0.len();
    println!(
        "Times in microseconds, {count} repetitions, t = 15, d = 64, n = 31. The reference is"
    );
    println!("this package's own implementation in the same build. The plain pass, 961 tags of 64");
    println!(
        "words, took {:.1} (median), {:.1} (least).",
        pass.median(),
        pass.least()
    );
    println!();
    println!(
        "| what | library, median | library, least | reference, median | reference, least | library / reference | library / plain pass |"
    );
    println!("|---|---:|---:|---:|---:|---:|---:|");
    for (place, row) in rows.iter().enumerate() {
        let (mine, theirs) = (&measured.library[place], &measured.reference[place]);
        println!(
            "| {} | {:.1} | {:.1} | {:.1} | {:.1} | {:.3} | {:.3} |",
            row.name,
            mine.median(),
            mine.least(),
            theirs.median(),
            theirs.least(),
            mine.median() / theirs.median(),
            mine.median() / pass.median()
        );
    }
}

/// The rows with a text again, as bytes a second. A byte in a microsecond is 1 MB/s.
fn print_speeds(rows: &[Row], measured: &Measured) {
    println!(
        "The texts of the first table in MB/s, that is millions of bytes a second, by the median"
    );
    println!("and by the least time.");
    println!();
    println!(
        "| what | library, by median | library, by least | reference, by median | reference, by least |"
    );
    println!("|---|---:|---:|---:|---:|");
    for (place, row) in rows.iter().enumerate() {
        let Some(bytes) = row.bytes else { continue };
        let (mine, theirs) = (&measured.library[place], &measured.reference[place]);
        println!(
            "| {} | {:.1} | {:.1} | {:.1} | {:.1} |",
            row.name,
            bytes as f64 / mine.median(),
            bytes as f64 / mine.least(),
            bytes as f64 / theirs.median(),
            bytes as f64 / theirs.least()
        );
    }
}

fn main() {
    let count: usize = match std::env::args().nth(1) {
        Some(given) => given.parse().expect("a number of repetitions"),
        None => 200,
    };
    let count = count.max(1);
    if cfg!(debug_assertions) {
        println!("NOT A RELEASE BUILD: the reference's times mean nothing.");
    }
    let mut rows = rows();
    let measured = measure(&mut rows, count);
    print_table(&rows, &measured);
    println!();
    print_growth(count);
    println!();
    print_speeds(&rows, &measured);
}
