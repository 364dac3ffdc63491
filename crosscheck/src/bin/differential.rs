//! Compares the library and the programs with the other implementation on generated calls and
//! texts.
//!
//! `differential [--seed S] [--cases N | --seconds T]` runs rounds S, S + 1, .. until N calls of the
//! library are compared or T seconds are over. A round named by a difference runs again with
//! `--seed ROUND --cases 1`.

use std::process::ExitCode;
use std::time::{Duration, Instant};

use crosscheck::calls::{LIBRARY, PROGRAM, WEIGHTS};
use crosscheck::cases::round;
use crosscheck::compare::Ledger;
use crosscheck::outcomes::required;

/// When a run ends.
enum End {
    Calls(u64),
    At(Duration),
}

fn arguments() -> Result<(u64, End), String> {
    let (mut seed, mut end) = (1, End::Calls(DEFAULT_CALLS));
    let mut list = std::env::args().skip(1);
    while let Some(name) = list.next() {
        let given = list.next().ok_or(format!("{name} needs a number"))?;
        let number = given
            .parse()
            .map_err(|_| format!("{given} is not a number"))?;
        match name.as_str() {
            "--seed" => seed = number,
            "--cases" => end = End::Calls(number),
            "--seconds" => end = End::At(Duration::from_secs(number)),
            _ => return Err(format!("{name} is not known")),
        }
    }
    Ok((seed, end))
}

/// About a minute's work on one core.
const DEFAULT_CALLS: u64 = 1_500_000;

/// Runs rounds until the end or the first difference.
fn run(seed: u64, end: End) -> Ledger {
    let start = Instant::now();
    let mut ledger = Ledger::default();
    for number in seed.. {
        round(number, &mut ledger);
        let over = match end {
            End::Calls(count) => ledger.compared(LIBRARY) >= count,
            End::At(time) => start.elapsed() >= time,
        };
        if over || ledger.difference.is_some() {
            break;
        }
    }
    ledger
}

/// Prints how often each outcome came up; true if none is missing.
fn report(ledger: &Ledger) -> bool {
    for (outcome, count) in &ledger.seen {
        println!("{count:>9}  {outcome}");
    }
    let missing = |name: &String| !ledger.seen.contains_key(name);
    let missing: Vec<String> = required().into_iter().filter(missing).collect();
    for outcome in &missing {
        println!("NEVER REACHED: {outcome}");
    }
    missing.is_empty()
}

fn main() -> ExitCode {
    let (seed, end) = match arguments() {
        Ok(given) => given,
        Err(problem) => {
            eprintln!("{problem}");
            return ExitCode::from(2);
        }
    };
    let ledger = run(seed, end);
    if let Some(difference) = &ledger.difference {
        println!("{difference}");
        return ExitCode::from(1);
    }
    let complete = report(&ledger);
    let [calls, texts, runs] = [LIBRARY, PROGRAM, WEIGHTS].map(|tested| ledger.compared(tested));
    println!(
        "{calls} calls, {texts} texts for `opening` and {runs} runs of `weights` compared, 0 differences"
    );
    match complete {
        true => ExitCode::SUCCESS,
        false => ExitCode::from(1),
    }
}
