//! The programs under test, run on a text. RUTZEBAM_PROGRAM and RUTZEBAM_WEIGHTS name other files
//! for `opening` and `weights` than those that the project's own build writes.

use std::env;
use std::ffi::OsString;
use std::io::Write;
use std::process::{Child, ChildStdin, Command, Stdio};
use std::thread;

use crate::calls::Damage;

/// One of the programs: what names its file, and the file where nothing does.
pub struct Program {
    variable: &'static str,
    built: &'static str,
}

pub const OPENING: Program = Program {
    variable: "RUTZEBAM_PROGRAM",
    built: concat!(env!("CARGO_MANIFEST_DIR"), "/../target/bin/opening"),
};
pub const WEIGHTS: Program = Program {
    variable: "RUTZEBAM_WEIGHTS",
    built: concat!(env!("CARGO_MANIFEST_DIR"), "/../target/bin/weights"),
};
/// The text is written in pieces, so that the program has to read more than once.
const PIECE: usize = 5000;

fn start(program: &Program) -> Child {
    let path = env::var_os(program.variable).unwrap_or(OsString::from(program.built));
    let mut command = Command::new(&path);
    let started = command.stdin(Stdio::piped()).stdout(Stdio::piped()).spawn();
    started.unwrap_or_else(|problem| panic!("cannot run {path:?}: {problem}"))
}

/// Writes the text. The program may stop reading before its end, and that is no fault.
fn feed(mut input: ChildStdin, text: &[u8]) {
    for piece in text.chunks(PIECE) {
        if input.write_all(piece).is_err() {
            return;
        }
    }
}

/// What the program prints for the text. Writing and reading go on at the same time, so that
/// neither side waits for the other.
pub fn run(program: &Program, text: &[u8]) -> (Vec<u8>, Damage) {
    let mut child = start(program);
    let input = child.stdin.take().expect("a pipe");
    let output = thread::scope(|scope| {
        scope.spawn(|| feed(input, text));
        child.wait_with_output().expect("the program's output")
    });
    let mut damage = Damage::new();
    if !output.status.success() {
        damage.push("the exit status");
    }
    (output.stdout, damage)
}
