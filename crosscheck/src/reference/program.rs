//! What the program `opening` prints.

use super::decoding::Way;
use super::sharing::{Layout, open};
use super::text::{ROOM, read};

/// Reads the text, opens the shares that the reader found, and prints what came out.
pub fn printed(text: &[u8]) -> String {
    let mut words = [0; ROOM];
    let reading = read(text, &mut words);
    if reading.number != 0 {
        return refused(reading.number, 0);
    }
    let mut secret = vec![0; reading.d];
    let opening = open(
        reading.t,
        reading.day,
        reading.present,
        reading.quorum,
        &words[..Layout::new(reading.t, reading.d).total()],
        &mut secret,
        Way::Elimination,
    );
    if opening.number != 0 {
        return refused(opening.number, opening.survivors);
    }
    let mut lines = format!("OPEN\t{}\t{}\n", opening.survivors, opening.agreeing);
    for (place, word) in (1..).zip(secret) {
        lines += &format!("WORD\t{place}\t{word}\n");
    }
    lines
}

fn refused(number: u16, survivors: u32) -> String {
    format!("REFUSED\t{number}\t{survivors}\n")
}
