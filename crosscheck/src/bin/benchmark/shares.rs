//! The dealings that are opened: honest ones, and ones with altered words that all members survive.

use std::ops::Range;

use crosscheck::random::Random;
use crosscheck::reference::sharing::{Layout, deal, random_words};

/// The day of every dealing.
pub const DAY: u16 = 1;

pub fn dealt(t: usize, secret: &[u16], tape: &[u16]) -> Vec<u16> {
    let mut shares = vec![0; Layout::new(t, secret.len()).total()];
    assert_eq!(deal(t, DAY, secret, tape, &mut shares), 0);
    shares
}

/// A dealing with all keys 0, so that every vote is given whatever is altered.
pub fn blind_shares(random: &mut Random, t: usize, secret: &[u16]) -> Vec<u16> {
    let d = secret.len();
    let mut tape = random.fields(random_words(t, d));
    tape[t * d..].fill(0);
    dealt(t, secret, &tape)
}

/// Alters the words of the first `count` members.
pub fn altered(layout: Layout, shares: &[u16], count: usize, words: Range<usize>) -> Vec<u16> {
    let mut handed = shares.to_vec();
    for i in 1..=count {
        for k in words.clone() {
            let place = layout.word(i, k);
            handed[place] = (handed[place] + 1 + (i * k) as u16 % 7) % 60000;
        }
    }
    handed
}

/// Alters one word each of the first `count` members, a different one for each.
pub fn one_word_each(layout: Layout, shares: &[u16], count: usize) -> Vec<u16> {
    let mut handed = shares.to_vec();
    for i in 1..=count {
        let place = layout.word(i, 8 * (i - 1));
        handed[place] = (handed[place] + 1) % 60000;
    }
    handed
}
