//! A hand-in text as lines of fields.

use crate::reference::sharing::Layout;

/// The lines, and what follows the last line end.
#[derive(Clone)]
pub struct Page {
    pub layout: Layout,
    pub lines: Vec<Vec<Vec<u8>>>,
    pub tail: Vec<u8>,
}

impl Page {
    /// The first line alone.
    pub fn new(t: usize, d: usize, quorum: usize, day: u16) -> Page {
        let mut first = vec![b"D".to_vec()];
        first.extend([t, d, quorum, day as usize].map(numeral));
        Page {
            layout: Layout::new(t, d),
            lines: vec![first],
            tail: Vec::new(),
        }
    }

    /// The first line and these members' lines, in that order.
    pub fn of(t: usize, d: usize, quorum: u16, day: u16, shares: &[u16], order: &[usize]) -> Page {
        let mut page = Page::new(t, d, quorum as usize, day);
        for i in order {
            let words = page.layout.share(shares, *i).iter();
            page.add(*i, words.map(|word| numeral(*word as usize)));
        }
        page
    }

    /// Adds a member's line.
    pub fn add(&mut self, member: usize, words: impl Iterator<Item = Vec<u8>>) {
        let mut line = vec![b"P".to_vec(), numeral(member)];
        line.extend(words);
        self.lines.push(line);
    }

    pub fn bytes(&self) -> Vec<u8> {
        let mut text = Vec::new();
        for line in &self.lines {
            text.extend(line.join(&b'\t'));
            text.push(b'\n');
        }
        text.extend(&self.tail);
        text
    }
}

pub fn numeral(number: usize) -> Vec<u8> {
    number.to_string().into_bytes()
}
