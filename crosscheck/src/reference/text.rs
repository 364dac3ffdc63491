//! The reader of hand-in text, by splitting into lines and fields, and the writer.

use super::sharing::{Layout, fitting};
use super::{allowed, holds, is_day, members};

/// How many words the reader's buffer has.
pub const ROOM: usize = 4867;
/// The longest text that is read, in bytes.
pub const LONGEST: usize = 40000;
/// The longest text that is written, in bytes.
pub const LONGEST_WRITTEN: usize = 29368;

/// What the reader gives beside the words.
#[derive(Clone, Copy, Debug, Default, PartialEq, Eq)]
pub struct Reading {
    pub number: u16,
    pub t: usize,
    pub d: usize,
    pub quorum: u16,
    pub day: u16,
    pub present: u32,
}

/// The call: reads into `words`; a refusal fills it with 0.
pub fn read(text: &[u8], words: &mut [u16]) -> Reading {
    words.fill(0);
    let result = if words.len() != ROOM {
        Err(25)
    } else if text.len() > LONGEST {
        Err(21)
    } else {
        lines_of(text, words)
    };
    result.unwrap_or_else(|number| {
        words.fill(0);
        Reading {
            number,
            ..Reading::default()
        }
    })
}

fn lines_of(text: &[u8], words: &mut [u16]) -> Result<Reading, u16> {
    let mut lines: Vec<&[u8]> = text.split(|byte| *byte == b'\n').collect();
    let unended = lines.pop().filter(|rest| !rest.is_empty());
    let (first, others) = lines.split_first().ok_or(22u16)?;
    let mut reading = first_line(first).ok_or(22u16)?;
    let layout = Layout::new(reading.t, reading.d);
    for line in others {
        let (member, share) = share_line(line, layout.width()).ok_or(23u16)?;
        let i = member as usize;
        if !(1..=layout.n).contains(&i) || holds(reading.present, i) {
            return Err(24);
        }
        reading.present |= 1 << (i - 1);
        words[layout.word(i, 0)..layout.word(i + 1, 0)].copy_from_slice(&share);
    }
    match unended {
        Some(_) => Err(23),
        None => Ok(reading),
    }
}

fn fields(line: &[u8]) -> Vec<&[u8]> {
    line.split(|byte| *byte == b'\t').collect()
}

fn first_line(line: &[u8]) -> Option<Reading> {
    let fields = fields(line);
    if fields.len() != 5 || fields[0] != b"D" {
        return None;
    }
    let t = numeral(fields[1])? as usize;
    let d = numeral(fields[2])? as usize;
    let quorum = numeral(fields[3])?;
    let day = numeral(fields[4])?;
    let good = allowed(t) && (1..=64).contains(&d) && is_day(day);
    good.then_some(Reading {
        number: 0,
        t,
        d,
        quorum,
        day,
        present: 0,
    })
}

/// The member and its share.
fn share_line(line: &[u8], width: usize) -> Option<(u16, Vec<u16>)> {
    let fields = fields(line);
    if fields.len() != 2 + width || fields[0] != b"P" {
        return None;
    }
    let member = numeral(fields[1])?;
    let share: Option<Vec<u16>> = fields[2..].iter().map(|field| numeral(field)).collect();
    Some((member, share?))
}

/// 1 to 5 digits, at most 65535, no leading zero except 0 itself.
fn numeral(field: &[u8]) -> Option<u16> {
    let digits = std::str::from_utf8(field).ok()?;
    let plain = !digits.is_empty() && digits.bytes().all(|b| b.is_ascii_digit());
    if !plain || digits.len() > 5 || (digits.len() > 1 && digits.starts_with('0')) {
        return None;
    }
    digits.parse().ok()
}

/// The call: writes into `text`, which a refusal leaves as it is, as it does the bytes past what is
/// written. Gives the refusal number and how many bytes were written.
pub fn write(
    t: usize,
    d: usize,
    quorum: u16,
    day: u16,
    present: u32,
    shares: &[u16],
    text: &mut [u8],
) -> (u16, usize) {
    let layout = match fitting(t, d, day, present, shares) {
        Ok(layout) => layout,
        Err(number) => return (number, 0),
    };
    let first = format!("D\t{t}\t{d}\t{quorum}\t{day}\n");
    let written = first + &share_lines(layout, present, shares);
    match text.get_mut(..written.len()) {
        Some(start) => start.copy_from_slice(written.as_bytes()),
        None => return (31, 0),
    }
    (0, written.len())
}

/// The lines of the members present.
fn share_lines(layout: Layout, present: u32, shares: &[u16]) -> String {
    let mut text = String::new();
    for i in members(present) {
        let words = layout.share(shares, i).iter();
        let fields: Vec<String> = words.map(|word| word.to_string()).collect();
        text += &format!("P\t{i}\t{}\n", fields.join("\t"));
    }
    text
}
