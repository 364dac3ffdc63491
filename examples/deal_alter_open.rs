//! Deals a secret to five members for a day, sees that it opens, also from three of them and with one
//! share that cannot be read, and that it does not for the next day, alters one member's share, and
//! opens what they hand in, through its text: the shares are written down, read back and opened.

unsafe extern "C" {
    fn rutzebam_deal(
        t: usize,
        day: u16,
        secret: *const u16,
        secret_len: usize,
        random: *const u16,
        random_len: usize,
        shares: *mut u16,
        shares_len: usize,
    ) -> u16;
    fn rutzebam_open(
        t: usize,
        day: u16,
        present: u32,
        quorum: u16,
        shares: *const u16,
        shares_len: usize,
        secret: *mut u16,
        secret_len: usize,
        survivors: *mut u32,
        agreeing: *mut u32,
        pairs: *mut [u16; 3],
    ) -> u16;
    fn rutzebam_read(
        text: *const u8,
        text_len: usize,
        words: *mut u16,
        words_len: usize,
        t: *mut usize,
        d: *mut usize,
        quorum: *mut u16,
        day: *mut u16,
        present: *mut u32,
    ) -> u16;
    fn rutzebam_write(
        t: usize,
        d: usize,
        quorum: u16,
        day: u16,
        present: u32,
        shares: *const u16,
        shares_len: usize,
        text: *mut u8,
        text_len: usize,
        count: *mut usize,
    ) -> u16;
}

const T: usize = 2;
const D: usize = 3;
const N: usize = 2 * T + 1;
const WIDTH: usize = D + 3 * N;
const DAY: u16 = 321;
const ALL: u32 = (1 << N) - 1;
/// Members 1 to 3.
const THREE: u32 = 7;
/// How many words reading fills, and how many bytes are always enough for writing.
const READ_WORDS: usize = 4867;
const WRITE_BYTES: usize = 29368;

/// Deals the secret for the day into the shares. An error is the number of the check that failed.
fn deal(t: usize, day: u16, secret: &[u16], random: &[u16], shares: &mut [u16]) -> Result<(), u16> {
    // A slice's pointer is never null, and a `&mut` overlaps nothing else.
    let number = unsafe {
        rutzebam_deal(
            t,
            day,
            secret.as_ptr(),
            secret.len(),
            random.as_ptr(),
            random.len(),
            shares.as_mut_ptr(),
            shares.len(),
        )
    };
    if number == 0 { Ok(()) } else { Err(number) }
}

/// What an opening gives. The pairs are how many votes are accepted, mismatched and unread.
struct Opened {
    secret: Vec<u16>,
    survivors: u32,
    agreeing: u32,
    pairs: [u16; 3],
}

/// Opens d words from the shares, dealt for the day. An error is the number of the check that failed, the survivors and
/// the pairs.
fn open(
    t: usize,
    d: usize,
    day: u16,
    present: u32,
    quorum: u16,
    shares: &[u16],
) -> Result<Opened, (u16, u32, [u16; 3])> {
    let mut secret = vec![0; d];
    let (mut survivors, mut agreeing, mut pairs) = (0, 0, [0; 3]);
    // As above; the four places written are this function's own.
    let number = unsafe {
        rutzebam_open(
            t,
            day,
            present,
            quorum,
            shares.as_ptr(),
            shares.len(),
            secret.as_mut_ptr(),
            secret.len(),
            &mut survivors,
            &mut agreeing,
            &mut pairs,
        )
    };
    match number {
        0 => Ok(Opened {
            secret,
            survivors,
            agreeing,
            pairs,
        }),
        _ => Err((number, survivors, pairs)),
    }
}

/// What is handed in: shares with zeros for absent members.
#[derive(PartialEq)]
struct HandIn {
    t: usize,
    d: usize,
    quorum: u16,
    day: u16,
    present: u32,
    shares: Vec<u16>,
}

/// Writes the text. An error is the number of the check that failed.
fn write(given: &HandIn) -> Result<Vec<u8>, u16> {
    let mut text = vec![0; WRITE_BYTES];
    let mut count = 0;
    // As above.
    let number = unsafe {
        rutzebam_write(
            given.t,
            given.d,
            given.quorum,
            given.day,
            given.present,
            given.shares.as_ptr(),
            given.shares.len(),
            text.as_mut_ptr(),
            text.len(),
            &mut count,
        )
    };
    text.truncate(count);
    if number == 0 { Ok(text) } else { Err(number) }
}

/// Reads the text. An error is the number of the check that failed.
fn read(text: &[u8]) -> Result<HandIn, u16> {
    let mut shares = vec![0; READ_WORDS];
    let (mut t, mut d, mut quorum, mut day, mut present) = (0, 0, 0, 0, 0);
    // As above.
    let number = unsafe {
        rutzebam_read(
            text.as_ptr(),
            text.len(),
            shares.as_mut_ptr(),
            shares.len(),
            &mut t,
            &mut d,
            &mut quorum,
            &mut day,
            &mut present,
        )
    };
    let n = 2 * t + 1;
    shares.truncate(n * (d + 3 * n));
    match number {
        0 => Ok(HandIn {
            t,
            d,
            quorum,
            day,
            present,
            shares,
        }),
        _ => Err(number),
    }
}

/// Words for an example only: a recorder takes them from a good source of randomness. A word above
/// 65520 is drawn again, so that no field word is likelier than another.
fn draw(count: usize) -> Vec<u16> {
    let mut state = 1u32;
    let mut next = || {
        state = state.wrapping_mul(1664525).wrapping_add(1013904223);
        (state >> 16) as u16
    };
    std::iter::repeat_with(&mut next)
        .filter(|word| *word <= 65520)
        .take(count)
        .collect()
}

/// Opens the shares of the present members: an error unless that gives the secret, the members given
/// survive and agree, and the pairs are those given.
fn must_open(
    present: u32,
    quorum: u16,
    shares: &[u16],
    secret: &[u16],
    members: u32,
    pairs: [u16; 3],
) -> Result<(), String> {
    let opened = open(T, D, DAY, present, quorum, shares)
        .map_err(|refused| format!("opening: {refused:?}"))?;
    let (survivors, agreeing) = (opened.survivors, opened.agreeing);
    println!(
        "opening: survivors {survivors}, agreeing {agreeing}, pairs {:?}, secret {:?}",
        opened.pairs, opened.secret
    );
    let as_told = survivors == members && agreeing == members && opened.pairs == pairs;
    match opened.secret == secret && as_told {
        true => Ok(()),
        false => Err("another secret, other members or other pairs".to_string()),
    }
}

/// Opens the shares of members 1 to 3: an error unless quorum 0 refuses, since it asks for one share
/// more than T + 1, and quorum T + 1 gives the secret.
fn must_open_without_spare(shares: &[u16], secret: &[u16]) -> Result<(), String> {
    match open(T, D, DAY, THREE, 0, shares) {
        Err((14, 0, [9, 0, 16])) => println!("opening three with quorum 0: 14"),
        _ => return Err("quorum 0 did not ask for a spare, or other pairs".to_string()),
    }
    must_open(THREE, T as u16 + 1, shares, secret, THREE, [9, 0, 16])
}

/// Member 5 hands in a word that is no field word: an error unless the others give the secret, with
/// the pairs of member 5 unread and nothing mismatched.
fn must_open_with_one_unreadable(shares: &[u16], secret: &[u16]) -> Result<(), String> {
    let mut shares = shares.to_vec();
    shares[N * WIDTH - 1] = 65535;
    must_open(ALL, 0, &shares, secret, ALL - 16, [16, 0, 9])
}

/// Opens the shares of all members for the next day: an error unless that refuses with 15, since under
/// these keys no tag is that of another day.
fn must_refuse_for_another_day(shares: &[u16]) -> Result<(), String> {
    match open(T, D, DAY + 1, ALL, 0, shares) {
        Err((15, 0, [0, 25, 0])) => println!("opening for another day: 15"),
        _ => return Err("another day opened, or other pairs".to_string()),
    }
    Ok(())
}

/// Writes the shares of all members as text, and reads them back: an error unless that gives what
/// was written.
fn must_hand_in(shares: &[u16]) -> Result<Vec<u16>, String> {
    let given = HandIn {
        t: T,
        d: D,
        quorum: 0,
        day: DAY,
        present: ALL,
        shares: shares.to_vec(),
    };
    let text = write(&given).map_err(|number| format!("writing: {number}"))?;
    println!("writing: {} bytes", text.len());
    let found = read(&text).map_err(|number| format!("reading: {number}"))?;
    println!("reading: day {}, present {}", found.day, found.present);
    match found == given {
        true => Ok(found.shares),
        false => Err("read something else than was written".to_string()),
    }
}

/// An error ends the program with status 1.
fn main() -> Result<(), String> {
    let secret = [250, 1873, 65520];
    let random = draw(T * D + 2 * N * N);
    let mut shares = vec![0; N * WIDTH];
    deal(T, DAY, &secret, &random, &mut shares).map_err(|number| format!("dealing: {number}"))?;
    println!("dealing: 0");

    // The readings may be deleted only once the shares are seen to open to them.
    must_open(ALL, 0, &shares, &secret, ALL, [25, 0, 0])?;

    must_open_without_spare(&shares, &secret)?;
    must_open_with_one_unreadable(&shares, &secret)?;
    must_refuse_for_another_day(&shares)?;

    // Member 4 comes back with another first word: under these keys no tag of it fits any more, and
    // the others strike it, also where the shares come as text.
    shares[3 * WIDTH] = ((shares[3 * WIDTH] as u32 + 1) % 65521) as u16;
    must_open(ALL, 0, &shares, &secret, 23, [20, 5, 0])?;
    must_open(ALL, 0, &must_hand_in(&shares)?, &secret, 23, [20, 5, 0])
}
