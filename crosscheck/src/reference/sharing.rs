//! Tags, dealing and opening.

use super::decoding::{Point, Way, agreeing, polynomial_through, subsets};
use super::field::{P, add, mul};
use super::polynomial::{value, weights};
use super::pruning::survivors;
use super::{BLANK, LARGEST, allowed, everybody, holds, is_day, members, need};

/// The tag: beta plus the sum of alpha to the power k times word k.
pub fn tag(alpha: u16, beta: u16, words: &[u16]) -> u16 {
    let alpha = alpha as u32 % P;
    let mut sum = beta as u32 % P;
    let mut power = 1;
    for word in words {
        power = mul(power, alpha);
        sum = add(sum, mul(power, *word as u32 % P));
    }
    sum as u16
}

/// What is tagged for a day: the day first, then the share words.
pub fn tagged(day: u16, words: &[u16]) -> Vec<u16> {
    [&[day], words].concat()
}

/// Where things stand in a station's shares.
#[derive(Clone, Copy, Debug)]
pub struct Layout {
    pub n: usize,
    pub d: usize,
}

impl Layout {
    pub fn new(t: usize, d: usize) -> Self {
        Layout { n: 2 * t + 1, d }
    }

    /// Words of one share.
    pub fn width(&self) -> usize {
        self.d + 3 * self.n
    }

    /// Words of all shares.
    pub fn total(&self) -> usize {
        self.n * self.width()
    }

    /// Where share word `k` (from 0) of member `i` stands.
    pub fn word(&self, i: usize, k: usize) -> usize {
        (i - 1) * self.width() + k
    }

    /// Where tag(i, j) stands.
    pub fn tag(&self, i: usize, j: usize) -> usize {
        self.word(i, self.d + j - 1)
    }

    /// Where alpha of key(i, j) stands; beta follows it.
    pub fn key(&self, i: usize, j: usize) -> usize {
        self.word(i, self.d + self.n + 2 * (j - 1))
    }

    /// Member `i`'s share words.
    pub fn words<'a>(&self, shares: &'a [u16], i: usize) -> &'a [u16] {
        &shares[self.word(i, 0)..self.word(i, self.d)]
    }

    /// Member `i`'s whole share.
    pub fn share<'a>(&self, shares: &'a [u16], i: usize) -> &'a [u16] {
        &shares[self.word(i, 0)..self.word(i + 1, 0)]
    }

    /// The tag that member `j`'s key asks of member `i`'s share words on that day.
    pub fn asked(&self, day: u16, shares: &[u16], i: usize, j: usize) -> u16 {
        let key = self.key(j, i);
        let words = tagged(day, self.words(shares, i));
        tag(shares[key], shares[key + 1], &words)
    }
}

/// How many random words dealing takes.
pub fn random_words(t: usize, d: usize) -> usize {
    let n = 2 * t + 1;
    t * d + 2 * n * n
}

/// The refusals that come first: t, then d, then the day.
fn begun(t: usize, d: usize, day: u16) -> Result<Layout, u16> {
    if !allowed(t) {
        return Err(1);
    }
    if !(1..=64).contains(&d) {
        return Err(2);
    }
    if !is_day(day) {
        return Err(32);
    }
    Ok(Layout::new(t, d))
}

/// The call: deals into `shares`, which a refusal leaves as it is.
pub fn deal(t: usize, day: u16, secret: &[u16], random: &[u16], shares: &mut [u16]) -> u16 {
    let d = secret.len();
    let layout = match begun(t, d, day) {
        Ok(layout) => layout,
        Err(number) => return number,
    };
    if random.len() != random_words(t, d) {
        return 3;
    }
    if shares.len() != layout.total() {
        return 4;
    }
    if secret.iter().any(|word| *word > LARGEST) {
        return 5;
    }
    if random.iter().any(|word| *word > LARGEST) {
        return 6;
    }
    let (coefficients, keys) = random.split_at(t * d);
    write_words(t, layout, secret, coefficients, shares);
    write_keys(layout, keys, shares);
    write_tags(layout, day, shares);
    0
}

fn write_words(t: usize, layout: Layout, secret: &[u16], higher: &[u16], shares: &mut [u16]) {
    for (k, (constant, rest)) in secret.iter().zip(higher.chunks(t)).enumerate() {
        let mut polynomial = vec![*constant as u32];
        polynomial.extend(rest.iter().map(|c| *c as u32));
        for i in 1..=layout.n {
            shares[layout.word(i, k)] = value(&polynomial, i as u32) as u16;
        }
    }
}

fn write_keys(layout: Layout, keys: &[u16], shares: &mut [u16]) {
    for (i, own) in (1..).zip(keys.chunks(2 * layout.n)) {
        let place = layout.key(i, 1);
        shares[place..place + own.len()].copy_from_slice(own);
    }
}

fn write_tags(layout: Layout, day: u16, shares: &mut [u16]) {
    for i in 1..=layout.n {
        for j in 1..=layout.n {
            shares[layout.tag(i, j)] = layout.asked(day, shares, i, j);
        }
    }
}

/// How the test of one tag comes out.
#[derive(Clone, Copy, PartialEq, Eq)]
enum Vote {
    Accepted,
    Mismatched,
    /// Not both members are usable.
    Unread,
}

/// How many pairs of members come out each way.
#[derive(Clone, Copy, Debug, Default, PartialEq, Eq)]
pub struct Pairs {
    pub accepted: u16,
    pub mismatched: u16,
    pub unread: u16,
}

/// What opening returns beside the secret.
#[derive(Clone, Copy, Debug, PartialEq, Eq)]
pub struct Opening {
    pub number: u16,
    pub survivors: u32,
    pub agreeing: u32,
    pub pairs: Pairs,
}

fn refused(number: u16, pairs: Pairs) -> Opening {
    Opening {
        number,
        survivors: 0,
        agreeing: 0,
        pairs,
    }
}

/// The call: opens into `secret`, whose length is d; a refusal fills it with 65535.
pub fn open(
    t: usize,
    day: u16,
    present: u32,
    quorum: u16,
    shares: &[u16],
    secret: &mut [u16],
    way: Way,
) -> Opening {
    secret.fill(BLANK);
    let layout = match judged(t, day, present, quorum, shares, secret.len()) {
        Ok(layout) => layout,
        Err(number) => return refused(number, Pairs::default()),
    };
    let usable = usable(layout, present, shares);
    let votes = votes(layout, day, usable, shares);
    let pairs = counted(&votes);
    let asked = if quorum == 0 { t + 2 } else { quorum as usize };
    if (usable.count_ones() as usize) < asked {
        return refused(14, pairs);
    }
    let survivors = survivors(t, &rows(&votes));
    if survivors == 0 {
        return refused(15, pairs);
    }
    let found = match way {
        Way::Elimination => word_by_word(t, layout, survivors, shares),
        Way::Subsets => subset_by_subset(t, layout, survivors, shares),
    };
    let Some((values, agreeing)) = found else {
        return Opening {
            survivors,
            ..refused(16, pairs)
        };
    };
    secret.copy_from_slice(&values);
    Opening {
        number: 0,
        survivors,
        agreeing,
        pairs,
    }
}

/// The refusals that come before any word is looked at.
fn judged(
    t: usize,
    day: u16,
    present: u32,
    quorum: u16,
    shares: &[u16],
    d: usize,
) -> Result<Layout, u16> {
    let layout = fitting(t, d, day, present, shares)?;
    let quorum = quorum as usize;
    if quorum != 0 && !(t + 1..=layout.n).contains(&quorum) {
        return Err(13);
    }
    Ok(layout)
}

/// Whether t, d and the day are allowed, and the shares and the mask fit them.
pub fn fitting(t: usize, d: usize, day: u16, present: u32, shares: &[u16]) -> Result<Layout, u16> {
    let layout = begun(t, d, day)?;
    if shares.len() != layout.total() {
        return Err(11);
    }
    if present & !everybody(layout.n) != 0 {
        return Err(12);
    }
    Ok(layout)
}

/// The members that are present with nothing but field words.
pub fn usable(layout: Layout, present: u32, shares: &[u16]) -> u32 {
    let good = |i: &usize| layout.share(shares, *i).iter().all(|w| *w <= LARGEST);
    let kept = members(present).into_iter().filter(good);
    kept.fold(0, |set, i| set | 1 << (i - 1))
}

/// How member `j` votes on member `i`.
fn vote(layout: Layout, day: u16, usable: u32, shares: &[u16], i: usize, j: usize) -> Vote {
    if !holds(usable, i) || !holds(usable, j) {
        return Vote::Unread;
    }
    match shares[layout.tag(i, j)] == layout.asked(day, shares, i, j) {
        true => Vote::Accepted,
        false => Vote::Mismatched,
    }
}

/// All votes: on member 1 by each member in turn, on member 2, and so on.
fn votes(layout: Layout, day: u16, usable: u32, shares: &[u16]) -> Vec<Vec<Vote>> {
    let on = |i| (1..=layout.n).map(move |j| vote(layout, day, usable, shares, i, j));
    (1..=layout.n).map(|i| on(i).collect()).collect()
}

/// Goes through all votes once for each kind.
fn counted(votes: &[Vec<Vote>]) -> Pairs {
    let of = |kind| votes.iter().flatten().filter(|v| **v == kind).count() as u16;
    Pairs {
        accepted: of(Vote::Accepted),
        mismatched: of(Vote::Mismatched),
        unread: of(Vote::Unread),
    }
}

/// The vote rows: who accepts member 1, who accepts member 2, and so on.
fn rows(votes: &[Vec<Vote>]) -> Vec<u32> {
    let row = |on: &Vec<Vote>| {
        let accepting = (1..=on.len()).filter(|j| on[j - 1] == Vote::Accepted);
        accepting.fold(0, |set, j| set | 1 << (j - 1))
    };
    votes.iter().map(row).collect()
}

/// Word `k` of each member of the set.
pub fn points(layout: Layout, set: u32, shares: &[u16], k: usize) -> Vec<Point> {
    let point = |i: usize| (i as u32, shares[layout.word(i, k)] as u32);
    members(set).into_iter().map(point).collect()
}

type Found = Option<(Vec<u16>, u32)>;

/// Decodes every word by itself, and asks enough survivors to agree on all of them.
fn word_by_word(t: usize, layout: Layout, survivors: u32, shares: &[u16]) -> Found {
    let mut common = survivors;
    let mut values = Vec::new();
    for k in 0..layout.d {
        let points = points(layout, survivors, shares, k);
        let polynomial = polynomial_through(t, &points, Way::Elimination)?;
        common &= agreeing(&points, &polynomial);
        values.push(polynomial[0] as u16);
    }
    let wanted = need(t, survivors.count_ones() as usize);
    (common.count_ones() as usize >= wanted).then_some((values, common))
}

/// Takes all words through each t + 1 survivors, and counts who agrees on all of them.
fn subset_by_subset(t: usize, layout: Layout, survivors: u32, shares: &[u16]) -> Found {
    let all = members(survivors);
    let wanted = need(t, all.len());
    for places in subsets(all.len(), t + 1) {
        let chosen: Vec<usize> = places.iter().map(|p| all[*p]).collect();
        let agrees =
            |i: &&usize| carried(layout, shares, &chosen, **i) == layout.words(shares, **i);
        let common: Vec<&usize> = all.iter().filter(agrees).collect();
        if common.len() >= wanted {
            let mask = common.iter().fold(0, |set, i| set | 1 << (**i - 1));
            return Some((carried(layout, shares, &chosen, 0), mask));
        }
    }
    None
}

/// The words that the polynomials through the chosen members have at `x`.
fn carried(layout: Layout, shares: &[u16], chosen: &[usize], x: usize) -> Vec<u16> {
    let points: Vec<u32> = chosen.iter().map(|i| *i as u32).collect();
    let weights = weights(&points, x as u32);
    let mut words = Vec::new();
    for k in 0..layout.d {
        let terms = chosen.iter().zip(&weights);
        let sum = terms.fold(0, |sum, (i, w)| {
            add(sum, mul(*w, shares[layout.word(*i, k)] as u32))
        });
        words.push(sum as u16);
    }
    words
}

/// Whether member `i` is in the set and its share is word for word the same in both.
pub fn same_share(layout: Layout, a: &[u16], b: &[u16], set: u32, i: usize) -> bool {
    holds(set, i) && layout.share(a, i) == layout.share(b, i)
}
