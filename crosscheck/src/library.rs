//! The library under test: its C calls, and a safe wrapper for each that answers with every
//! buffer as it is after the call. All memory lent stands between guard words.

use crate::calls::{
    Damage, Deal, Dealt, Decode, Decoded, Open, Opened, Prune, Pruned, Read, ReadAnswer, Tag, Text,
    Write, Written,
};
use crate::reference::sharing::Pairs;

unsafe extern "C" {
    fn rutzebam_deal(
        t: usize,
        day: u16,
        secret: *const u16,
        secret_len: usize,
        random: *const u16,
        random_len: usize,
        shares: *mut u16,
        shares_len: usize,
    ) -> u16;
    fn rutzebam_open(
        t: usize,
        day: u16,
        present: u32,
        quorum: u16,
        shares: *const u16,
        shares_len: usize,
        secret: *mut u16,
        secret_len: usize,
        survivors: *mut u32,
        agreeing: *mut u32,
        pairs: *mut u16,
    ) -> u16;
    fn rutzebam_prune(t: usize, rows: *const u32, rows_len: usize, survivors: *mut u32) -> u16;
    fn rutzebam_decode(
        t: usize,
        values: *const u16,
        values_len: usize,
        set: u32,
        coefficients: *mut u16,
        coefficients_len: usize,
    ) -> u16;
    fn rutzebam_tag(alpha: u16, beta: u16, words: *const u16, words_len: usize) -> u16;
    fn rutzebam_read(
        text: *const u8,
        text_len: usize,
        words: *mut u16,
        words_len: usize,
        t: *mut usize,
        d: *mut usize,
        quorum: *mut u16,
        day: *mut u16,
        present: *mut u32,
    ) -> u16;
    fn rutzebam_write(
        t: usize,
        d: usize,
        quorum: u16,
        day: u16,
        present: u32,
        shares: *const u16,
        shares_len: usize,
        text: *mut u8,
        text_len: usize,
        count: *mut usize,
    ) -> u16;
}

/// Words that can be lent.
trait Cell: Copy + PartialEq {
    /// The `k`th guard word.
    fn guard(k: usize) -> Self;
}

macro_rules! cell {
    ($($kind:ty),*) => {$(
        impl Cell for $kind {
            fn guard(k: usize) -> Self {
                (k.wrapping_mul(0x9e37_79b9_7f4a_7c15) >> 7) as $kind
            }
        }
    )*};
}

cell!(u8, u16, u32, usize);

/// Content between guard words. Their count varies with the length, and the alignment with it.
struct Lent<T> {
    cells: Vec<T>,
    margin: usize,
}

impl<T: Cell> Lent<T> {
    fn new(content: &[T]) -> Self {
        let margin = 5 + content.len() % 3;
        let mut cells: Vec<T> = (0..content.len() + 2 * margin).map(T::guard).collect();
        cells[margin..margin + content.len()].copy_from_slice(content);
        Lent { cells, margin }
    }

    fn one(content: T) -> Self {
        Lent::new(&[content])
    }

    fn len(&self) -> usize {
        self.cells.len() - 2 * self.margin
    }

    fn pointer(&mut self) -> *mut T {
        self.cells[self.margin..].as_mut_ptr()
    }

    fn content(&self) -> &[T] {
        &self.cells[self.margin..self.margin + self.len()]
    }

    /// Notes a guard word that changed.
    fn look(&self, name: &'static str, damage: &mut Damage) {
        let inside = self.margin..self.margin + self.len();
        let kept = |k: usize| inside.contains(&k) || self.cells[k] == T::guard(k);
        if !(0..self.cells.len()).all(kept) {
            damage.push(name);
        }
    }

    /// Notes any change, for what is lent for reading only.
    fn look_unchanged(&self, before: &[T], name: &'static str, damage: &mut Damage) {
        self.look(name, damage);
        if self.content() != before {
            damage.push(name);
        }
    }
}

pub fn deal(call: &Deal) -> (Dealt, Damage) {
    let mut secret = Lent::new(&call.secret);
    let mut random = Lent::new(&call.random);
    let mut shares = Lent::new(&call.shares);
    let number = unsafe {
        rutzebam_deal(
            call.t,
            call.day,
            secret.pointer(),
            secret.len(),
            random.pointer(),
            random.len(),
            shares.pointer(),
            shares.len(),
        )
    };
    let mut damage = Damage::new();
    secret.look_unchanged(&call.secret, "secret", &mut damage);
    random.look_unchanged(&call.random, "random words", &mut damage);
    shares.look("beside the shares", &mut damage);
    let shares = shares.content().to_vec();
    (Dealt { number, shares }, damage)
}

pub fn open(call: &Open) -> (Opened, Damage) {
    let mut shares = Lent::new(&call.shares);
    let mut secret = Lent::new(&call.secret);
    let mut survivors = Lent::one(call.survivors);
    let mut agreeing = Lent::one(call.agreeing);
    let mut pairs = Lent::new(&call.pairs);
    let number = unsafe {
        rutzebam_open(
            call.t,
            call.day,
            call.present,
            call.quorum,
            shares.pointer(),
            shares.len(),
            secret.pointer(),
            secret.len(),
            survivors.pointer(),
            agreeing.pointer(),
            pairs.pointer(),
        )
    };
    let mut damage = Damage::new();
    shares.look_unchanged(&call.shares, "shares", &mut damage);
    secret.look("beside the secret", &mut damage);
    survivors.look("beside the survivors", &mut damage);
    agreeing.look("beside the agreeing", &mut damage);
    pairs.look("beside the pairs", &mut damage);
    let answer = Opened {
        number,
        secret: secret.content().to_vec(),
        survivors: survivors.content()[0],
        agreeing: agreeing.content()[0],
        pairs: Pairs {
            accepted: pairs.content()[0],
            mismatched: pairs.content()[1],
            unread: pairs.content()[2],
        },
    };
    (answer, damage)
}

pub fn prune(call: &Prune) -> (Pruned, Damage) {
    let mut rows = Lent::new(&call.rows);
    let mut survivors = Lent::one(call.survivors);
    let number = unsafe { rutzebam_prune(call.t, rows.pointer(), rows.len(), survivors.pointer()) };
    let mut damage = Damage::new();
    rows.look_unchanged(&call.rows, "rows", &mut damage);
    survivors.look("beside the survivors", &mut damage);
    let survivors = survivors.content()[0];
    (Pruned { number, survivors }, damage)
}

pub fn decode(call: &Decode) -> (Decoded, Damage) {
    let mut values = Lent::new(&call.values);
    let mut coefficients = Lent::new(&call.coefficients);
    let number = unsafe {
        rutzebam_decode(
            call.t,
            values.pointer(),
            values.len(),
            call.set,
            coefficients.pointer(),
            coefficients.len(),
        )
    };
    let mut damage = Damage::new();
    values.look_unchanged(&call.values, "values", &mut damage);
    coefficients.look("beside the coefficients", &mut damage);
    let coefficients = coefficients.content().to_vec();
    let answer = Decoded {
        number,
        coefficients,
    };
    (answer, damage)
}

pub fn tag(call: &Tag) -> (u16, Damage) {
    let mut words = Lent::new(&call.words);
    let tag = unsafe { rutzebam_tag(call.alpha, call.beta, words.pointer(), words.len()) };
    let mut damage = Damage::new();
    words.look_unchanged(&call.words, "words", &mut damage);
    (tag, damage)
}

pub fn read(call: &Read) -> (ReadAnswer, Damage) {
    let mut text = Lent::new(&call.text.0);
    let mut words = Lent::new(&call.words);
    let (mut t, mut d) = (Lent::one(call.t), Lent::one(call.d));
    let mut quorum = Lent::one(call.quorum);
    let mut day = Lent::one(call.day);
    let mut present = Lent::one(call.present);
    let number = unsafe {
        rutzebam_read(
            text.pointer(),
            text.len(),
            words.pointer(),
            words.len(),
            t.pointer(),
            d.pointer(),
            quorum.pointer(),
            day.pointer(),
            present.pointer(),
        )
    };
    let mut damage = Damage::new();
    text.look_unchanged(&call.text.0, "text", &mut damage);
    words.look("beside the words", &mut damage);
    t.look("beside t", &mut damage);
    d.look("beside d", &mut damage);
    quorum.look("beside the quorum", &mut damage);
    day.look("beside the day", &mut damage);
    present.look("beside the present mask", &mut damage);
    let answer = ReadAnswer {
        number,
        words: words.content().to_vec(),
        t: t.content()[0],
        d: d.content()[0],
        quorum: quorum.content()[0],
        day: day.content()[0],
        present: present.content()[0],
    };
    (answer, damage)
}

pub fn write(call: &Write) -> (Written, Damage) {
    let mut shares = Lent::new(&call.shares);
    let mut text = Lent::new(&call.text.0);
    let mut count = Lent::one(call.count);
    let number = unsafe {
        rutzebam_write(
            call.t,
            call.d,
            call.quorum,
            call.day,
            call.present,
            shares.pointer(),
            shares.len(),
            text.pointer(),
            text.len(),
            count.pointer(),
        )
    };
    let mut damage = Damage::new();
    shares.look_unchanged(&call.shares, "shares", &mut damage);
    text.look("beside the text", &mut damage);
    count.look("beside the count", &mut damage);
    let answer = Written {
        number,
        text: Text(text.content().to_vec()),
        count: count.content()[0],
    };
    (answer, damage)
}

/// The calls without guards and copies, for measuring.
pub mod plain {
    pub fn deal(t: usize, day: u16, secret: &[u16], random: &[u16], shares: &mut [u16]) -> u16 {
        unsafe {
            super::rutzebam_deal(
                t,
                day,
                secret.as_ptr(),
                secret.len(),
                random.as_ptr(),
                random.len(),
                shares.as_mut_ptr(),
                shares.len(),
            )
        }
    }

    /// The refusal number, the survivors, the agreeing ones and the pairs of each kind.
    pub fn open(
        t: usize,
        day: u16,
        present: u32,
        quorum: u16,
        shares: &[u16],
        secret: &mut [u16],
    ) -> (u16, u32, u32, [u16; 3]) {
        let (mut survivors, mut agreeing, mut pairs) = (0, 0, [0; 3]);
        let number = unsafe {
            super::rutzebam_open(
                t,
                day,
                present,
                quorum,
                shares.as_ptr(),
                shares.len(),
                secret.as_mut_ptr(),
                secret.len(),
                &mut survivors,
                &mut agreeing,
                pairs.as_mut_ptr(),
            )
        };
        (number, survivors, agreeing, pairs)
    }

    /// The refusal number and the survivors.
    pub fn prune(t: usize, rows: &[u32]) -> (u16, u32) {
        let mut survivors = 0;
        let number = unsafe { super::rutzebam_prune(t, rows.as_ptr(), rows.len(), &mut survivors) };
        (number, survivors)
    }

    pub fn decode(t: usize, values: &[u16], set: u32, coefficients: &mut [u16]) -> u16 {
        unsafe {
            super::rutzebam_decode(
                t,
                values.as_ptr(),
                values.len(),
                set,
                coefficients.as_mut_ptr(),
                coefficients.len(),
            )
        }
    }

    /// The refusal number and the present mask.
    pub fn read(text: &[u8], words: &mut [u16]) -> (u16, u32) {
        let (mut t, mut d, mut quorum, mut day, mut present) = (0, 0, 0, 0, 0);
        let number = unsafe {
            super::rutzebam_read(
                text.as_ptr(),
                text.len(),
                words.as_mut_ptr(),
                words.len(),
                &mut t,
                &mut d,
                &mut quorum,
                &mut day,
                &mut present,
            )
        };
        (number, present)
    }

    /// The refusal number and how many bytes were written.
    pub fn write(
        t: usize,
        d: usize,
        quorum: u16,
        day: u16,
        present: u32,
        shares: &[u16],
        text: &mut [u8],
    ) -> (u16, usize) {
        let mut count = 0;
        let number = unsafe {
            super::rutzebam_write(
                t,
                d,
                quorum,
                day,
                present,
                shares.as_ptr(),
                shares.len(),
                text.as_mut_ptr(),
                text.len(),
                &mut count,
            )
        };
        (number, count)
    }
}
