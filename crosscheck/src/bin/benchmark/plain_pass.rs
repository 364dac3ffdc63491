//! The plain pass, the yardstick: 961 tags of 64 words.

use std::hint::black_box;

use crosscheck::random::Random;

use crate::rows::D;

/// The plain pass.
pub struct Pass {
    words: Vec<u16>,
    keys: Vec<(u32, u32)>,
}

impl Pass {
    pub fn new() -> Self {
        let mut random = Random::new(2);
        let words = random.fields(961 * D);
        let key = |_| (random.field() as u32, random.field() as u32);
        let keys = (0..961).map(key).collect();
        Pass { words, keys }
    }

    pub fn run(&self) -> u16 {
        let mut all = 0;
        for (words, (alpha, beta)) in self.words.chunks(D).zip(&self.keys) {
            all ^= black_box(horner(*alpha, *beta, words));
        }
        all as u16
    }
}

fn horner(alpha: u32, beta: u32, words: &[u16]) -> u32 {
    let mut sum = 0;
    for word in words.iter().rev() {
        sum = (sum * alpha + *word as u32) % 65521;
    }
    (sum * alpha + beta) % 65521
}
