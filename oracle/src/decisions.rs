//! 01's rules of a decision's words and of the log, written a second time.

use crate::numbers::{bits, float};
use crate::state::dominant;

pub const CAPACITY: u64 = 4096;
pub const LOG_WORDS: usize = 57_344;
pub const FLOATS: [usize; 6] = [1, 2, 3, 11, 12, 13];

/// "They are a decision if dominant, tier and kind are 0 to 3, level is at most 2^32-1, and a level or length the kind lacks is 0."
pub fn is_decision(w: &[u64]) -> bool {
    if w.len() != 14 || w[4] > 3 || w[5] > 3 || w[7] > 3 || w[8] > u32::MAX as u64 {
        return false;
    }
    let (has_level, has_length) = (w[7] >= 2, w[7] == 2);
    (has_level || w[8] == 0) && (has_length || w[9] == 0)
}

/// The decision that a choice leads to: the vector, its dominant, the tier, how many candidates there were, and the winner's kind, rewrite and reliefs, or zeros.
pub fn traced(v: [f64; 3], tier: u64, place: Option<u64>, cands: &[u64], ests: &[u64]) -> Vec<u64> {
    let record = |list: &[u64], width: usize| place.and_then(|p| list.chunks_exact(width).nth(p.min(1 << 32) as usize)).map_or(vec![0; width], <[u64]>::to_vec);
    let (c, e) = (record(cands, 6), record(ests, 9));
    let mut w = vec![0, bits(v[0]), bits(v[1]), bits(v[2]), dominant(v), tier, (cands.len() / 6) as u64, c[0], c[1], c[2], e[2], e[6], e[7], e[8]];
    if !is_decision(&w) {
        w[7..10].fill(0);
    }
    written(&w)
}

/// A decision's words written anew: a NaN as its one pattern.
pub fn written(w: &[u64]) -> Vec<u64> {
    let mut w = w.to_vec();
    for i in FLOATS {
        w[i] = bits(float(w[i]));
    }
    w
}

#[derive(Clone, Copy, PartialEq, Debug)]
pub struct Log {
    pub first: u64,
    pub count: u64,
    pub sequence: u64,
}

impl Log {
    /// "the log buffer isn't 57,344 words, its first place exceeds 4,095, or its count exceeds 4,096"
    pub fn bad(&self, words: usize) -> bool {
        words != LOG_WORDS || self.first > CAPACITY - 1 || self.count > CAPACITY
    }

    pub fn kept_place(&self, k: u64) -> u64 {
        ((self.first as u128 + k as u128) % CAPACITY as u128) as u64
    }

    /// "(first + count) mod 4,096, or first itself when 4,096 are kept, and first then moves on by one"
    pub fn record(&mut self, words: &mut [u64], decision: &[u64]) -> u64 {
        if self.bad(words.len()) {
            return 10;
        }
        let full = self.count == CAPACITY;
        let place = if full { self.first } else { self.kept_place(self.count) } as usize;
        self.sequence = self.sequence.saturating_add(1);
        let mut w = written(decision);
        w[0] = self.sequence;
        words[14 * place..14 * place + 14].copy_from_slice(&w);
        if full {
            self.first = self.kept_place(1);
        } else {
            self.count += 1;
        }
        0
    }

    /// "copies the kept ones' words, oldest first, undecoded"
    pub fn recent(&self, words: &[u64], out: &mut [u64]) -> (u64, u64) {
        if self.bad(words.len()) {
            return (10, 0);
        }
        if (out.len() as u64) < 14 * self.count {
            return (9, 0);
        }
        for k in 0..self.count {
            let from = 14 * self.kept_place(k) as usize;
            out[14 * k as usize..14 * (k as usize + 1)].copy_from_slice(&words[from..from + 14]);
        }
        (0, self.count)
    }
}

/// The words that a question's LENGTH and SEED stand for, and the digest of some words.
pub fn filled(length: u64, seed: u64) -> Vec<u64> {
    (0..length).map(|i| seed.wrapping_mul(2 * i + 1)).collect()
}

pub fn digest(words: &[u64]) -> u64 {
    words.iter().zip(1u64..).fold(0, |sum, (w, i)| sum.wrapping_add(i.wrapping_mul(*w)))
}
