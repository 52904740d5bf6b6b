//! 01's rules of tables, candidates, estimates and choice, and 02 (iii)'s of a number that occurs twice, written a second time over lent words.

use crate::numbers::{bits, float, logarithm, minimum, root};
use crate::state::{Focus, LARGE};
use std::collections::HashSet;

#[derive(Clone, Debug)]
pub struct Table {
    pub number: u64,
    pub level: u64,
    pub size: u64,
    pub first: Vec<u8>,
    pub last: Vec<u8>,
}

/// A part of the key bytes, cut off at their end.
pub fn part(bytes: &[u8], start: u64, len: u64) -> &[u8] {
    let n = bytes.len() as u64;
    let from = start.min(n);
    let to = start.saturating_add(len).clamp(from, n);
    &bytes[from as usize..to as usize]
}

pub fn tables(words: &[u64], keys: &[u8]) -> Vec<Table> {
    words
        .chunks_exact(7)
        .map(|w| Table { number: w[0], level: w[1], size: w[2], first: part(keys, w[3], w[4]).to_vec(), last: part(keys, w[5], w[6]).to_vec() })
        .collect()
}

// ---- what makes words bad

/// "over 1,024 tables, 16 over-budget entries"; "For 4 only whole records are counted."
pub fn too_many_tables(words: &[u64]) -> bool {
    words.len() / 7 > 1024
}

pub fn too_many_entries(words: &[u64]) -> bool {
    words.len() / 2 > 16
}

/// "a record buffer isn't whole records, .. a table level exceeds 2^32-1, a size 2^40"
pub fn broken_tables(words: &[u64]) -> bool {
    words.len() % 7 != 0 || words.chunks_exact(7).any(|w| w[1] > u32::MAX as u64 || w[2] > 1 << 40)
}

/// "a key part leaves the key bytes"
pub fn broken_keys(words: &[u64], size: usize) -> bool {
    let out = |start: u64, len: u64| start as u128 + len as u128 > size as u128;
    words.chunks_exact(7).any(|w| out(w[3], w[4]) || out(w[5], w[6]))
}

pub fn broken_entries(words: &[u64]) -> bool {
    words.len() % 2 != 0
}

/// 02 (iii): "a table list in which a number occurs twice", whatever the levels.
pub fn repeated_numbers(words: &[u64]) -> bool {
    let mut seen = HashSet::new();
    words.chunks_exact(7).any(|w| !seen.insert(w[0]))
}

/// "an over-budget level exceeds 2^32-2"
pub fn levels_out(words: &[u64]) -> bool {
    words.chunks_exact(2).any(|w| w[0] > u32::MAX as u64 - 1)
}

// ---- candidates

pub struct Candidate {
    pub kind: u64,
    pub level: u64,
    pub length: u64,
    pub output: u64,
    pub numbers: Vec<u64>,
}

fn overlapping<'a>(ts: &'a [Table], level: u64, lo: &[u8], hi: &[u8]) -> impl Iterator<Item = u64> + 'a {
    let (lo, hi) = (lo.to_vec(), hi.to_vec());
    ts.iter().filter(move |t| t.level == level && t.first <= hi && t.last >= lo).map(|t| t.number)
}

/// The places of a level by first key, "equal keys in table order".
pub fn by_key(ts: &[Table], level: u64) -> Vec<usize> {
    let mut order: Vec<usize> = (0..ts.len()).filter(|i| ts[*i].level == level).collect();
    order.sort_by(|a, b| ts[*a].first.cmp(&ts[*b].first));
    order
}

/// "all L0 numbers in table order, then overlapping level 1 numbers in table order, over the smallest first key and largest last key"
fn merged(ts: &[Table], places: &[usize], next: u64) -> Vec<u64> {
    let lo = places.iter().map(|p| &ts[*p].first).min().expect("a table");
    let hi = places.iter().map(|p| &ts[*p].last).max().expect("a table");
    let mut numbers: Vec<u64> = places.iter().map(|p| ts[*p].number).collect();
    numbers.extend(overlapping(ts, next, lo, hi));
    numbers
}

pub fn candidates(ts: &[Table], trigger: u64, over: &[u64]) -> Vec<Candidate> {
    let mut out = vec![];
    let l0: Vec<usize> = (0..ts.len()).filter(|i| ts[*i].level == 0).collect();
    if !l0.is_empty() && l0.len() as u64 >= trigger {
        out.push(Candidate { kind: 1, level: 0, length: 0, output: 1, numbers: merged(ts, &l0, 1) });
    }
    for entry in over.chunks_exact(2) {
        let level = entry[0];
        let order = by_key(ts, level);
        if order.is_empty() {
            continue;
        }
        // "start at the smallest number ..; batches of 1 to 8 tables that follow"
        let least = order.iter().map(|p| ts[*p].number).min().expect("a table");
        let seed = order.iter().position(|p| ts[*p].number == least).expect("it is there");
        for length in 1..=8.min(order.len() - seed) {
            let numbers = merged(ts, &order[seed..seed + length], level + 1);
            out.push(Candidate { kind: 2, level, length: length as u64, output: level + 1, numbers });
        }
        // "last, the tables that overlap nothing below, by size falling, then number rising, at most 8"
        let mut free: Vec<usize> = order.iter().copied().filter(|p| overlapping(ts, level + 1, &ts[*p].first, &ts[*p].last).next().is_none()).collect();
        free.sort_by_key(|p| (std::cmp::Reverse(ts[*p].size), ts[*p].number));
        free.truncate(8);
        if !free.is_empty() {
            out.push(Candidate { kind: 3, level, length: 0, output: level + 1, numbers: free.iter().map(|p| ts[*p].number).collect() });
        }
    }
    out
}

/// The six words of each candidate, and all the numbers.
pub fn laid_out(all: &[Candidate]) -> (Vec<u64>, Vec<u64>) {
    let (mut words, mut numbers) = (vec![], vec![]);
    for c in all {
        words.extend([c.kind, c.level, c.length, c.output, numbers.len() as u64, c.numbers.len() as u64]);
        numbers.extend(&c.numbers);
    }
    (words, numbers)
}

/// In order: 4, 5, 11, 6, 9; the answer at the front of both buffers.
pub fn generate(words: &[u64], keys: &[u8], trigger: u64, over: &[u64], out: &mut [u64], numbers: &mut [u64]) -> (u64, u64, u64) {
    if too_many_tables(words) || too_many_entries(over) {
        return (4, 0, 0);
    }
    if broken_tables(words) || broken_keys(words, keys.len()) || broken_entries(over) {
        return (5, 0, 0);
    }
    if repeated_numbers(words) {
        return (11, 0, 0);
    }
    if levels_out(over) {
        return (6, 0, 0);
    }
    let all = candidates(&tables(words, keys), trigger, over);
    let (w, n) = laid_out(&all);
    if out.len() < w.len() || numbers.len() < n.len() {
        return (9, 0, 0);
    }
    out[..w.len()].copy_from_slice(&w);
    numbers[..n.len()].copy_from_slice(&n);
    (0, all.len() as u64, n.len() as u64)
}

// ---- estimates

/// "Level is 0 for kind 1; batch length is 1 to 8 for kind 2, else 0."
fn malformed(c: &[u64]) -> bool {
    !match c[0] {
        1 => c[1] == 0 && c[2] == 0,
        2 => c[1] <= u32::MAX as u64 && (1..=8).contains(&c[2]),
        3 => c[1] <= u32::MAX as u64 && c[2] == 0,
        _ => false,
    }
}

pub fn estimate(words: &[u64], next: u64, over: &[u64], c: &[u64], numbers: &[u64]) -> [u64; 9] {
    let ts = tables(words, &[]);
    let inputs = &numbers[c[4] as usize..(c[4] + c[5]) as usize];
    // "Estimates look up the first table with a number": where 11 is not due it is the only one
    let found: Vec<&Table> = inputs.iter().filter_map(|n| ts.iter().find(|t| t.number == *n)).collect();
    let source = if c[0] == 1 { 0 } else { c[1] };
    let input: u64 = found.iter().filter(|t| t.level == source).map(|t| t.size).sum();
    let overlap: u64 = found.iter().filter(|t| t.level != source).map(|t| t.size).sum();
    let files = if c[0] == 1 { found.iter().filter(|t| t.level == 0).count() as u64 } else { 0 };
    let oldest = found.iter().filter(|t| t.level == source).map(|t| t.number).min().unwrap_or(next);
    let rewrite = if c[0] == 3 { 0 } else { input + overlap };
    let full = if c[0] == 1 { 1.0 } else { 0.0 };
    // "Excess is level bytes minus the first matching budget, never under 1."
    let debt = match over.chunks_exact(2).find(|e| e[0] == c[1]) {
        Some(e) if c[0] != 1 => {
            let bytes: u64 = ts.iter().filter(|t| t.level == c[1]).map(|t| t.size).sum();
            minimum(input as f64 / bytes.saturating_sub(e[1]).max(1) as f64, 1.0)
        }
        _ => 0.0,
    };
    [input, overlap, rewrite, input, files, next.saturating_sub(oldest), bits(full), bits(debt), bits(full)]
}

/// In order 4, 5, 11, 6, 2, 9.
pub fn estimates(words: &[u64], next: u64, over: &[u64], cands: &[u64], numbers: &[u64], out: &mut [u64]) -> (u64, u64) {
    let rows = || cands.chunks_exact(6);
    if too_many_tables(words) || too_many_entries(over) || cands.len() / 6 > 145 || rows().any(|c| c[5] > 1024) {
        return (4, 0);
    }
    let out_of_place = |c: &[u64]| c[4] as u128 + c[5] as u128 > numbers.len() as u128;
    if broken_tables(words) || broken_entries(over) || cands.len() % 6 != 0 || rows().any(|c| malformed(c) || out_of_place(c)) {
        return (5, 0);
    }
    if repeated_numbers(words) {
        return (11, 0);
    }
    if levels_out(over) {
        return (6, 0);
    }
    if next > LARGE {
        return (2, 0);
    }
    let count = cands.len() / 6;
    if out.len() < 9 * count {
        return (9, 0);
    }
    for (c, to) in rows().zip(out.chunks_exact_mut(9)) {
        to.copy_from_slice(&estimate(words, next, over, c, numbers));
    }
    (0, count as u64)
}

// ---- choice

/// "l0·l0_relief + debt·debt_relief + read·read_relief + log·0.01, summed from the left, divided by the root of max(rewrite, 1)"
pub fn score(v: [f64; 3], e: &[u64]) -> f64 {
    let benefit = v[0] * float(e[6]) + v[1] * float(e[7]) + v[2] * float(e[8]) + logarithm(e[5]) * 0.01;
    benefit / root(e[2].max(1))
}

fn in_unit(x: f64) -> bool {
    (0.0..=1.0).contains(&x)
}

pub struct Picked {
    pub refusal: u64,
    pub place: Option<usize>,
    pub focus: Focus,
    pub tier: u64,
}

/// The last of the greatest.
fn last_best<K: PartialOrd>(places: &[usize], key: impl Fn(usize) -> K) -> Option<usize> {
    let mut best: Option<usize> = None;
    for &p in places {
        if best.is_none_or(|b| !(key(p) < key(b))) {
            best = Some(p);
        }
    }
    best
}

/// In order 4, 5, 7, 8; "refused, it has the old focus, no winner and tier None".
pub fn pick(v: [f64; 3], focus: Focus, cands: &[u64], ests: &[u64]) -> Picked {
    let refused = |refusal| Picked { refusal, place: None, focus, tier: 0 };
    if cands.len() / 6 > 145 {
        return refused(4);
    }
    if cands.len() % 6 != 0 || ests.len() % 9 != 0 || cands.len() / 6 != ests.len() / 9 || cands.chunks_exact(6).any(malformed) {
        return refused(5);
    }
    if !v.iter().all(|x| in_unit(*x)) {
        return refused(7);
    }
    let bad = |e: &[u64]| !e[6..9].iter().all(|b| in_unit(float(*b))) || e[2] > 1 << 50 || e[5] > LARGE;
    if ests.chunks_exact(9).any(bad) {
        return refused(8);
    }
    let c: Vec<&[u64]> = cands.chunks_exact(6).collect();
    let e: Vec<&[u64]> = ests.chunks_exact(9).collect();
    let none = Focus { level: None, streak: 0 };
    // "any L0 first (the first in the list)"
    if let Some(place) = c.iter().position(|c| c[0] == 1) {
        return Picked { refusal: 0, place: Some(place), focus: none, tier: 1 };
    }
    let scores: Vec<f64> = e.iter().map(|e| score(v, e)).collect();
    let within = |level: u64| {
        let here: Vec<usize> = (0..c.len()).filter(|i| c[*i][1] == level).collect();
        let best = last_best(&here, |p| scores[p])?;
        // "A winning LevelBatch with debt relief 1 yields to the longest such batch of its level, the last on a tie."
        let sated = |p: usize| c[p][0] == 2 && float(e[p][7]) >= 1.0;
        if !sated(best) {
            return Some(best);
        }
        let such: Vec<usize> = here.iter().copied().filter(|p| sated(*p)).collect();
        last_best(&such, |p| c[p][2])
    };
    // "the focus level while its streak is under 3"
    if let Some(level) = focus.level
        && focus.streak < 3
        && let Some(place) = within(level as u64)
    {
        return Picked { refusal: 0, place: Some(place), focus: Focus { level: Some(level), streak: focus.streak + 1 }, tier: 2 };
    }
    // "else the best score overall, the last on a tie"
    let all: Vec<usize> = (0..c.len()).collect();
    let Some(top) = last_best(&all, |p| scores[p]) else {
        return Picked { refusal: 0, place: None, focus: none, tier: 0 };
    };
    let level = c[top][1];
    Picked { refusal: 0, place: within(level), focus: Focus { level: Some(level as u32), streak: 1 }, tier: 3 }
}
