//! Random plans within one question's limits: generation, estimates, choice; nothing may fall back.
use crate::numbers::Dice;
use crate::runs::{MOST_COUNT, unit};
use crate::sides::{Estimate, Focus, Found, Over, Table, Vector, dropin, original};
use crate::{holds, same, same_list};

pub const MOST_SIZE: u64 = 1 << 40;

pub struct Plan {
    pub tables: Vec<Table>,
    pub trigger: usize,
    pub over: Over,
    pub next: u64,
}

/// Both sides' tables of a plan.
pub struct Sides {
    pub module: Vec<dropin::TableInfo>,
    pub original: Vec<original::TableInfo>,
}

impl Plan {
    pub fn sides(&self) -> Sides {
        Sides { module: dropin::tables(&self.tables), original: original::tables(&self.tables) }
    }

    pub fn generated(&self, s: &Sides) -> (Vec<Found>, Vec<Found>) {
        (dropin::generate(&s.module, self.trigger, &self.over, self.next), original::generate(&s.original, self.trigger, &self.over, self.next))
    }

    /// The estimate of each, the same from both.
    pub fn estimated(&self, s: &Sides, all: &[Found]) -> Vec<Estimate> {
        let estimate = |f: &Found| {
            let (m, o) = (dropin::estimate(&s.module, f, self.next, &self.over), original::estimate(&s.original, f, self.next, &self.over));
            same(&format!("the estimate of {:?} with {} numbers", f.kind, f.numbers.len()), m, o);
            m
        };
        all.iter().map(estimate).collect()
    }
}

pub fn key(d: &mut Dice, letters: u64, longest: u64) -> Vec<u8> {
    (0..d.below(longest + 1)).map(|_| d.pick(&[0, b'a', b'b', b'z', 127, 128, 254, 255][..letters as usize])).collect()
}

/// No number twice: side by side, or with gaps small or large; at times from 0 on or up to 2^64 - 1; rising, or in any order.
fn numbers(d: &mut Dice, n: u64) -> Vec<u64> {
    let gap = if d.one_in(4) { 1 << d.below(50) } else { 1 + d.below(4) };
    let mut numbers: Vec<u64> = (0..n).map(|i| i * gap + d.below(gap)).collect();
    if n > 0 && d.one_in(4) {
        numbers[0] = 0;
    }
    if n > 0 && d.one_in(4) {
        numbers[n as usize - 1] = u64::MAX;
    }
    if !d.one_in(4) {
        shuffle(d, &mut numbers);
    }
    numbers
}

pub fn shuffle<T>(d: &mut Dice, all: &mut [T]) {
    for i in (1..all.len()).rev() {
        all.swap(i, d.below(i as u64 + 1) as usize);
    }
}

/// Short keys of few letters, so that keys and sizes come twice and ranges meet; some ranges end before they start.
pub fn tables(d: &mut Dice, n: u64, levels: u64, size: &dyn Fn(&mut Dice) -> u64) -> Vec<Table> {
    let (letters, longest) = (1 + d.below(8), 1 + d.below(5));
    numbers(d, n)
        .into_iter()
        .map(|number| {
            let mut ends = [key(d, letters, longest), key(d, letters, longest)];
            if !d.one_in(50) {
                ends.sort();
            }
            let [first, last] = ends;
            Table { number, level: d.below(levels) as u32, size: size(d), first, last }
        })
        .collect()
}

/// A next number at or beside one of the tables', behind most of them, or up to what the library takes.
pub fn next(d: &mut Dice, tables: &[Table]) -> u64 {
    let n = tables.len() as u64;
    match d.below(30) {
        0 => MOST_COUNT - d.below(3),
        1..10 if n > 0 => tables[d.below(n) as usize].number.saturating_add(d.below(3)).min(MOST_COUNT),
        _ => n * 3 + d.below(100),
    }
}

/// Up to what the library takes.
pub fn size(d: &mut Dice) -> u64 {
    match d.below(8) {
        0 => MOST_SIZE - d.below(2),
        1 => d.below(3),
        _ => d.next() >> (24 + d.below(40)),
    }
}

pub fn entries(d: &mut Dice, most: u64, levels: u64) -> Over {
    (0..d.below(most + 1)).map(|_| (d.below(levels + 1) as u32, d.next() >> (10 + d.below(54)))).collect()
}

pub fn vector(d: &mut Dice) -> Vector {
    std::array::from_fn(|_| if d.one_in(2) { d.below(9) as f64 / 8.0 } else { unit(d) })
}

pub fn focus(d: &mut Dice, levels: u64) -> Focus {
    (d.below(3).gt(&0).then(|| d.below(levels) as u32), d.below(5) as u32)
}

/// Few distinct estimates, so that scores tie.
pub fn offers(d: &mut Dice, n: u64, levels: u64) -> Vec<(Found, Estimate)> {
    let l0 = d.one_in(6);
    (0..n)
        .map(|_| {
            let kind = match if l0 { 1 + d.below(3) } else { 2 + d.below(2) } {
                1 => (1, 0, 0),
                2 => (2, d.below(levels) as u32, 1 + d.below(8) as usize),
                _ => (3, d.below(levels) as u32, 0),
            };
            let mut relief = || if d.one_in(5) { unit(d) } else { d.pick(&[0.0, 0.5, 1.0, -0.0]) }.to_bits();
            let reliefs = [relief(), relief(), relief()];
            let (rewrite, age) = (d.below(3) << d.below(49), d.below(3) << d.below(52));
            let found = Found { kind, numbers: vec![], output_level: kind.1 + 1 };
            (found, [0, 0, rewrite, 0, 0, age, reliefs[0], reliefs[1], reliefs[2]])
        })
        .collect()
}

/// A candidate that generation wouldn't give: numbers that no table has, or that come twice, or of any level.
pub fn odd_candidate(d: &mut Dice, tables: &[Table], levels: u64) -> Found {
    let kind = match 1 + d.below(3) {
        1 => (1, 0, 0),
        2 => (2, d.below(levels) as u32, 1 + d.below(8) as usize),
        _ => (3, d.below(levels) as u32, 0),
    };
    let many = d.below(21);
    let mut number = || if tables.is_empty() || d.one_in(5) { d.below(300) } else { tables[d.below(tables.len() as u64) as usize].number };
    let numbers = (0..many).map(|_| number()).collect();
    Found { kind, numbers, output_level: kind.1 + 1 }
}

pub fn plan(d: &mut Dice) -> u64 {
    let levels = 1 + d.below(6);
    let n = if d.one_in(200) { d.below(1025) } else { d.below(40) };
    let tables = tables(d, n, levels, &size);
    let most = if d.one_in(20) { 16 } else { 4 };
    let over = entries(d, most, levels);
    let plan = Plan { trigger: d.below(8) as usize, over, next: next(d, &tables), tables };
    let before = dropin::fallbacks().total();
    let sides = plan.sides();
    let (mut found, original) = plan.generated(&sides);
    same_list("generate_candidates", &found, &original);
    let generated = found.len();
    found.extend((0..3).map(|_| odd_candidate(d, &plan.tables, levels)));
    let estimates = plan.estimated(&sides, &found);
    found.truncate(generated);
    let offered: Vec<(Found, Estimate)> = found.into_iter().zip(estimates).collect();
    let (v, f) = (vector(d), focus(d, levels));
    same("pick_best_cause_aware of what was generated", dropin::pick(v, f, &offered), original::pick(v, f, &offered));
    let many = if d.one_in(60) { d.below(146) } else { d.below(12) };
    let offered = offers(d, many, 4);
    let (v, f) = (vector(d), focus(d, 4));
    same("pick_best_cause_aware", dropin::pick(v, f, &offered), original::pick(v, f, &offered));
    holds(&format!("the fallbacks of a plan within the limits ({})", dropin::fallbacks()), dropin::fallbacks().total() == before);
    1 + generated as u64 + 3 + 2
}
