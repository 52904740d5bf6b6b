//! Tables: generation, estimation, the sort of a level, the order of two keys.
use crate::data::{self, Dice, Table};
use crate::original as rust;
use crate::port::*;
use crate::rows::{Bench, same};
use std::hint::black_box;

fn infos(tables: &[Table]) -> Vec<rust::TableInfo> {
    tables
        .iter()
        .map(|t| rust::TableInfo { number: t.number, level: t.level as u32, size: t.size, first_key: t.first.clone(), last_key: t.last.clone() })
        .collect()
}

fn entries(over: &[u64]) -> Vec<(u32, u64)> {
    over.chunks_exact(2).map(|e| (e[0] as u32, e[1])).collect()
}

/// The original's candidates as the port's words.
fn candidate_words(all: &[rust::Candidate]) -> (Vec<u64>, Vec<u64>) {
    let (mut words, mut numbers) = (vec![], vec![]);
    for c in all {
        let (kind, level, length) = match c.kind {
            rust::CandidateKind::L0 => (1, 0, 0),
            rust::CandidateKind::LevelBatch { level, batch_len } => (2, level as u64, batch_len as u64),
            rust::CandidateKind::TrivialMove { level } => (3, level as u64, 0),
        };
        words.extend([kind, level, length, c.output_level as u64, numbers.len() as u64, c.input_numbers.len() as u64]);
        numbers.extend(&c.input_numbers);
    }
    (words, numbers)
}

fn estimate_words(e: &rust::CandidateEstimate) -> [u64; 9] {
    [
        e.input_bytes,
        e.overlap_bytes,
        e.estimated_rewrite_bytes,
        e.debt_relief_bytes,
        e.l0_files_removed as u64,
        e.age,
        e.l0_relief.to_bits(),
        e.debt_relief.to_bits(),
        e.read_relief.to_bits(),
    ]
}

/// Room for every candidate and estimate of 16 entries.
pub struct Room {
    pub candidates: Vec<u64>,
    pub numbers: Vec<u64>,
    pub estimates: Vec<u64>,
    pub counts: [usize; 2],
}

impl Room {
    pub fn new() -> Room {
        Room { candidates: vec![0; 145 * 6], numbers: vec![0; 1 << 17], estimates: vec![0; 145 * 9], counts: [0; 2] }
    }
}

/// What both sides are asked.
pub struct Case {
    pub words: Vec<u64>,
    pub keys: Vec<u8>,
    pub trigger: u64,
    pub over: Vec<u64>,
    pub infos: Vec<rust::TableInfo>,
    pub entries: Vec<(u32, u64)>,
}

const NEXT: u64 = 9000;

impl Case {
    /// Budgets of two thirds of each level's bytes.
    pub fn new(tables: &[Table], levels: &[u64], trigger: u64) -> Case {
        let bytes = |level: u64| tables.iter().filter(|t| t.level == level).map(|t| t.size).sum::<u64>();
        Case::of(tables, levels.iter().flat_map(|l| [*l, bytes(*l) * 2 / 3]).collect(), trigger)
    }

    pub fn of(tables: &[Table], over: Vec<u64>, trigger: u64) -> Case {
        let (words, keys) = data::words(tables);
        Case { words, keys, trigger, infos: infos(tables), entries: entries(&over), over }
    }

    pub fn generate(&self, r: &mut Room) -> u64 {
        port_generate(
            &lent(&self.words),
            &lent(&self.keys),
            self.trigger,
            &lent(&self.over),
            &lent_mut(&mut r.candidates),
            &lent_mut(&mut r.numbers),
            &lent_mut(&mut r.counts),
        )
    }

    pub fn generated(&self) -> Vec<rust::Candidate> {
        rust::generate_candidates(&self.infos, self.trigger as usize, &self.entries, NEXT)
    }

    pub fn estimate(&self, candidates: &[u64], numbers: &[u64], r: &mut Room) -> u64 {
        port_estimate(
            &lent(&self.words),
            NEXT,
            &lent(&self.over),
            &lent(candidates),
            &lent(numbers),
            &lent_mut(&mut r.estimates),
            &lent_mut(&mut r.counts),
        )
    }

    pub fn estimated(&self, all: &[rust::Candidate]) -> Vec<rust::CandidateEstimate> {
        all.iter().map(|c| rust::estimate_candidate(&self.infos, c, NEXT, &self.entries)).collect()
    }

    /// Both calls compared; the answer is the candidates, for the rows of estimation.
    pub fn compared(&self) -> (Vec<rust::Candidate>, Vec<u64>, Vec<u64>) {
        let all = self.generated();
        let (words, numbers) = candidate_words(&all);
        let mut r = Room::new();
        same("generate_candidates, the refusal", &[self.generate(&mut r)], &[0]);
        same("generate_candidates, the counts", &r.counts, &[all.len(), numbers.len()]);
        same("generate_candidates, the candidates", &r.candidates[..words.len()], &words);
        same("generate_candidates, the numbers", &r.numbers[..numbers.len()], &numbers);
        same("estimate_candidates, the refusal", &[self.estimate(&words, &numbers, &mut r)], &[0]);
        same("estimate_candidates, the count", &r.counts[..1], &[all.len()]);
        let want: Vec<u64> = self.estimated(&all).iter().flat_map(estimate_words).collect();
        same("estimate_candidates", &r.estimates[..want.len()], &want);
        (all, words, numbers)
    }
}

pub fn run(b: &mut Bench) {
    let mut d = Dice::new(31);
    for _ in 0..500 {
        let tables = data::odd_tables(&mut d);
        let over: Vec<u64> = (0..d.below(5)).flat_map(|_| [d.below(5), d.word() >> 40]).collect();
        Case::of(&tables, over, d.below(12)).compared();
        sorted(&tables, d.below(4));
    }
    generation(b);
    estimation(b);
    sorting(b);
}

fn generation(b: &mut Bench) {
    let mut rows: Vec<(&str, u64, Case)> =
        [16u64, 64, 256, 1024].iter().map(|&n| ("generate_candidates", n, Case::new(&data::four_levels(n, n), &[1, 2, 3], 4))).collect();
    rows.push(("generate, no L0, levels 1 and 2", 1024, Case::new(&data::four_levels(1024, 7), &[1, 2], u64::MAX)));
    rows.push(("generate, all of level 1, one entry", 1024, Case::new(&data::one_level(1024, 3, 0, 1), &[1], 4)));
    rows.push(("generate, all of L0", 1024, Case::new(&data::one_level(1024, 3, 0, 0), &[], 4)));
    rows.push(("generate, all but one of L0", 1024, Case::new(&data::l0_but_one(1024), &[], 4)));
    rows.push(("generate, levels 1 and 2, 16 entries", 1024, Case::new(&data::two_levels(512), &[1, 2].repeat(8), u64::MAX)));
    let mut room = Room::new();
    for (name, n, case) in &rows {
        case.compared();
        b.row(name, *n, 1, &mut || _ = case.generate(&mut room), &mut || _ = black_box(black_box(case).generated()));
    }
}

fn estimation(b: &mut Bench) {
    let mut rows: Vec<(&str, u64, Case)> =
        [16u64, 64, 256, 1024].iter().map(|&n| ("estimate_candidates", n, Case::new(&data::four_levels(n, n), &[1, 2, 3], 4))).collect();
    rows.push(("estimate, 16 entries", 1024, Case::new(&data::two_levels(512), &[1, 2].repeat(8), 4)));
    let mut room = Room::new();
    for (name, n, case) in &rows {
        let (all, words, numbers) = case.compared();
        b.row(name, *n, 1, &mut || _ = case.estimate(&words, &numbers, &mut room), &mut || _ = black_box(black_box(case).estimated(&all)));
    }
}

/// The sort of a level, as the original has it inside `generate_candidates`.
#[inline(never)]
fn sorted_level(tables: &[rust::TableInfo], level: u32) -> Vec<&rust::TableInfo> {
    let mut by_key: Vec<&rust::TableInfo> = tables.iter().filter(|t| t.level == level).collect();
    by_key.sort_by(|a, b| a.first_key.cmp(&b.first_key));
    by_key
}

/// Compared by place, as the port answers.
fn sorted(tables: &[Table], level: u64) {
    let (words, keys) = data::words(tables);
    let infos = infos(tables);
    let place = |t: &rust::TableInfo| (t as *const rust::TableInfo as usize - infos.as_ptr() as usize) / size_of::<rust::TableInfo>();
    let want: Vec<usize> = sorted_level(&infos, level as u32).into_iter().map(place).collect();
    let mut order = vec![0usize; 1024];
    let count = port_sort_level(&lent(&words), &lent(&keys), level, &lent_mut(&mut order));
    same("sort_level", &order[..count.min(1024)], &want);
}

fn sorting(b: &mut Bench) {
    for (how, name) in [(0, "sort_level, random order"), (1, "sort_level, sorted already"), (2, "sort_level, reversed")] {
        for n in [16u64, 64, 256, 1024] {
            let tables = data::one_level(n, n + 1, how, 1);
            sorted(&tables, 1);
            let (words, keys) = data::words(&tables);
            let infos = infos(&tables);
            let mut order = vec![0usize; 1024];
            b.row(name, n, 1, &mut || _ = port_sort_level(&lent(&words), &lent(&keys), 1, &lent_mut(&mut order)), &mut || {
                _ = black_box(sorted_level(black_box(&infos), 1))
            });
        }
    }
    let mut d = Dice::new(2);
    let plain = data::one_level(1024, 5, 0, 1);
    let odd: Vec<Table> = (0..40).flat_map(|_| data::odd_tables(&mut d)).collect();
    for tables in [odd, plain] {
        let (words, keys) = data::words(&tables);
        let infos = infos(&tables);
        let pairs: Vec<usize> = (0..2048).map(|_| d.below(tables.len() as u64) as usize).collect();
        let order = |p: &[usize]| (infos[p[0]].first_key.cmp(&infos[p[1]].first_key) as i8 + 1) as u64;
        let (mut ours, mut theirs) = (vec![0u64; 1024], vec![0u64; 1024]);
        port_compare(&lent(&words), &lent(&keys), &lent(&pairs), &lent_mut(&mut ours));
        same("compare", &ours, &pairs.chunks_exact(2).map(order).collect::<Vec<_>>());
        if tables.len() == 1024 {
            b.row(
                "compare, two first keys",
                0,
                1024,
                &mut || port_compare(&lent(&words), &lent(&keys), &lent(&pairs), &lent_mut(&mut ours)),
                &mut || {
                    for (y, p) in theirs.iter_mut().zip(black_box(&pairs).chunks_exact(2)) {
                        *y = order(p);
                    }
                    black_box(&theirs);
                },
            );
        }
    }
}
