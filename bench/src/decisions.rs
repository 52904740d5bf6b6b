//! Decisions by their fourteen words, and the log by its words.
use crate::data::Dice;
use crate::original::{ChosenKind, GovernorState, PressureSource, PressureVector, SchedulingDecision, SelectionTier};
use crate::port::*;
use crate::rows::{Bench, bits, same};
use std::hint::black_box;

const SOURCES: [PressureSource; 4] = [PressureSource::None, PressureSource::L0, PressureSource::DeepDebt, PressureSource::Read];
const TIERS: [SelectionTier; 4] = [SelectionTier::None, SelectionTier::L0, SelectionTier::FocusContinued, SelectionTier::FocusReselected];
const KEPT: usize = 4096;

/// The port's layout in plain Rust, which has none.
pub fn to_words(d: &SchedulingDecision) -> [u64; 14] {
    let (kind, level, length) = match d.chosen {
        None => (0, 0, 0),
        Some(ChosenKind::L0) => (1, 0, 0),
        Some(ChosenKind::LevelBatch { level, batch_len }) => (2, level as u64, batch_len as u64),
        Some(ChosenKind::TrivialMove { level }) => (3, level as u64, 0),
    };
    let v = d.pressure;
    [
        d.sequence,
        bits(v.l0),
        bits(v.deep_debt),
        bits(v.read),
        d.dominant as u64,
        d.tier as u64,
        d.candidates_considered as u64,
        kind,
        level,
        length,
        d.predicted_rewrite_bytes,
        bits(d.l0_relief),
        bits(d.debt_relief),
        bits(d.read_relief),
    ]
}

fn of_words(w: &[u64]) -> Option<SchedulingDecision> {
    let level = u32::try_from(w[8]).ok()?;
    let chosen = match (w[7], level, w[9]) {
        (0, 0, 0) => None,
        (1, 0, 0) => Some(ChosenKind::L0),
        (2, _, n) => Some(ChosenKind::LevelBatch { level, batch_len: n as usize }),
        (3, _, 0) => Some(ChosenKind::TrivialMove { level }),
        _ => return None,
    };
    Some(SchedulingDecision {
        sequence: w[0],
        pressure: PressureVector { l0: f64::from_bits(w[1]), deep_debt: f64::from_bits(w[2]), read: f64::from_bits(w[3]) },
        dominant: *SOURCES.get(w[4] as usize)?,
        tier: *TIERS.get(w[5] as usize)?,
        candidates_considered: w[6] as usize,
        chosen,
        predicted_rewrite_bytes: w[10],
        l0_relief: f64::from_bits(w[11]),
        debt_relief: f64::from_bits(w[12]),
        read_relief: f64::from_bits(w[13]),
    })
}

fn and_back(words: &[u64], out: &mut [u64]) -> u64 {
    let mut n = 0;
    for (w, to) in words.chunks_exact(14).zip(out.chunks_exact_mut(14)) {
        if let Some(d) = of_words(w) {
            to.copy_from_slice(&to_words(&d));
            n += 1;
        }
    }
    n
}

/// The n-th decision of a timed run, as src/calls.rattle makes it.
fn nth(n: u64, pressure: f64) -> SchedulingDecision {
    SchedulingDecision {
        sequence: 0,
        pressure: PressureVector { l0: pressure, deep_debt: pressure, read: 0.25 },
        dominant: SOURCES[n as usize % 4],
        tier: TIERS[n as usize / 4 % 4],
        candidates_considered: n as usize,
        chosen: Some(ChosenKind::LevelBatch { level: (n % 8) as u32, batch_len: n as usize % 9 }),
        predicted_rewrite_bytes: n,
        l0_relief: 0.0,
        debt_relief: pressure,
        read_relief: 0.0,
    }
}

/// A decision's words of any kind and floats; one in `bad` has a word that makes it none, or may.
fn random(d: &mut Dice, bad: u64) -> [u64; 14] {
    let kind = d.below(4);
    let (level, length) = (if kind >= 2 { d.word() >> 32 } else { 0 }, if kind == 2 { d.word() } else { 0 });
    let mut w = [0; 14].map(|_: u64| d.float().to_bits());
    (w[0], w[4], w[5], w[6], w[7], w[8], w[9], w[10]) = (d.word(), d.below(4), d.below(4), d.word(), kind, level, length, d.word());
    if bad > 0 && d.below(bad) == 0 {
        w[[4, 5, 7, 8, 9][d.below(5) as usize]] = [4, 1 << 32, d.word()][d.below(3) as usize];
    }
    w
}

/// A log beside the Rust's.
struct Logs {
    log: Log,
    words: Vec<u64>,
    rust: GovernorState,
}

impl Logs {
    fn new() -> Logs {
        Logs { log: Log::empty(), words: vec![0; KEPT * 14], rust: GovernorState::new() }
    }

    /// All kept words, oldest first.
    fn compared(&mut self) {
        let (mut out, mut count) = (vec![0u64; KEPT * 14], [0u64]);
        same("recent_decisions, the refusal", &[port_recent(&mut self.log, &lent(&self.words), &lent_mut(&mut out), &lent_mut(&mut count))], &[0]);
        let want: Vec<u64> = self.rust.recent_decisions().iter().flat_map(to_words).collect();
        same("recent_decisions, the count", &count, &[want.len() as u64 / 14]);
        same("recent_decisions, the words", &out[..want.len()], &want);
    }
}

pub fn run(b: &mut Bench) {
    let mut d = Dice::new(61);
    let some: Vec<u64> = (0..2000).flat_map(|_| random(&mut d, 3)).collect();
    let good: Vec<u64> = (0..KEPT).flat_map(|_| random(&mut d, 0)).collect();
    for words in [&some, &good] {
        let (mut ours, mut theirs) = (vec![7u64; words.len()], vec![7u64; words.len()]);
        same("of_words, how many are decisions", &[port_words_and_back(&lent(words), &lent_mut(&mut ours))], &[and_back(words, &mut theirs)]);
        same("of_words and to_words", &ours, &theirs);
    }
    let mut odd = Logs::new();
    odd.compared();
    for (i, w) in good.chunks_exact(14).cycle().take(6000).enumerate() {
        same("record_decision, the refusal", &[port_record_words(&mut odd.log, &lent_mut(&mut odd.words), &lent(w))], &[0]);
        odd.rust.record_decision(of_words(w).expect("a decision"));
        if i < 20 || i % 500 == 99 {
            odd.compared();
        }
    }
    odd.compared();
    words_rows(b, &good);
    log_rows(b);
}

fn words_rows(b: &mut Bench, good: &[u64]) {
    let (mut ours, mut theirs) = (vec![0u64; KEPT * 14], vec![0u64; KEPT * 14]);
    let rust = |to: &mut Vec<u64>| {
        let pressure = black_box(0.5);
        for (n, w) in to.chunks_exact_mut(14).enumerate() {
            w.copy_from_slice(&to_words(&nth(n as u64, pressure)));
        }
        black_box(to);
    };
    port_to_words(KEPT as u64, 0.5, &lent_mut(&mut ours));
    rust(&mut theirs);
    same("to_words", &ours, &theirs);
    b.row("to_words", 0, KEPT, &mut || port_to_words(KEPT as u64, black_box(0.5), &lent_mut(&mut ours)), &mut || rust(&mut theirs));
    b.row("of_words and to_words", 0, KEPT, &mut || _ = port_words_and_back(&lent(good), &lent_mut(&mut ours)), &mut || {
        _ = black_box(and_back(black_box(good), &mut theirs))
    });
}

fn log_rows(b: &mut Bench) {
    let mut l = Logs::new();
    let run = |rust: &mut GovernorState, times: u64, pressure: f64| (0..times).for_each(|n| rust.record_decision(nth(n, pressure)));
    for times in [100, 6000] {
        same("record_decision, the refusals of a run", &[port_record_run(&mut l.log, &lent_mut(&mut l.words), times, 0.5)], &[0]);
        run(&mut l.rust, times, 0.5);
        l.compared();
    }
    #[inline(never)]
    fn one(g: &mut GovernorState, n: u64, pressure: f64) {
        g.record_decision(nth(n, pressure));
    }
    for n in 0..5000 {
        same("record_decision, the refusal", &[port_record_decision(&mut l.log, &lent_mut(&mut l.words), n, 0.75)], &[0]);
        one(&mut l.rust, n, 0.75);
    }
    l.compared();
    let Logs { log, words, rust } = &mut l;
    b.row("record_decision, in a loop", 0, KEPT, &mut || _ = port_record_run(log, &lent_mut(words), KEPT as u64, black_box(0.5)), &mut || {
        run(rust, KEPT as u64, black_box(0.5))
    });
    let one_by_one = &mut || {
        for n in 0..256 {
            port_record_decision(log, &lent_mut(words), n, 0.5);
        }
    };
    b.row("record_decision, a call", 0, 256, one_by_one, &mut || (0..256).for_each(|n| one(rust, n, 0.5)));
    let (mut out, mut count) = (vec![0u64; KEPT * 14], [0u64]);
    b.row(
        "recent_decisions of 4,096, each",
        0,
        KEPT,
        &mut || _ = port_recent(log, &lent(words), &lent_mut(&mut out), &lent_mut(&mut count)),
        &mut || _ = black_box(black_box(&*rust).recent_decisions()),
    );
}
