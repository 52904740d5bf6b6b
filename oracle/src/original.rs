//! The original beside the rules: every value that `governor.rs` can say is held against the answer that 01's rules gave.

use crate::db::ReadAmpStats;
use crate::governor as rust;
use crate::logged::same_log;
use crate::numbers::{alike, bits, float};
use crate::question::Question;
use crate::rules::numbered_decision;
use crate::state::{Focus, Sample, State};
use crate::tables;

pub type Check = Result<(), String>;

fn same<T: PartialEq + std::fmt::Debug>(what: &str, rules: T, original: T) -> Check {
    if rules == original { Ok(()) } else { Err(format!("{what}: the rules say {rules:?}, the original {original:?}")) }
}

fn same_float(what: &str, rules: f64, original: f64) -> Check {
    if alike(rules, original) { Ok(()) } else { Err(format!("{what}: the rules say {:#x}, the original {:#x}", bits(rules), bits(original))) }
}

fn mode_number(m: rust::GovernorMode) -> usize {
    match m {
        rust::GovernorMode::Balanced => 0,
        rust::GovernorMode::ReadProtect => 1,
        rust::GovernorMode::WriteEmergency => 2,
    }
}

fn mode_of(n: u64) -> rust::GovernorMode {
    [rust::GovernorMode::Balanced, rust::GovernorMode::ReadProtect, rust::GovernorMode::WriteEmergency][n as usize]
}

fn vector_of(v: [f64; 3]) -> rust::PressureVector {
    rust::PressureVector { l0: v[0], deep_debt: v[1], read: v[2] }
}

fn focus_of(f: Focus) -> rust::FocusState {
    rust::FocusState { current_focus: f.level, streak: f.streak }
}

// ---- one governor over a run of calls

pub struct Beside(rust::GovernorState);

impl Beside {
    pub fn new() -> Beside {
        Beside(rust::GovernorState::new())
    }

    pub fn observe(&mut self, s: &Sample) {
        self.0.observe(rust::PressureSample {
            l0_count: s.count as usize,
            l0_write_stall_trigger: s.trigger as usize,
            max_level_debt_ratio: s.ratio,
            tables_probed_per_get: s.probes,
            backlog_levels: s.backlog as usize,
        });
    }

    pub fn observe_engine(&mut self, q: &Question) {
        let n = |i| q.number(i);
        self.0.observe_engine(
            n(2) as usize,
            n(3) as usize,
            float(n(4)),
            n(5) as usize,
            ReadAmpStats { gets_total: n(6), resolved_in_memtable: n(7), resolved_in_immutable: n(8), l0_tables_probed: n(9), leveled_tables_probed: n(10) },
        );
    }

    pub fn set_focus(&mut self, f: Focus) {
        self.0.set_focus(focus_of(f));
    }

    pub fn chosen(&mut self, kind: u64, level: u64, length: u64) {
        self.0.record_candidate_chosen(kind_of(kind, level, length));
    }

    pub fn trivial_move(&mut self, bytes: u64) {
        self.0.record_trivial_move(bytes);
    }

    pub fn outcome(&mut self, predicted: u64, actual: u64) {
        self.0.record_outcome(predicted, actual);
    }

    /// All that the original tells of its state, its own clock apart.
    pub fn holds(&self, s: &State) -> Check {
        let g = &self.0;
        same("mode", s.mode, mode_number(g.mode()))?;
        same_float("pressure", s.pressure, g.pressure())?;
        let v = g.pressure_vector();
        same_float("vector l0", s.vector[0], v.l0)?;
        same_float("vector deep_debt", s.vector[1], v.deep_debt)?;
        same_float("vector read", s.vector[2], v.read)?;
        same("focus", (s.focus.level, s.focus.streak), (g.focus().current_focus, g.focus().streak))?;
        let t = g.snapshot();
        same("switches", s.switches, t.mode_switches)?;
        same("moves", (s.moves, s.avoided), (t.trivial_moves_performed, t.trivial_move_bytes_avoided))?;
        same("samples", s.samples, t.predicted_actual_samples)?;
        let mean = |sum: f64, n: u64| if n == 0 { 0.0 } else { sum / n as f64 };
        same_float("average batch", mean(s.batch_sum as f64, s.batch_count), t.avg_batch_size)?;
        same_float("mean error", mean(s.error_sum, s.samples), t.predicted_actual_mean_abs_pct_error)
    }
}

fn kind_of(kind: u64, level: u64, length: u64) -> rust::CandidateKind {
    let level = level as u32;
    match kind {
        1 => rust::CandidateKind::L0,
        2 => rust::CandidateKind::LevelBatch { level, batch_len: length as usize },
        _ => rust::CandidateKind::TrivialMove { level },
    }
}

// ---- calls that stand by themselves

fn infos(words: &[u64], keys: &[u64]) -> Vec<rust::TableInfo> {
    let keys: Vec<u8> = keys.iter().map(|b| *b as u8).collect();
    tables::tables(words, &keys)
        .into_iter()
        .map(|t| rust::TableInfo { number: t.number, level: t.level as u32, size: t.size, first_key: t.first, last_key: t.last })
        .collect()
}

fn entries(over: &[u64]) -> Vec<(u32, u64)> {
    over.chunks_exact(2).map(|e| (e[0] as u32, e[1])).collect()
}

fn answered(line: &str) -> Vec<u64> {
    line.replace(['[', ']'], " ").split_whitespace().map(|w| w.parse().expect("a number")).collect()
}

/// Two scores this near, relative to the larger, may be ordered otherwise by another logarithm: 2^-38.
const NEAR: f64 = 1.0 / (1u64 << 38) as f64;

pub enum Seen {
    Same,
    /// The best two scores compared are near: the answers agree, or differ.
    NearTie { agree: bool },
}

/// Holds the rules' answer to a question against the original's, where the original has one. `own_log`: the original has its own logarithm.
pub fn holds(q: &Question, line: &str, own_log: bool) -> Result<Seen, String> {
    let said = answered(line);
    match q.name {
        "pacing_delay" => same("delay", said[0] as u128, rust::pacing_delay(mode_of(q.number(0)), float(q.number(1))).as_nanos()).map(|()| Seen::Same),
        "dominant" => {
            let d = match vector_of([float(q.number(0)), float(q.number(1)), float(q.number(2))]).dominant() {
                rust::PressureSource::None => 0,
                rust::PressureSource::L0 => 1,
                rust::PressureSource::DeepDebt => 2,
                rust::PressureSource::Read => 3,
            };
            same("dominant", said[0], d).map(|()| Seen::Same)
        }
        "generate_candidates" if said[0] == 0 => generated(q, &said).map(|()| Seen::Same),
        "estimate_candidates" if said[0] == 0 => estimated(q, &said).map(|()| Seen::Same),
        "pick_best_cause_aware" if said[0] == 0 => picked(q, &said, own_log),
        "scheduling_decision" if said[7] != 0 => traced(q, &said).map(|()| Seen::Same),
        "log_run" if q.numbers(0)[..3] == [0, 0, 0] => same_log((1..=q.number(4)).map(numbered_decision)).map(|()| Seen::Same),
        _ => Ok(Seen::Same),
    }
}

fn generated(q: &Question, said: &[u64]) -> Check {
    let all = rust::generate_candidates(&infos(q.list(0), q.list(1)), q.number(2) as usize, &entries(q.list(3)), 0);
    let (mut words, mut numbers) = (vec![], vec![]);
    for c in &all {
        let (kind, level, length) = match c.kind {
            rust::CandidateKind::L0 => (1, 0, 0),
            rust::CandidateKind::LevelBatch { level, batch_len } => (2, level as u64, batch_len as u64),
            rust::CandidateKind::TrivialMove { level } => (3, level as u64, 0),
        };
        words.extend([kind, level, length, c.output_level as u64, numbers.len() as u64, c.input_numbers.len() as u64]);
        numbers.extend(&c.input_numbers);
    }
    same("candidates", said[1] as usize, all.len())?;
    same("numbers", said[2] as usize, numbers.len())?;
    same("candidate words", &said[3..3 + words.len()], &words[..])?;
    let at = 3 + q.list(4).len();
    same("number words", &said[at..at + numbers.len()], &numbers[..])
}

fn candidate(c: &[u64], numbers: &[u64]) -> rust::Candidate {
    let end = (c[4] as usize).saturating_add(c[5] as usize);
    let inputs = if end <= numbers.len() { numbers[c[4] as usize..end].to_vec() } else { vec![] };
    rust::Candidate { kind: kind_of(c[0], c[1], c[2]), input_numbers: inputs, output_level: c[3] as u32 }
}

fn estimated(q: &Question, said: &[u64]) -> Check {
    let infos = infos(q.list(0), &[]);
    for (i, c) in q.list(3).chunks_exact(6).enumerate() {
        let e = rust::estimate_candidate(&infos, &candidate(c, q.list(4)), q.number(1), &entries(q.list(2)));
        let w = [e.input_bytes, e.overlap_bytes, e.estimated_rewrite_bytes, e.debt_relief_bytes, e.l0_files_removed as u64, e.age, bits(e.l0_relief), bits(e.debt_relief), bits(e.read_relief)];
        same(&format!("estimate {i}"), &said[2 + 9 * i..11 + 9 * i], &w[..])?;
    }
    Ok(())
}

fn picked(q: &Question, said: &[u64], own_log: bool) -> Result<Seen, String> {
    let v = [float(q.number(0)), float(q.number(1)), float(q.number(2))];
    let focus = Focus::of(&[q.number(3), q.number(4), q.number(5)]);
    let pairs: Vec<(rust::Candidate, rust::CandidateEstimate)> = q
        .list(6)
        .chunks_exact(6)
        .zip(q.list(7).chunks_exact(9))
        .map(|(c, e)| {
            let estimate = rust::CandidateEstimate {
                input_bytes: e[0],
                overlap_bytes: e[1],
                estimated_rewrite_bytes: e[2],
                debt_relief_bytes: e[3],
                l0_files_removed: e[4] as usize,
                age: e[5],
                l0_relief: float(e[6]),
                debt_relief: float(e[7]),
                read_relief: float(e[8]),
            };
            (candidate(c, &[]), estimate)
        })
        .collect();
    let (best, after, tier) = rust::pick_best_cause_aware(vector_of(v), focus_of(focus), &pairs);
    let place = best.map(|b| (b as *const _ as usize - pairs.as_ptr() as usize) / size_of::<(rust::Candidate, rust::CandidateEstimate)>());
    let tier = match tier {
        rust::SelectionTier::None => 0,
        rust::SelectionTier::L0 => 1,
        rust::SelectionTier::FocusContinued => 2,
        rust::SelectionTier::FocusReselected => 3,
    };
    let f = Focus { level: after.current_focus, streak: after.streak }.words();
    let original = vec![0, place.is_some() as u64, place.unwrap_or(0) as u64, f[0], f[1], f[2], tier];
    let agree = said == original;
    if own_log && near_tie(v, focus, q.list(6), q.list(7)) {
        return Ok(Seen::NearTie { agree });
    }
    same("choice", said.to_vec(), original).map(|()| Seen::Same)
}

/// What was chosen, by the original's own conversion from the winner's kind.
fn traced(q: &Question, said: &[u64]) -> Check {
    let c = q.list(10).chunks_exact(6).nth(q.number(5) as usize).expect("a winner in the list");
    let chosen = match rust::ChosenKind::from(candidate(c, &[]).kind) {
        rust::ChosenKind::L0 => [1, 0, 0],
        rust::ChosenKind::LevelBatch { level, batch_len } => [2, level as u64, batch_len as u64],
        rust::ChosenKind::TrivialMove { level } => [3, level as u64, 0],
    };
    same("chosen kind", &said[7..10], &chosen[..])
}

/// Whether the best two of the scores compared (the focus level's while focus goes on, else all) differ by no more than 2^-38 of the larger.
fn near_tie(v: [f64; 3], focus: Focus, cands: &[u64], ests: &[u64]) -> bool {
    let c: Vec<&[u64]> = cands.chunks_exact(6).collect();
    if c.iter().any(|c| c[0] == 1) {
        return false;
    }
    let on_focus = |c: &[u64]| focus.streak < 3 && focus.level.is_some_and(|l| c[1] == l as u64);
    let goes_on = c.iter().any(|c| on_focus(c));
    let near = |mut scores: Vec<f64>| {
        scores.sort_by(|a, b| b.total_cmp(a));
        scores.len() >= 2 && scores[0] - scores[1] <= NEAR * scores[0]
    };
    let e: Vec<&[u64]> = ests.chunks_exact(9).collect();
    let all = |keep: &dyn Fn(&[u64]) -> bool| near((0..c.len()).filter(|i| keep(c[*i])).map(|i| tables::score(v, e[i])).collect());
    if goes_on { all(&on_focus) } else { all(&|_| true) }
}
