//! The original's log beside the rules': the same decisions added to both, and what each then reads back.

use crate::decisions::{LOG_WORDS, Log};
use crate::governor as rust;
use crate::numbers::{Dice, bits, float};
use crate::original::Check;

fn decision_of(w: &[u64]) -> rust::SchedulingDecision {
    use rust::{ChosenKind, PressureSource, SelectionTier};
    let level = w[8] as u32;
    rust::SchedulingDecision {
        sequence: w[0],
        pressure: rust::PressureVector { l0: float(w[1]), deep_debt: float(w[2]), read: float(w[3]) },
        dominant: [PressureSource::None, PressureSource::L0, PressureSource::DeepDebt, PressureSource::Read][w[4] as usize],
        tier: [SelectionTier::None, SelectionTier::L0, SelectionTier::FocusContinued, SelectionTier::FocusReselected][w[5] as usize],
        candidates_considered: w[6] as usize,
        chosen: [None, Some(ChosenKind::L0), Some(ChosenKind::LevelBatch { level, batch_len: w[9] as usize }), Some(ChosenKind::TrivialMove { level })][w[7] as usize],
        predicted_rewrite_bytes: w[10],
        l0_relief: float(w[11]),
        debt_relief: float(w[12]),
        read_relief: float(w[13]),
    }
}

fn words_of(d: &rust::SchedulingDecision) -> [u64; 14] {
    use rust::ChosenKind;
    let (kind, level, length) = match d.chosen {
        None => (0, 0, 0),
        Some(ChosenKind::L0) => (1, 0, 0),
        Some(ChosenKind::LevelBatch { level, batch_len }) => (2, level as u64, batch_len as u64),
        Some(ChosenKind::TrivialMove { level }) => (3, level as u64, 0),
    };
    let v = d.pressure;
    [
        d.sequence, bits(v.l0), bits(v.deep_debt), bits(v.read), d.dominant as u64, d.tier as u64, d.candidates_considered as u64, kind, level, length,
        d.predicted_rewrite_bytes, bits(d.l0_relief), bits(d.debt_relief), bits(d.read_relief),
    ]
}

/// Both logs from nothing, the same decisions added, read back after the last one.
pub fn same_log(decisions: impl Iterator<Item = Vec<u64>>) -> Check {
    let (mut log, mut words) = (Log { first: 0, count: 0, sequence: 0 }, vec![0; LOG_WORDS]);
    let mut original = rust::GovernorState::new();
    for w in decisions {
        log.record(&mut words, &w);
        original.record_decision(decision_of(&w));
    }
    let mut kept = vec![0; LOG_WORDS];
    let (_, count) = log.recent(&words, &mut kept);
    let theirs: Vec<u64> = original.recent_decisions().iter().flat_map(words_of).collect();
    if kept[..14 * count as usize] == theirs[..] { Ok(()) } else { Err(format!("the log after {} decisions", log.sequence)) }
}

impl Dice {
    /// Runs of decisions of every kind, short ones and ones that pass 4,096.
    pub fn logs(&mut self, runs: u64) -> Check {
        for i in 0..runs {
            let n = if i % 10 == 0 { 4090 + self.below(4200) } else { self.below(60) };
            let all: Vec<Vec<u64>> = (0..n).map(|_| self.decision()).collect();
            same_log(all.into_iter())?;
        }
        Ok(())
    }
}
