//! The choice and the score. Compared with the copy that takes the port's logarithm, timed beside the one that keeps its own.
use crate::clocked;
use crate::data::Dice;
use crate::decisions::to_words;
use crate::module;
use crate::original;
use crate::port::*;
use crate::rows::{Bench, bits, same};
use std::hint::black_box;

/// A candidate for both sides: kind, level, length, and the estimate's words.
pub struct Offer {
    kind: u64,
    level: u32,
    length: usize,
    estimate: [u64; 9],
}

/// Nine candidates to a level, as a run would have them, and one of L0 at the end if asked.
pub fn plain(n: usize, l0: bool, seed: u64) -> Vec<Offer> {
    let mut d = Dice::new(seed);
    (0..n)
        .map(|i| {
            let (level, place) = (1 + (i / 9) as u32, i % 9);
            let kind = if l0 && i == n - 1 {
                1
            } else if place == 8 {
                3
            } else {
                2
            };
            let rewrite = if kind == 3 { 0 } else { (1 + d.below(4096)) << 20 };
            let (relief, debt) = if kind == 1 { (1.0f64, 0.0f64) } else { (0.0, (d.unit() * 1.3).min(1.0)) };
            let estimate =
                [rewrite / 3, rewrite - rewrite / 3, rewrite, rewrite / 3, 0, d.below(100_000), relief.to_bits(), debt.to_bits(), relief.to_bits()];
            Offer { kind, level: if kind == 1 { 0 } else { level }, length: if kind == 2 { place + 1 } else { 0 }, estimate }
        })
        .collect()
}

/// Few distinct estimates, so that scores tie.
fn tied(d: &mut Dice) -> Vec<Offer> {
    let l0 = d.below(4) == 0;
    (0..d.below(20))
        .map(|_| {
            let kind = if l0 { 1 + d.below(3) } else { 2 + d.below(2) };
            let mut unit = || [0.0, 0.5, 1.0, -0.0, d.unit()][d.below(5) as usize].to_bits();
            let reliefs = [unit(), unit(), unit()];
            let estimate = [0, 0, d.below(3) << d.below(49), 0, 0, d.below(3) << d.below(52), reliefs[0], reliefs[1], reliefs[2]];
            Offer {
                kind,
                level: if kind == 1 { 0 } else { d.below(4) as u32 },
                length: if kind == 2 { 1 + d.below(8) as usize } else { 0 },
                estimate,
            }
        })
        .collect()
}

pub fn words(of: &[Offer]) -> (Vec<u64>, Vec<u64>) {
    let head = |o: &Offer| [o.kind, o.level as u64, o.length as u64, o.level as u64 + 1, 0, 0];
    (of.iter().flat_map(head).collect(), of.iter().flat_map(|o| o.estimate).collect())
}

/// The same for a copy of the original, and what it answers, as the port's words.
macro_rules! of_rust {
    ($rust:ident, $pairs:ident, $pick:ident) => {
        pub fn $pairs(of: &[Offer]) -> Vec<($rust::Candidate, $rust::CandidateEstimate)> {
            of.iter()
                .map(|o| {
                    let (level, e) = (o.level, o.estimate);
                    let kind = match o.kind {
                        1 => $rust::CandidateKind::L0,
                        2 => $rust::CandidateKind::LevelBatch { level, batch_len: o.length },
                        _ => $rust::CandidateKind::TrivialMove { level },
                    };
                    let estimate = $rust::CandidateEstimate {
                        input_bytes: e[0],
                        overlap_bytes: e[1],
                        estimated_rewrite_bytes: e[2],
                        debt_relief_bytes: e[3],
                        l0_files_removed: e[4] as usize,
                        age: e[5],
                        l0_relief: f64::from_bits(e[6]),
                        debt_relief: f64::from_bits(e[7]),
                        read_relief: f64::from_bits(e[8]),
                    };
                    ($rust::Candidate { kind, input_numbers: vec![], output_level: level + 1 }, estimate)
                })
                .collect()
        }

        pub fn $pick(v: [f64; 3], f: [u64; 3], pairs: &[($rust::Candidate, $rust::CandidateEstimate)]) -> [u64; 6] {
            let vector = $rust::PressureVector { l0: v[0], deep_debt: v[1], read: v[2] };
            let focus = $rust::FocusState { current_focus: (f[0] == 1).then_some(f[1] as u32), streak: f[2] as u32 };
            let (best, focus, tier) = $rust::pick_best_cause_aware(vector, focus, pairs);
            let place = best.map_or(u64::MAX, |w| ((w as *const _ as usize - pairs.as_ptr() as usize) / size_of_val(w)) as u64);
            [focus.current_focus.is_some() as u64, focus.current_focus.unwrap_or(0) as u64, focus.streak as u64, 0, place, tier as u64]
        }
    };
}
of_rust!(original, pairs, pick);
of_rust!(clocked, clocked_pairs, clocked_pick);
of_rust!(module, module_pairs, module_pick);

fn compared(v: [f64; 3], f: [u64; 3], offers: &[Offer]) {
    let (candidates, estimates) = words(offers);
    let pairs = clocked_pairs(offers);
    let mut out = [0u64; 6];
    port_pick(&lent(&v), &lent(&f), &lent(&candidates), &lent(&estimates), &lent_mut(&mut out));
    same("pick_best_cause_aware (focus 0 to 2, refusal 3, place 4, tier 5)", &out, &clocked_pick(v, f, &pairs));
    let mut scores = vec![0.0f64; offers.len()];
    port_score(&lent(&v), &lent(&estimates), &lent_mut(&mut scores));
    let vector = clocked::PressureVector { l0: v[0], deep_debt: v[1], read: v[2] };
    let want: Vec<u64> = pairs.iter().map(|p| bits(clocked::cause_aware_score(vector, &p.1))).collect();
    same("cause_aware_score", &scores.iter().map(|x| bits(*x)).collect::<Vec<_>>(), &want);
}

/// The decision of a choice, as the original's caller fills it in.
fn decision(v: [f64; 3], place: usize, anew: bool, pairs: &[(original::Candidate, original::CandidateEstimate)]) -> original::SchedulingDecision {
    let pressure = original::PressureVector { l0: v[0], deep_debt: v[1], read: v[2] };
    let (c, e) = &pairs[place];
    original::SchedulingDecision {
        sequence: 0,
        pressure,
        dominant: pressure.dominant(),
        tier: if anew { original::SelectionTier::FocusReselected } else { original::SelectionTier::FocusContinued },
        candidates_considered: pairs.len(),
        chosen: Some(c.kind.into()),
        predicted_rewrite_bytes: e.estimated_rewrite_bytes,
        l0_relief: e.l0_relief,
        debt_relief: e.debt_relief,
        read_relief: e.read_relief,
    }
}

fn compared_decision(v: [f64; 3], place: usize, anew: bool, offers: &[Offer]) {
    let (candidates, estimates) = words(offers);
    let mut out = [0u64; 14];
    port_decision(&lent(&v), place as u64, anew as u64, &lent(&candidates), &lent(&estimates), &lent_mut(&mut out));
    same("scheduling_decision", &out, &to_words(&decision(v, place, anew, &pairs(offers))));
}

pub const VECTOR: [f64; 3] = [0.1, 0.7, 0.2];

pub fn run(b: &mut Bench) {
    let mut d = Dice::new(41);
    for _ in 0..2000 {
        let v = [d.below(3) as f64 / 2.0, d.unit(), [0.0, 0.25, 1.0][d.below(3) as usize]];
        let f = [d.below(2), d.below(4), d.below(5)];
        let offers = tied(&mut d);
        compared(v, [f[0], f[0] * f[1], f[2]], &offers);
        if !offers.is_empty() {
            compared_decision(v, d.below(offers.len() as u64) as usize, d.below(2) == 1, &offers);
        }
    }
    for (name, l0, f) in [
        ("pick_best_cause_aware, no focus", false, [0, 0, 0]),
        ("pick_best_cause_aware, focus goes on", false, [1, 1, 1]),
        ("pick_best_cause_aware, L0 last", true, [0, 0, 0]),
    ] {
        for n in [10, 63, 145] {
            let offers = plain(n, l0, n as u64);
            compared(VECTOR, f, &offers);
            let (candidates, estimates) = words(&offers);
            let pairs = pairs(&offers);
            let mut out = [0u64; 6];
            b.row(
                name,
                n as u64,
                1,
                &mut || port_pick(&lent(&VECTOR), &lent(&f), &lent(&candidates), &lent(&estimates), &lent_mut(&mut out)),
                &mut || _ = black_box(pick(black_box(VECTOR), black_box(f), black_box(&pairs))),
            );
        }
    }
    let offers = plain(145, false, 4);
    compared(VECTOR, [0; 3], &offers);
    compared_decision(VECTOR, 100, true, &offers);
    let (candidates, estimates) = words(&offers);
    let pairs = pairs(&offers);
    let mut out = [0u64; 14];
    b.row(
        "scheduling_decision",
        0,
        1,
        &mut || port_decision(&lent(&VECTOR), 100, 1, &lent(&candidates), &lent(&estimates), &lent_mut(&mut out)),
        &mut || _ = black_box(to_words(&decision(black_box(VECTOR), black_box(100), true, black_box(&pairs)))),
    );
    let (mut ours, mut theirs) = (vec![0.0f64; 145], vec![0.0f64; 145]);
    b.row("cause_aware_score", 0, 145, &mut || port_score(&lent(&VECTOR), &lent(&estimates), &lent_mut(&mut ours)), &mut || {
        let v = black_box(original::PressureVector { l0: VECTOR[0], deep_debt: VECTOR[1], read: VECTOR[2] });
        for (y, p) in theirs.iter_mut().zip(black_box(&pairs)) {
            *y = original::cause_aware_score(v, &p.1);
        }
        black_box(&theirs);
    });
}
