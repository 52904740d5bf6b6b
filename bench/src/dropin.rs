//! The Rust module over the library, boundary/governor.rs, beside the original: what a store pays that puts the one in the other's place.
use crate::choice::{self, VECTOR};
use crate::clock::NOW;
use crate::clocked;
use crate::data::{self, Dice, Table};
use crate::db::ReadAmpStats;
use crate::module;
use crate::module_clocked;
use crate::original;
use crate::rows::{Bench, bits, plain, same};
use std::hint::black_box;
use std::sync::atomic::Ordering::Relaxed;

const N: usize = 1000;
const NEXT: u64 = 9000;

pub fn run(b: &mut Bench) {
    observing(b);
    pacing(b);
    planning(b);
    choosing(b);
}

/// A run of observations by one side: the modes, then what can be read of the governor.
macro_rules! observed {
    ($side:ident, $samples:expr, $to:expr) => {{
        NOW.store(0, Relaxed);
        let mut g = $side::GovernorState::new();
        for (t, s) in $to.iter_mut().zip(black_box($samples).chunks_exact(6)) {
            NOW.store(s[0], Relaxed);
            *t = black_box(&mut g).observe($side::PressureSample {
                l0_count: s[1] as usize,
                l0_write_stall_trigger: s[2] as usize,
                max_level_debt_ratio: f64::from_bits(s[3]),
                tables_probed_per_get: f64::from_bits(s[4]),
                backlog_levels: s[5] as usize,
            }) as u64;
        }
        told!(g)
    }};
}

macro_rules! observed_engine {
    ($side:ident, $samples:expr, $reads:expr, $to:expr) => {{
        NOW.store(0, Relaxed);
        let mut g = $side::GovernorState::new();
        for ((t, s), r) in $to.iter_mut().zip(black_box($samples).chunks_exact(6)).zip(black_box($reads)) {
            NOW.store(s[0], Relaxed);
            *t = black_box(&mut g).observe_engine(s[1] as usize, s[2] as usize, f64::from_bits(s[3]), s[5] as usize, *r) as u64;
        }
        told!(g)
    }};
}

macro_rules! told {
    ($g:ident) => {{
        let (v, s) = ($g.pressure_vector(), $g.snapshot());
        let pressures = [$g.pressure(), v.l0, v.deep_debt, v.read, s.pressure].map(plain);
        let times = [s.time_balanced_ms, s.time_read_protect_ms, s.time_write_emergency_ms];
        (pressures, times, s.mode_switches)
    }};
}

fn observing(b: &mut Bench) {
    let samples = &data::samples(N, 5);
    let mut d = Dice::new(8);
    let mut sums = [0u64; 5];
    let mut read = || {
        sums.iter_mut().zip([900, 200, 100, 500, 700]).for_each(|(s, most)| *s += d.below(most));
        ReadAmpStats {
            gets_total: sums[0],
            resolved_in_memtable: sums[1],
            resolved_in_immutable: sums[2],
            l0_tables_probed: sums[3],
            leveled_tables_probed: sums[4],
        }
    };
    let reads = &(0..N).map(|_| read()).collect::<Vec<_>>();
    let (mut ours, mut theirs) = (vec![0u64; N], vec![0u64; N]);
    let (told, want) = (observed!(module_clocked, samples, ours), observed!(clocked, samples, theirs));
    same("module observe, what is told after a run", &[told], &[want]);
    same("module observe, the modes of a run", &ours, &theirs);
    b.row("module observe", 0, N, &mut || _ = observed!(module_clocked, samples, ours), &mut || _ = observed!(clocked, samples, theirs));
    let (ours_now, theirs_now) = (&mut ours.clone(), &mut theirs.clone());
    b.row("module observe, Instant::now", 0, N, &mut || _ = observed!(module, samples, ours_now), &mut || {
        _ = observed!(original, samples, theirs_now)
    });
    let (told, want) = (observed_engine!(module_clocked, samples, reads, ours), observed_engine!(clocked, samples, reads, theirs));
    same("module observe_engine, what is told after a run", &[told], &[want]);
    same("module observe_engine, the modes of a run", &ours, &theirs);
    b.row("module observe_engine", 0, N, &mut || _ = observed_engine!(module_clocked, samples, reads, ours), &mut || {
        _ = observed_engine!(clocked, samples, reads, theirs)
    });
    b.row("module observe_engine, Instant::now", 0, N, &mut || _ = observed_engine!(module, samples, reads, ours), &mut || {
        _ = observed_engine!(original, samples, reads, theirs)
    });
}

macro_rules! delays {
    ($side:ident, $asked:expr, $to:expr) => {{
        let modes = [$side::GovernorMode::Balanced, $side::GovernorMode::ReadProtect, $side::GovernorMode::WriteEmergency];
        for (t, (mode, pressure)) in $to.iter_mut().zip(black_box($asked)) {
            *t = $side::pacing_delay(modes[*mode as usize], *pressure).as_nanos() as u64;
        }
        black_box(&$to);
    }};
}

fn pacing(b: &mut Bench) {
    let mut d = Dice::new(12);
    let (mut ours, mut theirs) = (vec![0u64; 1024], vec![0u64; 1024]);
    for odd in [true, false] {
        let asked = &(0..1024).map(|_| (d.below(3), if odd { d.float() } else { d.unit() * 1.4 - 0.2 })).collect::<Vec<_>>();
        delays!(module, asked, ours);
        delays!(original, asked, theirs);
        same("module pacing_delay", &ours, &theirs);
        if !odd {
            b.row("module pacing_delay", 0, 1024, &mut || delays!(module, asked, ours), &mut || delays!(original, asked, theirs));
        }
    }
}

macro_rules! plan {
    ($side:ident) => {
        pub mod $side {
            use super::{NEXT, Table, bits};
            use crate::$side::*;

            pub fn infos(tables: &[Table]) -> Vec<TableInfo> {
                let info = |t: &Table| (t.number, t.level as u32, t.size, t.first.clone(), t.last.clone());
                tables
                    .iter()
                    .map(info)
                    .map(|(number, level, size, first_key, last_key)| TableInfo { number, level, size, first_key, last_key })
                    .collect()
            }

            pub fn candidates(tables: &[TableInfo], over: &[(u32, u64)]) -> Vec<Candidate> {
                generate_candidates(tables, 4, over, NEXT)
            }

            pub fn estimates(tables: &[TableInfo], over: &[(u32, u64)], all: &[Candidate]) -> Vec<CandidateEstimate> {
                all.iter().map(|c| estimate_candidate(tables, c, NEXT, over)).collect()
            }

            /// Everything of both answers, in words.
            pub fn words(all: &[Candidate], estimates: &[CandidateEstimate]) -> Vec<u64> {
                let mut out = vec![];
                for (c, e) in all.iter().zip(estimates) {
                    let kind = match c.kind {
                        CandidateKind::L0 => [1, 0, 0],
                        CandidateKind::LevelBatch { level, batch_len } => [2, level as u64, batch_len as u64],
                        CandidateKind::TrivialMove { level } => [3, level as u64, 0],
                    };
                    out.extend(kind);
                    out.extend([c.output_level as u64, c.input_numbers.len() as u64]);
                    out.extend(&c.input_numbers);
                    out.extend([e.input_bytes, e.overlap_bytes, e.estimated_rewrite_bytes, e.debt_relief_bytes, e.l0_files_removed as u64, e.age]);
                    out.extend([e.l0_relief, e.debt_relief, e.read_relief].map(bits));
                }
                out
            }
        }
    };
}
pub mod of {
    use super::{NEXT, Table, bits};
    plan!(module);
    plan!(original);
}

fn planning(b: &mut Bench) {
    let sizes = [16u64, 64, 256, 1024];
    let cases = sizes.map(|n| {
        let tables = data::four_levels(n, n);
        let bytes = |level: u64| tables.iter().filter(|t| t.level == level).map(|t| t.size).sum::<u64>();
        let over: Vec<(u32, u64)> = [1, 2, 3].iter().map(|&l| (l as u32, bytes(l) * 2 / 3)).collect();
        (n, of::module::infos(&tables), of::original::infos(&tables), over)
    });
    for (n, ours, theirs, over) in &cases {
        b.row("module generate_candidates", *n, 1, &mut || _ = black_box(of::module::candidates(black_box(ours), over)), &mut || {
            _ = black_box(of::original::candidates(black_box(theirs), over))
        });
    }
    for (n, ours, theirs, over) in &cases {
        let (found, want) = (&of::module::candidates(ours, over), &of::original::candidates(theirs, over));
        let (estimates, wanted) = (of::module::estimates(ours, over, found), of::original::estimates(theirs, over, want));
        same("module generate_candidates and estimate_candidate", &of::module::words(found, &estimates), &of::original::words(want, &wanted));
        b.row(
            "module estimate_candidate, each",
            *n,
            found.len(),
            &mut || _ = black_box(of::module::estimates(black_box(ours), over, found)),
            &mut || _ = black_box(of::original::estimates(black_box(theirs), over, want)),
        );
    }
}

fn choosing(b: &mut Bench) {
    for (name, l0, focus) in [
        ("module pick_best_cause_aware, no focus", false, [0, 0, 0]),
        ("module pick_best_cause_aware, focus", false, [1, 1, 1]),
        ("module pick_best_cause_aware, L0 last", true, [0, 0, 0]),
    ] {
        for n in [10, 63, 145] {
            let offers = choice::plain(n, l0, n as u64);
            let (ours, theirs, clocked) = (&choice::module_pairs(&offers), &choice::pairs(&offers), choice::clocked_pairs(&offers));
            same("module pick_best_cause_aware", &choice::module_pick(VECTOR, focus, ours), &choice::clocked_pick(VECTOR, focus, &clocked));
            b.row(name, n as u64, 1, &mut || _ = black_box(choice::module_pick(black_box(VECTOR), black_box(focus), black_box(ours))), &mut || {
                _ = black_box(choice::pick(black_box(VECTOR), black_box(focus), black_box(theirs)))
            });
        }
    }
}
