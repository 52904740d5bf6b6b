//! The governor: fresh, its readers, observations, counters, the snapshot; pacing and the dominant pressure.
use crate::clock::NOW;
use crate::clocked as rust;
use crate::data::{self, Dice};
use crate::db::ReadAmpStats;
use crate::original;
use crate::port::*;
use crate::rows::{Bench, plain, same};
use std::hint::black_box;
use std::sync::atomic::Ordering::Relaxed;

fn sample(s: &[u64]) -> rust::PressureSample {
    rust::PressureSample {
        l0_count: s[1] as usize,
        l0_write_stall_trigger: s[2] as usize,
        max_level_debt_ratio: f64::from_bits(s[3]),
        tables_probed_per_get: f64::from_bits(s[4]),
        backlog_levels: s[5] as usize,
    }
}

fn stats(a: &[u64]) -> ReadAmpStats {
    ReadAmpStats { gets_total: a[0], resolved_in_memtable: a[1], resolved_in_immutable: a[2], l0_tables_probed: a[3], leveled_tables_probed: a[4] }
}

fn focus(f: &[u64]) -> rust::FocusState {
    rust::FocusState { current_focus: (f[0] == 1).then_some(f[1] as u32), streak: f[2] as u32 }
}

fn kind(kind: u64, level: u64, batch_len: u64) -> rust::CandidateKind {
    match kind {
        1 => rust::CandidateKind::L0,
        2 => rust::CandidateKind::LevelBatch { level: level as u32, batch_len: batch_len as usize },
        _ => rust::CandidateKind::TrivialMove { level: level as u32 },
    }
}

/// What can be read of each: mode, pressure, vector, focus, and all figures of the snapshot.
fn same_state(what: &str, g: &mut Governor, r: &rust::GovernorState, now: u64) {
    NOW.store(now, Relaxed);
    let (mut v, mut f, mut t) = ([0.0f64; 3], [0u64; 3], [0u64; 14]);
    port_pressure_vector(g, &lent_mut(&mut v));
    port_focus(g, &lent_mut(&mut f));
    same(&format!("snapshot {what}, the refusal"), &[port_snapshot(g, now, &lent_mut(&mut t))], &[0]);
    for i in [1, 2, 3, 4, 9, 13] {
        t[i] = plain(f64::from_bits(t[i]));
    }
    let (rv, rf, s) = (r.pressure_vector(), r.focus(), r.snapshot());
    same(&format!("mode {what}"), &[port_mode(g)], &[r.mode() as u64]);
    same(&format!("pressure {what}"), &[plain(port_pressure(g))], &[plain(r.pressure())]);
    same(&format!("pressure_vector {what}"), &v.map(plain), &[plain(rv.l0), plain(rv.deep_debt), plain(rv.read)]);
    same(&format!("focus {what}"), &f, &[rf.current_focus.is_some() as u64, rf.current_focus.unwrap_or(0) as u64, rf.streak as u64]);
    let sv = s.pressure_vector;
    let figures = [
        s.mode as u64,
        plain(s.pressure),
        plain(sv.l0),
        plain(sv.deep_debt),
        plain(sv.read),
        s.mode_switches,
        s.time_balanced_ms,
        s.time_read_protect_ms,
        s.time_write_emergency_ms,
        plain(s.avg_batch_size),
        s.trivial_moves_performed,
        s.trivial_move_bytes_avoided,
        s.predicted_actual_samples,
        plain(s.predicted_actual_mean_abs_pct_error),
    ];
    same(&format!("snapshot {what}"), &t, &figures);
}

/// Random calls on one governor, both sides read after each. At times the clock goes back; the original, which keeps the last reading and not the
/// highest, is handed one that stays at the highest instead.
fn random_run(d: &mut Dice) {
    let mut now = d.below(1 << 40);
    NOW.store(now, Relaxed);
    let (mut g, mut r) = (Governor::fresh(now), rust::GovernorState::new());
    same_state("of a fresh governor", &mut g, &r, now);
    let odd = d.below(3) == 0;
    let (mut sums, mut highest) = ([0u64; 5], now);
    for turn in 0..120 {
        now = if d.below(9) == 0 { now - d.below(now.min(1 << 30) + 1) } else { now + d.below(1 << 32) };
        NOW.store(now, Relaxed);
        let mut float = |most: f64| match d.below(40) {
            0 if odd => f64::NAN,
            1 if odd => d.float(),
            _ => d.unit() * most,
        };
        // in turn busy and calm, so that modes are left again; at and beside the limits of both
        let calm = turn / 30 % 2 == 1;
        let (ratio, probes) = (float(if calm { 1.4 } else { 4.0 }), float(3.0));
        let ratio = if d.below(6) == 0 { [1.5, 1.51, 2.99, 3.0][d.below(if calm { 2 } else { 4 }) as usize] } else { ratio };
        let (count, trigger) = match d.below(12) {
            0 if !calm => (d.word() >> 11, d.below(16)),
            1..4 if !calm => (d.below(12), d.below(16)),
            _ => ([0, 45, 46, 74, 75][d.below(if calm { 3 } else { 5 }) as usize], 100),
        };
        let s = [now, count, trigger, ratio.to_bits(), probes.to_bits(), d.below(5)];
        let (x, y) = (d.word() >> 11, d.word() >> 11);
        let call = d.below(9);
        if call < 4 {
            highest = highest.max(now);
            NOW.store(highest, Relaxed);
        }
        let name = match call {
            0 | 1 => {
                same("observe, the refusal", &[port_observe(&mut g, &lent(&s))], &[0]);
                r.observe(sample(&s));
                "after observe"
            }
            2 | 3 => {
                for (sum, most) in sums.iter_mut().zip([900, 200, 100, 500, 700]) {
                    *sum += if d.below(4) == 0 { 0 } else { d.below(most) };
                }
                same("observe_engine, the refusal", &[port_observe_engine(&mut g, &lent(&s), &lent(&sums))], &[0]);
                r.observe_engine(s[1] as usize, s[2] as usize, ratio, s[5] as usize, stats(&sums));
                "after observe_engine"
            }
            4 => {
                let some = d.below(2);
                let f = [some, some * (d.word() >> 32), d.word() >> 32];
                port_set_focus(&mut g, &lent(&f));
                r.set_focus(focus(&f));
                "after set_focus"
            }
            5 => {
                let (k, level, length) = (1 + d.below(3), d.below(9), d.below(1 << 40));
                port_record_chosen(&mut g, k, level, length);
                r.record_candidate_chosen(kind(k, level, length));
                "after record_candidate_chosen"
            }
            6 => {
                same("record_trivial_move, the refusal", &[port_record_trivial_move(&mut g, x)], &[0]);
                r.record_trivial_move(x);
                "after record_trivial_move"
            }
            7 => {
                same("record_outcome, the refusal", &[port_record_outcome(&mut g, x, y)], &[0]);
                r.record_outcome(x, y);
                "after record_outcome"
            }
            _ => {
                same("with_trivial_move, the refusal", &[port_with_trivial_move(&mut g, &lent(&[x, u64::MAX - y]))], &[0]);
                r.record_trivial_move(x);
                r.record_trivial_move(u64::MAX - y);
                same_state("after with_trivial_move", &mut g, &r, now);
                same("with_outcome, the refusal", &[port_with_outcome(&mut g, &lent(&[x, y, y, x]))], &[0]);
                r.record_outcome(x, y);
                r.record_outcome(y, x);
                "after with_outcome"
            }
        };
        same_state(name, &mut g, &r, now + d.below(1 << 31));
    }
}

pub fn run(b: &mut Bench) {
    let mut d = Dice::new(51);
    for _ in 0..300 {
        random_run(&mut d);
    }
    observing(b);
    reading(b);
    counting(b);
    pacing(b);
}

const N: usize = 1000;

fn observing(b: &mut Bench) {
    let samples = data::samples(N, 5);
    macro_rules! rust_run {
        ($m:ident, $to:expr) => {{
            NOW.store(0, Relaxed);
            let mut g = $m::GovernorState::new();
            for (t, s) in $to.iter_mut().zip(black_box(&samples).chunks_exact(6)) {
                NOW.store(s[0], Relaxed);
                *t = g.observe($m::PressureSample {
                    l0_count: s[1] as usize,
                    l0_write_stall_trigger: s[2] as usize,
                    max_level_debt_ratio: f64::from_bits(s[3]),
                    tables_probed_per_get: f64::from_bits(s[4]),
                    backlog_levels: s[5] as usize,
                }) as u64;
            }
            black_box(&g.pressure());
        }};
    }
    let (mut ours, mut theirs) = (vec![0u64; N], vec![0u64; N]);
    port_observe_run(&lent(&samples), &lent_mut(&mut ours));
    rust_run!(rust, theirs);
    same("observe, the modes of a run", &ours, &theirs);
    b.row("observe, state in a local", 0, N, &mut || port_observe_run(&lent(&samples), &lent_mut(&mut ours)), &mut || rust_run!(rust, theirs));
    b.row("observe, the Rust with Instant::now", 0, N, &mut || port_observe_run(&lent(&samples), &lent_mut(&mut ours)), &mut || {
        rust_run!(original, theirs)
    });

    #[inline(never)]
    fn one(g: &mut rust::GovernorState, s: &[u64]) -> u64 {
        NOW.store(s[0], Relaxed);
        g.observe(sample(s)) as u64
    }
    NOW.store(0, Relaxed);
    let (mut g, mut r) = (Governor::fresh(0), rust::GovernorState::new());
    for s in samples.chunks_exact(6) {
        port_observe(&mut g, &lent(s));
        one(&mut r, s);
        same_state("after observe", &mut g, &r, s[0]);
    }
    let port_all = &mut || {
        port_fresh(&mut g, 0);
        for s in samples.chunks_exact(6) {
            port_observe(&mut g, &lent(s));
        }
    };
    b.row("observe, state behind a reference", 0, N, port_all, &mut || {
        NOW.store(0, Relaxed);
        let mut g = rust::GovernorState::new();
        for s in black_box(&samples).chunks_exact(6) {
            one(black_box(&mut g), s);
        }
    });

    let mut d = Dice::new(8);
    let mut sums = [0u64; 5];
    let mut all = vec![];
    for _ in 0..N {
        for (s, most) in sums.iter_mut().zip([900, 200, 100, 500, 700]) {
            *s += d.below(most);
        }
        all.extend(sums);
    }
    let engine = |to: &mut Vec<u64>| {
        NOW.store(0, Relaxed);
        let mut g = rust::GovernorState::new();
        for ((t, s), a) in to.iter_mut().zip(black_box(&samples).chunks_exact(6)).zip(all.chunks_exact(5)) {
            NOW.store(s[0], Relaxed);
            *t = g.observe_engine(s[1] as usize, s[2] as usize, f64::from_bits(s[3]), s[5] as usize, stats(a)) as u64;
        }
        black_box(&g.pressure());
    };
    port_observe_engine_run(&lent(&samples), &lent(&all), &lent_mut(&mut ours));
    engine(&mut theirs);
    same("observe_engine, the modes of a run", &ours, &theirs);
    b.row("observe_engine, state in a local", 0, N, &mut || port_observe_engine_run(&lent(&samples), &lent(&all), &lent_mut(&mut ours)), &mut || {
        engine(&mut theirs)
    });
}

/// Two governors that have seen the same.
fn used() -> (Governor, rust::GovernorState) {
    NOW.store(0, Relaxed);
    let (mut g, mut r) = (Governor::fresh(0), rust::GovernorState::new());
    for s in data::samples(100, 5).chunks_exact(6) {
        NOW.store(s[0], Relaxed);
        port_observe(&mut g, &lent(s));
        r.observe(sample(s));
    }
    port_set_focus(&mut g, &lent(&[1u64, 3, 2]));
    r.set_focus(focus(&[1, 3, 2]));
    port_record_chosen(&mut g, 2, 3, 5);
    r.record_candidate_chosen(kind(2, 3, 5));
    port_record_outcome(&mut g, 700, 800);
    r.record_outcome(700, 800);
    (g, r)
}

/// As many calls in a run of a row, so that the row's own call does not count.
const TIMES: u64 = 256;

/// A row of small calls, each a true call on both sides.
macro_rules! calls {
    ($b:ident, $name:expr, $i:ident, $port:expr, $rust:expr) => {
        $b.row(
            $name,
            0,
            TIMES as usize,
            &mut || {
                for $i in 0..TIMES {
                    black_box($port);
                }
            },
            &mut || {
                for $i in 0..TIMES {
                    black_box($rust);
                }
            },
        )
    };
}

fn reading(b: &mut Bench) {
    type State = rust::GovernorState;
    fn fresh(g: &mut State) {
        *g = State::new();
    }
    fn mode(g: &State) -> u64 {
        g.mode() as u64
    }
    fn pressure(g: &State) -> f64 {
        g.pressure()
    }
    fn vector(g: &State, out: &mut [f64]) {
        let v = g.pressure_vector();
        out.copy_from_slice(&[v.l0, v.deep_debt, v.read]);
    }
    fn told(g: &State, out: &mut [u64]) {
        let f = g.focus();
        out.copy_from_slice(&[f.current_focus.is_some() as u64, f.current_focus.unwrap_or(0) as u64, f.streak as u64]);
    }
    fn set(g: &mut State, f: &[u64]) {
        g.set_focus(focus(f));
    }
    #[inline(never)]
    fn figures(g: &State, out: &mut rust::GovernorStats) {
        *out = g.snapshot();
    }
    // behind black boxes, or the compiler would take a reader's one load out of its function
    let (fresh, set) = black_box((fresh as fn(&mut State), set as fn(&mut State, &[u64])));
    let (mode, pressure) = black_box((mode as fn(&State) -> u64, pressure as fn(&State) -> f64));
    let (vector, told) = black_box((vector as fn(&State, &mut [f64]), told as fn(&State, &mut [u64])));
    let (mut g, mut r) = used();
    let (mut log, mut v, mut f, mut w) = (Log::empty(), [0.0f64; 3], [0u64; 3], [0u64; 14]);
    let (mut rust_v, mut rust_f) = (v, f);
    same_state("before the readers' rows", &mut g, &r, 900_000_000);
    calls!(b, "mode", _i, port_mode(&mut g), mode(black_box(&r)));
    calls!(b, "pressure", _i, port_pressure(&mut g), pressure(black_box(&r)));
    calls!(b, "pressure_vector", _i, port_pressure_vector(&mut g, &lent_mut(&mut v)), vector(black_box(&r), &mut rust_v));
    calls!(b, "focus", _i, port_focus(&mut g, &lent_mut(&mut f)), told(black_box(&r), &mut rust_f));
    calls!(b, "set_focus", _i, port_set_focus(&mut g, &lent(&[1u64, 3, 2])), set(black_box(&mut r), &[1, 3, 2]));
    let mut stats = rust::GovernorStats::default();
    calls!(b, "snapshot", i, port_snapshot(&mut g, 900_000_000 + i, &lent_mut(&mut w)), {
        NOW.store(900_000_000 + i, Relaxed);
        figures(black_box(&r), &mut stats)
    });
    let own = original::GovernorState::new();
    calls!(b, "snapshot, the Rust with Instant::now", _i, port_snapshot(&mut g, 900_000_000, &lent_mut(&mut w)), black_box(&own).snapshot());
    same_state("after the readers' rows", &mut g, &r, 900_000_000);
    // the Rust's `new` makes the state and the log
    let port_new = |g: &mut Governor, log: &mut Log, clock: u64| {
        port_fresh(g, clock);
        port_empty(log);
    };
    calls!(b, "fresh and empty", i, port_new(&mut g, &mut log, i), {
        NOW.store(i, Relaxed);
        fresh(black_box(&mut r))
    });
}

fn counting(b: &mut Bench) {
    type State = rust::GovernorState;
    fn outcome(g: &mut State, predicted: u64, actual: u64) {
        g.record_outcome(predicted, actual);
    }
    fn moved(g: &mut State, bytes: u64) {
        g.record_trivial_move(bytes);
    }
    fn chosen(g: &mut State, k: u64, level: u64, length: u64) {
        g.record_candidate_chosen(kind(k, level, length));
    }
    let (outcome, moved, chosen) =
        black_box((outcome as fn(&mut State, u64, u64), moved as fn(&mut State, u64), chosen as fn(&mut State, u64, u64, u64)));
    let (mut g, mut r) = used();
    calls!(b, "record_candidate_chosen", i, port_record_chosen(&mut g, 2, 3, i), chosen(black_box(&mut r), 2, 3, i));
    calls!(b, "record_trivial_move", i, port_record_trivial_move(&mut g, i), moved(black_box(&mut r), i));
    calls!(b, "record_outcome", i, port_record_outcome(&mut g, 700, i), outcome(black_box(&mut r), 700, i));
    let pairs: Vec<u64> = (0..2 * TIMES).map(|i| 500 + i * 7 % 300).collect();
    let bytes = &pairs[..TIMES as usize];
    b.row("with_trivial_move, state in a local", 0, TIMES as usize, &mut || _ = port_with_trivial_move(&mut g, &lent(bytes)), &mut || {
        let r = black_box(&mut r);
        black_box(bytes).iter().for_each(|n| r.record_trivial_move(*n));
    });
    b.row("with_outcome, state in a local", 0, TIMES as usize, &mut || _ = port_with_outcome(&mut g, &lent(&pairs)), &mut || {
        let r = black_box(&mut r);
        black_box(&pairs).chunks_exact(2).for_each(|p| r.record_outcome(p[0], p[1]));
    });
}

fn pacing(b: &mut Bench) {
    let mut d = Dice::new(12);
    let all = [original::GovernorMode::Balanced, original::GovernorMode::ReadProtect, original::GovernorMode::WriteEmergency];
    let (mut ours, mut theirs) = (vec![0u64; 1024], vec![0u64; 1024]);
    for odd in [true, false] {
        let modes: Vec<u64> = (0..1024).map(|_| d.below(3)).collect();
        let pressures: Vec<f64> = (0..1024).map(|_| if odd { d.float() } else { d.unit() * 1.4 - 0.2 }).collect();
        let kinds: Vec<original::GovernorMode> = modes.iter().map(|m| all[*m as usize]).collect();
        let rust = |to: &mut Vec<u64>| {
            for ((t, m), p) in to.iter_mut().zip(black_box(&kinds)).zip(black_box(&pressures)) {
                *t = original::pacing_delay(*m, *p).as_nanos() as u64;
            }
            black_box(to);
        };
        port_pacing_delay(&lent(&modes), &lent(&pressures), &lent_mut(&mut ours));
        rust(&mut theirs);
        same("pacing_delay", &ours, &theirs);
        if !odd {
            b.row("pacing_delay", 0, 1024, &mut || port_pacing_delay(&lent(&modes), &lent(&pressures), &lent_mut(&mut ours)), &mut || {
                rust(&mut theirs)
            });
        }
    }
    for odd in [true, false] {
        let vectors: Vec<f64> = (0..3072).map(|_| if odd { [0.05, 0.5, d.unit() * 0.1, d.float()][d.below(4) as usize] } else { d.unit() }).collect();
        let rust = |to: &mut Vec<u64>| {
            for (t, v) in to.iter_mut().zip(black_box(&vectors).chunks_exact(3)) {
                *t = original::PressureVector { l0: v[0], deep_debt: v[1], read: v[2] }.dominant() as u64;
            }
            black_box(to);
        };
        port_dominant(&lent(&vectors), &lent_mut(&mut ours));
        rust(&mut theirs);
        same("dominant", &ours, &theirs);
        if !odd {
            b.row("dominant", 0, 1024, &mut || port_dominant(&lent(&vectors), &lent_mut(&mut ours)), &mut || rust(&mut theirs));
        }
    }
}
