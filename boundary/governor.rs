//! The proved governor, libcoinhamper.a, under the names and signatures of kiban's `governor.rs`. A store puts this file in that one's place and
//! says where the archive is, in its build.rs: `println!("cargo:rustc-link-search=native=FOLDER");`.
//!
//! A call that the library can refuse has two names. `try_NAME` answers the refusal. `NAME` has the original's signature, which has no room for
//! one, so it falls back as its `Fallback` says and counts that: `GovernorState::fallbacks` for a governor's calls, `fallbacks()` for the three of
//! a plan. One refusal comes out as nothing to merge, 11 for two tables with one number (`NothingOffered`); no other does. Counted fallbacks that
//! keep growing are worth a look; `Fallbacks::last` says what the last one was refused for.
//!
//! Trusted, and not proved:
//! - that the archive is the one whose proof was checked, and that the declarations in `library` are its exports (boundary/run compares them with
//!   the source);
//! - that the floating-point environment is Rust's own (rounding to nearest, no flushing of small numbers) and that the stack has 32 KiB left;
//! - the rest of this file: layouts, the splitting of a plan that is too large for one call, the fallbacks. boundary/compare runs it beside the
//!   original.
//!
//! Names and signatures are those of src/governor.rs of aetosdios27/kiban at 6741e32932, MIT licence, Copyright (c) 2026 aetos: see NOTICE.

// A store calls a name or its `try_` fellow, seldom both.
#![allow(dead_code)]

use crate::db::ReadAmpStats;
use std::cell::Cell;
use std::collections::{HashMap, HashSet};
use std::fmt;
use std::sync::atomic::{AtomicU64, Ordering::Relaxed};
use std::time::Duration;
use std::time::Instant;

/// The library's version that this file was written for.
const VERSION: u64 = 1;
const MOST_TABLES: usize = 1_024;
const MOST_ENTRIES: usize = 16;
const MOST_SIZE: u64 = 1 << 40;
const MOST_COUNT: u64 = 1 << 53;
const MAX_ADAPTIVE_BATCH: usize = 8;
const FOCUS_MAX_CONSECUTIVE_JOBS: u32 = 3;
const LOG_WORDS: usize = 57_344;
const DECISION_WORDS: usize = 14;
/// A merge trigger that no count of tables reaches.
const NEVER: u64 = u64::MAX;

/// The library's exports and a safe call for each that is used here: all that is unsafe stands in this part.
///
/// An export reads and writes only what it is lent, keeps no pointer, takes any lengths and any contents, and doesn't unwind. So a call is sound if
/// each pointer comes with its own length and what is lent for writing is lent to nothing else: a slice behind a reference is both.
mod library {
    use super::{CandidateEstimate, FocusState, GovernorMode, PressureSample, PressureVector, Refusal};

    #[link(name = "coinhamper", kind = "static")]
    #[allow(dead_code)]
    #[rustfmt::skip]
    unsafe extern "C" {
        // lib.rt
        pub safe fn coinhamper_version() -> u64;
        pub safe fn coinhamper_state_words() -> usize;
        // arithmetic.rt
        pub safe fn coinhamper_of_bits(bits: u64) -> f64;
        pub safe fn coinhamper_to_bits(x: f64) -> u64;
        pub safe fn coinhamper_minimum(a: f64, b: f64) -> f64;
        pub safe fn coinhamper_maximum(a: f64, b: f64) -> f64;
        pub safe fn coinhamper_absolute(x: f64) -> f64;
        pub safe fn coinhamper_clamp(x: f64) -> f64;
        pub safe fn coinhamper_of_u64(n: u64) -> f64;
        pub safe fn coinhamper_truncate(x: f64) -> u64;
        pub safe fn coinhamper_sqrt(n: u64) -> f64;
        pub safe fn coinhamper_ln_1p(age: u64) -> f64;
        pub fn coinhamper_compare(a: *const u8, a_len: usize, b: *const u8, b_len: usize) -> u64;
        // governed.rt
        pub fn coinhamper_fresh(state: *mut u64, state_len: usize, clock: u64) -> u64;
        pub fn coinhamper_observe(state: *mut u64, state_len: usize, clock: u64, l0_count: u64, l0_write_stall_trigger: u64, max_level_debt_ratio: f64, tables_probed_per_get: f64, backlog_levels: u64) -> u64;
        pub fn coinhamper_observe_engine(state: *mut u64, state_len: usize, clock: u64, l0_count: u64, l0_write_stall_trigger: u64, max_level_debt_ratio: f64, backlog_levels: u64, gets_total: u64, resolved_in_memtable: u64, resolved_in_immutable: u64, l0_tables_probed: u64, leveled_tables_probed: u64) -> u64;
        pub fn coinhamper_record_candidate_chosen(state: *mut u64, state_len: usize, kind: u64, level: u32, batch_len: u64) -> u64;
        pub fn coinhamper_record_trivial_move(state: *mut u64, state_len: usize, bytes_avoided: u64) -> u64;
        pub fn coinhamper_record_outcome(state: *mut u64, state_len: usize, predicted: u64, actual: u64) -> u64;
        pub fn coinhamper_set_focus(state: *mut u64, state_len: usize, focus_flag: u64, focus_level: u32, focus_streak: u32) -> u64;
        pub fn coinhamper_read(state: *const u64, state_len: usize, out: *mut u64, out_len: usize) -> u64;
        pub fn coinhamper_mode(state: *const u64, state_len: usize, mode: *mut u64) -> u64;
        pub fn coinhamper_snapshot(state: *const u64, state_len: usize, clock: u64, out: *mut u64, out_len: usize) -> u64;
        pub fn coinhamper_pacing_delay(mode: u64, pressure: f64, nanos: *mut u64) -> u64;
        pub safe fn coinhamper_dominant(l0: f64, deep_debt: f64, read: f64) -> u64;
        // logged.rt
        pub fn coinhamper_is_decision(words: *const u64, words_len: usize) -> u64;
        pub safe fn coinhamper_kept_place(first: u64, k: u64) -> u64;
        pub fn coinhamper_record_decision(head: *mut u64, head_len: usize, words: *mut u64, words_len: usize, decision: *const u64, decision_len: usize) -> u64;
        pub fn coinhamper_recent_decisions(head: *const u64, head_len: usize, words: *const u64, words_len: usize, out: *mut u64, out_len: usize) -> u64;
        pub fn coinhamper_fits_length(head: *const u64, head_len: usize, words: *const u64, words_len: usize, written: *mut usize) -> u64;
        pub fn coinhamper_write_fits(head: *const u64, head_len: usize, words: *const u64, words_len: usize, out: *mut u8, out_len: usize, written: *mut usize) -> u64;
        pub fn coinhamper_read_log(text: *const u8, text_len: usize, head: *mut u64, head_len: usize, words: *mut u64, words_len: usize) -> u64;
        pub fn coinhamper_refused_lines(text: *const u8, text_len: usize, out: *mut u8, out_len: usize, written: *mut usize) -> u64;
        pub fn coinhamper_replay(text: *const u8, text_len: usize, out: *mut u8, out_len: usize, written: *mut usize) -> u64;
        // merges.rt
        pub fn coinhamper_generate_candidates(tables: *const u64, tables_len: usize, keys: *const u8, keys_len: usize, l0_compaction_trigger: u64, over_budget_levels: *const u64, over_budget_levels_len: usize, candidates: *mut u64, candidates_len: usize, numbers: *mut u64, numbers_len: usize, candidate_count: *mut usize, number_count: *mut usize) -> u64;
        pub fn coinhamper_estimate_candidates(tables: *const u64, tables_len: usize, next_file_number: u64, over_budget_levels: *const u64, over_budget_levels_len: usize, candidates: *const u64, candidates_len: usize, numbers: *const u64, numbers_len: usize, estimates: *mut u64, estimates_len: usize) -> u64;
        pub safe fn coinhamper_cause_aware_score(l0: f64, deep_debt: f64, read: f64, estimated_rewrite_bytes: u64, age: u64, l0_relief: f64, debt_relief: f64, read_relief: f64) -> f64;
        pub fn coinhamper_pick_best_cause_aware(l0: f64, deep_debt: f64, read: f64, focus_flag: u64, focus_level: u32, focus_streak: u32, candidates: *const u64, candidates_len: usize, estimates: *const u64, estimates_len: usize, picked: *mut u64, picked_len: usize) -> u64;
        pub fn coinhamper_scheduling_decision(l0: f64, deep_debt: f64, read: f64, picked: *const u64, picked_len: usize, candidates: *const u64, candidates_len: usize, estimates: *const u64, estimates_len: usize, decision: *mut u64, decision_len: usize) -> u64;
    }

    fn answer(refusal: u64) -> Result<(), Refusal> {
        if refusal == 0 { Ok(()) } else { Err(Refusal(refusal)) }
    }

    pub fn fresh(state: &mut [u64], clock: u64) -> Result<(), Refusal> {
        // SAFETY: one slice, with its length.
        answer(unsafe { coinhamper_fresh(state.as_mut_ptr(), state.len(), clock) })
    }

    pub fn observe(state: &mut [u64], clock: u64, s: &PressureSample) -> Result<(), Refusal> {
        let (count, trigger, backlog) = (s.l0_count as u64, s.l0_write_stall_trigger as u64, s.backlog_levels as u64);
        let (ratio, probes) = (s.max_level_debt_ratio, s.tables_probed_per_get);
        // SAFETY: one slice, with its length.
        answer(unsafe { coinhamper_observe(state.as_mut_ptr(), state.len(), clock, count, trigger, ratio, probes, backlog) })
    }

    /// Of the sample all but the probes, which the five counters of reads tell.
    pub fn observe_engine(state: &mut [u64], clock: u64, s: &PressureSample, reads: [u64; 5]) -> Result<(), Refusal> {
        let (count, trigger, ratio, backlog) = (s.l0_count as u64, s.l0_write_stall_trigger as u64, s.max_level_debt_ratio, s.backlog_levels as u64);
        let [gets, memtable, immutable, l0, leveled] = reads;
        let (at, words) = (state.as_mut_ptr(), state.len());
        // SAFETY: one slice, with its length.
        answer(unsafe { coinhamper_observe_engine(at, words, clock, count, trigger, ratio, backlog, gets, memtable, immutable, l0, leveled) })
    }

    pub fn record_candidate_chosen(state: &mut [u64], kind: u64, level: u32, batch_len: u64) -> Result<(), Refusal> {
        // SAFETY: one slice, with its length.
        answer(unsafe { coinhamper_record_candidate_chosen(state.as_mut_ptr(), state.len(), kind, level, batch_len) })
    }

    pub fn record_trivial_move(state: &mut [u64], bytes_avoided: u64) -> Result<(), Refusal> {
        // SAFETY: one slice, with its length.
        answer(unsafe { coinhamper_record_trivial_move(state.as_mut_ptr(), state.len(), bytes_avoided) })
    }

    pub fn record_outcome(state: &mut [u64], predicted: u64, actual: u64) -> Result<(), Refusal> {
        // SAFETY: one slice, with its length.
        answer(unsafe { coinhamper_record_outcome(state.as_mut_ptr(), state.len(), predicted, actual) })
    }

    pub fn set_focus(state: &mut [u64], focus: FocusState) -> Result<(), Refusal> {
        let (flag, level, streak) = focus.words();
        // SAFETY: one slice, with its length.
        answer(unsafe { coinhamper_set_focus(state.as_mut_ptr(), state.len(), flag, level, streak) })
    }

    pub fn read(state: &[u64], out: &mut [u64; 8]) -> Result<(), Refusal> {
        // SAFETY: two slices, each with its length.
        answer(unsafe { coinhamper_read(state.as_ptr(), state.len(), out.as_mut_ptr(), out.len()) })
    }

    pub fn mode(state: &[u64]) -> Result<GovernorMode, Refusal> {
        let mut mode = 0;
        // SAFETY: one slice, with its length, and a pointer to one u64.
        answer(unsafe { coinhamper_mode(state.as_ptr(), state.len(), &mut mode) })?;
        Ok(GovernorMode::of(mode))
    }

    pub fn snapshot(state: &[u64], clock: u64, out: &mut [u64; 14]) -> Result<(), Refusal> {
        // SAFETY: two slices, each with its length.
        answer(unsafe { coinhamper_snapshot(state.as_ptr(), state.len(), clock, out.as_mut_ptr(), out.len()) })
    }

    /// In nanoseconds. A mode has one of the three numbers that are taken, so nothing is refused.
    pub fn pacing_delay(mode: GovernorMode, pressure: f64) -> u64 {
        let mut nanos = 0;
        // SAFETY: the pointer is to one u64.
        unsafe { coinhamper_pacing_delay(mode as u64, pressure, &mut nanos) };
        nanos
    }

    pub fn dominant(v: PressureVector) -> u64 {
        coinhamper_dominant(v.l0, v.deep_debt, v.read)
    }

    pub fn record_decision(head: &mut [u64; 3], words: &mut [u64], decision: &[u64; 14]) -> Result<(), Refusal> {
        let (log, log_len) = (words.as_mut_ptr(), words.len());
        // SAFETY: three slices, each with its length.
        answer(unsafe { coinhamper_record_decision(head.as_mut_ptr(), head.len(), log, log_len, decision.as_ptr(), decision.len()) })
    }

    pub fn recent_decisions(head: &[u64; 3], words: &[u64], out: &mut [u64]) -> Result<(), Refusal> {
        let (log, log_len) = (words.as_ptr(), words.len());
        // SAFETY: three slices, each with its length.
        answer(unsafe { coinhamper_recent_decisions(head.as_ptr(), head.len(), log, log_len, out.as_mut_ptr(), out.len()) })
    }

    /// Answers how many candidates were written.
    pub fn generate_candidates(
        tables: &[u64],
        keys: &[u8],
        trigger: u64,
        over: &[u64],
        candidates: &mut [u64],
        numbers: &mut [u64],
    ) -> Result<usize, Refusal> {
        let (mut candidate_count, mut number_count) = (0, 0);
        let (cands, cands_len) = (candidates.as_mut_ptr(), candidates.len());
        let (nums, nums_len) = (numbers.as_mut_ptr(), numbers.len());
        let (at, words) = (tables.as_ptr(), tables.len());
        let (keys, keys_len, over, over_len) = (keys.as_ptr(), keys.len(), over.as_ptr(), over.len());
        let (c, n) = (&mut candidate_count, &mut number_count);
        // SAFETY: five slices, each with its length, and two pointers to one usize each.
        answer(unsafe {
            coinhamper_generate_candidates(at, words, keys, keys_len, trigger, over, over_len, cands, cands_len, nums, nums_len, c, n)
        })?;
        Ok(candidate_count)
    }

    /// Of one candidate, whose numbers are the whole list.
    pub fn estimate_candidate(tables: &[u64], next: u64, over: &[u64], candidate: &[u64; 6], numbers: &[u64]) -> Result<[u64; 9], Refusal> {
        let mut out = [0; 9];
        let (at, words, over, over_len) = (tables.as_ptr(), tables.len(), over.as_ptr(), over.len());
        let (cand, cand_len, nums, nums_len) = (candidate.as_ptr(), candidate.len(), numbers.as_ptr(), numbers.len());
        let (to, to_len) = (out.as_mut_ptr(), out.len());
        // SAFETY: five slices, each with its length.
        answer(unsafe { coinhamper_estimate_candidates(at, words, next, over, over_len, cand, cand_len, nums, nums_len, to, to_len) })?;
        Ok(out)
    }

    pub fn cause_aware_score(v: PressureVector, e: &CandidateEstimate) -> f64 {
        let (rewrite, age) = (e.estimated_rewrite_bytes, e.age);
        coinhamper_cause_aware_score(v.l0, v.deep_debt, v.read, rewrite, age, e.l0_relief, e.debt_relief, e.read_relief)
    }

    pub fn pick_best_cause_aware(v: PressureVector, focus: FocusState, candidates: &[u64], estimates: &[u64]) -> Result<[u64; 6], Refusal> {
        let mut out = [0; 6];
        let (flag, level, streak) = focus.words();
        let (cands, cands_len, ests, ests_len) = (candidates.as_ptr(), candidates.len(), estimates.as_ptr(), estimates.len());
        let (to, to_len) = (out.as_mut_ptr(), out.len());
        // SAFETY: three slices, each with its length.
        answer(unsafe {
            coinhamper_pick_best_cause_aware(v.l0, v.deep_debt, v.read, flag, level, streak, cands, cands_len, ests, ests_len, to, to_len)
        })?;
        Ok(out)
    }
}

// ---- refusals and fallbacks

/// Why the library answered nothing and changed nothing.
#[derive(Debug, Clone, Copy, PartialEq, Eq)]
pub struct Refusal(pub u64);

const TOO_LARGE: Refusal = Refusal(2);
const COUNTER_FULL: Refusal = Refusal(3);
const TOO_MANY: Refusal = Refusal(4);
const BAD_RECORD: Refusal = Refusal(5);
const BAD_LEVEL: Refusal = Refusal(6);
const DUPLICATE_NUMBER: Refusal = Refusal(11);

impl Refusal {
    /// Its name, why it is given, and what to do.
    fn told(self) -> (&'static str, &'static str, &'static str) {
        match self.0 {
            1 => ("BadState", "the state's streaks don't fit its mode", "make a new governor: something else has written to this one"),
            2 => ("TooLarge", "a count that is to become a float is above 2^53", "hand in a smaller count"),
            3 => ("CounterFull", "a counter or the sum of probes would pass 2^64 - 1", "make a new governor, or reset the read counters"),
            4 => ("TooMany", "over 1,024 tables, 16 over-budget levels, 145 candidates or 1,024 numbers in one", "hand in less, level by level"),
            5 => ("BadRecord", "a table's size is above 2^40, or a batch's length isn't 1 to 8", "hand in a smaller one, or a length as generated"),
            6 => ("BadLevel", "an over-budget level is 2^32 - 1, which has none below it", "leave that entry out"),
            7 => ("BadVector", "a pressure isn't from 0 to 1", "hand in what `pressure_vector` gives, and no negative probes to `observe`"),
            8 => ("BadEstimate", "a relief isn't from 0 to 1, a rewrite above 2^50 or an age above 2^53", "hand in what `estimate_candidate` gives"),
            9 => ("NoRoom", "an output buffer is too short", "report it: this file lends enough"),
            10 => ("BadLog", "the log's words are no log", "make a new governor: something else has written to this one's log"),
            11 => ("DuplicateNumber", "two of the tables have one number", "hand in each table once, under a number that no other has"),
            100 => ("NotAState", "the state's words are no governor of the library's version", "link the archive that this file came with"),
            101 => ("NoSuchCase", "a number stands for no mode, kind, focus or choice", "link the archive that this file came with"),
            _ => ("Unknown", "this file has no such refusal", "take the file that came with the linked archive"),
        }
    }
}

impl fmt::Display for Refusal {
    fn fmt(&self, f: &mut fmt::Formatter<'_>) -> fmt::Result {
        let (name, why, what) = self.told();
        write!(f, "refusal {} ({name}): {why}; {what}", self.0)
    }
}

impl std::error::Error for Refusal {}

/// What a plain name does where its `try_` fellow is refused.
#[derive(Debug, Clone, Copy, PartialEq, Eq)]
pub enum Fallback {
    /// `observe`, `observe_engine`, `record_outcome`: of two counts that are set in proportion one is above 2^53, so both are halved until neither
    /// is, and a backlog above it counts as 2^53. The original rounds them to 53 bits.
    CountsHalved,
    /// `observe_engine`: the reads grew by more than 2^53 since the last call, or their probes add up to more than 2^64 - 1, so the probes per get
    /// are held, as in a window without gets, and the next window is counted from 0. The rest of the observation counts. Counters that stay above
    /// 2^53 from there are held each time.
    ReadsHeld,
    /// Nothing is recorded and nothing changes: an observation, a move or an outcome for which a counter is full, or a batch that would take the
    /// sum of the batch lengths past 2^53, from where every later snapshot would be refused. With lengths that generation gives either takes over
    /// 2^50 calls.
    NotRecorded,
    /// `snapshot`: mode, pressure and vector, and 0 for all other figures. Comes only of more than 2^53 outcomes.
    FiguresMissing,
    /// `generate_candidates`: the over-budget level 2^32 - 1 is left out. The original panics there, or in a release build takes level 0 for the
    /// one below.
    LevelLeftOut,
    /// `generate_candidates`: a size is above 2^40, so sizes are handed in as their ranks. Generation only sorts by them: the answer is the
    /// original's.
    SizesRanked,
    /// `generate_candidates` and its `try_` fellow: a level and what it overlaps below are over 1,024 tables together, so the library is asked about
    /// its smallest-numbered table and the up to seven after it in key order, with the tables below that overlap them, and about the eight tables
    /// that a move takes, which overlap none. The answer is the original's.
    LevelSplit,
    /// `generate_candidates`: a merge would take over 1,024 tables. Of L0 the oldest tables are offered, as many as fit with what they overlap; of
    /// another level the shorter batches.
    LevelInPart,
    /// `generate_candidates`: one table overlaps over 1,023 tables below. The candidate of that one table is made here by the original's rule.
    BuiltHere,
    /// `generate_candidates`: two tables have one number, so no candidate is offered. A merge names its tables by number: one that names this number
    /// could take the wrong table, and one that is made without the two could leave out a table that it overlaps. The original goes on.
    NothingOffered,
    /// `estimate_candidate`: worked out here by the original's rule, by which the first of two tables with one number is taken for both; sums that
    /// the original lets overflow stay at 2^64 - 1.
    EstimatedHere,
    /// `pick_best_cause_aware`: chosen here by the original's rule, on the library's scores: the original's answer for any number of candidates and
    /// any estimates, but that a NaN of an infinity's making sorts above all scores on every machine.
    ChosenHere,
}

impl Fallback {
    pub const ALL: [Fallback; 12] = [
        Fallback::CountsHalved,
        Fallback::ReadsHeld,
        Fallback::NotRecorded,
        Fallback::FiguresMissing,
        Fallback::LevelLeftOut,
        Fallback::SizesRanked,
        Fallback::LevelSplit,
        Fallback::LevelInPart,
        Fallback::BuiltHere,
        Fallback::NothingOffered,
        Fallback::EstimatedHere,
        Fallback::ChosenHere,
    ];
}

/// How often each fallback was taken, and the refusal of the last one. Counted through `&self`, since readers fall back too.
#[derive(Debug)]
pub struct Fallbacks {
    counts: [AtomicU64; Fallback::ALL.len()],
    last: AtomicU64,
}

impl Fallbacks {
    const fn new() -> Self {
        Fallbacks { counts: [const { AtomicU64::new(0) }; Fallback::ALL.len()], last: AtomicU64::new(0) }
    }

    pub fn count(&self, of: Fallback) -> u64 {
        self.counts[of as usize].load(Relaxed)
    }

    pub fn total(&self) -> u64 {
        Fallback::ALL.iter().map(|&f| self.count(f)).sum()
    }

    pub fn last(&self) -> Option<Refusal> {
        let last = self.last.load(Relaxed);
        (last != 0).then_some(Refusal(last))
    }

    #[cold]
    fn note(&self, of: Fallback, why: Refusal) {
        self.counts[of as usize].fetch_add(1, Relaxed);
        self.last.store(why.0, Relaxed);
    }
}

impl fmt::Display for Fallbacks {
    fn fmt(&self, f: &mut fmt::Formatter<'_>) -> fmt::Result {
        for of in Fallback::ALL {
            let count = self.count(of);
            if count > 0 {
                write!(f, "{of:?} {count}, ")?;
            }
        }
        match self.last() {
            None => write!(f, "no fallback"),
            Some(last) => write!(f, "the last for {last}"),
        }
    }
}

static OF_PLANS: Fallbacks = Fallbacks::new();

/// The fallbacks of `generate_candidates`, `estimate_candidate` and `pick_best_cause_aware` in this process.
pub fn fallbacks() -> &'static Fallbacks {
    &OF_PLANS
}

// ---- the original's types

#[derive(Debug, Clone, Copy, PartialEq, Eq, Default)]
pub enum GovernorMode {
    #[default]
    Balanced,
    ReadProtect,
    WriteEmergency,
}

impl GovernorMode {
    fn of(number: u64) -> Self {
        match number {
            0 => GovernorMode::Balanced,
            1 => GovernorMode::ReadProtect,
            _ => GovernorMode::WriteEmergency,
        }
    }
}

/// Three pressures, each from 0 to 1.
#[derive(Debug, Clone, Copy, Default, PartialEq)]
pub struct PressureVector {
    pub l0: f64,
    pub deep_debt: f64,
    pub read: f64,
}

impl PressureVector {
    pub fn dominant(&self) -> PressureSource {
        PressureSource::of(library::dominant(*self))
    }

    fn of(words: &[u64]) -> Self {
        PressureVector { l0: f64::from_bits(words[0]), deep_debt: f64::from_bits(words[1]), read: f64::from_bits(words[2]) }
    }
}

#[derive(Debug, Clone, Copy, PartialEq, Eq, Default)]
pub enum PressureSource {
    #[default]
    None,
    L0,
    DeepDebt,
    Read,
}

impl PressureSource {
    fn of(number: u64) -> Self {
        match number {
            0 => PressureSource::None,
            1 => PressureSource::L0,
            2 => PressureSource::DeepDebt,
            _ => PressureSource::Read,
        }
    }
}

#[derive(Debug, Clone, Copy, PartialEq, Eq)]
pub enum ChosenKind {
    L0,
    LevelBatch { level: u32, batch_len: usize },
    TrivialMove { level: u32 },
}

impl From<CandidateKind> for ChosenKind {
    fn from(kind: CandidateKind) -> Self {
        match kind {
            CandidateKind::L0 => ChosenKind::L0,
            CandidateKind::LevelBatch { level, batch_len } => ChosenKind::LevelBatch { level, batch_len },
            CandidateKind::TrivialMove { level } => ChosenKind::TrivialMove { level },
        }
    }
}

/// One choice, as the log keeps it. The log gives the sequence.
#[derive(Debug, Clone, Copy)]
pub struct SchedulingDecision {
    pub sequence: u64,
    pub pressure: PressureVector,
    pub dominant: PressureSource,
    pub tier: SelectionTier,
    pub candidates_considered: usize,
    pub chosen: Option<ChosenKind>,
    pub predicted_rewrite_bytes: u64,
    pub l0_relief: f64,
    pub debt_relief: f64,
    pub read_relief: f64,
}

impl SchedulingDecision {
    fn words(&self) -> [u64; DECISION_WORDS] {
        let (kind, level, batch_len) = match self.chosen {
            None => (0, 0, 0),
            Some(ChosenKind::L0) => (1, 0, 0),
            Some(ChosenKind::LevelBatch { level, batch_len }) => (2, level, batch_len),
            Some(ChosenKind::TrivialMove { level }) => (3, level, 0),
        };
        [
            self.sequence,
            self.pressure.l0.to_bits(),
            self.pressure.deep_debt.to_bits(),
            self.pressure.read.to_bits(),
            self.dominant as u64,
            self.tier as u64,
            self.candidates_considered as u64,
            kind,
            level as u64,
            batch_len as u64,
            self.predicted_rewrite_bytes,
            self.l0_relief.to_bits(),
            self.debt_relief.to_bits(),
            self.read_relief.to_bits(),
        ]
    }

    fn of(words: &[u64]) -> Self {
        SchedulingDecision {
            sequence: words[0],
            pressure: PressureVector::of(&words[1..]),
            dominant: PressureSource::of(words[4]),
            tier: SelectionTier::of(words[5]),
            candidates_considered: words[6] as usize,
            chosen: match words[7] {
                0 => None,
                1 => Some(ChosenKind::L0),
                2 => Some(ChosenKind::LevelBatch { level: words[8] as u32, batch_len: words[9] as usize }),
                _ => Some(ChosenKind::TrivialMove { level: words[8] as u32 }),
            },
            predicted_rewrite_bytes: words[10],
            l0_relief: f64::from_bits(words[11]),
            debt_relief: f64::from_bits(words[12]),
            read_relief: f64::from_bits(words[13]),
        }
    }
}

#[derive(Debug, Clone, Copy, PartialEq, Eq, Default)]
pub enum SelectionTier {
    #[default]
    None,
    L0,
    FocusContinued,
    FocusReselected,
}

impl SelectionTier {
    fn of(number: u64) -> Self {
        match number {
            0 => SelectionTier::None,
            1 => SelectionTier::L0,
            2 => SelectionTier::FocusContinued,
            _ => SelectionTier::FocusReselected,
        }
    }
}

/// What one observation says of the store.
#[derive(Debug, Clone, Copy, Default)]
pub(crate) struct PressureSample {
    pub l0_count: usize,
    pub l0_write_stall_trigger: usize,
    pub max_level_debt_ratio: f64,
    pub tables_probed_per_get: f64,
    pub backlog_levels: usize,
}

impl PressureSample {
    /// The same within the library's counts: `Fallback::CountsHalved`.
    fn halved(self) -> Self {
        let (count, trigger) = halved(self.l0_count as u64, self.l0_write_stall_trigger as u64);
        let backlog = (self.backlog_levels as u64).min(MOST_COUNT);
        PressureSample { l0_count: count as usize, l0_write_stall_trigger: trigger as usize, backlog_levels: backlog as usize, ..self }
    }
}

/// Two counts halved together until neither is above 2^53. Rounded up, so that none becomes 0.
fn halved(mut a: u64, mut b: u64) -> (u64, u64) {
    while a.max(b) > MOST_COUNT {
        (a, b) = (a.div_ceil(2), b.div_ceil(2));
    }
    (a, b)
}

#[derive(Debug, Clone, Copy, Default)]
pub struct GovernorStats {
    pub mode: GovernorMode,
    pub pressure: f64,
    pub pressure_vector: PressureVector,
    pub mode_switches: u64,
    pub time_balanced_ms: u64,
    pub time_read_protect_ms: u64,
    pub time_write_emergency_ms: u64,
    pub avg_batch_size: f64,
    pub trivial_moves_performed: u64,
    pub trivial_move_bytes_avoided: u64,
    pub predicted_actual_samples: u64,
    pub predicted_actual_mean_abs_pct_error: f64,
}

#[derive(Debug, Clone)]
pub(crate) struct TableInfo {
    pub number: u64,
    pub level: u32,
    pub size: u64,
    pub first_key: Vec<u8>,
    pub last_key: Vec<u8>,
}

#[derive(Debug, Clone, Copy, PartialEq, Eq)]
pub(crate) enum CandidateKind {
    L0,
    LevelBatch { level: u32, batch_len: usize },
    TrivialMove { level: u32 },
}

impl CandidateKind {
    /// Its number, level and batch length.
    fn words(self) -> (u64, u32, u64) {
        match self {
            CandidateKind::L0 => (1, 0, 0),
            CandidateKind::LevelBatch { level, batch_len } => (2, level, batch_len as u64),
            CandidateKind::TrivialMove { level } => (3, level, 0),
        }
    }

    fn of(words: &[u64]) -> Self {
        match words[0] {
            1 => CandidateKind::L0,
            2 => CandidateKind::LevelBatch { level: words[1] as u32, batch_len: words[2] as usize },
            _ => CandidateKind::TrivialMove { level: words[1] as u32 },
        }
    }

    fn level(self) -> u32 {
        self.words().1
    }
}

#[derive(Debug, Clone)]
pub(crate) struct Candidate {
    pub kind: CandidateKind,
    pub input_numbers: Vec<u64>,
    pub output_level: u32,
}

impl Candidate {
    /// With no place in a list of numbers.
    fn words(&self) -> [u64; 6] {
        let (kind, level, batch_len) = self.kind.words();
        [kind, level as u64, batch_len, self.output_level as u64, 0, 0]
    }
}

#[derive(Debug, Clone, Copy, Default)]
pub(crate) struct CandidateEstimate {
    pub input_bytes: u64,
    pub overlap_bytes: u64,
    pub estimated_rewrite_bytes: u64,
    pub debt_relief_bytes: u64,
    pub l0_files_removed: usize,
    pub age: u64,
    pub l0_relief: f64,
    pub debt_relief: f64,
    pub read_relief: f64,
}

impl CandidateEstimate {
    fn words(&self) -> [u64; 9] {
        let reliefs = [self.l0_relief, self.debt_relief, self.read_relief].map(f64::to_bits);
        let bytes = [self.input_bytes, self.overlap_bytes, self.estimated_rewrite_bytes, self.debt_relief_bytes];
        [bytes[0], bytes[1], bytes[2], bytes[3], self.l0_files_removed as u64, self.age, reliefs[0], reliefs[1], reliefs[2]]
    }

    fn of(words: [u64; 9]) -> Self {
        CandidateEstimate {
            input_bytes: words[0],
            overlap_bytes: words[1],
            estimated_rewrite_bytes: words[2],
            debt_relief_bytes: words[3],
            l0_files_removed: words[4] as usize,
            age: words[5],
            l0_relief: f64::from_bits(words[6]),
            debt_relief: f64::from_bits(words[7]),
            read_relief: f64::from_bits(words[8]),
        }
    }
}

#[derive(Debug, Clone, Copy, PartialEq, Eq, Default)]
pub(crate) struct FocusState {
    pub current_focus: Option<u32>,
    pub streak: u32,
}

impl FocusState {
    /// Whether there is a level, the level, the streak.
    fn words(self) -> (u64, u32, u32) {
        (self.current_focus.is_some() as u64, self.current_focus.unwrap_or(0), self.streak)
    }

    fn of(words: &[u64]) -> Self {
        FocusState { current_focus: (words[0] == 1).then_some(words[1] as u32), streak: words[2] as u32 }
    }
}

// ---- pacing and the governor

pub(crate) fn pacing_delay(mode: GovernorMode, pressure: f64) -> Duration {
    Duration::from_nanos(library::pacing_delay(mode, pressure))
}

/// The library's words for a governor and its log. Their layout is the library's own: they are lent to it and never looked into.
///
/// The clock that the library is handed is the nanoseconds since `new`, by `Instant`: 0 where that is below the one that `new` read, and at most
/// 2^64 - 1. Of these readings the library keeps the highest that it accepted. So on a machine whose clock wakes older a stretch is counted once, the
/// three times add up to the highest reading, and no call is refused for a time.
pub(crate) struct GovernorState {
    state: Box<[u64]>,
    /// As after the last observation.
    mode: GovernorMode,
    log_head: [u64; 3],
    /// None until there is a decision: 448 KB.
    log_words: Box<[u64]>,
    began: Instant,
    /// Of the batches recorded so far: `Fallback::NotRecorded`.
    batch_size_sum: u64,
    fallbacks: Fallbacks,
}

const _: () = {
    const fn shared<T: Send + Sync>() {}
    shared::<GovernorState>()
};

impl GovernorState {
    /// Panics if the archive that was linked isn't of the version that this file was written for.
    pub(crate) fn new() -> Self {
        let version = library::coinhamper_version();
        assert_eq!(version, VERSION, "libcoinhamper.a has version {version}, governor.rs is for {VERSION}: take both from one release");
        let mut governor = GovernorState {
            state: vec![0; library::coinhamper_state_words()].into(),
            mode: GovernorMode::default(),
            log_head: [0; 3],
            log_words: Box::default(),
            began: Instant::now(),
            batch_size_sum: 0,
            fallbacks: Fallbacks::new(),
        };
        let made = library::fresh(&mut governor.state, 0).and_then(|()| library::mode(&governor.state));
        assert_eq!(made, Ok(governor.mode), "libcoinhamper.a refuses to make a governor");
        governor
    }

    /// How often this governor's calls fell back, and why the last one did.
    pub(crate) fn fallbacks(&self) -> &Fallbacks {
        &self.fallbacks
    }

    fn clock(&self) -> u64 {
        u64::try_from(self.began.elapsed().as_nanos()).unwrap_or(u64::MAX)
    }

    /// Mode, pressure, the vector's three, focus flag, level and streak. Zeros if the words are refused, which only something else's writing to them
    /// can bring about.
    fn reading(&self) -> [u64; 8] {
        let mut words = [0; 8];
        self.recorded(library::read(&self.state, &mut words));
        words
    }

    /// A refusal that leaves nothing else to do.
    fn recorded(&self, result: Result<(), Refusal>) {
        if let Err(why) = result {
            self.fallbacks.note(Fallback::NotRecorded, why);
        }
    }

    pub(crate) fn mode(&self) -> GovernorMode {
        self.mode
    }

    pub(crate) fn pressure(&self) -> f64 {
        f64::from_bits(self.reading()[1])
    }

    pub(crate) fn pressure_vector(&self) -> PressureVector {
        PressureVector::of(&self.reading()[2..])
    }

    pub(crate) fn focus(&self) -> FocusState {
        FocusState::of(&self.reading()[5..])
    }

    /// Takes any focus.
    pub(crate) fn try_set_focus(&mut self, focus: FocusState) -> Result<(), Refusal> {
        library::set_focus(&mut self.state, focus)
    }

    pub(crate) fn set_focus(&mut self, focus: FocusState) {
        let result = self.try_set_focus(focus);
        self.recorded(result);
    }

    /// Takes any decision.
    pub(crate) fn try_record_decision(&mut self, decision: SchedulingDecision) -> Result<(), Refusal> {
        if self.log_words.is_empty() {
            self.log_words = vec![0; LOG_WORDS].into();
        }
        library::record_decision(&mut self.log_head, &mut self.log_words, &decision.words())
    }

    pub(crate) fn record_decision(&mut self, decision: SchedulingDecision) {
        let result = self.try_record_decision(decision);
        self.recorded(result);
    }

    /// Refused with 10 if something else has written to the log.
    pub(crate) fn try_recent_decisions(&self) -> Result<Vec<SchedulingDecision>, Refusal> {
        let [_, count, _] = self.log_head;
        if count == 0 {
            return Ok(Vec::new());
        }
        let mut out = vec![0; DECISION_WORDS * count as usize];
        library::recent_decisions(&self.log_head, &self.log_words, &mut out)?;
        Ok(out.chunks_exact(DECISION_WORDS).map(SchedulingDecision::of).collect())
    }

    pub(crate) fn recent_decisions(&self) -> Vec<SchedulingDecision> {
        self.try_recent_decisions().unwrap_or_else(|why| {
            self.recorded(Err(why));
            Vec::new()
        })
    }

    /// Refused with 2 for a count above 2^53, with 3 for a full counter.
    pub(crate) fn try_observe(&mut self, sample: PressureSample) -> Result<GovernorMode, Refusal> {
        let clock = self.clock();
        library::observe(&mut self.state, clock, &sample)?;
        self.mode = library::mode(&self.state)?;
        Ok(self.mode)
    }

    /// Falls back by `CountsHalved`, and by `NotRecorded` to the mode as it was.
    pub(crate) fn observe(&mut self, sample: PressureSample) -> GovernorMode {
        let mut result = self.try_observe(sample);
        if result == Err(TOO_LARGE) {
            self.fallbacks.note(Fallback::CountsHalved, TOO_LARGE);
            result = self.try_observe(sample.halved());
        }
        self.recorded(result.map(|_| ()));
        self.mode()
    }

    fn observe_reads(&mut self, sample: &PressureSample, reads: [u64; 5]) -> Result<(), Refusal> {
        let clock = self.clock();
        library::observe_engine(&mut self.state, clock, sample, reads)?;
        self.mode = library::mode(&self.state)?;
        Ok(())
    }

    /// Refused with 2 for a count above 2^53, also one of gets or probes since the last call, with 3 for a full counter or a sum of probes past
    /// 2^64 - 1.
    pub(crate) fn try_observe_engine(
        &mut self,
        l0_count: usize,
        l0_write_stall_trigger: usize,
        max_level_debt_ratio: f64,
        backlog_levels: usize,
        read_amp_now: ReadAmpStats,
    ) -> Result<GovernorMode, Refusal> {
        let sample = PressureSample { l0_count, l0_write_stall_trigger, max_level_debt_ratio, tables_probed_per_get: 0.0, backlog_levels };
        self.observe_reads(&sample, reads(&read_amp_now))?;
        Ok(self.mode())
    }

    /// Falls back by `CountsHalved`, by `ReadsHeld`, and by `NotRecorded` to the mode as it was.
    pub(crate) fn observe_engine(
        &mut self,
        l0_count: usize,
        l0_write_stall_trigger: usize,
        max_level_debt_ratio: f64,
        backlog_levels: usize,
        read_amp_now: ReadAmpStats,
    ) -> GovernorMode {
        let sample = PressureSample { l0_count, l0_write_stall_trigger, max_level_debt_ratio, tables_probed_per_get: 0.0, backlog_levels };
        let reads = reads(&read_amp_now);
        if let Err(why) = self.observe_reads(&sample, reads) {
            self.observe_mended(sample, reads, why);
        }
        self.mode()
    }

    #[cold]
    fn observe_mended(&mut self, sample: PressureSample, reads: [u64; 5], why: Refusal) {
        let halved = sample.halved();
        let counts = |s: &PressureSample| (s.l0_count, s.l0_write_stall_trigger, s.backlog_levels);
        let mut result = Err(why);
        if counts(&halved) != counts(&sample) {
            self.fallbacks.note(Fallback::CountsHalved, why);
            result = self.observe_reads(&halved, reads);
        }
        if let Err(why) = result
            && matches!(why, TOO_LARGE | COUNTER_FULL)
        {
            self.fallbacks.note(Fallback::ReadsHeld, why);
            // Counters of 0 have grown by nothing, whatever the last ones were.
            result = self.observe_reads(&halved, [0; 5]);
        }
        self.recorded(result);
    }

    /// Refused with 2, by this file and not by the library, for batch lengths that add up to more than 2^53: every later snapshot would be refused.
    pub(crate) fn try_record_candidate_chosen(&mut self, kind: CandidateKind) -> Result<(), Refusal> {
        let (number, level, batch_len) = kind.words();
        let sum = self.batch_size_sum.saturating_add(batch_len);
        if sum > MOST_COUNT {
            return Err(TOO_LARGE);
        }
        library::record_candidate_chosen(&mut self.state, number, level, batch_len)?;
        self.batch_size_sum = sum;
        Ok(())
    }

    /// Falls back by `NotRecorded`.
    pub(crate) fn record_candidate_chosen(&mut self, kind: CandidateKind) {
        let result = self.try_record_candidate_chosen(kind);
        self.recorded(result);
    }

    /// Refused with 3 for 2^64 - 1 moves.
    pub(crate) fn try_record_trivial_move(&mut self, bytes_avoided: u64) -> Result<(), Refusal> {
        library::record_trivial_move(&mut self.state, bytes_avoided)
    }

    /// Falls back by `NotRecorded`.
    pub(crate) fn record_trivial_move(&mut self, bytes_avoided: u64) {
        let result = self.try_record_trivial_move(bytes_avoided);
        self.recorded(result);
    }

    /// Refused with 2 for bytes above 2^53, with 3 for 2^64 - 1 outcomes.
    pub(crate) fn try_record_outcome(&mut self, predicted_bytes: u64, actual_bytes: u64) -> Result<(), Refusal> {
        library::record_outcome(&mut self.state, predicted_bytes, actual_bytes)
    }

    /// Falls back by `CountsHalved`, so that the error stays what it was, and by `NotRecorded`.
    pub(crate) fn record_outcome(&mut self, predicted_bytes: u64, actual_bytes: u64) {
        let mut result = self.try_record_outcome(predicted_bytes, actual_bytes);
        if result == Err(TOO_LARGE) {
            self.fallbacks.note(Fallback::CountsHalved, TOO_LARGE);
            let (predicted, actual) = halved(predicted_bytes, actual_bytes);
            result = self.try_record_outcome(predicted, actual);
        }
        self.recorded(result);
    }

    /// Refused with 2 for over 2^53 outcomes.
    pub(crate) fn try_snapshot(&self) -> Result<GovernorStats, Refusal> {
        let mut words = [0; 14];
        library::snapshot(&self.state, self.clock(), &mut words)?;
        Ok(GovernorStats {
            mode: GovernorMode::of(words[0]),
            pressure: f64::from_bits(words[1]),
            pressure_vector: PressureVector::of(&words[2..]),
            mode_switches: words[5],
            time_balanced_ms: words[6],
            time_read_protect_ms: words[7],
            time_write_emergency_ms: words[8],
            avg_batch_size: f64::from_bits(words[9]),
            trivial_moves_performed: words[10],
            trivial_move_bytes_avoided: words[11],
            predicted_actual_samples: words[12],
            predicted_actual_mean_abs_pct_error: f64::from_bits(words[13]),
        })
    }

    /// Falls back by `FiguresMissing`.
    pub(crate) fn snapshot(&self) -> GovernorStats {
        self.try_snapshot().unwrap_or_else(|why| {
            self.fallbacks.note(Fallback::FiguresMissing, why);
            GovernorStats { mode: self.mode(), pressure: self.pressure(), pressure_vector: self.pressure_vector(), ..GovernorStats::default() }
        })
    }
}

fn reads(r: &ReadAmpStats) -> [u64; 5] {
    [r.gets_total, r.resolved_in_memtable, r.resolved_in_immutable, r.l0_tables_probed, r.leveled_tables_probed]
}

// ---- candidates

fn entries(over: &[(u32, u64)]) -> Vec<u64> {
    over.iter().flat_map(|&(level, budget)| [level as u64, budget]).collect()
}

fn number_twice(tables: &[TableInfo]) -> bool {
    let mut numbers: Vec<u64> = tables.iter().map(|t| t.number).collect();
    numbers.sort_unstable();
    numbers.windows(2).any(|two| two[0] == two[1])
}

/// What the library refuses a list for, in its order, where it is to see only parts of the list.
fn refused_whole(tables: &[TableInfo], over: &[(u32, u64)]) -> Result<(), Refusal> {
    if tables.iter().any(|t| t.size > MOST_SIZE) {
        return Err(BAD_RECORD);
    }
    if number_twice(tables) {
        return Err(DUPLICATE_NUMBER);
    }
    if over.iter().any(|&(level, _)| level == u32::MAX) {
        return Err(BAD_LEVEL);
    }
    Ok(())
}

/// The tables of a level whose keys meet the range of some others, in table order.
fn overlapping<'t>(tables: &'t [TableInfo], level: u32, others: &[&TableInfo]) -> Vec<&'t TableInfo> {
    let lo = others.iter().map(|t| t.first_key.as_slice()).min();
    let hi = others.iter().map(|t| t.last_key.as_slice()).max();
    let (Some(lo), Some(hi)) = (lo, hi) else { return Vec::new() };
    tables.iter().filter(|t| t.level == level && t.first_key.as_slice() <= hi && t.last_key.as_slice() >= lo).collect()
}

/// A plan that is put to the library, in one question or level by level: no candidate depends on more than its level and the one below.
struct Plan<'t> {
    tables: &'t [TableInfo],
    l0_compaction_trigger: usize,
    /// All sizes in order, where ranks stand for them.
    ranks: Option<Vec<u64>>,
    /// Whether a merge of over 1,024 tables is offered in part or refused.
    mending: bool,
    /// The levels that were asked for in parts.
    splits: Cell<u64>,
}

impl<'t> Plan<'t> {
    fn candidates(&self, over: &[(u32, u64)]) -> Result<Vec<Candidate>, Refusal> {
        let mut out = Vec::new();
        if self.tables.len() <= MOST_TABLES && over.len() <= MOST_ENTRIES {
            self.ask(self.tables.iter(), self.l0_compaction_trigger as u64, over, &mut out)?;
            return Ok(out);
        }
        refused_whole(self.tables, over)?;
        self.level_zero(&mut out)?;
        for &entry in over {
            self.level(entry, &mut out)?;
        }
        self.count_splits();
        Ok(out)
    }

    /// Level by level, whatever the size; a level that is refused even so is left out, and counted.
    fn mended(&self, over: &[(u32, u64)]) -> Vec<Candidate> {
        let mut out = Vec::new();
        let left_out = |asked: Result<(), Refusal>| {
            if let Err(why) = asked {
                OF_PLANS.note(Fallback::LevelLeftOut, why);
            }
        };
        left_out(self.level_zero(&mut out));
        over.iter().for_each(|&entry| left_out(self.level(entry, &mut out)));
        self.count_splits();
        out
    }

    fn count_splits(&self) {
        for _ in 0..self.splits.get() {
            OF_PLANS.note(Fallback::LevelSplit, TOO_MANY);
        }
    }

    /// One question. A refused one adds nothing.
    fn ask<'a>(
        &self,
        tables: impl Iterator<Item = &'a TableInfo> + Clone,
        trigger: u64,
        over: &[(u32, u64)],
        out: &mut Vec<Candidate>,
    ) -> Result<(), Refusal> {
        let (count, bytes) = tables.clone().fold((0, 0), |(n, bytes), t| (n + 1, bytes + t.first_key.len() + t.last_key.len()));
        let (mut words, mut keys) = (Vec::with_capacity(7 * count), Vec::with_capacity(bytes));
        for t in tables {
            let (first, last) = (keys.len() as u64, (keys.len() + t.first_key.len()) as u64);
            keys.extend_from_slice(&t.first_key);
            keys.extend_from_slice(&t.last_key);
            let size = self.ranks.as_ref().map_or(t.size, |all| all.partition_point(|&s| s < t.size) as u64);
            words.extend_from_slice(&[t.number, t.level as u64, size, first, t.first_key.len() as u64, last, t.last_key.len() as u64]);
        }
        // The most that there can be: all of levels 0 and 1; of each entry batches of 1 to 8 with all that is below, and a move of 8.
        let on = |level: u64| words.chunks_exact(7).filter(|w| w[1] == level).count();
        let numbers_room = over.iter().fold(on(0) + on(1), |room, &(level, _)| room + 44 + 8 * on(level as u64 + 1));
        let mut candidates = vec![0; 6 * (1 + 9 * over.len())];
        let mut numbers = vec![0; numbers_room];
        let count = library::generate_candidates(&words, &keys, trigger, &entries(over), &mut candidates, &mut numbers)?;
        out.extend(candidates.chunks_exact(6).take(count).map(|c| Candidate {
            kind: CandidateKind::of(c),
            input_numbers: numbers[c[4] as usize..][..c[5] as usize].to_vec(),
            output_level: c[3] as u32,
        }));
        Ok(())
    }

    /// One question about a merge of `batch` with `below`. When mending, the merge itself if the library refuses it.
    fn ask_for(
        &self,
        kind: CandidateKind,
        batch: &[&TableInfo],
        below: &[&TableInfo],
        over: &[(u32, u64)],
        out: &mut Vec<Candidate>,
    ) -> Result<(), Refusal> {
        let trigger = if kind == CandidateKind::L0 { 0 } else { NEVER };
        let both = || batch.iter().chain(below).copied();
        let fits = batch.len() + below.len() <= MOST_TABLES;
        let said = if fits { self.ask(both(), trigger, over, out) } else { Err(TOO_MANY) };
        match said {
            Err(why) if self.mending => {
                OF_PLANS.note(Fallback::BuiltHere, why);
                out.push(Candidate { kind, input_numbers: both().map(|t| t.number).collect(), output_level: kind.level() + 1 });
                Ok(())
            }
            _ => said,
        }
    }

    fn level_zero(&self, out: &mut Vec<Candidate>) -> Result<(), Refusal> {
        let all: Vec<&TableInfo> = self.tables.iter().filter(|t| t.level == 0).collect();
        if all.len() < self.l0_compaction_trigger {
            return Ok(());
        }
        let below = overlapping(self.tables, 1, &all);
        if all.len() + below.len() <= MOST_TABLES || !self.mending {
            return self.ask_for(CandidateKind::L0, &all, &below, &[], out);
        }
        // Tables of L0 overlap one another, and what is merged into level 1 counts as older than what stays: so the oldest go first, or old values
        // would come back.
        let mut by_age: Vec<usize> = (0..all.len()).collect();
        by_age.sort_by_key(|&place| all[place].number);
        let oldest = |count: usize| -> Vec<&TableInfo> {
            let mut places = by_age[..count].to_vec();
            places.sort();
            places.into_iter().map(|place| all[place]).collect()
        };
        let (mut fit, mut too_many) = (0, all.len().min(MOST_TABLES + 1));
        while too_many - fit > 1 {
            let middle = (fit + too_many) / 2;
            let fits = middle + overlapping(self.tables, 1, &oldest(middle)).len() <= MOST_TABLES;
            if fits {
                fit = middle;
            } else {
                too_many = middle;
            }
        }
        if fit > 0 {
            OF_PLANS.note(Fallback::LevelInPart, TOO_MANY);
        }
        let part = oldest(fit.max(1));
        self.ask_for(CandidateKind::L0, &part, &overlapping(self.tables, 1, &part), &[], out)
    }

    fn level(&self, entry: (u32, u64), out: &mut Vec<Candidate>) -> Result<(), Refusal> {
        let (level, _) = entry;
        let next = level.checked_add(1).ok_or(BAD_LEVEL)?;
        let mut by_key: Vec<&TableInfo> = self.tables.iter().filter(|t| t.level == level).collect();
        let below = overlapping(self.tables, next, &by_key);
        if by_key.len() + below.len() <= MOST_TABLES {
            let asked = self.ask(by_key.iter().chain(&below).copied(), NEVER, &[entry], out);
            if asked.is_ok() || !self.mending {
                return asked;
            }
        }
        // Too crowded for one question: one about the eight tables that batches are made of, and one about the eight that a move is made of.
        self.splits.set(self.splits.get() + 1);
        by_key.sort_by(|a, b| a.first_key.cmp(&b.first_key));
        let Some(seed) = (0..by_key.len()).min_by_key(|&place| by_key[place].number) else { return Ok(()) };
        let mut batch = &by_key[seed..by_key.len().min(seed + MAX_ADAPTIVE_BATCH)];
        let mut met = overlapping(self.tables, next, batch);
        if self.mending && batch.len() > 1 && batch.len() + met.len() > MOST_TABLES {
            OF_PLANS.note(Fallback::LevelInPart, TOO_MANY);
            while batch.len() > 1 && batch.len() + met.len() > MOST_TABLES {
                batch = &batch[..batch.len() - 1];
                met = overlapping(self.tables, next, batch);
            }
        }
        let mut found = Vec::new();
        self.ask_for(CandidateKind::LevelBatch { level, batch_len: batch.len() }, batch, &met, &[entry], &mut found)?;
        found.retain(|c| c.kind != CandidateKind::TrivialMove { level });
        out.append(&mut found);
        self.ask(free(&by_key, below).into_iter(), NEVER, &[entry], &mut found)?;
        found.retain(|c| c.kind == CandidateKind::TrivialMove { level });
        out.append(&mut found);
        Ok(())
    }
}

/// The tables of a level that overlap nothing below, the eight that a move takes.
fn free<'t>(by_key: &[&'t TableInfo], mut below: Vec<&TableInfo>) -> Vec<&'t TableInfo> {
    below.sort_by(|a, b| a.first_key.cmp(&b.first_key));
    // The largest last key up to each place: a range is met by a table that starts up to its end just if one of these ends at or past its start.
    let mut ends: Vec<&[u8]> = below.iter().map(|t| t.last_key.as_slice()).collect();
    for place in 1..ends.len() {
        ends[place] = ends[place].max(ends[place - 1]);
    }
    let is_free = |t: &&TableInfo| {
        let starting = below.partition_point(|b| b.first_key <= t.last_key);
        starting == 0 || ends[starting - 1] < t.first_key.as_slice()
    };
    let mut free: Vec<&TableInfo> = by_key.iter().copied().filter(is_free).collect();
    free.sort_by(|a, b| b.size.cmp(&a.size).then(a.number.cmp(&b.number)));
    free.truncate(MAX_ADAPTIVE_BATCH);
    free
}

/// Past 1,024 tables or 16 entries the library is asked level by level, and a level that is too crowded in parts (`LevelSplit`), which changes no
/// answer. Refused, by the whole list whatever its size, with 5 for a size above 2^40, with 11 for two tables with one number, with 6 for an
/// over-budget level of 2^32 - 1, the first of these; only then with 4 for a merge of over 1,024 tables.
pub(crate) fn try_generate_candidates(
    tables: &[TableInfo],
    l0_compaction_trigger: usize,
    over_budget_levels: &[(u32, u64)],
    _next_file_number: u64,
) -> Result<Vec<Candidate>, Refusal> {
    Plan { tables, l0_compaction_trigger, ranks: None, mending: false, splits: Cell::new(0) }.candidates(over_budget_levels)
}

/// Falls back by `LevelLeftOut`, `SizesRanked`, `LevelSplit`, `LevelInPart` and `BuiltHere`: wherever the original has candidates for a level this
/// has some of them. By `NothingOffered` it has none, whatever else the list is refused for.
pub(crate) fn generate_candidates(
    tables: &[TableInfo],
    l0_compaction_trigger: usize,
    over_budget_levels: &[(u32, u64)],
    next_file_number: u64,
) -> Vec<Candidate> {
    try_generate_candidates(tables, l0_compaction_trigger, over_budget_levels, next_file_number)
        .unwrap_or_else(|_| generate_mended(tables, l0_compaction_trigger, over_budget_levels))
}

#[cold]
fn generate_mended(tables: &[TableInfo], l0_compaction_trigger: usize, over_budget_levels: &[(u32, u64)]) -> Vec<Candidate> {
    if number_twice(tables) {
        OF_PLANS.note(Fallback::NothingOffered, DUPLICATE_NUMBER);
        return Vec::new();
    }
    let mut ranks = None;
    if tables.iter().any(|t| t.size > MOST_SIZE) {
        OF_PLANS.note(Fallback::SizesRanked, BAD_RECORD);
        let mut sizes: Vec<u64> = tables.iter().map(|t| t.size).collect();
        sizes.sort();
        ranks = Some(sizes);
    }
    Plan { tables, l0_compaction_trigger, ranks, mending: true, splits: Cell::new(0) }.mended(over_budget_levels)
}

// ---- estimates

/// Past 1,024 tables or 16 entries only what the estimate depends on is handed in, which changes no answer. Refused, by the whole list whatever its
/// size, with 4 for over 1,024 numbers, with 5 for a size above 2^40 or a batch length outside 1 to 8, with 11 for two tables with one number, with
/// 6 for an over-budget level of 2^32 - 1, the first of these; only then with 4 where the level is over budget by more than the tables that are left
/// to say so (2^40 bytes each), and with 2 for a next number above 2^53. The candidate may name a number more than once, and it counts each time.
pub(crate) fn try_estimate_candidate(
    tables: &[TableInfo],
    candidate: &Candidate,
    next_file_number: u64,
    over_budget_levels: &[(u32, u64)],
) -> Result<CandidateEstimate, Refusal> {
    let words = |t: &TableInfo| [t.number, t.level as u64, t.size, 0, 0, 0, 0];
    let numbers = &candidate.input_numbers;
    let mut of = candidate.words();
    of[5] = numbers.len() as u64;
    let estimate = |tables: &[u64], over: &[(u32, u64)]| {
        library::estimate_candidate(tables, next_file_number, &entries(over), &of, numbers).map(CandidateEstimate::of)
    };
    if tables.len() <= MOST_TABLES && over_budget_levels.len() <= MOST_ENTRIES {
        let mut all = Vec::with_capacity(7 * tables.len());
        tables.iter().for_each(|t| all.extend_from_slice(&words(t)));
        return estimate(&all, over_budget_levels);
    }

    // What the library can't tell by a part comes first: what the candidate is refused for by itself, then what the lists are.
    if let Err(why @ (TOO_MANY | BAD_RECORD)) = estimate(&[], &[]) {
        return Err(why);
    }
    refused_whole(tables, over_budget_levels)?;

    // The tables that the candidate names, and of its level's others the bytes.
    let level = candidate.kind.level();
    let named: HashSet<u64> = numbers.iter().copied().collect();
    let (mut handed, mut rest) = (Vec::new(), 0u128);
    for t in tables {
        if named.contains(&t.number) {
            handed.extend_from_slice(&words(t));
        } else if t.level == level {
            rest += t.size as u128;
        }
    }
    let entry = over_budget_levels.iter().find(|&&(l, _)| l == level && candidate.kind != CandidateKind::L0);
    let Some(&(_, budget)) = entry else { return estimate(&handed, &[]) };
    // Only bytes less budget count: what the others' bytes take off the budget need not be said by tables.
    let covered = rest.min(budget as u128);
    let mut surplus = rest - covered;
    let told_by = surplus.div_ceil(MOST_SIZE as u128) as usize;
    if told_by > MOST_TABLES.saturating_sub(handed.len() / 7) {
        return Err(TOO_MANY);
    }
    // Each under a number of its own that the candidate doesn't name.
    for number in (0..).filter(|n| !named.contains(n)).take(told_by) {
        let size = surplus.min(MOST_SIZE as u128);
        handed.extend_from_slice(&[number, level as u64, size as u64, 0, 0, 0, 0]);
        surplus -= size;
    }
    estimate(&handed, &[(level, budget - covered as u64)])
}

/// Falls back by `EstimatedHere`.
pub(crate) fn estimate_candidate(
    tables: &[TableInfo],
    candidate: &Candidate,
    next_file_number: u64,
    over_budget_levels: &[(u32, u64)],
) -> CandidateEstimate {
    try_estimate_candidate(tables, candidate, next_file_number, over_budget_levels).unwrap_or_else(|why| {
        OF_PLANS.note(Fallback::EstimatedHere, why);
        estimated_here(tables, candidate, next_file_number, over_budget_levels)
    })
}

#[cold]
fn estimated_here(tables: &[TableInfo], candidate: &Candidate, next_file_number: u64, over_budget_levels: &[(u32, u64)]) -> CandidateEstimate {
    let level = candidate.kind.level();
    let mut first = HashMap::new();
    for t in tables {
        first.entry(t.number).or_insert(t);
    }
    let (inputs, overlaps): (Vec<&TableInfo>, Vec<&TableInfo>) =
        candidate.input_numbers.iter().filter_map(|n| first.get(n).copied()).partition(|t| t.level == level);
    let bytes = |of: &[&TableInfo]| of.iter().fold(0u64, |sum, t| sum.saturating_add(t.size));
    let (input_bytes, overlap_bytes) = (bytes(&inputs), bytes(&overlaps));
    let is_l0 = candidate.kind == CandidateKind::L0;
    let l0_relief = if is_l0 { 1.0 } else { 0.0 };
    let debt_relief = match over_budget_levels.iter().find(|&&(l, _)| l == level) {
        Some(&(_, budget)) if !is_l0 => {
            let level_bytes = tables.iter().filter(|t| t.level == level).fold(0u64, |sum, t| sum.saturating_add(t.size));
            (input_bytes as f64 / level_bytes.saturating_sub(budget).max(1) as f64).min(1.0)
        }
        _ => 0.0,
    };
    CandidateEstimate {
        input_bytes,
        overlap_bytes,
        estimated_rewrite_bytes: match candidate.kind {
            CandidateKind::TrivialMove { .. } => 0,
            _ => input_bytes.saturating_add(overlap_bytes),
        },
        debt_relief_bytes: input_bytes,
        l0_files_removed: if is_l0 { inputs.len() } else { 0 },
        age: inputs.iter().map(|t| t.number).min().map_or(0, |oldest| next_file_number.saturating_sub(oldest)),
        l0_relief,
        debt_relief,
        read_relief: l0_relief,
    }
}

// ---- the choice

type Offer = (Candidate, CandidateEstimate);
type Picked<'o> = (Option<&'o Offer>, FocusState, SelectionTier);

/// Refused with 4 for over 145 candidates, with 5 for a batch length outside 1 to 8, with 7 for a pressure and with 8 for an estimate outside the
/// limits.
pub(crate) fn try_pick_best_cause_aware(vector: PressureVector, focus: FocusState, candidates: &[Offer]) -> Result<Picked<'_>, Refusal> {
    let (mut words, mut estimates) = (Vec::with_capacity(6 * candidates.len()), Vec::with_capacity(9 * candidates.len()));
    for (candidate, estimate) in candidates {
        words.extend_from_slice(&candidate.words());
        estimates.extend_from_slice(&estimate.words());
    }
    let picked = library::pick_best_cause_aware(vector, focus, &words, &estimates)?;
    let [flag, place, .., tier] = picked;
    Ok(((flag == 1).then(|| &candidates[place as usize]), FocusState::of(&picked[2..]), SelectionTier::of(tier)))
}

/// Falls back by `ChosenHere`.
pub(crate) fn pick_best_cause_aware(vector: PressureVector, focus: FocusState, candidates: &[Offer]) -> Picked<'_> {
    try_pick_best_cause_aware(vector, focus, candidates).unwrap_or_else(|why| {
        OF_PLANS.note(Fallback::ChosenHere, why);
        chosen_here(vector, focus, candidates)
    })
}

#[cold]
fn chosen_here(vector: PressureVector, focus: FocusState, candidates: &[Offer]) -> Picked<'_> {
    if let Some(first) = candidates.iter().find(|(c, _)| c.kind == CandidateKind::L0) {
        return (Some(first), FocusState::default(), SelectionTier::L0);
    }
    // The sign of a NaN depends on the machine, and `total_cmp` on the sign: every NaN becomes the one that sorts above all numbers.
    let score = |e: &CandidateEstimate| Some(library::cause_aware_score(vector, e)).filter(|s| !s.is_nan()).unwrap_or(f64::NAN);
    let scored: Vec<(f64, &Offer)> = candidates.iter().map(|offer| (score(&offer.1), offer)).collect();
    let best_of = |level: Option<u32>| {
        let of = scored.iter().filter(|(_, (c, _))| level.is_none_or(|l| l == c.kind.level()));
        of.max_by(|a, b| a.0.total_cmp(&b.0)).map(|&(_, offer)| offer)
    };
    if let Some(level) = focus.current_focus
        && focus.streak < FOCUS_MAX_CONSECUTIVE_JOBS
        && let Some(best) = best_of(Some(level))
    {
        let focus = FocusState { current_focus: Some(level), streak: focus.streak + 1 };
        return (Some(longest_as_good(best, candidates)), focus, SelectionTier::FocusContinued);
    }
    let Some(best) = best_of(None) else { return (None, FocusState::default(), SelectionTier::None) };
    let focus = FocusState { current_focus: Some(best.0.kind.level()), streak: 1 };
    (Some(longest_as_good(best, candidates)), focus, SelectionTier::FocusReselected)
}

/// A batch that relieves all of its level's debt gives way to the longest such batch of the level.
fn longest_as_good<'o>(best: &'o Offer, candidates: &'o [Offer]) -> &'o Offer {
    let full = |offer: &Offer| match offer.0.kind {
        CandidateKind::LevelBatch { level, batch_len } if offer.1.debt_relief >= 1.0 => Some((level, batch_len)),
        _ => None,
    };
    let Some((level, _)) = full(best) else { return best };
    let as_good = candidates.iter().filter(|offer| full(offer).is_some_and(|(l, _)| l == level));
    as_good.max_by_key(|offer| full(offer)).unwrap_or(best)
}
