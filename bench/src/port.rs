//! The port's calls, as src/calls.rattle has them, and what they are lent.

/// A lent slice: the toolchain takes a pointer to its address and length.
#[repr(C)]
pub struct Lent(usize, usize);

pub fn lent<T>(s: &[T]) -> Lent {
    Lent(s.as_ptr() as usize, s.len())
}

pub fn lent_mut<T>(s: &mut [T]) -> Lent {
    Lent(s.as_mut_ptr() as usize, s.len())
}

/// Room for a governor's state, whose layout only the port knows.
#[repr(C, align(64))]
pub struct Governor([u64; 128]);

impl Governor {
    pub fn fresh(clock: u64) -> Governor {
        let mut g = Governor([0; 128]);
        port_fresh(&mut g, clock);
        g
    }
}

/// Room for a log's first, count and sequence.
#[repr(C)]
pub struct Log([u64; 8]);

impl Log {
    pub fn empty() -> Log {
        let mut log = Log([u64::MAX; 8]);
        port_empty(&mut log);
        log
    }
}

#[rustfmt::skip]
unsafe extern "C" {
    pub safe fn port_of_bits(xs: &Lent, out: &Lent);
    pub safe fn port_to_bits(xs: &Lent, out: &Lent);
    pub safe fn port_minimum(xs: &Lent, ys: &Lent, out: &Lent);
    pub safe fn port_maximum(xs: &Lent, ys: &Lent, out: &Lent);
    pub safe fn port_absolute(xs: &Lent, out: &Lent);
    pub safe fn port_clamp(xs: &Lent, out: &Lent);
    pub safe fn port_of_u64(xs: &Lent, out: &Lent);
    pub safe fn port_truncate(xs: &Lent, out: &Lent);
    pub safe fn port_sqrt(xs: &Lent, out: &Lent);
    pub safe fn port_ln_1p(xs: &Lent, out: &Lent);
    pub safe fn port_logarithm(age: u64) -> f64;

    pub safe fn port_compare(tables: &Lent, keys: &Lent, pairs: &Lent, out: &Lent);
    pub safe fn port_sort_level(tables: &Lent, keys: &Lent, level: u64, order: &Lent) -> usize;
    pub safe fn port_generate(tables: &Lent, keys: &Lent, trigger: u64, over: &Lent, candidates: &Lent, numbers: &Lent, counts: &Lent) -> u64;
    pub safe fn port_estimate(tables: &Lent, next: u64, over: &Lent, candidates: &Lent, numbers: &Lent, estimates: &Lent, counts: &Lent) -> u64;
    pub safe fn port_pick(vector: &Lent, focus: &Lent, candidates: &Lent, estimates: &Lent, out: &Lent);
    pub safe fn port_decision(vector: &Lent, place: u64, anew: u64, candidates: &Lent, estimates: &Lent, out: &Lent);
    pub safe fn port_score(vector: &Lent, estimates: &Lent, out: &Lent);

    pub safe fn port_fresh(g: &mut Governor, clock: u64);
    pub safe fn port_mode(g: &mut Governor) -> u64;
    pub safe fn port_pressure(g: &mut Governor) -> f64;
    pub safe fn port_pressure_vector(g: &mut Governor, out: &Lent);
    pub safe fn port_focus(g: &mut Governor, out: &Lent);
    pub safe fn port_set_focus(g: &mut Governor, focus: &Lent);
    pub safe fn port_observe(g: &mut Governor, sample: &Lent) -> u64;
    pub safe fn port_observe_engine(g: &mut Governor, sample: &Lent, stats: &Lent) -> u64;
    pub safe fn port_observe_run(samples: &Lent, modes: &Lent);
    pub safe fn port_observe_engine_run(samples: &Lent, stats: &Lent, modes: &Lent);
    pub safe fn port_pacing_delay(modes: &Lent, pressures: &Lent, out: &Lent);
    pub safe fn port_dominant(vectors: &Lent, out: &Lent);
    pub safe fn port_snapshot(g: &mut Governor, now: u64, out: &Lent) -> u64;
    pub safe fn port_record_chosen(g: &mut Governor, kind: u64, level: u64, batch_len: u64);
    pub safe fn port_record_trivial_move(g: &mut Governor, bytes: u64) -> u64;
    pub safe fn port_record_outcome(g: &mut Governor, predicted: u64, actual: u64) -> u64;
    pub safe fn port_with_trivial_move(g: &mut Governor, bytes: &Lent) -> u64;
    pub safe fn port_with_outcome(g: &mut Governor, pairs: &Lent) -> u64;

    pub safe fn port_empty(log: &mut Log);
    pub safe fn port_record_decision(log: &mut Log, words: &Lent, n: u64, pressure: f64) -> u64;
    pub safe fn port_record_run(log: &mut Log, words: &Lent, times: u64, pressure: f64) -> u64;
    pub safe fn port_record_words(log: &mut Log, words: &Lent, decision: &Lent) -> u64;
    pub safe fn port_recent(log: &mut Log, words: &Lent, out: &Lent, counts: &Lent) -> u64;
    pub safe fn port_to_words(times: u64, pressure: f64, out: &Lent);
    pub safe fn port_words_and_back(words: &Lent, out: &Lent) -> u64;

    pub safe fn port_replay(text: &Lent, out: &Lent, lengths: &Lent) -> u64;
}
