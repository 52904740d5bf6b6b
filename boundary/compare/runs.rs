//! Random calls on one governor of each side, both read after each call; nothing may fall back.
use crate::clock::NOW;
use crate::numbers::Dice;
use crate::sides::{Call, Kind, LOOK, Sample, Vector, dropin, original, plain};
use crate::{differ, holds, same, same_list};
use std::sync::atomic::Ordering::Relaxed;

pub const MOST_COUNT: u64 = 1 << 53;

pub fn unit(d: &mut Dice) -> f64 {
    (d.next() >> 11) as f64 / MOST_COUNT as f64
}

/// Of every kind: around the limits that modes have, any bits, small ones. No signalling NaN: of one the original's own `max` is a NaN on Arm and
/// not on x86-64.
pub fn float(d: &mut Dice) -> f64 {
    const LIMITS: [f64; 16] =
        [0.0, -0.0, 1.0, -1.0, 0.05, 0.45, 0.75, 1.15, 1.5, 1.6, 3.0, 1e300, 5e-324, f64::NAN, f64::INFINITY, f64::NEG_INFINITY];
    match d.below(5) {
        0 => d.pick(&LIMITS),
        1 => Some(f64::from_bits(d.next())).filter(|x| !x.is_nan()).unwrap_or(f64::NAN),
        _ => unit(d) * 4.0 - 1.0,
    }
}

fn count(d: &mut Dice) -> usize {
    let n = match d.below(40) {
        0 => MOST_COUNT - d.below(3),
        1 => d.next() >> (11 + d.below(53)),
        _ => d.below(24),
    };
    n as usize
}

/// Busy, or calm so that modes are left again; at and beside the limits of both.
pub fn sample(d: &mut Dice, calm: bool, odd: bool) -> Sample {
    let ratio = match d.below(8) {
        0 if odd => float(d),
        1 => d.pick(&[1.5, 1.51, 1.49, 1.5][..]),
        2 if !calm => d.pick(&[2.99, 3.0, 3.01]),
        _ => unit(d) * if calm { 1.4 } else { 4.0 },
    };
    let probes = if odd && d.one_in(8) { float(d) } else { unit(d) * 3.0 };
    let (l0_count, trigger) = match d.below(12) {
        0 if !calm => (count(d), count(d)),
        1..4 if !calm => (d.below(12) as usize, d.below(16) as usize),
        _ => (d.pick(&[0, 45, 46, 74, 75][..if calm { 3 } else { 5 }]), 100),
    };
    let backlog = if d.one_in(20) { count(d) } else { d.below(5) as usize };
    Sample { l0_count, trigger, ratio, probes, backlog }
}

pub fn kind(d: &mut Dice) -> Kind {
    match 1 + d.below(3) {
        1 => (1, 0, 0),
        2 => (2, d.below(9) as u32, if d.one_in(30) { d.below(1 << 40) as usize } else { 1 + d.below(8) as usize }),
        _ => (3, if d.one_in(30) { d.next() as u32 } else { d.below(9) as u32 }, 0),
    }
}

fn decision(d: &mut Dice) -> Call {
    let chosen = if d.one_in(4) { (0, 0, 0) } else { kind(d) };
    let reliefs: Vector = std::array::from_fn(|_| if d.one_in(9) { float(d) } else { unit(d) });
    Call::Decision([d.next(), d.below(4), d.below(146), chosen.0, chosen.1 as u64, chosen.2 as u64, d.next() >> d.below(64)], reliefs)
}

/// A governor of each side that have been asked the same.
pub struct Pair {
    pub module: dropin::GovernorState,
    pub original: original::GovernorState,
    pub base: u64,
    /// The highest reading of an observation.
    highest: u64,
}

impl Pair {
    pub fn new(base: u64) -> Pair {
        NOW.store(base, Relaxed);
        Pair { module: dropin::GovernorState::new(), original: original::GovernorState::new(), base, highest: base }
    }

    pub fn call(&mut self, call: Call) {
        let (now, module) = (NOW.load(Relaxed), dropin::call(&mut self.module, call));
        // the original keeps the last reading and not the highest: it is handed a clock that stays at the highest instead of going back
        if matches!(call, Call::Observe(_) | Call::Engine(..)) {
            self.highest = self.highest.max(now);
            NOW.store(self.highest, Relaxed);
        }
        let original = original::call(&mut self.original, call);
        NOW.store(now, Relaxed);
        if module != original {
            differ("the mode that is answered", &format!("{module:?} and {original:?} after {call:?}"));
        }
        self.look(&call);
    }

    pub fn look(&self, after: &dyn std::fmt::Debug) {
        let (module, original) = (dropin::look(&self.module), original::look(&self.original));
        for (what, (m, o)) in LOOK.iter().zip(module.iter().zip(&original)) {
            if m != o {
                let floats = (f64::from_bits(*m), f64::from_bits(*o));
                differ(what, &format!("after {after:?} the module has {m:#x}, the original {o:#x} (as floats {floats:?})"));
            }
        }
    }

    pub fn logs(&self) {
        let (module, original) = (dropin::decisions(&self.module), original::decisions(&self.original));
        same_list("the kept decisions", &module, &original);
    }
}

pub fn run(d: &mut Dice) -> u64 {
    let mut now = d.below(1 << 40);
    let mut pair = Pair::new(now);
    pair.look(&"new");
    let odd = d.one_in(3);
    // few runs go round the log
    let (turns, logging) = if d.one_in(2000) { (6000 + d.below(4000), true) } else { (d.below(60), false) };
    let mut reads = [0u64; 5];
    for turn in 0..turns {
        now = match d.below(90) {
            0 => d.next() >> d.below(64),
            1..10 => now - d.below(now.min(1 << 30) + 1),
            _ => now.saturating_add(d.below(1 << 32)),
        };
        NOW.store(now, Relaxed);
        let calm = turn / 15 % 2 == 1;
        let call = match d.below(if logging { 60 } else { 10 }) {
            0..3 => Call::Observe(sample(d, calm, odd)),
            3..6 => {
                let most = if d.one_in(50) { 1 << 51 } else { 900 };
                for (r, per) in reads.iter_mut().zip([1, 4, 9, 2, 1]) {
                    *r = if d.one_in(99) { *r / 2 } else { (*r).saturating_add(if d.one_in(4) { 0 } else { d.below(most / per) }).min(1 << 62) };
                }
                Call::Engine(sample(d, calm, odd), reads)
            }
            6 => {
                let level = d.one_in(2).then(|| d.pick(&[0, 1, 2, 5, u32::MAX]));
                Call::Focus((level, d.next() as u32 >> d.below(32)))
            }
            7 => Call::Chosen(kind(d)),
            8 => Call::Moved(d.next() >> d.below(64)),
            9 if d.one_in(2) => Call::Outcome(d.next() >> (11 + d.below(53)), d.next() >> (11 + d.below(53))),
            _ => decision(d),
        };
        pair.call(call);
        if d.one_in(40) && !logging {
            // a later reading, for the snapshot alone
            NOW.store(now.saturating_add(d.below(1 << 31)), Relaxed);
            pair.look(&"a later snapshot");
        }
        if d.one_in(if logging { 1000 } else { 30 }) {
            pair.logs();
        }
    }
    pair.logs();
    holds(&format!("the fallbacks of a run within the limits ({})", pair.module.fallbacks()), pair.module.fallbacks().total() == 0);
    let (v, p): (Vector, f64) = (std::array::from_fn(|_| if d.one_in(3) { float(d) } else { unit(d) * 0.1 }), float(d));
    same("dominant of any vector", dropin::dominant(v), original::dominant(v));
    for mode in 0..3 {
        same("pacing_delay of any pressure", plain(dropin::delay(mode, p) as f64), plain(original::delay(mode, p) as f64));
    }
    turns + 4
}
