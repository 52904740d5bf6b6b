//! The governor's state in words, and 01's rules of one observation, written a second time.

use crate::numbers::{bits, float, maximum, minimum};

pub const LARGE: u64 = 1 << 53;
pub const WORDS: usize = 27;

#[derive(Clone, Copy, PartialEq, Debug)]
pub struct Focus {
    pub level: Option<u32>,
    pub streak: u32,
}

impl Focus {
    pub fn words(self) -> [u64; 3] {
        [self.level.is_some() as u64, self.level.unwrap_or(0) as u64, self.streak as u64]
    }

    pub fn of(w: &[u64]) -> Focus {
        Focus { level: (w[0] == 1).then_some(w[1] as u32), streak: w[2] as u32 }
    }
}

#[derive(Clone, Debug)]
pub struct State {
    pub mode: usize,
    pub probed: f64,
    pub blend: f64,
    pub pressure: f64,
    pub debt: f64,
    pub vector: [f64; 3],
    pub focus: Focus,
    /// enter read protect, exit read protect, exit emergency
    pub streaks: [u64; 3],
    pub times: [u64; 3],
    pub last: u64,
    pub last_probed: u64,
    pub last_resolved: u64,
    pub switches: u64,
    pub batch_sum: u64,
    pub batch_count: u64,
    pub moves: u64,
    pub avoided: u64,
    pub error_sum: f64,
    pub samples: u64,
}

#[derive(Clone, Copy, Debug)]
pub struct Sample {
    pub count: u64,
    pub trigger: u64,
    pub ratio: f64,
    pub probes: f64,
    pub backlog: u64,
}

#[derive(Clone, Copy, Debug)]
pub struct Reads {
    pub gets: u64,
    pub in_memtable: u64,
    pub in_immutable: u64,
    pub l0: u64,
    pub leveled: u64,
}

impl State {
    pub fn fresh(clock: u64) -> State {
        State {
            mode: 0,
            probed: 0.0,
            blend: 0.0,
            pressure: 0.0,
            debt: 0.0,
            vector: [0.0; 3],
            focus: Focus { level: None, streak: 0 },
            streaks: [0; 3],
            times: [0; 3],
            last: clock,
            last_probed: 0,
            last_resolved: 0,
            switches: 0,
            batch_sum: 0,
            batch_count: 0,
            moves: 0,
            avoided: 0,
            error_sum: 0.0,
            samples: 0,
        }
    }

    pub fn words(&self) -> Vec<u64> {
        let mut w = vec![self.mode as u64, bits(self.probed), bits(self.blend), bits(self.pressure), bits(self.debt)];
        w.extend(self.vector.map(bits));
        w.extend(self.focus.words());
        w.extend(self.streaks);
        w.extend(self.times);
        w.extend([self.last, self.last_probed, self.last_resolved, self.switches, self.batch_sum, self.batch_count]);
        w.extend([self.moves, self.avoided, bits(self.error_sum), self.samples]);
        w
    }

    pub fn of(w: &[u64]) -> State {
        assert_eq!(w.len(), WORDS);
        State {
            mode: w[0] as usize,
            probed: float(w[1]),
            blend: float(w[2]),
            pressure: float(w[3]),
            debt: float(w[4]),
            vector: [float(w[5]), float(w[6]), float(w[7])],
            focus: Focus::of(&w[8..11]),
            streaks: [w[11], w[12], w[13]],
            times: [w[14], w[15], w[16]],
            last: w[17],
            last_probed: w[18],
            last_resolved: w[19],
            switches: w[20],
            batch_sum: w[21],
            batch_count: w[22],
            moves: w[23],
            avoided: w[24],
            error_sum: float(w[25]),
            samples: w[26],
        }
    }

    /// "the state's mode has its own streak above its top (Balanced 2, ReadProtect 3, WriteEmergency 2), or another streak is not 0"
    fn bad(&self) -> bool {
        let top = [2, 3, 2];
        (0..3).any(|i| if i == self.mode { self.streaks[i] > top[i] } else { self.streaks[i] != 0 })
    }

    /// "Each accepted observation adds now minus the previous reading to the old mode's time, or 0 if the clock went back."
    /// The previous reading is the highest so far: "Keep the larger of the two readings" (02 (ii)).
    fn time_up_to(&self, now: u64) -> u128 {
        self.times[self.mode] as u128 + now.saturating_sub(self.last) as u128
    }

    fn fraction(s: &Sample) -> f64 {
        if s.trigger == 0 { 0.0 } else { s.count as f64 / s.trigger as f64 }
    }

    /// "Each EWMA is 0.3 times the new value plus (1.0 - 0.3) times the old, in that order."
    fn smoothed(old: f64, new: f64) -> f64 {
        0.3 * new + (1.0 - 0.3) * old
    }

    /// The mode and streaks after a call: "Outside WriteEmergency a hot call enters it at once, before any streak is looked at"; "every switch clears all three streaks".
    fn turned(&self, s: &Sample) -> (usize, [u64; 3]) {
        let (fraction, probed) = (State::fraction(s), State::smoothed(self.probed, s.probes));
        let hot = fraction >= 0.75 || s.ratio >= 3.0;
        if self.mode != 2 && hot {
            return (2, [0; 3]);
        }
        let (passed, window, next) = match self.mode {
            0 => (probed >= 1.6, 3, 1),
            1 => (probed <= 1.15, 4, 0),
            _ => (fraction <= 0.45 && s.ratio <= 1.5, 3, 0),
        };
        let streak = if passed { self.streaks[self.mode] + 1 } else { 0 };
        if streak >= window {
            return (next, [0; 3]);
        }
        let mut streaks = self.streaks;
        streaks[self.mode] = streak;
        (self.mode, streaks)
    }

    /// 3: "given only where the very call would pass 2^64-1".
    fn full(&self, now: u64, s: &Sample) -> bool {
        self.turned(s).0 != self.mode && self.switches == u64::MAX || self.time_up_to(now) > u64::MAX as u128
    }

    fn accept(&mut self, now: u64, s: &Sample) {
        let (mode, streaks) = self.turned(s);
        self.probed = State::smoothed(self.probed, s.probes);
        let l0 = minimum(State::fraction(s) / 0.75, 1.0);
        let debt = minimum(s.ratio / 3.0, 1.0);
        let backlog = minimum(s.backlog as f64 / 3.0, 1.0);
        let read = minimum(self.probed / 1.6, 1.0);
        let structural = maximum(maximum(l0, debt), backlog);
        let instant = structural * (1.0 - 0.3) + read * 0.3;
        self.blend = State::smoothed(self.blend, instant);
        let larger = maximum(self.blend, l0);
        self.pressure = if larger < 0.0 { 0.0 } else if larger > 1.0 { 1.0 } else { larger };
        self.debt = State::smoothed(self.debt, maximum(debt, backlog));
        self.vector = [l0, self.debt, read];
        self.times[self.mode] += now.saturating_sub(self.last);
        self.last = self.last.max(now);
        self.switches += (mode != self.mode) as u64;
        self.mode = mode;
        self.streaks = streaks;
    }

    pub fn observe(&mut self, now: u64, s: &Sample) -> u64 {
        if self.bad() {
            return 1;
        }
        if [s.count, s.trigger, s.backlog].iter().any(|n| *n > LARGE) {
            return 2;
        }
        if self.full(now, s) {
            return 3;
        }
        self.accept(now, s);
        0
    }

    /// "The probe delta tested by 2 is taken from the exact probe sum."
    pub fn observe_engine(&mut self, now: u64, s: &Sample, r: &Reads) -> u64 {
        let sum = r.l0 as u128 + r.leveled as u128;
        let resolved = r.gets.saturating_sub(r.in_memtable).saturating_sub(r.in_immutable);
        let new_probed = sum.saturating_sub(self.last_probed as u128);
        let new_resolved = resolved.saturating_sub(self.last_resolved);
        if self.bad() {
            return 1;
        }
        if [s.count, s.trigger, s.backlog, new_resolved].iter().any(|n| *n > LARGE) || new_probed > LARGE as u128 {
            return 2;
        }
        let probes = if new_resolved > 0 { new_probed as f64 / new_resolved as f64 } else { self.probed };
        let sample = Sample { probes, ..*s };
        if sum > u64::MAX as u128 || self.full(now, &sample) {
            return 3;
        }
        self.accept(now, &sample);
        self.last_probed = sum as u64;
        self.last_resolved = resolved;
        0
    }

    /// "record_candidate_chosen: none (both counts saturate)"
    pub fn chosen(&mut self, kind: u64, length: u64) {
        if kind == 2 {
            self.batch_sum = self.batch_sum.saturating_add(length);
            self.batch_count = self.batch_count.saturating_add(1);
        }
    }

    pub fn trivial_move(&mut self, bytes: u64) -> u64 {
        if self.moves == u64::MAX {
            return 3;
        }
        self.moves += 1;
        self.avoided = self.avoided.saturating_add(bytes);
        0
    }

    pub fn outcome(&mut self, predicted: u64, actual: u64) -> u64 {
        if predicted > LARGE || actual > LARGE {
            return 2;
        }
        if self.samples == u64::MAX {
            return 3;
        }
        self.error_sum += (actual as f64 - predicted as f64).abs() / predicted.max(1) as f64;
        self.samples += 1;
        0
    }

    /// "adds the time since the kept one (0 if it is lower) to the present mode's time in its answer only, and divides into whole milliseconds"
    pub fn snapshot(&self, now: u64) -> (u64, Vec<u64>) {
        if [self.batch_sum, self.batch_count, self.samples].iter().any(|n| *n > LARGE) {
            return (2, vec![]);
        }
        if self.time_up_to(now) > u64::MAX as u128 {
            return (3, vec![]);
        }
        let mut times = self.times;
        times[self.mode] += now.saturating_sub(self.last);
        let mean = |sum: f64, count: u64| if count == 0 { 0.0 } else { sum / count as f64 };
        let mut w = vec![self.mode as u64, bits(self.pressure)];
        w.extend(self.vector.map(bits));
        w.push(self.switches);
        w.extend(times.map(|t| t / 1_000_000));
        w.push(bits(mean(self.batch_sum as f64, self.batch_count)));
        w.extend([self.moves, self.avoided, self.samples, bits(mean(self.error_sum, self.samples))]);
        (0, w)
    }
}

/// "ceiling minus p times (ceiling minus 5000), ceiling 20000 or 40000 in ReadProtect, at least 5000, fraction dropped"
pub fn pause(mode: u64, pressure: f64) -> u64 {
    let ceiling = if mode == 1 { 40000.0 } else { 20000.0 };
    let p = if pressure < 0.0 { 0.0 } else if pressure > 1.0 { 1.0 } else { pressure };
    maximum(ceiling - p * (ceiling - 5000.0), 5000.0) as u64
}

/// "`dominant` is None at a peak of 0.05 or less; ties go L0, DeepDebt, Read; three NaNs give Read."
pub fn dominant(v: [f64; 3]) -> u64 {
    let peak = maximum(maximum(v[0], v[1]), v[2]);
    if peak <= 0.05 {
        0
    } else if v[0] >= peak {
        1
    } else if v[1] >= peak {
        2
    } else {
        3
    }
}
