//! Runs of calls on one governor, the original beside them; and small cases in full.

use crate::ask;
use crate::numbers::{Dice, bits, float};
use crate::original::{Beside, Check};
use crate::question::{Arg, Question};
use crate::state::{Focus, Reads, Sample, State};
use crate::tables;

/// One governor: the words that the rules give after each call, and the original, which gets the accepted calls.
pub struct Run {
    pub state: State,
    beside: Beside,
}

impl Run {
    pub fn new(clock: u64) -> Run {
        Run { state: State::fresh(clock), beside: Beside::new() }
    }

    /// The question of the next call; the run goes on as the rules have it, and the original is held against them.
    pub fn step(&mut self, q: &Question) -> Check {
        let n = |i| q.number(i);
        let s = &mut self.state;
        match q.name {
            "observe" => {
                let p = Sample { count: n(2), trigger: n(3), ratio: float(n(4)), probes: float(n(5)), backlog: n(6) };
                if s.observe(n(1), &p) == 0 {
                    self.beside.observe(&p);
                }
            }
            "observe_engine" => {
                let p = Sample { count: n(2), trigger: n(3), ratio: float(n(4)), probes: 0.0, backlog: n(5) };
                let r = Reads { gets: n(6), in_memtable: n(7), in_immutable: n(8), l0: n(9), leveled: n(10) };
                if s.observe_engine(n(1), &p, &r) == 0 {
                    self.beside.observe_engine(q);
                }
            }
            "set_focus" => {
                s.focus = Focus::of(&q.numbers(1));
                self.beside.set_focus(s.focus);
            }
            "record_candidate_chosen" => {
                s.chosen(n(1), n(3));
                self.beside.chosen(n(1), n(2), n(3));
            }
            "with_trivial_move" | "record_trivial_move" => {
                if s.trivial_move(n(1)) == 0 {
                    self.beside.trivial_move(n(1));
                }
            }
            "with_outcome" | "record_outcome" => {
                if s.outcome(n(1), n(2)) == 0 {
                    self.beside.outcome(n(1), n(2));
                }
            }
            _ => {}
        }
        self.beside.holds(&self.state)
    }
}

impl Dice {
    /// The next call of a run: mostly plausible, its counters growing, now and then refused.
    pub fn next_call(&mut self, s: &State) -> Question {
        let words = s.words();
        // a jump is seldom: the highest reading stays
        let now = match self.below(60) {
            0 => self.number(),
            1..=6 => s.last - self.below(s.last.saturating_add(1)),
            _ => s.last.saturating_add(self.below(1 << 30)),
        };
        let ratio = bits(match self.below(8) {
            0 => f64::NAN,
            1 => 3.0,
            2 => 1.5,
            3 => self.below(5000) as f64 / 1000.0,
            _ => 0.0,
        });
        let count = if self.one_in(40) { self.number() } else { self.below(21) };
        let trigger = if self.one_in(40) { self.number() } else { self.pick(&[0, 4, 20, 20, 20]) };
        let backlog = self.below(5);
        match self.below(16) {
            0..=5 => {
                let probes = if self.one_in(20) { self.float() } else { bits(self.pick(&[0.0, 0.5, 1.0, 1.15, 1.6, 2.0, 10.0])) };
                ask!("observe", words, now, count, trigger, ratio, probes, backlog)
            }
            6..=9 => {
                let resolved = s.last_resolved.saturating_add(self.pick(&[0, 1, 10, 10, 1000]));
                let probed = s.last_probed.saturating_add(self.below(30));
                let split = self.below(probed.saturating_add(1).max(1));
                let (gets, mem) = (resolved.saturating_add(5), 3);
                let mut q = ask!("observe_engine", words, now, count, trigger, ratio, backlog, gets, mem, 2, split, probed - split);
                if self.one_in(20) {
                    let i = 6 + self.below(5) as usize;
                    q.args[i] = Arg::Number(self.number());
                }
                q
            }
            10 => {
                let flag = self.below(2);
                ask!("set_focus", words, flag, flag * self.below(6), self.below(4))
            }
            11 => ask!("record_candidate_chosen", words, 1 + self.below(3), self.below(5), 1 + self.below(8)),
            12 => ask!(self.pick(&["with_trivial_move", "record_trivial_move"]), words, self.number()),
            13 => ask!(self.pick(&["with_outcome", "record_outcome"]), words, self.below(1000), self.below(1000)),
            14 => ask!(self.pick(&["with_outcome", "record_outcome"]), words, self.number(), self.number()),
            _ => ask!("snapshot", words, now),
        }
    }
}

/// The sample kinds of the full small runs: by fraction, ratio and probes.
pub fn kinds() -> Vec<[u64; 5]> {
    let (nan, zero) = (bits(f64::NAN), 0);
    let f = |x: f64| x.to_bits();
    vec![
        [0, 4, zero, zero, 0],
        [3, 4, zero, zero, 0],
        [2, 4, zero, f(10.0), 0],
        [0, 4, zero, f(10.0), 0],
        [0, 4, f(3.0), zero, 1],
        [9, 20, f(1.5), f(1.15), 3],
        [0, 0, nan, nan, 0],
        [0, 4, f(2.0), f(1.6), 2],
    ]
}

/// Every mode and streak with every combination of hot, recovered, high, calm and NaN.
pub fn all_turns() -> Vec<Question> {
    let mut out = vec![];
    let f = |x: f64| x.to_bits();
    for (mode, tops) in [(0, 4), (1, 5), (2, 4)] {
        for streak in 0..tops {
            for (count, trigger) in [(0, 4), (9, 20), (2, 4), (3, 4), (7, 0)] {
                for ratio in [f(0.0), f(1.5), f(2.0), f(3.0), bits(f64::NAN)] {
                    for (old, probes) in [(0.0, 0.0), (1.15, 1.15), (1.3, 1.3), (1.6, 1.6), (10.0, 10.0), (0.0, f64::NAN), (f64::NAN, 0.0)] {
                        let mut s = State::fresh(5);
                        (s.mode, s.probed) = (mode, old);
                        s.streaks[mode] = streak;
                        out.push(ask!("observe", s.words(), 9, count, trigger, ratio, bits(probes), 1));
                    }
                }
            }
        }
    }
    out
}

/// All lists of up to `most` tables over a few keys, levels, sizes and numbers, with a few triggers and budgets; of those in which a number repeats each thirteenth.
pub fn all_tables(most: u32) -> impl Iterator<Item = Question> {
    let one: Vec<[u64; 7]> = [1u64, 2, 3]
        .iter()
        .flat_map(|&number| {
            [0u64, 1, 2].iter().flat_map(move |&level| [10u64, 20].iter().flat_map(move |&size| [[0, 1, 0, 1], [0, 1, 1, 1], [1, 1, 2, 1]].iter().map(move |p| [number, level, size, p[0], p[1], p[2], p[3]])))
        })
        .collect();
    (0..=most).flat_map(move |n| {
        let one = one.clone();
        let count = (one.len() as u64).pow(n);
        let list = move |mut i: u64| {
            let mut words = vec![];
            for _ in 0..n {
                words.extend(one[(i % one.len() as u64) as usize]);
                i /= one.len() as u64;
            }
            words
        };
        (0..count).map(move |i| (i, list(i))).filter(|(i, words)| i % 13 == 0 || !tables::repeated_numbers(words)).flat_map(|(_, words)| {
            [(0u64, vec![1, 5]), (2, vec![0, 30, 1, 10])].into_iter().map(move |(trigger, over)| {
                let room: Vec<u64> = (0..60).map(|i| 1000 + i).collect();
                ask!("generate_candidates", words.clone(), vec![97u64, 98, 99], trigger, over, [room.clone(), room.clone(), room.clone()].concat(), room)
            })
        })
    })
}
