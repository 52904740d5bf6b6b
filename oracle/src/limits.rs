//! Every refusal that a call can give, each adjacent pair of its order at once, and every limit just in and just out.

use crate::ask;
use crate::fits;
use crate::make_log::{ENDS, SHORTEST, as_words, line_of};
use crate::offered;
use crate::question::{Arg, Question};
use crate::state::{LARGE, Sample, State};
use crate::tables;

const MAX: u64 = u64::MAX;
const ONE: u64 = 0x3ff0000000000000;

/// A good question, and what spoils it, in the order of refusals: each way alone, and each two that stand next to each other in that order.
struct Faults {
    good: Question,
    ways: Vec<(u64, fn(&mut Question))>,
}

impl Faults {
    fn questions(&self) -> Vec<Question> {
        let mut out = vec![self.good.clone()];
        let numbers: Vec<u64> = {
            let mut n: Vec<u64> = self.ways.iter().map(|w| w.0).collect();
            n.dedup();
            n
        };
        for number in &numbers {
            for way in self.of(*number) {
                let mut q = self.good.clone();
                way(&mut q);
                out.push(q);
            }
        }
        for pair in numbers.windows(2) {
            out.extend(self.at_once(pair[0], pair[1]));
        }
        out
    }

    /// Those, and two refusals at once that stand further apart.
    fn questions_and(&self, pairs: &[(u64, u64)]) -> Vec<Question> {
        let mut out = self.questions();
        for (first, second) in pairs {
            out.extend(self.at_once(*first, *second));
        }
        out
    }

    fn of(&self, number: u64) -> impl Iterator<Item = fn(&mut Question)> {
        self.ways.iter().filter(move |w| w.0 == number).map(|w| w.1)
    }

    /// Two refusals, the first of them before the second in the order, in each of their ways.
    fn at_once(&self, first: u64, second: u64) -> Vec<Question> {
        let mut out = vec![];
        for one in self.of(first) {
            for other in self.of(second) {
                let mut q = self.good.clone();
                other(&mut q);
                one(&mut q);
                out.push(q);
            }
        }
        out
    }
}

fn set(q: &mut Question, i: usize, n: u64) {
    q.args[i] = Arg::Number(n);
}

fn list(q: &mut Question, i: usize) -> &mut Vec<u64> {
    match &mut q.args[i] {
        Arg::List(l) => l,
        Arg::Number(_) => panic!("a list"),
    }
}

fn shorten(q: &mut Question, i: usize) {
    list(q, i).pop();
}

/// A candidate's first three words at every limit of 01, just in and just out: kinds 0 to 4, the top level, a level or a length that the kind lacks, batch lengths.
const CANDIDATES: [[u64; 3]; 15] = [
    [0, 0, 0],
    [1, 0, 0],
    [1, 1, 0],
    [1, 0, 1],
    [2, u32::MAX as u64, 1],
    [2, 1 << 32, 1],
    [2, 1, 0],
    [2, 1, 1],
    [2, 1, 8],
    [2, 1, 9],
    [3, u32::MAX as u64, 0],
    [3, 1 << 32, 0],
    [3, 1, 0],
    [3, 1, 1],
    [4, 0, 0],
];

/// A good question once for each of them, with the first candidate's words changed.
fn candidates_at_limits(good: fn() -> Question, argument: usize) -> impl Iterator<Item = Question> {
    CANDIDATES.iter().map(move |words| {
        let mut q = good();
        list(&mut q, argument)[..3].copy_from_slice(words);
        q
    })
}

/// The words of a state in a question: mode 0, its own streak 11, times from 14, kept reading 17, switches 20, batch sum 21, count 22, moves 23, samples 26.
fn word(q: &mut Question, i: usize, n: u64) {
    list(q, 0)[i] = n;
}

pub fn room(n: usize) -> Vec<u64> {
    (0..n as u64).map(|i| 7000 + i).collect()
}

/// The four tables of 01: 7 (level 1, c to d, 100), 3 (1, a to b, 50), 9 (1, e to f, 10), 4 (2, d to e, 30).
pub fn four_tables() -> (Vec<u64>, Vec<u64>) {
    let rows: [[u64; 7]; 4] = [[7, 1, 100, 2, 1, 3, 1], [3, 1, 50, 0, 1, 1, 1], [9, 1, 10, 4, 1, 5, 1], [4, 2, 30, 3, 1, 4, 1]];
    (rows.concat(), (97..103).collect())
}

fn many_tables(numbers: std::ops::Range<u64>) -> Vec<u64> {
    numbers.flat_map(|i| [i, i % 16, 10, 0, 1, 1, 1]).collect()
}

/// A number twice among the four tables: in neighbours on one level; in the first and the last, across levels; in tables alike in all seven words.
const TWICE: [(u64, fn(&mut Question)); 3] =
    [(11, |q| list(q, 0)[0] = 3), (11, |q| list(q, 0)[21] = 7), (11, |q| list(q, 0).extend_from_within(..7))];

/// Tables under these numbers, on levels 0 to 2; the sizes are powers of two, so that a sum tells which were found.
fn numbered(numbers: &[u64]) -> Vec<u64> {
    (0..).zip(numbers).flat_map(|(i, number)| [*number, i % 3, 1 << (i % 33), i % 5, 1, i % 5 + 1, 1]).collect()
}

/// Both calls on tables under these numbers, with the room that an accepted answer takes: what this trigger and these entries offer; the estimates of two
/// candidates that have all the numbers, of one that has those just above them, and of one that has those just below.
fn both_calls(numbers: &[u64], trigger: u64, over: &[u64]) -> [Question; 2] {
    let (words, (_, keys)) = (numbered(numbers), four_tables());
    let (candidates, offered) = tables::laid_out(&tables::candidates(&tables::tables(&words, b"abcdef"), trigger, over));
    let n = numbers.len() as u64;
    let made = [[1, 0, 0, 1, 0, n], [2, 1, 1, 2, 0, n], [3, 2, 0, 3, n, n], [3, 2, 0, 3, 2 * n, n]].concat();
    let looked_up: Vec<u64> = [0, 1, MAX].iter().flat_map(|step| numbers.iter().map(|number| number.wrapping_add(*step))).collect();
    [
        ask!("generate_candidates", words.clone(), keys, trigger, over, room(candidates.len()), room(offered.len())),
        ask!("estimate_candidates", words, 1000, over, made, looked_up, room(36)),
    ]
}

/// A list with the number of one place at another too.
fn under_one(numbers: &[u64], one: usize, other: usize) -> Vec<u64> {
    let mut out = numbers.to_vec();
    out[other] = out[one];
    out
}

/// Numbers in rising, falling and mixed order, at sizes where a sort may go another way, and 1,024 of them: all different, and two places under one number.
fn orders() -> Vec<Question> {
    let mut out = vec![];
    let mixed = |n: u64| (0..n).map(|i| 10 + 10 * (7 * i % n)).collect::<Vec<u64>>();
    for n in [15, 16, 17, 32, 33] {
        let rising: Vec<u64> = (1..=n).map(|i| 10 * i).collect();
        let falling = rising.iter().rev().copied().collect();
        for order in [rising, falling, mixed(n)] {
            let n = order.len();
            out.extend(both_calls(&order, 1, &[1, 100]));
            for (one, other) in [(0, 1), (n / 2 - 1, n / 2), (n - 2, n - 1), (0, n - 1)] {
                out.extend(both_calls(&under_one(&order, one, other), 1, &[1, 100]));
            }
        }
    }
    // of 1,024 tables no candidate is asked for, since a row can't show so many numbers
    let most = mixed(1024);
    for numbers in [most.clone(), under_one(&most, 511, 512), under_one(&most, 0, 1023)] {
        out.extend(both_calls(&numbers, MAX, &[]));
    }
    out
}

/// The numbers of tables: in any order; at both ends, alike in their lower bits alone, twice and three times; in a part record, which is no table; and a
/// candidate's own, which may repeat and count as often.
fn table_numbers() -> Vec<Question> {
    let mut out = orders();
    let lower_bits = [8, 16, 32, 63].map(|power| [7 + (1 << power), 7]);
    let different = [&[0, MAX][..], &[MAX, 0, MAX - 1, 1], &[1 << 63, (1 << 63) - 1, 0]].into_iter().chain(lower_bits.iter().map(|n| &n[..]));
    let repeated = [&[0, 0][..], &[MAX, MAX], &[0, 5, 0], &[MAX, 5, 0, MAX], &[5, 5, 5], &[5, 6, 5, 6]];
    for numbers in different.chain(repeated) {
        out.extend(both_calls(numbers, 1, &[1, 100]));
    }
    // a part record that begins like the first table, after 4 and after 1,024 whole ones
    for good in [generation(), estimation()] {
        for (more, words) in [(0, 1), (0, 6), (1020, 1)] {
            let mut q = good.clone();
            list(&mut q, 0).extend(many_tables(10..10 + more));
            list(&mut q, 0).extend_from_within(..words);
            out.push(q);
        }
    }
    let mut own = estimation();
    *list(&mut own, 0) = numbered(&[3, 4, 7]);
    *list(&mut own, 3) = [[1, 0, 0, 1, 0, 7], [2, 1, 2, 2, 0, 7], [3, 2, 0, 3, 0, 7]].concat();
    *list(&mut own, 4) = vec![3, 3, 7, 4, 4, 3, 7];
    out.push(own);
    out
}

fn generation() -> Question {
    let (tables, keys) = four_tables();
    ask!("generate_candidates", tables, keys, 1, vec![1u64, 100], room(24), room(9))
}

fn estimation() -> Question {
    let (tables, _) = four_tables();
    let cands: Vec<u64> = [[2, 1, 1, 2, 0, 1], [2, 1, 2, 2, 1, 3], [2, 1, 3, 2, 4, 4], [3, 1, 0, 2, 8, 1]].concat();
    ask!("estimate_candidates", tables, 10, vec![1u64, 100], cands, vec![3u64, 3, 7, 4, 3, 7, 9, 4, 3], room(36))
}

fn selection() -> Question {
    let cands: Vec<u64> = [[2, 1, 1, 2, 0, 1], [2, 1, 2, 2, 1, 3], [2, 1, 3, 2, 4, 4], [3, 1, 0, 2, 8, 1]].concat();
    let e = |input: u64, overlap: u64, rewrite: u64| vec![input, overlap, rewrite, input, 0, 7, 0, f64::min(input as f64 / 60.0, 1.0).to_bits(), 0];
    ask!("pick_best_cause_aware", 0, ONE, 0, 0, 0, 0, cands, [e(50, 0, 50), e(150, 30, 180), e(160, 30, 190), e(50, 0, 0)].concat())
}

fn observing(engine: bool) -> Question {
    let s = State::fresh(1000);
    if engine { ask!("observe_engine", s.words(), 2000, 3, 4, 0, 1, 100, 10, 5, 200, 100) } else { ask!("observe", s.words(), 2000, 3, 4, 0, 0, 1) }
}

fn decision() -> Vec<u64> {
    vec![0, 0, ONE, 0, 2, 3, 4, 2, 1, 3, 190, 0, ONE, 0]
}

/// A clock that goes back, by either observing call, the state carried on: 9, 5, 7, 12 after a start at 9, and a first reading below the start; in
/// nanoseconds, and in milliseconds with snapshots, which keep nothing.
fn older_clocks() -> Vec<Question> {
    let mut out = vec![];
    for unit in [1, 1_000_000] {
        for (readings, engine) in [([9, 5, 7, 12], false), ([9, 5, 7, 12], true), ([5, 12, 0, 13], false), ([5, 12, 0, 13], true)] {
            let mut s = State::fresh(9 * unit);
            for now in readings.map(|r| r * unit) {
                let words = s.words();
                out.push(if engine { ask!("observe_engine", words, now, 0, 4, 0, 0, 0, 0, 0, 0, 0) } else { ask!("observe", words, now, 0, 4, 0, 0, 0) });
                s.observe(now, &Sample { count: 0, trigger: 4, ratio: 0.0, probes: 0.0, backlog: 0 });
                if unit > 1 && !engine {
                    out.extend([20, 12, 5].map(|r| ask!("snapshot", s.words(), r * unit)));
                }
            }
        }
    }
    out
}

pub fn all() -> Vec<Question> {
    let mut out = vec![];
    for engine in [false, true] {
        let mut ways: Vec<(u64, fn(&mut Question))> = vec![
            (1, |q| word(q, 11, 3)),
            (1, |q| word(q, 12, 1)),
            (1, |q| word(q, 13, 1)),
            (2, |q| set(q, 2, LARGE + 1)),
            (2, |q| set(q, 3, LARGE + 1)),
            (2, |q| set(q, if q.name == "observe" { 6 } else { 5 }, LARGE + 1)),
        ];
        if engine {
            ways.push((2, |q| set(q, 9, LARGE)));
            ways.push((2, |q| set(q, 6, LARGE + 16)));
            ways.push((3, |q| {
                set(q, 9, MAX);
                word(q, 18, MAX - 5);
            }));
        }
        ways.push((3, |q| word(q, 14, MAX - 999)));
        ways.push((3, |q| word(q, 20, MAX)));
        out.extend(Faults { good: observing(engine), ways }.questions());
    }
    // refusal 1's table, just inside and just outside, in each mode
    for (mode, top) in [(0u64, 2u64), (1, 3), (2, 2)] {
        for streak in top..=top + 1 {
            for other in 0..3usize {
                let mut q = observing(false);
                word(&mut q, 0, mode);
                word(&mut q, 11 + mode as usize, streak);
                if other != mode as usize {
                    out.push(q.clone());
                    word(&mut q, 11 + other, 1);
                }
                out.push(q);
            }
        }
    }
    // counts of 2^53 pass; switches and each time at the top; a clock that goes back
    for engine in [false, true] {
        for i in [2, 3, if engine { 5 } else { 6 }] {
            let mut q = observing(engine);
            set(&mut q, i, LARGE);
            out.push(q);
        }
        for mode in 0..3u64 {
            for (time, now) in [(MAX - 1000, 2000), (MAX - 999, 2000), (MAX, 1000), (MAX, 999), (MAX, 1001), (0, 0), (0, MAX)] {
                let mut q = observing(engine);
                word(&mut q, 0, mode);
                word(&mut q, 14 + mode as usize, time);
                set(&mut q, 1, now);
                out.push(q.clone());
                word(&mut q, 20, MAX);
                set(&mut q, 2, 0);
                out.push(q);
            }
        }
    }
    // the exact probe sum: past 2^64 - 1 with a delta of 2^53 and of one more
    for last in [MAX - LARGE + 1, MAX - LARGE + 2, MAX - LARGE, MAX] {
        for probed in [(MAX, 0), (MAX, 1), (MAX, 2), (MAX, MAX), (1 << 63, 1 << 63)] {
            let mut q = observing(true);
            word(&mut q, 18, last);
            set(&mut q, 9, probed.0);
            set(&mut q, 10, probed.1);
            out.push(q);
        }
    }
    let snapshot = ask!("snapshot", State::fresh(1000).words(), 2_001_000);
    out.extend(
        Faults { good: snapshot, ways: vec![(2, |q| word(q, 21, LARGE + 1)), (2, |q| word(q, 22, LARGE + 1)), (2, |q| word(q, 26, LARGE + 1)), (3, |q| word(q, 14, MAX - 1_999_999))] }.questions(),
    );
    for (i, n) in [(21, LARGE), (22, LARGE), (26, LARGE), (14, MAX - 2_000_000)] {
        let mut q = ask!("snapshot", State::fresh(1000).words(), 2_001_000);
        word(&mut q, i, n);
        out.push(q);
    }
    for name in ["with_trivial_move", "record_trivial_move"] {
        for moves in [0, MAX - 1, MAX] {
            let mut q = ask!(name, State::fresh(0).words(), MAX);
            word(&mut q, 23, moves);
            word(&mut q, 24, moves);
            out.push(q);
        }
    }
    for name in ["with_outcome", "record_outcome"] {
        let good = ask!(name, State::fresh(0).words(), 100, 120);
        out.extend(Faults { good, ways: vec![(2, |q| set(q, 1, LARGE + 1)), (2, |q| set(q, 2, LARGE + 1)), (3, |q| word(q, 26, MAX))] }.questions());
        for (p, a) in [(LARGE, LARGE), (0, LARGE), (LARGE, 0), (0, 0)] {
            out.push(ask!(name, State::fresh(0).words(), p, a));
        }
    }
    out.extend(
        Faults {
            good: generation(),
            ways: vec![
                (4, |q| list(q, 0).extend(many_tables(10..1031))),
                (4, |q| *list(q, 3) = vec![1; 34]),
                (5, |q| list(q, 0).push(1)),
                (5, |q| list(q, 3).push(1)),
                (5, |q| list(q, 0)[1] = 1 << 32),
                (5, |q| list(q, 0)[2] = (1 << 40) + 1),
                (5, |q| list(q, 0)[3] = 6),
                (5, |q| (list(q, 0)[5], list(q, 0)[6]) = (7, 0)),
                (5, |q| (list(q, 0)[3], list(q, 0)[4]) = (MAX, MAX)),
                TWICE[0],
                TWICE[1],
                TWICE[2],
                (6, |q| list(q, 3)[0] = (1 << 32) - 1),
                (9, |q| shorten(q, 4)),
                (9, |q| shorten(q, 5)),
            ],
        }
        .questions_and(&[(4, 11), (5, 6), (11, 9)]),
    );
    let (_, keys) = four_tables();
    out.push(ask!("generate_candidates", many_tables(0..1024), keys.clone(), MAX, (0..16).flat_map(|l| [l, 5]).collect::<Vec<u64>>(), room(6 * 145), room(3000)));
    out.push(ask!("generate_candidates", many_tables(0..1024), keys, 1, vec![], room(12), room(200)));
    out.push(ask!("generate_candidates", vec![], vec![], 0, vec![], vec![], vec![]));
    for (i, n) in [(2usize, 1u64 << 40), (1, u32::MAX as u64)] {
        let mut q = generation();
        list(&mut q, 0)[i] = n;
        out.push(q);
    }
    out.extend(
        Faults {
            good: estimation(),
            ways: vec![
                (4, |q| list(q, 0).extend(many_tables(10..1031))),
                (4, |q| *list(q, 2) = vec![1; 34]),
                (4, |q| *list(q, 3) = [3, 1, 0, 2, 0, 0].repeat(146)),
                (4, |q| list(q, 3)[5] = 1025),
                (5, |q| list(q, 0).push(1)),
                (5, |q| list(q, 0)[1] = 1 << 32),
                (5, |q| list(q, 0)[2] = (1 << 40) + 1),
                (5, |q| list(q, 2).push(1)),
                (5, |q| list(q, 3).push(1)),
                (5, |q| list(q, 3)[0] = 4),
                (5, |q| list(q, 3)[0] = 0),
                (5, |q| list(q, 3)[1] = 1 << 32),
                (5, |q| list(q, 3)[2] = 9),
                (5, |q| list(q, 3)[2] = 0),
                (5, |q| list(q, 3)[4] = 9),
                (5, |q| (list(q, 3)[4], list(q, 3)[5]) = (10, 0)),
                TWICE[0],
                TWICE[1],
                TWICE[2],
                (6, |q| list(q, 2)[0] = (1 << 32) - 1),
                (2, |q| set(q, 1, LARGE + 1)),
                (9, |q| shorten(q, 5)),
            ],
        }
        .questions_and(&[(4, 11), (5, 6), (11, 2), (11, 9)]),
    );
    out.extend(table_numbers());
    out.extend(offered::all());
    out.extend(candidates_at_limits(estimation, 3));
    let mut limits = estimation();
    *list(&mut limits, 3) = [3, 1, 0, 2, 0, 9].repeat(145);
    *list(&mut limits, 5) = room(9 * 145);
    set(&mut limits, 1, LARGE);
    out.push(limits.clone());
    *list(&mut limits, 4) = vec![3; 1024];
    list(&mut limits, 3)[5] = 1024;
    out.push(limits);
    out.push(ask!("estimate_candidates", vec![], LARGE + 1, vec![], vec![], vec![], vec![]));
    out.extend(
        Faults {
            good: selection(),
            ways: vec![
                (4, |q| *list(q, 6) = [3, 1, 0, 2, 0, 0].repeat(146)),
                (4, |q| {
                    *list(q, 6) = [3, 1, 0, 2, 0, 0].repeat(146);
                    *list(q, 7) = [50, 0, 0, 50, 0, 7, 0, 0, 0].repeat(146);
                }),
                (5, |q| list(q, 6).push(1)),
                (5, |q| list(q, 7).push(1)),
                (5, |q| list(q, 7).truncate(27)),
                (5, |q| list(q, 6)[0] = 4),
                (5, |q| list(q, 6)[2] = 9),
                (7, |q| set(q, 0, ONE + 1)),
                (7, |q| set(q, 1, 0x7ff8000000000001)),
                (7, |q| set(q, 2, 0x8000000000000001)),
                (8, |q| list(q, 7)[6] = ONE + 1),
                (8, |q| list(q, 7)[7] = 0xfff0000000000001),
                (8, |q| list(q, 7)[8] = 0x8000000000000001),
                (8, |q| list(q, 7)[2] = (1 << 50) + 1),
                (8, |q| list(q, 7)[5] = LARGE + 1),
            ],
        }
        .questions(),
    );
    out.extend(candidates_at_limits(selection, 6));
    let spoilt: [fn(&mut Question); 6] = [
        |q| list(q, 7)[2] = 1 << 50,
        |q| list(q, 7)[5] = LARGE,
        |q| list(q, 7)[6] = 1 << 63,
        |q| set(q, 0, 1 << 63),
        |q| (set(q, 3, 1), set(q, 4, 1), set(q, 5, 2)).2,
        |q| (set(q, 3, 1), set(q, 4, 1), set(q, 5, 3)).2,
    ];
    for change in spoilt {
        let mut q = selection();
        change(&mut q);
        out.push(q);
    }
    let full = (0..145u64).flat_map(|i| [2, i % 5, 1 + i % 8, 1, 0, 0]).collect::<Vec<u64>>();
    out.push(ask!("pick_best_cause_aware", 0, ONE, 0, 0, 0, 0, full, [5, 5, 10, 5, 0, 3, 0, ONE, 0].repeat(145)));
    // a choice's answer as a decision: no winner, each place of the list and one past it, a place past any list, kinds that are none
    for (won, place) in [(0, 0), (0, 3), (1, 0), (1, 3), (1, 4), (1, MAX)] {
        let q = selection();
        out.push(ask!("scheduling_decision", 0, ONE, 0, 0, won, place, 1, 1, 1, 3, q.list(6).to_vec(), q.list(7).to_vec()));
    }
    for words in CANDIDATES {
        let q = selection();
        let mut cands = q.list(6).to_vec();
        cands[..3].copy_from_slice(&words);
        out.push(ask!("scheduling_decision", ONE, 0, 0, 0, 1, 0, 0, 0, 0, 1, cands, q.list(7).to_vec()));
    }
    // two ages next to each other, so large that the units of the port's logarithm may not part them
    for power in 40..53 {
        for (one, other) in [(0, 1), (1, 0)] {
            let estimate = |age: u64| [10, 0, 0, 10, 0, (1 << power) + age, 0, 0, 0];
            out.push(ask!("pick_best_cause_aware", 0, 0, 0, 0, 0, 0, [3, 1, 0, 2, 0, 0].repeat(2), [estimate(one), estimate(other)].concat()));
        }
    }
    for (first, count, length) in [(4095, 4096, 57344), (4096, 0, 57344), (0, 4097, 57344), (0, 0, 57343), (0, 0, 57345), (4095, 1, 57344), (4095, 0, 57344), (17, 4096, 57344)] {
        for sequence in [0, MAX - 1, MAX] {
            out.push(ask!("record_decision", first, count, sequence, length, 12345, decision()));
            for room in [14 * count.min(4096u64), (14 * count.min(4096u64)).saturating_sub(1)] {
                out.push(ask!("recent_decisions", first, count, sequence, length, 777, room, 99));
            }
        }
    }
    for (first, count, additions) in [(0, 0, 1), (0, 0, 4096), (0, 0, 4097), (0, 0, 8192), (4095, 0, 2), (4095, 4096, 1), (4000, 100, 4100)] {
        out.push(ask!("log_run", first, count, 0, 5, additions));
    }
    for i in 0..14 {
        for n in [3, 4, 1 << 32, u32::MAX as u64] {
            let mut w = decision();
            w[i] = n;
            out.push(ask!("of_words", w));
        }
    }
    out.push(ask!("of_words", vec![]));
    out.push(ask!("of_words", vec![0; 13]));
    out.push(ask!("of_words", vec![0; 15]));
    out.extend(older_clocks());
    out
}

// ---- the log as a table and as text, which are not among the frozen rows of `all`

/// One row of a sound log in an exact room.
fn table() -> Question {
    ask!("write_fits", 0, 1, 5, 57344, 777, 0, decision(), 11520, 46, 8640, 8760)
}

/// A table of so many rows from a place on, in a room of so many bytes.
fn rows_from(first: u64, count: u64, room: u64) -> Question {
    ask!("write_fits", first, count, 5, 57344, 777, 0, vec![], room, 46, 8640 + 112 * count.saturating_sub(2), room)
}

fn tables() -> Vec<Question> {
    let mut out = vec![];
    for first in [0, 4094, 4095, 4096, 1 << 32, MAX] {
        for count in [0, 1, 25, 26, 180, 181, 4095, 4096, 4097, 1 << 32, MAX] {
            for length in [0, 57343, 57344, 57345] {
                out.push(ask!("fits_length", first, count, MAX, length, 777));
            }
        }
    }
    let ways: Vec<(u64, fn(&mut Question))> = vec![
        (10, |q| set(q, 0, 4096)),
        (10, |q| set(q, 0, MAX)),
        (10, |q| set(q, 1, 4097)),
        (10, |q| set(q, 1, MAX)),
        (10, |q| set(q, 3, 57343)),
        (10, |q| set(q, 3, 57345)),
        (9, |q| set(q, 7, 11519)),
        (9, |q| set(q, 7, 0)),
    ];
    out.extend(Faults { good: table(), ways }.questions());
    // the rows at the end of a block, and rooms just in and just out
    for count in [0, 1, 25, 26, 51, 52, 179, 180, 181, 4096] {
        let exact = fits::size(count);
        out.extend([exact - 1, exact, exact + 1].map(|room| rows_from(0, count, room)));
    }
    for (first, count) in [(4095, 0), (4095, 1), (4095, 2), (4086, 10), (4087, 10), (1, 4096), (4095, 4096)] {
        out.push(rows_from(first, count, fits::size(count)));
    }
    // both headers byte for byte, and each word in every column
    out.push(ask!("write_fits", 0, 4096, 5, 57344, 777, 0, vec![], 469440, 46, 0, 8640));
    out.extend(ENDS.map(|word| ask!("write_fits", 0, 1, 5, 57344, 777, 0, vec![word; 14], 11520, 46, 8640, 8760)));
    out
}

/// A text as it is read and as it is reported, the report's room just in and just out.
fn text(bytes: &[u8]) -> Vec<Question> {
    let (words, exact) = (as_words(bytes), fits::report(bytes).len());
    let mut out = vec![ask!("read_log", words.clone(), 57344, 777)];
    out.extend([exact.saturating_sub(1), exact, exact + 1].map(|n| ask!("refused_lines", words.clone(), vec![46; n])));
    out
}

fn texts() -> Vec<Question> {
    let good = line_of(&decision());
    let mut out = vec![];
    // the ends of lines
    for end in ["", "\n", "\r\n", "\r", "\r\r\n", "\n\n", "\n\r", "\n\r\n", "\r\n\n", "\n\nx", ",\n", ",0\n"] {
        out.extend(text(&[&good, end.as_bytes()].concat()));
        out.extend(text(end.as_bytes()));
    }
    // each word in every column, and one more than the largest
    for word in ENDS {
        out.extend(text(&line_of(&[word; 14])));
    }
    for k in 0..14 {
        for field in ["", "18446744073709551616", "00", "000000000000000", "00000000000000000", "abcdefABCDEF0189", "000000000000000g"] {
            let mut fields: Vec<&[u8]> = good.split(|b| *b == b',').collect();
            fields[k] = field.as_bytes();
            out.extend(text(&fields.join(&b',')));
        }
    }
    // 4,096 lines, and one more
    for lines in [4095, 4096, 4097] {
        for last in ["", "x", "\r"] {
            out.extend(text(&["\n".repeat(lines), last.to_string()].concat().into_bytes()));
        }
    }
    // 10 comes before 4 and 5
    for length in [0, 1, 27, 28, 57343, 57345] {
        for bytes in [good.clone(), vec![], b"x".to_vec(), b"\n".repeat(4097)] {
            out.push(ask!("read_log", as_words(&bytes), length, 777));
        }
    }
    out
}

/// Texts that fill the input: about 4,096 lines and about the most bytes, of good lines and of others.
fn filled() -> Vec<Question> {
    let longest = [line_of(&[MAX; 14]), b"\r\n".to_vec()].concat();
    let most = fits::MOST as u64;
    let mut out = vec![ask!("log_filled", vec![], 0)];
    for text in [SHORTEST, &longest] {
        let whole = text.len() as u64 * 4096;
        out.extend([whole - 2, whole - 1, whole, whole + 1].map(|length| ask!("log_filled", as_words(text), length)));
    }
    for text in [&b"0"[..], b"\n"] {
        out.extend([most, most + 1].map(|length| ask!("log_filled", as_words(text), length)));
    }
    out
}

pub fn log_files() -> Vec<Question> {
    [tables(), texts(), filled()].concat()
}
