//! A question at which the port and the rules differ, made small.

use crate::port::Port;
use crate::question::{Arg, Question};
use crate::rules;

/// So many questions are asked at most.
const ASKS: u32 = 20_000;

struct Shrink<'a> {
    port: &'a mut Port,
    best: Question,
    left: u32,
}

pub fn smallest(port: &mut Port, q: &Question) -> Question {
    std::panic::set_hook(Box::new(|_| {}));
    let mut s = Shrink { port, best: q.clone(), left: ASKS };
    loop {
        let before = s.best.clone();
        for together in groups(q) {
            s.fewer(&together);
        }
        s.less();
        if s.best == before || s.left == 0 {
            break;
        }
    }
    if q.name == "write_fits" {
        s.tell_bytes();
    }
    let _ = std::panic::take_hook();
    s.best
}

/// The lists of a question with the size of their records; two that must have as many stand together.
fn groups(q: &Question) -> Vec<Vec<(usize, usize)>> {
    match q.name {
        "pick_best_cause_aware" => vec![vec![(6, 6), (7, 9)]],
        "scheduling_decision" => vec![vec![(10, 6), (11, 9)]],
        "generate_candidates" => vec![vec![(0, 7)], vec![(3, 2)], vec![(1, 1)], vec![(4, 1)], vec![(5, 1)]],
        "estimate_candidates" => vec![vec![(3, 6)], vec![(0, 7)], vec![(2, 2)], vec![(4, 1)], vec![(5, 1)]],
        "write_fits" => vec![vec![(6, 14)], vec![(6, 1)]],
        "sort_level" | "level_places" | "overlaps_at" | "broken_keys" | "table_at" => vec![vec![(0, 7)]],
        _ => (0..q.args.len()).filter(|i| matches!(q.args[*i], Arg::List(_))).map(|i| vec![(i, 1)]).collect(),
    }
}

impl Shrink<'_> {
    /// Takes q if the two still differ there; a question that one of them can't take does not count.
    fn takes(&mut self, q: Question) -> bool {
        if self.left == 0 {
            return false;
        }
        self.left -= 1;
        let Ok(line) = std::panic::catch_unwind(|| rules::answer(&q)) else { return false };
        let got = self.port.ask(&[q.to_string()]).remove(0);
        let differs = !got.starts_with('?') && got != line;
        if differs {
            self.best = q;
        }
        differs
    }

    /// Half of the records out, then a quarter, and so on.
    fn fewer(&mut self, together: &[(usize, usize)]) {
        let mut count = together.iter().map(|(i, size)| self.best.list(*i).len() / size).min().unwrap_or(0);
        let mut chunk = count.div_ceil(2);
        while 0 < chunk {
            let mut at = 0;
            while at + chunk <= count {
                let mut q = self.best.clone();
                for (i, size) in together {
                    let l = self.best.list(*i);
                    q.args[*i] = Arg::List([&l[..at * size], &l[(at + chunk) * size..]].concat());
                }
                if self.takes(q) { count -= chunk } else { at += chunk }
            }
            chunk /= 2;
        }
    }

    /// Each number as small as halving steps make it.
    fn less(&mut self) {
        for i in 0..self.best.args.len() {
            let words = match &self.best.args[i] {
                Arg::Number(_) => 1,
                Arg::List(l) => l.len(),
            };
            for j in 0..words {
                let mut step = self.word(i, j);
                while 0 < step {
                    let n = self.word(i, j);
                    if step <= n && self.takes(self.with_word(i, j, n - step)) {
                        continue;
                    }
                    step /= 2;
                }
            }
        }
    }

    /// Of a table's bytes the first 80 that differ are told, looked for block by block and then card by card.
    fn tell_bytes(&mut self) {
        let mut within = 0..self.best.number(7);
        for width in [2880, 80] {
            let Some(from) = within.step_by(width as usize).find(|from| self.tells(*from, from + width)) else { return };
            within = from..from + width;
        }
    }

    /// Takes the bytes from a place up to another as those that are told, if the two differ there.
    fn tells(&mut self, from: u64, end: u64) -> bool {
        let mut q = self.best.clone();
        (q.args[9], q.args[10]) = (Arg::Number(from), Arg::Number(end));
        let bytes = |line: &str| line.split('[').nth(1).map(str::to_string);
        let differs = bytes(&rules::answer(&q)) != bytes(&self.port.ask(&[q.to_string()])[0]);
        if differs {
            self.best = q;
        }
        differs
    }

    fn word(&self, i: usize, j: usize) -> u64 {
        match &self.best.args[i] {
            Arg::Number(n) => *n,
            Arg::List(l) => l[j],
        }
    }

    fn with_word(&self, i: usize, j: usize, n: u64) -> Question {
        let mut q = self.best.clone();
        match &mut q.args[i] {
            Arg::Number(m) => *m = n,
            Arg::List(l) => l[j] = n,
        }
        q
    }
}
