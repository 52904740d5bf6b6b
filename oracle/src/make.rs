//! Questions: around every limit of 01, damaged copies of good ones, and small ones in full.

use crate::ask;
use crate::decisions::LOG_WORDS;
use crate::numbers::Dice;
use crate::question::{Arg, Question};
use crate::state::State;
use crate::tables;
use std::collections::HashSet;

/// Every call that stands by itself, by the name that a question has; those of the log as a table and as text are in make_log.rs. `of_u64` stands three times, so that the frozen rows stay as the dice gave them.
pub const CALLS: [&str; 61] = [
    "of_bits", "minimum", "maximum", "absolute", "clamp", "truncate", "of_u64", "of_u64", "of_u64", "sqrt", "ln_1p",
    "compare", "lesser", "greater", "part", "table_count", "table_at", "entry_count", "entry_at", "first_key", "last_key",
    "too_many_tables", "broken_tables", "too_many_entries", "broken_entries", "levels_out", "broken_keys", "level_places", "sort_level", "overlaps_at", "insert_at",
    "pacing_delay", "dominant", "fresh", "mode", "pressure", "pressure_vector", "focus", "set_focus", "observe", "observe_engine",
    "record_candidate_chosen", "with_trivial_move", "record_trivial_move", "with_outcome", "record_outcome", "snapshot",
    "generate_candidates", "estimate_candidates", "cause_aware_score", "pick_best_cause_aware", "scheduling_decision",
    "to_words", "of_words", "empty_log", "kept_place", "record_decision", "recent_decisions", "decimal", "bits", "replay",
];

pub const LIMITS: [u64; 12] = [0, 4, 8, 16, 1024, 4096, 1 << 32, 1 << 40, 1 << 50, 1 << 53, 1 << 63, u64::MAX];

/// The floats that 01 and the source name, and the edges of the format.
const FLOATS: [f64; 24] = [
    0.0, 0.01, 0.05, 0.3, 0.45, 0.75, 1.0, 1.15, 1.5, 1.6, 3.0, 10.0, 5000.0, 20000.0, 40000.0, 9007199254740992.0, 9223372036854775808.0,
    18446744073709551616.0, f64::MIN_POSITIVE, 5e-324, f64::MAX, f64::INFINITY, f64::NAN, 0.5,
];

impl Dice {
    /// A number at a limit, next to one, small, or any.
    pub fn number(&mut self) -> u64 {
        match self.below(6) {
            0 => self.pick(&LIMITS),
            1 => self.pick(&LIMITS).wrapping_add(self.below(5)).wrapping_sub(2),
            2 | 3 => self.below(10),
            4 => self.next() >> self.below(64),
            _ => self.next(),
        }
    }

    /// A float's bits: one that is named, next to one, from 0 to 4, or any pattern.
    pub fn float(&mut self) -> u64 {
        let sign = (self.one_in(6) as u64) << 63;
        match self.below(6) {
            0 => self.pick(&FLOATS).to_bits() ^ sign,
            1 => (self.pick(&FLOATS).to_bits().wrapping_add(self.below(5)).wrapping_sub(2)) ^ sign,
            2 | 3 => (self.below(1 << 20) as f64 / (1 << 18) as f64).to_bits() ^ sign,
            4 => self.next() & 0x7fff_ffff_ffff_ffff,
            _ => self.next(),
        }
    }

    /// A float from 0 to 1 as a rule, its ends often.
    pub fn share(&mut self) -> u64 {
        match self.below(8) {
            0 => 0,
            1 | 2 => 1f64.to_bits(),
            3 if self.one_in(4) => (-0.0f64).to_bits(),
            _ => (self.below(1 << 30) as f64 / (1u64 << 30) as f64).to_bits(),
        }
    }

    fn words(&mut self, most: u64) -> Vec<u64> {
        (0..self.below(most + 1)).map(|_| self.number()).collect()
    }

    fn bytes(&mut self, most: u64) -> Vec<u64> {
        let wide = self.one_in(3);
        (0..self.below(most + 1)).map(|_| if wide { self.below(256) } else { 97 + self.below(3) }).collect()
    }

    // ---- states

    /// A state that is sound as a rule, with counters at their tops now and then.
    pub fn state(&mut self) -> State {
        let mut s = State::fresh(self.number());
        s.mode = self.below(3) as usize;
        let f = |d: &mut Dice| f64::from_bits(if d.one_in(4) { d.float() } else { d.share() });
        (s.probed, s.blend, s.pressure, s.debt) = (f64::from_bits(self.float()), f(self), f(self), f(self));
        s.vector = [f(self), f(self), f(self)];
        s.streaks[s.mode] = self.below([3, 4, 3][s.mode]);
        if self.one_in(6) {
            s.streaks[self.below(3) as usize] = self.below(6);
        }
        if self.one_in(2) {
            s.focus.level = Some(self.number() as u32);
        }
        s.focus.streak = self.below(5) as u32;
        s.times = [self.number(), self.number(), self.number()];
        if self.one_in(2) {
            s.last = self.next() >> 20;
            s.times = s.times.map(|t| t >> 2);
        }
        (s.last_probed, s.last_resolved) = (self.number(), self.number());
        (s.switches, s.batch_sum, s.batch_count, s.moves) = (self.number(), self.number(), self.number(), self.number());
        (s.avoided, s.error_sum, s.samples) = (self.number(), f64::from_bits(self.float()), self.number());
        s
    }

    /// L0 count, trigger, ratio, probes, backlog.
    fn sample(&mut self) -> [u64; 5] {
        let small = !self.one_in(4);
        let count = |d: &mut Dice| if small { d.below(21) } else { d.number() };
        [count(self), count(self), self.float(), self.float(), count(self)]
    }

    // ---- tables

    /// Words of n tables over few keys, levels and numbers, and their key bytes.
    pub fn tables(&mut self, n: u64) -> (Vec<u64>, Vec<u64>) {
        let keys = self.bytes(40);
        let levels = 1 + self.below(4);
        let base = if self.one_in(8) { u32::MAX as u64 - 2 } else { 0 };
        let size = keys.len() as u64;
        let part = |d: &mut Dice| {
            let start = d.below(size + 1);
            [start, d.below((size - start).min(3) + 1)]
        };
        let mut words = vec![];
        for _ in 0..n {
            let number = if self.one_in(20) { self.number() } else { self.below(4 * n + 4) };
            let bytes = match self.below(8) {
                0 => 1 << 40,
                1 => 0,
                2 => self.below(1 << 40),
                _ => 10 * self.below(6),
            };
            words.extend([number, base + self.below(levels), bytes]);
            words.extend(part(self));
            words.extend(part(self));
        }
        (words, keys)
    }

    /// Dice of their own, thrown beside these, so that every other question stays as it was.
    fn beside(&self) -> Dice {
        Dice(!self.0)
    }

    /// The tables with numbers that differ: one that stood before becomes the next one free. In one list of eight some count down from 2^64 - 1.
    fn apart(&self, mut words: Vec<u64>) -> Vec<u64> {
        let mut dice = self.beside();
        let n = words.len() as u64 / 7;
        let both_ends = dice.one_in(8);
        let mut seen = HashSet::new();
        for table in words.chunks_exact_mut(7) {
            // few of a long list, so that its question stays about as long
            if both_ends && dice.one_in(2 + n / 8) {
                table[0] = !table[0];
            }
            while !seen.insert(table[0]) {
                table[0] = table[0].wrapping_add(1);
            }
        }
        words
    }

    /// In one list of eight a number occurs twice: in neighbours, in the first and the last, or in any two, now and then with all seven words alike.
    fn repeated(&self, mut words: Vec<u64>) -> Vec<u64> {
        let mut dice = self.beside();
        let n = words.len() as u64 / 7;
        if n < 2 || !dice.one_in(8) {
            return words;
        }
        let place = dice.below(n - 1);
        let (one, other) = match dice.below(4) {
            0 => (place, place + 1),
            1 => (0, n - 1),
            _ => (place, place + 1 + dice.below(n - 1 - place)),
        };
        let (one, other) = if dice.one_in(2) { (one, other) } else { (other, one) };
        let alike = if dice.one_in(4) { 7 } else { 1 };
        words.copy_within(7 * one as usize..7 * one as usize + alike, 7 * other as usize);
        words
    }

    fn table_count(&mut self, large: bool) -> u64 {
        match self.below(8) {
            _ if large => 65 + self.below(64),
            0 => self.below(40),
            _ => self.below(9),
        }
    }

    /// Over-budget words for these tables.
    fn over(&mut self, tables: &[u64]) -> Vec<u64> {
        let n = match self.below(6) {
            0 => 16,
            _ => self.below(5),
        };
        (0..n)
            .flat_map(|_| {
                let count = tables.len() as u64 / 7;
                let level = if count > 0 && !self.one_in(5) { tables[7 * self.below(count) as usize + 1].min(u32::MAX as u64 - 1) } else { self.below(4) };
                [level, if self.one_in(4) { self.number() } else { 10 * self.below(30) }]
            })
            .collect()
    }

    /// Now and then spoils words, so that a refusal is due.
    fn damaged(&mut self, mut words: Vec<u64>) -> Vec<u64> {
        match self.below(12) {
            0 => words.push(self.number()),
            1 if !words.is_empty() => {
                words.pop();
            }
            2 | 3 if !words.is_empty() => {
                let i = self.below(words.len() as u64) as usize;
                words[i] = self.number();
            }
            _ => {}
        }
        words
    }

    /// Room for an answer of so many words: exact, one short, more, or any.
    pub fn room(&mut self, words: usize) -> Vec<u64> {
        let n = match self.below(6) {
            0 => (words as u64).saturating_sub(1),
            1 => words as u64 + self.below(9),
            2 => self.below(20),
            _ => words as u64,
        };
        let seed = self.next();
        // a line has at most 1,000,000 bytes, so that much room is filled with short numbers
        (0..n).map(|i| if 20_000 < n { i % 10 } else { seed.wrapping_mul(2 * i + 1) }).collect()
    }

    fn generation(&mut self, large: bool) -> Question {
        let n = if self.one_in(400) { 1022 + self.below(4) } else { self.table_count(large) };
        let (drawn, keys) = self.tables(n);
        let words = self.apart(drawn);
        let over = self.over(&words);
        let trigger = if self.one_in(4) { self.number() } else { self.below(5) };
        let bytes: Vec<u8> = keys.iter().map(|b| *b as u8).collect();
        let (w, m) = tables::laid_out(&tables::candidates(&tables::tables(&words, &bytes), trigger, &over));
        let (words, over) = (self.damaged(words), self.damaged(over));
        let (out, numbers) = (self.room(w.len()), self.room(m.len()));
        ask!("generate_candidates", self.repeated(words), keys, trigger, over, out, numbers)
    }

    /// Candidate words with their numbers: those that generation makes, or made up.
    fn candidates(&mut self, words: &[u64], keys: &[u64], over: &[u64]) -> (Vec<u64>, Vec<u64>) {
        if self.one_in(2) {
            let bytes: Vec<u8> = keys.iter().map(|b| *b as u8).collect();
            let trigger = if self.one_in(3) { self.below(3) } else { u64::MAX };
            return tables::laid_out(&tables::candidates(&tables::tables(words, &bytes), trigger, over));
        }
        let count = words.len() as u64 / 7;
        let numbers: Vec<u64> = (0..self.below(30)).map(|_| if count > 0 && !self.one_in(4) { words[7 * self.below(count) as usize] } else { self.below(50) }).collect();
        let n = match self.below(40) {
            0 => 143 + self.below(4),
            _ => self.below(6),
        };
        let made = (0..n)
            .flat_map(|_| {
                let kind = 1 + self.below(3);
                let level = if kind == 1 { 0 } else if self.one_in(20) { self.number() } else { self.below(4) };
                let length = if kind == 2 { 1 + self.below(8) } else { 0 };
                let start = self.below(numbers.len() as u64 + 1);
                [kind, level, length, self.below(5), start, self.below(numbers.len() as u64 - start + 1)]
            })
            .collect();
        (made, numbers)
    }

    fn estimation(&mut self, large: bool) -> Question {
        let n = if self.one_in(400) { 1022 + self.below(4) } else { self.table_count(large) };
        let (drawn, keys) = self.tables(n);
        let words = self.apart(drawn);
        let over = self.over(&words);
        let (cands, numbers) = self.candidates(&words, &keys, &over);
        let next = if self.one_in(3) { self.number() } else { self.below(100) };
        let out = self.room(9 * (cands.len() / 6));
        let (words, over, cands) = (self.damaged(words), self.damaged(over), self.damaged(cands));
        ask!("estimate_candidates", self.repeated(words), next, over, cands, numbers, out)
    }

    fn estimate_words(&mut self) -> [u64; 9] {
        let rewrite = match self.below(6) {
            0 => 1 << 50,
            1 => self.number(),
            _ => self.below(1000),
        };
        let age = match self.below(6) {
            0 => 1 << 53,
            1 => self.number(),
            _ => self.below(30),
        };
        [self.below(100), self.below(100), rewrite, self.below(100), self.below(9), age, self.share(), self.share(), self.share()]
    }

    fn selection(&mut self, large: bool) -> Question {
        let n = self.table_count(large);
        let (words, keys) = self.tables(n);
        let over = self.over(&words);
        let (cands, numbers) = self.candidates(&words, &keys, &over);
        let mut ests = vec![];
        let from_tables = self.one_in(2);
        for c in cands.chunks_exact(6) {
            if from_tables && (c[4] + c[5]) as usize <= numbers.len() {
                ests.extend(tables::estimate(&words, 1000, &over, c, &numbers));
            } else {
                ests.extend(self.estimate_words());
            }
        }
        let (cands, ests) = (self.damaged(cands), self.damaged(ests));
        let level = if cands.len() >= 6 && self.one_in(2) { cands[6 * self.below(cands.len() as u64 / 6) as usize + 1] as u32 as u64 } else { self.below(4) };
        let flag = self.below(2);
        let v = if self.one_in(10) { [self.float(), self.float(), self.float()] } else { [self.share(), self.share(), self.share()] };
        ask!("pick_best_cause_aware", v[0], v[1], v[2], flag, level * flag, self.below(5), cands, ests)
    }

    /// What a choice may have answered, and now and then what none can: a place past the lists, a refusal with a winner.
    fn trace(&mut self, large: bool) -> Question {
        let q = self.selection(large);
        let count = q.list(6).len() as u64 / 6;
        let place = if self.one_in(8) { self.number() } else { self.below(count + 1) };
        let won = !self.one_in(5) as u64;
        let refusal = if self.one_in(8) { self.below(11) } else { 0 };
        ask!("scheduling_decision", q.number(0), q.number(1), q.number(2), refusal, won, place * won, q.number(3), q.number(4), q.number(5), self.below(4), q.list(6).to_vec(), q.list(7).to_vec())
    }

    // ---- decisions

    pub fn decision(&mut self) -> Vec<u64> {
        let kind = self.below(4);
        let level = if kind >= 2 { self.number() as u32 as u64 } else { 0 };
        let length = if kind == 2 { self.number() } else { 0 };
        let mut w = vec![self.number(), self.float(), self.float(), self.float(), self.below(4), self.below(4), self.number(), kind, level, length, self.number()];
        w.extend([self.float(), self.float(), self.float()]);
        w
    }

    /// First, count and sequence: mostly a sound log.
    fn log(&mut self) -> [u64; 3] {
        let place = |d: &mut Dice| match d.below(4) {
            0 => 4094 + d.below(4),
            1 => d.below(3),
            2 if d.one_in(4) => d.number(),
            _ => d.below(4096),
        };
        [place(self), place(self), if self.one_in(4) { u64::MAX - self.below(2) } else { self.number() }]
    }

    fn log_length(&mut self) -> u64 {
        if self.one_in(8) { LOG_WORDS as u64 - 1 + self.below(3) } else { LOG_WORDS as u64 }
    }

    /// The bytes of a number as a person might write it.
    pub fn digits(&mut self, hex: bool) -> Vec<u64> {
        let n = self.number();
        let mut text = if hex { format!("{n:016x}") } else { n.to_string() };
        match self.below(10) {
            0 => text.insert(0, '0'),
            1 => text.push(self.pick(&['0', '9', ' ', '+', 'g', ':', '/', '@', '`'])),
            2 => text = text.to_uppercase(),
            3 => {
                text.pop();
            }
            4 if !hex => text = (u64::MAX as u128 + self.below(3) as u128).to_string(),
            _ => {}
        }
        text.bytes().map(|b| b as u64).collect()
    }

    /// A few lines for `replay`, some of them spoilt.
    fn text(&mut self) -> Vec<u8> {
        let mut out = vec![];
        let mut clock = 0;
        for _ in 0..self.below(9) {
            clock = if self.one_in(6) { self.number() } else { clock + self.below(1000) };
            let p = self.sample();
            let mut line = format!("{clock},{},{},{:016x},{:016x},{}", p[0], p[1], p[2], p[3], p[4]).into_bytes();
            match self.below(12) {
                0 => line.clear(),
                1 => {
                    let i = self.below(line.len() as u64) as usize;
                    line[i] = self.pick(b"0,\r \"+fFgG9\xff");
                }
                2 => line.push(self.pick(b"0,\r ")),
                3 => line = line.to_ascii_uppercase(),
                4 => line.insert(0, self.pick(b"0,1 ")),
                _ => {}
            }
            line.extend_from_slice(if self.one_in(3) { b"\r\n" } else { b"\n" });
            out.extend(line);
        }
        if self.one_in(3) {
            out.pop();
        }
        out
    }

    /// One question to a call.
    pub fn question(&mut self, call: &'static str, large: bool) -> Question {
        match call {
            "of_bits" | "absolute" | "clamp" | "truncate" => ask!(call, self.float()),
            "minimum" | "maximum" => ask!(call, self.float(), self.float()),
            "of_u64" | "sqrt" | "ln_1p" | "fresh" => ask!(call, self.number()),
            "compare" | "lesser" | "greater" => ask!(call, self.bytes(6), self.bytes(6)),
            "part" => ask!(call, self.bytes(9), self.number(), self.number()),
            "table_count" | "too_many_tables" | "broken_tables" => {
                let n = if self.one_in(50) { 1022 + self.below(5) } else { self.below(5) };
                let words = self.tables(n).0;
                ask!(call, self.damaged(words))
            }
            "table_at" => {
                let words = self.tables(3).0;
                ask!(call, self.damaged(words), self.number())
            }
            "entry_count" | "too_many_entries" | "broken_entries" | "levels_out" => {
                let words: Vec<u64> = (0..self.below(36)).map(|_| if self.one_in(6) { (u32::MAX as u64).wrapping_add(self.below(4)).wrapping_sub(2) } else { self.below(9) }).collect();
                ask!(call, words)
            }
            "entry_at" => ask!(call, self.words(7), self.number()),
            "first_key" | "last_key" => {
                let mut q = ask!(call, self.bytes(9));
                q.args.extend((0..7).map(|_| Arg::Number(self.number())));
                q
            }
            "broken_keys" => {
                let (words, keys) = self.tables(3);
                ask!(call, self.damaged(words), keys)
            }
            "level_places" => {
                let (words, _) = self.tables(9);
                let level = self.below(4);
                ask!(call, words, level, self.room(3))
            }
            "sort_level" => {
                let n = self.table_count(large);
                let (words, keys) = self.tables(n);
                let level = self.below(4);
                ask!(call, words, keys, level, self.room(n as usize))
            }
            "insert_at" => {
                let place = |d: &mut Dice| if d.one_in(5) { d.number() } else { d.below(9) };
                let (n, p) = (place(self), place(self));
                ask!(call, self.words(8), n, p, self.number())
            }
            "overlaps_at" => {
                let (words, keys) = self.tables(3);
                ask!(call, words, keys, self.below(5), self.bytes(3), self.bytes(3))
            }
            "pacing_delay" => ask!(call, self.below(3), self.float()),
            "dominant" => ask!(call, self.float(), self.float(), self.float()),
            "mode" | "pressure" | "pressure_vector" | "focus" => ask!(call, self.state().words()),
            "set_focus" => {
                let flag = self.below(2);
                ask!(call, self.state().words(), flag, flag * (self.number() as u32 as u64), self.below(9))
            }
            "observe" => {
                let mut q = ask!(call, self.state().words(), self.number());
                q.args.extend(self.sample().map(Arg::Number));
                q
            }
            "observe_engine" => {
                let p = self.sample();
                let mut q = ask!(call, self.state().words(), self.number(), p[0], p[1], p[2], p[4]);
                q.args.extend((0..5).map(|_| Arg::Number(self.number())));
                q
            }
            "record_candidate_chosen" => ask!(call, self.state().words(), 1 + self.below(3), self.number() as u32 as u64, self.number()),
            "with_trivial_move" | "record_trivial_move" | "snapshot" => ask!(call, self.state().words(), self.number()),
            "with_outcome" | "record_outcome" => ask!(call, self.state().words(), self.number(), self.number()),
            "generate_candidates" => self.generation(large),
            "estimate_candidates" => self.estimation(large),
            "cause_aware_score" => {
                let e = self.estimate_words();
                let mut q = ask!(call, self.share(), self.share(), self.share());
                q.args.extend(e.map(Arg::Number));
                q
            }
            "pick_best_cause_aware" => self.selection(large),
            "scheduling_decision" => self.trace(large),
            "to_words" => ask!(call, self.decision()),
            "of_words" => {
                let words = self.decision();
                ask!(call, self.damaged(words))
            }
            "empty_log" => ask!(call),
            "kept_place" => {
                let g = self.log();
                ask!(call, g[0], g[1], g[2], self.number())
            }
            "record_decision" => {
                let g = self.log();
                ask!(call, g[0], g[1], g[2], self.log_length(), self.next(), self.decision())
            }
            "recent_decisions" => {
                let g = self.log();
                let need = 14u64.saturating_mul(g[1]);
                let room = if self.one_in(3) { need.saturating_sub(1) } else { need.saturating_add(self.below(3)) };
                ask!(call, g[0], g[1], g[2], self.log_length(), self.next(), room.min(LOG_WORDS as u64 + 1), self.next())
            }
            "replay" => {
                let text = self.text();
                let length = crate::replay::run(&text).len();
                let bytes: Vec<u64> = text.iter().map(|b| *b as u64).collect();
                let room: Vec<u64> = self.room(length).iter().map(|w| w % 256).collect();
                ask!(call, bytes, room)
            }
            "decimal" => ask!(call, self.digits(false)),
            "bits" => ask!(call, self.digits(true)),
            _ => panic!("no questions for {call}"),
        }
    }
}
