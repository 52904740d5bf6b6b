//! The port beside the original: makes questions, answers them by 01's rules with the original beside, and compares (docs/ORACLE.md).

#[allow(dead_code)]
mod db {
    #[derive(Debug, Clone, Copy, Default)]
    pub struct ReadAmpStats {
        pub gets_total: u64,
        pub resolved_in_memtable: u64,
        pub resolved_in_immutable: u64,
        pub l0_tables_probed: u64,
        pub leveled_tables_probed: u64,
    }
}
mod decisions;
mod fits;
#[allow(dead_code)]
mod governor;
mod limits;
mod logged;
mod make;
mod make_log;
mod numbers;
mod offered;
mod original;
mod port;
mod question;
mod replay;
mod rules;
mod runs;
mod shrink;
mod state;
mod tables;
mod words;

use make::CALLS;
use make_log::LOG_CALLS;
use numbers::Dice;
use original::Seen;
use port::Port;
use question::Question;
use std::collections::BTreeMap;
use std::io::Write;
use std::time::Instant;

/// The original has its own logarithm in this build, and the port's in the other.
const OWN_LOG: bool = cfg!(own_log);

struct Comparison {
    port: Option<Port>,
    batch: Vec<(Question, String)>,
    counts: BTreeMap<&'static str, u64>,
    near_agree: u64,
    near_differ: Vec<String>,
    began: Instant,
    told: u64,
    skip: Vec<String>,
}

impl Comparison {
    fn new(port: Option<Port>, skip: Vec<String>) -> Comparison {
        Comparison { skip, port, batch: vec![], counts: BTreeMap::new(), near_agree: 0, near_differ: vec![], began: Instant::now(), told: 0 }
    }

    fn total(&self) -> u64 {
        self.counts.values().sum()
    }

    /// One question: the rules against the original now, against the port with its batch.
    fn compare(&mut self, q: Question) {
        if self.skip.contains(&q.name.to_string()) {
            return;
        }
        let line = rules::answer(&q);
        match original::holds(&q, &line, OWN_LOG) {
            Ok(Seen::Same) => {}
            Ok(Seen::NearTie { agree: true }) => self.near_agree += 1,
            Ok(Seen::NearTie { agree: false }) => self.near_differ.push(q.to_string()),
            Err(why) => fail(&format!("the rules and the original differ: {why}"), &q),
        }
        *self.counts.entry(q.name).or_default() += 1;
        self.batch.push((q, line));
        if self.batch.len() >= 2000 {
            self.flush();
        }
    }

    fn flush(&mut self) {
        let batch = std::mem::take(&mut self.batch);
        if let Some(port) = &mut self.port {
            let texts: Vec<String> = batch.iter().map(|(q, _)| q.to_string()).collect();
            let lines = port.ask(&texts);
            for ((q, line), got) in batch.iter().zip(&lines) {
                if line != got {
                    let q = shrink::smallest(port, q);
                    let (line, got) = (rules::answer(&q), port.ask(&[q.to_string()]).remove(0));
                    fail(&format!("the port and the rules differ.\n  rules: {line}\n  port:  {got}"), &q);
                }
            }
        }
        let millions = self.total() / 1_000_000;
        if millions > self.told {
            self.told = millions;
            eprintln!("{} million calls compared, {:.0} s", millions, self.began.elapsed().as_secs_f64());
        }
    }
}

fn fail(what: &str, q: &Question) -> ! {
    println!("{what}\n  question: {q}\n  in words: {}", words::in_words(q));
    std::process::exit(1);
}

/// A pass: limits and small cases in full, runs of calls, then so many questions to each call.
fn pass(c: &mut Comparison, seed: u64, each: u64, runs: u64, tables: u32) {
    let mut dice = Dice(seed);
    for q in limits::all().into_iter().chain(limits::log_files()).chain(runs::all_turns()) {
        c.compare(q);
    }
    for q in runs::all_tables(tables) {
        c.compare(q);
    }
    // every run of kinds of samples, up to five long
    let kinds = runs::kinds();
    for code in 0..kinds.len().pow(5) {
        let (mut run, mut rest) = (runs::Run::new(0), code);
        for turn in 0..5u64 {
            let k = kinds[rest % kinds.len()];
            rest /= kinds.len();
            let q = ask!("observe", run.state.words(), turn, k[0], k[1], k[2], k[3], k[4]);
            step(c, &mut run, q);
        }
    }
    for _ in 0..runs {
        let mut run = runs::Run::new(dice.next() >> 10);
        for _ in 0..60 {
            let q = dice.next_call(&run.state);
            step(c, &mut run, q);
        }
    }
    if let Err(why) = dice.logs(runs / 20) {
        println!("the rules and the original differ: {why}");
        std::process::exit(1);
    }
    for i in 0..each {
        for call in CALLS {
            let q = dice.question(call, i % 3 == 0);
            c.compare(q);
        }
    }
    for i in 0..each {
        // a text of up to a million bytes takes its time: one for ten of the others
        for call in LOG_CALLS.into_iter().filter(|call| i % 10 == 0 || *call != "log_filled") {
            let q = dice.log_question(call);
            c.compare(q);
        }
    }
    c.flush();
}

fn step(c: &mut Comparison, run: &mut runs::Run, q: Question) {
    c.compare(q.clone());
    if let Err(why) = run.step(&q) {
        fail(&format!("the rules and the original differ: {why}"), &q);
    }
}

/// Adds to the frozen rows: the limits, and 200 questions to each call, with the rules' answers, which the original was held against. Of the log as a table and as text it asks nothing: those rows are of scripts/parts/fits.py.
fn freeze(folder: &str, seed: u64, skip: &[String]) {
    let mut dice = Dice(seed);
    let mut all = limits::all();
    all.extend(runs::all_turns().into_iter().step_by(5));
    for call in CALLS {
        let mut kept = 0;
        while kept < 200 {
            let q = dice.question(call, kept % 20 == 0);
            if q.to_string().len() < 6_000 {
                all.push(q);
                kept += 1;
            }
        }
    }
    let mut c = Comparison::new(None, vec![]);
    let mut lines = String::new();
    let mut texts = String::new();
    for q in all.into_iter().filter(|q| !skip.contains(&q.name.to_string())) {
        texts += &format!("{q}\n");
        lines += &format!("{}\n", rules::answer(&q));
        c.compare(q);
    }
    for (name, text) in [("stdin", texts), ("stdout", lines)] {
        let mut file = std::fs::OpenOptions::new().append(true).open(format!("{folder}/{name}")).expect("the rows that stand");
        file.write_all(text.as_bytes()).expect("rows are written");
    }
    for (name, n) in &c.counts {
        println!("{n:>9} {name}");
    }
    println!("{} rows added, seed {seed}", c.total());
}

fn main() {
    let args: Vec<String> = std::env::args().skip(1).collect();
    let value = |name: &str| args.iter().position(|a| a == name).and_then(|i| args.get(i + 1)).cloned();
    let seed = value("--seed").map(|s| s.parse().expect("a seed is a number")).unwrap_or(20261115);
    let skip: Vec<String> = value("--skip").map(|s| s.split(',').map(str::to_string).collect()).unwrap_or_default();
    let port = value("--rows").map(|command| Port::start(&command));
    println!("seed {seed}, the original with {} logarithm", if OWN_LOG { "its own" } else { "the port's" });
    let mut c = Comparison::new(port, skip.clone());
    match args.first().map(String::as_str) {
        Some("quick") => pass(&mut c, seed, 2000, 2000, 3),
        Some("long") => pass(&mut c, seed, 300_000, 20_000, 3),
        Some("freeze") => return freeze(&value("--to").expect("--to FOLDER"), seed, &skip),
        _ => {
            println!("usage: oracle quick|long|freeze [--to FOLDER] [--rows COMMAND] [--seed N] [--skip NAME,..]");
            std::process::exit(2);
        }
    }
    for (name, n) in &c.counts {
        println!("{n:>9} {name}");
    }
    println!("near ties that agree: {}, that differ: {}", c.near_agree, c.near_differ.len());
    for q in &c.near_differ {
        println!("  {q}");
    }
    println!("{} calls compared, no difference, {:.0} s", c.total(), c.began.elapsed().as_secs_f64());
}
