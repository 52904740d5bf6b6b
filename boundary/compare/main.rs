//! The module boundary/governor.rs beside the original: the same calls to both, every answer compared.
//!
//!   compare [SEED [RUNS]] [--long]        RUNS random runs of a governor and as many plans (200,000 of each; ten times as many with --long)
//!   compare --again PART SEED             one part once more, as the message of a difference says
//!
//! Ends with one line and status 0, or at the first difference with a message and status 1.
mod clock;
mod db {
    #[derive(Debug, Clone, Copy, Default)]
    pub struct ReadAmpStats {
        pub gets_total: u64,
        pub resolved_in_memtable: u64,
        pub resolved_in_immutable: u64,
        pub l0_tables_probed: u64,
        pub leveled_tables_probed: u64,
    }
}
mod dropin;
mod fallbacks;
mod large;
#[allow(dead_code)]
mod numbers;
#[allow(dead_code)]
mod original;
mod plans;
mod runs;
#[allow(dead_code)]
mod sides;

use numbers::Dice;
use std::fmt::Debug;
use std::sync::Mutex;
use std::time::Instant;

/// The part that is under way and its seed, for the message.
static UNDER_WAY: Mutex<(&str, u64)> = Mutex::new(("start", 0));

pub fn differ(what: &str, how: &str) -> ! {
    let (part, seed) = *UNDER_WAY.lock().unwrap_or_else(|e| e.into_inner());
    eprintln!("compare: the module and the original differ in {what}: {how}\ncompare: once more by: compare --again {part} {seed}");
    std::process::exit(1)
}

pub fn same<T: PartialEq + Debug>(what: &str, module: T, original: T) {
    if module != original {
        let cut = |x: T| format!("{x:?}").chars().take(500).collect::<String>();
        differ(what, &format!("the module has {}, the original {}", cut(module), cut(original)));
    }
}

/// The first place where two lists differ.
pub fn same_list<T: PartialEq + Debug>(what: &str, module: &[T], original: &[T]) {
    if let Some(at) = module.iter().zip(original).position(|(m, o)| m != o) {
        same(&format!("{what}, at place {at}"), &module[at], &original[at]);
    }
    same(&format!("{what}, how many"), module.len(), original.len());
}

/// For what isn't an equality: what the module answers must be so.
pub fn holds(what: &str, so: bool) {
    if !so {
        differ(what, "what the module documents does not hold");
    }
}

/// How many calls were compared, by part.
#[derive(Default)]
struct Done {
    parts: [(u64, u64); 4],
}

type Part = (&'static str, fn(&mut Dice) -> u64);

const PARTS: [Part; 4] = [("run", runs::run), ("plan", plans::plan), ("large", large::large), ("fallback", fallbacks::fallback)];

impl Done {
    fn part(&mut self, which: usize, seed: u64) {
        let (name, does) = PARTS[which];
        *UNDER_WAY.lock().unwrap_or_else(|e| e.into_inner()) = (name, seed);
        self.parts[which].0 += 1;
        self.parts[which].1 += does(&mut Dice(seed));
    }
}

fn usage() -> ! {
    eprintln!("compare [SEED [RUNS]] [--long], or compare --again run|plan|large|fallback SEED");
    std::process::exit(2)
}

fn main() {
    // a wrong library may lead the module astray as well: that is a difference too
    std::panic::set_hook(Box::new(|p| differ("a panic", &p.to_string())));
    let mut args: Vec<String> = std::env::args().skip(1).collect();
    let number = |text: &String| text.parse::<u64>().unwrap_or_else(|_| usage());
    let began = Instant::now();
    let mut done = Done::default();
    if args.first().is_some_and(|a| a == "--again") {
        let which = args.get(1).and_then(|part| PARTS.iter().position(|p| p.0 == part)).unwrap_or_else(|| usage());
        done.part(which, args.get(2).map(number).unwrap_or_else(|| usage()));
        println!("compare: no difference");
        return;
    }
    let long = args.iter().any(|a| a == "--long");
    args.retain(|a| a != "--long");
    if args.len() > 2 {
        usage();
    }
    let seed = args.first().map_or(1, number);
    let runs = args.get(1).map_or(200_000, number) * if long { 10 } else { 1 };
    let mut seeds = Dice(seed.wrapping_mul(0x2545_f491_4f6c_dd1d));
    for i in 0..runs {
        done.part(0, seeds.next());
        done.part(1, seeds.next());
        if i % 4 == 0 {
            done.part(3, seeds.next());
        }
        if i % 250 == 0 {
            done.part(2, seeds.next());
        }
    }
    large::every_shape(&mut |seed| done.part(2, seed));
    fallbacks::all_were_taken(runs);
    let [run, plan, large, fallback] = done.parts;
    println!(
        "compare: seed {seed}: {} runs of {} calls, {} plans of {}, {} of over 1,024 tables of {}, {} cases of fallbacks: no difference, {:.0} s",
        run.0,
        run.1,
        plan.0,
        plan.1,
        large.0,
        large.1,
        fallback.0,
        began.elapsed().as_secs_f64()
    );
}
