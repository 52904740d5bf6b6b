//! The port's calls beside the original's: all compared first, then timed, in one run. See README.md.
mod choice;
mod clock;
mod clocked;
mod data;
mod db {
    #[derive(Debug, Clone, Copy, Default)]
    pub struct ReadAmpStats {
        pub gets_total: u64,
        pub resolved_in_memtable: u64,
        pub resolved_in_immutable: u64,
        pub l0_tables_probed: u64,
        pub leveled_tables_probed: u64,
    }
}
mod decisions;
mod dropin;
mod module;
mod module_clocked;
mod numbers;
mod original;
mod port;
mod replay;
mod rows;
mod stack;
mod states;
mod tables;

fn all(b: &mut rows::Bench) {
    tables::run(b);
    choice::run(b);
    states::run(b);
    dropin::run(b);
    decisions::run(b);
    replay::run(b);
    numbers::run(b);
}

fn main() {
    let mut b = rows::Bench::new();
    let mut only_stack = false;
    let mut args = std::env::args().skip(1);
    while let Some(a) = args.next() {
        let understood = match a.as_str() {
            "--rounds" => args.next().and_then(|n| n.parse().ok()).filter(|n| *n > 0).map(|n| b.rounds = n).is_some(),
            "--only" => args.next().map(|text| b.only = Some(text)).is_some(),
            "--stack" => {
                only_stack = true;
                true
            }
            _ => false,
        };
        if !understood {
            eprintln!("bench/run PATH/TO/governor.rs [--rounds N] [--only TEXT] [--stack]");
            std::process::exit(2)
        }
    }
    all(&mut b);
    println!("{} words compared with the Rust's: no difference\n", rows::compared());
    if !only_stack {
        b.timed = true;
        b.head();
        all(&mut b);
        b.growth();
    }
    if b.only.is_none() {
        stack::depths();
    }
}
