// Answers questions about floats by Rust's own operators, one to a line, in the notation of the rows. A NaN is written as it comes.
use std::hint::black_box;
use std::io::{self, BufRead, Write};

fn main() {
    let mut out = io::BufWriter::new(io::stdout().lock());
    for line in io::stdin().lock().lines() {
        let line = line.unwrap();
        let mut words = line.split(' ');
        let name = words.next().unwrap();
        let args: Vec<u64> = words.map(|w| w.parse().unwrap()).collect();
        let n = black_box(args[0]);
        let x = black_box(f64::from_bits(n));
        let y = black_box(f64::from_bits(*args.last().unwrap()));
        let answer = match name {
            "of_bits" => x.to_bits(),
            "minimum" => x.min(y).to_bits(),
            "maximum" => x.max(y).to_bits(),
            "absolute" => x.abs().to_bits(),
            "clamp" => x.clamp(0.0, 1.0).to_bits(),
            "truncate" => x as u64,
            "of_u64" => (n as f64).to_bits(),
            "sqrt" => (n as f64).sqrt().to_bits(),
            other => panic!("{other}"),
        };
        writeln!(out, "{answer}").unwrap();
    }
}
