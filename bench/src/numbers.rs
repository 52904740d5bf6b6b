//! Arithmetic: each call over a list of 1,024, compared on every kind of number and timed on plain ones.
use crate::data::Dice;
use crate::port::*;
use crate::rows::{Bench, bits, differ, plain, same};
use std::hint::black_box;

const N: usize = 1024;

/// A call of one list: compared on `odd` and on `xs`, timed on `xs`. `shown` says in which form answers are compared.
fn list<X: Copy, Y: Copy + Default>(
    b: &mut Bench,
    name: &str,
    odd: &[X],
    xs: &[X],
    port: extern "C" fn(&Lent, &Lent),
    rust: impl Fn(X) -> Y,
    shown: impl Fn(Y) -> u64,
) {
    let (mut ours, mut theirs) = (vec![Y::default(); N], vec![Y::default(); N]);
    for from in [odd, xs] {
        port(&lent(from), &lent_mut(&mut ours));
        let told: Vec<u64> = ours[..from.len()].iter().map(|y| shown(*y)).collect();
        same(name, &told, &from.iter().map(|x| shown(rust(*x))).collect::<Vec<_>>());
    }
    b.row(name, 0, N, &mut || port(&lent(xs), &lent_mut(&mut ours)), &mut || {
        for (y, x) in theirs.iter_mut().zip(black_box(xs)) {
            *y = rust(*x);
        }
        black_box(&theirs);
    });
}

/// The same for a call of two floats.
fn pairs(b: &mut Bench, name: &str, odd: [&[f64]; 2], xs: [&[f64]; 2], port: extern "C" fn(&Lent, &Lent, &Lent), rust: impl Fn(f64, f64) -> f64) {
    let (mut ours, mut theirs) = (vec![0.0; N], vec![0.0; N]);
    for [p, q] in [odd, xs] {
        port(&lent(p), &lent(q), &lent_mut(&mut ours));
        let told: Vec<u64> = ours.iter().map(|y| plain(*y)).collect();
        same(name, &told, &p.iter().zip(q).map(|(x, y)| plain(rust(*x, *y))).collect::<Vec<_>>());
    }
    b.row(name, 0, N, &mut || port(&lent(xs[0]), &lent(xs[1]), &lent_mut(&mut ours)), &mut || {
        let [p, q] = black_box(xs);
        for ((t, x), y) in theirs.iter_mut().zip(p).zip(q) {
            *t = rust(*x, *y);
        }
        black_box(&theirs);
    });
}

pub fn run(b: &mut Bench) {
    let mut d = Dice::new(11);
    let words: Vec<u64> = (0..N).map(|_| d.word()).collect();
    let sizes: Vec<u64> = (0..N).map(|_| 1 + (d.next() >> (14 + d.below(40)))).collect();
    let ages: Vec<u64> = (0..N).map(|_| d.next() >> (11 + d.below(50))).collect();
    let odd: Vec<f64> = (0..N).map(|_| d.float()).collect();
    let others: Vec<f64> = (0..N).map(|i| if i % 5 == 0 { -odd[i] } else { d.float() }).collect();
    let floats: Vec<f64> = (0..N).map(|_| (d.unit() - 0.2) * 2.0).collect();
    let units: Vec<f64> = (0..N).map(|_| d.unit()).collect();
    let large: Vec<f64> = (0..N).map(|_| d.unit() * 1e15).collect();
    let patterns = |of: &[f64]| of.iter().map(|x| x.to_bits()).collect::<Vec<u64>>();

    list(b, "of_bits", &patterns(&odd), &patterns(&floats), port_of_bits, f64::from_bits, bits);
    list(b, "to_bits", &odd, &floats, port_to_bits, bits, |w| w);
    pairs(b, "minimum", [&odd, &others], [&floats, &units], port_minimum, f64::min);
    pairs(b, "maximum", [&odd, &others], [&floats, &units], port_maximum, f64::max);
    list(b, "absolute", &odd, &floats, port_absolute, f64::abs, bits);
    list(b, "clamp", &odd, &floats, port_clamp, |x: f64| x.clamp(0.0, 1.0), bits);
    list(b, "of_u64", &words, &sizes, port_of_u64, |n: u64| n as f64, bits);
    list(b, "truncate", &odd, &large, port_truncate, |x: f64| x as u64, |w| w);
    list(b, "sqrt", &words, &sizes, port_sqrt, |n: u64| (n as f64).sqrt(), bits);
    // the port's logarithm is its own: within 2^-40 of the Rust's, not the same
    for ages in [&words, &ages] {
        let mut ours = vec![0.0f64; N];
        port_ln_1p(&lent(ages), &lent_mut(&mut ours));
        for (x, age) in ours.iter().zip(ages.iter()) {
            let off = (*x - (*age as f64).ln_1p()).abs();
            if !(off <= 1.0 / (1u64 << 40) as f64) {
                differ("ln_1p", &format!("of {age} the port has {x}, {off:e} from the Rust's"));
            }
        }
    }
    list(b, "ln_1p", &[], &ages, port_ln_1p, |n: u64| (n as f64).ln_1p(), |_| 0);
}
