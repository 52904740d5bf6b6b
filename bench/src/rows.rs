//! A comparison that ends the run, the rows of the table, and how times grow.
use std::fmt::Debug;
use std::sync::atomic::{AtomicU64, Ordering::Relaxed};

static COMPARED: AtomicU64 = AtomicU64::new(0);

pub fn compared() -> u64 {
    COMPARED.load(Relaxed)
}

/// The port's answer must be the Rust's, or the run ends with status 1.
pub fn same<T: PartialEq + Debug>(what: &str, port: &[T], rust: &[T]) {
    COMPARED.fetch_add(port.len() as u64, Relaxed);
    if port.len() != rust.len() {
        differ(what, &format!("the port's answer has {} parts, the Rust's {}", port.len(), rust.len()));
    }
    if let Some(at) = (0..port.len()).find(|i| port[*i] != rust[*i]) {
        differ(what, &format!("at place {at} of {} the port has {:?}, the Rust {:?}", port.len(), port[at], rust[at]));
    }
}

pub fn differ(what: &str, how: &str) -> ! {
    eprintln!("bench: the port and the Rust differ in {what}: {how}");
    std::process::exit(1)
}

/// Floats by their bits, a NaN as the one pattern that the port writes.
pub fn bits(x: f64) -> u64 {
    if x.is_nan() { 0x7ff8_0000_0000_0000 } else { x.to_bits() }
}

/// The same with both zeros alike, for what Rust's `min` and `max` leave open.
pub fn plain(x: f64) -> u64 {
    if x == 0.0 { 0 } else { bits(x) }
}

#[repr(C)]
struct Timespec {
    seconds: i64,
    nanos: i64,
}
unsafe extern "C" {
    fn clock_gettime(clock: i32, to: *mut Timespec) -> i32;
}

/// Nanoseconds of processor time of this thread, so that other programs' turns don't count.
fn spent() -> f64 {
    let mut t = Timespec { seconds: 0, nanos: 0 };
    unsafe { clock_gettime(3, &mut t) };
    t.seconds as f64 * 1e9 + t.nanos as f64
}

struct Row {
    name: String,
    size: u64,
    ns: [f64; 2],
}

pub struct Bench {
    pub rounds: usize,
    pub only: Option<String>,
    pub timed: bool,
    rows: Vec<Row>,
}

impl Bench {
    pub fn new() -> Bench {
        Bench { rounds: 25, only: None, timed: false, rows: vec![] }
    }

    pub fn head(&self) {
        println!("{:38} {:>5} {:>12} {:>12} {:>8} {:>8}", "call", "size", "port ns", "Rust ns", "ratio", "middle");
    }

    /// Both sides in turn, many rounds; `units` is how many calls or items one run of a side does.
    pub fn row<'a>(&mut self, name: &str, size: u64, units: usize, port: &'a mut dyn FnMut(), rust: &'a mut dyn FnMut()) {
        if !self.timed || self.only.as_ref().is_some_and(|o| !name.contains(o.as_str())) {
            return;
        }
        let mut sides = [port, rust];
        let times: Vec<usize> = sides.iter_mut().map(|f| enough(f)).collect();
        let mut all = [vec![], vec![]];
        for _ in 0..self.rounds {
            for (i, f) in sides.iter_mut().enumerate() {
                let began = spent();
                for _ in 0..times[i] {
                    f();
                }
                all[i].push((spent() - began) / (times[i] * units) as f64);
            }
        }
        for a in all.iter_mut() {
            a.sort_by(f64::total_cmp);
        }
        let middle = |a: &Vec<f64>| a[a.len() / 2];
        let ns = [all[0][0], all[1][0]];
        let shown = if size == 0 { String::new() } else { size.to_string() };
        println!("{:38} {:>5} {:>12.1} {:>12.1} {:>7.2}x {:>7.2}x", name, shown, ns[0], ns[1], ns[0] / ns[1], middle(&all[0]) / middle(&all[1]));
        self.rows.push(Row { name: name.into(), size, ns });
    }

    /// By which power of the size a time grows: least squares of the logarithms, and from the last two sizes.
    pub fn growth(&self) {
        let mut names: Vec<&str> = self.rows.iter().map(|r| r.name.as_str()).collect();
        names.dedup();
        names.retain(|name| self.rows.iter().filter(|r| r.name == *name).count() > 1);
        if names.is_empty() {
            return;
        }
        println!("\n{:38} {:>10} {:>10} {:>12} {:>12}", "growth: time as a power of the size", "port", "Rust", "port, last", "Rust, last");
        for name in names {
            let powers = [0, 1].map(|side| {
                let p: Vec<(f64, f64)> = self.rows.iter().filter(|r| r.name == name).map(|r| ((r.size as f64).ln(), r.ns[side].ln())).collect();
                let n = p.len() as f64;
                let (mx, my) = (p.iter().map(|a| a.0).sum::<f64>() / n, p.iter().map(|a| a.1).sum::<f64>() / n);
                let slope = p.iter().map(|a| (a.0 - mx) * (a.1 - my)).sum::<f64>() / p.iter().map(|a| (a.0 - mx).powi(2)).sum::<f64>();
                let (a, b) = (p[p.len() - 2], p[p.len() - 1]);
                (slope, (b.1 - a.1) / (b.0 - a.0))
            });
            println!("{:38} {:>10.2} {:>10.2} {:>12.2} {:>12.2}", name, powers[0].0, powers[1].0, powers[0].1, powers[1].1);
        }
    }
}

/// How many runs take 150 microseconds or more.
fn enough(f: &mut dyn FnMut()) -> usize {
    let mut k = 1;
    loop {
        let began = spent();
        for _ in 0..k {
            f();
        }
        let took = spent() - began;
        if took > 150_000.0 || k > 1 << 22 {
            return k;
        }
        k = (k as f64 * (200_000.0 / took.max(1_000.0)).clamp(1.5, 20.0)) as usize + 1;
    }
}
