//! The tables, samples and texts that both sides are given.

pub struct Dice(u64);

impl Dice {
    pub fn new(seed: u64) -> Dice {
        Dice(seed.wrapping_mul(0x9e37_79b9_7f4a_7c15) | 1)
    }
    pub fn next(&mut self) -> u64 {
        self.0 ^= self.0 << 13;
        self.0 ^= self.0 >> 7;
        self.0 ^= self.0 << 17;
        self.0.wrapping_mul(0x2545_f491_4f6c_dd1d)
    }
    pub fn below(&mut self, n: u64) -> u64 {
        (self.next() >> 11) % n
    }
    pub fn unit(&mut self) -> f64 {
        (self.next() >> 11) as f64 / (1u64 << 53) as f64
    }
    /// Words of every size, and those around a power of two, a square or the last word.
    pub fn word(&mut self) -> u64 {
        match self.below(8) {
            0 => self.below(4),
            1 => (1u64 << self.below(64)).wrapping_add(self.below(3)).wrapping_sub(1),
            2 => self.below(1 << 32).pow(2).wrapping_add(self.below(3)).wrapping_sub(1),
            3 => u64::MAX - self.below(4096),
            _ => self.next() >> self.below(64),
        }
    }
    /// Floats of every kind: limits, any bits, fractions, plain ones.
    pub fn float(&mut self) -> f64 {
        const LIMITS: [f64; 14] = [
            0.0,
            -0.0,
            1.0,
            -1.0,
            0.5,
            f64::NAN,
            f64::INFINITY,
            -f64::INFINITY,
            2251799813685248.0,
            4503599627370496.0,
            9007199254740992.0,
            18446744073709551616.0,
            18446744073709549568.0,
            -0.99,
        ];
        match self.below(6) {
            0 => LIMITS[self.below(14) as usize],
            1 => f64::from_bits(self.next()),
            2 => self.below(1 << 53) as f64 / 4.0,
            _ => self.unit() * 4.0 - 1.0,
        }
    }
    pub fn shuffle<T>(&mut self, v: &mut [T]) {
        for i in (1..v.len()).rev() {
            v.swap(i, self.below(i as u64 + 1) as usize);
        }
    }
}

#[derive(Clone)]
pub struct Table {
    pub number: u64,
    pub level: u64,
    pub size: u64,
    pub first: Vec<u8>,
    pub last: Vec<u8>,
}

const SPACE: u64 = 100_000_000;

/// Eight digits that say the place, and up to eight more: 8 to 16 bytes.
fn key(d: &mut Dice, x: u64) -> Vec<u8> {
    let mut k = format!("{:08}", x.min(SPACE - 1)).into_bytes();
    for _ in 0..d.below(9) {
        k.push(b'0' + d.below(10) as u8);
    }
    k
}

/// `count` tables of a level whose ranges do not meet: cells of uneven width, each filled by 20 to 95 hundredths.
fn level(d: &mut Dice, out: &mut Vec<Table>, level: u64, count: u64) {
    let cell = SPACE / count.max(1);
    let mut cuts: Vec<u64> = (0..=count).map(|i| (i * cell + if i > 0 && i < count { d.below(cell) * 8 / 10 } else { 0 }).min(SPACE)).collect();
    cuts.sort();
    for w in cuts.windows(2) {
        let wide = (w[1] - w[0]).max(4);
        let fill = wide * (20 + d.below(76)) / 100;
        let lo = w[0] + d.below((wide - fill).max(1));
        let hi = lo + fill.max(1) - 1;
        let (mut first, mut last) = (key(d, lo), key(d, hi));
        if last < first {
            std::mem::swap(&mut first, &mut last);
        }
        out.push(Table { number: 0, level, size: (1 + d.below(64)) << 20, first, last });
    }
}

/// Four levels, each about twice the one above, in random order.
pub fn four_levels(n: u64, seed: u64) -> Vec<Table> {
    let mut d = Dice::new(seed);
    let l0 = (n / 64).max(4);
    let rest = n - l0;
    let (l1, l2) = ((rest / 7).max(1), (rest * 2 / 7).max(1));
    let mut out = vec![];
    for _ in 0..l0 {
        let lo = d.below(SPACE / 2);
        let hi = lo + d.below(SPACE / 4);
        out.push(Table { number: 0, level: 0, size: (1 + d.below(64)) << 20, first: key(&mut d, lo), last: key(&mut d, hi + 1) });
    }
    level(&mut d, &mut out, 1, l1);
    level(&mut d, &mut out, 2, l2);
    level(&mut d, &mut out, 3, rest - l1 - l2);
    numbered(&mut d, out)
}

/// Few or no tables, with short keys of few letters, so that keys and sizes come twice and ranges meet; numbers with gaps, in random order.
pub fn odd_tables(d: &mut Dice) -> Vec<Table> {
    let (n, letters, longest, levels) = (d.below(40), 1 + d.below(3), 1 + d.below(4), 1 + d.below(4));
    let gap = 1 + d.below(4);
    let mut numbers: Vec<u64> = (0..n).map(|i| i * gap + d.below(gap)).collect();
    d.shuffle(&mut numbers);
    numbers
        .into_iter()
        .map(|number| {
            let mut ends = [0, 1].map(|_| (0..d.below(longest + 1)).map(|_| b'a' + d.below(letters) as u8).collect::<Vec<u8>>());
            ends.sort();
            let [first, last] = ends;
            Table { number, level: d.below(levels), size: d.below(4) << d.below(20), first, last }
        })
        .collect()
}

/// Two levels of as many tables, in random order.
pub fn two_levels(each: u64) -> Vec<Table> {
    let mut out = one_level(each, 5, 0, 1);
    let mut below = one_level(each, 6, 0, 2);
    for t in below.iter_mut() {
        t.number += 5000;
    }
    out.append(&mut below);
    Dice::new(9).shuffle(&mut out);
    out
}

fn numbered(d: &mut Dice, mut out: Vec<Table>) -> Vec<Table> {
    let mut numbers: Vec<u64> = (0..out.len() as u64).map(|i| 1000 + i).collect();
    d.shuffle(&mut numbers);
    d.shuffle(&mut out);
    for (t, n) in out.iter_mut().zip(numbers) {
        t.number = n;
    }
    out
}

/// One level, in random order (0), sorted (1) or the other way (2).
pub fn one_level(n: u64, seed: u64, how: u8, of: u64) -> Vec<Table> {
    let mut d = Dice::new(seed);
    let mut out = vec![];
    level(&mut d, &mut out, of, n);
    let mut out = numbered(&mut d, out);
    if how > 0 {
        out.sort_by(|a, b| a.first.cmp(&b.first));
    }
    if how == 2 {
        out.reverse();
    }
    out
}

/// All in L0 but one, which stands in level 1, so that the range of L0's keys is needed.
pub fn l0_but_one(n: u64) -> Vec<Table> {
    let mut out = one_level(n, 3, 0, 0);
    out[0].level = 1;
    out
}

pub fn words(tables: &[Table]) -> (Vec<u64>, Vec<u8>) {
    let (mut w, mut k) = (vec![], vec![]);
    for t in tables {
        w.extend([t.number, t.level, t.size, k.len() as u64, t.first.len() as u64]);
        k.extend(&t.first);
        w.extend([k.len() as u64, t.last.len() as u64]);
        k.extend(&t.last);
    }
    (w, k)
}

/// Six words to an observation: clock, L0 count, trigger, ratio bits, probe bits, backlog; calm, burst, quiet, reads.
pub fn samples(n: usize, seed: u64) -> Vec<u64> {
    let mut d = Dice::new(seed);
    let mut out = vec![];
    for i in 0..n {
        let phase = i / 15 % 4;
        let count = if phase == 1 { 6 + d.below(7) } else { d.below(4) };
        let ratio = if phase == 1 { 1.0 + d.unit() * 3.0 } else { d.unit() * 1.4 };
        let probes = if phase == 3 { 1.5 + d.unit() * 3.0 } else { d.unit() * 1.2 };
        out.extend([1_000_000 * (i as u64 + 1) + d.below(1000), count, 12, ratio.to_bits(), probes.to_bits(), d.below(4)]);
    }
    out
}

pub fn text(samples: &[u64]) -> Vec<u8> {
    samples.chunks_exact(6).map(|s| format!("{},{},{},{:016x},{:016x},{}\n", s[0], s[1], s[2], s[3], s[4], s[5])).collect::<String>().into_bytes()
}
