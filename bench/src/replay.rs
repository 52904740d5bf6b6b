//! `replay` in plain Rust over the original, which has none.
use crate::clock::NOW;
use crate::clocked as rust;
use crate::data::{self, Dice};
use crate::port::*;
use crate::rows::{Bench, same};
use std::hint::black_box;
use std::io::Write;
use std::sync::atomic::Ordering::Relaxed;

fn decimal(text: &[u8]) -> Option<u64> {
    if !text.iter().all(u8::is_ascii_digit) || (text.len() > 1 && text[0] == b'0') {
        return None;
    }
    std::str::from_utf8(text).ok()?.parse().ok()
}

fn hex(text: &[u8]) -> Option<u64> {
    if text.len() != 16 || !text.iter().all(u8::is_ascii_hexdigit) {
        return None;
    }
    u64::from_str_radix(std::str::from_utf8(text).ok()?, 16).ok()
}

fn observation(line: &[u8]) -> Option<(u64, rust::PressureSample)> {
    let mut f = line.split(|b| *b == b',');
    let mut field = || f.next();
    let (clock, count, trigger) = (decimal(field()?)?, decimal(field()?)?, decimal(field()?)?);
    let (ratio, probes, backlog) = (hex(field()?)?, hex(field()?)?, decimal(field()?)?);
    if field().is_some() {
        return None;
    }
    let sample = rust::PressureSample {
        l0_count: count as usize,
        l0_write_stall_trigger: trigger as usize,
        max_level_debt_ratio: f64::from_bits(ratio),
        tables_probed_per_get: f64::from_bits(probes),
        backlog_levels: backlog as usize,
    };
    Some((clock, sample))
}

pub fn replay(text: &[u8], out: &mut Vec<u8>) {
    out.clear();
    if text.len() > 65_536 {
        return;
    }
    NOW.store(0, Relaxed);
    let mut g = rust::GovernorState::new();
    const MOST: usize = 1 << 53;
    for (i, line) in text.split_inclusive(|b| *b == b'\n').enumerate() {
        let line = match line.strip_suffix(b"\n") {
            Some(l) => l.strip_suffix(b"\r").unwrap_or(l),
            None => line,
        };
        let refusal = match observation(line) {
            None => 5,
            Some((_, s)) if s.l0_count > MOST || s.l0_write_stall_trigger > MOST || s.backlog_levels > MOST => 2,
            Some((clock, s)) => {
                NOW.store(clock, Relaxed);
                g.observe(s);
                0
            }
        };
        let delay = rust::pacing_delay(g.mode(), g.pressure()).as_nanos() as u64;
        let _ = writeln!(out, "{},{},{},{},{}", i + 1, refusal, g.mode() as u8, g.pressure_vector().dominant() as u8, delay);
    }
}

/// A text of observations with a few bytes changed, taken out or put in.
fn damaged(d: &mut Dice) -> Vec<u8> {
    let mut text = data::text(&data::samples(d.below(12) as usize, d.next()));
    for _ in 0..d.below(4).min(text.len() as u64) {
        let at = d.below(text.len() as u64) as usize;
        match d.below(3) {
            0 => text[at] = b",\r\n0aFg-"[d.below(8) as usize],
            1 => _ = text.remove(at),
            _ => text.insert(at, b"\r\n,0"[d.below(4) as usize]),
        }
    }
    text
}

pub fn run(b: &mut Bench) {
    let mut d = Dice::new(71);
    let (mut room, mut length, mut out) = (vec![0u8; 1_179_648], [0usize], Vec::with_capacity(1 << 20));
    let mut compared = |text: &[u8]| {
        same("replay, the refusal", &[port_replay(&lent(text), &lent_mut(&mut room), &lent_mut(&mut length))], &[0]);
        replay(text, &mut out);
        same("replay", &room[..length[0].min(1_179_648)], &out);
    };
    (0..2000).for_each(|_| compared(&damaged(&mut d)));
    for n in [9usize, 90, 900] {
        let text = data::text(&data::samples(n, 21));
        compared(&text);
        let (mut room, mut length, mut out) = (vec![0u8; 1_179_648], [0usize], Vec::with_capacity(1 << 20));
        b.row("replay, a line", n as u64, n, &mut || _ = port_replay(&lent(&text), &lent_mut(&mut room), &lent_mut(&mut length)), &mut || {
            replay(black_box(&text), &mut out)
        });
    }
}
