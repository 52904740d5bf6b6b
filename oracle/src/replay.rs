//! 01's rules of `replay`, written a second time.

use crate::numbers::float;
use crate::state::{Sample, State, dominant, pause};

/// "decimal digits, no leading zero but in 0 itself, below 2^64"
pub fn decimal(text: &[u8]) -> Option<u64> {
    let good = text.iter().all(u8::is_ascii_digit) && (text == b"0" || !text.starts_with(b"0"));
    if good { std::str::from_utf8(text).ok()?.parse().ok() } else { None }
}

/// "16 hex digits of either case"
pub fn hex(text: &[u8]) -> Option<u64> {
    let good = text.len() == 16 && text.iter().all(u8::is_ascii_hexdigit);
    if good { u64::from_str_radix(std::str::from_utf8(text).ok()?, 16).ok() } else { None }
}

/// "clock, L0 count, trigger, ratio bits, probe bits .., backlog"
fn observation(line: &[u8]) -> Option<(u64, Sample)> {
    let f: Vec<&[u8]> = line.split(|b| *b == b',').collect();
    let [clock, count, trigger, ratio, probes, backlog] = f[..] else { return None };
    let sample = Sample { count: decimal(count)?, trigger: decimal(trigger)?, ratio: float(hex(ratio)?), probes: float(hex(probes)?), backlog: decimal(backlog)? };
    Some((decimal(clock)?, sample))
}

/// "lines .., ended by LF or CRLF, the last end optional"
pub fn lines(text: &[u8]) -> Vec<&[u8]> {
    let mut lines: Vec<&[u8]> = text.split(|b| *b == b'\n').collect();
    let last = lines.pop().unwrap_or_default();
    let mut lines: Vec<&[u8]> = lines.into_iter().map(|l| l.strip_suffix(b"\r").unwrap_or(l)).collect();
    if !last.is_empty() {
        lines.push(last);
    }
    lines
}

/// "at most 65,536 bytes (given more, it prints nothing)"
pub fn run(text: &[u8]) -> Vec<u8> {
    if text.len() > 65_536 {
        return vec![];
    }
    let (mut state, mut out) = (State::fresh(0), String::new());
    for (i, line) in lines(text).into_iter().enumerate() {
        // "Any other line counts as refusal 5; a refused line prints the old state."
        let refusal = match observation(line) {
            Some((clock, sample)) => state.observe(clock, &sample),
            None => 5,
        };
        let delay = pause(state.mode as u64, state.pressure);
        out += &format!("{},{refusal},{},{},{delay}\n", i + 1, state.mode, dominant(state.vector));
    }
    out.into_bytes()
}

/// The call over lent slices: 9 when the output is too short, with nothing written.
pub fn replay(text: &[u8], out: &mut [u8]) -> (u64, u64) {
    let said = run(text);
    if out.len() < said.len() {
        return (9, 0);
    }
    out[..said.len()].copy_from_slice(&said);
    (0, said.len() as u64)
}
