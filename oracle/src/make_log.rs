//! Questions about the log as a table and as text: around every limit, with rooms around the exact length and lines that are damaged.

use crate::ask;
use crate::decisions::{FLOATS, LOG_WORDS};
use crate::fits;
use crate::numbers::Dice;
use crate::question::Question;

/// The calls of the log's table and text. They stand apart from the others, so that the frozen rows stay as the dice gave them.
pub const LOG_CALLS: [&str; 5] = ["fits_length", "write_fits", "read_log", "refused_lines", "log_filled"];

/// Words at the ends of what a column holds: unsigned ones about 2^63, floats of every kind, signalling and quiet NaNs among them.
pub const ENDS: [u64; 18] = [
    0, 1, (1 << 63) - 1, 1 << 63, (1 << 63) + 1, u64::MAX - 1, u64::MAX, 0x0102030405060708, 0x000fffffffffffff, 0x3ff0000000000000, 0x7fefffffffffffff, 0x7ff0000000000000,
    0x7ff0000000000001, 0x7ff7ffffffffffff, 0x7ff8000000000000, 0x7ff8000000000001, 0xfff0000000000000, 0xfff0000000000001,
];

/// The shortest good line.
pub const SHORTEST: &[u8] = b"0,0000000000000000,0000000000000000,0000000000000000,0,0,0,0,0,0,0,0000000000000000,0000000000000000,0000000000000000\n";

pub fn as_words(bytes: &[u8]) -> Vec<u64> {
    bytes.iter().map(|b| *b as u64).collect()
}

/// A line of words, without its end.
pub fn line_of(words: &[u64]) -> Vec<u8> {
    let field = |(k, w): (usize, &u64)| if FLOATS.contains(&k) { format!("{w:016x}") } else { w.to_string() };
    words.iter().enumerate().map(field).collect::<Vec<_>>().join(",").into_bytes()
}

impl Dice {
    // ---- logs

    /// FIRST: any place, the last ones, one that wraps soon, now and then none.
    fn first(&mut self) -> u64 {
        match self.below(5) {
            0 => 4090 + self.below(8),
            1 => self.below(3),
            2 if self.one_in(6) => self.number(),
            _ => self.below(4096),
        }
    }

    /// COUNT: few rows as a rule, now and then about the end of a block, 4,096 or none.
    fn row_count(&mut self) -> u64 {
        match self.below(40) {
            0 => 4095 + self.below(3),
            1 => 178 + self.below(5),
            2 => self.number(),
            3 => self.below(4097),
            _ => self.below(41),
        }
    }

    fn log_room(&mut self) -> u64 {
        match self.below(16) {
            0 | 1 => LOG_WORDS as u64 - 1 + self.below(3),
            2 => self.below(30),
            _ => LOG_WORDS as u64,
        }
    }

    /// A decision, or 14 words that are none as a rule.
    fn row(&mut self) -> Vec<u64> {
        match self.below(3) {
            0 => self.decision(),
            1 => (0..14).map(|_| self.number()).collect(),
            _ => (0..14).map(|_| self.pick(&ENDS)).collect(),
        }
    }

    /// Words to lay over the seed's: as a rule those of the first rows, now and then elsewhere.
    fn laid(&mut self, first: u64, count: u64) -> (u64, Vec<u64>) {
        let rows = if self.one_in(6) { count.min(40) } else { self.below(4) };
        let mut words: Vec<u64> = (0..rows).flat_map(|_| self.row()).collect();
        if self.one_in(8) {
            words.truncate(self.below(20) as usize);
        }
        match self.below(8) {
            0 => (0, words),
            1 => (self.number(), words),
            2 => (LOG_WORDS as u64 - self.below(30), words),
            _ => (first.saturating_mul(14), words),
        }
    }

    /// Room for a table of so many bytes: exact, a byte or so off, for the rows alone, or any.
    fn table_room(&mut self, count: u64) -> u64 {
        let exact = fits::size(count.min(4096));
        let room = match self.below(12) {
            0 => exact - 1,
            1 => exact + 1,
            2 => exact + self.below(3000),
            3 => 8640 + 112 * count.min(4096),
            4 => self.below(exact),
            5 => self.pick(&[0, 80, 2880, 5760, 8639, 8640]),
            _ => exact,
        };
        room.min(469_441)
    }

    /// The bytes that are told, from and up to: about the headers' numbers, the rows, the end, now and then nothing.
    fn shown(&mut self, count: u64, room: u64) -> (u64, u64) {
        let from = match self.below(8) {
            0 => self.below(8640),
            1 => 3200,
            2 => room.saturating_sub(self.below(200)),
            3 => 8640 + 112 * self.below(count.clamp(1, 4096)),
            4 => 8640 + 112 * count.min(4096) - self.below(200),
            5 => self.number(),
            _ => 8640,
        };
        (from, if self.one_in(20) { from.min(1000) } else { from.saturating_add(self.below(400)) })
    }

    fn written_table(&mut self) -> Question {
        let (first, count, sequence, length, seed) = (self.first(), self.row_count(), self.number(), self.log_room(), self.next());
        let (at, words) = self.laid(first, count);
        let (room, fill) = (self.table_room(count), self.below(256));
        let (from, end) = self.shown(count, room);
        ask!("write_fits", first, count, sequence, length, seed, at, words, room, fill, from, end)
    }

    // ---- texts

    /// A line, spoilt: a field gone, one more, one of another kind, or a byte of it.
    fn spoilt_line(&mut self) -> Vec<u8> {
        let mut line = line_of(&self.row());
        let mut fields: Vec<Vec<u8>> = line.split(|b| *b == b',').map(<[u8]>::to_vec).collect();
        let k = self.below(14) as usize;
        let i = self.below(line.len() as u64) as usize;
        match self.below(10) {
            0 => {
                fields.remove(k);
            }
            1 => fields.insert(k, self.pick(&[&b"0"[..], b"", b"0000000000000000"]).to_vec()),
            2 => fields[k].clear(),
            3..=5 => {
                let hex = FLOATS.contains(&k) != self.one_in(8);
                fields[k] = self.digits(hex).iter().map(|b| *b as u8).collect();
            }
            6 => {
                line[i] = self.pick(b"0,\r \"+fFgG9/:@`\xff\x00");
                return line;
            }
            7 => {
                line.insert(i, self.pick(b"0,\r -9f"));
                return line;
            }
            8 => {
                line.remove(i);
                return line;
            }
            _ => return self.pick(&[&b""[..], b",", b"x", b",,,,,,,,,,,,,"]).to_vec(),
        }
        fields.join(&b',')
    }

    /// Up to six lines, all good or some spoilt, with ends of every kind, the last one often missing.
    fn log_text(&mut self) -> Vec<u8> {
        let spoilt = self.one_in(2);
        let mut out = vec![];
        for _ in 0..self.below(7) {
            let line = if spoilt && self.one_in(3) { self.spoilt_line() } else { line_of(&self.row()) };
            out.extend(if self.one_in(8) { line.to_ascii_uppercase() } else { line });
            out.extend_from_slice(match self.below(24) {
                0 if spoilt => b"\r\r\n",
                1 if spoilt => b"\n\r",
                2 if spoilt => b"\n\n",
                3..=8 => b"\r\n",
                _ => b"\n",
            });
        }
        let cut = if self.one_in(3) { 1 + self.below(2) as usize } else { 0 };
        out.truncate(out.len().saturating_sub(cut));
        out
    }

    /// Such a text, or lines about as many as may be.
    fn text_or_long(&mut self) -> Vec<u8> {
        if !self.one_in(60) {
            return self.log_text();
        }
        let mut out = self.pick(&[&b"\n"[..], b"\r\n", b"x\n"]).repeat(4094 + self.below(5) as usize);
        out.extend_from_slice(self.pick(&[&b""[..], b"\r", b"x"]));
        out
    }

    /// A text that is repeated: a short way as a rule, now and then up to about 4,096 lines or the most bytes.
    fn filled_text(&mut self) -> Question {
        let text = match self.below(4) {
            0 => SHORTEST.to_vec(),
            1 => self.pick(&[&b"0"[..], b"\n", b"\r\n", b"x\n"]).to_vec(),
            _ => self.log_text(),
        };
        let lines = text.iter().filter(|b| **b == b'\n').count().max(1);
        let near = match self.below(12) {
            0 => fits::MOST,
            1 | 2 => text.len() * 4096 / lines,
            _ => text.len() * self.below(10) as usize,
        };
        let length = (near as u64 + self.below(5)).saturating_sub(2);
        ask!("log_filled", as_words(&text), if text.is_empty() { 0 } else { length.min(fits::MOST as u64 + 1) })
    }

    /// One question to a call of LOG_CALLS.
    pub fn log_question(&mut self, call: &'static str) -> Question {
        match call {
            "fits_length" => {
                let count = if self.one_in(2) { self.below(4097) } else { self.row_count() };
                ask!(call, self.first(), count, self.number(), self.log_room(), self.next())
            }
            "write_fits" => self.written_table(),
            "read_log" => ask!(call, as_words(&self.text_or_long()), self.log_room(), self.next()),
            "refused_lines" => {
                let text = self.text_or_long();
                let room: Vec<u64> = self.room(fits::report(&text).len()).iter().map(|w| w % 256).collect();
                ask!(call, as_words(&text), room)
            }
            "log_filled" => self.filled_text(),
            _ => panic!("no questions for {call}"),
        }
    }
}
