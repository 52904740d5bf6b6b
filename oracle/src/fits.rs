//! The rules of the log as a FITS table and as text, written a second time: the words of request (i), and what the FITS Standard 4.0 says of cards, blocks and cells.

use crate::decisions::{CAPACITY, FLOATS, LOG_WORDS, Log};
use crate::replay::{decimal, hex, lines};

/// "Columns are SEQ, P_L0, .."
const COLUMNS: [&str; 14] = ["SEQ", "P_L0", "P_DEBT", "P_READ", "DOMINANT", "TIER", "CONSIDER", "KIND", "LEVEL", "BATCH", "BYTES", "R_L0", "R_DEBT", "R_READ"];

/// "2,880-byte blocks"
const BLOCK: usize = 2880;

/// "the standard's TZERO of 9223372036854775808"
const TZERO: u64 = 9_223_372_036_854_775_808;

/// A row has a cell of eight bytes for each of its 14 words.
const ROW: usize = 112;

// ---- cards

/// A card has 80 bytes: the keyword in the first eight, `= `, then the value; "no comments".
fn card(keyword: &str, value: &str) -> String {
    let told = format!("{keyword:<8}= {value}");
    format!("{told:<80}")
}

/// "fixed format": a logical or a whole number ends in byte 30.
fn right(keyword: &str, value: impl ToString) -> String {
    card(keyword, &format!("{:>20}", value.to_string()))
}

/// A string begins with its quote in byte 11; "strings are padded with spaces to eight characters".
fn string(keyword: &str, value: &str) -> String {
    card(keyword, &format!("'{value:<8}'"))
}

/// Behind the last card stands END, and "Pad header blocks with spaces".
fn header(cards: Vec<String>) -> Vec<u8> {
    padded(format!("{}{:<80}", cards.concat(), "END").into_bytes(), b' ')
}

fn padded(mut bytes: Vec<u8>, with: u8) -> Vec<u8> {
    bytes.resize(bytes.len().div_ceil(BLOCK) * BLOCK, with);
    bytes
}

/// "an empty primary header (BITPIX 8) .. the mandatory cards in the standard's order, EXTEND in the first"
fn primary() -> Vec<u8> {
    header(vec![right("SIMPLE", "T"), right("BITPIX", 8), right("NAXIS", 0), right("EXTEND", "T")])
}

/// "then a BINTABLE header": the mandatory cards, "then TTYPE, TFORM and any TZERO column by column"
fn table(rows: u64) -> Vec<u8> {
    let mut cards = vec![string("XTENSION", "BINTABLE"), right("BITPIX", 8), right("NAXIS", 2), right("NAXIS1", ROW), right("NAXIS2", rows)];
    cards.extend([right("PCOUNT", 0), right("GCOUNT", 1), right("TFIELDS", COLUMNS.len())]);
    for (k, name) in COLUMNS.iter().enumerate() {
        cards.extend(column(k, name));
    }
    header(cards)
}

/// "TFORM is 1D or 1K": "Floats are D columns; unsigned words are K columns", which alone have a TZERO.
fn column(k: usize, name: &str) -> Vec<String> {
    let (kind, form, zero) = (format!("TTYPE{}", k + 1), format!("TFORM{}", k + 1), format!("TZERO{}", k + 1));
    if FLOATS.contains(&k) { vec![string(&kind, name), string(&form, "1D")] } else { vec![string(&kind, name), string(&form, "1K"), right(&zero, TZERO)] }
}

// ---- the table

/// "big-endian rows": a float's bits are its own; an unsigned word is TZERO and the signed number that the cell holds.
fn cell(k: usize, word: u64) -> [u8; 8] {
    if FLOATS.contains(&k) { word.to_be_bytes() } else { (word as i128 - TZERO as i128).try_into().map(i64::to_be_bytes).expect("64 bits") }
}

/// "one column per decision word, oldest first"; "No decisions means no data block"; "data blocks with zeros"
fn file(log: &Log, words: &[u64]) -> Vec<u8> {
    let mut rows = vec![];
    for k in 0..log.count {
        let from = 14 * log.kept_place(k) as usize;
        rows.extend(words[from..from + 14].iter().enumerate().flat_map(|(k, w)| cell(k, *w)));
    }
    [primary(), table(log.count), padded(rows, 0)].concat()
}

/// How long a sound log's table is: one block of the first header, two of the second, and those that the rows begin.
pub fn length(log: &Log, words: usize) -> (u64, u64) {
    if log.bad(words) { (10, 0) } else { (0, size(log.count)) }
}

pub fn size(rows: u64) -> u64 {
    (3 * BLOCK + (ROW * rows as usize).div_ceil(BLOCK) * BLOCK) as u64
}

/// "Refusals: 10 first, then 9."
pub fn write(log: &Log, words: &[u64], out: &mut [u8]) -> (u64, u64) {
    if log.bad(words.len()) { (10, 0) } else { put(&file(log, words), out) }
}

/// 9 when the room is too short, with nothing written; what stands behind is left alone.
fn put(said: &[u8], out: &mut [u8]) -> (u64, u64) {
    if out.len() < said.len() {
        return (9, 0);
    }
    out[..said.len()].copy_from_slice(said);
    (0, said.len() as u64)
}

// ---- the log's text

/// The most bytes that 4,096 good lines have: eight numbers of 20 digits, six of 16 hex digits, 13 commas and CRLF in each.
pub const MOST: usize = 4096 * (8 * 20 + 6 * 16 + 13 + 2);

/// A line is the 14 words of a decision, parted by commas, floats by their bits. Whether they are a decision isn't asked.
fn row(line: &[u8]) -> Option<Vec<u64>> {
    let fields: Vec<&[u8]> = line.split(|b| *b == b',').collect();
    let read = |(k, f): (usize, &&[u8])| if FLOATS.contains(&k) { hex(f) } else { decimal(f) };
    if fields.len() == 14 { fields.iter().enumerate().map(read).collect() } else { None }
}

/// More bytes than that, or more than 4,096 lines.
fn too_long(text: &[u8]) -> bool {
    text.len() > MOST || lines(text).len() > CAPACITY as usize
}

/// The log from place 0 on, its sequence the last line's: refusal, first, count, sequence. 10 for the words, then 4 for too much text, then 5 for any bad line.
pub fn read(text: &[u8], words: &mut [u64]) -> (u64, Log) {
    let refused = |refusal| (refusal, Log { first: 0, count: 0, sequence: 0 });
    if words.len() != LOG_WORDS {
        return refused(10);
    }
    if too_long(text) {
        return refused(4);
    }
    let Some(rows) = lines(text).into_iter().map(row).collect::<Option<Vec<_>>>() else { return refused(5) };
    let all = rows.concat();
    words[..all.len()].copy_from_slice(&all);
    (0, Log { first: 0, count: rows.len() as u64, sequence: rows.last().map_or(0, |r| r[0]) })
}

/// The report: line 0 with refusal 4 for too much text, else every bad line by its number, from 1, with refusal 5.
pub fn report(text: &[u8]) -> Vec<u8> {
    if too_long(text) {
        return b"0,4\n".to_vec();
    }
    let bad = lines(text).into_iter().zip(1..).filter(|(line, _)| row(line).is_none());
    bad.map(|(_, number)| format!("{number},5\n")).collect::<String>().into_bytes()
}

pub fn refused_lines(text: &[u8], out: &mut [u8]) -> (u64, u64) {
    put(&report(text), out)
}
