#!/usr/bin/env python3
"""The log as a FITS table, written a second time from docs/SCOPE.md, section 11, and the FITS standard 4.0, to work out what the calls must give.

  scripts/fits_model.py <log.csv >log.fits

The text has one decision a line. If any line is bad, or there is too much, the report goes to standard error, no table is written, and the status is 1.
scripts/parts/fits.py has the inputs of the frozen rows.
"""
import re
import sys

PLACES, WIDTH, BLOCK = 4096, 14, 2880
WORDS = PLACES * WIDTH
TOO_MANY, BAD_RECORD, NO_ROOM, BAD_LOG = 4, 5, 9, 10

COLUMNS = ["SEQ", "P_L0", "P_DEBT", "P_READ", "DOMINANT", "TIER", "CONSIDER", "KIND", "LEVEL", "BATCH", "BYTES", "R_L0", "R_DEBT", "R_READ"]
FLOATS = {1, 2, 3, 11, 12, 13}
MOST = PLACES * 271  # bytes of text: the longest line has 8 * 20 digits, 6 * 16 hex digits, 13 commas and CRLF

DECIMAL = rb"(0|[1-9][0-9]{0,19})"
BITS = rb"([0-9A-Fa-f]{16})"
LINE = re.compile(b",".join(BITS if k in FLOATS else DECIMAL for k in range(WIDTH)))


# The file

def card(keyword, value):
    """A card of fixed format: a string begins in byte 11, all else ends in byte 30."""
    shown = f"'{value:8}'" if isinstance(value, str) else f"{'T' if value is True else value:>20}"
    return f"{keyword:8}= {shown}".ljust(80)


def filled(data, byte):
    return data + byte * (-len(data) % BLOCK)


def header(pairs):
    return filled("".join(card(*pair) for pair in pairs).encode() + b"END".ljust(80), b" ")


def first_header():
    return header([("SIMPLE", True), ("BITPIX", 8), ("NAXIS", 0), ("EXTEND", True)])


def table_header(count):
    pairs = [("XTENSION", "BINTABLE"), ("BITPIX", 8), ("NAXIS", 2), ("NAXIS1", 8 * WIDTH), ("NAXIS2", count), ("PCOUNT", 0), ("GCOUNT", 1), ("TFIELDS", WIDTH)]
    for k, name in enumerate(COLUMNS):
        pairs += [(f"TTYPE{k + 1}", name), (f"TFORM{k + 1}", "1D" if k in FLOATS else "1K")]
        if k not in FLOATS:
            pairs.append((f"TZERO{k + 1}", 2**63))
    return header(pairs)


def row_bytes(row):
    """A float's bits are its own; an unsigned word is stored less TZERO, in two's complement."""
    return b"".join((word if k in FLOATS else (word - 2**63) % 2**64).to_bytes(8, "big") for k, word in enumerate(row))


def fits_file(rows):
    return first_header() + table_header(len(rows)) + filled(b"".join(map(row_bytes, rows)), b"\0")


# The text

def lines_of(text):
    *ended, last = text.split(b"\n")
    lines = [line[:-1] if line.endswith(b"\r") else line for line in ended]
    return lines + [last] if last else lines


def row_of(line):
    """The line's 14 words, or None."""
    fields = LINE.fullmatch(line)
    row = fields and [int(digits, 16 if k in FLOATS else 10) for k, digits in enumerate(fields.groups())]
    return row if row and max(row) < 2**64 else None


def too_long(text):
    return len(text) > MOST or len(lines_of(text)) > PLACES


def report(text):
    if too_long(text):
        return b"0,%d\n" % TOO_MANY
    return b"".join(b"%d,%d\n" % (number, BAD_RECORD) for number, line in enumerate(lines_of(text), 1) if row_of(line) is None)


# The calls: `words` is a list and `out` a bytearray; both change only if the refusal is 0

def bad_log(first, count, words):
    return len(words) != WORDS or first >= PLACES or count > PLACES


def kept(first, count, words):
    """The kept decisions, oldest first."""
    places = [(first + k) % PLACES for k in range(count)]
    return [words[WIDTH * place:WIDTH * (place + 1)] for place in places]


def fits_length(first, count, sequence, words):
    """The refusal and the length."""
    if bad_log(first, count, words):
        return BAD_LOG, 0
    return 0, 3 * BLOCK + -(-count * 8 * WIDTH // BLOCK) * BLOCK


def write_fits(first, count, sequence, words, out):
    """The refusal and the length."""
    if bad_log(first, count, words):
        return BAD_LOG, 0
    return put(fits_file(kept(first, count, words)), out)


def read_log(text, words):
    """The refusal, and the log's FIRST, COUNT and SEQUENCE."""
    if len(words) != WORDS:
        return BAD_LOG, 0, 0, 0
    if too_long(text):
        return TOO_MANY, 0, 0, 0
    rows = [row_of(line) for line in lines_of(text)]
    if None in rows:
        return BAD_RECORD, 0, 0, 0
    words[:WIDTH * len(rows)] = [word for row in rows for word in row]
    return 0, 0, len(rows), rows[-1][0] if rows else 0


def refused_lines(text, out):
    """The refusal and the length."""
    return put(report(text), out)


def put(data, out):
    if len(out) < len(data):
        return NO_ROOM, 0
    out[:len(data)] = data
    return 0, len(data)


if __name__ == "__main__":
    text = sys.stdin.buffer.read()
    told = report(text)
    if told:
        sys.stderr.buffer.write(told)
        sys.exit(1)
    sys.stdout.buffer.write(fits_file([row_of(line) for line in lines_of(text)]))
