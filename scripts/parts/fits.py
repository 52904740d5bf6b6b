"""Rows of the log as a FITS table and as text: each case with its name. The answers are worked out by scripts/fits_model.py."""
import os, sys

sys.path.insert(0, os.path.join(os.path.dirname(os.path.abspath(__file__)), ".."))
from fits_model import FLOATS, MOST, WORDS, fits_length, read_log, refused_lines, report, write_fits

TOP = 2**64 - 1
SEED = 11400714819323198485
HEADERS, ROW = 8640, 112
SIZE = [HEADERS + -(-ROW * n // 2880) * 2880 for n in range(4097)]

# ---- the table

# A name and FIRST, COUNT, SEQUENCE, LENGTH.
MEASURED = [(f"{n} rows", 0, n, n, WORDS) for n in (0, 1, 25, 26, 44, 45, 46, 51, 52, 179, 180, 181, 4095, 4096)] + [
    ("the last place", 4095, 1, 7, WORDS),
    ("the last place and none kept", 4095, 0, 7, WORDS),
    ("a log that wraps", 4090, 10, 7, WORDS),
    ("a full log that wraps", 4095, 4096, TOP, WORDS),
    ("the sequence is not looked at", 0, 3, 0, WORDS),
    ("nor the largest", 0, 3, TOP, WORDS),
    ("no words", 0, 0, 0, 0),
    ("one word", 0, 0, 0, 1),
    ("a word too few", 0, 1, 1, WORDS - 1),
    ("a place too few", 0, 1, 1, WORDS - 14),
    ("a word too many", 0, 1, 1, WORDS + 1),
    ("FIRST too large", 4096, 1, 1, WORDS),
    ("the largest FIRST", TOP, 1, 1, WORDS),
    ("FIRST of 2^32", 2**32, 1, 1, WORDS),
    ("COUNT too large", 0, 4097, 1, WORDS),
    ("the largest COUNT", 0, TOP, 1, WORDS),
    ("COUNT of 2^32", 0, 2**32, 1, WORDS),
    ("FIRST and COUNT too large", 4096, 4097, 1, WORDS),
    ("the largest FIRST and COUNT, whose sum is small", TOP, TOP, 1, WORDS),
    ("FIRST too large and a word too few", 4096, 1, 1, WORDS - 1),
    ("COUNT too large and a word too many", 0, 4097, 1, WORDS + 1),
    ("all three", TOP, TOP, TOP, 0),
]

# Patterns of a float: the zeros, subnormals, normals, infinities, and NaNs, signalling and quiet, at the ends of what they can carry.
HALVES = [
    0x0000000000000000, 0x0000000000000001, 0x000FFFFFFFFFFFFF, 0x0010000000000000, 0x3FF0000000000000, 0x7FEFFFFFFFFFFFFF,
    0x7FF0000000000000, 0x7FF0000000000001, 0x7FF7FFFFFFFFFFFF, 0x7FF8000000000000, 0x7FF8000000000001, 0x7FFFFFFFFFFFFFFF,
]
PATTERNS = HALVES + [2**63 + half for half in HALVES]
UNSIGNED = [0, 1, 2**63 - 1, 2**63, 2**63 + 1, TOP - 1, TOP]
COUNTING = [0x0102030405060708 * k % 2**64 for k in range(1, 15)]


def each(words):
    """For each word a row of it."""
    return [word for word in words for _ in range(14)]


# A name, and what is asked where it is not this: an exact room of dots, words of SEED alone, and the bytes shown as PART, from and up to.
USUAL = dict(first=0, count=1, sequence=5, length=WORDS, at=0, words=[], room=None, fill=46, part=(0, 0))
WRITTEN = [
    # whole files
    ("no rows, the whole file", dict(count=0, part=(0, 8640))),
    ("one row, the whole file", dict(part=(0, 11520))),
    # how many rows
    ("25 rows, and the 80 bytes behind them", dict(count=25, part=(SIZE[25] - 192, SIZE[25]))),
    ("26 rows, one of them over the end of a block", dict(count=26, part=(HEADERS + 25 * ROW, HEADERS + 26 * ROW + 8))),
    ("44 rows", dict(count=44, part=(HEADERS + 43 * ROW, HEADERS + 44 * ROW + 8))),
    ("45 rows, how many the header says", dict(count=45, part=(2880 + 320, 2880 + 400))),
    ("45 rows, and what is behind them", dict(count=45, part=(HEADERS + 44 * ROW, SIZE[45]))),
    ("46 rows", dict(count=46, part=(HEADERS + 45 * ROW, HEADERS + 46 * ROW + 8))),
    ("179 rows, and a place behind them", dict(count=179, part=(SIZE[179] - 2 * ROW, SIZE[179]))),
    ("180 rows, which fill their blocks", dict(count=180, part=(SIZE[180] - ROW, SIZE[180]))),
    ("180 rows, how many the header says", dict(count=180, part=(2880 + 320, 2880 + 400))),
    ("181 rows", dict(count=181, part=(SIZE[180], SIZE[180] + ROW + 8))),
    ("4,096 rows, the table's header and the first row", dict(count=4096, part=(2880, HEADERS + ROW))),
    ("4,096 rows, the last and what is behind it", dict(count=4096, part=(HEADERS + 4095 * ROW, SIZE[4096]))),
    # words
    ("2^64 - 1 in all columns", dict(words=each([TOP]), part=(HEADERS, HEADERS + ROW + 8))),
    ("each column another word", dict(words=COUNTING, part=(HEADERS, HEADERS + ROW + 8))),
    ("zeros, subnormals, infinities and NaNs in all columns", dict(count=24, words=each(PATTERNS), part=(HEADERS, HEADERS + 24 * ROW))),
    ("unsigned words about 2^63 and at the ends", dict(count=7, words=each(UNSIGNED), part=(HEADERS, HEADERS + 7 * ROW))),
    ("a decision", dict(words=[9, 1 << 62, 0, 0, 1, 1, 4, 2, 3, 8, 1 << 50, 0, 1 << 62, 0], part=(HEADERS, HEADERS + ROW))),
    ("words of the second place alone", dict(count=2, at=14, words=COUNTING, part=(HEADERS, HEADERS + 2 * ROW))),
    # where the log begins
    ("the place in the middle", dict(first=2048, at=2048 * 14, words=COUNTING, part=(HEADERS, HEADERS + ROW))),
    ("the last place", dict(first=4095, at=4095 * 14, words=COUNTING, part=(HEADERS, HEADERS + ROW))),
    ("up to the last place", dict(first=4086, count=10, part=(HEADERS, HEADERS + 10 * ROW))),
    ("a log that wraps", dict(first=4090, count=10, part=(HEADERS, HEADERS + 10 * ROW))),
    ("the last place and the first", dict(first=4095, count=2, part=(HEADERS, HEADERS + 2 * ROW))),
    ("the last place and none kept", dict(first=4095, count=0, part=(HEADERS - 80, HEADERS))),
    ("a full log that wraps, the first two", dict(first=4095, count=4096, part=(HEADERS, HEADERS + 2 * ROW))),
    ("a full log that wraps, the last two", dict(first=4095, count=4096, part=(HEADERS + 4094 * ROW, HEADERS + 4096 * ROW + 8))),
    ("a full log that wraps at once", dict(first=1, count=4096, part=(HEADERS + 4094 * ROW, HEADERS + 4096 * ROW + 8))),
    ("words laid over the end, as far as they go", dict(first=4095, count=2, at=WORDS - 2, words=[1, 2, 3, 4], part=(HEADERS, HEADERS + 2 * ROW))),
    # the sequence
    ("no sequence", dict(sequence=0, part=(HEADERS, HEADERS + ROW))),
    ("the largest sequence", dict(sequence=TOP, part=(HEADERS, HEADERS + ROW))),
    # the room
    ("a byte too few", dict(room=SIZE[1] - 1, part=(0, 80))),
    ("a byte too few for no rows", dict(count=0, room=8639, part=(8600, 8640))),
    ("a byte more", dict(room=SIZE[1] + 1, part=(SIZE[1] - 80, SIZE[1] + 1))),
    ("a byte more for no rows", dict(count=0, room=8641, part=(8600, 8641))),
    ("a block more", dict(room=SIZE[1] + 2880, part=(SIZE[1] - 80, SIZE[1] + 80))),
    ("180 rows, a byte too few", dict(count=180, room=SIZE[180] - 1, part=(SIZE[180] - 80, SIZE[180]))),
    ("180 rows, a byte more", dict(count=180, room=SIZE[180] + 1, part=(SIZE[180] - 80, SIZE[180] + 80))),
    ("room for the rows but not for what fills the block", dict(room=HEADERS + ROW, part=(0, 80))),
    ("no room", dict(room=0, part=(0, 80))),
    ("no room for no rows", dict(count=0, room=0)),
    ("room for one header", dict(room=2880, part=(0, 80))),
    ("room of zeros", dict(fill=0, room=SIZE[1] + 80, part=(SIZE[1], SIZE[1] + 80))),
    ("room of 255", dict(fill=255, room=SIZE[1] + 80, part=(HEADERS + ROW, SIZE[1] + 80))),
    ("4,096 rows, a byte too few", dict(count=4096, room=469439, part=(469400, 469439))),
    ("4,096 rows, a byte more", dict(count=4096, room=469441, part=(469400, 469441))),
    # refused for the log, the room being enough
    ("a word too few", dict(length=WORDS - 1, room=11520, part=(0, 40))),
    ("a word too many", dict(length=WORDS + 1, room=11520, part=(0, 40))),
    ("no words", dict(count=0, length=0, room=8640, part=(0, 40))),
    ("FIRST too large", dict(first=4096, room=11520, part=(0, 40))),
    ("FIRST too large and none kept", dict(first=4096, count=0, room=8640, part=(0, 40))),
    ("the largest FIRST", dict(first=TOP, room=11520, part=(0, 40))),
    ("COUNT too large", dict(count=4097, room=469441, part=(0, 40))),
    ("the largest COUNT", dict(count=TOP, room=8640, part=(0, 40))),
    ("FIRST and COUNT too large", dict(first=4096, count=4097, room=469441, part=(0, 40))),
    ("FIRST too large and a word too few", dict(first=4096, length=WORDS - 1, room=11520, part=(0, 40))),
    ("COUNT too large and a word too many", dict(count=4097, length=WORDS + 1, room=469441, part=(0, 40))),
    ("FIRST and COUNT the largest, and no words", dict(first=TOP, count=TOP, sequence=TOP, length=0, room=8640, part=(0, 40))),
    # refused for the log, which comes before the room
    ("a word too few and no room", dict(length=WORDS - 1, room=0)),
    ("a word too many and a byte of room too few", dict(length=WORDS + 1, room=11519, part=(0, 40))),
    ("FIRST too large and a byte of room too few", dict(first=4096, room=11519, part=(0, 40))),
    ("COUNT too large and a byte of room too few", dict(count=4097, room=8639, part=(0, 40))),
    ("all three and no room", dict(first=TOP, count=TOP, length=1, room=0)),
]

# ---- the text

FIELDS = [b"7", b"3fe0000000000000", b"3fd0000000000000", b"0000000000000000", b"1", b"2", b"12", b"2", b"3", b"4", b"1048576", b"0000000000000000", b"3ff0000000000000", b"3fb999999999999a"]
DECIMALS = [k for k in range(14) if k not in FLOATS]


def line(*changes):
    """The good line, but with other fields: pairs of a place and what stands there."""
    fields = dict(enumerate(FIELDS))
    fields.update(changes)
    return b",".join(fields.values())


def each_line(places, *fields):
    """For each place and each field the good line with that field there."""
    return b"".join(line((place, field)) + b"\n" for field in fields for place in places)


GOOD = line()
TWO = line((0, b"8"))
LONGEST = b",".join(b"ffffffffffffffff" if k in FLOATS else b"18446744073709551615" for k in range(14))
SHORTEST = b",".join(b"0" * 16 if k in FLOATS else b"0" for k in range(14))

# A name and a text. It is read into a buffer, and its report is asked with four bytes of room more than it takes.
WHOLE = [
    # the ends of lines
    ("empty input", b""),
    ("one line", GOOD + b"\n"),
    ("no last line end", GOOD),
    ("CRLF", GOOD + b"\r\n"),
    ("two lines", GOOD + b"\n" + TWO + b"\n"),
    ("CRLF and LF mixed", GOOD + b"\r\n" + TWO + b"\n" + line((0, b"9")) + b"\r\n"),
    ("CRLF and no last line end", GOOD + b"\r\n" + TWO),
    ("a lone CR", b"\r"),
    ("CR at the end of the input", GOOD + b"\r"),
    ("CR CR LF", GOOD + b"\r\r\n"),
    ("CR within a line", GOOD + b"\r" + TWO + b"\n"),
    ("LF CR", GOOD + b"\n\r" + TWO + b"\n"),
    ("CR within a field", line((0, b"1\r0")) + b"\n"),
    # empty lines
    ("an empty line alone", b"\n"),
    ("an empty line that CRLF ends", b"\r\n"),
    ("an empty line first", b"\n" + GOOD + b"\n"),
    ("an empty line last", GOOD + b"\n\n"),
    ("an empty line between", GOOD + b"\n\n" + TWO + b"\n"),
    # among good lines
    ("bad lines among good ones", b"\n".join([GOOD, b"", TWO, b"x", line((13, b"")), GOOD, TWO, line((4, b"01")), GOOD, b""])),
    ("the first line bad", b"x\n" + GOOD + b"\n" + TWO + b"\n"),
    ("the last line bad and without its end", GOOD + b"\n" + TWO + b"\nx"),
    ("twelve bad lines", b"x\n" * 12),
    # words that are no decision
    ("words that are no decision", line((4, b"4"), (5, b"4"), (7, b"4"), (8, b"4294967296"), (9, b"9")) + b"\n" + line((7, b"0"), (8, b"1"), (9, b"1")) + b"\n"),
    ("the largest words", LONGEST + b"\r\n"),
    ("all zeros", SHORTEST + b"\n"),
    ("sequences that fall and repeat", line((0, b"9")) + b"\n" + line((0, b"9")) + b"\n" + line((0, b"3")) + b"\n"),
    ("the last sequence is zero", GOOD + b"\n" + line((0, b"0")) + b"\n"),
    ("NaN, infinity and the negative zero", line(*[(k, b) for k, b in zip(sorted(FLOATS), (b"7ff8000000000000", b"fff0000000000001", b"7ff0000000000000", b"8000000000000000", b"fff0000000000000", b"ffffffffffffffff"))])),
    # a table's header
    ("the columns' names", b"SEQ,P_L0,P_DEBT,P_READ,DOMINANT,TIER,CONSIDER,KIND,LEVEL,BATCH,BYTES,R_L0,R_DEBT,R_READ\n" + GOOD + b"\n"),
]

# As above, and where there are several lines each is also read alone.
LINES = [
    # fields
    ("13 and 15 fields", (
        GOOD.rpartition(b",")[0] + b"\n"
        + GOOD.partition(b",")[2] + b"\n"
        + GOOD + b",0\n"
        + GOOD + b",0000000000000000\n"
        + GOOD + b",\n"
        + b"," + GOOD + b"\n"
        + b"0," + GOOD + b"\n"
        + line((6, b"1,2")) + b"\n"
    )),
    ("an empty field", each_line(range(14), b"") + b",,,,,,,,,,,,,\n,\n"),
    ("a quote", line((0, b'"7"')) + b"\n" + line((10, b'"0"')) + b"\n" + line((13, b'"0000000000000000"')) + b"\n" + b'"' + GOOD + b'"\n'),
    ("a space", each_line((0, 10), b" 7", b"7 ", b" ") + each_line((1, 13), b" 0000000000000000", b"0000000000000000 ", b" 000000000000000", b"000000000000000 ")),
    ("a tab", line((0, b"\t7")) + b"\n" + GOOD + b"\t\n"),
    ("a sign", each_line((0, 8), b"+7", b"-1", b"-0", b"-") + each_line((2, 11), b"+000000000000000", b"-000000000000000")),
    ("another mark between fields", GOOD.replace(b",", b";") + b"\n" + GOOD.replace(b",", b"\t") + b"\n" + GOOD.replace(b",", b", ") + b"\n"),
    ("bytes above 127 and zero bytes", (
        b"\xff\n"
        + b"\xef\xbb\xbf" + GOOD + b"\n"
        + line((0, b"\xb7")) + b"\n"
        + line((10, b"\xef\xbc\x97")) + b"\n"
        + line((1, b"000000000000000\xb0")) + b"\n"
        + line((13, b"000000000000000\x00")) + b"\n"
        + GOOD + b"\x00\n"
        + b"\x00" + GOOD + b"\n"
        + b"\x00\n"
    )),
    # hex digits
    ("15 and 17 hex digits", each_line(sorted(FLOATS), b"0" * 15, b"0" * 17)),
    ("no hex digit", each_line((1, 13), *(b"000000000000000" + bytes([byte]) for byte in b"gG/:@`")) + each_line((3, 11), b"0x00000000000000", b"g000000000000000", b"0000000g00000000")),
    ("a float as a decimal", each_line((1, 12), b"0", b"0.5", b"1")),
    ("hex digits of either case", line((1, b"3ffabcdef0123456"), (2, b"3FFABCDEF0123456"), (3, b"3fFAbCdeF0123456"), (11, b"0123456789abcdef"), (12, b"0123456789ABCDEF"), (13, b"fFfFfFfFfFfFfFfF")) + b"\n"),
    # decimals
    ("2^64 - 1", each_line(DECIMALS, b"18446744073709551615")),
    ("2^64", each_line(DECIMALS, b"18446744073709551616")),
    ("more than 2^64", each_line((0, 9), b"18446744073709551620", b"20000000000000000000", b"99999999999999999999", b"184467440737095516150", b"100000000000000000000", b"36893488147419103232", b"340282366920938463463374607431768211456")),
    ("2^63 and powers of ten", line((0, b"9223372036854775808"), (4, b"9223372036854775807"), (5, b"10000000000000000000"), (6, b"9999999999999999999"), (7, b"10"), (8, b"4294967296"), (9, b"4294967295"), (10, b"9007199254740993")) + b"\n"),
    ("a leading zero", each_line(DECIMALS, b"00", b"07") + line((0, b"00018446744073709551615")) + b"\n"),
    ("zero", each_line(DECIMALS, b"0")),
    ("a byte beside the digits", each_line((0, 10), b"/", b":", b"a", b"3.0", b"1e3", b"0x1", b"1_0", b"1,0")),
]

# A name, a text, and how many words the buffer has.
READ = [
    ("no words", GOOD + b"\n", 0),
    ("one word", GOOD + b"\n", 1),
    ("a word too few", GOOD + b"\n", WORDS - 1),
    ("a word too many", GOOD + b"\n", WORDS + 1),
    ("words for the line alone", GOOD + b"\n", 14),
    ("no words and no lines", b"", 0),
    ("a word too few and no lines", b"", WORDS - 1),
    ("a word too few and a bad line", b"x\n", WORDS - 1),
    ("a word too many and a bad line", b"x\n", WORDS + 1),
    ("4,096 empty lines", b"\n" * 4096, WORDS),
    ("4,097 empty lines", b"\n" * 4097, WORDS),
    ("4,096 empty lines and a byte", b"\n" * 4096 + b"x", WORDS),
    ("a word too few and 4,097 empty lines", b"\n" * 4097, WORDS - 1),
    ("40 good lines", b"".join(line((0, b"%d" % k)) + b"\n" for k in range(40)), WORDS),
]

# A name, a text, and the bytes of the report's room.
LENT = [
    ("no room", b"\n", 0),
    ("no room needed", GOOD + b"\n", 0),
    ("no lines and no room", b"", 0),
    ("a byte too few", b"\n", 3),
    ("just enough", b"\n", 4),
    ("a byte more", b"\n", 5),
    ("a byte too few for ten rows", b"x\n" * 10, 40),
    ("just enough for ten rows", b"x\n" * 10, 41),
    ("a byte more for ten rows", b"x\n" * 10, 42),
    ("numbers of one to four digits", b"\n" * 1001, 5900),
    ("the hundredth line alone is bad", b"\n".join([SHORTEST] * 99 + [b"x"]), 6),
    ("too many lines and no room", b"\n" * 4097, 0),
    ("too many lines, a byte too few", b"\n" * 4097, 3),
    ("too many lines, just enough", b"\n" * 4097, 4),
    ("too many lines, a byte more", b"\n" * 4097, 5),
]

# A name, a text that is repeated, and how many bytes it then has.
FILLED = [
    ("nothing", b"", 0),
    ("4,096 good lines", GOOD + b"\n", 4096 * len(GOOD + b"\n")),
    ("4,096 good lines, the last without its end", GOOD + b"\n", 4096 * len(GOOD + b"\n") - 1),
    ("4,096 lines, the last a byte too short", GOOD + b"\n", 4096 * len(GOOD + b"\n") - 2),
    ("4,096 good lines and a byte", GOOD + b"\n", 4096 * len(GOOD + b"\n") + 1),
    ("4,097 good lines", GOOD + b"\n", 4097 * len(GOOD + b"\n")),
    ("4,096 of the shortest lines", SHORTEST + b"\n", 4096 * len(SHORTEST + b"\n")),
    ("4,097 of the shortest lines", SHORTEST + b"\n", 4097 * len(SHORTEST + b"\n")),
    ("4,096 of the longest lines", LONGEST + b"\r\n", MOST),
    ("a byte more", LONGEST + b"\r\n", MOST + 1),
    ("4,096 of the longest lines, the last with a lone CR", LONGEST + b"\r\n", MOST - 1),
    ("4,096 of the longest lines, the last without its end", LONGEST + b"\r\n", MOST - 2),
    ("lines of two kinds", GOOD + b"\n" + TWO + b"\r\n", 1001 * len(GOOD + b"\n" + TWO + b"\r\n")),
    ("every other line bad", GOOD + b"\nx\n", 2048 * len(GOOD + b"\nx\n")),
    ("one line of all the bytes there may be", b"0", MOST),
    ("one line of a byte more", b"0", MOST + 1),
    ("4,096 empty lines", b"\n", 4096),
    ("4,097 empty lines", b"\n", 4097),
    ("4,096 empty lines that CRLF ends", b"\r\n", 8192),
    ("4,096 empty lines that CRLF ends, and CR", b"\r\n", 8193),
    ("all the bytes there may be, all empty lines", b"\n", MOST),
]


def listed(numbers):
    return "[" + " ".join(map(str, numbers)) + "]"


def digest(numbers):
    return sum(k * number for k, number in enumerate(numbers, 1)) % 2**64


def seeded(length, seed):
    return [seed * (2 * i + 1) % 2**64 for i in range(length)]


def measured(first, count, sequence, length):
    refusal, size = fits_length(first, count, sequence, seeded(length, SEED))
    return f"fits_length {first} {count} {sequence} {length} {SEED}", f"{refusal} {size}"


def written(case):
    first, count, sequence, length, at, laid, room, fill, (begin, end) = {**USUAL, **case}.values()
    room = SIZE[count] if room is None else room
    words, out = seeded(length, SEED), bytearray([fill]) * room
    words[at:at + len(laid)] = laid[:max(length - at, 0)]
    refusal, size = write_fits(first, count, sequence, words, out)
    asked = f"write_fits {first} {count} {sequence} {length} {SEED} {at} {listed(laid)} {room} {fill} {begin} {end}"
    return asked, f"{refusal} {size} {digest(out)} {listed(out[begin:end])}"


def read(text, length):
    words = seeded(length, SEED)
    refusal, first, count, sequence = read_log(text, words)
    return f"read_log {listed(text)} {length} {SEED}", f"{refusal} {first} {count} {sequence} {listed(words[:28])} {digest(words)}"


def lent(text, size):
    """The refusal, the length, and a room of dots after the call."""
    dots = b"." * size
    out = bytearray(dots)
    refusal, length = refused_lines(text, out)
    return f"refused_lines {listed(text)} {listed(dots)}", f"{refusal} {length} {listed(out)}"


def filled(text, size):
    whole, words = (text * (size // max(len(text), 1) + 1))[:size], seeded(WORDS, 1)
    refusal, _, count, sequence = read_log(whole, words)
    told = report(whole)
    return f"log_filled {listed(text)} {size}", f"{refusal} {count} {sequence} {digest(words)} {len(told)} {listed(b''.join(told.splitlines(True)[-1:]))}"


def rows():
    texts = [text for _, text in WHOLE + LINES]
    out = [measured(*case) for _, *case in MEASURED]
    out += [written(case) for _, case in WRITTEN]
    out += [read(text, WORDS) for text in texts]
    out += [read(single, WORDS) for _, text in LINES if text.count(b"\n") > 1 for single in text.splitlines(True)]
    out += [read(text, length) for _, text, length in READ]
    out += [lent(text, len(report(text)) + 4) for text in texts]
    out += [lent(text, size) for _, text, size in LENT]
    return out + [filled(text, size) for _, text, size in FILLED]
