"""Rows on arith: at least 300 for each function. What each is held to is said in ROWS.md."""
import math, os, random, re, struct, subprocess, tempfile
import mpmath

SEED = 20260
EACH = 300
NAN = 0x7FF8000000000000
here = os.path.dirname(os.path.abspath(__file__))


def bits(x):
    return struct.unpack("<Q", struct.pack("<d", x))[0]


def is_nan(b):
    return b & (2**63 - 1) > 0x7FF0000000000000


def is_zero(b):
    return b & (2**63 - 1) == 0


# ---- arguments

# Either sign of: zeros, subnormals, the smallest and largest numbers, 1 and its neighbours, the governor's own numbers, the limits of u64 and of exact whole numbers, infinities, NaNs quiet and not.
FLOATS = [0, 1, 2, 0xFFFFFFFFFFFFF, 0x10000000000000, 0x10000000000001, 0x7FEFFFFFFFFFFFFF, 0x7FF0000000000000]
FLOATS += [0x7FF0000000000001, 0x7FF7FFFFFFFFFFFF, NAN, NAN + 1, 0x7FFFFFFFFFFFFFFF]
FLOATS += [bits(1.0) + d for d in (-2, -1, 0, 1, 2)]
FLOATS += [bits(x) for x in (0.05, 0.3, 0.5, 0.7, 0.75, 1.15, 1.5, 1.6, 2.0, 3.0, 10.0, 5000.0, 12500.0, 20000.0, 40000.0)]
FLOATS += [bits(2.0**k) + d for k in (10, 51, 52, 53, 62, 63, 64, 65, 100, 1023) for d in (-1, 0, 1)]
FLOATS += [b + 2**63 for b in FLOATS]


def float_near(chance):
    """Bits of any kind: all 64 at random, a number of a moderate size, or one of the list and its neighbours."""
    kind = chance.randrange(3)
    if kind == 0:
        return chance.getrandbits(64)
    if kind == 1:
        return bits(math.ldexp(chance.uniform(-1, 1), chance.randrange(-70, 70)))
    return (chance.choice(FLOATS) + chance.randrange(-2, 3)) % 2**64


def floats(chance):
    return FLOATS + [float_near(chance) for _ in range(200)]


def float_pairs(chance):
    some = FLOATS[:20] + FLOATS[len(FLOATS) // 2 :][:20]
    pairs = [(0, 2**63), (2**63, 0), (0, 0), (2**63, 2**63)] + [(a, b) for a in some[::2] for b in some[1::2]]
    while len(pairs) < 600:
        a = float_near(chance)
        pairs += [(a, float_near(chance)), (a, a), (a, (a + 1) % 2**64), (a, a ^ 2**63)]
    return pairs


# Powers of two and their neighbours; numbers that lie half way between two floats, with their neighbours; the largest.
WHOLES = [0, 1, 2, 3, 5, 6, 7, 10, 1000, 2**53, 2**53 + 1, 2**64 - 1]
WHOLES += [2**k + d for k in range(2, 64) for d in (-1, 0, 1)]
WHOLES += [(2**53 + 2 * m + 1) * 2**k // 2 + d for k in range(1, 12) for m in (0, 1, 2**51, 2**52 - 1) for d in (-1, 0, 1) if (2**53 + 2 * m + 1) * 2**k // 2 + d < 2**64]


def whole_near(chance):
    return chance.getrandbits(chance.randrange(1, 65))


def wholes(chance, more):
    return WHOLES + more + [whole_near(chance) for _ in range(100)]


def roots(chance):
    """Squares and their neighbours, and the roots nearest to half way between two floats among many."""
    sides = [2**26, 2**32 - 1, 94906265, 94906266, 94906267] + [chance.getrandbits(chance.randrange(2, 33)) for _ in range(30)]
    squares = [s * s + d for s in sides for d in (-1, 0, 1) if 0 <= s * s + d < 2**64]
    return squares + sorted((whole_near(chance) for _ in range(20000)), key=lambda n: root_of(n)[1])[:60]


def logs(chance):
    """Where 1 + age enters a cell of the table, and its neighbours."""
    edges = [(1024 + i) * 2**k // 1024 - 1 for i, k in ((chance.randrange(1024), chance.randrange(0, 64)) for _ in range(60))]
    return [e + d for e in edges for d in (-1, 0, 1) if 0 <= e + d < 2**64]


# ---- answers


def root_of(n):
    """The root of n's value as a float, rounded once, and how far it is from half way between two floats, in 2^-20 of their distance."""
    v = int(float(n))
    if v == 0:
        return bits(0.0), 2**20
    shift = 53 - (v.bit_length() + 1) // 2
    low = math.isqrt(v * 4**shift)
    assert 2**52 <= low < 2**53
    digits = low + (v * 4**shift - low * low > low)
    away = abs(math.isqrt(v * 4 ** (shift + 20)) - (low * 2**20 + 2**19))
    return bits(math.ldexp(digits, -shift)), away


def table():
    """The table of the crate's own text."""
    with open(os.path.join(here, "..", "..", "crates", "arith", "specs", "Logarithm.antt"), encoding="utf-8") as text:
        entries = re.search(r"^tab =(.*?)\[\]", text.read(), re.M | re.S).group(1)
    numbers = [int(n) for n in re.findall(r"\d+", entries)]
    assert len(numbers) == 1024
    return numbers


TAB = table()
LN2 = 49946518145322873


def log_of(n):
    """The whole-number rule of crates/arith/specs/Logarithm.antt a second time, held to 100 digits."""
    m = int(float(n)) + 1
    k = m.bit_length() - 1
    big = m * 2**53 >> k
    cell = big >> 43
    z = (big & (2**43 - 1)) // (2 * cell)
    cut = -(-(z * z // 2**36 * (2**35 - 341 * (z // 2**16))) // 2**40)
    units = k * LN2 // 4096 + TAB[cell - 1024] + 4 * z - cut
    with mpmath.workdps(100):
        assert abs(mpmath.mpf(units) / 2**44 - mpmath.log(1 + mpmath.mpf(float(n)))) <= mpmath.mpf(2) ** -40, n
    assert units < 2**53
    return bits(math.ldexp(units, -44))


def by_rust(questions):
    """What Rust's operators say."""
    with tempfile.TemporaryDirectory() as made:
        program = os.path.join(made, "arith")
        subprocess.run(["rustc", "--edition", "2021", "-O", "-o", program, os.path.join(here, "arith.rs")], check=True)
        run = subprocess.run([program], input="\n".join(questions) + "\n", capture_output=True, text=True, check=True)
    return [int(line) for line in run.stdout.splitlines()]


def ruled(name, args, answer):
    """Rust leaves open which of two zeros a minimum or a maximum is, and which NaN any of them is: the port takes the left one, and one NaN."""
    if name in ("minimum", "maximum") and is_zero(args[0]) and is_zero(args[1]):
        return args[0]
    if name != "truncate" and is_nan(answer):
        return NAN
    return answer


def rows():
    chance = random.Random(SEED)
    asked = []
    for name in ("of_bits", "absolute", "clamp", "truncate"):
        asked += [(name, (b,)) for b in floats(chance)]
    for name in ("minimum", "maximum"):
        asked += [(name, pair) for pair in float_pairs(chance)]
    asked += [("of_u64", (n,)) for n in wholes(chance, [])]
    asked += [("sqrt", (n,)) for n in wholes(chance, roots(chance))]
    questions = [" ".join([name, *map(str, args)]) for name, args in asked]
    answers = [ruled(name, args, answer) for (name, args), answer in zip(asked, by_rust(questions), strict=True)]
    for (name, args), answer in zip(asked, answers):
        if name == "sqrt":
            assert answer == root_of(args[0])[0], args
        if name == "of_u64":
            assert answer == bits(float(args[0])), args
    ages = wholes(chance, logs(chance))
    questions += [f"ln_1p {n}" for n in ages]
    answers += [log_of(n) for n in ages]
    for name in ("of_bits", "minimum", "maximum", "absolute", "clamp", "truncate", "of_u64", "sqrt", "ln_1p"):
        assert sum(q.startswith(name + " ") for q in questions) >= EACH, name
    return [(q, str(a)) for q, a in zip(questions, answers, strict=True)]
