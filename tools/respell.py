#!/usr/bin/env python3
"""Spells the definitions and lemmas of this repository as today's Rattle does: words in snake case, a dash only between two names.

usage: respell.py [--list]

It runs once at the top, right after the kit's port.py, on the crates' .antt and .rt files, their must-fail edits, README.md and docs/.
A name is one that a file of specs/ or a lemma file of proofs/ declares. What Rust, C or the prover spells keeps its spelling.
--list prints old and new, a tab between, and writes nothing.
"""
import collections
import glob
import re
import sys

WORD = re.compile(r"[^\s(){}.;,@\"«»`|\[\]]+")
DECLARED = re.compile(
    r"^(\s*)(?:\|\s*)?(?:(?:abbrev|unfoldable|pub|data|record|mutual)\s+)*"
    r"((?:[^\s:(){}]+\s+)+?)(?:\{[^}]*\}\s*|\((?:[^()]|\([^()]*\))*\)\s*)*:(?=\s|$)"
)
# Names that would fall together with another one, and what they are called instead.
INSTEAD = {
    "best_of": "best_of_lem",
    "bits-of": "bits_of_lem",
    "engine-fault": "engine_fault_lem",
    "float-at": "float_at_lem",
    "floor-root": "floor_root_lem",
    "getD-in": "get_or_in",
    "has-key": "has_key_lem",
    "hex-byte": "hex_byte_lem",
    "in-unit": "in_unit_lem",
    "is_digit": "is_digit_lem",
    "last_line": "last_line_lem",
    "levelBytes": "level_bytes_of",
    "nearest-root": "nearest_root_lem",
    "notAState": "not_a_state",
    "per-get": "per_get_lem",
    "refusal-of": "refusal_of_lem",
    "seed-from": "seed_from_lem",
    "state-in": "state_in_lem",
    "with-digit": "with_digit_lem",
    "without-cr": "without_cr_lem",
}
# New names that a field of another record, or a Rust item, has too: neither hides the other.
APART = set("any_large too_many batch_len enter_read_protect exit_read_protect exit_emergency".split())


def declaring():
    """The files that declare names: specs/, and the lemma files of proofs/, which lie beside Lib.antt or below a module of such a file."""
    files = glob.glob("crates/*/specs/**/*.antt", recursive=True)
    for f in glob.glob("crates/*/proofs/**/*.antt", recursive=True):
        if f.rsplit("/", 1)[1] not in ("Proof.antt", "Answers.antt", "Invariants.antt"):
            files.append(f)
    return sorted(files)


def words_of(text):
    return re.sub(r"--[^\n]*", "", text)


def declared():
    names = set()
    for f in declaring():
        with open(f, encoding="utf-8") as r:
            for line in words_of(r.read()).split("\n"):
                m = DECLARED.match(line)
                if m and not line.strip().startswith(("use ", "unfolding ", "let ", "in ")):
                    names.update(m[2].split())
    return {n for n in names if re.fullmatch(r"[a-z0-9][\w'-]*", n) and n not in ("use", "where", "unfolding")}



def snake(name):
    return re.sub(r"(?<=[a-z0-9])[A-Z]+", lambda m: "_" + m[0].lower(), name)


# Words of today's library that a lemma may be named after.
LIBRARY = set("append take drop length filter map zero suc nil cons add sub mul div mod pow le lt eq min max sum nan inf fin neg".split())


def table():
    names = declared()
    heads = {snake(n) for n in names if "-" not in n} | LIBRARY
    rows = {}
    for n in names:
        parts = [snake(p) for p in n.split("-")]
        both = len(parts) == 2 and parts[0] in heads and parts[1] in heads
        new = INSTEAD.get(n, ("-" if both else "_").join(parts))
        if new != n:
            rows[n] = new
    return rows


def files():
    for pattern in ("crates/*/specs/**/*.antt", "crates/*/proofs/**/*.antt", "crates/*/src/**/*.rt", "crates/*/must-fail/*.edit", "docs/**/*.md", "README.md"):
        yield from sorted(glob.glob(pattern, recursive=True))


def together(rows):
    """Each new name that is another one's too, or that a file binds or declares already. A Rust function and its specification may share a name."""
    count = collections.Counter(rows.values())
    names = declared() - set(rows)
    for old, new in sorted(rows.items()):
        if new not in APART and (count[new] > 1 or new in names):
            yield f"twice: {old} {new}"
    for f in files():
        if f.endswith(".md"):
            continue
        with open(f, encoding="utf-8") as r:
            text = words_of(r.read()) if f.endswith(".antt") else re.sub(r"(?m)//[^\n]*|^#[^\n]*", "", r.read())
        found = set(WORD.findall(text))
        for old in sorted(o for o in rows if o in found):
            new = re.escape(rows[old])
            bound = rf"(?<![\w.'-]){new}(?![\w.'-])" if f.endswith(".antt") else rf"(?<![\w.]){new}\s*:(?!:)|let (?:mut )?{new}\b"
            if rows[old] not in APART and rows[old] not in rows and re.search(bound, text):
                yield f"in {f}: {old} {rows[old]}"


# A comment, a string, or a stretch of code.
PIECE = re.compile(r"""(?P<said>(?://|(?<!\S)--|^\#)[^\n]*|b?"(?:\\.|[^"\\\n])*")""", re.M)


def turned(text, rows, kind):
    """In prose a name with a dash turns in a code span alone. A plain word turns in .antt alone, and there behind no dot: a Rust function may have that name."""
    plain = {n for n in rows if not re.search("[a-z0-9][A-Z]|-", n)}

    def code(t):
        def one(m):
            # A name that the prover makes, as c.state_in, stays.
            if kind == "antt" and re.search(r"(?<![\w'.-])(?:c|w|l|tie)(?:\.[^\s(){}.;,]+)*\.$", t[: m.start()][-200:]):
                return m[0]
            if m[0] in plain and (kind != "antt" or t[m.start() - 1 : m.start()] == "." or t[m.end() : m.end() + 1] == "."):
                return m[0]
            return rows.get(m[0], m[0])

        return WORD.sub(one, t)

    def said(t):
        t = re.sub(r"(`+)[^`]+\1", lambda m: code(m[0]), t)
        return WORD.sub(lambda m: rows[m[0]] if m[0] in rows and re.search("[a-z][A-Z]", m[0]) else m[0], t)

    if kind == "md":
        return said(t=text)
    out, at = "", 0
    for m in PIECE.finditer(text):
        out += code(text[at : m.start()]) + said(m[0])
        at = m.end()
    return out + code(text[at:])


def main():
    rows = table()
    if "--list" in sys.argv:
        for a, b in sorted(rows.items()):
            print(a, b, sep="\t")
        return
    met = list(together(rows))
    if met or "--met" in sys.argv:
        print("\n".join(met))
        raise SystemExit(1 if met else 0)
    n = 0
    for f in files():
        with open(f, encoding="utf-8") as r:
            text = r.read()
        new = turned(text, rows, f.rsplit(".", 1)[1])
        if new != text:
            n += 1
            with open(f, "w", encoding="utf-8") as w:
                w.write(new)
    print(f"respell: {len(rows)} names, {n} files")


main()
