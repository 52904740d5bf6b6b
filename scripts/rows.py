#!/usr/bin/env python3
"""Writes the frozen questions of crates/rows and the answers to them, which no code of the port works out.

  scripts/rows.py            writes the first rows to crates/rows/stdin and crates/rows/stdout
  scripts/rows.py --last     adds the last rows to what stands there
  scripts/rows.py --check    says whether they begin with the first rows and end with the last; those between are the oracle's (docs/ROWS.md)

The rows are those of scripts/parts, in this order. A part has a function rows() that gives pairs of a question and its answer.
"""
import importlib, os, sys

FIRST = ["notation", "arith"]
LAST = ["replay", "fits"]

here = os.path.dirname(os.path.abspath(__file__))
sys.dont_write_bytecode = True
sys.path.insert(0, os.path.join(here, "parts"))
crate = os.path.join(here, "..", "crates", "rows")


def texts(parts):
    """The questions and the answers of some parts."""
    questions, answers = "", ""
    for part in parts:
        rows = importlib.import_module(part).rows()
        print(f"{part}: {len(rows)} rows")
        questions += "".join(question + "\n" for question, _ in rows)
        answers += "".join(answer + "\n" for _, answer in rows)
    return {"stdin": questions.encode(), "stdout": answers.encode()}


def write(parts, how):
    for name, text in texts(parts).items():
        with open(os.path.join(crate, name), how) as out:
            out.write(text)


def check():
    first, last = texts(FIRST), texts(LAST)
    for name in first:
        with open(os.path.join(crate, name), "rb") as kept:
            text = kept.read()
        if not (text.startswith(first[name]) and text.endswith(last[name])):
            sys.exit("rows.py: crates/rows has other rows")


if sys.argv[1:] == []:
    write(FIRST, "wb")
elif sys.argv[1:] == ["--last"]:
    write(LAST, "ab")
elif sys.argv[1:] == ["--check"]:
    check()
else:
    sys.exit(__doc__)
