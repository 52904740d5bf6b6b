#!/usr/bin/env python3
"""Counts, over crates/*/src, the places of docs/DESIGN-PASS.md: forms that an older Rattle asked for.

usage: places.py [--list] [POINT..]

A row is a place to look at, no verdict: the page says of each that stays why it does. Comments don't count, nor do tests.
--list prints each place behind its count.
"""
import collections
import glob
import re
import sys

NAME = r"[A-Za-z_]\w*"
FN = re.compile(r"^([ ]*)(?:#\[.*\]\s*)?(?:pub(?:\(crate\))? )?(?:const )?(?:unsafe )?(?:extern \"C\" )?fn (" + NAME + r")", re.M)
KEYWORDS = set(
    "if else while for in loop match return let mut fn pub const as true false break continue self Self use mod struct enum impl trait ref move where".split()
)


def code(text):
    """The text without comments and ghost lines, line for line."""
    lines = []
    for line in text.split("\n"):
        line = re.sub(r"//.*", "", line)
        lines.append("" if line.lstrip().startswith("ghost use") else line)
    return "\n".join(lines)


def functions(text):
    """(name, line, head, clauses, body) of each function."""
    for m in FN.finditer(text):
        indent = m.group(1)
        end = re.compile(r"^" + indent + r"\}", re.M).search(text, m.end())
        stop = end.start() if end else len(text)
        whole = text[m.start() : stop]
        cut = re.search(r"^" + indent + r"(?=[{])|\{$", whole, re.M)
        head = whole[: cut.start()] if cut else whole
        body = whole[cut.start() :] if cut else ""
        clauses = re.findall(r"^\s*(requires|ensures)\s+(?:\w+\s+)?\{(.*)\}\s*$", head, re.M)
        sign = re.sub(r"^\s*(requires|ensures).*$", "", head, flags=re.M)
        yield m.group(2), text.count("\n", 0, m.start()) + 1, " ".join(sign.split()), clauses, body


def shape(body):
    """A body with its names and numbers left out."""
    body = re.sub(r"b'(?:\\.|[^'])'|0x[0-9a-f_]+|\b\d[\d_]*(?:\.\d+)?(?:u\d+|usize)?\b", "N", body)
    return " ".join(w if not re.match(NAME, w) or w in KEYWORDS or w == "N" else "x" for w in re.findall(NAME + r"|\S", body))


def main():
    args = [a for a in sys.argv[1:] if a != "--list"]
    listed = "--list" in sys.argv
    places = collections.OrderedDict()

    def put(point, what, where):
        places.setdefault((point, what), []).append(where)

    kinds = [
        ("1", "own enum with a case for nothing, or with a case for a refused answer"),
        ("1", "field that flags the value beside it (refusal, good, flag)"),
        ("1", "function that answers a refusal or a fault as a number"),
        ("1", "match on a number that stands for a case"),
        ("2", "function of one shape with another, names and numbers apart (four lines and more)"),
        ("3", "loop that is no `for`"),
        ("4", "a case's number, or the case of a number, by a match"),
        ("4", "own minimum, maximum, saturating sum or difference, and its uses"),
        ("4", "a free function of std::num where a method is"),
        ("4", "own order or equality"),
        ("5", "fact that three contracts and more require"),
        ("5", "parameters that stand together in six functions and more"),
        ("6", "length beside a buffer of fixed size, or the used part of one as a parameter"),
        ("6", "sort or search in a sorted list by hand"),
        ("7", "match on which step to run"),
        ("8", "answers by hand, in proofs/*/Answers.antt"),
    ]
    for k in kinds:
        places[k] = []
    shapes = collections.defaultdict(list)
    facts = collections.defaultdict(list)
    together = collections.defaultdict(list)
    for path in sorted(glob.glob("crates/*/src/**/*.rt", recursive=True)):
        text = code(open(path).read())
        at = lambda i: f"{path}:{text.count(chr(10), 0, i) + 1}"
        for m in re.finditer(r"enum (" + NAME + r")[^{]*\{(.*?)^\}", text, re.M | re.S):
            if re.search(r"^\s+(None|Refused\(.*)(,|$)", m.group(2), re.M):
                put(*kinds[0], f"{at(m.start())} {m.group(1)}")
            if m.group(1) == "Order":
                put(*kinds[9], f"{at(m.start())} Order")
        for m in re.finditer(r"^    (?:pub )?(refusal|good|flag): (u64|bool)", text, re.M):
            put(*kinds[1], f"{at(m.start())} {m.group(1)}")
        for m in re.finditer(r"^\s*(?:'\w+: )?(while|loop)\b", text, re.M):
            put(*kinds[5], at(m.end()))
        for m in re.finditer(r"std::num::(wrapping_\w+|leading_zeros\w*)|u64::leading_zeros", text):
            put(*kinds[8], at(m.start()))
        for m in re.finditer(r"\b(?:saturating_add|saturating_sub|at_least_one|smaller|least)\(", text):
            if text[m.start() - 1] != ".":
                put(*kinds[7], at(m.start()))
        for m in re.finditer(r"^    (?:pub )?len: usize", text, re.M):
            put(*kinds[12], at(m.start()))
        for name, line, sign, clauses, body in functions(text):
            here = f"{path}:{line} {name}"
            returns = sign.split("->")[-1].strip() if "->" in sign else ""
            if returns == "u64" and re.search(r"refusals::[A-Z]|NOT_A_STATE|NO_SUCH_CASE|shape::[A-Z]{4}|\brefusal\b|_fault\(", body):
                put(*kinds[2], here)
            if returns == "usize" and re.search(r"\b(NUMBER|LONG|NO_ROOM)\b", body) and "rows" in path:
                put(*kinds[2], here)
            for m in re.finditer(r"match (\w+|\w+\[\d+\]) \{\n\s*\d", body):
                put(*kinds[3], f"{path}:{line + body.count(chr(10), 0, m.start())} {name}")
            arms = re.findall(r"^\s+([^\n]*?) => ([^\n]*?),?$", body, re.M)
            if re.match(r"\{\s*match ", body.lstrip()) and arms:
                if all(re.match(r"\d+$|[A-Z_]+$", b) for _, b in arms) or all(re.match(r"\d+$|_$", a) for a, _ in arms):
                    put(*kinds[6], here)
            if re.search(r"if (\w+) (<|!=|>) (\w+) \{\s*return (\w+);\s*\}\s*(\w+)\s*$", body.strip().rstrip("}").rstrip()) and name in ("minimum", "maximum", "clamp", "absolute", "least", "smaller", "at_least_one"):
                put(*kinds[7], here)
            if name in ("compare", "are_different") or re.search(r"\.idx\(\) [!=]=", body):
                put(*kinds[9], here)
            if body.count("\n") >= 4:
                shapes[shape(body)].append(here)
            for kind, fact in clauses:
                if kind == "requires":
                    for part in fact.split("×"):
                        facts[" ".join(part.split()).strip("() ")].append(here)
            params = re.findall(r"(\w+): (&(?:'a )?(?:mut )?\[\w+(?:; \w+)?\]|[A-Z]\w+)", sign)
            for i in range(len(params)):
                for j in range(i + 1, len(params)):
                    together[(params[i], params[j])].append(here)
            if re.search(r"&mut \[\w+\]", sign) and re.search(r"\b(n|count|len): usize", sign):
                put(*kinds[12], here)
            if name in ("sort", "sort_places", "merge", "merge_halves", "insert", "insert_all", "first_from", "insert_at", "sort_level"):
                put(*kinds[13], here)
            for m in re.finditer(r"match (search|call) \{", body):
                put(*kinds[14], f"{path}:{line + body.count(chr(10), 0, m.start())} {name}")
    for group in shapes.values():
        if len(group) > 1:
            for here in group:
                put(*kinds[4], here + (f" ~ {group[0].split()[-1]}" if here != group[0] else ""))
    for fact, where in facts.items():
        if len(where) > 2:
            put(*kinds[10], f"{fact}: {len(where)}")
    for pair, where in together.items():
        if len(where) > 5:
            put(*kinds[11], f"{pair[0][0]}: {pair[0][1]}, {pair[1][0]}: {pair[1][1]}: {len(where)}")
    for path in sorted(glob.glob("crates/*/proofs/**/Answers.antt", recursive=True)):
        for line in re.findall(r"^pub [^\n]*", open(path).read(), re.M):
            put(*kinds[15], f"{path} {line}")
    for (point, what), found in places.items():
        if args and point not in args:
            continue
        print(f"{point} {what}: {len(found)}")
        if listed:
            for where in found:
                print(f"    {where}")


main()
