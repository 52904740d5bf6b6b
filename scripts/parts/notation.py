"""Rows on the notation alone: what is read and written back, and what is refused. Written by hand."""

TOP = 2**64 - 1


def rows():
    good = ["0", "1", "9", "10", "99", "100", "1234567890", str(10**19 - 1), str(10**19), str(TOP - 1), str(TOP)]
    good += ["[]", "[0]", "[1 2 3]", "[] []", "1 [] 2", "[1] 2 [3 4]", f"[{TOP} 0 {TOP}]", "0 0 0 0 0 0 0 0 0 0"]
    good += ["1 [" + " ".join(str(i * i) for i in range(500)) + "] 2", " ".join(["7"] * 62), " ".join(["[]", "7"] * 31)]
    bad = ["00", "01", "[00]", "[1 02]", str(TOP + 1), str(TOP + 6), str(10**20), "9" * 40, "[" + str(TOP + 1) + "]"]
    bad += ["-1", "+1", "1.0", "0x1", "1e3", "a", "1a", "a1", "1\t2", "1\r", " ", " 1", "1 ", "1  2", ","]
    bad += ["[", "]", "[1", "1]", "[1 2", "[1 2 ", "[ ]", "[ 1]", "[1 ]", "[1  2]", "[[1]]", "[1][2]", "[1]2", "1[2]", "[,]", "[1,2]", "[1 a]"]
    out = [("echo " + x, x) for x in good]
    out += [("echo " + x, "? number") for x in bad]
    out += [("lent [1 2 3] [] [0 255]", "[1 2 3] [] [0 255]"), ("lent [] [5] []", "[] [5] []")]
    out += [(q, "? arguments") for q in ("echo", "lent", "lent 1 2 3", "lent [] []", "lent [] [] [256]", "lent [] [] [] []", "echo" + " 7" * 63, "echo" + " []" * 100)]
    out += [("", "? empty")]
    out += [(q, "? name") for q in ("Echo 1", "ech 1", "echoo 1", "echo[1]", "echo\t1", "[1]", "1", "nothing", "nothing 1 [2]")]
    out += [(q, "? number") for q in (" ", " echo 1", "nothing 01", "minimum 01")]
    for name, count in [("of_bits", 1), ("minimum", 2), ("maximum", 2), ("absolute", 1), ("clamp", 1), ("truncate", 1), ("of_u64", 1), ("sqrt", 1), ("ln_1p", 1)]:
        for k in range(4):
            if k != count:
                out.append((" ".join([name] + ["1"] * k), "? arguments"))
        out.append((" ".join([name] + ["1"] * (count - 1) + ["[1]"]), "? arguments"))
        out.append((f"{name} 1 " + " ".join("0" * 100), "? arguments"))
    return out
