#!/usr/bin/env python3
"""Draws a log that stands in a FITS table: the three pressures, and the pause that pacing gives for the highest of them.

  scripts/log_picture.py LOG.fits PICTURE.png     draws it, with astropy and matplotlib (Debian: python3-astropy, python3-matplotlib)
  scripts/log_picture.py --log                    prints log.csv of a made-up day instead: calm, a burst of writes, debt paid back, many reads, calm
"""
import os
import struct
import subprocess
import sys


# The made-up day

def writes(k):
    """Tables that came to level 0 since the decision before."""
    if 24 <= k < 42:
        return 3 + k % 3 % 2
    return 1 if k % 7 == 3 and k >= 10 else 0


def reads(k):
    """Tables probed for each get, as a share of what is too many."""
    return 0.92 if 80 <= k < 102 else 0.15 if 6 <= k < 112 else 0.0


def day():
    """Rows of 14 words: sequence, three pressures, dominant, tier, candidates, kind, level, batch length, bytes, three reliefs."""
    rows, files, debt, read, focus = [], 0, 0.0, 0.0, 0
    for k in range(120):
        noise = k * 2654435761 % 2**32 / 2**32 - 0.5
        files += writes(k)
        read = round(0.7 * read + 0.3 * max(reads(k) + 0.25 * reads(k) * noise, 0.0), 4)
        l0 = min(files / 6, 1.0)
        peak = max(l0, debt, read)
        dominant = 0 if peak <= 0.05 else 1 if l0 == peak else 2 if debt == peak else 3
        pressures, considered = (l0, debt, read), min(files, 1) + (1 + int(16 * debt) if debt >= 0.01 else 0)
        tier = kind = level = batch = moved = 0
        reliefs = 0.0, 0.0, 0.0
        if dominant in (1, 3) and files:
            merged = min(files, 3)
            tier, kind, moved, reliefs = 1, 1, merged * (40 + k % 9) << 20, (1.0, 0.0, 1.0)
            files, debt = files - merged, round(min(debt + 0.016 * merged, 1.0), 4)
        elif dominant and debt >= 0.01:
            level = 1 if debt > 0.4 else 2
            tier, focus = 2 if focus == level else 3, level
            kind, batch = (3, 0) if k % 8 == 5 else (2, 1 + k % 8)
            paid = min(0.008 + 0.005 * batch, debt)
            moved, reliefs = batch * (24 + k % 5) << 20, (0.0, round(paid / debt, 4), 0.0)
            debt = round(debt - paid, 4)
        rows.append((k + 1, *pressures, dominant, tier, considered, kind, level, batch, moved, *reliefs))
    return rows


def text_of(row):
    return ",".join(struct.pack(">d", word).hex() if k in (1, 2, 3, 11, 12, 13) else str(word) for k, word in enumerate(row))


# The picture

def pause(peak, ceiling):
    """Microseconds; peaks outside 0 to 1 count as the nearer end, and the pause is never under 5."""
    return [max(ceiling - min(max(p, 0.0), 1.0) * (ceiling - 5.0), 5.0) for p in peak]


def draw(log, picture):
    try:
        from astropy.io import fits
        import matplotlib
    except ImportError:
        other = "/usr/bin/python3"  # where Debian's packages put them, if the python3 of the path has none
        if sys.executable == other or not os.path.exists(other) or subprocess.run([other, "-c", "import astropy, matplotlib"], capture_output=True).returncode:
            sys.exit("log_picture.py: astropy or matplotlib is not installed")
        os.execv(other, [other] + sys.argv)
    matplotlib.use("Agg")
    from matplotlib import pyplot

    with fits.open(log) as units:
        table = units[1].data
        sequence = [int(word) for word in table["SEQ"]]
        l0, debt, read = ([float(x) for x in table[name]] for name in ("P_L0", "P_DEBT", "P_READ"))
    peak = [max(three) for three in zip(l0, debt, read)]

    matplotlib.rcParams.update({"font.size": 11, "axes.spines.top": False, "axes.spines.right": False, "axes.grid": True, "grid.color": "#dddddd"})
    figure, (upper, lower) = pyplot.subplots(2, 1, sharex=True, figsize=(12, 7), dpi=100, height_ratios=(3, 2), layout="constrained")
    figure.suptitle(f"{len(sequence)} decisions: the pressures they were made under, and the pause that the highest of them gives", fontsize=13)
    lines = (l0, "level 0 (P_L0)", "#0072b2"), (debt, "deep debt (P_DEBT)", "#d55e00"), (read, "reads (P_READ)", "#009e73")
    for pressure, name, colour in lines:
        upper.plot(sequence, pressure, color=colour, label=name, linewidth=2, drawstyle="steps-mid")
    upper.set(ylabel="pressure (0 to 1)", ylim=(-0.03, 1.05))
    upper.legend(loc="lower left", bbox_to_anchor=(0, 1), ncols=3, frameon=False, title="Pressure of", alignment="left")

    lower.plot(sequence, pause(peak, 40.0), color="#7a4fa3", linewidth=2, linestyle=(0, (4, 2)), drawstyle="steps-mid", label="in ReadProtect")
    lower.plot(sequence, pause(peak, 20.0), color="#333333", linewidth=2, drawstyle="steps-mid", label="in Balanced and WriteEmergency")
    lower.set(ylabel="pause (µs)", ylim=(0, 42), xlabel="SEQ (the decision's number)")
    lower.legend(loc="lower left", bbox_to_anchor=(0, 1), ncols=2, frameon=False, title="Pause (a decision does not hold the mode, so both are drawn)", alignment="left")
    for panel in upper, lower:
        panel.margins(x=0.01)
    figure.align_ylabels()
    figure.savefig(picture, metadata={"Software": None})


if sys.argv[1:] == ["--log"]:
    print("\n".join(map(text_of, day())))
elif len(sys.argv) == 3:
    draw(*sys.argv[1:])
else:
    sys.exit(__doc__)
