#!/usr/bin/env python3
"""Draws the mode and the delay over a run of 60 observations, a millisecond apart: calm, a burst of writes, quiet, many reads, calm.

  scripts/replay_picture.py            runs ./replay and draws what it prints
  scripts/replay_picture.py --input    prints the run's input instead
"""
import os
import struct
import subprocess
import sys


def bits(number):
    return struct.pack(">d", number).hex()


def sample(k):
    """L0 count (of 4), debt ratio, tables probed per get, levels over budget."""
    if k < 10:
        return 1, 0.4, 1.0, 0
    if k < 18:
        return (2, 2, 3, 4, 4, 3, 2, 2)[k - 10], 2.0, 1.0, 2
    if k < 30:
        return 1, 0.6, 1.0, 0
    if k < 44:
        return 1, 0.4, 3.0, 0
    return 0, 0.2, 0.5, 0


text = ""
for k in range(60):
    l0, ratio, probes, backlog = sample(k)
    text += f"{(k + 1) * 1000000},{l0},4,{bits(ratio)},{bits(probes)},{backlog}\n"
if sys.argv[1:] == ["--input"]:
    print(text, end="")
    sys.exit()

replay = os.path.join(os.path.dirname(os.path.abspath(__file__)), "..", "replay")
out = subprocess.run([replay], input=text, capture_output=True, text=True, check=True).stdout
rows = [[int(word) for word in line.split(",")] for line in out.splitlines()]
for number, name in (2, "WriteEmergency"), (1, "ReadProtect"), (0, "Balanced"):
    print(f"{name:>15} ", "".join("#" if row[2] == number else " " for row in rows).rstrip(), sep="")
print(f"{'dominant':>15} ", "".join(".LDR"[row[3]] for row in rows), sep="")
print(f"{'delay, 10 us':>15} ", "".join(str(row[4] // 10000) for row in rows), sep="")
print(f"{'1 us':>15} ", "".join(str(row[4] // 1000 % 10) for row in rows), sep="")
