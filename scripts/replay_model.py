#!/usr/bin/env python3
"""replay, written a second time from document 01 and the Rust, to work out what the program must print.

  scripts/replay_model.py <INPUT        the output for standard input

scripts/parts/replay.py has the inputs of the frozen rows.
"""
import re
import struct
import sys

MOST = 65536
BALANCED, READ_PROTECT, WRITE_EMERGENCY = 0, 1, 2
NONE, TOO_LARGE, COUNTER_FULL, BAD_RECORD = 0, 2, 3, 5

DECIMAL = rb"(0|[1-9][0-9]{0,19})"
BITS = rb"([0-9A-Fa-f]{16})"
LINE = re.compile(b",".join([DECIMAL, DECIMAL, DECIMAL, BITS, BITS, DECIMAL]))


def minimum(a, b):
    return b if a != a or b < a else a


def maximum(a, b):
    return b if a != a or a < b else a


def clamp(x):
    return 0.0 if x < 0.0 else 1.0 if x > 1.0 else x


def of_bits(digits):
    return struct.unpack(">d", bytes.fromhex(digits.decode()))[0]


class Governor:
    def __init__(self):
        self.mode = BALANCED
        self.probed = self.blend = self.pressure = self.debt = 0.0
        self.vector = (0.0, 0.0, 0.0)
        self.streak = 0  # of the present mode; a switch clears it
        self.times = [0, 0, 0]
        self.clock = 0
        self.switches = 0

    def observe(self, clock, l0_count, trigger, ratio, probes, backlog):
        """The refusal; the state changes only if it is 0."""
        if max(l0_count, trigger, backlog) > 2**53:
            return TOO_LARGE
        probed = 0.3 * probes + (1.0 - 0.3) * self.probed
        fraction = float(l0_count) / float(trigger) if trigger else 0.0
        mode, streak = self.turn(fraction, ratio, probed)
        time = self.times[self.mode] + max(clock - self.clock, 0)
        if time >= 2**64 or self.switches + (mode != self.mode) >= 2**64:
            return COUNTER_FULL

        l0 = minimum(fraction / 0.75, 1.0)
        debt = minimum(ratio / 3.0, 1.0)
        breadth = minimum(float(backlog) / 3.0, 1.0)
        read = minimum(probed / 1.6, 1.0)
        structural = maximum(maximum(l0, debt), breadth)
        instant = structural * (1.0 - 0.3) + read * 0.3
        self.blend = 0.3 * instant + (1.0 - 0.3) * self.blend
        self.pressure = clamp(maximum(self.blend, l0))
        self.debt = 0.3 * maximum(debt, breadth) + (1.0 - 0.3) * self.debt
        self.vector = (l0, self.debt, read)
        self.probed = probed
        self.times[self.mode] = time
        self.clock = max(self.clock, clock)
        self.switches += mode != self.mode
        self.mode, self.streak = mode, streak
        return NONE

    def turn(self, fraction, ratio, probed):
        hot = fraction >= 0.75 or ratio >= 3.0
        if self.mode == WRITE_EMERGENCY:
            counts, window, after = fraction <= 0.45 and ratio <= 1.5, 3, BALANCED
        elif hot:
            return WRITE_EMERGENCY, 0
        elif self.mode == BALANCED:
            counts, window, after = probed >= 1.6, 3, READ_PROTECT
        else:
            counts, window, after = probed <= 1.15, 4, BALANCED
        streak = self.streak + 1 if counts else 0
        return (after, 0) if streak >= window else (self.mode, streak)

    def dominant(self):
        l0, debt, read = self.vector
        peak = maximum(maximum(l0, debt), read)
        return 0 if peak <= 0.05 else 1 if l0 >= peak else 2 if debt >= peak else 3

    def delay(self):
        ceiling = 40000.0 if self.mode == READ_PROTECT else 20000.0
        return int(maximum(ceiling - clamp(self.pressure) * (ceiling - 5000.0), 5000.0))


def lines_of(text):
    *ended, last = text.split(b"\n")
    lines = [line[:-1] if line.endswith(b"\r") else line for line in ended]
    return lines + [last] if last else lines


def replay(text):
    if len(text) > MOST:
        return b""
    governor, out = Governor(), []
    for number, line in enumerate(lines_of(text), 1):
        refusal, fields = BAD_RECORD, LINE.fullmatch(line)
        if fields:
            clock, l0_count, trigger, ratio, probes, backlog = fields.groups()
            whole = [int(digits) for digits in (clock, l0_count, trigger, backlog)]
            if max(whole) < 2**64:
                refusal = governor.observe(*whole[:3], of_bits(ratio), of_bits(probes), whole[3])
        out.append(b"%d,%d,%d,%d,%d\n" % (number, refusal, governor.mode, governor.dominant(), governor.delay()))
    return b"".join(out)


if __name__ == "__main__":
    sys.stdout.buffer.write(replay(sys.stdin.buffer.read()))
