#!/usr/bin/env python3
"""The right relay and relays with a student's mistake, side by side on recordings of this folder.

    samples/mistakes.py           checks that the rules below give what is stored beside every accepted recording, that each wrong
                                  relay answers its recording otherwise, and that README.md has the tables as worked out here
    samples/mistakes.py --write   writes those tables into README.md, then checks

The last line is 'N mistakes, 0 wrong'. The rules are written out plainly and take nothing from the proved module. Needs Python
3.10.
"""
import pathlib
import re
import sys
from bisect import bisect_left
from functools import cache
from itertools import chain, islice, pairwise, repeat

here = pathlib.Path(__file__).parent
readme = here / "README.md"
refused = {"damaged_row", "lf_ends"}  # the rules below are for accepted recordings

# operation: k, c, the power, kr
curves = {
    2: (1400, 0, 0.02, None), 3: (135000, 0, 1, None), 4: (800000, 0, 2, None), 5: (1200000, 0, 1, None),
    6: (86, 18500, 0.02, 4600), 7: (515, 114000, 0.02, 48500), 8: (196100, 491000, 2, 216000), 9: (282000, 121700, 2, 291000),
    10: (860, 185000, 0.02, 46000), 11: (285500, 712000, 2, 134600), 12: (640700, 250000, 2, 300000)}


def rounded_up(n, d):
    return -(-n // d)


def times(m):
    """a ratio as a multiple of the setting"""
    return f"{m / 100:g}"


@cache
def exact_x(m):
    """the least X with m x X^50 at least 100 x (X + 1,000,000)^50"""
    return bisect_left(range(10**10), True, key=lambda x: m * x**50 >= 100 * (x + 10**6)**50)


# ---- The right relay


class Phase:
    """a phase, from clear; each mistake is a phase with one method wrong"""
    name = "right"
    sum = run = drop = 0
    started = False

    def __init__(self, settings):
        self.operation, self.s, multiplier, self.minimum, self.definite, self.reset, self.start_only = settings
        self.k, self.c, self.power, self.kr = curves.get(self.operation, (None,) * 4)
        self.level = multiplier * 10**9

    def tick(self, g, block):
        """the start and the trip"""
        m = min(g // self.s, 2000)
        self.started = self.operation > 0 and (g >= 95 * self.s if self.started else self.starts(g, m))
        if self.started:
            self.run = min(self.run + 1, 60000)
            self.drop = 0
            self.sum = min(self.sum_up(m, block), self.level)
        else:
            self.drop = min(self.drop + 1, 60000)
            self.sum = self.sum_down(m)
            self.run = self.run if self.operation == 1 and self.drop < self.reset else 0
        due = self.run >= self.definite if self.operation == 1 else self.sum == self.level and self.run >= self.minimum
        return self.started, self.started and self.start_only == 0 and due

    def starts(self, g, m):
        return g > 100 * self.s

    def sum_up(self, m, block):
        return self.sum + self.gain(m)

    def sum_down(self, m):
        if self.kr is None:
            return self.sum if self.drop < self.reset else 0
        return max(self.sum - self.loss(m), 0)

    def gain(self, m):
        if self.power is None or m <= 100:
            return 0
        if self.power == 1:
            inverse = rounded_up(self.k * 10**4, m - 100)
        elif self.power == 2:
            inverse = rounded_up(self.k * 10**6, m * m - 10**4)
        else:
            inverse = rounded_up(self.k * self.x(m), 10**4)
        return 10**14 // (self.c + inverse)

    def loss(self, m):
        return 10**14 // rounded_up(self.kr * 10**6, 10**4 - m * m) if m < 100 else 0

    def x(self, m):
        return exact_x(m)


# ---- The mistakes


class LatestGain(Phase):
    name = "level / latest gain, in ticks since the start"

    def sum_up(self, m, block):
        return self.run * self.gain(m)  # at the level once the run is the level / this gain


class SinceChange(Phase):
    name = "level / latest gain, in ticks since the current changed"
    latest = None

    def sum_up(self, m, block):
        kept = self.sum if m == self.latest else 0
        self.latest = m
        return kept + self.gain(m)


class FirstGain(Phase):
    name = "level / first gain, in ticks since the start"

    def sum_up(self, m, block):
        if self.run == 1:
            self.first = self.gain(m)
        return self.run * self.first


class FirstDip(Phase):
    name = "clears the sum at the first idle tick"

    def sum_down(self, m):
        return 0


class BlockedSum(Phase):
    name = "adds no gain while the block is 1"

    def sum_up(self, m, block):
        return self.sum if block else super().sum_up(m, block)


class StartsOnRatio(Phase):
    name = "starts where m is above 100"

    def starts(self, g, m):
        return m > 100


class ThinTable(Phase):
    ratios = 110, 150, 200, 300, 500, 1000, 2000
    name = f"X at {', '.join(map(times, ratios))} times the setting, straight lines between"

    def x(self, m):
        low, high = next((low, high) for low, high in pairwise(self.ratios) if m <= high)
        return exact_x(low) + (exact_x(high) - exact_x(low)) * (m - low) // (high - low)


mistakes = {
    "changing_fault": [LatestGain, SinceChange, FirstGain],
    "iec_dips": [FirstDip],
    "blocked_curve": [BlockedSum],
    "just_above": [StartsOnRatio],
    "four_times": [ThinTable]}

# ---- The replay


def read(name):
    """the settings, and the rows without number and timestamp"""
    settings, *rows = ([int(field) for field in line.split(",")] for line in (here / f"{name}.csv").read_text().split())
    return settings, [row[2:] for row in rows]


def changes(relay, settings, rows):
    """row number and output byte, wherever the byte is another"""
    phases = [relay(settings) for _ in range(3)]
    before = 0
    for number, (*currents, block) in enumerate(rows, 1):
        starts, trips = zip(*(phase.tick(g, block) for phase, g in zip(phases, currents)))
        general = () if block else (any(starts), any(trips))
        byte = sum(on << bit for bit, on in enumerate((*starts, *trips, *general)))
        if byte != before:
            yield number, byte
        before = byte


def replay(relay, name):
    """the lines that the replay writes"""
    settings, rows = read(name)
    return [f"{number},{byte}" for number, byte in changes(relay, settings, rows)] + [f"end,{len(rows)},0"]


def first_trip(relay, settings, rows):
    """the row of the first general trip; None without one"""
    return next((number for number, byte in changes(relay, settings, rows) if byte & 128), None)


def lasting(rows):
    """the same without its end: the last row that has a current goes on for a minute"""
    fault = [row for row in rows if any(row[:3])]
    return islice(chain(fault, repeat(fault[-1])), 60000)


# ---- The tables of README.md


def told(relay, name):
    """the first trip, and how far it is from the right one"""
    settings, rows = read(name)
    trip = first_trip(relay, settings, rows)
    if trip is None:
        return f"none; {first_trip(relay, settings, lasting(rows))} if the fault went on"
    late = trip - first_trip(Phase, settings, rows)
    return f"{trip}, {abs(late)} ms {'late' if late > 0 else 'early'}" if late else f"{trip}"


def table(*rows):
    head, *others = ("| " + " | ".join(map(str, row)) + " |" for row in rows)
    return "\n".join([head, "|---" * len(rows[0]) + "|", *others])


def table_of(name):
    """the right relay and the wrong ones on a recording"""
    rows = [(f"`{name}`", "the replay writes", "first trip in row")]
    for relay in (Phase, *mistakes[name]):
        rows.append((relay.name, " ".join(f"`{line}`" for line in replay(relay, name)), told(relay, name)))
    return table(*rows)


def table_of_multiples():
    """the trips of a steady current, at the ratios of the thin table and between them"""
    settings, _ = read("four_times")
    rows = [("times the setting", "trip, ms", "with the thin table, ms", "late, ms", "late, %")]
    for m in sorted((*ThinTable.ratios, 130, 170, 250, 400, 700, 1500)):
        right, thin = (first_trip(relay, settings, lasting([(m * settings[1], 0, 0, 0)])) for relay in (Phase, ThinTable))
        rows.append((times(m), right, thin, thin - right, f"{100 * (thin - right) / right:.1f}"))
    return table(*rows)


# ---- The checks


def check_recordings():
    for name in sorted({path.stem for path in here.glob("*.csv")} - refused):
        if "".join(line + "\n" for line in replay(Phase, name)).encode() != (here / f"{name}.expected").read_bytes():
            yield f"{name}: the rules here do not give {name}.expected"


def check_mistakes():
    for name, relays in mistakes.items():
        for relay in relays:
            if replay(relay, name) == replay(Phase, name):
                yield f"{name}: answered as by the right relay: {relay.name}"


def check_tables(write):
    tables = [*map(table_of, mistakes), table_of_multiples()]
    text = readme.read_text()
    if write:
        for worked_out in tables:  # in place of the table with the same head
            text = re.sub(re.escape(worked_out.split("\n")[0]) + r"(\n\|.*)*", lambda _: worked_out, text)
        readme.write_text(text)
    for worked_out in tables:
        if f"\n\n{worked_out}\n\n" not in text:
            yield f"README.md does not have the table\n{worked_out}"


words = sys.argv[1:]
if words not in ([], ["--write"]):
    print(__doc__, file=sys.stderr)
    sys.exit(2)
wrong = [*check_recordings(), *check_mistakes(), *check_tables(bool(words))]
print(*wrong, f"{len(mistakes)} mistakes, {len(wrong)} wrong", sep="\n")
sys.exit(bool(wrong))
