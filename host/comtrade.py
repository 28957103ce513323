#!/usr/bin/env python3
"""Opens a pair of files NAME.cfg and NAME.dat as a viewer of COMTRADE does, by the rules of IEEE C37.111-1999 for ASCII files, but for
one: values may have seven digits, where the standard has five.

    host/comtrade.py NAME

It writes what a viewer shows: the station and the device, a line for each channel, and for each sample its number, its time in
seconds, the analogue values in their unit and the status values. Where a file breaks a rule it says so and ends with 1.
"""
import datetime
import re
import sys
from decimal import Decimal


class Broken(Exception):
    pass


def need(holds, rule):
    if not holds:
        raise Broken(rule)


def lines_of(name):
    """each line is closed by CR LF, and nothing but a mark for the end of the file stands after the last"""
    with open(name, "rb") as file:
        text = file.read().decode("ascii").removesuffix("\x1a")
    need(text.endswith("\r\n"), f"{name} does not end with CR LF")
    lines = text[:-2].split("\r\n")
    need(not any("\r" in line or "\n" in line for line in lines), f"{name} has a CR or an LF by itself")
    return lines


def whole(text, low, high, what):
    need(re.fullmatch(r"[+-]?[0-9]+", text.strip()), f"{what} is no whole number: '{text}'")
    need(low <= int(text) <= high, f"{what} is outside {low} to {high}: {text}")
    return int(text)


def real(text, what):
    need(re.fullmatch(r"[+-]?[0-9]+(\.[0-9]+)?([Ee][+-]?[0-9]+)?", text.strip()), f"{what} is no number: '{text}'")
    return Decimal(text.strip())


def words(text, most, what):
    need(len(text) <= most, f"{what} has more than {most} characters")
    return text


def moment(line, what):
    """dd/mm/yyyy,hh:mm:ss.ssssss"""
    line = ",".join(field.strip() for field in line.split(","))
    need(re.fullmatch(r"\d\d?/\d\d?/\d{4},\d\d:\d\d:\d\d\.\d{6}", line), f"{what} is no date and time: '{line}'")
    try:
        return datetime.datetime.strptime(line, "%d/%m/%Y,%H:%M:%S.%f")
    except ValueError:
        raise Broken(f"{what} is not in the calendar: '{line}'") from None


class Lines:
    """the lines of a configuration, one after the other"""

    def __init__(self, lines):
        self.lines = iter(lines)

    def fields(self, count, what):
        line = next(self.lines, None)
        need(line is not None, f"the line of {what} is missing")
        fields = line.split(",")
        need(len(fields) == count, f"the line of {what} has {len(fields)} fields, not {count}: '{line}'")
        return fields


class Configuration:
    def __init__(self, name):
        lines = Lines(lines_of(name))
        station, device, year = lines.fields(3, "the station")
        self.station, self.device = words(station, 64, "the station"), words(device, 64, "the device")
        need(year == "1999", f"the revision is {year}, not 1999")
        total, analogue, status = lines.fields(3, "the number of channels")
        need(analogue.endswith("A") and status.endswith("D"), "the counts of channels end with A and D")
        analogues, statuses = whole(analogue[:-1], 0, 999999, "analogue channels"), whole(status[:-1], 0, 999999, "status channels")
        need(whole(total, 1, 999999, "channels") == analogues + statuses, "the channels are not the sum of both kinds")
        self.analogues = [self.analogue(lines.fields(13, "an analogue channel"), i + 1) for i in range(analogues)]
        self.statuses = [self.status(lines.fields(5, "a status channel"), i + 1) for i in range(statuses)]
        self.frequency = real(lines.fields(1, "the frequency")[0], "the frequency")
        need(whole(lines.fields(1, "the number of rates")[0], 1, 999, "the number of rates") == 1, "more than one rate")
        rate, last = lines.fields(2, "the rate")
        self.rate, self.samples = real(rate, "the rate"), whole(last, 1, 9999999999, "the last sample number")
        self.first, self.trigger = (moment(",".join(lines.fields(2, what)), what) for what in ("the first sample", "the trigger"))
        need(self.first <= self.trigger, "the trigger is before the first sample")
        need(lines.fields(1, "the file type")[0].upper() == "ASCII", "the data file is not ASCII")
        self.multiplier = real(lines.fields(1, "the multiplier")[0], "the multiplier")
        need(next(lines.lines, None) is None, "lines follow the multiplier")

    @staticmethod
    def analogue(fields, index):
        need(whole(fields[0], 1, 999999, "a channel's index") == index, f"analogue channel {index} has index {fields[0]}")
        name, phase, part, unit = (words(fields[i], most, "a channel") for i, most in ((1, 64), (2, 2), (3, 64), (4, 32)))
        need(unit != "", f"analogue channel {index} has no unit")
        a, b = real(fields[5], "a"), real(fields[6], "b")
        real(fields[7], "the skew"), real(fields[10], "the primary"), real(fields[11], "the secondary")
        low, high = (whole(text, -9999999, 9999999, "a channel's range") for text in fields[8:10])
        need(fields[12] in ("P", "p", "S", "s"), f"analogue channel {index} is neither P nor S")
        return name, phase, unit, a, b, low, high

    @staticmethod
    def status(fields, index):
        need(whole(fields[0], 1, 999999, "a channel's index") == index, f"status channel {index} has index {fields[0]}")
        need(fields[4] in ("0", "1"), f"status channel {index} has no normal state")
        return words(fields[1], 64, "a channel"), words(fields[2], 2, "a phase")


def samples(configuration, name):
    lines = lines_of(name)
    need(len(lines) == configuration.samples, f"{len(lines)} samples, where the configuration has {configuration.samples}")
    for number, line in enumerate(lines, 1):
        fields = line.split(",")
        need(len(fields) == 2 + len(configuration.analogues) + len(configuration.statuses), f"sample {number} has {len(fields)} fields")
        need(whole(fields[0], 1, 9999999999, "a sample number") == number, f"sample {fields[0]} where {number} is due")
        time = whole(fields[1], 0, 9999999999, "a timestamp") * configuration.multiplier / 1000000
        need(time == (number - 1) / configuration.rate, f"sample {number} is at {time} s, which the rate does not give")
        values = fields[2 : 2 + len(configuration.analogues)]
        shown = [a * whole(value, low, high, "a value") + b for value, (_, _, _, a, b, low, high) in zip(values, configuration.analogues)]
        states = fields[2 + len(configuration.analogues) :]
        need(all(state in ("0", "1") for state in states), f"sample {number} has a state that is neither 0 nor 1")
        yield number, time, shown, states


def main(name):
    configuration = Configuration(name + ".cfg")
    rows = [*samples(configuration, name + ".dat")]
    print(f"{configuration.station}, {configuration.device}, {configuration.frequency} Hz, {configuration.rate} samples a second")
    print(f"first sample {configuration.first.isoformat(' ', 'microseconds')}, trigger {configuration.trigger.isoformat(' ', 'microseconds')}")
    for title, phase, unit, *_ in configuration.analogues:
        print(f"{title} ({phase}) in {unit}")
    for title, _ in configuration.statuses:
        print(title)
    for number, time, shown, states in rows:
        print(",".join([str(number), f"{time:.3f}", *(f"{value:.2f}" for value in shown), *states]))


if len(sys.argv) != 2:
    sys.exit("usage: host/comtrade.py NAME")
try:
    main(sys.argv[1])
except BrokenPipeError:
    sys.exit(2)
except (Broken, OSError, UnicodeDecodeError) as fault:
    sys.exit(f"not a pair of COMTRADE files: {fault}")
