#!/usr/bin/env python3
"""Writes the recordings of this folder, the configurations and the relays to grade. A recording is a settings line and data rows, one row a
millisecond.

A phase's current is in 0.01 % of rated current; with the start current 200 % (s 200), 40000 is twice the setting.
"""
import pathlib

here = pathlib.Path(__file__).parent


def write_lines(name, lines):
    (here / name).write_bytes("".join(line + "\r\n" for line in lines).encode())


def recording(name, settings, ticks):
    """ticks: (how many, L1, L2, L3, block), one after the other"""
    lines, n = [settings], 0
    for count, l1, l2, l3, block in ticks:
        for _ in range(count):
            n += 1
            lines.append(f"{n},{1000 * (n - 1)},{l1},{l2},{l3},{block}")
    write_lines(name, lines)


def analogue(index, factor):
    """a current of a recorder's configuration, with its conversion factor a"""
    return f"{index},IL{index},L{index},Feeder 7,0.01%In,{factor},0.0,0.0,0,9999999,400.0,1.0,P"


def configuration(name, factors, rows):
    """a recorder's configuration: 50 Hz, 1000 samples a second, so many rows; the trigger is at the fault, row 101"""
    write_lines(name, [
        "Northfield 132/33 kV,Recorder 2,1999", "4,3A,1D", *map(analogue, (1, 2, 3), factors), "1,Block,,Feeder 7,0",
        "50", "1", f"1000,{rows}", "14/03/2003,16:20:04.102000", "14/03/2003,16:20:04.202000", "ASCII", "1"])


# A fault that changes while the relay counts: half the way at twice the setting, then at five times.
recording("changing_fault.csv", "3,200,5,40,40,60,0", [(340, 40000, 0, 0, 0), (90, 100000, 0, 0, 0), (20, 0, 0, 0, 0)])
# IEC VeryInv, reset time 60: a dip of 59 ticks keeps the sum, one of 60 clears it.
recording("iec_dips.csv", "3,200,5,40,40,60,0", [(400, 40000, 0, 0, 0), (59, 0, 0, 0, 0), (280, 40000, 0, 0, 0), (60, 0, 0, 0, 0), (680, 40000, 0, 0, 0)])
# ANSI ExtInv: a dip takes the sum down by the loss tick by tick, a long one to 0.
recording("ansi_dips.csv", "9,200,5,40,40,60,0", [(60, 80000, 0, 0, 0), (300, 0, 0, 0, 0), (70, 80000, 0, 0, 0), (1500, 0, 0, 0, 0), (110, 80000, 0, 0, 0)])
# A trip on L2 that is blocked for a while: the phase trips all the same, the general trip waits for the block.
recording("blocked_trip.csv", "1,200,100,40,50,60,0", [(70, 0, 30000, 0, 1), (10, 0, 30000, 0, 0), (5, 0, 0, 0, 0)])
# A block that goes off while the relay counts: the sum has grown under it.
recording("blocked_curve.csv", "3,200,5,40,40,60,0", [(100, 100000, 0, 0, 1), (200, 100000, 0, 0, 0), (10, 0, 0, 0, 0)])
# Just above the setting: m is 100 up to 20199, and 101 from 20200 on.
recording("just_above.csv", "1,200,100,40,40,60,0", [
    (20, 20001, 0, 0, 0), (20, 20100, 0, 0, 0), (20, 20199, 0, 0, 0), (50, 20200, 0, 0, 0), (10, 0, 0, 0, 0)])
# IEC Inv at four times the setting, all the time.
recording("four_times.csv", "2,200,5,40,40,60,0", [(280, 80000, 0, 0, 0), (10, 0, 0, 0, 0)])
# A motor feeder that chatters around the setting, between 101 % and 96 % of it, and then falls to just below 95 %.
recording("chatter.csv", "1,200,100,40,100,60,0", 15 * [(6, 20200, 0, 0, 0), (4, 19200, 0, 0, 0)] + [(10, 18999, 0, 0, 0)])
# A pecking fault: bursts of 30 ticks, and dips of 20, 20 (at 97 % but for its first tick), 59 and 60 with a reset time of 60.
recording("pecking.csv", "1,200,100,40,100,60,0", [
    (30, 40000, 0, 0, 0), (20, 0, 0, 0, 0), (30, 40000, 0, 0, 0), (1, 0, 0, 0, 0), (19, 19400, 0, 0, 0), (30, 40000, 0, 0, 0),
    (59, 0, 0, 0, 0), (30, 40000, 0, 0, 0), (60, 0, 0, 0, 0), (30, 40000, 0, 0, 0), (10, 0, 0, 0, 0)])
# A damaged row: the 30th has a letter in it.
recording("damaged_row.csv", "1,200,100,40,40,60,0", [(60, 20001, 0, 0, 0)])
path = here / "damaged_row.csv"
path.write_bytes(path.read_bytes().replace(b"30,29000,20001,", b"30,29000,2000x,"))
# A recording that an editor has saved with LF line ends.
recording("lf_ends.csv", "1,200,100,40,40,60,0", [(45, 20001, 0, 0, 0), (5, 0, 0, 0, 0)])
path = here / "lf_ends.csv"
path.write_bytes(path.read_bytes().replace(b"\r\n", b"\n"))
# A fault between L2 and L3 as a recorder has it: load, five times the setting, and the open breaker, where the relay drops out.
recording("recorder.csv", "3,200,5,40,40,60,0", [(100, 9100, 9000, 8900, 0), (190, 9100, 100000, 100000, 0), (30, 0, 0, 0, 0)])
configuration("recorder.cfg", ("1.0", "1.0", "1.0"), 320)
# The same recorder with another range on L2: its numbers would have to be ten times as large.
configuration("recorder_scaled.cfg", ("1.0", "10.0", "1.0"), 320)
# The configuration of a recorder that lost power while it wrote: it ends in the last sample number.
whole = (here / "recorder.cfg").read_bytes()
(here / "recorder_cut.cfg").write_bytes(whole[:whole.index(b"1000,320") + len(b"1000,3")])
# Relays to grade: IEC Inv with its multiplier of 0.30 above 0.15, and IEC ExtInv, which crosses the lower one.
write_lines("upstream.settings", ["2,400,30,40,40,60,0"])
write_lines("downstream.settings", ["2,200,15,40,40,60,0"])
write_lines("crossing.settings", ["4,400,100,40,40,60,0"])
