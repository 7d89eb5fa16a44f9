#!/usr/bin/env python3
"""A control program over a network card. It needs the right to open raw sockets (CAP_NET_RAW).

    card.py INTERFACE TABLE [CYCLES]

It switches the lamp on and off, and ends with status 1 if a cycle isn't taken.
"""
import sys
import time

import ecat
from ecat.wires import CardWire


def main():
    interface, table, cycles = sys.argv[1], sys.argv[2], int((sys.argv + ["1000"])[3])
    with open(table) as file, ecat.Master(file.read()) as m, CardWire(interface) as wire:
        taken, al = 0, 0
        m.bring_up(wire)
        begun = time.monotonic()
        for k in range(cycles):
            m["lamp"] = k & 1
            report = m.cycle(wire)
            taken, al = taken + report.taken, report.al
        microseconds = (time.monotonic() - begun) * 1e6 / max(cycles, 1)
    print(f"{cycles} cycles, {taken} taken, AL {al:04x}, {microseconds:.1f} us a cycle")
    sys.exit(taken != cycles)


main()
