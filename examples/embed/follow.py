#!/usr/bin/env python3
"""A control program over UDP: it lights the lamp, and the two valves follow the first two switches.

    follow.py CYCLES < TABLE

A segment of the table answers on port 34980 of this computer. The program ends with status 1 if a cycle isn't taken.
"""
import sys

import ecat
from ecat.wires import UdpWire


def main():
    cycles, taken = int(sys.argv[1]), 0
    with ecat.Master(sys.stdin.read()) as m, UdpWire("127.0.0.1") as wire:
        m.bring_up(wire)
        m["lamp"] = 1
        for _ in range(cycles):
            taken += m.cycle(wire).taken
            m["valves"] = m["switches"] & 3
        print(f"cycles {taken} switches {m['switches']} valves {m['valves']}")
    sys.exit(taken != cycles)


main()
