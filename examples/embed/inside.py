#!/usr/bin/env python3
"""A control program and its slaves in one process, so that the program is tested without a wire.

    inside.py TABLE [CYCLES]

The plant is a press whose force follows the wanted one by 100 a frame, and a panel whose switches are its lamps. Each fourteenth
answer is lost, each thirtieth comes a cycle late, and a foreign frame comes before each. Exactly the cycles whose answer was lost or
late are not taken.
"""
import collections
import sys

import ecat

PANEL, PRESS = 0, 1


class Plant:
    """The applications of the slaves. They step once a frame."""
    force = 0

    def __call__(self, slave, outputs):
        if slave == PANEL:
            return outputs
        wanted = int.from_bytes(outputs, "little")
        self.force += max(-100, min(100, wanted - self.force))
        return b"\x00\x00" + self.force.to_bytes(2, "little")


class BadWire:
    """A wire to the slaves that loses and holds back answers, and has frames that nobody sent."""

    def __init__(self, slaves):
        self.slaves, self.waiting, self.held, self.count, self.spoilt = slaves, collections.deque(), [], 0, 0

    def send(self, frame):
        self.slaves.send(frame)
        answer = self.slaves.receive()
        self.waiting += [*self.held, b"\x0e\x10" + bytes(14)]
        self.held, self.count = [], self.count + 1
        if self.count % 14 and self.count % 30:
            self.waiting.append(answer)
        else:
            self.spoilt, self.held = self.spoilt + 1, [] if self.count % 30 else [answer]

    def receive(self):
        return self.waiting.popleft() if self.waiting else b""


def main():
    cycles = int((sys.argv + ["1000"])[2])
    with open(sys.argv[1]) as file:
        table = file.read()
    with ecat.Master(table) as m, ecat.Segment(table, Plant()) as slaves:
        m.bring_up(slaves)
        wire = BadWire(slaves)
        m["force_wanted"], taken = 4000, 0
        for _ in range(cycles):
            taken += m.cycle(wire).taken
            m["lamp"] = int(m["force"] > 2000)
        print(f"{cycles} cycles, {wire.spoilt} answers lost or late, {cycles - taken} cycles untaken, force {m['force']}, lamp {m['switches']}")
        sys.exit(cycles - taken != wire.spoilt or cycles >= 100 and (m["force"], m["switches"]) != (4000, 1))


main()
