#!/usr/bin/env python3
"""Controls the cell over UDP, with libecat's package for Python: an axis follows a lever.

    control.py [ADDRESS:PORT]

While switch 0 is on, the axis goes where the lever is; else it stays where it is. The gauge shows its position, and each lamp a switch.
Switch 7 ends the program, and so does Ctrl-C: the drive is switched off step by step, and all outputs become 0. If cycles fail in a row, or
a slave leaves OP, all are started up again.

It prints what happens, and ends with status 1 if twenty start-ups in a row fail. Ctrl-C during a start-up ends it so too, once that one
has failed; outputs aren't set then.
"""
import pathlib
import signal
import sys
import time

import ecat
from ecat.wires import UdpWire

TABLE = pathlib.Path(__file__).with_name("cell.toml").read_text()
# seconds between two cycles, as `axis` is told in the table, and between two start-ups
PERIOD, PAUSE = 0.002, 0.5
# how many cycles may fail in a row, and how many start-ups; how many cycles the drive has for the way down
MOST_FAILED, MOST_STARTED, MOST_DOWN = 5, 20, 500
FOLLOW, END, OP = 0x01, 0x80, 8
FAULT, DISABLED, ENABLED = "fault", "switch on disabled", "operation enabled"
RESET = 0x80
# CiA 402: a state, the bits of the status word that say it, and the control words for the next state up and down
STATES = (
    (FAULT, 0x4F, 0x08, RESET, 0),
    (DISABLED, 0x4F, 0x40, 6, 0),
    ("ready to switch on", 0x6F, 0x21, 7, 0),
    ("switched on", 0x6F, 0x23, 15, 6),
    (ENABLED, 0x6F, 0x27, 15, 7),
)
# what a status word between two states says
OTHER = ("changing", 0, 0, 0, 0)


class Cell:
    """The machine: its master, and what was last seen of it."""

    def __init__(self, wire):
        self.wire, self.master, self.failed = wire, None, 0
        self.state, self.place, self.is_ending = None, None, False

    def start_up(self):
        """Brings the slaves up by a new master. After a failure its frames take new numbers, so no late answer fits them."""
        self.master = ecat.Master(TABLE)
        for _ in range(MOST_STARTED):
            if self.is_ending:
                sys.exit("ended before the slaves came up")
            try:
                self.master.bring_up(self.wire)
                print("all slaves are in OP", flush=True)
                return
            except ecat.Failed as failure:
                print(failure, flush=True)
                time.sleep(PAUSE)
        sys.exit("the slaves don't come up")

    def cycle(self):
        """Runs a cycle. Returns whether it is good: real slaves go on counting in SAFEOP, so their states are looked at too."""
        time.sleep(PERIOD)
        report = self.master.cycle(self.wire)
        is_good = report.taken and report.al == OP
        self.failed = 0 if is_good else self.failed + 1
        return is_good

    def drive(self, is_on):
        """The control word of the next cycle leads a state up or down. Returns whether the state is the last one."""
        m = self.master
        state, _, _, up, down = next((one for one in STATES if m["status"] & one[1] == one[2]), OTHER)
        if state != self.state:
            self.state = state
            print("axis:", state, flush=True)
        control = up if is_on else down
        # a fault is reset by the bit's edge
        m["control"] = 0 if control & m["control"] & RESET else control
        return state == ENABLED if is_on else state in (DISABLED, FAULT)

    def control(self):
        """What the machine does in each cycle."""
        m, position = self.master, self.master.signed("position")
        follows = self.drive(True) and m["switches"] & FOLLOW
        target = m.signed("lever") if follows else position
        m["target"] = target
        m["gauge"] = max(-0x8000, min(0x7FFF, position))
        m["lamps"] = m["switches"]
        if follows and target == position != self.place:
            self.place = position
            print("axis: at", position, flush=True)

    def run(self):
        """Brings the slaves up and runs cycles, until the end is asked for."""
        self.start_up()
        while not self.is_ending:
            if self.cycle():
                self.control()
                self.is_ending |= bool(self.master["switches"] & END)
            elif self.failed == MOST_FAILED:
                print("cycles fail: starting up again", flush=True)
                self.failed = 0
                self.start_up()

    def stop(self):
        """Holds the axis, leads the drive down, and sets all outputs to 0."""
        m = self.master
        for _ in range(MOST_DOWN):
            if self.cycle():
                m["target"] = m.signed("position")
                if self.drive(False):
                    break
        m.set_outputs(bytes(m.set_outputs(b"")))
        self.cycle()
        print("all outputs are 0", flush=True)


def main():
    address, _, port = (sys.argv[1:] + ["127.0.0.1:34980"])[0].partition(":")
    cell = Cell(UdpWire(address, int(port)))

    def end(*_):
        cell.is_ending = True

    signal.signal(signal.SIGINT, end)
    cell.run()
    cell.stop()


main()
