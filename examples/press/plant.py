#!/usr/bin/env python3
"""Plays a press behind the wire: `ecat segment --live` answers frames, and this program moves what its slaves measure.

    plant.py PORT ECAT..

The valve moves the press down, a spring moves it up. In the second stroke the guard door opens for a while, and in the third the press
loses its power. The program ends when no frame came for three seconds.
"""
import pathlib
import subprocess
import sys
import time

BOTTOM, TICK = 10, 0.005

command = [*sys.argv[2:], "segment", "--live", "--port", sys.argv[1], "--idle", "3"]
segment = subprocess.Popen(command, stdin=subprocess.PIPE, stdout=subprocess.PIPE, text=True)


def say(*lines):
    """Sends lines, and returns what they print as words; `None` if the segment has ended."""
    try:
        print(*lines, "served", sep="\n", file=segment.stdin, flush=True)
    except BrokenPipeError:
        return None
    printed = []
    for line in segment.stdout:
        if line.startswith("served"):
            return printed
        printed.append(line.split())
    return None


def valve(printed):
    """Whether the press publishes an open valve; it publishes nothing before its start-up, or without power."""
    return ["down", "1"] in printed


place = stroke = open_for = 0
was_at_bottom = has_opened = has_failed = False
print(pathlib.Path(__file__).with_name("press.toml").read_text(), "%%", sep="", file=segment.stdin)
while True:
    events = []
    if stroke == 1 and place == 5 and not has_opened:
        has_opened, open_for = True, 40
    if stroke == 2 and place == 5 and not has_failed:
        has_failed = True
        events = ["reset press"]
    is_at_bottom = place == BOTTOM
    # a frame may pass between two lines, so the force is there before the switch says `bottom`
    printed = say(*events, f"in closed {int(open_for == 0)}", f"in force {900 * is_at_bottom}", f"in bottom {int(is_at_bottom)}",
                  f"in top {int(place == 0)}", "out down")
    if printed is None:
        break
    stroke += is_at_bottom and not was_at_bottom
    was_at_bottom, open_for = is_at_bottom, max(open_for - 1, 0)
    place = min(place + 1, BOTTOM) if valve(printed) else max(place - 1, 0)
    time.sleep(TICK)
