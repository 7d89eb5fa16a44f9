#!/usr/bin/env python3
"""Controls the press over the wire with `ecat master`: three strokes, none while the guard door is open.

    control.py PORT ECAT..

It prints what happens. If the press doesn't answer as planned, it starts the slaves up again.
"""
import pathlib
import subprocess
import sys
import time

command = [*sys.argv[2:], "master", "--to", f"127.0.0.1:{sys.argv[1]}"]
master = subprocess.Popen(command, stdin=subprocess.PIPE, stdout=subprocess.PIPE, text=True)


def say(line, answers=1):
    """Sends a line, and returns the lines that it prints as words."""
    print(line, file=master.stdin, flush=True)
    return [master.stdout.readline().split() for _ in range(answers)]


def start_up():
    """Starts the slaves up. A press that isn't there for ten seconds ends the program."""
    for _ in range(200):
        if say("ready")[0][0] == "ready":
            return
        time.sleep(0.05)
    sys.exit("the press doesn't answer")


print(pathlib.Path(__file__).with_name("press.toml").read_text(), "%%", sep="", file=master.stdin)
start_up()
print("ready")
# slaves that start up publish zeros at first: the door is closed once the plant says so
strokes, is_going_down, was_closed = 0, False, False
while strokes < 3 or is_going_down:
    say(f"set down {int(is_going_down and was_closed)}", 0)
    [report] = say("cycle")
    if "untaken" in report:
        print("a unit isn't taken")
        start_up()
        print("ready again")
        was_closed = False
        continue
    inputs = {name: int(number) for name, number in say("show", 4)}
    if inputs["closed"] != was_closed:
        was_closed = bool(inputs["closed"])
        print("the door is closed" if was_closed else "the door opens, the press goes up")
    if inputs["bottom"] and is_going_down:
        strokes += 1
        print(f"stroke {strokes} with force {inputs['force']}")
        is_going_down = False
    elif inputs["top"] and was_closed and strokes < 3:
        is_going_down = True
    time.sleep(0.002)
