"""A row of devices is started up and does its lines: by `ecat master`, or by the start-up in Python (retold.py). How that ends, and what is
wrong then at the plant.
"""
from __future__ import annotations

import os
import re
import select
import socket
import subprocess
import time

from direct import Direct
from plant import POLLS, Plant, differences, trespasses, unsettled
from retold import Master
from rows import explained
from tables import names_of, table_of

# no line is of this form: the master prints `bad` and its number, and so says that it has done all before it
MARK = "?"
# a master waits so many milliseconds for an answer
PATIENCE = 20000
# the most seconds that a model may take of a run beside the program: a scan is a few hundred frames for each, and others may be busy
SECONDS = 60


class Wrong(Exception):
    """The master does something that it never may."""


class Session:
    """`ecat master` with a link table, whose frames go to a plant. One thread answers frames and reads what is printed."""

    def __init__(self, program, plant, table):
        self.plant, self.limit = plant, program.limit + SECONDS * len(plant.devices)
        self.printed, self.lines, self.explained = b"", [], ""
        self.socket = socket.socket(socket.AF_INET, socket.SOCK_DGRAM)
        self.socket.bind(("127.0.0.1", 0))
        self.answered = time.monotonic()
        words = ["master", "--to", "127.0.0.1:%d" % self.socket.getsockname()[1], "--patience", str(PATIENCE), "--explain"]
        self.master = program.start(words, stdin=subprocess.PIPE, stdout=subprocess.PIPE, stderr=subprocess.PIPE)
        self.write(table + "%%\n")

    def __enter__(self):
        return self

    def __exit__(self, *_):
        self.master.kill()
        self.master.communicate()
        self.socket.close()

    def write(self, text):
        try:
            self.master.stdin.write(text.encode())
            self.master.stdin.flush()
        except BrokenPipeError:
            pass  # it refused its table: what it says of that is read

    def serve(self):
        """A frame passes the plant. Before it there was a silence since the last answer."""
        payload, sender = self.socket.recvfrom(2000)
        answer = self.plant.answer(payload, time.monotonic() - self.answered)
        self.answered = time.monotonic()
        if answer is not None:
            self.socket.sendto(answer, sender)

    def tell(self, *lines):
        """The master does these lines. Returns what it printed meanwhile, or nothing if it has ended."""
        self.lines += [*lines, MARK]
        self.write("".join(f"{line}\n" for line in (*lines, MARK)))
        end = re.compile(rb"^bad %d\n" % len(self.lines), re.M)
        until = time.monotonic() + self.limit
        while not (found := end.search(self.printed)):
            ready, _, _ = select.select([self.socket, self.master.stdout], [], [], max(0, until - time.monotonic()))
            if self.socket in ready:
                self.serve()
            elif self.master.stdout in ready:
                more = os.read(self.master.stdout.fileno(), 65536)
                if not more:
                    return None
                self.printed += more
            elif not ready:
                raise Wrong(f"it isn't done with `{lines[-1]}` after {self.limit} s")
        printed, self.printed = self.printed[: found.start()], self.printed[found.end() :]
        return printed.decode().splitlines()

    def refusal(self):
        """What it says on standard error of its table, once it has ended."""
        _, told = self.master.communicate()
        found = re.match(r"ecat: (.*)", told.decode())
        return found[1] if found else f"it ended with {self.master.returncode}, {told.decode()!r}"

    def start_up(self):
        """The end of the start-up: `up`, or a refusal with its values."""
        printed = self.tell("ready")
        if printed is None:
            return self.refusal()
        if printed == ["ready"]:
            return "up"
        # with --explain the refusal stands in the line behind `failed`
        self.explained = "\n".join(printed[1:])
        found = re.match(r"  (\d+ \w+(?: \d+)*):", self.explained)
        return found[1] if found and printed[0].startswith("failed ") else f"it printed {printed}"

    def wrong_lines(self, printed):
        """What the master says of lines that it couldn't do, or that aren't met."""
        for said in ["it has ended"] if printed is None else printed:
            word, _, number = said.partition(" ")
            if word in ("unmet", "no") and number.isdigit():
                yield f"{word} `{self.lines[int(number) - 1]}`"
            elif not said.startswith(("report ", "  ")):
                yield said


class Retold(Session):
    """The same of the start-up that is retold in Python: it has its lines done by itself."""

    def __init__(self, kinds, plant):
        self.plant, self.lines, self.was_taken = plant, [], False
        self.master = Master(Direct(plant), plant, kinds)
        self.start_up = self.master.start_up
        self.variables = {
            f"{name}_{one.name}": (place, one.objects)
            for place, (name, kind) in enumerate(zip(names_of(kinds), kinds)) for one in kind.variables}

    def __exit__(self, *_):
        pass

    def tell(self, *lines):
        """Prints `unmet` and the line's number of each expectation that isn't met."""
        self.lines += lines
        first = len(self.lines) - len(lines) + 1
        return [f"unmet {number}" for number, line in enumerate(lines, first) if not self.do(line.split())]

    def do(self, words):
        """Does a line; whether it is met. A value may be written with its sign."""
        if words[-1] == "cycle":
            for _ in range(int(words[1]) if len(words) > 1 else 1):
                self.was_taken = self.master.cycle()
            return True
        if words == ["expect", "taken"]:
            return self.was_taken
        place, entries = self.variables[words[1]]
        value = int(words[-1], 0)
        if words[0] == "set":
            self.master.put(place, entries, value)
            return True
        _, places = self.master.places(place, entries)
        mask = int(words[3], 0) if words[2] == "&" else (1 << sum(bits for _, bits in places)) - 1
        return (self.master.get(place, entries) ^ value) & mask == 0


def look(device, what, value):
    """What a device shows must be a value."""
    came = device.looks()[what]
    return [] if came == value else [f"{what} {came}, wanted {value}"]


def do_steps(session, row, steps):
    """Does the steps of a row: lines of the master together, and looks at the plant between them. Returns what is wrong."""
    devices, found, lines = dict(zip(names_of(row.kinds), session.plant.devices)), [], []

    def flush():
        if lines:
            found.extend(session.wrong_lines(session.tell(*lines)))
            lines.clear()

    for step in steps:
        word, _, rest = step.partition(" ")
        if word not in ("plant", "silence"):
            lines.append(step)
            continue
        flush()
        if word == "silence":
            session.plant.pass_time(int(rest) / 1000)
        else:
            name, what, value = rest.split(" ", 2)
            found += [f"{name}: {one}" for one in look(devices[name], what, value)]
    flush()
    return found


def at_devices(row, plant, judge):
    """What is wrong at the devices of a plant, each with its name if there are several."""
    for name, device in zip(names_of(row.kinds), plant.devices):
        yield from (f"{name}: {one}" if len(row.kinds) > 1 else one for one in judge(device))


def brought_up(session, row, judges):
    """The end of a row that a session starts up, with what is wrong then and at last."""
    plant, found = session.plant, []
    with session:
        end = session.start_up()
        if end == "up":
            found += do_steps(session, row, row.lines())
            for judge in judges:
                found += at_devices(row, plant, judge)
            found += do_steps(session, row, row.more())
        found += at_devices(row, plant, trespasses)
    if plant.most_polls > POLLS:
        found.append(f"{plant.most_polls} polls of one wait")
    if plant.others:
        found.append(f"{plant.others} payloads were no frames")
    return end + ", but " + "; ".join(dict.fromkeys(found)) if found else end


def attempt(program, row, is_hardware):
    """The end of a row with one of its tables."""
    plant = Plant([kind() for kind in row.kinds])
    session = Session(program, plant, table_of(row.kinds, is_hardware)) if program else Retold(row.kinds, plant)
    end = brought_up(session, row, (differences, unsettled) if is_hardware else (differences,))
    missing = [phrase for phrase in explained(row.name, is_hardware) if program and phrase not in session.explained]
    return end + "".join(f", explained without `{phrase}`" for phrase in missing)
