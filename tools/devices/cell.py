"""The cell of examples/cell: its devices, what happens to them while its control program runs, and what that program prints then."""
from __future__ import annotations

import dataclasses
import os
import pathlib
import select
import socket
import subprocess
import sys
import time
from collections.abc import Iterator

import models
from models import bits_of
from plant import Plant, differences, trespasses, unsettled
from slave import Slave, Variable, places_of

TOP = pathlib.Path(__file__).resolve().parent.parent.parent
TABLE, CONTROL = TOP / "examples" / "cell" / "cell.toml", TOP / "examples" / "cell" / "control.py"
# the most frames that a step of the story waits for, and the most seconds of a run
MOST_FRAMES, LIMIT = 20000, 600


class Panel(models.EL1008):
    variables = (Variable("switches", bits_of(0x6000, 8), 0),)


class Lights(models.EL2008):
    variables = (Variable("lamps", bits_of(0x7000, 8), 0),)


class Levers(models.EL3104Compact):
    """The first one has a filter."""

    settings, own_init = models.EL3104Filtered.settings, models.EL3104Filtered.init
    variables = (Variable("lever", ((0x6000, 17),), 0),)


class Gauges(models.EL4002):
    """Its assignment can't be written."""

    fixed = True
    variables = (Variable("gauge", ((0x7000, 1),), 0),)


class Axis(models.DriveShouting):
    """A drive that shouts, and is late. It has its mode from its type, and its time from its slave."""

    settings = models.DriveShouting.settings | {(0x60C2, 2): (0, 1)}
    init, own_init = ((0x6060, 0, 8, models.CSP),), ((0x60C2, 1, 8, 2), (0x60C2, 2, 8, -3))


KINDS = {"coupler": models.EK1100, "panel": Panel, "lights": Lights, "levers": Levers, "gauges": Gauges, "axis": Axis}
# `until DEVICE WHAT VALUE` waits until a device shows a value, `give DEVICE VARIABLE VALUE` sets what a device measures, `frames N` lets
# frames pass, `silence MS` time without any, and `judge` looks at all devices
STORY = (
    "until axis axis 27", "judge", "give panel switches 5", "until lights pins 05",
    # the axis follows, and the gauge shows it
    "give levers lever 4711", "until axis position 4711", "until gauges pins 67120000",
    "give levers lever -300", "until axis position -300", "until gauges pins d4fe0000",
    # without the switch it stays
    "give panel switches 4", "until lights pins 04", "give levers lever 9000", "frames 100", "until axis position -300",
    # the drive's watchdog: it has a fault, leaves OP, and is started up again with all others
    "silence 200", "until axis state SAFEOP+ERROR 001b", "until axis axis 08", "until axis state OP", "until axis axis 27",
    "give panel switches 5", "until axis position 9000", "until gauges pins 28230000",
    # the end
    "give panel switches 132", "until axis axis 40", "until lights pins 00", "until gauges pins 00000000", "until axis position 9000")
PRINTED = """\
all slaves are in OP
axis: switch on disabled
axis: ready to switch on
axis: switched on
axis: operation enabled
axis: at 0
axis: at 4711
axis: at -300
cycles fail: starting up again
all slaves are in OP
axis: fault
axis: switch on disabled
axis: ready to switch on
axis: switched on
axis: operation enabled
axis: at 9000
axis: switched on
axis: ready to switch on
axis: switch on disabled
all outputs are 0
"""


def give(device: Slave, name: str, value: int) -> None:
    """What a device measures from now on."""
    places = places_of(device.chosen(1))
    bits = sum(places[entry][1] for one in device.variables if one.name == name for entry in one.objects)
    device.variables = tuple(dataclasses.replace(one, value=value % 2**bits) if one.name == name else one for one in device.variables)


def told(plant: Plant, found: list[str]) -> Iterator[str]:
    """The story goes on as far as it can, and yields what it waits for. What is wrong at the devices is put into `found`."""
    devices = dict(zip(KINDS, plant.devices))
    for step in STORY:
        word, *rest = step.split(" ", 3)
        if word == "until":
            while devices[rest[0]].looks()[rest[1]] != rest[2]:
                yield step
        elif word == "give":
            give(devices[rest[0]], rest[1], int(rest[2]))
        elif word == "frames":
            for _ in range(int(rest[0])):
                yield step
        elif word == "silence":
            plant.pass_time(int(rest[0]) / 1000)
        else:
            found += [f"{name}: {one}" for name, device in devices.items() for one in (*differences(device), *unsettled(device))]


def served(plant: Plant, wire: socket.socket, control: subprocess.Popen[bytes]) -> tuple[str, list[str]]:
    """Answers frames until the control program has ended, while the story goes on. Returns what it printed, and what is wrong."""
    found: list[str] = []
    story, printed, answered = told(plant, found), b"", time.monotonic()
    waits_for, left, until = next(story, None), MOST_FRAMES, answered + LIMIT
    while left and time.monotonic() < until:
        ready, _, _ = select.select([wire, control.stdout], [], [], 1)
        if wire in ready:
            payload, sender = wire.recvfrom(2000)
            answer = plant.answer(payload, time.monotonic() - answered)
            answered = time.monotonic()
            if answer is not None:
                wire.sendto(answer, sender)
            if waits_for:
                before, waits_for = waits_for, next(story, None)
                left = left - 1 if waits_for == before else MOST_FRAMES
        elif control.stdout in ready:
            more = os.read(control.stdout.fileno(), 65536)
            if not more:
                break
            printed += more
    # firmware takes what the last frame brought
    plant.pass_time(0.001)
    waits_for = waits_for and next(story, None)
    return printed.decode(), found + [f"it waits for `{waits_for}`"] * bool(waits_for)


def run_cell(library: str) -> list[str]:
    """Runs the control program over the devices, with a library. Returns what is wrong."""
    plant = Plant([kind() for kind in KINDS.values()])
    paths = os.pathsep.join(filter(None, (os.environ.get("PYTHONPATH"), str(TOP / "python"))))
    with socket.socket(socket.AF_INET, socket.SOCK_DGRAM) as wire:
        wire.bind(("127.0.0.1", 0))
        control = subprocess.Popen([sys.executable, CONTROL, "127.0.0.1:%d" % wire.getsockname()[1]], stdout=subprocess.PIPE,
                                   stderr=subprocess.PIPE, env={**os.environ, "PYTHONPATH": paths, "ECAT_LIBRARY": library})
        try:
            printed, found = served(plant, wire, control)
            if not found:
                control.wait(timeout=LIMIT)
        finally:
            control.kill()
            _, words = control.communicate()
    found += [f"{name}: {one}" for name, device in zip(KINDS, plant.devices) for one in trespasses(device)]
    found += [f"it printed:\n{printed}"] * (printed != PRINTED)
    return found + [f"it ended with {control.returncode}: {words.decode()}"] * (control.returncode != 0)
