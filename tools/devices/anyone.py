"""Rows of devices at random: what a data sheet may say within the limits of a table for hardware, each from a seed."""
from __future__ import annotations

import random

from coe import EOE, Coe, emergency
from esc import NO_LRW, Chip
from rows import Row
from slave import PREOP, SAFEOP, Area, Pdo, Slave, Smart, Variable

# bits of an entry, and bits of all process data of a device in one direction; pins have four bytes
ENTRY_BITS, AREA_BITS, PINS_BITS = (1, 1, 2, 3, 4, 7, 8, 8, 12, 16, 16, 24, 32, 40, 64), (8, 60, 400), 32
# what control bytes have besides the mode, in bits 4 to 7; pins need a watchdog
OUT_CONTROLS, PINS_CONTROLS, IN_CONTROLS = (0x04, 0x24, 0x44, 0x64), (0x44, 0x64), (0x00, 0x10, 0x20)


def any_objects(chance: random.Random, index: int, entry: int, most: int) -> tuple[Pdo, ...]:
    """Process data objects of at most so many bits: some are empty, some entries are gaps."""
    found, left = [], most
    for place in range(chance.randint(1, 3)):
        entries = []
        for _ in range(chance.randint(0, 5)):
            bits = min(left, chance.choice(ENTRY_BITS))
            if bits and chance.random() < 0.2:
                entries.append((0, 0, bits))
            elif bits:
                entries.append((entry, chance.randint(0, 255), bits))
                entry += 1
            left -= bits
        found.append(Pdo(index + place, tuple(entries)))
    return tuple(found)


def any_variables(chance: random.Random, name: str, pdos: tuple[Pdo, ...]) -> tuple[Variable, ...]:
    """Variables of some of the entries, of one or of several in any order, with any values."""
    entries = [one for pdo in pdos for one in pdo.entries if one[0]]
    chance.shuffle(entries)
    found = []
    while entries and chance.random() < 0.8:
        taken = [entries.pop()]
        while entries and sum(one[2] for one in taken) + entries[-1][2] <= 64 and chance.random() < 0.4:
            taken.append(entries.pop())
        value = chance.getrandbits(sum(one[2] for one in taken))
        found.append(Variable(f"{name}{len(found)}", tuple(one[:2] for one in taken), value))
    return tuple(found)


def any_managers(chance: random.Random, has_mailbox: bool, outputs: tuple[Pdo, ...], inputs: tuple[Pdo, ...]) -> tuple[int, int]:
    """Numbers of the managers of outputs and inputs. A direction without objects has the usual one in a table, so the other isn't that."""
    numbers = [2, 3] if has_mailbox else [0, 1, 2, 3]
    out, into = chance.sample(numbers, 2)
    return (2, 3) if not inputs and out == 3 or not outputs and into == 2 else (out, into)


def any_mailbox(chance: random.Random) -> dict[str, object]:
    """A mailbox and what its firmware does there: parameters that it wants, messages that nobody asked for, replies that are late, or of
    another size."""
    size, settings, init = chance.choice((16, 40, 128)), {}, []
    for sub in range(1, 1 + chance.choice((0, 0, 1, 5))):
        settings[0x8000, sub] = 0, (count := chance.choice((1, 2, 4)))
        init.append((0x8000, sub, 8 * count, chance.randint(-(1 << 8 * count - 1), (1 << 8 * count) - 1)))
    said = chance.choice(((), (emergency(0x5000),), (emergency(0xFF00, 0x81, b"hello"), (EOE, bytes(10)))))
    return {
        "mailbox": (0x1000, size, 0x1080, size), "settings": settings, "init": tuple(init), "own_init": tuple(chance.sample(init, len(init) // 2)),
        "greetings": said, "is_chatty": bool(said) and chance.random() < 0.3, "fixed": chance.random() < 0.3,
        "is_unsized": chance.random() < 0.2, "is_wide": chance.random() < 0.2, "sdo_time": chance.choice((0.0, 0.0, 0.004))}


def any_fault(chance: random.Random, settings: dict[tuple[int, int], tuple[int, int]], pdos: tuple[Pdo, ...]) -> dict[str, object]:
    """What makes a mailbox end a start-up, if it comes to that: it refuses a parameter, maps something else, falls silent, or answers
    something else."""
    faults = [{"takes": chance.randint(0, 4)}, {"is_keeping": True}, {"is_wrong": True}, {"is_beside": True}, {"is_erring": True},
              {"greetings": (emergency(0x5000),), "is_chatty": True, "answers": chance.randint(0, 4)}, {"late": {(0x1C12, 0): 20.0, (0x1C13, 0): 20.0}}]
    for key, (_, size) in settings.items():
        rest = {one: value for one, value in settings.items() if one != key}
        faults += [{"settings": rest}, {"settings": settings | {key: (0, size % 4 + 1)}}, {"highest": {key: 0}}]
    faults += [{"mapped": {pdo.index: (*pdo.entries, (0x2000, 1, 8))}} for pdo in pdos]
    return chance.choice(faults)


def any_device(chance: random.Random, name: str) -> type[Slave]:
    """With firmware or without, whose outputs then are pins; with a mailbox or without."""
    has_firmware = chance.random() < 0.6
    has_mailbox = has_firmware and chance.random() < 0.6
    outputs, inputs = (
        any_objects(chance, index, entry, most) if chance.random() < 0.75 else ()
        for index, entry, most in ((0x1600, 0x7000, chance.choice(AREA_BITS) if has_firmware else PINS_BITS), (0x1A00, 0x6000, chance.choice(AREA_BITS))))
    out_number, in_number = any_managers(chance, has_mailbox, outputs, inputs)
    out_start = 0x1100 + chance.randint(0, 64) if has_firmware else 0x0F00
    sheet = {
        "vendor": chance.randint(1, 9), "product": chance.getrandbits(32), "revision": chance.getrandbits(32), "any_revision": chance.random() < 0.5,
        "chip": Chip(0x11, chance.choice((2, 3, 4, 8)), chance.choice((4, 8)), 8, NO_LRW if chance.random() < 0.25 else 0),
        "outputs": outputs, "inputs": inputs, "variables": any_variables(chance, "out", outputs) + any_variables(chance, "in", inputs),
        "out_area": Area(out_number, out_start, chance.choice(OUT_CONTROLS if has_firmware else PINS_CONTROLS)),
        "in_area": Area(in_number, 0x1400 + chance.randint(0, 64), chance.choice(IN_CONTROLS))}
    if has_firmware:
        has_outputs = any(pdo.bits for pdo in outputs)
        sheet |= {"patience": chance.choice((None, 0.0, 5.0)) if has_outputs else None, "delays": chance.choice(({}, {PREOP: 0.02, SAFEOP: 0.01}))}
    if has_mailbox:
        sheet |= any_mailbox(chance)
        if chance.random() < 0.2:
            sheet |= any_fault(chance, sheet["settings"], (*outputs, *inputs))
    return type(name, (Coe if has_mailbox else Smart if has_firmware else Slave,), sheet)


def any_row(seed: int) -> Row:
    """One to six devices, at times the first once more."""
    chance = random.Random(seed)
    kinds = [any_device(chance, f"Any{place}") for place in range(chance.randint(1, 6))]
    return Row(f"seed {seed}", kinds + kinds[:1] * (chance.random() < 0.3))
