"""Devices that are compared with tables by `ecat scan --against`: what it must print, and how it must end.

Each is worked out by hand: a slave differs if a start-up by the table would refuse it, or read other values than the table says.
"""
from __future__ import annotations

import pathlib
import tempfile

from models import Quick, Repeats, SpareObject
from plant import Plant
from scanned import Scan
from slave import Pdo, Variable
from tables import table_of

WORD, WIDE = ((0x6000, 1, 16),), ((0x6010, 1, 240),)
ONE, TWO, THREE = (0x6000, 1, 8), (0x6000, 2, 8), (0x6000, 3, 8)
FORCE = (Variable("force", ((0x6000, 1),), 0),)


class Narrow(Quick):
    """Its assignment is fixed: one object."""

    product, fixed = 0x0160, True
    outputs, inputs, variables = (), (Pdo(0x1A00, WORD),), FORCE


class FixedWide(Narrow):
    """It exchanges an object of 240 bits besides, which no table can say: a start-up reads an assignment of two objects."""

    inputs = (Pdo(0x1A00, WORD), Pdo(0x1A01, WIDE))


class Halves(Quick):
    """Three entries, the first two in one object."""

    product, outputs, variables = 0x0161, (), FORCE
    inputs = (Pdo(0x1A00, (ONE, TWO)), Pdo(0x1A01, (THREE,)))


class OtherHalves(Halves):
    """The same entries in the same order, the last two in one object."""

    inputs = (Pdo(0x1A00, (ONE,)), Pdo(0x1A01, (TWO, THREE)))


class OneOfRepeats(Repeats):
    """Its table assigns one of the two objects that repeat an entry: the device takes that by CoE."""

    assigns = ((0x1600,), (0x1A00,))


class WithoutSpare(SpareObject):
    """Its table doesn't list the object of 240 bits, which isn't assigned."""

    inputs, delivered = Quick.inputs, None


# a device, the device of the table, the lines that are printed, and the end
COMPARED = (
    (Narrow, Narrow, [], ""),
    (FixedWide, Narrow, ["slave 0 narrow: inputs of it are left out: "], "45 Unmet 1"),
    (Halves, Halves, [], ""),
    (Repeats, OneOfRepeats, [], ""),
    (SpareObject, WithoutSpare, [], ""),
    (OtherHalves, Halves, ["slave 0 halves: PDO 0x1A00 has other entries", "slave 0 halves: PDO 0x1A01 has other entries"], "45 Unmet 2"),
)


def compare_all(program):
    """What is otherwise than it must be."""
    with tempfile.TemporaryDirectory(prefix="ecat-devices-") as room:
        table = pathlib.Path(room) / "table.toml"
        for kind, told, wanted, end in COMPARED:
            table.write_text(table_of([told], True))
            printed, refusal, _ = Scan(program, Plant([kind()]), "--against", str(table)).run()
            lines = printed.splitlines()
            is_right = len(lines) == len(wanted) and all(map(str.startswith, lines, wanted)) and refusal == end
            yield from [] if is_right else [f"{kind.__name__} and {told.__name__}: {[*lines, refusal]}"]
