"""Devices whose SIIs name their PDOs and entries, and the names that `ecat scan` must make of these, worked out by hand.

A name of a table has letters, digits and `_`: what else a string has becomes one `_`, and none stands at either end. A type's name and an
entry's word have at most 24 letters, a name 32. A name that is taken gets a number, from 2 on.
"""
from __future__ import annotations

import dataclasses
import re

import eeprom
from models import Quick
from slave import Pdo

DEVICE = "Valve unit (4x)"
# the strings behind the device's own, which is number 1
STRINGS = (b"Set point", b"Inputs, all", b"\xb0C \xff", b'\0\n"', b"Temperature of the inner bearing")
SET_POINT, ALL, DEGREES, NOTHING, BEARING, MISSING = 2, 3, 4, 5, 6, 200
# which of them names a PDO, by its index, and an entry, by its PDO and its place
TITLES = {
    (0x1600, 0): SET_POINT, (0x1600, 1): SET_POINT,
    0x1A00: ALL, (0x1A00, 0): DEGREES, (0x1A00, 1): NOTHING, (0x1A00, 2): BEARING, (0x1A00, 3): MISSING, (0x1A00, 4): BEARING,
}


class Named(Quick):
    product = 0x0180
    outputs = (Pdo(0x1600, ((0x7000, 1, 8), (0x7000, 2, 8))),)
    inputs = (Pdo(0x1A00, tuple((0x6000, sub, 8) for sub in range(1, 6))),)
    variables = ()

    def image(self) -> eeprom.Image:
        return dataclasses.replace(super().image(), name=DEVICE, strings=STRINGS, titles=TITLES)


class NamedToo(Named):
    """Another device of the same name."""

    product = 0x0181


KINDS = [Named, Named, NamedToo]
TYPES = ["Valve_unit_4x", "Valve_unit_4x_2"]
# the second slave takes the name that the third's type has in small letters
SLAVES = ["valve_unit_4x", "valve_unit_4x_2", "valve_unit_4x_2_2"]
COMMENTS = ["Inputs_all"] * 2
# each has 32 letters at most
VARIABLES = [
    "valve_unit_4x_Set_point", "valve_unit_4x_Set_point_2", "valve_unit_4x_C", "valve_unit_4x_6000_2", "valve_unit_4x_Temperature_of_the",
    "valve_unit_4x_6000_4", "valve_unit_4x_Temperature_of_t_2",
    "valve_unit_4x_2_Set_point", "valve_unit_4x_2_Set_point_2", "valve_unit_4x_2_C", "valve_unit_4x_2_6000_2", "valve_unit_4x_2_Temperature_of_t",
    "valve_unit_4x_2_6000_4", "valve_unit_4x_2_Temperature_of_2",
    "valve_unit_4x_2_2_Set_point", "valve_unit_4x_2_2_Set_point_2", "valve_unit_4x_2_2_C", "valve_unit_4x_2_2_6000_2",
    "valve_unit_4x_2_2_Temperature_of", "valve_unit_4x_2_2_6000_4", "valve_unit_4x_2_2_Temperature__2",
]


def wrong_names(table: str) -> list[str]:
    """Which names of a table aren't those of these devices."""
    rows = [(section, re.findall(rf'^\[\[{section}\]\]\nname = "(.*)"$', table, re.M)) for section in ("type", "slave", "variable")]
    rows.append(("comment", re.findall(r"\] \},  # (.*)$", table, re.M)))
    return [f"{what}: {came}, wanted {wanted}" for (what, came), wanted in zip(rows, (TYPES, SLAVES, VARIABLES, COMMENTS)) if came != wanted]
