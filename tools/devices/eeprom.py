"""The contents of an EEPROM: the SII as ETG.1000.6 lays it out ("Slave information interface area"), with its categories.

The words before 0x40 are configuration of the controller, identity and mailboxes; then come categories up to the word 0xFFFF.
"""
from __future__ import annotations

import struct
from dataclasses import dataclass, field

STRINGS, GENERAL, FMMUS, MANAGERS, INPUTS, OUTPUTS, END = 10, 30, 40, 41, 50, 51, 0xFFFF
# what a sync manager is for, in its category
UNUSED, MAILBOX_OUT, MAILBOX_IN, PROCESS_OUT, PROCESS_IN = range(5)
# protocols of the mailbox: CoE alone
COE = 4
# a process data object in a category: its index, its manager, its entries of index, subindex and bits
Listed = tuple[int, int, tuple[tuple[int, int, int], ...]]


@dataclass(frozen=True)
class Image:
    """What an EEPROM says."""

    identity: tuple[int, int, int, int]
    name: str = ""
    # PDI control, and the configuration beside it, whose bit 0 is device emulation [ESC 0x0140, 0x0141]
    pdi: tuple[int, int] = (5, 0)
    alias: int = 0
    mailbox: tuple[int, int, int, int] | None = None
    flags: int = 0
    # whether the assignment of PDOs can be written
    assigns: bool = True
    ports: int = 0x11
    # what each FMMU is for: 1 outputs, 2 inputs
    fmmus: tuple[int, ...] = ()
    # each start, length, control byte, enable byte and what it is for
    managers: tuple[tuple[int, int, int, int, int], ...] = ()
    inputs: tuple[Listed, ...] = ()
    outputs: tuple[Listed, ...] = ()
    kibibits: int = field(default=16)
    # strings behind the name, and which number names which PDO, by its index, and which entry, by its PDO and its place
    strings: tuple[bytes, ...] = ()
    titles: dict[int | tuple[int, int], int] = field(default_factory=dict)


def checksum(data: bytes) -> int:
    """The checksum of the first seven words: the remainder by x^8 + x^2 + x + 1 from 0xFF [AL "SII", word 7]."""
    rest = 0xFF
    for byte in data:
        rest ^= byte
        for _ in range(8):
            rest = (rest << 1 ^ 0x07) & 0xFF if rest & 0x80 else rest << 1
    return rest


def category(kind: int, body: bytes) -> bytes:
    """A category: its type, its length in words, its bytes up to a whole word."""
    body += bytes(len(body) % 2)
    return struct.pack("<HH", kind, len(body) // 2) + body


def strings(image: Image) -> bytes:
    """How many there are; each has its length before it."""
    rows = (image.name.encode(), *image.strings)
    return bytes([len(rows)]) + b"".join(bytes([len(row)]) + row for row in rows)


def general(image: Image) -> bytes:
    """Order number and name are string 1; SDOs, and PDO assignment if it can be written; the flags' bit 1 is no LRW; kinds of ports."""
    body = bytearray(32)
    body[2:4], body[5], body[11], body[16] = b"\1\1", (1 | 4 * image.assigns) * bool(image.mailbox), image.flags, image.ports
    return bytes(body)


def managers(image: Image) -> bytes:
    return b"".join(struct.pack("<HHBBBB", start, length, control, 0, enable, use) for start, length, control, enable, use in image.managers)


def objects(listed: tuple[Listed, ...], titles: dict[int | tuple[int, int], int]) -> bytes:
    """Each object: index, how many entries, its manager, its name; each entry: index, subindex, its name, no type, bits. A name is the
    number of a string, or 0."""
    body = b""
    for index, manager, entries in listed:
        body += struct.pack("<HBBBBH", index, len(entries), manager, 0, titles.get(index, 0), 0)
        for place, (entry, sub, bits) in enumerate(entries):
            body += struct.pack("<HBBBBH", entry, sub, titles.get((index, place), 0), 0, bits, 0)
    return body


def categories(image: Image) -> bytes:
    """The categories in the order of their types, and the end mark."""
    found = category(STRINGS, strings(image)) + category(GENERAL, general(image))
    found += category(FMMUS, bytes(image.fmmus)) + category(MANAGERS, managers(image))
    for kind, listed in ((INPUTS, image.inputs), (OUTPUTS, image.outputs)):
        found += category(kind, objects(listed, image.titles)) if listed else b""
    return found + struct.pack("<H", END)


def contents(image: Image) -> bytes:
    """All bytes of the EEPROM; behind the categories they are 0xFF."""
    head = bytearray(0x80)
    head[0:2] = bytes(image.pdi)
    struct.pack_into("<H", head, 8, image.alias)
    head[14] = checksum(bytes(head[:14]))
    struct.pack_into("<4I", head, 0x10, *image.identity)
    if image.mailbox:
        struct.pack_into("<5H", head, 0x30, *image.mailbox, COE)
    struct.pack_into("<2H", head, 0x7C, image.kibibits - 1, 1)
    return (bytes(head) + categories(image)).ljust(128 * image.kibibits, b"\xff")
