"""Devices with a mailbox that speaks CoE: a dictionary, SDO transfers, and messages that nobody asked for.

Sources: ETG.1000.4 "Mailbox structure", ETG.1000.6 "CoE", "SDO services", "Abort SDO transfer", "Emergency"; SSC as in slave.py.
"""
from __future__ import annotations

import struct

from slave import BOOT, INIT, PREOP, Pdo, Smart

# types of messages, and services of CoE
MAILBOX_ERROR, EOE, COE = 0, 2, 3
EMERGENCY, REQUEST, REPLY = 1, 2, 3
OUTPUTS_ASSIGNED, INPUTS_ASSIGNED = 0x1C12, 0x1C13
# abort codes
BAD_COMMAND, BAD_ACCESS, READ_ONLY, COUNT_FIRST, NO_OBJECT = 0x05040001, 0x06010000, 0x06010002, 0x06010003, 0x06020000
CANNOT_MAP, BAD_LENGTH, NO_SUBINDEX, BAD_VALUE, BAD_STATE = 0x06040041, 0x06070010, 0x06090011, 0x06090030, 0x08000022


class Abort(Exception):
    """An SDO transfer is aborted, with its code."""


def emergency(code: int, register: int = 0, data: bytes = bytes(5)) -> tuple[int, bytes]:
    """An emergency: error code, error register, five bytes [AL "Emergency"]."""
    return COE, struct.pack("<HHB", EMERGENCY << 12, code, register) + data


class Row:
    """An array object whose subindex 0 is its count: an assignment or a mapping. Slots are written while the count is 0 [AL "PDO
    assignment", "PDO mapping"; SSC]."""

    def __init__(self, values: list[int], size: int) -> None:
        self.values, self.size, self.slots = values, size, list(values)

    def upload(self, sub: int) -> bytes:
        if sub == 0:
            return bytes([len(self.values)])
        if sub > len(self.values):
            raise Abort(NO_SUBINDEX)
        return self.values[sub - 1].to_bytes(self.size, "little")

    def download(self, sub: int, data: bytes) -> None:
        if len(data) != (self.size if sub else 1):
            raise Abort(BAD_LENGTH)
        value = int.from_bytes(data, "little")
        if sub:
            if self.values:
                raise Abort(COUNT_FIRST)
            self.slots[sub - 1 :] = [value]
        elif value > len(self.slots):
            raise Abort(BAD_VALUE)
        else:
            self.values = self.slots[:value]


def long_of(entry: tuple[int, int, int]) -> int:
    """An entry in a mapping: index, subindex, bits."""
    index, sub, bits = entry
    return index << 16 | sub << 8 | bits


class Coe(Smart):
    """A device with a dictionary. A request is answered when its time has passed, and when the mailbox is empty."""

    mailbox = (0x1000, 128, 0x1080, 128)
    # objects besides the usual ones: index and subindex to a value and its bytes; downloads change them
    settings: dict[tuple[int, int], tuple[int, int]] = {}
    # the PDOs that are assigned as delivered, if not all; other entries that a PDO maps as delivered; whether a mapping can be written
    delivered: tuple[tuple[int, ...], tuple[int, ...]] | None = None
    mapped: dict[int, tuple[tuple[int, int, int], ...]] = {}
    maps = False
    # PDOs that can't be assigned together
    excludes: tuple[tuple[int, int], ...] = ()
    # seconds until a request is answered, and until one for an object is
    sdo_time = 0.0
    late: dict[tuple[int, int], float] = {}
    # messages that it sends as it enters PREOP, and whenever it has nothing else to send
    greetings: tuple[tuple[int, bytes], ...] = ()
    is_chatty = False
    # how many messages it takes, and how many requests it answers, if there is an end
    takes: int | None = None
    answers: int | None = None
    # it leaves a message in its mailbox; its replies name another index, or another subindex; it answers by a mailbox error
    is_keeping = is_wrong = is_beside = is_erring = False
    # an upload's reply doesn't say its size; it brings four bytes of a shorter value; it is never expedited
    is_unsized = is_wide = is_normal = False
    # assignments that it has no object of; objects of which each transfer is aborted, by this code
    lacking: tuple[int, ...] = ()
    closed: dict[int, int] = {}
    # objects that show another's value: index and subindex to the other's
    shown: dict[tuple[int, int], tuple[int, int]] = {}
    # the highest value that an object takes
    highest: dict[tuple[int, int], int] = {}

    def begin(self) -> None:
        super().begin()
        self.objects = {key: value.to_bytes(size, "little") for key, (value, size) in self.usual().items()}
        self.objects[0x1008, 0] = self.name.encode()
        pdos = (*self.outputs, *self.inputs)
        self.rows = {pdo.index: Row([long_of(entry) for entry in self.mapped.get(pdo.index, pdo.entries)], 4) for pdo in pdos}
        chosen = self.delivered or tuple(tuple(pdo.index for pdo in way) for way in (self.outputs, self.inputs))
        for index, way, indices in ((OUTPUTS_ASSIGNED, self.outputs, chosen[0]), (INPUTS_ASSIGNED, self.inputs, chosen[1])):
            if way and index not in self.lacking:
                self.rows[index] = Row(list(indices), 2)
        self.replies: list[tuple[float, bytes]] = []
        self.counter = self.heard = self.took = self.answered = 0
        # what masters changed: index and subindex, with the value; and what they tried to
        self.downloads: list[tuple[int, int, int]] = []
        self.tried: list[tuple[int, int]] = []
        # each transfer that was done, in order: the state, whether it was a download, index and subindex
        self.transfers: list[tuple[int, bool, int, int]] = []

    def usual(self) -> dict[tuple[int, int], tuple[int, int]]:
        """Objects that each device has: type, identity, what the managers are for [AL "Object dictionary"]."""
        found = {(0x1000, 0): (0x1389, 4), (0x1018, 0): (4, 1), (0x1C00, 0): (4, 1)}
        for sub, value in enumerate((self.vendor, self.product, self.revision, 0), 1):
            found[0x1018, sub] = value, 4
        for sub in range(1, 5):
            found[0x1C00, sub] = sub, 1
        return found | self.settings

    def assigned(self, way: int) -> tuple[Pdo, ...]:
        """The objects of a direction that are assigned now, with what they map now; all of them if nothing says which."""
        row = self.rows.get((OUTPUTS_ASSIGNED, INPUTS_ASSIGNED)[way])
        indices = row.values if row else [pdo.index for pdo in (self.outputs, self.inputs)[way]]
        return tuple(Pdo(index, self.entries(index)) for index in indices if index in self.rows)

    def entries(self, index: int) -> tuple[tuple[int, int, int], ...]:
        return tuple((value >> 16, value >> 8 & 0xFF, value & 0xFF) for value in self.rows[index].values)

    # ---- the mailbox

    def run(self) -> None:
        if self.state not in (INIT, BOOT):
            self.converse()
        super().run()

    def converse(self) -> None:
        """A message is taken, and one is sent: the oldest that is due, once the mailbox is empty."""
        message = self.next_message()
        if message:
            self.hear(message)
        if self.is_chatty and not self.replies:
            self.greet()
        if self.replies and self.now >= self.replies[0][0] and self.esc.managers[1].put(self.replies[0][1]):
            self.replies.pop(0)

    def next_message(self) -> bytes | None:
        """A message out of the mailbox, as long as it takes one."""
        if self.took == self.takes:
            return None
        message = self.esc.managers[0].take()
        if message:
            self.took += 1
            self.esc.managers[0].full = self.is_keeping
        return message

    def talk(self, before: int, state: int) -> None:
        """In INIT nothing is left to send; as PREOP is entered from there, what it wants to say waits in front of any reply."""
        if state == INIT:
            self.replies, self.counter, self.heard, self.took, self.answered = [], 0, 0, 0, 0
        elif before == INIT:
            self.greet()

    def greet(self) -> None:
        for kind, body in self.greetings:
            self.say(kind, body)

    def say(self, kind: int, body: bytes, seconds: float = 0.0) -> None:
        """A message goes out: length, address, channel, type, and a counter from 1 to 7 [DL "Mailbox structure"]."""
        self.counter = self.counter % 7 + 1
        self.replies.append((self.now + seconds, struct.pack("<HHBB", len(body), 0, 0, kind | self.counter << 4) + body))

    def hear(self, message: bytes) -> None:
        """A message came in. One with the counter of the one before is a repeat, and dropped [DL "Mailbox structure"]."""
        length, _, _, kind = struct.unpack_from("<HHBB", message)
        if kind >> 4 and kind >> 4 == self.heard or self.answered == self.answers:
            return
        self.heard, self.answered = kind >> 4, self.answered + 1
        body = message[6 : 6 + length]
        if kind & 15 != COE or self.is_erring:
            self.say(MAILBOX_ERROR, struct.pack("<HH", 1, 2))
        elif len(body) < 10:
            self.say(MAILBOX_ERROR, struct.pack("<HH", 1, 6))
        elif body[1] >> 4 != REQUEST:
            self.say(MAILBOX_ERROR, struct.pack("<HH", 1, 4))
        else:
            self.serve(*struct.unpack_from("<BHB", body, 2), body[6:])

    def serve(self, command: int, index: int, sub: int, content: bytes) -> None:
        """An SDO request: its answer, or its abort."""
        seconds = self.late.get((index, sub), self.sdo_time)
        try:
            answer, data = self.transfer(command, index, sub, content)
        except Abort as why:
            answer, data = (0x80, struct.pack("<I", why.args[0]))
        # an abort is a request [AL "Abort SDO transfer"]
        service = REQUEST if answer == 0x80 else REPLY
        body = struct.pack("<HBHB", service << 12, answer, index ^ self.is_wrong, sub ^ self.is_beside) + data.ljust(4, b"\0")
        self.say(COE, body, seconds)

    def transfer(self, command: int, index: int, sub: int, content: bytes) -> tuple[int, bytes]:
        """An upload or a download: the command of the answer, and its data. Segments and complete access aren't served here."""
        kind = command >> 5
        if command & 0x10:
            raise Abort(BAD_ACCESS)
        if index in self.closed:
            raise Abort(self.closed[index])
        if kind == 2:
            value = self.upload(index, sub)
            self.transfers.append((self.state, False, index, sub))
            return self.uploaded(value)
        if kind != 1:
            raise Abort(BAD_COMMAND)
        self.tried.append((index, sub))
        self.download(index, sub, content_of(command, content))
        self.transfers.append((self.state, True, index, sub))
        return 0x60, b""

    def uploaded(self, value: bytes) -> tuple[int, bytes]:
        """The answer to an upload: expedited up to four bytes, else normal [AL "SDO upload"]. A device may leave out the size."""
        if len(value) > 4 or self.is_normal:
            return 0x41, struct.pack("<I", len(value)) + value
        if self.is_wide:
            return 0x43, value.ljust(4, b"\0")
        return 0x42 if self.is_unsized else 0x43 | (4 - len(value)) << 2, value

    # ---- the dictionary

    def upload(self, index: int, sub: int) -> bytes:
        if index in self.rows:
            return self.rows[index].upload(sub)
        if (index, sub) in self.shown:
            return self.objects[self.shown[index, sub]]
        if (index, sub) in self.objects:
            return self.objects[index, sub]
        raise Abort(NO_SUBINDEX if any(index == known for known, _ in self.objects) else NO_OBJECT)

    def download(self, index: int, sub: int, data: bytes) -> None:
        if index in self.rows:
            self.rewrite(index, sub, data)
        elif (index, sub) in self.settings:
            if len(data) != len(self.objects[index, sub]):
                raise Abort(BAD_LENGTH)
            if int.from_bytes(data, "little") > self.highest.get((index, sub), 0xFFFFFFFF):
                raise Abort(BAD_VALUE)
            self.objects[index, sub] = data
        else:
            self.upload(index, sub)
            raise Abort(READ_ONLY)
        self.downloads.append((index, sub, int.from_bytes(data, "little")))

    def rewrite(self, index: int, sub: int, data: bytes) -> None:
        """An assignment or a mapping is written: in PREOP alone, if the device lets it be written at all."""
        is_assignment = index in (OUTPUTS_ASSIGNED, INPUTS_ASSIGNED)
        if self.fixed if is_assignment else not self.maps:
            raise Abort(READ_ONLY)
        if self.state != PREOP:
            raise Abort(BAD_STATE)
        row = self.rows[index]
        before = list(row.values)
        row.download(sub, data)
        known = {pdo.index for pdo in (self.outputs, self.inputs)[index == INPUTS_ASSIGNED]}
        together = any(set(pair) <= set(row.values) for pair in self.excludes)
        if is_assignment and (not set(row.values) <= known or together):
            row.values = before
            raise Abort(CANNOT_MAP)


def content_of(command: int, content: bytes) -> bytes:
    """The bytes that a download brings: expedited with or without their number, or normal, all at once [AL "SDO download"]."""
    if command & 2:
        return content[: 4 - (command >> 2 & 3)] if command & 1 else content[:4]
    size = struct.unpack_from("<I", content)[0]
    if len(content) < 4 + size:
        raise Abort(BAD_COMMAND)
    return content[4 : 4 + size]
