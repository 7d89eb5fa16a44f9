"""A start-up of real devices retold in the order that a table for hardware asks for, and a scan, so that the ends in rows.py can be tried
without the program: they go by the data sheets, number their steps as the master does, and end with the master's words.

Sources: ETG.1000.4 "Register description", ETG.1000.6 "AL state machine", "SDO services"; who has the SII, clears over all registers and
outputs before OP as SOEM does them; parameters in PREOP as SOEM's `PO2SOconfig` and IgH's `ecrt_slave_config_sdo`.
"""
from __future__ import annotations

import struct
from collections.abc import Callable, Iterator

from bus import sdo
from coe import INPUTS_ASSIGNED, NO_OBJECT, OUTPUTS_ASSIGNED
from eeprom import END
from esc import APWR, BRD, BWR, FPRD, FPWR, LRD, LRW, LWR, NO_LRW
from plant import POLLS
from slave import OP, PREOP, SAFEOP, Slave, bytes_of, places_of

LOGICAL = 0x10000
# the most words of categories that a scan reads; the words before them
MOST_WORDS, HEAD = 4096, (0x08, 0x0A, 0x0C, 0x0E, 0x18, 0x1A, 0x1C)


class Refusal(Exception):
    """The start-up ends with this."""


class Aborted(Refusal):
    """A transfer was aborted, with this code."""

    def __init__(self, place: int, code: int) -> None:
        super().__init__(f"30 Abort {place} {code}")
        self.code = code


def size_of(kind: type[Slave], way: int) -> int:
    return bytes_of(sum(pdo.bits for pdo in kind.chosen(way)))


def can_say(kind: type[Slave]) -> bool:
    """A table has entries of at most 64 bits, managers 0 to 3, and 64 parameters."""
    entries = [entry for pdo in (*kind.outputs, *kind.inputs) for entry in pdo.entries]
    areas = [area for area, pdos in ((kind.out_area, kind.outputs), (kind.in_area, kind.inputs)) if pdos]
    return all(bits <= 64 for _, _, bits in entries) and all(area.number <= 3 for area in areas) and len(kind.init) <= 64


def refusal(kinds: list[type[Slave]]) -> str | None:
    """Why a table of devices isn't accepted, if it isn't: it can't say a type, or a slave has an entry twice in a direction."""
    if not all(can_say(kind) for kind in kinds):
        return "13 BadValue 1 0"
    for place, kind in enumerate(kinds):
        for way in (0, 1):
            entries = [entry[:2] for pdo in kind.chosen(way) for entry in pdo.entries if entry[0]]
            if len(set(entries)) < len(entries):
                return f"20 EntryTwice {place}"
    return None


class Master:
    """It starts the devices of a plant up, and exchanges their process data: all outputs in a run of bytes, then all inputs."""

    def __init__(self, bus: object, plant: object, kinds: list[type[Slave]]) -> None:
        self.bus, self.plant, self.kinds, self.step = bus, plant, kinds, 0
        self.starts: dict[tuple[int, int], int] = {}
        at = LOGICAL
        for way in (0, 1):
            for place, kind in enumerate(kinds):
                self.starts[place, way] = at
                at += size_of(kind, way)
        self.sizes = [sum(size_of(kind, way) for kind in kinds) for way in (0, 1)]
        self.counts = [sum(bool(size_of(kind, way)) for kind in kinds) for way in (0, 1)]
        self.has_lrw = all(kind.told_lrw or not kind.chip.features & NO_LRW for kind in kinds)
        self.image = [bytearray(size) for size in self.sizes]
        self.sent = [0] * len(kinds)

    # ---- steps

    def do(self, command: int, first: int, address: int, data: bytes, wanted: int | None) -> bytes:
        """One step: a datagram, whose counter must be this one if one is wanted."""
        came, counter = self.bus.physical(command, first, address, data)
        if wanted is not None and counter != wanted:
            raise Refusal(f"28 Counter {self.step}")
        self.step += 1
        return came

    def wait(self, poll: Callable[[], bool]) -> None:
        """One step: polls until one says that it is done. It rests between them, 1 ms from the 10th on and 10 ms from the 100th on."""
        for count in range(POLLS):
            if poll():
                self.step += 1
                return
            self.plant.tick(0 if count < 10 else 0.001 if count < 100 else 0.01)
        raise Refusal(f"31 TooSlow {self.step}")

    def read(self, place: int, address: int, size: int) -> bytes:
        came, counter = self.bus.physical(FPRD, 0x1001 + place, address, bytes(size))
        if counter != 1:
            raise Refusal(f"28 Counter {self.step}")
        return came

    def write(self, place: int, address: int, data: bytes) -> None:
        self.do(FPWR, 0x1001 + place, address, data, 1)

    def each(self) -> Iterator[tuple[int, type[Slave]]]:
        return iter(enumerate(self.kinds))

    # ---- the phases

    def start_up(self) -> str:
        if (refused := refusal(self.kinds)):
            return refused
        try:
            self.open()
            self.identify()
            self.prepare()
            for place, kind in self.each():
                self.talk(place, kind)
            for place, kind in self.each():
                self.map(place, kind)
            for state in (SAFEOP, OP):
                for place, _ in self.each():
                    self.climb(place, state)
        except Refusal as why:
            return str(why)
        return "up"

    def open(self) -> None:
        """Counted, in INIT, cleared, the SII taken, named, and without an error if they have firmware."""
        count = len(self.kinds)
        self.do(BRD, 0, 0x0130, bytes(2), count)
        self.do(BWR, 0, 0x0120, b"\x11\0", count)
        self.wait(lambda: self.bus.physical(BRD, 0, 0x0130, bytes(2))[0][0] & 15 == 1)
        for address, data, wanted in (
                (0x0600, bytes(256), None), (0x0800, bytes(128), None), (0x0010, bytes(2), count), (0x0500, b"\2", None),
                (0x0500, b"\0", None), (0x0502, bytes(2), None)):
            self.do(BWR, 0, address, data, wanted)
        for place, _ in self.each():
            self.do(APWR, -place, 0x0010, struct.pack("<H", 0x1001 + place), 1)
        for place, kind in self.each():
            if not kind.emulates:
                self.wait(lambda place=place: self.read(place, 0x0130, 6)[0] & 31 == 1)

    def identify(self) -> None:
        for place, kind in self.each():
            words = [self.sii(place, address) or 0 for address in (0x08, 0x0A, 0x0C)]
            told = kind.revision if kind.told_revision is None else kind.told_revision
            if words != [kind.vendor, kind.product, words[2] if kind.any_revision else told]:
                raise Refusal("27 Identity %d %d %d %d" % (place, *words))
        self.do(BWR, 0, 0x0500, b"\1", None)

    def sii(self, place: int, address: int) -> int | None:
        """Two words of the SII, or nothing if it ends with an error, which is cleared."""
        came = b""

        def poll() -> bool:
            nonlocal came
            came = self.read(place, 0x0502, 10)
            return not came[1] & 0x80

        self.write(place, 0x0502, struct.pack("<BBI", 0, 1, address))
        self.wait(poll)
        return None if came[1] & 0x20 else struct.unpack_from("<I", came, 6)[0]

    def prepare(self) -> None:
        for place, kind in self.each():
            if kind.mailbox:
                self.open_mailbox(place, kind)
        for place, _ in self.each():
            self.climb(place, PREOP)

    def open_mailbox(self, place: int, kind: type[Slave]) -> None:
        first, size, second, room = kind.mailbox
        self.write(place, 0x0800, struct.pack("<HHBBBB", first, size, 0x26, 0, 1, 0))
        self.write(place, 0x0808, struct.pack("<HHBBBB", second, room, 0x22, 0, 1, 0))

    def climb(self, place: int, state: int) -> None:
        """A state is asked for and awaited. Before each frame that has to do with OP all outputs are fed with zeros."""
        def feed() -> None:
            if state != OP or not self.sizes[0]:
                return
            command, size, count = (LRW, sum(self.sizes), 2 * self.counts[0] + self.counts[1]) if self.has_lrw else (LWR, self.sizes[0], self.counts[0])
            if self.bus.send(command, LOGICAL, bytes(size))[1] != count:
                raise Refusal(f"28 Counter {self.step}")

        def poll() -> bool:
            feed()
            came = self.read(place, 0x0130, 6)
            if came[0] & 0x10:
                raise Refusal(f"29 AlError {place} {struct.unpack_from('<H', came, 4)[0]}")
            return came[0] & 31 == state

        feed()
        self.write(place, 0x0120, bytes([state, 0]))
        self.wait(poll)

    # ---- messages

    def talk(self, place: int, kind: type[Slave]) -> None:
        """Parameters of the type and of the slave, then mappings, then assignments, which a fixed type's are read."""
        if not kind.mailbox:
            return
        for index, sub, bits, value in (*kind.init, *kind.own_init):
            self.download(place, index, sub, bits // 8, value % 2**bits)
        for pdo in (*kind.chosen(0), *kind.chosen(1)):
            self.upload(place, pdo.index, 0, 1, len(pdo.entries))
            for sub, (index, low, bits) in enumerate(pdo.entries, 1):
                # a table's gap has no subindex
                self.upload(place, pdo.index, sub, 4, index << 16 | (low if index else 0) << 8 | bits)
        for way, index in enumerate((OUTPUTS_ASSIGNED, INPUTS_ASSIGNED)):
            if (kind.outputs, kind.inputs)[way]:
                self.assign(place, index, [pdo.index for pdo in kind.chosen(way)], kind.fixed)

    def assign(self, place: int, index: int, chosen: list[int], is_fixed: bool) -> None:
        if is_fixed:
            self.upload(place, index, 0, 1, len(chosen))
        else:
            self.download(place, index, 0, 1, 0)
        for sub, one in enumerate(chosen, 1):
            (self.upload if is_fixed else self.download)(place, index, sub, 2, one)
        if chosen and not is_fixed:
            self.download(place, index, 0, 1, len(chosen))

    def download(self, place: int, index: int, sub: int, size: int, value: int) -> None:
        command = self.converse(place, 0x23 | 4 - size << 2, index, sub, struct.pack("<I", value))[0]
        if command != 0x60:
            raise Refusal(f"9 BadMailbox {place}")

    def upload(self, place: int, index: int, sub: int, size: int, wanted: int) -> None:
        """The value must be the wanted one."""
        value = self.value(place, index, sub, size)
        if value != wanted:
            raise Refusal(f"38 Mapping {place} {index} {sub} {value}")

    def value(self, place: int, index: int, sub: int, size: int) -> int:
        """A value, of whatever size its reply says; one that says none has as many bytes as the object."""
        came = self.converse(place, 0x40, index, sub, bytes(4))
        if came[0] & 0xE2 != 0x42:
            raise Refusal(f"9 BadMailbox {place}")
        size = 4 - (came[0] >> 2 & 3) if came[0] & 1 else size
        return int.from_bytes(came[4 : 4 + size], "little")

    def converse(self, place: int, command: int, index: int, sub: int, content: bytes) -> bytes:
        """A request and its reply, from the command on. A message of another protocol, or that is no SDO, is set aside."""
        first, size, second, room = self.kinds[place].mailbox
        self.sent[place] += 1
        body = sdo(2, command, index, sub, content)
        message = struct.pack("<HHBB", len(body), 0, 0, 3 | ((self.sent[place] - 1) % 7 + 1) << 4) + body
        came = b""

        def poll() -> bool:
            nonlocal came
            came, counter = self.bus.physical(FPRD, 0x1001 + place, second, bytes(room))
            return counter == 1 and came[5] & 15 == 3 and came[7] >> 4 in (2, 3)

        self.write(place, first, message.ljust(size, b"\0"))
        self.wait(poll)
        if struct.unpack_from("<HB", came, 9) != (index, sub):
            raise Refusal(f"9 BadMailbox {place}")
        if came[8] == 0x80:
            raise Aborted(place, struct.unpack_from("<I", came, 12)[0])
        return came[8:16]

    # ---- process data

    def map(self, place: int, kind: type[Slave]) -> None:
        """Managers by the type's numbers and control bytes, then FMMUs over whole bytes."""
        ways = [(way, (kind.out_area, kind.in_area)[way]) for way in (0, 1) if size_of(kind, way)]
        for way, area in ways:
            self.write(place, 0x0800 + 8 * area.number, struct.pack("<HHBBBB", area.start, size_of(kind, way), area.control, 0, 1, 0))
        for way, area in ways:
            page = struct.pack("<IHBBHBBB3x", self.starts[place, way], size_of(kind, way), 0, 7, area.start, 0, 2 - way, 1)
            self.write(place, 0x0600 + 16 * way, page)

    def cycle(self) -> bool:
        """One cycle; whether all that was predicted counted."""
        counters = []
        for way, command in ((0, LWR), (1, LRD)):
            if self.sizes[way]:
                came, counter = self.bus.send(command, LOGICAL + way * self.sizes[0], bytes(self.image[way]))
                counters.append(counter == self.counts[way])
                if way:
                    self.image[1][:] = came
        return all(counters)

    def places(self, place: int, entries: tuple[tuple[int, int], ...]) -> tuple[int, list[tuple[int, int]]]:
        """The direction of these entries of a device, and the first bit in the image and the bits of each."""
        way = 0 if set(entries) <= set(places_of(self.kinds[place].chosen(0))) else 1
        first = 8 * (self.starts[place, way] - LOGICAL - way * self.sizes[0])
        found = places_of(self.kinds[place].chosen(way))
        return way, [(first + found[one][0], found[one][1]) for one in entries]

    def get(self, place: int, entries: tuple[tuple[int, int], ...]) -> int:
        way, places = self.places(place, entries)
        whole, value, at = int.from_bytes(self.image[way], "little"), 0, 0
        for first, bits in places:
            value |= (whole >> first & (1 << bits) - 1) << at
            at += bits
        return value

    def put(self, place: int, entries: tuple[tuple[int, int], ...], value: int) -> None:
        way, places = self.places(place, entries)
        whole = int.from_bytes(self.image[way], "little")
        for first, bits in places:
            whole = whole & ~((1 << bits) - 1 << first) | (value & (1 << bits) - 1) << first
            value >>= bits
        self.image[way][:] = whole.to_bytes(len(self.image[way]), "little")


class Scanner(Master):
    """It asks the devices what they exchange, as a scan does: each SII, and by CoE the assigned PDOs and their mapping."""

    def scan(self) -> str:
        """How it ends. Whatever comes, all are asked for INIT."""
        try:
            self.open()
            for place, _ in self.each():
                if None in [self.words(place, address) for address in HEAD] or not self.is_whole(place):
                    raise Refusal(f"27 Identity {place} 0 0 0")
            self.do(BWR, 0, 0x0500, b"\1", None)
            for place, kind in self.each():
                if kind.mailbox:
                    self.ask(place, kind)
        except Refusal as why:
            return str(why)
        finally:
            self.bus.physical(BWR, 0, 0x0120, b"\x11\0")
        return "found"

    def words(self, place: int, address: int) -> int | None:
        """Two words of the SII. A read that ends with an error is tried once more, behind a clearing of the error [SOEM]."""
        found = self.sii(place, address)
        if found is None:
            self.do(BWR, 0, 0x0502, bytes(2), None)
            found = self.sii(place, address)
        return found

    def is_whole(self, place: int) -> bool:
        """Whether the categories can be read up to the end mark, or the SII ends before them, at one kibibit [AL "SII", word 0x3E]."""
        found: list[int] = []
        header = 0
        while len(found) < MOST_WORDS:
            both = self.words(place, 0x40 + len(found))
            if both is None:
                return not found and (self.words(place, 0x3E) or 1) & 0xFFFF == 0
            found += [both & 0xFFFF, both >> 16]
            while header + 1 < len(found) and found[header] != END:
                header += 2 + found[header + 1]
            if header < len(found) and found[header] == END:
                return True
        return False

    def ask(self, place: int, kind: type[Slave]) -> None:
        """A device in PREOP is asked. It may lack the object of an assignment; what an assignment names must be there."""
        self.open_mailbox(place, kind)
        self.climb(place, PREOP)
        for index in (OUTPUTS_ASSIGNED, INPUTS_ASSIGNED):
            try:
                count = self.value(place, index, 0, 4)
            except Aborted as why:
                if why.code != NO_OBJECT:
                    raise
                continue
            for slot in range(1, count + 1):
                pdo = self.value(place, index, slot, 4)
                # an empty slot has no mapping
                for sub in range(1, self.value(place, pdo, 0, 4) + 1 if pdo else 1):
                    self.value(place, pdo, sub, 4)
