"""An EtherCAT slave controller: its registers, its memory, and what a datagram does to both.

It is written from the standard and from what the datasheets of controllers publish, and not from the simulated slaves of this
repository. The source of a rule stands in brackets behind it: [DL] is ETG.1000.4, [AL] is ETG.1000.6, [ESC] are the register
descriptions of ET1100, ET1200 and the IP core, [SOEM] and [IgH] is what these masters rely on. (?) marks what none of them settles.
"""
from __future__ import annotations

import struct
from collections.abc import Iterator
from dataclasses import dataclass

NOP, APRD, APWR, APRW, FPRD, FPWR, FPRW, BRD, BWR, BRW, LRD, LWR, LRW, ARMW, FRMW = range(15)
# Commands by what an addressed controller does [DL "EtherCAT DLPDU"]. ARMW and FRMW read there, and write everywhere else.
READS = (APRD, APRW, FPRD, FPRW, BRD, BRW, ARMW, FRMW)
WRITES = (APWR, APRW, FPWR, FPRW, BWR, BRW)
BY_PLACE, BY_NAME, TO_ALL = (APRD, APWR, APRW, ARMW), (FPRD, FPWR, FPRW, FRMW), (BRD, BWR, BRW)
LOGICAL, MULTIPLE = (LRD, LWR, LRW), (ARMW, FRMW)

# where registers, pins and RAM are [ESC "Address space"]
STATION, ALIAS, DL_CONTROL, DL_STATUS = 0x0010, 0x0012, 0x0100, 0x0110
AL_CONTROL, AL_STATUS, AL_CODE, PDI_CONTROL = 0x0120, 0x0130, 0x0134, 0x0140
WATCHDOG_DIVIDER, WATCHDOG_TIME, WATCHDOG_STATUS, WATCHDOG_COUNTER = 0x0400, 0x0420, 0x0440, 0x0442
SII_OWNER, SII_PDI, SII_CONTROL, SII_ADDRESS, SII_DATA = 0x0500, 0x0501, 0x0502, 0x0504, 0x0508
FMMUS, MANAGERS, CLOCKS, PINS, RAM = 0x0600, 0x0800, 0x0900, 0x0F00, 0x1000
FMMU_BYTES, MANAGER_BYTES = 16, 8

# Registers that each controller has: the first byte, how many, and whether frames may write them [ESC "Register overview"].
REGISTERS = (
    (0x0000, 10, False), (0x0010, 2, True), (0x0012, 2, False), (0x0020, 2, True), (0x0030, 2, True), (0x0040, 1, True),
    (0x0100, 4, True), (0x0108, 2, True), (0x0110, 2, False), (0x0120, 2, True), (0x0130, 2, False), (0x0134, 2, False),
    (0x0140, 2, False), (0x0150, 4, False), (0x0200, 2, True), (0x0210, 2, False), (0x0220, 4, False), (0x0300, 20, True),
    (0x0400, 2, True), (0x0410, 2, True), (0x0420, 2, True), (0x0440, 2, False), (0x0442, 2, True), (0x0500, 1, True),
    (0x0501, 1, False), (0x0502, 14, True), (0x0F00, 4, True), (0x0F10, 2, True), (0x0F18, 2, False), (0x0F80, 128, True),
)
# a write of any value clears these counters [ESC 0x0300, 0x0442]
COUNTERS = (*range(0x0300, 0x0314), 0x0442, 0x0443)
# features of a controller [ESC 0x0008]: FMMUs by bytes alone, clocks of 64 bits, no LRW
BYTEWISE, HAS_CLOCKS, NO_LRW = 0x0001, 0x000C, 0x0200
# bits of the SII's control and status word [ESC 0x0502]
SII_EIGHT, SII_READ, SII_ERROR, SII_BUSY = 0x0040, 0x0100, 0x2000, 0x8000
# how long an EEPROM takes for a read, in seconds: some ten bytes of I2C (?)
SII_TIME = 0.0005


@dataclass(frozen=True)
class Chip:
    """A kind of controller: what its first registers say [ESC 0x0000 to 0x0009]."""

    kind: int
    fmmus: int
    managers: int
    kibibytes: int
    features: int = 0


ET1100 = Chip(0x11, 8, 8, 8, HAS_CLOCKS)
ET1200 = Chip(0x12, 3, 4, 1, HAS_CLOCKS)


class Manager:
    """A sync manager: it guards bytes of memory between frames and the application [DL "Sync manager"; ESC 0x0800]."""

    def __init__(self, esc: Esc, number: int) -> None:
        self.esc, self.at = esc, MANAGERS + MANAGER_BYTES * number
        self.active = False
        self.reset()

    def reset(self) -> None:
        """Takes the settings of its registers, as it is switched on or off: no buffer is open, a mailbox is empty."""
        self.start, self.length, self.control = struct.unpack_from("<HHB", self.esc.memory, self.at)
        self.active = bool(self.esc.memory[self.at + 6] & 1) and self.length > 0
        self.is_mailbox, self.is_written = self.control & 3 == 2, self.control >> 2 & 3 == 1
        self.value, self.draft = bytes(self.length), bytearray()
        # whether a frame's buffer is open; whether a mailbox holds a message; whether a frame has published, and since the application looked
        self.open = self.full = self.used = self.fresh = False

    @property
    def end(self) -> int:
        return self.start + self.length

    @property
    def span(self) -> int:
        """Behind the last byte that it guards: a buffered one in RAM has three buffers [ESC "Buffered mode"]."""
        return self.end if self.is_mailbox or self.start < RAM else self.start + 3 * self.length

    def store(self, offset: int, value: int) -> None:
        """A frame writes a byte of its registers: start, length and control can't be changed while it is active [ESC 0x0800]."""
        if offset in (5, 7) or offset < 5 and self.active:
            return
        self.esc.memory[self.at + offset] = value
        if offset == 6 and bool(value & 1) != self.active:
            self.reset()

    def status(self) -> int:
        """Its status byte: whether a mailbox is full, else which buffer was written last, 3 if none was [ESC 0x0805]."""
        return 8 * self.full if self.is_mailbox else 0x30 * (self.active and not self.used)

    def opens(self, address: int) -> bool:
        """Whether a frame gets at a byte: a buffer opens at its first byte, and ends with its last [ESC "Accessing the buffer"]."""
        if address == self.start:
            self.open, self.draft = True, bytearray(self.value)
        # nobody gets at the second and third buffer by their addresses
        return self.open and address < self.end

    def read(self, address: int, count: int) -> bytes | None:
        """What a frame reads, or nothing: only of a manager that frames read, and a mailbox must be full [ESC "Mailbox mode"]."""
        if self.is_written or self.is_mailbox and not self.full or not self.opens(address):
            return None
        at = address - self.start
        if at + count == self.length:
            self.open = self.full = False
        return bytes(self.draft[at : at + count])

    def write(self, address: int, data: bytes) -> bool:
        """A frame writes; returns whether it may: only to a manager that frames write, and a mailbox must be empty."""
        if not self.is_written or self.is_mailbox and self.full or not self.opens(address):
            return False
        at = address - self.start
        self.draft[at : at + len(data)] = data
        if at + len(data) == self.length:
            self.open, self.full, self.value = False, self.is_mailbox, bytes(self.draft)
            self.published()
        return True

    def published(self) -> None:
        """The last byte was written. Managers on registers have one buffer; bit 6 feeds the watchdog [ESC 0x0804, 0x0420]."""
        self.used = self.fresh = True
        if self.start < RAM:
            self.esc.memory[self.start : self.end] = self.value
        if self.control & 0x40:
            self.esc.feed()

    # ---- the application's side

    def take(self) -> bytes | None:
        """The message of a mailbox that frames write, which is empty then."""
        if not (self.active and self.is_mailbox and self.is_written and self.full):
            return None
        self.full = False
        return self.value

    def put(self, data: bytes) -> bool:
        """Fills a mailbox that frames read; returns whether it was empty."""
        if not (self.active and self.is_mailbox and not self.is_written) or self.full:
            return False
        self.value, self.full = data.ljust(self.length, b"\0")[: self.length], True
        return True

    def publish(self, data: bytes) -> None:
        """Publishes the value of a buffered manager that frames read."""
        if self.active and not self.is_mailbox and not self.is_written:
            self.value = data.ljust(self.length, b"\0")[: self.length]


@dataclass(frozen=True)
class Map:
    """What an FMMU maps: a run of logical bits to as many physical bits [DL "FMMU"; ESC 0x0600]."""

    first: int
    last: int
    physical: int
    reads: bool
    writes: bool


def map_of(page: bytes, is_bytewise: bool) -> Map | None:
    """What the sixteen bytes of an FMMU map, or nothing. A controller may know whole bytes alone [ESC 0x0008 bit 0]."""
    logical, length, start, stop, physical, bit, way, active = struct.unpack("<IHBBHBBB", page[:13])
    if not active & 1 or not length:
        return None
    if is_bytewise:
        start, stop, bit = 0, 7, 0
    first, last = 8 * logical + (start & 7), 8 * (logical + length - 1) + (stop & 7)
    return Map(first, last, 8 * physical + (bit & 7), bool(way & 1), bool(way & 2))


class Esc:
    """A controller after power-on, with its EEPROM. `tick` and the calls of a manager are the application's side."""

    def __init__(self, chip: Chip, eeprom: bytes) -> None:
        self.chip, self.eeprom, self.now = chip, eeprom, 0.0
        self.memory = bytearray(RAM + 1024 * chip.kibibytes)
        self.present, self.writable = registers_of(chip)
        self.pending: dict[int, int] = {}
        self.maps: list[Map] | None = None
        # AL control was written, and nobody has read it; what it has beside a state that is copied without firmware
        self.request, self.copied = False, 0x1F
        self.fed: float | None = None
        self.is_expired = False
        # when a read of the EEPROM ends, and how long one takes; reads that it doesn't acknowledge, by word address: how many of them
        self.sii_due, self.sii_time = 0.0, SII_TIME
        self.sii_silent: dict[int, int] = {}
        # what no master should do: RAM that no manager guards, registers that were written, commands to the SII
        self.strays: set[int] = set()
        self.written: set[int] = set()
        self.sii_commands: set[int] = set()
        self.power_on()
        self.managers = [Manager(self, number) for number in range(chip.managers)]

    def power_on(self) -> None:
        """The registers as they are after power-on; some are read from the EEPROM [ESC 0x0012, 0x0140, 0x0400, 0x0420]."""
        chip = self.chip
        struct.pack_into("<BBHBBBBH", self.memory, 0, chip.kind, 0, 0, chip.fmmus, chip.managers, chip.kibibytes, 0x0A, chip.features)
        self.memory[PDI_CONTROL : PDI_CONTROL + 2] = self.eeprom[0:2]
        self.memory[ALIAS : ALIAS + 2] = self.eeprom[8:10]
        self.put_word(AL_CONTROL, 1)
        self.put_word(AL_STATUS, 1)
        # 2498 + 2 periods of 40 ns are 100 us, and 1000 of these 100 ms
        self.put_word(WATCHDOG_DIVIDER, 2498)
        self.put_word(WATCHDOG_TIME, 1000)

    def word(self, address: int) -> int:
        return struct.unpack_from("<H", self.memory, address)[0]

    def put_word(self, address: int, value: int) -> None:
        struct.pack_into("<H", self.memory, address, value)

    @property
    def emulates(self) -> bool:
        """Whether AL status is a copy of AL control: there is no firmware [ESC 0x0141 bit 0, "device emulation"]."""
        return bool(self.memory[PDI_CONTROL + 1] & 1)

    # ---- datagrams

    def visit(self, command: int, first: int, address: int, data: bytearray) -> tuple[int, int]:
        """A datagram passes. Returns its first address word as it goes on, and what its working counter rises by [DL "Working counter"]."""
        if command in LOGICAL:
            return first, 0 if command == LRW and self.chip.features & NO_LRW else self.logical(command, address << 16 | first, data)
        is_mine = command in TO_ALL or command in BY_PLACE and first == 0 or command in BY_NAME and first in self.names()
        # each controller adds 1 to a position, also of a broadcast [DL "Auto increment address", "Broadcast"]
        passed = (first + 1) % 65536 if command in (*BY_PLACE, *TO_ALL) else first
        reads = is_mine and command in READS
        writes = is_mine and command in WRITES or command in MULTIPLE and not is_mine
        sent = bytes(data)
        # a read counts 1, a write 1, and in a command that does both 2 [DL "Working counter"]
        counted = int(reads and self.fetch(address, data, command in TO_ALL))
        counted += (2 if reads else 1) * int(writes and self.write(address, sent))
        return passed, counted

    def names(self) -> tuple[int, ...]:
        """The station addresses that it knows: the alias counts if DL control says so [ESC 0x0103 bit 0]."""
        alias = (self.word(ALIAS),) if self.memory[DL_CONTROL + 3] & 1 else ()
        return self.word(STATION), *alias

    def fetch(self, address: int, data: bytearray, is_or: bool) -> bool:
        """Reads memory into a datagram's data, or its OR with them [DL "Broadcast read"]; returns whether a byte was there."""
        before, is_there = bytes(data), self.read(address, data)
        if is_there and is_or:
            data[:] = bytes(old | new for old, new in zip(before, data))
        return is_there

    # ---- memory

    def pieces(self, address: int, count: int) -> Iterator[tuple[int, int, Manager | None]]:
        """Bytes in runs that are of one kind: where each begins, how many there are, and who guards them."""
        end = min(address + count, len(self.memory))
        active = [manager for manager in self.managers if manager.active]
        while address < end:
            guard = next((m for m in active if m.start <= address < m.span), None)
            edges = [guard.end, guard.span] if guard else [RAM, *(m.start for m in active)]
            stop = min([edge for edge in edges if edge > address] + [end])
            yield address, stop - address, guard
            address = stop

    def read(self, address: int, data: bytearray) -> bool:
        """Reads memory into bytes, which stay where nothing can be read. Returns whether anything was: one byte is enough [DL]."""
        is_any = False
        for first, count, guard in self.pieces(address, len(data)):
            found = guard.read(first, count) if guard else self.plain(first, count)
            if found is not None:
                data[first - address : first - address + count] = found
                is_any = True
        return is_any

    def plain(self, address: int, count: int) -> bytes | None:
        """Memory that no manager guards. Registers that a controller doesn't have give nothing: [IgH] finds out by it whether there
        are clocks."""
        if address < RAM:
            if not any(self.present[address : address + count]):
                return None
            for manager in self.managers:
                self.memory[manager.at + 5] = manager.status()
        return bytes(self.memory[address : address + count])

    def write(self, address: int, data: bytes) -> bool:
        """Writes bytes to memory. Returns whether anything was written: one byte is enough [DL]."""
        is_any = False
        for first, count, guard in self.pieces(address, len(data)):
            part = data[first - address : first - address + count]
            if guard:
                is_any |= guard.write(first, part)
            elif first < RAM:
                is_any |= self.write_registers(first, part)
            else:
                self.memory[first : first + count] = part
                self.strays.update(range(first, first + count))
                is_any = True
        return is_any

    def write_registers(self, address: int, data: bytes) -> bool:
        """Registers take what a frame writes at its end, if its checksum is right [ESC "Register write"]. A write to a register that
        is locked at the moment counts all the same (?)."""
        known = {at: value for at, value in enumerate(data, address) if self.writable[at]}
        self.pending.update(known)
        self.written.update(known)
        return bool(known)

    def end_frame(self) -> None:
        """A frame has passed: registers become what it wrote, byte by byte in the order of addresses."""
        pending, self.pending = self.pending, {}
        for address, value in pending.items():
            self.store(address, value)
        if SII_CONTROL + 1 in pending:
            self.command_sii()

    def store(self, address: int, value: int) -> None:
        """A register takes a byte."""
        if FMMUS <= address < MANAGERS:
            # the last three bytes of an FMMU are reserved
            self.memory[address] = value if address % FMMU_BYTES < 13 else 0
            self.maps = None
        elif MANAGERS <= address < CLOCKS:
            self.managers[(address - MANAGERS) // MANAGER_BYTES].store(address % MANAGER_BYTES, value)
        elif SII_OWNER <= address < FMMUS:
            self.store_sii(address, value)
        elif address == AL_CONTROL:
            self.store_control(value)
        else:
            self.memory[address] = 0 if address in COUNTERS else value

    # ---- logical addresses

    def logical(self, command: int, logical: int, data: bytearray) -> int:
        """A logical datagram passes its FMMUs. Returns what it counts: 1 for a read, 1 for a write, of an LRW 2 [DL "Working counter"]."""
        sent, reads, writes = int.from_bytes(data, "little"), False, False
        for one in self.mapped():
            low, high = max(one.first, 8 * logical), min(one.last, 8 * (logical + len(data)) - 1)
            if low > high:
                continue
            bits, physical, at = high - low + 1, one.physical + low - one.first, low - 8 * logical
            if one.writes and command != LRD:
                writes |= self.map_out(physical, bits, sent >> at)
            if one.reads and command != LWR:
                reads |= self.map_in(physical, bits, at, data)
        return reads + writes * (2 if command == LRW else 1)

    def mapped(self) -> list[Map]:
        """What the active FMMUs map."""
        if self.maps is None:
            pages = (self.memory[FMMUS + FMMU_BYTES * n : FMMUS + FMMU_BYTES * (n + 1)] for n in range(self.chip.fmmus))
            found = [map_of(bytes(page), bool(self.chip.features & BYTEWISE)) for page in pages]
            self.maps = [one for one in found if one]
        return self.maps

    def map_out(self, physical: int, bits: int, value: int) -> bool:
        """Writes bits to physical bits. Of a byte that is written in part, the other bits stay in the register of the pins alone;
        elsewhere they are undefined [ESC "FMMU", restriction of bit-wise writing]: here they become 1."""
        address, shift = divmod(physical, 8)
        count, mask = (shift + bits + 7) // 8, (1 << bits) - 1
        kept = int.from_bytes(self.memory[address : address + count], "little") if PINS <= address < PINS + 4 else -1
        whole = kept & ~(mask << shift) | (value & mask) << shift
        return self.write(address, (whole & (1 << 8 * count) - 1).to_bytes(count, "little"))

    def map_in(self, physical: int, bits: int, at: int, data: bytearray) -> bool:
        """Reads physical bits into bits of a datagram's data."""
        address, shift = divmod(physical, 8)
        found, mask = bytearray((shift + bits + 7) // 8), (1 << bits) - 1
        if not self.read(address, found):
            return False
        value = int.from_bytes(found, "little") >> shift & mask
        whole = int.from_bytes(data, "little") & ~(mask << at) | value << at
        data[:] = whole.to_bytes(len(data), "little")
        return True

    # ---- the SII

    def has_sii(self) -> bool:
        """Whether frames may use the SII: neither was it given to the PDI, nor does the PDI use it [ESC 0x0500, 0x0501]."""
        return not (self.memory[SII_OWNER] | self.memory[SII_PDI]) & 1

    def store_sii(self, address: int, value: int) -> None:
        """A frame writes a byte of the SII's registers, which are locked while it is busy or the PDI's [ESC 0x0502]."""
        if address == SII_OWNER:
            self.memory[address] = value & 3
            if value & 2:
                self.memory[SII_PDI] = 0
        elif self.has_sii() and not self.word(SII_CONTROL) & SII_BUSY:
            # of control and status a frame writes the write enable and the command
            kept = {SII_CONTROL: 0xFE, SII_CONTROL + 1: 0xF8}.get(address, 0)
            self.memory[address] = self.memory[address] & kept | value & ~kept & 0xFF

    def command_sii(self) -> None:
        """A command was written. After an error none is done before the error is cleared by command 0 [ESC 0x0502; SOEM writes one]."""
        state = self.word(SII_CONTROL)
        command = state & 0x0700
        if not self.has_sii() or state & SII_BUSY:
            return
        self.sii_commands.add(command)
        if command == 0:
            self.put_word(SII_CONTROL, state & 0x00FF)
        elif command == SII_READ and not state & SII_ERROR:
            self.put_word(SII_CONTROL, state | SII_BUSY)
            self.sii_due = self.now + self.sii_time
        else:
            self.put_word(SII_CONTROL, state & ~0x0700 | SII_ERROR)

    def end_sii(self) -> None:
        """A read of the EEPROM ends: four bytes, or eight, are there, or it wasn't acknowledged [ESC 0x0502 bits 6 and 13, 0x0508]."""
        state = self.word(SII_CONTROL)
        count = 8 if state & SII_EIGHT else 4
        address = struct.unpack_from("<I", self.memory, SII_ADDRESS)[0]
        silent = self.sii_silent.get(address, 0)
        if silent:
            self.sii_silent[address] = silent - 1
        if silent or not self.eeprom:
            self.put_word(SII_CONTROL, state & ~(SII_BUSY | 0x0700) | SII_ERROR)
            return
        self.memory[SII_DATA : SII_DATA + count] = self.eeprom[2 * address : 2 * address + count].ljust(count, b"\xff")
        self.put_word(SII_CONTROL, state & ~(SII_BUSY | 0x0700))

    # ---- states and watchdog

    def store_control(self, value: int) -> None:
        """AL control is written. With firmware it is locked until it was read. Without, AL status becomes its copy at once, with the
        acknowledgement as the error bit, so a master shouldn't set it there [ESC 0x0120, "device emulation"]."""
        if self.request and not self.emulates:
            return
        self.memory[AL_CONTROL] = value
        self.request = not self.emulates
        if self.emulates:
            self.memory[AL_STATUS] = value & self.copied

    def take_request(self) -> int | None:
        """What AL control was written, once."""
        if not self.request:
            return None
        self.request = False
        return self.memory[AL_CONTROL]

    def show(self, state: int, code: int = 0) -> None:
        """AL status becomes a state, with the error bit if there is a code [ESC 0x0130, 0x0134]."""
        self.put_word(AL_STATUS, state | 0x10 * bool(code))
        self.put_word(AL_CODE, code)

    def feed(self) -> None:
        """Process data were written whole: the watchdog begins anew [ESC 0x0420, 0x0440]. It begins to run by the first (?)."""
        self.fed, self.is_expired = self.now, False
        self.put_word(WATCHDOG_STATUS, 1)

    def watchdog_seconds(self) -> float:
        return (self.word(WATCHDOG_DIVIDER) + 2) * 40e-9 * self.word(WATCHDOG_TIME)

    def tick(self, now: float) -> None:
        """Time goes on, in seconds."""
        self.now = now
        if self.word(SII_CONTROL) & SII_BUSY and now >= self.sii_due:
            self.end_sii()
        # a time of 0 switches the watchdog off [ESC 0x0420]
        if self.fed is not None and 0 < self.watchdog_seconds() < now - self.fed:
            self.fed, self.is_expired = None, True
            self.put_word(WATCHDOG_STATUS, 0)
            self.memory[WATCHDOG_COUNTER] = min(255, self.memory[WATCHDOG_COUNTER] + 1)

    def is_watched(self) -> bool:
        """Whether outputs are let out: the watchdog runs, or is switched off [ESC 0x0440]."""
        return self.fed is not None or self.word(WATCHDOG_TIME) == 0

    def give(self, address: int, data: bytes) -> None:
        """The application gives bytes at an address: to the manager that frames read there, else to memory."""
        guard = next((m for m in self.managers if m.active and m.start == address and not m.is_written), None)
        if guard:
            guard.publish(data)
        else:
            self.memory[address : address + len(data)] = data


def registers_of(chip: Chip) -> tuple[bytes, bytes]:
    """For each address below the RAM whether there is a register, and whether frames may write it. What a controller doesn't have,
    an FMMU, a manager, clocks, isn't there [ESC "Register overview"]. Clocks are plain memory."""
    own = [(FMMUS, FMMU_BYTES * chip.fmmus, True), (MANAGERS, MANAGER_BYTES * chip.managers, True)]
    own += [(CLOCKS, 0x100, True)] if chip.features & HAS_CLOCKS else []
    present, writable = bytearray(RAM), bytearray(RAM)
    for first, count, is_written in (*REGISTERS, *own):
        present[first : first + count] = b"\1" * count
        writable[first : first + count] = bytes([is_written]) * count
    return bytes(present), bytes(writable)
