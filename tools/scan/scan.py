"""A master that scans full slaves as usual masters do, and looks at each step whether what it finds is what was worked out by hand.

It is written from ETG.1000.4 and ETG.1000.6 over tools/masters/bus.py. From the rows of rows.py it takes nothing but what it compares:
how many slaves there are, where their mailboxes, PDOs and process data lie, and what a cycle counts, it finds out from the slaves.
"""
import struct

from bus import APRD, APWR, BRD, BWR, COE, FMMUS, FPRD, GENERAL, INPUTS, LRD, LRW, LWR, MAILBOX_ERROR, MANAGERS, OP, OUTPUTS, PREOP
from bus import SAFEOP, STRINGS, Slave, Stumble, fmmu_of, pdos_of, sdo, word

FIRST_STATION = 0x1001
# cycles by LRW as far as the slaves take part in it, and then by LWR and LRD alone
CYCLES, SPLIT_CYCLES = 20, 2

# What usual masters write to all slaves before they look at a single one, and whether a full slave takes it: the loops of the ports,
# interrupts, counters of errors, FMMUs, sync managers, clocks, the alias, INIT with an acknowledge, and who has the SII.
DEFAULTS = [
    (0x0101, b"\0", True), (0x0200, b"\4\0", False), (0x0300, bytes(8), False), (0x0600, bytes(48), True), (0x0800, bytes(32), True),
    (0x0981, b"\0", False), (0x0910, bytes(4), False), (0x0930, b"\0\x10", False), (0x0934, b"\0\x0c", False), (0x0103, b"\0", True),
    (0x0120, b"\x11", True), (0x0500, b"\2", True), (0x0500, b"\0", True),
]
# What a slave takes and keeps: frames that aren't EtherCAT's are destroyed, the ports stay automatic; the SII goes to the slave's side and
# back.
KEPT = [(0x0100, b"\1\0\7\0"), (0x0100, b"\1\0"), (0x0140, b"\5"), (0x0140, b"\0"), (0x0500, b"\1"), (0x0500, b"\0")]
# The first registers: an ET1100 of revision and build 0, four FMMUs and four sync managers, 8 KiB, two ports that are MII, and no feature
# such as clocks.
BASE = bytes([0x11, 0, 0, 0, 4, 4, 8, 0x0F, 0, 0, 0, 0])
# DL status with a link at ports 0 and 1, and with one at port 0 alone
FOLLOWED, LAST = b"\x31\x5a", b"\x11\x56"

OUTPUTS_ASSIGNED, INPUTS_ASSIGNED = 0x1C12, 0x1C13
NO_OBJECT, NO_SUBINDEX, READ_ONLY, INVALID_COMMAND = 0x06020000, 0x06090011, 0x06010002, 0x05040001
# SDO requests that are aborted: no such object, no such subindex, an object that is read alone, a download of eight bytes by a normal
# transfer, an upload of a segment
ABORTS = [
    (0x40, 0x2000, 0, b"", NO_OBJECT), (0x40, 0x1018, 5, b"", NO_SUBINDEX), (0x23, 0x1000, 0, b"\1\0\0\0", READ_ONLY),
    (0x21, 0x1000, 0, b"\4\0\0\0\1\2\3\4", INVALID_COMMAND), (0x60, 0x1000, 0, b"", INVALID_COMMAND),
]
# Messages that are no SDO requests, and their answers. EoE and FoE aren't spoken (EoE: the only fragment of an Ethernet frame, to all and
# of a type for local use); of CoE there are no emergencies from a master; a request without its last bytes is too short; and there is no
# SDO information: a list of objects is answered by its error.
REFUSALS = [
    (2, bytes([0, 1, 0, 0, *[0xFF] * 6, 2, 0, 0, 0, 0, 1, 0x88, 0xB5]), MAILBOX_ERROR, bytes([1, 0, 2, 0])),
    (4, bytes([1, 0, 0, 0, 0, 0]), MAILBOX_ERROR, bytes([1, 0, 2, 0])),
    (COE, bytes([0, 0x10, *[0] * 8]), MAILBOX_ERROR, bytes([1, 0, 4, 0])),
    (COE, bytes([0, 0x20, 0x40, 0x00, 0x10, 0]), MAILBOX_ERROR, bytes([1, 0, 6, 0])),
    (COE, bytes([0, 0x80, 1, 0, 0, 0, 1, 0]), COE, bytes([0, 0x80, 7, 0, 0, 0, 0, 0, 1, 6])),
]
# objects that are the same in each slave: both versions "1", and what the managers are for, their count first
SAME = [(0x1009, 0, b"1"), (0x100A, 0, b"1"), (0x1C00, 0, b"\4"), (0x1C00, 1, b"\1"), (0x1C00, 2, b"\2"), (0x1C00, 3, b"\3"), (0x1C00, 4, b"\4")]


def shown(value):
    """A value as a fault has it: bytes in hex, a number in both ways, numbers in rows in hex."""
    if isinstance(value, (bytes, bytearray)):
        return value.hex() or "nothing"
    if isinstance(value, (list, tuple)):
        return "[" + ", ".join(f"{one:#x}" if isinstance(one, int) else shown(one) for one in value) + "]"
    return f"{value} ({value:#x})" if isinstance(value, int) and value > 9 else str(value)


def expect(what, came, wanted):
    """What came must be what is wanted; of bytes the fault has the first place where they differ."""
    if came == wanted:
        return
    place = ""
    if isinstance(came, bytes) and len(came) == len(wanted) > 4:
        first = next(at for at in range(len(came)) if came[at] != wanted[at])
        place = f" at byte {first}"
        came, wanted = came[first : first + 8], wanted[first : first + 8]
    raise Stumble(f"{what}{place}: wanted {shown(wanted)}, came {shown(came)}")


class Found(Slave):
    """A slave that is scanned. Each change is awaited by ten reads at most."""

    polls = 10
    answered = 0

    def expect_register(self, register, data, command=FPRD, first=None):
        """A register of the slave reads as these bytes."""
        came, counted = self.bus.physical(command, self.station if first is None else first, register, bytes(len(data)))
        expect(f"counter of a read of {register:#06x}", counted, 1)
        expect(f"register {register:#06x}", came, data)

    # ---- what the slave at a place is, before it is asked for more

    def expect_station(self, place, is_last):
        """It has no station address yet and gets one; it shows its controller and links; it keeps what is written."""
        self.expect_register(0x0140, bytes(2), APRD, -place)
        expect("counter of a write of the address", self.bus.physical(APWR, -place, 0x0010, struct.pack("<H", self.station))[1], 1)
        self.expect_register(0x0010, struct.pack("<H", self.station), APRD, -place)
        # no alias; INIT without an error
        for register, data in ((0x0012, bytes(2)), (0x0000, BASE), (0x0110, LAST if is_last else FOLLOWED), (0x0130, b"\1\0\0\0\0\0")):
            self.expect_register(register, data)
        for register, data in KEPT:
            self.set(register, data)
            self.expect_register(register, data)

    # ---- the SII

    def sii_status(self):
        """As of any slave; a read past the end is the only error there may be."""
        state = super().sii_status()
        expect("status of the SII, but for the error of a read", state & ~0x2000, 0)
        return state

    def read_eeprom(self):
        """All that the SII says: the words before the categories, the categories, and where the mark stands."""
        self.head = self.sii_words(0, 0x40)
        self.categories, self.end = self.crawl()
        self.out_box, self.in_box = struct.unpack_from("<HH", self.head, 0x30), struct.unpack_from("<HH", self.head, 0x34)
        self.managers = [struct.unpack_from("<HHBBBB", self.category(MANAGERS).ljust(32, b"\0"), at) for at in range(0, 32, 8)]
        self.outputs, self.inputs = (pdos_of(self.category(kind)) for kind in (OUTPUTS, INPUTS))
        self.output_bytes, self.input_bytes = (bytes_together(pdos) for pdos in (self.outputs, self.inputs))
        self.lrw = not self.category(GENERAL).ljust(32, b"\0")[11] & 2

    def category(self, kind):
        """The bytes of the first category of a type; none if there is none."""
        return next((body for known, body in self.categories if known == kind), b"")

    def expect_eeprom(self, row):
        """The SII says what the row does."""
        self.expect_head(row)
        expect("categories and their lengths", [(kind, len(body) // 2) for kind, body in self.categories], row.categories)
        expect("the word of the mark", self.end, row.end)
        name = row.name.encode()
        expect("category Strings", self.category(STRINGS), (bytes([1, len(name)]) + name).ljust(2 * row.categories[0][1], b"\0"))
        # name and order name string 1; SDO and PDO assignment where there is a mailbox; no LRW; ports 0 and 1
        general = bytearray(32)
        general[2:4], general[5], general[11], general[16] = b"\1\1", 5 if row.mailbox else 0, 0 if row.lrw else 2, 0x11
        expect("category General", self.category(GENERAL), bytes(general))
        # FMMU 0 for outputs, FMMU 1 for inputs, where there are any
        expect("category FMMU", self.category(FMMUS), bytes([bool(row.outputs), 2 * bool(row.inputs), 0, 0]))
        expect("category SyncM", self.category(MANAGERS), managers_of(row))
        for title, kind, found, pdos, manager in (("inputs", INPUTS, self.inputs, row.inputs, 3), ("outputs", OUTPUTS, self.outputs, row.outputs, 2)):
            expect(f"PDOs of {title}", found, [(index, manager, entries) for index, entries in pdos])
            expect(f"category of {title}", self.category(kind), category_of(pdos, manager))
        expect("bytes of outputs and inputs", (self.output_bytes, self.input_bytes), (row.output_bytes, row.input_bytes))

    def expect_head(self, row):
        """The words before the categories: identity, mailboxes and CoE alone, the size and the version; the others are 0."""
        words = bytearray(0x80)
        struct.pack_into("<4I", words, 2 * 0x08, *row.identity)
        if row.mailbox:
            struct.pack_into("<5H", words, 2 * 0x18, *row.mailbox, 4)
        struct.pack_into("<2H", words, 2 * 0x3E, row.size, 1)
        for at in range(0x40):
            expect(f"SII word {at:#04x}", word(self.head, 2 * at), word(words, 2 * at))

    def expect_edge(self, row):
        """Behind the mark all is as the mark, up to the end of the image; past it a read ends with the error bit, and the port works on."""
        length = 64 * (row.size + 1)
        for at in (*range(row.end, length - 1, 2), length - 2):
            expect(f"SII words {at:#x}", self.sii(at), b"\xff\xff\xff\xff")
        for at in (length, 0xFFFF, 0xFFFFFFFE):
            expect(f"SII words {at:#x}, past the end", self.sii(at), None)
            self.expect_register(0x0502, b"\x00\x20")
        expect("SII words 0x8, the vendor, behind errors", self.sii(0x08), struct.pack("<I", row.identity[0]))
        expect("SII words 0xa, the product, read by the shorter way", self.words_at_once(0x0A), struct.pack("<I", row.identity[1]))

    def words_at_once(self, address):
        """Two words by a shorter way: the command with half of the address, then status, address and data at once."""
        self.set(0x0502, struct.pack("<BBH", 0x80, 1, address))
        for _ in range(self.polls):
            came = self.read(0x0502, 10)
            if came[1] & 0x81 == 0:
                return came[6:]
        raise Stumble("the SII stays busy")

    # ---- objects

    def expect_answer(self, what, kind, body, answer, wanted):
        """A message is answered by one of this type with these bytes, the counter that follows, and zeros behind it."""
        came = self.converse(kind, body)
        self.answered = self.answered % 7 + 1
        message = struct.pack("<HHBB", len(wanted), 0, 0, answer | self.answered << 4) + wanted
        expect(f"answer to {what}", came, message.ljust(self.in_box[1], b"\0"))

    def expect_upload(self, index, sub, value):
        """An upload gives these bytes: expedited up to four, normal where there are more."""
        command = 0x43 | (4 - len(value)) << 2 if len(value) <= 4 else 0x41
        content = value if len(value) <= 4 else struct.pack("<I", len(value)) + value
        self.expect_answer(f"an upload of {index:#06x}:{sub}", COE, sdo(2, 0x40, index, sub), COE, sdo(3, command, index, sub, content))

    def expect_download(self, index, sub, value):
        """A download of these bytes, up to four, is taken."""
        request = sdo(2, 0x23 | (4 - len(value)) << 2, index, sub, value)
        self.expect_answer(f"a download of {value.hex()} to {index:#06x}:{sub}", COE, request, COE, sdo(3, 0x60, index, sub))

    def expect_abort(self, command, index, sub, content, code):
        """A request with this command is aborted with this code."""
        aborted = sdo(2, 0x80, index, sub, struct.pack("<I", code))
        self.expect_answer(f"command {command:#x} for {index:#06x}:{sub}", COE, sdo(2, command, index, sub, content), COE, aborted)

    def expect_objects(self, row):
        """The objects are as the row says; what isn't there is aborted, what isn't spoken refused, and uploads go on behind each."""
        self.expect_upload(0x1018, 0, b"\4")
        for place, number in enumerate(row.identity, 1):
            self.expect_upload(0x1018, place, struct.pack("<I", number))
        self.expect_upload(0x1000, 0, bytes(4))
        self.expect_upload(0x1008, 0, row.name.encode())
        for index, sub, value in SAME:
            self.expect_upload(index, sub, value)
        self.expect_assigned(OUTPUTS_ASSIGNED, row.outputs)
        self.expect_assigned(INPUTS_ASSIGNED, row.inputs)
        for request in ABORTS:
            self.expect_abort(*request)
            self.expect_upload(0x1000, 0, bytes(4))
        for kind, body, answer, wanted in REFUSALS:
            self.expect_answer(f"a message of type {kind}: {body.hex()}", kind, body, answer, wanted)
            self.expect_upload(0x1000, 0, bytes(4))

    def expect_assigned(self, assignment, pdos):
        """All objects of a direction are assigned, and each has its mapping; where there are none there is no assignment."""
        if not pdos:
            return self.expect_abort(0x40, assignment, 0, b"", NO_OBJECT)
        self.expect_upload(assignment, 0, bytes([len(pdos)]))
        for place, (index, entries) in enumerate(pdos, 1):
            self.expect_upload(assignment, place, struct.pack("<H", index))
            self.expect_upload(index, 0, bytes([len(entries)]))
            for sub, (entry, part, bits) in enumerate(entries, 1):
                self.expect_upload(index, sub, struct.pack("<BBH", bits, part, entry))

    def assign(self, assignment, pdos):
        """The assignment of a direction is written anew, if there are objects: none, each, their count."""
        if pdos:
            self.expect_download(assignment, 0, b"\0")
            for place, (index, _, _) in enumerate(pdos, 1):
                self.expect_download(assignment, place, struct.pack("<H", index))
            self.expect_download(assignment, 0, bytes([len(pdos)]))
            self.expect_upload(assignment, 0, bytes([len(pdos)]))

    # ---- states and settings

    def expect_state(self, state):
        """The slave enters a state, without an error."""
        self.set(0x0120, bytes([state | 0x10, 0]))
        for _ in range(self.polls):
            came = self.read(0x0130, 6)
            if word(came) == state:
                break
        expect("AL status", word(came), state)
        expect("AL status code", word(came, 4), 0)

    def manager_page(self, number, length):
        """The registers of a manager of so many bytes: what the SII says but for the length, and active where it has one."""
        start, _, control, _, _, _ = self.managers[number]
        return struct.pack("<HHBBBB", start, length, control, 0, int(length > 0), 0)

    def expect_preop(self):
        """Managers 0 and 1 get what the SII says, both by one datagram, and PREOP is entered."""
        self.set(0x0800, self.manager_page(0, self.managers[0][1]) + self.manager_page(1, self.managers[1][1]))
        self.expect_state(PREOP)

    def expect_safeop(self, logical):
        """Managers 2 and 3 and an FMMU for each direction with bytes are set, from a logical address on, and SAFEOP is entered."""
        self.seat = logical, logical + self.output_bytes
        self.set(0x0810, self.manager_page(2, self.output_bytes))
        self.set(0x0818, self.manager_page(3, self.input_bytes))
        if self.output_bytes:
            self.set(0x0600, fmmu_of(self.seat[0], self.output_bytes, self.managers[2][0], 2))
        if self.input_bytes:
            self.set(0x0610, fmmu_of(self.seat[1], self.input_bytes, self.managers[3][0], 1))
        self.expect_state(SAFEOP)


def bytes_together(pdos):
    """How many bytes objects have together."""
    return (sum(bits for _, _, entries in pdos for _, _, bits in entries) + 7) // 8


def managers_of(row):
    """The four sync managers of the SII: mailboxes, outputs, inputs; those without bytes aren't active."""
    box = row.mailbox
    found = [(box.receive_start, box.receive_size, 0x26, 1), (box.send_start, box.send_size, 0x22, 2)] if box else [(0, 0, 0, 0)] * 2
    found += [(row.out_start, row.output_bytes, 0x24, 3), (row.in_start, row.input_bytes, 0x20, 4)]
    return b"".join(struct.pack("<HHBBBB", start, length, control, 0, int(length > 0), usage) for start, length, control, usage in found)


def category_of(pdos, manager):
    """The category of a direction: of each object index, number of entries and manager, of each entry index, subindex and bits; no names."""
    found = b""
    for index, entries in pdos:
        found += struct.pack("<HBBHH", index, len(entries), manager, 0, 0)
        found += b"".join(struct.pack("<HBHBH", entry, part, 0, bits, 0) for entry, part, bits in entries)
    return found


class Scan:
    """A scan of the slaves behind a bus, from the first frame to cycles in OP."""

    def __init__(self, bus, rows):
        self.bus, self.rows, self.slaves = bus, rows, []
        self.place, self.step = None, "nothing was sent"

    def at(self, step, place=None):
        """The step that the scan is at, and of which slave it is; the slave's calls are made on what is returned."""
        self.step, self.place = step, place
        return None if place is None else self.slaves[place]

    def where(self):
        """Where the scan is, for its fault."""
        slave = "all slaves" if self.place is None else f"slave {self.place}, {self.rows[self.place].name}"
        return f"{slave}: {self.step}"

    def name_slaves(self):
        """The slaves are counted, all take the usual defaults, and each gets its address."""
        count = len(self.rows)
        self.at("they are counted")
        types, counted = self.bus.physical(BRD, 0, 0x0000, bytes(1))
        expect("how many there are", counted, count)
        expect("the address of a broadcast that passed them", self.bus.slaves, count)
        expect("register 0x0000", types, b"\x11")
        self.at("they take what usual masters write to all")
        for register, data, is_taken in DEFAULTS:
            expect(f"counter of a write of {data.hex()} to {register:#06x}", self.bus.physical(BWR, 0, register, data)[1], count if is_taken else 0)
        self.slaves = [Found(self.bus, FIRST_STATION + place) for place in range(count)]
        for place in range(count):
            self.at("it gets its address", place).expect_station(place, place + 1 == count)

    def set_up(self):
        """Each slave says what its row does, and is brought to SAFEOP by what it said."""
        logical = 0
        for place, row in enumerate(self.rows):
            slave = self.at("its SII is read", place)
            slave.read_eeprom()
            self.at("its SII is what the table says", place).expect_eeprom(row)
            self.at("its SII ends", place).expect_edge(row)
            self.at("it enters PREOP", place).expect_preop()
            if slave.out_box[1]:
                self.at("its objects", place).expect_objects(row)
                self.at("its outputs are assigned", place).assign(OUTPUTS_ASSIGNED, slave.outputs)
                self.at("its inputs are assigned", place).assign(INPUTS_ASSIGNED, slave.inputs)
            self.at("it enters SAFEOP", place).expect_safeop(logical)
            logical += slave.output_bytes + slave.input_bytes
        self.size = logical

    def enter(self, state, name):
        """All slaves enter a state, one after another."""
        for place in range(len(self.slaves)):
            self.at(f"it enters {name}", place).expect_state(state)

    def runs(self, joint):
        """Slaves in a row that go by the same commands: where they begin, how many bytes they have, whether LRW, and how many have
        outputs and inputs."""
        runs = []
        for slave in self.slaves:
            lrw = joint and slave.lrw
            if not runs or runs[-1][2] != lrw:
                runs.append([slave.seat[0], 0, lrw, 0, 0])
            runs[-1][1] += slave.output_bytes + slave.input_bytes
            runs[-1][3] += slave.output_bytes > 0
            runs[-1][4] += slave.input_bytes > 0
        return runs

    def cycle(self, joint, image):
        """The datagrams of a cycle with these outputs, and the working counter that each must come back with."""
        for first, count, lrw, written, read in self.runs(joint):
            if lrw:
                yield (LRW, first, image[first : first + count]), 2 * written + read
            else:
                yield (LWR, first, image[first : first + count]), written
                yield (LRD, first, bytes(count)), read

    def run_cycles(self):
        """Cycles with other outputs in each: each counter is right, and each input is the output of the cycle before."""
        before = bytes(self.size)
        for number in range(1, CYCLES + SPLIT_CYCLES + 1):
            image = bytes((number * 37 + place * 11) % 256 for place in range(self.size))
            self.at(f"cycle {number}")
            before = self.run_cycle(number <= CYCLES, image, before)

    def run_cycle(self, joint, image, before):
        """A cycle that carries these outputs, and brings what the applications made of the outputs before."""
        datagrams, counters = zip(*self.cycle(joint, image))
        seen = bytearray(self.size)
        for (command, first, data), (came, counted), counter in zip(datagrams, self.bus.exchange(datagrams), counters):
            expect(f"counter of command {command} at {first:#x}", counted, counter)
            if command != LWR:
                seen[first : first + len(data)] = came
        for place, slave in enumerate(self.slaves):
            self.place = place
            outputs, inputs = slave.seat
            # an LRW brings the outputs back as they were sent, an LRD the zeros in their place
            carried = image[outputs:inputs] if joint and slave.lrw else bytes(slave.output_bytes)
            expect("outputs that came back", bytes(seen[outputs:inputs]), carried)
            wanted = before[outputs:inputs][: slave.input_bytes].ljust(slave.input_bytes, b"\0")
            expect("inputs", bytes(seen[inputs : inputs + slave.input_bytes]), wanted)
        self.place = None
        return image

    def run(self):
        """The whole scan: the slaves are in OP at its end."""
        self.name_slaves()
        self.set_up()
        self.enter(OP, "OP")
        self.run_cycles()
        return f"{len(self.slaves)} slaves in OP, {CYCLES + SPLIT_CYCLES} cycles, {self.bus.frames} frames"
