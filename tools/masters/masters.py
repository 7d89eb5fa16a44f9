"""The start-ups of SOEM 1.4 and of IgH's master 1.5, retold frame by frame, as far as a segment sees them.

Each finds the slaves, reads who they are from their SII, asks them by CoE or by the SII's categories for their process data,
and brings them to OP with what it found alone: nothing here knows the link table. What a step wants of a slave and doesn't get
is a `Stumble`.
"""
import struct

from bus import APRD, APWR, BRD, BWR, COE, GENERAL, INIT, INPUTS, LRD, LRW, LWR, MANAGERS, OP, OUTPUTS, PREOP, SAFEOP, STRINGS
from bus import Slave as BusSlave
from bus import fmmu_of, long, pdos_of, sdo, want, word


class Slave(BusSlave):
    """A slave as these masters see it, with the settings of its managers."""

    def __init__(self, bus, station):
        super().__init__(bus, station)
        self.managers = {}

    def read_categories(self, low=0x00):
        found, self.words = self.crawl(low)
        self.categories = dict(found)

    def identify(self):
        self.identity = tuple(long(self.sii(at)) for at in (0x08, 0x0A, 0x0C, 0x0E))
        self.out_box, self.in_box = struct.unpack("<HH", self.sii(0x18)), struct.unpack("<HH", self.sii(0x1A))
        self.protocols = word(self.sii(0x1C))
        strings, general = self.categories.get(STRINGS, b"\0"), self.categories.get(GENERAL)
        self.want(general is not None and MANAGERS in self.categories, "no general or SyncM category")
        names, at = [""], 1
        for _ in range(strings[0]):
            names.append(strings[at + 1 : at + 1 + strings[at]].decode())
            at += 1 + strings[at]
        self.name, self.coe, self.no_lrw = names[general[3]], general[5], bool(general[11] & 2)
        for number, at in enumerate(range(0, len(self.categories[MANAGERS]), 8)):
            start, length, control, _, enable, usage = struct.unpack_from("<HHBBBB", self.categories[MANAGERS], at)
            self.managers[number] = [start, length, control, enable, usage]

    def pdos_of_sii(self):
        """The bits of each manager, by the PDO categories."""
        bits = {}
        for kind in (INPUTS, OUTPUTS):
            for _, manager, entries in pdos_of(self.categories.get(kind, b"")):
                bits[manager] = bits.get(manager, 0) + sum(count for _, _, count in entries)
        return bits

    # ---- the mailbox

    def upload(self, index, sub):
        """An object's bytes; none where the transfer is aborted."""
        came = self.converse(COE, sdo(2, 0x40, index, sub))
        self.want(came[5] & 15 == COE, f"mailbox type {came[5] & 15}")
        command, told, at, value = struct.unpack_from("<BHBI", came, 8)
        if command == 0x80:
            return None
        self.want((told, at) == (index, sub), "another object came")
        if command & 2:
            return came[12 : 16 - (command >> 2 & 3)]
        self.want(word(came) == 10 + value, f"{index:#06x} comes in segments")
        return came[16 : 16 + value]

    def number(self, index, sub):
        data = self.upload(index, sub)
        self.want(data is not None, f"no {index:#06x}:{sub}")
        return int.from_bytes(data, "little")

    def bits_assigned(self, assignment):
        """The bits of the PDOs that an assignment object has, none where there is no such object."""
        count = self.upload(assignment, 0)
        if count is None:
            return 0
        bits = 0
        for place in range(1, count[0] + 1):
            pdo = self.number(assignment, place)
            bits += sum(self.number(pdo, entry) & 0xFF for entry in range(1, self.number(pdo, 0) + 1))
        return bits

    # ---- states

    def go(self, state):
        self.set(0x0120, struct.pack("<H", state))
        for _ in range(self.polls):
            now = self.read(0x0130, 6)
            if word(now) & 0x1F == state:
                return
            self.want(not word(now) & 0x10, f"state {state} refused, code {word(now, 4):#06x}")
        self.want(False, f"state {state} isn't reached")

    def set_manager(self, number):
        start, length, control, enable, _ = self.managers[number]
        self.set(0x0800 + 8 * number, struct.pack("<HHBBH", start, length, control, 0, enable))

    def set_fmmu(self, number, logical, bits, start, way):
        self.set(0x0600 + 16 * number, fmmu_of(logical, (bits + 7) // 8, start, way, (bits - 1) % 8))


def map_process_data(slaves):
    """Logical addresses, slave after slave and byte by byte, outputs first; managers 2 and 3 and the FMMUs say so."""
    at = 0x10000
    for slave in slaves:
        slave.parts, fmmu = [], 0
        for number, way in ((2, 2), (3, 1)):
            bits = slave.bits.get(number, 0)
            manager = slave.managers[number]
            manager[1], manager[3] = (bits + 7) // 8, int(bits > 0)
            slave.set_manager(number)
            if bits:
                slave.set_fmmu(fmmu, at, bits, manager[0], way)
                slave.parts.append((way, at, manager[1]))
                at, fmmu = at + manager[1], fmmu + 1
    return at - 0x10000


def exchange(bus, slaves, size, pattern):
    """A cycle; what came back of the inputs has to be the outputs, as the segment's applications show them."""
    image = bytes((pattern * 37 + k) % 256 for k in range(size))
    counters = {way: sum(any(p[0] == way for p in s.parts) for s in slaves) for way in (1, 2)}
    if any(s.no_lrw for s in slaves):
        want(bus.send(LWR, 0x10000, image)[1] == counters[2], "the counter of LWR")
        came, counted = bus.send(LRD, 0x10000, image)
        want(counted == counters[1], "the counter of LRD")
    else:
        came, counted = bus.send(LRW, 0x10000, image)
        want(counted == counters[1] + 2 * counters[2], f"the counter of LRW: {counted}")
    return image, came


def compare(slaves, came, shown):
    """The whole bytes that a slave has of both directions: its inputs are the outputs that its application saw."""
    for slave in slaves:
        where = {way: (at - 0x10000, length) for way, at, length in slave.parts}
        if 1 in where and 2 in where:
            (ins, inputs), (outs, outputs) = where[1], where[2]
            few = min(inputs, outputs) - 1
            slave.want(came[ins : ins + few] == shown[outs : outs + few], "its inputs are not its outputs")


def run_cycles(bus, slaves, size, cycles):
    """Cycles; where outputs and inputs go by frames of their own, the inputs already follow the outputs of their cycle."""
    last, is_split = None, any(s.no_lrw for s in slaves)
    for cycle in range(cycles):
        image, came = exchange(bus, slaves, size, cycle)
        shown = image if is_split else last
        if shown is not None:
            compare(slaves, came, shown)
        last = image


def come_up(bus, slaves, cycles):
    """SAFEOP, a cycle so that the outputs are there, OP, and cycles."""
    size = map_process_data(slaves)
    for slave in slaves:
        slave.go(SAFEOP)
    if size:
        exchange(bus, slaves, size, 0)
    for slave in slaves:
        slave.go(OP)
    if size:
        run_cycles(bus, slaves, size, cycles)
    want(all(s.state() == OP for s in slaves), "a slave left OP")
    return size


def set_mailboxes(slave):
    for number, box in enumerate((slave.out_box, slave.in_box)):
        slave.managers[number][:2] = list(box)
        slave.set_manager(number)


# ---- SOEM: ec_config_init, ec_config_map, then OP


def soem(bus, cycles):
    for register, data in ((0x0103, b"\0"), (0x0120, b"\x11"), (0x0120, b"\x11")):
        bus.physical(BWR, 0, register, data)
    kind, count = bus.physical(BRD, 0, 0x0000, bytes(2))
    want(count > 0, "no slave answers")
    defaults = ((0x0101, 1), (0x0200, 2), (0x0300, 8), (0x0600, 48), (0x0800, 32), (0x0910, 4), (0x0930, 2), (0x0934, 2), (0x0103, 1), (0x0981, 1))
    for register, length in defaults:
        bus.physical(BWR, 0, register, bytes(length))
    for data in (b"\2", b"\0"):
        bus.physical(BWR, 0, 0x0500, data)
    slaves = []
    for place in range(count):
        bus.physical(APRD, -place, 0x0140, bytes(2))
        want(bus.physical(APWR, -place, 0x0010, struct.pack("<H", 0x1001 + place))[1] == 1, f"slave {place}: no address")
        want(bus.physical(APWR, -place, 0x0100, struct.pack("<H", int(place == 0)))[1] == 1, f"slave {place}: no DL control")
        slaves.append(Slave(bus, 0x1001 + place))
        slaves[-1].read(0x0012, 2)
    for place, slave in enumerate(slaves):
        slave.read(0x0008, 2)
        status = word(slave.read(0x0110, 2))
        open_ports = [port for port in range(4) if status >> 8 + 2 * port & 3 == 2]
        want(open_ports == ([0] if place == count - 1 else [0, 1]), f"slave {place}: open ports {open_ports}")
        slave.read_categories()
        slave.identify()
        if slave.out_box[1]:
            set_mailboxes(slave)
        slave.write(0x0500, b"\1")
        slave.go(PREOP)
    for slave in slaves:
        slave.bits = soem_map(slave) if slave.protocols & 4 else slave.pdos_of_sii()
    return slaves, come_up(bus, slaves, cycles)


def soem_map(slave):
    """The bits of each manager by 0x1C00, the assignments and the mappings; by the SII where there are none."""
    slave.name = (slave.upload(0x1008, 0) or slave.name.encode()).decode()
    bits = {}
    if slave.upload(0x1C00, 0) is not None:
        for number in range(2, slave.number(0x1C00, 0)):
            usage = slave.number(0x1C00, number + 1)
            if usage in (3, 4):
                bits[number] = slave.bits_assigned(0x1C10 + number)
    return bits if any(bits.values()) else slave.pdos_of_sii()


# ---- IgH: the scan, the configuration, then OP


def igh(bus, cycles):
    _, count = bus.physical(BRD, 0, 0x0130, bytes(2))
    want(count > 0, "no slave answers")
    want(bus.physical(BWR, 0, 0x0010, bytes(2))[1] == count, "the station addresses are not cleared")
    bus.physical(BWR, 0, 0x0900, bytes(1))
    slaves = []
    for place in range(count):
        want(bus.physical(APWR, -place, 0x0010, struct.pack("<H", place + 1))[1] == 1, f"slave {place}: no address")
        slave = Slave(bus, place + 1)
        slave.read(0x0130, 2)
        base = slave.read(0x0000, 12)
        want(base[0] == 0x11 and base[4] == 4 and base[5] == 4 and base[7] == 0x0F, f"slave {place}: base {base.hex()}")
        links = [bool(word(slave.read(0x0110, 2)) >> 4 + port & 1) for port in range(4)]
        want(links == [True, place < count - 1, False, False], f"slave {place}: links {links}")
        want(slave.write(0x0500, b"\0\0"), f"slave {place}: the SII isn't assigned to EtherCAT")
        slave.read_categories(0x80)
        slave.identify()
        slaves.append(slave)
    for slave in slaves:
        slave.go(INIT)
        slave.write(0x0600, bytes(64))
        slave.write(0x0800, bytes(32))
        if slave.out_box[1]:
            set_mailboxes(slave)
        slave.go(PREOP)
        slave.bits = slave.pdos_of_sii()
        if slave.protocols & 4:
            for number in (2, 3):
                slave.bits[number] = slave.bits_assigned(0x1C10 + number)
                igh_assign(slave, 0x1C10 + number)
    return slaves, come_up(bus, slaves, cycles)


def igh_assign(slave, assignment):
    """The assignment as it is, written anew."""
    count = slave.upload(assignment, 0)
    if count is None:
        return
    pdos = [slave.number(assignment, place) for place in range(1, count[0] + 1)]
    steps = [(0, 0, 1)] + [(place + 1, pdo, 2) for place, pdo in enumerate(pdos)] + [(0, len(pdos), 1)]
    for sub, value, size in steps:
        came = slave.converse(COE, sdo(2, 0x2F if size == 1 else 0x2B, assignment, sub, struct.pack("<I", value)))
        slave.want(came[8] == 0x60, f"{assignment:#06x}:{sub} isn't written")


MASTERS = {"soem": soem, "igh": igh}
