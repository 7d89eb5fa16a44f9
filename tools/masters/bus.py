"""What masters for tests stand on: frames over UDP or over a card, and a slave's registers, SII, mailbox and states.

It is written from ETG.1000.4 and ETG.1000.6, and nothing here knows a link table. What a slave doesn't do is a `Stumble`.
"""
import socket
import struct

INIT, PREOP, SAFEOP, OP = 1, 2, 4, 8
STRINGS, GENERAL, FMMUS, MANAGERS, INPUTS, OUTPUTS, END = 10, 30, 40, 41, 50, 51, 0xFFFF
APRD, APWR, FPRD, FPWR, BRD, BWR, LRD, LWR, LRW = 1, 2, 4, 5, 7, 8, 10, 11, 12
BY_PLACE, WRITES = (APRD, APWR, BRD, BWR), (APWR, FPWR, BWR, LWR)
MAILBOX_ERROR, COE = 0, 3
# an Ethernet frame has at least so many bytes of payload
LEAST = 46


class Stumble(Exception):
    """A slave isn't as the master wants it."""


def want(holds, text):
    if not holds:
        raise Stumble(text)


def word(data, at=0):
    return struct.unpack_from("<H", data, at)[0]


def long(data, at=0):
    return struct.unpack_from("<I", data, at)[0]


class Bus:
    """Frames of datagrams (ETG.1000.4, "EtherCAT frame structure"), over UDP or over a card.

    A frame is filled up to `least` bytes. What comes back must be the frame, changed only where slaves may change it.
    """

    def __init__(self, port=None, card=None, least=LEAST, patience=10):
        self.number = self.frames = 0
        self.least, self.patience, self.slaves = LEAST if card else least, patience, None
        if card:
            self.socket = socket.socket(socket.AF_PACKET, socket.SOCK_RAW, socket.htons(0x88A4))
            self.socket.bind((card, 0x88A4))
            self.heading = b"\xff" * 6 + bytes.fromhex("020101010101") + b"\x88\xa4"
        else:
            self.socket = socket.socket(socket.AF_INET, socket.SOCK_DGRAM)
            self.socket.connect(("127.0.0.1", port))
            self.heading = b""
        self.socket.settimeout(patience)

    def wait(self):
        """Broadcasts until a frame comes back: over a card nobody is told when a segment begins to listen."""
        self.socket.settimeout(0.1)
        for _ in range(100):
            try:
                self.physical(BRD, 0, 0x0000, bytes(1))
                break
            except TimeoutError:
                pass
        self.socket.settimeout(self.patience)

    def receive(self):
        """The frame that comes next. Over a card that is none of ours, and none that was given up."""
        while True:
            came, sender = self.socket.recvfrom(2000)
            if not self.heading:
                return came
            frame = came[len(self.heading):]
            if sender[2] != socket.PACKET_OUTGOING and frame[3] == self.number:
                return frame

    def exchange(self, datagrams):
        """Sends datagrams, each a command, an address and data, in one frame. What came back of each: data and working counter."""
        self.number = (self.number + 1) % 256
        self.frames += 1
        area = b""
        for place, (command, address, data) in enumerate(datagrams):
            more = 0x8000 if place + 1 < len(datagrams) else 0
            area += bytes([command, self.number]) + struct.pack("<IHH", address, len(data) | more, 0) + bytes(data) + b"\0\0"
        sent = (struct.pack("<H", len(area) | 0x1000) + area).ljust(self.least, b"\0")
        self.socket.send(self.heading + sent)
        came = self.receive()
        want(len(came) == len(sent), f"a frame of {len(sent)} bytes came back with {len(came)}")
        want(came[:2] == sent[:2], f"the header {sent[:2].hex()} came back as {came[:2].hex()}")
        at, back = 2, []
        for command, address, data in datagrams:
            end = at + 10 + len(data)
            want(came[at : at + 2] + came[at + 6 : at + 10] == sent[at : at + 2] + sent[at + 6 : at + 10], f"the datagram {sent[at : at + 10].hex()} came back as {came[at : at + 10].hex()}")
            self.look_at_address(command, address, long(came, at + 2))
            want(command not in WRITES or came[at + 10 : end] == data, f"what command {command} wrote came back as {came[at + 10 : end].hex()}")
            back.append((came[at + 10 : end], word(came, end)))
            at = end + 2
        want(came[at:] == sent[at:], f"what lies behind the datagrams came back as {came[at:].hex()}")
        return back

    def look_at_address(self, command, sent, came):
        """Each slave adds 1 to the position of a datagram that goes by place or to all, and leaves every other address."""
        passed = (came - sent) % 65536
        if self.slaves is None and command in BY_PLACE:
            self.slaves = passed
        wanted = (sent + self.slaves) % 65536 | sent & 0xFFFF0000 if command in BY_PLACE else sent
        want(came == wanted, f"the address of command {command}: wanted {wanted:#010x}, came {came:#010x}")

    def send(self, command, address, data):
        """A datagram alone in its frame: what came back in it, its data and its working counter."""
        return self.exchange([(command, address, data)])[0]

    def physical(self, command, first, register, data):
        return self.send(command, first % 65536 | register << 16, data)


class Slave:
    """A slave by its station address, and what was found out of it."""

    # so often a master asks whether something has changed
    polls = 100

    def __init__(self, bus, station):
        self.bus, self.station, self.counter = bus, station, 0

    def want(self, holds, text):
        want(holds, f"slave {self.station:#x}: {text}")

    def read(self, register, count):
        data, counted = self.bus.physical(FPRD, self.station, register, bytes(count))
        self.want(counted == 1, f"no read of {register:#06x}")
        return data

    def write(self, register, data):
        return self.bus.physical(FPWR, self.station, register, data)[1] == 1

    def set(self, register, data):
        """A write that the slave must take."""
        self.want(self.write(register, data), f"no write of {register:#06x}")

    # ---- the SII (ETG.1000.4, "Slave information interface"; ETG.1000.6, "Slave information interface area")

    def sii_status(self):
        """The status word of the SII's port once it isn't busy."""
        for _ in range(self.polls):
            state = word(self.read(0x0502, 2))
            if not state & 0x8000:
                return state
        self.want(False, "the SII stays busy")

    def sii(self, address, low=0x00):
        """Two words, as four bytes; none where the read ends with an error."""
        if self.sii_status() & 0x7800:
            self.set(0x0502, b"\0\0")
        self.set(0x0502, struct.pack("<BBI", low, 1, address))
        return None if self.sii_status() & 0x7800 else self.read(0x0508, 4)

    def sii_words(self, address, count, low=0x00):
        """So many words from a word address on, read two at a time, as their bytes."""
        data = b""
        for at in range(address, address + count, 2):
            two = self.sii(at, low)
            self.want(two is not None, f"no SII word {at:#x}")
            data += two
        return data[: 2 * count]

    def crawl(self, low=0x00):
        """The categories in order, each its type and its bytes, up to the end mark; and the word address of the mark."""
        at, found = 0x40, []
        for _ in range(64):
            kind, length = struct.unpack("<HH", self.sii_words(at, 2, low))
            if kind == END:
                return found, at
            found.append((kind, self.sii_words(at + 2, length, low)))
            at += 2 + length
        self.want(False, "the SII's categories have no end")

    # ---- the mailbox (ETG.1000.4, "Mailbox structure"; ETG.1000.6, "SDO services")

    def converse(self, kind, body):
        """Writes a message of a type, the mailbox whole, and reads the mailbox with the answer, whole."""
        self.counter = self.counter % 7 + 1
        message = struct.pack("<HHBB", len(body), 0, 0, kind | self.counter << 4) + body
        self.set(self.out_box[0], message.ljust(self.out_box[1], b"\0"))
        for _ in range(self.polls):
            if self.read(0x080D, 2)[0] & 8:
                return self.read(*self.in_box)
        self.want(False, "no answer in the mailbox")

    # ---- states

    def state(self):
        return word(self.read(0x0130, 2))


def sdo(service, command, index, sub, content=b""):
    """What follows the mailbox header of an SDO: the CoE header with its service, the command, the object, at least four bytes."""
    return struct.pack("<HBHB", service << 12, command, index, sub) + bytes(content).ljust(4, b"\0")


def pdos_of(body):
    """The process data objects of a category: of each the index, the manager and the entries, each an index, a subindex and bits."""
    at, found = 0, []
    while at < len(body):
        index, count, manager = struct.unpack_from("<HBB", body.ljust(at + 4, b"\0"), at)
        want(at + 8 + 8 * count <= len(body), f"the PDO {index:#06x} of a category is cut off")
        entries = [struct.unpack_from("<HB2xB", body, at + 8 + 8 * place) for place in range(count)]
        found.append((index, manager, entries))
        at += 8 + 8 * count
    return found


def fmmu_of(logical, count, physical, way, last_bit=7):
    """The sixteen bytes of an FMMU for so many bytes, by reads (1) or by writes (2)."""
    return struct.pack("<IHBBHBBB3x", logical, count, 0, last_bit, physical, 0, way, 1)
