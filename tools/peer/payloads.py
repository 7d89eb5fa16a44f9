"""Payloads from a source of random numbers: frames of all commands, frames that were tampered with, bytes, and what masters ask."""
from frames import BRD, FPRD, FPRW, FPWR, LOGICAL, LRW, MOST, MOST_AREA, NOP, OVERHEAD, frame_of

# physical addresses where something is: identity, station address, AL, SII, FMMUs, managers, mailboxes and process data
ADDRESSES = (0x0000, 0x0004, 0x0010, 0x0120, 0x0130, 0x0502, 0x0508, 0x0600, 0x0610, 0x0800, 0x0808, 0x0810,
             0x0818, 0x1000, 0x1080, 0x1100, 0x1400, 0x2FF0, 0x2FFF, 0x3000)
# a frame of a cycle: no operation that names it, a broadcast read of the AL status, and a read and write of the process data
CYCLE = frame_of([(NOP, 100, 0, bytes([100] + 9 * [0])), (BRD, 100, 0x0130 << 16, bytes(2)), (LRW, 100, 0x10000, bytes([0x0A, 0x23, 0x01]))])
# registers that full slaves have, and what stands around them
REGISTERS = (0x0000, 0x0004, 0x0007, 0x0012, 0x0100, 0x0102, 0x0110, 0x0140, 0x0500, 0x0502, 0x0504, 0x0508)
# objects that slaves have, and one that none has; commands of SDOs, and what is none
OBJECTS = (0x1000, 0x1008, 0x1009, 0x100A, 0x1018, 0x1600, 0x1A00, 0x1C00, 0x1C12, 0x1C13, 0x6041)
SDOS = (0x40, 0x2F, 0x2B, 0x23, 0x21, 0x60, 0x80, 0xFF)
# the third slave's mailbox: its station, where a master writes, where it reads, and the bytes of both
STATION, MAILBOX_OUT, MAILBOX_IN, MAILBOX = 0x1002, 0x1000, 0x1080, 128


def mostly(random, part, usual, other):
    """The usual value in this part of all cases, else another."""
    return usual if random.random() < part else other


def address(random, command):
    """A physical or a logical address."""
    if command in LOGICAL:
        return random.choice((random.getrandbits(32), *3 * (0x10000 + random.randrange(4),)))
    first = random.choice((0, 65535 - random.randrange(4), 0x1000 + random.randrange(5), random.randrange(65536)))
    return first | random.choice(ADDRESSES) << 16


def data_count(random):
    """How many bytes a datagram has."""
    return random.choice((random.randrange(1459), 0, 128, 128, *12 * (random.randrange(20),)))


def random_frame(random):
    """A frame of up to four datagrams, and one of no operation behind them."""
    rows, room = [], MOST_AREA - OVERHEAD
    for _ in range(random.randint(1, 4)):
        command, count = random.randrange(15), data_count(random)
        if OVERHEAD + count <= room:
            rows.append((command, random.randrange(256), address(random, command), random.randbytes(count)))
            room -= OVERHEAD + count
    return frame_of([*rows, (NOP, 0, 0, b"")])


def tampered(random, payload):
    """A payload with its end cut off, with bytes behind it, or with a few bytes changed."""
    way = random.randrange(6)
    if way == 0 or not payload:
        return payload[: random.randrange(len(payload) + 1)]
    if way == 1:
        return (payload + random.randbytes(random.randrange(40)))[:MOST]
    changed = bytearray(payload)
    for _ in range(random.randint(1, 4)):
        changed[random.randrange(len(changed))] ^= mostly(random, 0.5, 1 << random.randrange(8), random.randrange(256))
    return bytes(changed)


def random_payload(random):
    """A frame, a frame of a cycle, or bytes, tampered with in two of five cases."""
    way = random.randrange(8)
    payload = random.randbytes(random.randrange(MOST + 1)) if way == 0 else CYCLE if way < 3 else random_frame(random)
    return mostly(random, 0.6, payload, tampered(random, payload))


def visit(random):
    """A frame as masters send that look around, or hostile ones: to the SII, to registers, and to the mailbox of the third slave."""
    ways = (to_sii, to_mailbox, from_mailbox, to_registers)
    return frame_of([*(random.choice(ways)(random) for _ in range(random.randint(1, 3))), (NOP, 0, 0, b"")])


def at_station(random, register):
    """A register at a slave, or near one."""
    return 0x1000 + random.randrange(4) | register << 16


def to_sii(random):
    """A command to the SII: mostly a read, at a word that an image may have, or at any."""
    command = mostly(random, 0.8, 1, random.randrange(256))
    place = mostly(random, 0.8, random.randrange(300), random.getrandbits(32))
    data = bytes([random.randrange(256), command]) + place.to_bytes(4, "little")
    return FPWR, random.randrange(256), at_station(random, 0x0502), data


def to_registers(random):
    """An access to registers."""
    data = bytes([random.randrange(256)]) * random.randint(1, 9)
    return random.choice((FPWR, BRD, FPRW, FPRD)), random.randrange(256), at_station(random, random.choice(REGISTERS)), data


def to_mailbox(random):
    """A message: mostly an SDO request with the length of an expedited one."""
    data = bytearray([random.randrange(256)] * MAILBOX)
    data[0] = mostly(random, 0.7, 10, random.randrange(256))
    data[1] = mostly(random, 0.9, 0, random.randrange(256))
    data[5] = mostly(random, 0.8, 0x13, random.randrange(256))
    data[7] = random.choice((0x80, random.randrange(256), 0x20, 0x20))
    data[8] = random.choice(SDOS)
    data[9:11] = random.choice(OBJECTS).to_bytes(2, "little")
    data[11] = random.randrange(6)
    return FPWR, random.randrange(256), STATION | MAILBOX_OUT << 16, bytes(data)


def from_mailbox(random):
    """The mailbox that the third slave sends by is read."""
    return FPRD, random.randrange(256), STATION | MAILBOX_IN << 16, bytes(MAILBOX)
