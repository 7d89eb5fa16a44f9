"""What a frame is and what slaves may do to it, read off the standard byte by byte (ETG.1000.4, "EtherCAT frame structure").

Nothing here knows a link table, or a datagram's meaning beyond its role.
"""
NOP, APRD, APWR, APRW, FPRD, FPWR, FPRW, BRD, BWR, BRW, LRD, LWR, LRW, ARMW, FRMW = range(15)
LOGICAL, MOVED = (LRD, LWR, LRW), (APRD, APWR, APRW, BRD, BWR, BRW, ARMW)
# what stays as it was sent, and what reads and writes and so counts 3 at a slave
KEPT, BOTH = (NOP, APWR, FPWR, BWR, LWR), (APRW, FPRW, BRW, LRW)
# the frame's header, a datagram's ten bytes before its data with the working counter behind, and the most bytes of both
HEADER, OVERHEAD, MOST_AREA, MOST = 2, 12, 1470, 1472
MORE = 0x8000


def word(data, at):
    return int.from_bytes(data[at : at + 2], "little")


def datagram(command, index, address, data, more):
    """The bytes of a datagram; its address is a number of 32 bits."""
    return bytes([command, index]) + address.to_bytes(4, "little") + (len(data) | more).to_bytes(2, "little") + b"\0\0" + data + b"\0\0"


def frame_of(rows):
    """The frame of datagrams, each a command, an index, an address and data."""
    area = b"".join(datagram(*row, MORE if place + 1 < len(rows) else 0) for place, row in enumerate(rows))
    return (len(area) | 0x1000).to_bytes(2, "little") + area


def read(payload):
    """Where the datagrams of a payload stand that are whole, each from its first byte to the one behind it, and what is wrong.

    That is nothing for a frame. Otherwise it is the first fault: the number and name of the refusal, and the byte where it begins.
    """
    header, places = word(payload, 0), []
    length = header % 2048
    if len(payload) >= HEADER and header >> 12 != 1:
        return [], (3, "BadType", 0)
    if len(payload) >= HEADER and length > MOST_AREA:
        return [], (7, "TooLong", 0)
    whole = len(payload) >= HEADER + length and len(payload) >= HEADER
    at, end = HEADER, min(HEADER + length, len(payload))
    fault = (4, "BadLength", 0) if length == 0 else None
    while at < end and not fault:
        behind = at + OVERHEAD + word(payload, at + 6) % 2048
        if end - at < OVERHEAD or end < behind:
            fault = (4, "BadLength", at)
        elif payload[at] > FRMW:
            fault = (6, "BadCommand", at)
        elif (word(payload, at + 6) >= MORE) != (behind < end):
            # a last datagram of a payload that is cut short is whole, whatever it says of others
            fault = (5, "BadMore", at)
            places += [] if whole else [(at, behind)]
        else:
            places.append((at, behind))
            at = behind
    return places, fault if whole else (2, "Short", len(payload))


def is_frame(payload):
    return read(payload)[1] is None


def fault_of(sent, came, slaves):
    """What is wrong with a frame that came back past so many slaves; nothing if they may have made it so."""
    if len(came) != len(sent) or came[:HEADER] != sent[:HEADER]:
        return f"{len(sent)} bytes with the header {sent[:HEADER].hex()} came back as {len(came)} with {came[:HEADER].hex()}"
    places, _ = read(sent)
    for at, behind in places:
        fault = fault_in(sent[at:behind], came[at:behind], slaves)
        if fault:
            return f"the datagram at byte {at}: {fault}"
    end = places[-1][1]
    if came[end:] != sent[end:]:
        return f"behind the datagrams {sent[end:].hex()} came back as {came[end:].hex()}"
    return None


def fault_in(sent, came, slaves):
    """What is wrong with a datagram that came back past so many slaves; nothing if they may have made it so."""
    command, count = sent[0], len(sent) - OVERHEAD
    first = (word(sent, 2) + slaves * (command in MOVED)) % 65536
    wanted = sent[:2] + first.to_bytes(2, "little") + sent[4:10]
    if came[:10] != wanted:
        return f"its ten bytes are {came[:10].hex()}, wanted {wanted.hex()}"
    if command in KEPT and came[10:-2] != sent[10:-2]:
        return f"its data are {came[10:-2].hex()}, wanted {sent[10:-2].hex()}"
    risen = (word(came, 10 + count) - word(sent, 10 + count)) % 65536
    most = 0 if command == NOP else slaves * (3 if command in BOTH else 1)
    return f"its working counter rose by {risen}, at most {most} may be" if risen > most else None
