"""A segment of devices: frames pass them in their order, time goes on, and what is wrong can be looked at from outside.

Time is the plant's own, so that a trial doesn't depend on how fast or how busy this machine is. A frame takes FRAME_TIME, as over a card.
A silence between frames counts if it was longer than SILENCE, and so were the RESTS before it: a master that polls at once takes
FRAME_TIME a poll, however slowly its program runs, and one that rests 10 ms takes 10 ms. Longer silences are those that a trial asks for,
by `pass_time`.
"""
from __future__ import annotations

import struct

from coe import INPUTS_ASSIGNED, OUTPUTS_ASSIGNED, Coe
from esc import DL_STATUS, FRMW, Map
from slave import OP, PREOP, Slave, bytes_of

FRAME_TIME, SILENCE, LONGEST, RESTS = 20e-6, 0.008, 0.012, 5
HEADER, OVERHEAD = 2, 12
# registers that a start-up may write: station addresses, AL control, owner, command and address of the SII, FMMUs, sync managers, and in
# a table for hardware as many of the last two as a controller may have
WRITTEN = {*range(0x0010, 0x0012), *range(0x0120, 0x0122), 0x0500, *range(0x0502, 0x0508), *range(0x0600, 0x0700), *range(0x0800, 0x0880)}
# a wait of a start-up has at most so many polls
POLLS = 1000
# commands that a start-up may give to the SII: clear an error, and read
SII_COMMANDS = {0x0000, 0x0100}


class Datagram:
    """A datagram of a frame: where its data are, and what it says."""

    def __init__(self, payload: bytes, at: int) -> None:
        self.at, self.command = at, payload[at]
        self.first, self.address, self.length = struct.unpack_from("<HHH", payload, at + 2)
        self.count = self.length & 0x07FF
        self.data = bytearray(payload[at + 10 : at + 10 + self.count])
        self.counter = int.from_bytes(payload[at + 10 + self.count : at + 12 + self.count], "little")

    @property
    def end(self) -> int:
        return self.at + OVERHEAD + self.count

    def write(self, payload: bytearray) -> None:
        """Puts it back: its first address word, its data, its working counter."""
        struct.pack_into("<H", payload, self.at + 2, self.first)
        payload[self.at + 10 : self.end] = bytes(self.data) + struct.pack("<H", self.counter)


def datagrams_of(payload: bytes) -> list[Datagram] | None:
    """The datagrams of a payload, or nothing if it is no frame [DL "EtherCAT frame structure"]."""
    if len(payload) < HEADER:
        return None
    header = struct.unpack_from("<H", payload)[0]
    at, end, found = HEADER, HEADER + (header & 0x07FF), []
    if header >> 12 != 1 or end > len(payload):
        return None
    while at + OVERHEAD <= end:
        one = Datagram(payload, at)
        if one.end > end or one.command > FRMW:
            return None
        found.append(one)
        at = one.end
        if not one.length & 0x8000:
            return found
    return None


class Plant:
    """Devices in a row, just switched on."""

    frame_time = FRAME_TIME

    def __init__(self, devices: list[Slave]) -> None:
        self.devices, self.now, self.frames, self.others, self.silences = devices, 0.0, 0, 0, 0
        # the last datagram of the frame before, how often it came one after the other, and the most that any did
        self.asked, self.polls, self.most_polls = None, 0, 0
        for place, device in enumerate(devices):
            # DL status: the PDI runs; a link with communication at port 0, and at port 1 if another follows [ESC 0x0110]
            device.esc.put_word(DL_STATUS, 0x5A31 if place + 1 < len(devices) else 0x5611)

    def pass_time(self, seconds: float) -> None:
        """So many seconds go by without a frame, in steps of a millisecond."""
        for _ in range(int(seconds * 1000)):
            self.tick(0.001)

    def tick(self, seconds: float) -> None:
        self.now += seconds
        for device in self.devices:
            device.tick(self.now)

    def count(self, one: Datagram) -> None:
        """A frame is a poll again if its last datagram reads what that of the frame before did."""
        asked = one.command, one.first, one.address, one.count
        self.polls = self.polls + 1 if asked == self.asked else 1
        self.asked, self.most_polls = asked, max(self.most_polls, self.polls)

    def answer(self, payload: bytes, silence: float = 0.0) -> bytes | None:
        """What comes back of a payload behind such a silence, or nothing if it is no frame."""
        found = datagrams_of(payload)
        if found is None:
            self.others += 1
            return None
        self.frames += 1
        self.count(found[-1])
        self.silences = self.silences + 1 if silence > SILENCE else 0
        self.tick(min(silence, LONGEST) if self.silences > RESTS else self.frame_time)
        for device in self.devices:
            for one in found:
                one.first, counted = device.esc.visit(one.command, one.first, one.address, one.data)
                one.counter = (one.counter + counted) % 65536
            device.esc.end_frame()
        back = bytearray(payload)
        for one in found:
            one.write(back)
        return bytes(back)


# ---- what is wrong at a device, each as a text


def trespasses(device: Slave) -> list[str]:
    """What no start-up should have done, however it ended."""
    esc, found = device.esc, []
    if esc.strays:
        found.append(f"RAM 0x{min(esc.strays):04x} was written, which no manager guards")
    registers = sorted(esc.written - WRITTEN)
    if registers:
        found.append(f"register 0x{registers[0]:04x} was written")
    if esc.sii_commands - SII_COMMANDS:
        found.append("the SII was written")
    return found + (unasked(device) if isinstance(device, Coe) else [])


def wanted_init(device: Coe) -> list[tuple[int, int, int]]:
    """The downloads that its table for hardware asks for, in their order: those of its type, then its own."""
    return [(index, sub, value % 2**bits) for index, sub, bits, value in (*device.init, *device.own_init)]


def unasked(device: Coe) -> list[str]:
    """Downloads that its link table doesn't ask for."""
    init, own = wanted_init(device), (OUTPUTS_ASSIGNED, INPUTS_ASSIGNED)
    return [f"0x{index:04x}:{sub} became {value}" for index, sub, value in device.downloads if index not in own and (index, sub, value) not in init]


def unlike_outputs(device: Slave) -> list[str]:
    """What isn't so at a device that must be in OP and have the outputs that were set."""
    found = [f"state {device.looks()['state']}"] if device.state != OP or device.has_error else []
    wanted = device.wanted_pins()
    if wanted is not None and device.pins() != wanted:
        found.append(f"pins {device.pins().hex()}, wanted {wanted.hex()}")
    return found


def differences(device: Slave) -> list[str]:
    """What isn't as it must be once a device is in OP, has the outputs that were set, and was started up by its table."""
    found = unlike_outputs(device)
    for way, title in enumerate(("outputs", "inputs")):
        found += areas(device, way, title)
    return found + strangers(device)


def unsettled(device: Slave) -> list[str]:
    """What isn't as a table for hardware asks of the objects of a device that is up.

    Parameters come in PREOP, each as often as the table has it and in its order [ETG.2000 "InitCmd", transition PS; SOEM `PO2SOconfig`;
    IgH `ecrt_slave_config_sdo`], before mappings are read back, since they may write them; so each object has its last value. A fixed
    assignment isn't written, and read [ETG.2000 "PdoAssign"]. What a device had to say before its first reply was taken out of its
    mailbox."""
    if not isinstance(device, Coe):
        return []
    wanted, own = wanted_init(device), (OUTPUTS_ASSIGNED, INPUTS_ASSIGNED)
    came = [one for one in device.downloads if one in wanted]
    found = [] if device.downloads[: len(wanted)] == wanted else [f"init came as {came}, wanted {wanted}"]
    found += [f"0x{index:04x}:{sub} became {value}" for index, sub, value in device.downloads[len(wanted) :] if index not in own]
    found += [f"0x{index:04x}:{sub} was transferred in state {state}" for state, _, index, sub in device.transfers if state != PREOP]
    for (index, sub), value in {(index, sub): value for index, sub, value in wanted if index not in device.rows}.items():
        if (index, sub) not in device.objects or int.from_bytes(device.upload(index, sub), "little") != value:
            found.append(f"0x{index:04x}:{sub} isn't {value}")
    return found + unread(device) + ["it has more to say"] * bool(device.replies and device.heard and not device.is_chatty)


def unread(device: Coe) -> list[str]:
    """Mappings that weren't read whole behind the last download to them, and what is wrong with a fixed assignment."""
    done, found = device.transfers, []
    for pdo in (*device.chosen(0), *device.chosen(1)):
        last = max((place for place, one in enumerate(done) if one[1] and one[2] == pdo.index), default=-1)
        read = {sub for _, is_download, index, sub in done[last + 1 :] if index == pdo.index and not is_download}
        found += [] if read >= set(range(len(pdo.entries) + 1)) else [f"the mapping 0x{pdo.index:04x} wasn't read back"]
    for way, index in enumerate((OUTPUTS_ASSIGNED, INPUTS_ASSIGNED) if device.fixed else ()):
        read = {sub for _, is_download, at, sub in done if at == index and not is_download}
        found += [f"0x{index:04x} was written, and is fixed"] if any(at == index for at, _ in device.tried) else []
        if device.chosen(way) and not read >= set(range(len(device.chosen(way)) + 1)):
            found.append(f"the assignment 0x{index:04x} wasn't read")
    return found


def areas(device: Slave, way: int, title: str) -> list[str]:
    """The assignment, the manager and the FMMU of a direction must be those of its link table."""
    chosen, assigned = device.chosen(way), device.assigned(way)
    found = [] if assigned == chosen else [f"{title} {[hex(pdo.index) for pdo in assigned]} are assigned"]
    length, start = bytes_of(sum(pdo.bits for pdo in chosen)), device.directions()[way][0].start
    if not length:
        return found
    if not any(m.active and (m.start, m.length, m.is_written) == (start, length, way == 0) for m in device.esc.managers):
        found.append(f"no manager has the {title} at 0x{start:04x}")
    bytes_mapped = {(8 * start, 8 * start + 8 * length - 1), (8 * start, 8 * start + sum(pdo.bits for pdo in chosen) - 1)}
    if not any((one.physical, one.physical + one.last - one.first) in bytes_mapped for one in mine(device, way)):
        found.append(f"no FMMU has the {title} at 0x{start:04x}")
    return found


def mine(device: Slave, way: int) -> list[Map]:
    return [one for one in device.esc.mapped() if (one.writes if way == 0 else one.reads)]


def strangers(device: Slave) -> list[str]:
    """FMMUs and managers that are active and that the device doesn't need."""
    ways = [way for way in (0, 1) if device.chosen(way)]
    wanted = len(ways) + (2 if device.mailbox else 0)
    maps, managers = len(device.esc.mapped()), sum(manager.active for manager in device.esc.managers)
    found = [f"{maps} FMMUs are active, wanted {len(ways)}"] if maps > len(ways) else []
    return found + ([f"{managers} managers are active, wanted {wanted}"] if managers > wanted else [])
