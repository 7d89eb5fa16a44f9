"""Checks of the models: frames, SII words and messages that were worked out by hand, and rules of controllers one by one.

Frames of the pages and of tools/scan are taken from there; their slaves are made by hand here. The master of tools/masters/bus.py, which
is written from the standard, looks at each frame that comes back: addresses, lengths, what slaves may not change.
"""
from __future__ import annotations

import importlib.util
import pathlib
import struct
import sys

import eeprom
import models
from direct import Direct
from esc import APRD, APRW, APWR, ARMW, BRD, BRW, BWR, ET1100, ET1200, FPRD, FPRW, FPWR, FRMW, LRD, LRW, LWR, NOP, Chip
from plant import Plant, differences, trespasses, unsettled
from retold import Master
from scanned import as_found, as_said, compared, left, unlike_unsaid, wrong_slaves
from slave import OP, PREOP, SAFEOP, Slave, Smart
from tables import table_of

# of tools/masters, which direct.py finds
from bus import Slave as Seen
from bus import Stumble, fmmu_of, sdo
from masters import Slave as SoemSlave
from masters import soem

TOOLS = pathlib.Path(__file__).resolve().parent.parent
COUNT = 0


def expect(what: str, came: object, wanted: object) -> None:
    """Counts a check, and ends the program if it doesn't hold."""
    global COUNT
    COUNT += 1
    if came != wanted:
        came, wanted = (one.hex() if isinstance(one, (bytes, bytearray)) else one for one in (came, wanted))
        sys.exit(f"devices: a model is wrong: {what}: wanted {wanted}, came {came}")


def make(*chips: Chip) -> tuple[Plant, Direct]:
    """A plant of controllers alone, and a bus to it."""
    kinds = [type("Bench", (Smart,), {"chip": chip}) for chip in chips]
    plant = Plant([kind() for kind in kinds])
    return plant, Direct(plant)


def passed(plant: Plant, sent: str) -> str:
    return plant.answer(bytes.fromhex(sent)).hex()


# ---- frames of the pages


def check_pages() -> None:
    """Frames of README and COMMANDS."""
    plant, _ = make(ET1100, ET1100, ET1100)
    expect("a broadcast read", passed(plant, "0e100701000030010200000000000000"), "0e100701030030010200000001000300")
    expect("the first slave is named", passed(plant, "0e100207000010000200000001100000"), "0e100207030010000200000001100100")
    expect("the named slave is read", passed(plant, "0e10040801103001020000" + "00ffff0000"), "0e1004080110300102000000" + "01000100")
    for text in ("", "0e", "0e200701000030010200000000000000", "0e100f01000030010200000000000000", "0e10070100003001ff00000000000000"):
        expect(f"`{text}` is no frame", plant.answer(bytes.fromhex(text)), None)


def check_cycle() -> None:
    """A cycle of examples/three_slaves.toml, whose answer COMMANDS has; managers and FMMUs by hand."""
    plant, _ = make(ET1100, ET1100, ET1100)
    pages = (("0011010024000100", "00000100010000030011000201000000"), ("0011010020000100", "00000100010004070011000101000000"),
             ("0011020024000100", "01000100020000030011000201000000"), ("0014020020000100", "01000100020000070014000101000000"))
    for (manager, fmmu), (place, number) in zip(pages, ((0, 0), (1, 0), (2, 0), (2, 1))):
        plant.devices[place].poke(0x0810 + 8 * number, bytes.fromhex(manager))
        plant.devices[place].poke(0x0600 + 16 * number, bytes.fromhex(fmmu))
    for device in plant.devices:
        device.esc.show(OP)
    plant.devices[1].esc.give(0x1100, b"\5")
    plant.devices[2].esc.give(0x1400, b"\xef\xbe")
    sent = "33100064000000000a8000006400000000000000000000000764000030010280000000000000" + "0c6400000100030000000a23010000"
    came = "33100064000000000a8000006400000000000000000000000764030030010280000008000300" + "0c6400000100030000005aefbe0600"
    expect("a cycle", passed(plant, sent), came)
    expect("four bits of outputs; the others of the byte are undefined in RAM", plant.devices[0].esc.managers[2].value, b"\xfa")
    expect("twelve bits of outputs", plant.devices[2].esc.managers[2].value, b"\x23\xf1")


# ---- commands and counters


def check_commands() -> None:
    """What each command does at two controllers, of which the second has the station address 0x1002 [DL "EtherCAT DLPDU"]."""
    rows = (
        (NOP, 0, "aa", 0), (APRD, 0, "01", 1), (APRD, -1, "02", 1), (APWR, -1, "aa", 1), (APRW, -1, "02", 3), (FPRD, 0x1002, "02", 1),
        (FPRD, 0x1003, "aa", 0), (FPWR, 0x1002, "aa", 1), (FPRW, 0x1002, "02", 3), (BRD, 0, "ab", 2), (BWR, 0, "aa", 2), (BRW, 0, "ab", 6),
        (ARMW, 0, "01", 2), (FRMW, 0x1002, "02", 2))
    for command, first, came, counter in rows:
        plant, bus = make(ET1100, ET1100)
        for device, value in zip(plant.devices, (1, 2)):
            device.poke(0x0F80, bytes([value]))
            device.poke(0x0010, struct.pack("<H", 0x1000 + value))
        bus.look_at_address = lambda *_: None
        expect(f"command {command} at {first:#x}", bus.physical(command, first, 0x0F80, b"\xaa"), (bytes.fromhex(came), counter))
    # ARMW reads at the first and writes at the second what was read; FRMW writes at the first what was sent
    expect("what FRMW wrote", [device.esc.memory[0x0F80] for device in plant.devices], [0xAA, 2])


def check_registers() -> None:
    """Registers: one byte that is there is enough; what isn't there doesn't count; counters are cleared by any write [ESC]."""
    plant, bus = make(ET1200, Chip(0x02, 0, 0, 1))
    expect("FMMUs of which there are three and none", bus.physical(BWR, 0, 0x0600, bytes(256))[1], 1)
    expect("managers", bus.physical(BWR, 0, 0x0800, bytes(128))[1], 1)
    expect("clocks, which IgH finds out so", bus.physical(BRD, 0, 0x0910, bytes(8))[1], 1)
    expect("a read-only register", bus.physical(BWR, 0, 0x0130, b"\2")[1], 0)
    expect("past the RAM", bus.physical(BRD, 0, 0x1400, bytes(4))[1], 0)
    expect("the first registers", bus.physical(APRD, 0, 0x0000, bytes(10))[0], bytes([0x12, 0, 0, 0, 3, 4, 1, 0x0A, 0x0C, 0]))
    plant.devices[0].esc.memory[0x0300:0x0304] = b"\1\2\3\4"
    bus.physical(APWR, 0, 0x0302, b"\xff")
    expect("a counter that was written", plant.devices[0].esc.memory[0x0300:0x0304], bytes.fromhex("01020004"))
    bus.physical(BWR, 0, 0x0010, b"\5\0")
    expect("two with one address", bus.physical(FPRD, 5, 0x0000, bytes(1)), (b"\x02", 2))


# ---- sync managers


def check_mailbox() -> None:
    """A mailbox takes one message, and gives one once [ESC "Mailbox mode"]."""
    plant, bus = make(ET1100)
    esc = plant.devices[0].esc
    bus.physical(BWR, 0, 0x0800, bytes.fromhex("0010100026000100" + "8010100022000100"))
    expect("a write that isn't from its first byte", bus.physical(BWR, 0, 0x1004, bytes(12))[1], 0)
    expect("a first part", bus.physical(BWR, 0, 0x1000, b"\1\2")[1], 1)
    expect("it isn't full yet", (bus.physical(BRD, 0, 0x0805, bytes(1))[0], esc.managers[0].take()), (b"\0", None))
    expect("its last part", bus.physical(BWR, 0, 0x1002, bytes(14))[1], 1)
    expect("it is full", bus.physical(BRD, 0, 0x0805, bytes(1))[0], b"\x08")
    expect("another message", bus.physical(BWR, 0, 0x1000, bytes(16))[1], 0)
    expect("a read of it", bus.physical(BRD, 0, 0x1000, bytes(16))[1], 0)
    expect("the message", esc.managers[0].take(), b"\1\2" + bytes(14))
    expect("an empty mailbox is read", bus.physical(BRD, 0, 0x1080, bytes(16))[1], 0)
    expect("the answer is put", (esc.managers[1].put(b"\7"), esc.managers[1].put(b"\x08")), (True, False))
    expect("its status", bus.physical(BRD, 0, 0x080D, bytes(1))[0], b"\x08")
    expect("it is read", bus.physical(BRD, 0, 0x1080, bytes(16)), (b"\7" + bytes(15), 1))
    expect("it is read again", bus.physical(BRD, 0, 0x1080, bytes(16))[1], 0)


def check_buffers() -> None:
    """A buffered manager, its lock, and RAM beside it [ESC "Buffered mode", 0x0800]."""
    plant, bus = make(ET1100)
    esc = plant.devices[0].esc
    bus.physical(BWR, 0, 0x0810, bytes.fromhex("0011020024000100" + "8011020020000100"))
    expect("its first byte", (bus.physical(BWR, 0, 0x1100, b"\1")[1], esc.managers[2].value), (1, b"\0\0"))
    expect("its second buffer", bus.physical(BWR, 0, 0x1102, b"\1\2")[1], 0)
    expect("its last byte", (bus.physical(BWR, 0, 0x1101, b"\2")[1], esc.managers[2].value), (1, b"\1\2"))
    expect("a manager whose bit 6 is 0 feeds no watchdog", esc.is_watched(), False)
    expect("outputs are read", bus.physical(BRD, 0, 0x1100, bytes(2))[1], 0)
    esc.managers[3].publish(b"\3\4")
    expect("inputs are read", bus.physical(BRD, 0, 0x1180, bytes(2)), (b"\3\4", 1))
    expect("inputs are written", bus.physical(BWR, 0, 0x1180, bytes(2))[1], 0)
    bus.physical(BWR, 0, 0x0810, bytes.fromhex("0012040020000100"))
    expect("an active manager keeps its settings", bus.physical(BRD, 0, 0x0810, bytes(8))[0], bytes.fromhex("0011020024000100"))
    bus.physical(BWR, 0, 0x0800, bytes(32))
    expect("a clear switches it off", bus.physical(BRD, 0, 0x0810, bytes(8))[0], bytes.fromhex("0011020024000000"))
    expect("no stray so far", esc.strays, set())
    expect("then the bytes are RAM", bus.physical(BWR, 0, 0x1100, b"\1\2")[1], 1)
    expect("which nobody guards", esc.strays, {0x1100, 0x1101})


# ---- FMMUs


def check_bits() -> None:
    """Bits are written one by one in the register of the pins alone, and some controllers know whole bytes alone [ESC "FMMU", 0x0008]."""
    plant, bus = make(ET1200, Chip(0x02, 4, 4, 4, 1), Chip(0x11, 8, 8, 8, 0x0200))
    page = struct.pack("<IHBBHBBB3x", 0x10000, 2, 6, 1, 0x0F00, 1, 2, 1)
    plant.devices[0].esc.memory[0x0F00] = 0x81
    for device in plant.devices:
        device.poke(0x0600, page)
    expect("an LWR at three", bus.send(LWR, 0x10000, b"\xc0\x02")[1], 3)
    expect("bits 6 and 7, 8 and 9 become bits 1 to 4", plant.devices[0].esc.memory[0x0F00], 0x81 | 0b10110)
    expect("by bytes alone", plant.devices[1].esc.memory[0x0F00:0x0F02], b"\xc0\x02")
    for device in plant.devices:
        device.esc.memory[0x0F00:0x0F02] = bytes(2)
    expect("an LRW, of which one knows nothing", bus.send(LRW, 0x10000, b"\xc0\x02")[1], 4)
    expect("nothing was written there", plant.devices[2].esc.memory[0x0F00], 0)
    plant.devices[0].poke(0x0600, page[:11] + b"\3" + page[12:])
    expect("both ways count 3", bus.send(LRW, 0x10000, b"\0\0")[1], 5)
    expect("a read of another address", bus.send(LRD, 0x20000, b"\0\0"), (b"\0\0", 0))


# ---- the SII


def scan_rows() -> object:
    """The module tools/scan/rows.py, which has SII words that were worked out by hand."""
    spec = importlib.util.spec_from_file_location("scan_rows", TOOLS / "scan" / "rows.py")
    module = importlib.util.module_from_spec(spec)
    spec.loader.exec_module(module)
    return module


def image_of(row: object) -> eeprom.Image:
    """The image of a slave of tools/scan: four managers, of which each has its use, and two FMMUs of four."""
    first, size, second, room = row.mailbox or (0, 0, 0, 0)
    has_box, outs, ins = bool(row.mailbox), bool(row.outputs), bool(row.inputs)
    managers = ((first, size, 0x26 * has_box, has_box, 1 * has_box), (second, room, 0x22 * has_box, has_box, 2 * has_box),
                (row.out_start, row.output_bytes, 0x24, outs, 3), (row.in_start, row.input_bytes, 0x20, ins, 4))
    listed = [tuple((index, number, tuple(entries)) for index, entries in pdos) for number, pdos in ((2, row.outputs), (3, row.inputs))]
    return eeprom.Image(row.identity, row.name, (0, 0), mailbox=row.mailbox, flags=0 if row.lrw else 2, fmmus=(int(outs), 2 * ins, 0, 0),
                        managers=managers, outputs=listed[0], inputs=listed[1], kibibits=row.size + 1)


def check_images() -> None:
    """The categories of each slave of tools/scan, and all words of one."""
    rows = scan_rows()
    for row in {one.name + str(one.identity): one for machine in rows.MACHINES.values() for one in machine.slaves}.values():
        body, at, found = eeprom.categories(image_of(row)), 0, []
        while struct.unpack_from("<H", body, at)[0] != eeprom.END:
            kind, words = struct.unpack_from("<HH", body, at)
            found.append((kind, words))
            at += 4 + 2 * words
        expect(f"categories of {row.name}", (found, 0x40 + at // 2), (row.categories, row.end))
    words = eeprom.categories(image_of(rows.LAMPS))
    expect("words of the lamps", struct.unpack(f"<{len(words) // 2}H", words), tuple(rows.LAMPS_WORDS))
    expect("bytes of an image", len(eeprom.contents(image_of(rows.LAMPS))), 384)


def check_sii() -> None:
    """The SII by frames: busy, errors, and who has it [ESC 0x0500]."""
    plant = Plant([models.Quick()])
    seen = named(Direct(plant))
    expect("vendor", seen.sii(0x08), struct.pack("<I", 0x5A5))
    expect("product", seen.sii(0x0A), struct.pack("<I", 0x0100))
    seen.set(0x0502, struct.pack("<BBI", 0, 1, 0x08))
    expect("it is busy", seen.read(0x0502, 2), b"\x00\x81")
    seen.set(0x0502, struct.pack("<BBI", 0, 1, 0x0A))
    plant.pass_time(0.001)
    expect("what is asked while it is busy isn't taken", seen.read(0x0508, 4), struct.pack("<I", 0x5A5))
    seen.set(0x0502, b"\0\2")
    expect("a write is an error", seen.read(0x0502, 2), b"\x00\x20")
    expect("and seen", trespasses(plant.devices[0]), ["the SII was written"])
    seen.set(0x0502, struct.pack("<BBI", 0, 1, 0x0A))
    expect("a command behind an error isn't done", seen.read(0x0502, 2)[1] & 0xA0, 0x20)
    seen.set(0x0502, b"\0\0")
    expect("the error is cleared", seen.read(0x0502, 2), bytes(2))
    once = Plant([models.EL1008Nack()])
    seen = named(Direct(once))
    seen.set(0x0502, struct.pack("<BBI", 0, 1, 0x7E))
    once.pass_time(0.001)
    expect("a read isn't acknowledged", seen.read(0x0502, 2), b"\x00\x20")
    seen.set(0x0502, b"\0\0")
    expect("the same read again: an entry, manager 0", seen.sii(0x7E), b"\1\0\0\0")
    given = Plant([models.SiiOfPdi()])
    seen = named(Direct(given))
    given.devices[0].esc.memory[0x0501] = 1
    seen.set(0x0502, struct.pack("<BBI", 0, 1, 0x08))
    expect("the PDI has it", seen.read(0x0502, 10), bytes(10))
    seen.set(0x0500, b"\2")
    seen.set(0x0500, b"\0")
    expect("it is taken", seen.sii(0x08), struct.pack("<I", 0x5A5))


class Patient(Seen):
    """A slave as the bus sees it, asked so often that slow devices come to an end."""

    polls = 20000


def named(bus: Direct, place: int = 0, kind: type[Seen] = Patient) -> Seen:
    bus.physical(APWR, -place, 0x0010, struct.pack("<H", 0x1001 + place))
    return kind(bus, 0x1001 + place)


# ---- states


def go(seen: Seen, state: int) -> bytes:
    """Asks for a state, and returns status and code once the state or an error shows."""
    seen.set(0x0120, bytes([state, 0]))
    for _ in range(seen.polls):
        came = seen.read(0x0130, 6)
        if came[0] & 0x10 or came[0] == state & 15:
            return came[:1] + came[4:6]
    raise Stumble(f"state {state} isn't reached")


def check_emulation() -> None:
    """Without firmware AL status is AL control, with the acknowledgement too; with firmware it isn't [ESC 0x0120]."""
    seen = named(Direct(Plant([models.EK1100()])))
    seen.set(0x0120, b"\x11\0")
    expect("the acknowledgement shows", seen.read(0x0130, 2), b"\x11\0")
    for state in (1, 2, 4, 8, 1):
        expect(f"state {state}", go(seen, state), bytes([state, 0, 0]))
    seen = named(Direct(Plant([models.LeftInSafeop()])))
    expect("an error", seen.read(0x0130, 6), bytes.fromhex("140000001b00"))
    seen.set(0x0120, b"\2\0")
    expect("isn't left without an acknowledgement", seen.read(0x0130, 6), bytes.fromhex("140000001b00"))
    expect("it is acknowledged", go(seen, 0x11), b"\1\0\0")


def check_transitions() -> None:
    """States one by one, and what is refused [AL "AL state machine", "AL status code"]."""
    seen = named(Direct(Plant([models.Quick()])))
    for state, code in ((8, 0x11), (4, 0x11), (7, 0x12), (3, 0x13), (2, 0x16)):
        expect(f"INIT to {state}", go(seen, state)[1:], struct.pack("<H", code))
        expect("acknowledged", go(seen, 0x11), b"\1\0\0")
    seen.set(0x0800, bytes.fromhex("0010800026000100" + "8010800022000100"))
    expect("PREOP", go(seen, 2), b"\2\0\0")
    expect("no manager for the outputs", go(seen, 4), b"\x12\x1d\0")
    seen.set(0x0120, b"\x12\0")
    seen.set(0x0810, bytes.fromhex("0011010024000100" + "8011020020000100"))
    expect("SAFEOP", go(seen, 4), b"\4\0\0")
    expect("OP", go(seen, 8), b"\x08\0\0")


def check_watchdog() -> None:
    """100 ms behind the last outputs the pins are off, and the state stays [ESC 0x0420, 0x0440]."""
    plant = Plant([models.EL2008()])
    bus, device = Direct(plant), plant.devices[0]
    bus.physical(BWR, 0, 0x0800, bytes.fromhex("000f010044000100"))
    bus.physical(BWR, 0, 0x0600, fmmu_of(0x10000, 1, 0x0F00, 2))
    expect("before the first outputs", bus.physical(BRD, 0, 0x0440, bytes(1))[0], b"\0")
    bus.send(LRW, 0x10000, b"\xc5")
    expect("pins", (device.pins(), bus.physical(BRD, 0, 0x0440, bytes(1))[0]), (b"\xc5", b"\1"))
    plant.pass_time(0.099)
    expect("pins a little earlier", device.pins(), b"\xc5")
    plant.pass_time(0.002)
    expect("pins a little later", (device.pins(), bus.physical(BRD, 0, 0x0440, bytes(3))[0]), (b"\0", b"\0\0\1"))
    bus.physical(BWR, 0, 0x0420, b"\0\0")
    expect("a watchdog that is switched off", device.pins(), b"\xc5")


# ---- objects


def open_mailbox(device: Slave) -> tuple[Plant, Seen]:
    """A device in PREOP."""
    plant = Plant([device])
    seen = named(Direct(plant))
    first, size, second, room = device.mailbox
    seen.out_box, seen.in_box = (first, size), (second, room)
    seen.set(0x0800, struct.pack("<HHBBBB", first, size, 0x26, 0, 1, 0) + struct.pack("<HHBBBB", second, room, 0x22, 0, 1, 0))
    expect("PREOP", go(seen, PREOP), b"\2\0\0")
    return plant, seen


def asked(seen: Seen, command: int, index: int, sub: int, content: bytes = b"") -> tuple[int, bytes]:
    """What comes back of an SDO request: its command, and what follows the object."""
    came = seen.converse(3, sdo(2, command, index, sub, content))
    expect("the object of a reply", struct.unpack_from("<HB", came, 9), (index, sub))
    return came[8], came[12 : 6 + struct.unpack_from("<H", came)[0]]


def check_objects() -> None:
    """Uploads and downloads, and what is aborted [AL "SDO services"]; codes as tools/scan has them."""
    _, seen = open_mailbox(models.EL3104())
    expect("vendor", asked(seen, 0x40, 0x1018, 1), (0x43, b"\2\0\0\0"))
    expect("how many are assigned", asked(seen, 0x40, 0x1C13, 0), (0x4F, b"\4\0\0\0"))
    expect("the third", asked(seen, 0x40, 0x1C13, 3), (0x4B, b"\4\x1a\0\0"))
    expect("a mapping", asked(seen, 0x40, 0x1A00, 11), (0x43, struct.pack("<I", 0x60001110)))
    expect("a gap", asked(seen, 0x40, 0x1A00, 7), (0x43, struct.pack("<I", 5)))
    expect("its name by a normal upload", asked(seen, 0x40, 0x1008, 0), (0x41, b"\6\0\0\0EL3104"))
    aborts = ((0x40, 0x2000, 0, 0x06020000), (0x40, 0x1018, 5, 0x06090011), (0x23, 0x1000, 0, 0x06010002), (0x60, 0x1000, 0, 0x05040001))
    for command, index, sub, code in aborts:
        expect(f"an abort of {index:#x}:{sub}", asked(seen, command, index, sub, b"\1"), (0x80, struct.pack("<I", code)))
    expect("a slot while there is a count", asked(seen, 0x2B, 0x1C13, 1, b"\1\x1a")[1], struct.pack("<I", 0x06010003))
    for sub, size, content in ((0, 0x2F, b"\0"), (1, 0x2B, b"\1\x1a"), (2, 0x2B, b"\3\x1a"), (0, 0x2F, b"\2")):
        expect(f"the assignment {sub}", asked(seen, size, 0x1C13, sub, content), (0x60, bytes(4)))
    expect("the new assignment", asked(seen, 0x40, 0x1C13, 2), (0x4B, b"\3\x1a\0\0"))
    expect("a value of another length", asked(seen, 0x2B, 0x1C13, 0, b"\0\0")[1], struct.pack("<I", 0x06070010))


def check_messages() -> None:
    """Emergencies come before replies, late replies come late, other protocols are refused [AL "Emergency"; DL "Mailbox structure"]."""
    _, seen = open_mailbox(models.Emergencies())
    came = [seen.converse(3, sdo(2, 0x40, 0x1018, 1))]
    for _ in range(2):
        while not seen.read(0x080D, 1)[0] & 8:
            pass
        came.append(seen.read(*seen.in_box))
    expect("an emergency", came[0][:16], bytes.fromhex("0a0000000013" + "0010" + "0050" + "00" + "0000000000"))
    expect("another", came[1][5:16], b"\x23" + bytes.fromhex("0010" + "00ff" + "81") + b"hello")
    expect("then the reply", came[2][5:16], b"\x33" + bytes.fromhex("0030" + "43" + "1810" + "01" + "a5050000"))
    plant, seen = open_mailbox(models.LateSdo())
    before = plant.now
    asked(seen, 0x40, 0x1A00, 0)
    expect("a late reply takes 0.3 s", 0.3 <= plant.now - before < 0.301, True)
    expect("EoE isn't spoken", seen.converse(2, bytes(14))[5:10], b"\x20" + bytes.fromhex("01000200"))
    seen.set(seen.out_box[0], bytes.fromhex("0a0000000023" + "0020" + "40" + "1810" + "01").ljust(128, b"\0"))
    plant.pass_time(0.01)
    expect("a message with the counter of the one before is dropped", seen.read(0x080D, 1)[0] & 8, 0)


def check_parameters() -> None:
    """Downloads that are late, of another length, out of range or read-only; values in four bytes; mailbox errors [AL "SDO services"]."""
    plant, seen = open_mailbox(models.LateDownload())
    before, plant.frame_time = plant.now, 0.001
    expect("a late download", asked(seen, 0x2B, 0x8010, 1, b"\xbc\2"), (0x60, bytes(4)))
    expect("takes 2 s", 2 <= plant.now - before < 2.01, True)
    expect("it is stored", plant.devices[0].objects[0x8010, 1], b"\xbc\2")
    _, seen = open_mailbox(models.RefusesValue())
    expect("101 of 100", asked(seen, 0x2B, 0x8010, 1, b"\x65\0"), (0x80, bytes.fromhex("30000906")))
    _, seen = open_mailbox(models.RefusesLength())
    expect("four bytes for two", asked(seen, 0x23, 0x8010, 1, b"\1\0\0\0"), (0x80, bytes.fromhex("10000706")))
    _, seen = open_mailbox(models.Wide())
    expect("a count in four bytes", asked(seen, 0x40, 0x1600, 0), (0x43, b"\1\0\0\0"))
    _, seen = open_mailbox(models.Erring())
    expect("a mailbox error", seen.converse(3, sdo(2, 0x40, 0x1018, 1))[:10], bytes.fromhex("040000000010" + "01000200"))
    plant, seen = open_mailbox(models.FixedOtherwise())
    expect("a fixed count", asked(seen, 0x40, 0x1C13, 0), (0x4F, b"\2\0\0\0"))
    expect("its first object", asked(seen, 0x40, 0x1C13, 1), (0x4B, b"\1\x1a\0\0"))
    expect("it can't be written", asked(seen, 0x2F, 0x1C13, 0, b"\0"), (0x80, bytes.fromhex("02000106")))
    expect("which is seen", "0x1c13 was written, and is fixed" in unsettled(plant.devices[0]), True)


def check_stubborn() -> None:
    """Mailboxes that stay full, that say one thing for ever, or answer beside what was asked."""
    for kind, replies in ((models.Full, 1), (models.DeafBehind, 1), (models.Deaf, 0)):
        plant, seen = open_mailbox(kind())
        for place in range(replies):
            expect(f"reply {place} of {kind.__name__}", asked(seen, 0x40, 0x1018, 1), (0x43, b"\xa5\5\0\0"))
        room = sdo(2, 0x40, 0x1018, 2).ljust(122, b"\0")
        written = [seen.write(0x1000, struct.pack("<HHBB", 10, 0, 0, 0x23) + room) for _ in range(2)]
        plant.pass_time(0.01)
        expect(f"whether {kind.__name__} takes two more", written, [kind is not models.Full, False])
        expect("it is full, and nothing is said", (seen.read(0x0805, 1)[0] & 8, seen.read(0x080D, 1)[0] & 8), (8, 0))
    _, seen = open_mailbox(models.EndlessBehind())
    said = [seen.converse(3, sdo(2, 0x40, 0x1018, 1))] + [seen.read(*seen.in_box) for _ in range(5)]
    expect("a reply behind two emergencies, and then emergencies", [one[7] >> 4 for one in said], [1, 1, 3, 1, 1, 1])
    _, seen = open_mailbox(models.WrongSubindex())
    expect("another subindex", seen.converse(3, sdo(2, 0x2B, 0x8010, 1, b"\1\0"))[8:12], bytes.fromhex("60108000"))


def check_unsettled() -> None:
    """What is said of parameters that come too late, in another order, or not at all, and of mappings that aren't read behind them."""
    wanted = [(0x8010, 1, 1), (0x8010, 3, 0xFFFFFFFF), (0x8010, 2, 0xFED4), (0x8010, 1, 2)]
    unread = ["the mapping 0x1600 wasn't read back", "the mapping 0x1a00 wasn't read back"]
    plant, seen = open_mailbox(models.Parameters())
    missing = ["0x8010:1 isn't 2", "0x8010:3 isn't 4294967295", "0x8010:2 isn't 65236"]
    expect("nothing came", unsettled(plant.devices[0]), [f"init came as [], wanted {wanted}", *missing, *unread])
    for command, sub, content in ((0x2B, 1, b"\1\0"), (0x23, 3, bytes.fromhex("ffffffff")), (0x2B, 2, b"\xd4\xfe"), (0x2B, 1, b"\2\0")):
        expect(f"parameter {sub}", asked(seen, command, 0x8010, sub, content), (0x60, bytes(4)))
    expect("no mapping was read", unsettled(plant.devices[0]), unread)
    for index in (0x1600, 0x1A00):
        for sub in (0, 1):
            asked(seen, 0x40, index, sub)
    expect("all is as it must be", unsettled(plant.devices[0]), [])
    asked(seen, 0x2B, 0x8010, 1, b"\1\0")
    expect("another order", unsettled(plant.devices[0]), ["0x8010:1 became 1", "0x8010:1 isn't 2"])
    plant, seen = open_mailbox(models.OtherMapping())
    for sub in (0, 1):
        asked(seen, 0x40, 0x1A00, sub)
    for command, index, sub, content in ((0x2F, 0x1C12, 0, b"\0"), (0x2F, 0x1600, 0, b"\0"), (0x23, 0x1600, 1, bytes.fromhex("08010070"))):
        expect(f"a mapping is written, {index:#x}:{sub}", asked(seen, command, index, sub, content), (0x60, bytes(4)))
    asked(seen, 0x40, 0x1600, 0)
    expect("its count comes last", asked(seen, 0x2F, 0x1600, 0, b"\1"), (0x60, bytes(4)))
    expect("it wasn't read behind that", unsettled(plant.devices[0]), ["the mapping 0x1600 wasn't read back"])
    expect("the new mapping", asked(seen, 0x40, 0x1600, 1), (0x43, bytes.fromhex("08010070")))


def check_states_of_drives() -> None:
    """CiA 402: switch on disabled, ready to switch on, switched on, operation enabled; back; quick stop; and a fault's reset by an edge."""
    state, before, seen = models.DISABLED, 0, []
    for control in (15, 7, 6, 7, 15, 15, 7, 6, 15, 15, 2, 6, 0, 0x86):
        state, before = models.next_state(state, control, before), control
        seen.append(state)
    expect("a drive's states", [f"{one:02x}" for one in seen], "40 40 21 23 27 27 23 21 23 27 40 21 40 40".split())
    rows = ((6, 0, 0x08), (0x80, 0x80, 0x08), (0x80, 0, 0x40), (0x86, 6, 0x40))
    for control, before, wanted in rows:
        expect(f"a fault, and {control:#x} behind {before:#x}", models.next_state(models.FAULT, control, before), wanted)


def check_drive() -> None:
    """Messages and cycles of a drive: its mode, its status word, a position that follows by 1000 a cycle, and its fault."""
    plant, seen = open_mailbox(models.DriveQuick())
    bus, device = seen.bus, plant.devices[0]
    pairs = (("0013" + "0020" + "2f606000" + "08000000", "0013" + "0030" + "60606000" + "00000000"),
             ("0023" + "0020" + "40616000" + "00000000", "0023" + "0030" + "4f616000" + "08000000"),
             ("0033" + "0020" + "40026500" + "00000000", "0033" + "0030" + "43026500" + "80000000"),
             ("0043" + "0020" + "2f616000" + "08000000", "0043" + "0020" + "80616000" + "02000106"))
    for sent, came in pairs:
        seen.set(0x1000, bytes.fromhex("0a000000" + sent).ljust(256, b"\0"))
        expect(f"the reply to {sent}", seen.read(0x1200, 256)[:16], bytes.fromhex("0a000000" + came))
    seen.set(0x0810, bytes.fromhex("0014060064000100" + "0016060020000100"))
    seen.set(0x0600, fmmu_of(0x10000, 6, 0x1400, 2) + fmmu_of(0x10000, 6, 0x1600, 1))
    expect("SAFEOP", go(seen, SAFEOP), b"\4\0\0")
    expect("OP", go(seen, OP), b"\x08\0\0")
    cycles = (("0600" "00000000", "4002" "00000000"), ("0700" "00000000", "2102" "00000000"), ("0f00" "00000000", "2302" "00000000"),
              ("0f00" "dc050000", "2712" "00000000"), ("0f00" "dc050000", "2712" "e8030000"), ("0f00" "d4feffff", "2712" "dc050000"),
              ("0f00" "d4feffff", "2712" "f4010000"), ("0200" "00000000", "2712" "d4feffff"), ("0200" "00000000", "4002" "d4feffff"))
    for sent, came in cycles:
        expect(f"what comes back of {sent}", bus.send(LRW, 0x10000, bytes.fromhex(sent)), (bytes.fromhex(came), 3))
    plant.pass_time(0.15)
    expect("its watchdog, and its fault", device.looks() | {"pins": ""}, {"state": "SAFEOP+ERROR 001b", "pins": "", "position": "-300", "axis": "08"})
    expect("its status word in SAFEOP", bus.send(LRW, 0x10000, bytes(6)), (bytes.fromhex("0802" "d4feffff"), 3))
    expect("acknowledged", go(seen, 0x14), b"\4\0\0")
    expect("OP again", go(seen, OP), b"\x08\0\0")
    for sent, came in (("8000" "00000000", "0802" "d4feffff"), ("0000" "00000000", "4002" "d4feffff")):
        expect(f"a fault's reset, {sent}", bus.send(LRW, 0x10000, bytes.fromhex(sent)), (bytes.fromhex(came), 3))
    # without mode 8 the position stays
    plant, seen = open_mailbox(models.DriveQuick())
    seen.set(0x0810, bytes.fromhex("0014060064000100" + "0016060020000100"))
    go(seen, SAFEOP)
    go(seen, OP)
    for control in ("06", "07", "0f", "0f", "0f"):
        seen.set(0x1400, bytes.fromhex(control + "00" + "dc050000"))
    expect("a drive without its mode", seen.read(0x1600, 6), bytes.fromhex("2702" "00000000"))


def check_polls() -> None:
    """How often a master asked for one thing on end."""
    plant, bus = make(ET1100)
    for length in (2, 2, 2, 6, 2):
        bus.physical(BRD, 0, 0x0130, bytes(length))
    expect("polls", plant.most_polls, 3)


def check_outputs_first() -> None:
    """A device that wants outputs waits for them, and gives up [SSC]; its pins follow in OP alone."""
    plant = Plant([models.EL4002()])
    seen, device = named(Direct(plant)), plant.devices[0]
    seen.set(0x0800, bytes.fromhex("0010800026000100" + "8010800022000100" + "0011040024000100"))
    begun = plant.now
    expect("PREOP", go(seen, PREOP), b"\2\0\0")
    expect("it takes 80 ms", 0.08 <= plant.now - begun < 0.081, True)
    go(seen, SAFEOP)
    seen.set(0x0120, b"\x08\0")
    plant.pass_time(1)
    expect("OP waits", seen.read(0x0130, 1), b"\4")
    seen.set(0x1100, b"\1\2\3\4")
    expect("outputs came", (seen.read(0x0130, 1), device.pins()), (b"\x08", bytes(4)))
    seen.set(0x1100, b"\1\2\3\4")
    plant.tick(0)
    expect("outputs in OP", device.pins(), b"\1\2\3\4")
    expect("what isn't mapped is seen", differences(device), ["pins 01020304, wanted 34120180", "no FMMU has the outputs at 0x1100"])
    expect("and nothing was written otherwise", trespasses(device), [])
    go(seen, PREOP)
    go(seen, SAFEOP)
    seen.set(0x0120, b"\x08\0")
    plant.pass_time(5.1)
    expect("OP is refused", seen.read(0x0130, 6), bytes.fromhex("140000001b00"))


def check_soem() -> None:
    """SOEM's start-up as tools/masters retells it, which knows no link table, brings devices up by what their SII and their objects say."""
    SoemSlave.polls = 1000
    kinds = [models.Quick, models.EL3104, models.EL4002, models.EL6001, models.TwoFmmus, models.SiiOfPdi, models.SiiFailed, models.SiiByEight,
             models.ReadsSii, models.Unsized, models.LateSdo, models.BigMailbox, models.NewerRevision,
             models.Wide, models.LateDownload, models.FixedFewer, models.Parameters]
    plant = Plant([kind() for kind in kinds])
    plant.frame_time = 0.001
    slaves, _ = soem(Direct(plant), 0)
    for kind, slave, device in zip(kinds, slaves, plant.devices):
        bits = {2 + way: sum(pdo.bits for pdo in device.assigned(way)) for way in (0, 1)}
        expect(f"bits of {kind.__name__}", (slave.name, {2: 0, 3: 0} | slave.bits), (kind.__name__, bits))
        expect(f"state of {kind.__name__}", device.looks()["state"], "OP")


class Forgetful(Master):
    """A start-up that leaves parameters out."""

    def talk(self, place: int, kind: type[Slave]) -> None:
        super().talk(place, type(kind.__name__, (kind,), {"init": (), "own_init": ()}))


class Hasty(Master):
    """A start-up whose parameters come behind its mappings."""

    def talk(self, place: int, kind: type[Slave]) -> None:
        super().talk(place, type(kind.__name__, (kind,), {"init": (), "own_init": ()}))
        for index, sub, bits, value in kind.init:
            self.download(place, index, sub, bits // 8, value % 2**bits)


class Writing(Master):
    """A start-up that writes a fixed assignment."""

    def assign(self, place: int, index: int, chosen: list[int], is_fixed: bool) -> None:
        super().assign(place, index, chosen, False)


class Climbing(Master):
    """A start-up that sends no outputs before OP."""

    def climb(self, place: int, state: int) -> None:
        self.sizes[0], size = 0, self.sizes[0]
        super().climb(place, state)
        self.sizes[0] = size


def check_retold() -> None:
    """The start-up that is retold ends well; one that leaves a part of it out is found out."""
    # an EL4002 waits 5 s for outputs, and 1000 polls with their rests take 9.09 s
    rows = ((Master, models.Parameters, "up", False), (Forgetful, models.Parameters, "up", True), (Hasty, models.LateDownload, "up", True),
            (Forgetful, models.OtherMapping, "38 Mapping 0 5632 0 2", True), (Writing, models.FixedAssignment, "30 Abort 0 100728834", True),
            (Climbing, models.EL4002Impatient, "29 AlError 0 27", False), (Climbing, models.EL4002Quick, "29 AlError 0 27", False))
    for master, kind, end, is_found in rows:
        plant = Plant([kind()])
        expect(f"{master.__name__} with {kind.__name__}", master(Direct(plant), plant, [kind]).start_up(), end)
        expect(f"{kind.__name__} is as it must be", not unsettled(plant.devices[0]), not is_found)


def check_scanned() -> None:
    """A table that a scan could print of three devices; what is said of one that isn't theirs, and of comments, explanations and ends."""
    kinds = [as_found(kind, False) for kind in (models.EK1100, models.Quick, models.EL3104)]
    text = table_of([as_said(kind) for kind in kinds], True)
    expect("the table of these devices", list(wrong_slaves(text, kinds)), [])
    rows = (("revision = 3\n", "revision = 4\n", "slave 1 has revision 4, wanted 3"),
            ("firmware = false", "", "slave 0 has firmware True, wanted False"),
            ("0x1080, 128]\nout_start = 0x1100", "0x1080, 96]\nout_start = 0x1100",
             "slave 1 has mailbox [4096, 128, 4224, 96], wanted [4096, 128, 4224, 128]"),
            ("in = [0x1A00, 0x1A02, 0x1A04, 0x1A06]", "in = [0x1A00]", "slave 2 has in [6656], wanted [6656, 6658, 6660, 6662]"),
            ("out_start = 0x1100", "out_start = 0x1101", "slave 1 has out_start 4353, wanted 4352"))
    for old, new, wrong in rows:
        expect(f"`{old}` once", text.count(old), 1)
        expect(f"`{new}` in its place", list(wrong_slaves(text.replace(old, new), kinds)), [wrong])
    text = text.replace('[[slave]]\nname = "quick"', '# inputs of it, and so on\n[[slave]]\nname = "quick"')
    told = "slave 1 `quick`: inputs of it, and so on\nTo do: try.\n"
    rows = ((text, "46 Unsaid 1", told, "inputs of it", 0), (text, "46 Unsaid 2", told, "inputs of it", 2),
            (text, "46 Unsaid 1", "", "inputs of it", 1), (text, "46 Unsaid 1", told, "outputs of it", 2), (text, "", "", None, 1),
            (text.replace("# inputs", "inputs"), "", told, None, 1))
    for table, refusal, explained, what, count in rows:
        expect(f"comments and explanations of {refusal}, {what}", len(unlike_unsaid(table, refusal, explained, what)), count)
    plant, seen = open_mailbox(models.Quick())
    asked(seen, 0x2F, 0x1C12, 0, b"\0")
    expect("a scan that downloads, and goes nowhere", left(plant.devices[0]), ["state PREOP behind the scan", "0x1c12:0 was downloaded by the scan"])
    expect("ends", [compared(*ends) for ends in (("31 TooSlow", "31 TooSlow 23"), ("28 Counter", "31 TooSlow 23"))],
           ["as by its own table", "by its own table 31 TooSlow"])


def check_models() -> int:
    """Runs all checks; returns how many hold, and ends the program at the first that doesn't."""
    for name, check in list(globals().items()):
        if name.startswith("check_") and name != "check_models":
            try:
                check()
            except Stumble as why:
                sys.exit(f"devices: a model is wrong: {name}: {why}")
    return COUNT
