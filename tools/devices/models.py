"""The devices: data sheets of terminals and drives, and variants that have one oddity each.

Numbers of Beckhoff's terminals are those that `ethercat pdos` and ESI files show; where a figure is from memory of such lists it is
marked (?). `Quick` is nobody's device: one that is without oddities, so that each variant shows one.
"""
from __future__ import annotations

import struct

from coe import BAD_STATE, EOE, OUTPUTS_ASSIGNED, Coe, emergency
from esc import BYTEWISE, ET1100, ET1200, HAS_CLOCKS, NO_LRW, SII_CONTROL, SII_EIGHT, Chip
from slave import BOOT, INIT, OP, PREOP, SAFEOP, WATCHDOG, Area, Parted, Pdo, Slave, Smart, Trial, Variable, bytes_of, places_of


def channels(first: int, entry: int, count: int, step: int = 1) -> tuple[Pdo, ...]:
    """An object of one bit for each channel, as digital terminals have them."""
    return tuple(Pdo(first + place * step, ((entry + 0x10 * place, 1, 1),)) for place in range(count))


def bits_of(entry: int, count: int) -> tuple[tuple[int, int], ...]:
    return tuple((entry + 0x10 * place, 1) for place in range(count))


# ---- terminals without firmware


class EK1100(Slave):
    """A coupler: no mailbox, no process data."""

    product, revision = 0x044C2C52, 0x00110000
    chip = ET1100


class EK1122(Slave):
    """A junction, here with a controller that has neither FMMUs nor sync managers."""

    product, revision = 0x04622C52, 0x00110000
    chip = Chip(0x11, 0, 0, 1, HAS_CLOCKS)


class EL1008(Slave):
    """Eight digital inputs on sync manager 0."""

    product = 0x03F03052
    chip = ET1200
    in_area = Area(0, 0x1000, 0x00)
    inputs = channels(0x1A00, 0x6000, 8)
    variables = (Variable("switches", bits_of(0x6000, 8), 0xA5),)


class EL1008Masked(EL1008):
    """The same, if its controller didn't copy the acknowledge bit. A table of today has its inputs on manager 3."""

    # a scan takes it for a device with firmware, by this bit
    said = {"emulates": False}

    def begin(self) -> None:
        self.esc.copied = 0x0F


class EL2008(Slave):
    """Eight digital outputs in the register of the pins, on sync manager 0 with a watchdog of 100 ms [ESC 0x0F00]."""

    product, revision = 0x07D83052, 0x00110000
    chip = ET1200
    out_area = Area(0, 0x0F00, 0x44)
    outputs = channels(0x1600, 0x7000, 8)
    variables = (Variable("lamps", bits_of(0x7000, 8), 0xC5),)


class EL2008Elsewhere(EL2008):
    """The same with a table whose outputs begin in RAM, where no pins are; and the acknowledge bit isn't copied."""

    told_out_start = 0x1000
    said = {"emulates": False}

    def begin(self) -> None:
        self.esc.copied = 0x0F


# ---- terminals of which a table can say a part: it brings them up, and the rest of their data isn't moved


class EL1252(Parted):
    """Two digital inputs on manager 0, and their latches on manager 1, of which its SII says no length (?)."""

    product = 0x04E43052
    chip = ET1200
    in_area = Area(0, 0x1000, 0x00)
    inputs = channels(0x1A00, 0x6000, 2)
    variables = (Variable("switches", bits_of(0x6000, 2), 0x2),)
    more = {"inputs": (Area(1, 0x09AE, 0x00), 0, (Pdo(0x1A13, ((0x1D09, 0xAE, 8), (0x1D09, 0xB0, 64))),))}


class EL2809(Parted):
    """Sixteen digital outputs, eight on each of the managers 0 and 1."""

    product, revision = 0x0AF93052, 0x00110000
    chip = ET1200
    out_area, outputs, variables = EL2008.out_area, EL2008.outputs, EL2008.variables
    more = {"outputs": (Area(1, 0x0F01, 0x44), 1, channels(0x1608, 0x7080, 8))}


class PartedBothWays(EL2809):
    """Two managers for each direction."""

    vendor, product = 0x5A5, 0x0150
    in_area, inputs = Area(2, 0x1000, 0x00), EL1008.inputs
    variables = EL2809.variables + EL1008.variables
    more = EL2809.more | {"inputs": (Area(3, 0x1100, 0x00), 1, channels(0x1A08, 0x6080, 8))}


class Longer(Parted):
    """Eight digital inputs on a manager of two bytes."""

    vendor, product = 0x5A5, 0x0151
    chip = ET1200
    in_area, inputs, variables = EL1008.in_area, EL1008.inputs, EL1008.variables
    more = {"inputs": (EL1008.in_area, 2, ())}


class BehindRepeats(Parted):
    """Behind an object that repeats an entry stands another on the same manager: a byte each."""

    vendor, product = 0x5A5, 0x0152
    chip = ET1200
    out_area, outputs, variables = EL2008.out_area, (Pdo(0x1600, ((0x7000, 1, 8),)),), (Variable("lamps", ((0x7000, 1),), 0xC5),)
    more = {"outputs": (EL2008.out_area, 3, (Pdo(0x1601, ((0x7000, 1, 8),)), Pdo(0x1602, ((0x7010, 1, 8),))))}


class BehindWide(Parted):
    """The same behind an object of 240 bits."""

    vendor, product = 0x5A5, 0x0153
    chip = ET1200
    in_area, inputs, variables = EL1008.in_area, (Pdo(0x1A00, ((0x6000, 1, 8),)),), (Variable("switches", ((0x6000, 1),), 0x5A),)
    more = {"inputs": (EL1008.in_area, 32, (Pdo(0x1A01, ((0x6010, 1, 240),)), Pdo(0x1A02, ((0x6020, 1, 8),))))}


# ---- analog and serial terminals


SLOW = {PREOP: 0.080, SAFEOP: 0.050}


class EL3102(Coe):
    """Two analog inputs, of the older kind: a byte of status and a value for each; manager 2 has the length 0."""

    product = 0x0C1E3052
    mailbox = (0x1800, 246, 0x18F6, 246)
    out_area, in_area = Area(2, 0x1000, 0x24), Area(3, 0x1100, 0x20)
    inputs = tuple(Pdo(0x1A00 + place, ((0x3101 + place, 1, 8), (0x3101 + place, 2, 16))) for place in range(2))
    variables = (Variable("first", ((0x3101, 2),), 0x1234), Variable("second", ((0x3102, 2),), 0xFFF6))
    delays = {PREOP: 0.050, SAFEOP: 0.050}


def analog(channel: int) -> tuple[Pdo, Pdo]:
    """The standard and the compact object of a channel of an EL31xx."""
    entry = 0x6000 + 0x10 * channel
    status = ((entry, 1, 1), (entry, 2, 1), (entry, 3, 2), (entry, 5, 2), (entry, 7, 1), (0, 0, 1), (0, 0, 5))
    toggles = ((entry, 14, 1), (entry, 15, 1), (entry, 16, 1), (entry, 17, 16))
    return Pdo(0x1A00 + 2 * channel, status + toggles), Pdo(0x1A01 + 2 * channel, ((entry, 17, 16),))


class EL3104(Coe):
    """Four analog inputs with their status."""

    product, revision = 0x0C203052, 0x00150000
    inputs = tuple(pdo for channel in range(4) for pdo in analog(channel))
    variables = tuple(Variable(f"value{n}", ((0x6000 + 0x10 * n, 17),), value) for n, value in enumerate((0x7FFF, 0x8000, 0x0001, 0xFFFF)))
    assigns = delivered = ((), (0x1A00, 0x1A02, 0x1A04, 0x1A06))
    excludes = tuple((0x1A00 + 2 * n, 0x1A01 + 2 * n) for n in range(4))
    delays = SLOW


class EL3104Compact(EL3104):
    """The same with the compact object of each channel."""

    assigns = ((), (0x1A01, 0x1A03, 0x1A05, 0x1A07))


class EL3104Filtered(EL3104):
    """The same with a filter at its first channel, which is a parameter: switched on, and its kind (?)."""

    settings = {(0x8000, 0x06): (0, 1), (0x8000, 0x15): (0, 2)}
    init = ((0x8000, 0x06, 8, 1), (0x8000, 0x15, 16, 2))


class EL4002(Coe):
    """Two analog outputs. It enters OP once it has received outputs in SAFEOP, and waits 5 s for them (SSC's default is 9 s)."""

    product, revision = 0x0FA23052, 0x00140000
    outputs = (Pdo(0x1600, ((0x7000, 1, 16),)), Pdo(0x1601, ((0x7010, 1, 16),)))
    variables = (Variable("first", ((0x7000, 1),), 0x1234), Variable("second", ((0x7010, 1),), 0x8001))
    delays, patience = SLOW, 5.0


class EL4002Quick(EL4002):
    """The same with transitions that take no time."""

    delays = {}


class EL4002Impatient(EL4002Quick):
    """The same with firmware that refuses OP at once if there are no outputs."""

    patience = 0.0


def serial(index: int, entry: int) -> tuple[Pdo, ...]:
    """22 bytes and a word of control or status."""
    return (Pdo(index, ((entry, 1, 16), *((entry, 17 + place, 8) for place in range(22)))),)


class EL6001(Coe):
    """A serial interface: 24 bytes each way (?)."""

    product, revision = 0x17713052, 0x00140000
    outputs, inputs = serial(0x1604, 0x7000), serial(0x1A04, 0x6000)
    variables = (
        Variable("control", ((0x7000, 1),), 0x0101), Variable("sent", ((0x7000, 17), (0x7000, 38)), 0x5AA5),
        Variable("status", ((0x6000, 1),), 0x0201), Variable("received", ((0x6000, 17), (0x6000, 38)), 0xC33C))
    patience = 5.0


class EL6224(Coe):
    """An IO-Link master with an entry of 240 bits, which no table can say."""

    product, revision = 0x18503052, 0x00120000
    inputs = (Pdo(0x1A00, ((0x6000, 1, 240),)),)
    said = {"inputs": ()}


# ---- a device without oddities, and its variants


class Quick(Coe):
    """Eight digital outputs and an analog input; nothing takes time, and OP needs no outputs. It assigns all its objects."""

    vendor, product, revision = 0x5A5, 0x0100, 3
    outputs = (Pdo(0x1600, ((0x7000, 1, 8),)),)
    inputs = (Pdo(0x1A00, ((0x6000, 1, 16),)),)
    variables = (Variable("lamps", ((0x7000, 1),), 0xA5), Variable("force", ((0x6000, 1),), 0xBEEF))


class NoLrw(Quick):
    """Its controller doesn't know LRW [ESC 0x0008 bit 9]."""

    product = 0x0101
    chip = Chip(0x11, 8, 8, 8, NO_LRW)


class UnsaidLrw(NoLrw):
    """The same with a table that doesn't say so."""

    product, told_lrw = 0x0136, True


class TwoFmmus(Quick):
    product = 0x0102
    chip = Chip(0x04, 2, 4, 4)


class ThreeFmmus(Quick):
    product = 0x0103
    chip = Chip(0x12, 3, 4, 4)


class LeftFmmu(Quick):
    """An ESC with eight FMMUs, of which a former master left number 5 on the first logical address, as an input of the output's byte."""

    product = 0x0104
    inputs = ()
    variables = (Variable("lamps", ((0x7000, 1),), 0xA5),)

    def begin(self) -> None:
        super().begin()
        self.poke(0x0650, struct.pack("<IHBBHBBB", 0x10000, 1, 0, 7, 0x1400, 0, 1, 1))


class FourthManager(Quick):
    """Process data on managers 4 and 5."""

    product = 0x0105
    out_area, in_area = Area(4, 0x1100, 0x24), Area(5, 0x1180, 0x20)
    said = {"out_area": Area(2, 0x1100, 0x24), "in_area": Area(3, 0x1180, 0x20)}


class SpareObject(Quick):
    """It also has an object of 240 bits, which isn't assigned as delivered."""

    product = 0x0135
    inputs = (*Quick.inputs, Pdo(0x1A01, ((0x6010, 1, 240),)))
    delivered = ((0x1600,), (0x1A00,))
    said = {"inputs": Quick.inputs}


class Repeats(Quick):
    """As delivered it exchanges two objects of outputs, which have an entry in common."""

    product = 0x0139
    outputs = (Pdo(0x1600, ((0x7000, 1, 8),)), Pdo(0x1601, ((0x7000, 2, 8), (0x7000, 1, 8))))
    said = {"left_out": (0x1601,)}


class AlwaysRepeats(Smart):
    """The same without a mailbox, so that it always exchanges both."""

    vendor, product, revision = 0x5A5, 0x013A, 3
    outputs, inputs, variables = Repeats.outputs, Quick.inputs, Quick.variables
    said = {"outputs": Repeats.outputs[:1]}


class Bare(Smart):
    """Firmware without process data on a controller without FMMUs and sync managers."""

    vendor, product, revision = 0x5A5, 0x0106, 3
    chip = Chip(0x02, 0, 0, 1)


class Emergencies(Quick):
    """It sends two emergencies as it enters PREOP."""

    product = 0x0107
    greetings = (emergency(0x5000), emergency(0xFF00, 0x81, b"hello"))


class Chatty(Emergencies):
    """It sends them whenever it has no reply to send."""

    product = 0x011F
    is_chatty = True


class EndlessEmergencies(Chatty):
    """It sends nothing else."""

    product, answers = 0x0108, 0


class EndlessBehind(Chatty):
    """It answers one request, and sends nothing else from then on."""

    product, answers = 0x012C, 1


class ManyEmergencies(Quick):
    """It has sent 999 emergencies before its first reply, which a master finds at its 1000th poll."""

    product, greetings = 0x012D, (emergency(0x5000),) * 999


class TooManyEmergencies(Quick):
    """One more."""

    product, greetings = 0x012E, (emergency(0x5000),) * 1000


class OtherProtocol(Quick):
    """An Ethernet frame waits in its mailbox as it enters PREOP."""

    product = 0x0109
    greetings = ((EOE, bytes(14)),)


class EndlessOthers(OtherProtocol):
    """Ethernet frames are all that it sends."""

    product, is_chatty, answers = 0x012F, True, 0


class LateSdo(Quick):
    """It takes 0.3 s to answer a request for the mapping of its inputs."""

    product = 0x010A
    late = {(0x1A00, 0): 0.3}


class Seconds(Quick):
    """States take up to three seconds, as ETG.1020 allows."""

    product = 0x010B
    delays = {PREOP: 2.0, SAFEOP: 3.0}


class LateDownload(Quick):
    """It takes 2 s to answer the download of a parameter, which it stores."""

    product = 0x0120
    settings, init, late = {(0x8010, 1): (0, 2)}, ((0x8010, 1, 16, 700),), {(0x8010, 1): 2.0}


class NeverDone(LateDownload):
    """It takes 20 s, which is longer than a master waits: 1000 polls with their rests are about 9 s."""

    product, late = 0x0121, {(0x8010, 1): 20.0}


class Unsized(Quick):
    """The reply to an upload doesn't say how many of its bytes are the value's."""

    product = 0x010C
    is_unsized = True


class Wide(Quick):
    """Its uploads bring four bytes of each value, also of a count."""

    product = 0x0122
    is_wide = True


class Normal(Quick):
    """Its uploads come by normal replies, which other devices have for more than four bytes alone (?)."""

    product = 0x0138
    is_normal = True


class Deaf(Quick):
    """It takes no message, so its mailbox is full for ever."""

    product, takes = 0x010D, 0


class DeafBehind(Quick):
    """It takes one message, and no other."""

    product, takes = 0x0130, 1


class Full(Quick):
    """It answers a message that it leaves in its mailbox, which is full for ever then."""

    product, is_keeping, takes = 0x0131, True, 1


class WrongIndex(Quick):
    """It answers with another index."""

    product = 0x010E
    is_wrong = True


class WrongSubindex(Quick):
    """It answers the download of a parameter with another subindex."""

    product, is_beside = 0x0132, True
    settings, init = {(0x8010, 1): (0, 2)}, ((0x8010, 1, 16, 700),)


class Erring(Quick):
    """It answers each request by a mailbox error: the protocol isn't supported [DL "Mailbox structure"]."""

    product = 0x0123
    is_erring = True


class FixedAssignment(Quick):
    """Its assignment can't be written."""

    product = 0x010F
    fixed = True


class FixedOtherwise(Quick):
    """Its assignment can't be written, and has the objects of its table in another order."""

    product = 0x0124
    outputs, fixed, delivered = (), True, ((), (0x1A01, 0x1A00))
    inputs = (Pdo(0x1A00, ((0x6000, 1, 16),)), Pdo(0x1A01, ((0x6010, 1, 16),)))
    variables = (Variable("force", ((0x6000, 1),), 0xBEEF),)


class FixedFewer(FixedOtherwise):
    """The same with one of them."""

    product, delivered = 0x0125, ((), (0x1A00,))


class OtherMapping(Quick):
    """As delivered it maps another entry than its table; the mapping can be written."""

    product = 0x0110
    maps, mapped = True, {0x1600: ((0x7001, 1, 8), (0x7001, 2, 8))}
    init = ((0x1C12, 0, 8, 0), (0x1600, 0, 8, 0), (0x1600, 1, 32, 0x70000108), (0x1600, 0, 8, 1))
    # as delivered two bytes are exchanged, and its pins are these
    scanned = completed = Trial((Variable("front", ((0x7001, 1),), 0x3C), Variable("rear", ((0x7001, 2),), 0xA7), Quick.variables[1]))


class Parameters(Quick):
    """Parameters of its type, and behind them those of the slave, of which one is the same object and one a negative number."""

    product = 0x0126
    settings = {(0x8010, 1): (0, 2), (0x8010, 2): (0, 2), (0x8010, 3): (0, 4)}
    init = ((0x8010, 1, 16, 1), (0x8010, 3, 32, -1))
    own_init = ((0x8010, 2, 16, -300), (0x8010, 1, 16, 2))


class ManyParameters(Quick):
    """As many parameters as a type may have: 64."""

    product = 0x0127
    settings = {(0x8020, sub): (0, 1) for sub in range(1, 65)}
    init = tuple((0x8020, sub, 8, 255 - sub) for sub in range(1, 65))


class TooManyParameters(ManyParameters):
    """One more."""

    product = 0x0128
    init = (*ManyParameters.init, (0x8020, 64, 8, 0))


class FixedUnsaid(FixedAssignment):
    """Its SII says that its assignment can be written, which isn't so."""

    product, is_boasting = 0x0134, True
    said = {"fixed": False}


class FixedWithParameters(FixedAssignment):
    """An assignment that can't be written, emergencies, late replies and a parameter in one device."""

    product, greetings, late = 0x0129, Emergencies.greetings, {(0x1C12, 1): 0.3, (0x8010, 1): 0.3}
    settings, init = {(0x8010, 1): (0, 2)}, ((0x8010, 1, 16, 700),)


class BigMailbox(Quick):
    product = 0x0111
    mailbox = (0x1800, 1024, 0x1C00, 1024)


class NewerRevision(Quick):
    """It was bought a year after its table was written."""

    product, revision, told_revision = 0x0112, 4, 3
    any_revision = True


class SiiOfPdi(Quick):
    """The SII was given to the PDI, as SOEM and TwinCAT leave it."""

    product = 0x0113
    sii_is_given = True


class SiiFailed(Quick):
    """A former command to the SII ended with an error."""

    product = 0x0114
    sii_has_failed = True


class NoSii(Quick):
    """It has no EEPROM, so each command to its SII ends with an error [ESC 0x0502, bit 13]."""

    product = 0x0137

    def begin(self) -> None:
        super().begin()
        self.esc.eeprom = b""


class SiiByEight(Quick):
    """Its SII is read eight bytes at a time."""

    product = 0x0115

    def begin(self) -> None:
        super().begin()
        self.esc.put_word(SII_CONTROL, SII_EIGHT)


class ReadsSii(Quick):
    """Its firmware reads the SII on its way to PREOP, and refuses that state if it may not."""

    product = 0x0116
    reads_sii = True


class LeftInOp(Quick):
    product, left = 0x0117, (OP, 0)


class LeftInSafeop(Quick):
    product, left = 0x0118, (SAFEOP, WATCHDOG)


class LeftInBoot(Quick):
    product, boots, left = 0x0119, True, (BOOT, 0)


class LeftInError(Quick):
    product, left = 0x011A, (INIT, 0x0011)


class Twelve(Quick):
    """Twelve bits of outputs in RAM, where bits can't be written one by one."""

    product = 0x011B
    outputs, inputs = (Pdo(0x1600, ((0x7000, 1, 12),)),), ()
    variables = (Variable("setpoint", ((0x7000, 1),), 0x123),)


class Nibble(Quick):
    """Four bits of outputs, on a controller whose FMMUs know whole bytes alone."""

    product = 0x011C
    chip = Chip(0x02, 4, 4, 4, BYTEWISE)
    outputs, inputs = (Pdo(0x1600, ((0x7000, 1, 4),)),), ()
    variables = (Variable("lamps", ((0x7000, 1),), 0x5),)


class Falls(Quick):
    """In OP it takes three outputs, and then falls back to SAFEOP with an error. Its managers stay on."""

    product = 0x011D
    falls_after = 3


class Refuses(Quick):
    """It has no object that its table wants to be downloaded."""

    product = 0x011E
    init = ((0x6060, 0, 8, 8),)


class RefusesValue(Quick):
    """It has the object, and doesn't take the value."""

    product = 0x012A
    settings, highest, init = {(0x8010, 1): (0, 2)}, {(0x8010, 1): 100}, ((0x8010, 1, 16, 101),)


class RefusesBehind(Parameters):
    """Of its parameters it has all but the last, which is the slave's."""

    product, own_init = 0x0133, (*Parameters.own_init, (0x8010, 4, 16, 1))


class RefusesLength(Quick):
    """The object is shorter than its table says."""

    product = 0x012B
    settings, init = {(0x8010, 1): (0, 2)}, ((0x8010, 1, 32, 1),)


# ---- drives


# States of CiA 402 by their status word, of which these bits say them [IEC 61800-7-201, "Statusword": xxxx xxxx x01x 0111 is "operation
# enabled"], and its bits "remote" and, in cyclic modes, "drive follows the command value".
DISABLED, READY_TO_SWITCH, SWITCHED_ON, ENABLED, FAULT = 0x0040, 0x0021, 0x0023, 0x0027, 0x0008
STATE_BITS, REMOTE, FOLLOWS = 0x006F, 0x0200, 0x1000
# cyclic synchronous position and velocity, each with the object that has its target, and the most that the position changes by a cycle
CSP, CSV, STRIDE = 8, 9, 1000
TARGETS = {CSP: 0x607A, CSV: 0x60FF}
# the control word's bits: a rising edge of the last resets a fault
RESETS = 0x0080


# In cyclic modes other bits of the status word may be set, so its state is looked at. Control words 6, 7 and 15 enable it.
ENABLES = (
    "set {}_control 6", "repeat 2 cycle", "expect {}_status & 0x6F == 0x21", "set {}_control 7", "repeat 2 cycle",
    "expect {}_status & 0x6F == 0x23", "set {}_control 15", "repeat 2 cycle", "expect {}_status & 0x6F == 0x27")


class Drive(Coe):
    """A servo drive of CiA 402. Its position follows its target in mode 8, which is set by an SDO download."""

    vendor, product, revision = 0x5A5, 0x0402, 3
    mailbox = (0x1000, 256, 0x1200, 256)
    out_area, in_area = Area(2, 0x1400, 0x64), Area(3, 0x1600, 0x20)
    outputs = (Pdo(0x1600, ((0x6040, 0, 16), (0x607A, 0, 32))),)
    inputs = (Pdo(0x1A00, ((0x6041, 0, 16), (0x6064, 0, 32))),)
    variables = (
        Variable("control", ((0x6040, 0),), 0), Variable("target", ((0x607A, 0),), 0),
        Variable("status", ((0x6041, 0),), 0), Variable("position", ((0x6064, 0),), 0))
    # mode of operation, interpolation time 1 * 10^-3 s, and the modes that there are; 0x6061 shows the mode [IEC 61800-7-201]
    settings = {(0x6060, 0): (0, 1), (0x60C2, 1): (1, 1)}
    shown = {(0x6061, 0): (0x6060, 0)}
    init = ((0x6060, 0, 8, CSP), (0x60C2, 1, 8, 2))
    # those that it supports [IEC 61800-7-201, 0x6502: mode n is bit n - 1]
    modes: tuple[int, ...] = (CSP,)
    delays, patience, sdo_time = {PREOP: 0.3, SAFEOP: 0.05}, 5.0, 0.004
    script = (
        *ENABLES, "expect {}_status & 0x1000 == 0x1000", "set {}_target 4711", "repeat 8 cycle", "expect {}_position 4711",
        "plant {} position 4711", "set {}_target -300", "repeat 8 cycle", "expect {}_position -300", "plant {} position -300", "plant {} axis 27")
    # without a mode it is enabled, and follows nothing [IEC 61800-7-201, 0x6060: 0 is no mode]
    scanned = Trial(variables, (
        *ENABLES, "expect {}_status & 0x1000 == 0", "set {}_target 4711", "repeat 8 cycle", "expect {}_position 0", "plant {} position 0",
        "plant {} axis 27"))

    def begin(self) -> None:
        super().begin()
        self.axis, self.position, self.speed, self.control = DISABLED, 0, 0, 0

    def usual(self) -> dict[tuple[int, int], tuple[int, int]]:
        return super().usual() | {(0x6502, 0): (sum(1 << mode - 1 for mode in self.modes), 4)}

    def follow(self) -> None:
        """Outputs came in OP. In a cyclic mode the target is a position, or how far the position goes on by a cycle."""
        before, self.control = self.control, self.told(0x6040)
        self.axis = next_state(self.axis, self.control, before)
        wanted = self.told(TARGETS[self.mode]) - self.position * (self.mode == CSP) if self.follows() else 0
        self.speed = max(-STRIDE, min(STRIDE, wanted))
        self.position += self.speed

    @property
    def mode(self) -> int:
        return self.objects[0x6060, 0][0]

    def follows(self) -> bool:
        """It is enabled, and the target of its mode is mapped."""
        return self.axis == ENABLED and self.mode in self.modes and (TARGETS[self.mode], 0) in places_of(self.assigned(0))

    def told(self, index: int) -> int:
        """The value of an object among its outputs, with its sign; 0 if it isn't mapped."""
        at, bits = places_of(self.assigned(0)).get((index, 0), (0, 1))
        value = int.from_bytes(self.outside, "little") >> at & (1 << bits) - 1
        return value - (value >> bits - 1 << bits) if bits > 1 else 0

    def enter(self, state: int) -> None:
        """Out of OP nothing moves. A fault stays until it is reset."""
        super().enter(state)
        if state != OP:
            self.axis, self.speed, self.control = (self.axis if self.axis == FAULT else DISABLED), 0, 0

    def fall(self, code: int) -> None:
        """Without outputs it has a fault [IEC 61800-7-201, transition 13 and, once it stands still, 14]."""
        super().fall(code)
        self.axis = FAULT

    def measured(self) -> bytes:
        """Its status word, and its position or speed, as they are mapped."""
        values = {0x6041: self.axis | REMOTE | FOLLOWS * self.follows(), 0x6064: self.position, 0x606C: self.speed}
        pdos = self.assigned(1)
        whole = sum((values[index] & (1 << bits) - 1) << at for (index, _), (at, bits) in places_of(pdos).items())
        return whole.to_bytes(bytes_of(sum(pdo.bits for pdo in pdos)), "little")

    def looks(self) -> dict[str, str]:
        return super().looks() | {"position": str(self.position), "axis": f"{self.axis:02x}"}


def next_state(state: int, control: int, before: int = 0) -> int:
    """The state behind a control word and the one before it: fault reset, disable voltage, quick stop, shutdown, switch on, enable
    operation [IEC 61800-7-201, "Controlword", "Finite state automaton"]."""
    if state == FAULT:
        return DISABLED if control & RESETS and not before & RESETS else FAULT
    if control & RESETS:
        return state
    if control & 0x02 == 0 or control & 0x06 == 2:
        return DISABLED
    if control & 0x07 == 6:
        return READY_TO_SWITCH
    if control & 0x0F == 7 and state in (READY_TO_SWITCH, ENABLED):
        return SWITCHED_ON
    if control & 0x0F == 15 and state in (READY_TO_SWITCH, SWITCHED_ON):
        return SWITCHED_ON if state == READY_TO_SWITCH else ENABLED
    return state


class DriveQuick(Drive):
    """The same without waits, and OP needs no outputs: so only its mode is missing."""

    delays, patience, sdo_time = {}, None, 0.0


class DriveRemapped(Drive):
    """As delivered it maps a speed and not a position; its mapping is written by its table, as masters do for drives: the assignment is
    emptied, the objects are rewritten, and their counts come last [IEC 61800-7-301; IgH `ecrt_slave_config_pdos`]."""

    product, maps, modes = 0x0404, True, (CSP, CSV)
    mapped = {0x1600: ((0x6040, 0, 16), (0x60FF, 0, 32)), 0x1A00: ((0x6041, 0, 16), (0x606C, 0, 32))}
    init = (
        (0x1C12, 0, 8, 0), (0x1C13, 0, 8, 0), (0x1600, 0, 8, 0), (0x1600, 1, 32, 0x60400010), (0x1600, 2, 32, 0x607A0020), (0x1600, 0, 8, 2),
        (0x1A00, 0, 8, 0), (0x1A00, 1, 32, 0x60410010), (0x1A00, 2, 32, 0x60640020), (0x1A00, 0, 8, 2), *Drive.init)
    # as delivered it takes a speed and shows its own, which follows in mode 9
    speeds = (Variable("control", ((0x6040, 0),), 0), Variable("wanted", ((0x60FF, 0),), 0),
              Variable("status", ((0x6041, 0),), 0), Variable("speed", ((0x606C, 0),), 0))
    scanned = Trial(speeds, (
        *ENABLES, "expect {}_status & 0x1000 == 0", "set {}_wanted 700", "repeat 8 cycle", "expect {}_speed 0", "plant {} position 0",
        "plant {} axis 27"))
    completed = Trial(speeds, (
        *ENABLES, "expect {}_status & 0x1000 == 0x1000", "set {}_wanted 700", "repeat 8 cycle", "expect {}_speed 700", "set {}_wanted -300",
        "repeat 8 cycle", "expect {}_speed -300", "set {}_wanted 0", "repeat 8 cycle", "expect {}_speed 0", "plant {} axis 27"),
        init=((0x6060, 0, 8, CSV), (0x60C2, 1, 8, 2)))


class DriveShouting(Drive):
    """It shouts emergencies as it enters PREOP: under-voltage, and that its motor is missing; and takes 0.5 s for the first reply."""

    product = 0x0405
    greetings = (emergency(0x3220, 0x04), emergency(0x7300, 0x20, b"motor"))
    late = {(0x6060, 0): 0.5}


class DriveByClocks(DriveQuick):
    """A drive that runs by distributed clocks alone: SAFEOP needs SYNC0 [AL status code 0x0030]."""

    product = 0x0403

    def safeop_fault(self) -> int:
        return super().safeop_fault() or (0 if self.esc.memory[0x0981] & 1 else 0x0030)


# ---- what a scan reads besides


class EL1008Nack(EL1008):
    """Its EEPROM doesn't acknowledge one read of the words 0x7E and 0x7F: its first three objects stand before them."""

    # 0x40: a string of 10 letters has 8 words, what is general 18, FMMUs 3, sync managers 6; so its objects begin at 0x65, each has 8
    silent = 1

    def begin(self) -> None:
        self.esc.sii_silent = {0x7E: self.silent}


class EL1008Worn(EL1008Nack):
    """It never acknowledges that read."""

    silent = 1000


class NoMark(Quick):
    """An EEPROM of 128 kibibits without the end mark: behind its categories stand zeros, and a read takes no time."""

    product = 0x013B

    def begin(self) -> None:
        super().begin()
        self.esc.eeprom = self.esc.eeprom.rstrip(b"\xff").ljust(128 * 128, b"\0")
        self.esc.sii_time = 0.0


class ClosedAssignment(Quick):
    """It aborts each transfer of its assignment of outputs: not in this state of the device [AL "Abort SDO transfer"]."""

    product, closed = 0x013C, {OUTPUTS_ASSIGNED: BAD_STATE}


class NoAssignment(Quick):
    """It has no object that says which outputs it exchanges: all of them."""

    product, lacking = 0x013D, (OUTPUTS_ASSIGNED,)
    said = {"is_parted": True}


class NumberedGap(Quick):
    """The gap behind its outputs has a subindex, which a table's gap hasn't, as its mapping has both: 0x00000108."""

    product = 0x013E
    outputs = (Pdo(0x1600, ((0x7000, 1, 8), (0, 1, 8))),)
    variables = Quick.variables[1:]
    said = {"outputs": ()}


class EmptySlot(Quick):
    """Its assignment of outputs has two slots, of which the second is empty: 0."""

    product, delivered = 0x0140, ((0x1600, 0), (0x1A00,))
