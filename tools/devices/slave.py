"""What stands behind a controller: pins without firmware, and firmware with the AL state machine.

A class is a device, and its class attributes are the device's data sheet: models.py has them. Sources are named as in esc.py; SSC is
what devices with firmware commonly do, as ETG.1000.6 leaves it to them.
"""
from __future__ import annotations

import struct
from dataclasses import dataclass, replace

import eeprom
from esc import AL_CODE, AL_STATUS, ET1100, FMMUS, MANAGERS, PINS, SII_CONTROL, SII_ERROR, SII_OWNER, STATION, Chip, Esc

INIT, PREOP, BOOT, SAFEOP, OP = 1, 2, 3, 4, 8
LADDER = (INIT, PREOP, SAFEOP, OP)
NAMES = {INIT: "INIT", PREOP: "PREOP", BOOT: "BOOT", SAFEOP: "SAFEOP", OP: "OP"}
# AL status codes [AL "AL status code"]
BAD_CHANGE, UNKNOWN_STATE, NO_BOOT, BAD_MAILBOX, WATCHDOG = 0x0011, 0x0012, 0x0013, 0x0016, 0x001B
BAD_OUTPUTS, BAD_INPUTS, NO_SII = 0x001D, 0x001E, 0x0050

Entries = tuple[tuple[int, int, int], ...]


@dataclass(frozen=True)
class Pdo:
    """A process data object: its entries are index, subindex and bits."""

    index: int
    entries: Entries

    @property
    def bits(self) -> int:
        return sum(bits for _, _, bits in self.entries)


@dataclass(frozen=True)
class Area:
    """Where process data lie: sync manager, first address, control byte."""

    number: int
    start: int
    control: int


@dataclass(frozen=True)
class Variable:
    """A variable of the link table: entries one behind another, each an index and a subindex. `value` is what the master sets, or what
    the plant gives, in the trial of a device."""

    name: str
    objects: tuple[tuple[int, int], ...]
    value: int


@dataclass(frozen=True)
class Trial:
    """What is tried with a device by another table than its own: variables, which are set and expected unless there are lines; and
    parameters of its type."""

    variables: tuple[Variable, ...]
    script: tuple[str, ...] | None = None
    init: tuple[tuple[int, int, int, int], ...] = ()


def bytes_of(bits: int) -> int:
    return (bits + 7) // 8


def places_of(pdos: tuple[Pdo, ...]) -> dict[tuple[int, int], tuple[int, int]]:
    """The first bit of each entry in the process data of these objects, and how many bits it has."""
    at, found = 0, {}
    for pdo in pdos:
        for index, sub, bits in pdo.entries:
            if index:
                found[index, sub] = at, bits
            at += bits
    return found


def packed(variables: tuple[Variable, ...], pdos: tuple[Pdo, ...]) -> bytes:
    """The process data of these objects in which the variables have their values, and every other bit is 0."""
    places, whole = places_of(pdos), 0
    for variable in variables:
        rest = variable.value
        for entry in variable.objects:
            if entry in places:
                at, bits = places[entry]
                whole |= (rest & (1 << bits) - 1) << at
                rest >>= bits
    return whole.to_bytes(bytes_of(sum(pdo.bits for pdo in pdos)), "little")


class Slave:
    """A device without firmware: its controller copies AL control to AL status."""

    vendor, product, revision = 2, 0, 0x00100000
    chip: Chip = ET1100
    emulates = True
    mailbox: tuple[int, int, int, int] | None = None
    outputs: tuple[Pdo, ...] = ()
    inputs: tuple[Pdo, ...] = ()
    out_area, in_area = Area(2, 0x1100, 0x24), Area(3, 0x1180, 0x20)
    variables: tuple[Variable, ...] = ()
    # what a link table says otherwise: PDOs that it assigns, the revision, where outputs begin, that it takes part in LRW
    assigns: tuple[tuple[int, ...], tuple[int, ...]] | None = None
    told_revision: int | None = None
    told_out_start: int | None = None
    told_lrw = False
    # of a table for hardware alone: SDO downloads of the type, those of the slave behind them, and that the revision doesn't matter
    init: tuple[tuple[int, int, int, int], ...] = ()
    own_init: tuple[tuple[int, int, int, int], ...] = ()
    fixed = any_revision = False
    # its SII says that its assignment can be written, though it is fixed
    is_boasting = False
    # lines of its trial, in which `{}` is its name; without any its variables are set and expected
    script: tuple[str, ...] | None = None
    # its trial by the table that a scan finds, and by this with parameters, if either isn't that by its own table
    scanned: Trial | None = None
    completed: Trial | None = None
    # what that table says otherwise than the device is, by attribute: `outputs`, `inputs` and areas, if a table can't say them; the
    # PDOs that it leaves out of the assignment
    said: dict[str, object] = {}
    # how a former master or tool left it: a state, and an AL status code if it has an error; whether the SII is the PDI's, or has an error
    left: tuple[int, int] = (INIT, 0)
    sii_is_given = sii_has_failed = False

    def __init__(self) -> None:
        self.esc = Esc(self.chip, eeprom.contents(self.image()))
        self.now = 0.0
        self.begin()
        self.leave()

    def begin(self) -> None:
        """What a device of a class has besides, at power-on."""

    @property
    def name(self) -> str:
        return type(self).__name__

    # ---- its SII

    def image(self) -> eeprom.Image:
        listed = [tuple((pdo.index, area.number, pdo.entries) for pdo in pdos) for area, pdos in self.directions()]
        # PDI control: 4 are digital pins, 5 is a controller by SPI [ESC 0x0140]
        return eeprom.Image(
            identity=(self.vendor, self.product, self.revision, 0), name=self.name, pdi=(4, 1) if self.emulates else (5, 0),
            mailbox=self.mailbox, flags=2 if self.chip.features & 0x0200 else 0, assigns=not self.fixed or self.is_boasting, fmmus=(1, 2)[: self.chip.fmmus],
            managers=self.manager_rows(), outputs=listed[0], inputs=listed[1])

    def directions(self) -> tuple[tuple[Area, tuple[Pdo, ...]], tuple[Area, tuple[Pdo, ...]]]:
        return (self.out_area, self.outputs), (self.in_area, self.inputs)

    def manager_rows(self) -> tuple[tuple[int, int, int, int, int], ...]:
        """The rows of the SII's category of sync managers. With a mailbox both areas are there, also one without a byte [SOEM]."""
        rows = {}
        if self.mailbox:
            first, size, second, room = self.mailbox
            rows = {0: (first, size, 0x26, 1, eeprom.MAILBOX_OUT), 1: (second, room, 0x22, 1, eeprom.MAILBOX_IN)}
        for (area, pdos), use in zip(self.directions(), (eeprom.PROCESS_OUT, eeprom.PROCESS_IN)):
            if pdos or self.mailbox:
                rows[area.number] = area.start, bytes_of(sum(pdo.bits for pdo in pdos)), area.control, int(bool(pdos)), use
        return tuple(rows.get(number, (0, 0, 0, 0, eeprom.UNUSED)) for number in range(max(rows, default=-1) + 1))

    # ---- how it was left

    def leave(self) -> None:
        """The registers as another master left them: a station address, and of a state its managers and an FMMU."""
        state, code = self.left
        self.poke(SII_OWNER, bytes([int(self.sii_is_given)]))
        if self.sii_has_failed:
            self.esc.put_word(SII_CONTROL, SII_ERROR)
        if state == INIT and not code:
            return
        self.poke(STATION, struct.pack("<H", 0x1001))
        for number, (start, length, control, enable, _) in enumerate(self.manager_rows()):
            self.poke(MANAGERS + 8 * number, struct.pack("<HHBBBB", start, length, control, 0, enable, 0))
        self.poke(FMMUS, struct.pack("<IHBBHBBB", 0x20000, 4, 0, 7, self.in_area.start, 0, 1, 1))
        self.esc.show(state, code)

    def poke(self, address: int, data: bytes) -> None:
        """Registers become what a frame would have made of them long ago."""
        for at, value in enumerate(data, address):
            self.esc.store(at, value)

    # ---- its life

    def tick(self, now: float) -> None:
        """Time goes on, in seconds: the controller's, then its own."""
        self.now = now
        self.esc.tick(now)
        self.run()

    def run(self) -> None:
        """Pins without firmware: inputs are copied to where frames read them [ESC "Digital I/O", 0x1000]."""
        if self.inputs:
            self.esc.give(self.in_area.start, packed(self.variables, self.assigned(1)))

    # ---- what is seen from outside

    @property
    def state(self) -> int:
        return self.esc.memory[AL_STATUS] & 0x0F

    @property
    def has_error(self) -> bool:
        return bool(self.esc.memory[AL_STATUS] & 0x10)

    def assigned(self, way: int) -> tuple[Pdo, ...]:
        """The objects that are exchanged: 0 outputs, 1 inputs."""
        return (self.outputs, self.inputs)[way]

    def pins(self) -> bytes:
        """What its outputs do. Pins show their register whatever the state is, as long as the watchdog is fed: therefore there is a bit
        `opOnly` for their manager in the SII [ESC "Digital I/O", 0x0F00; AL "SyncM"]."""
        count = bytes_of(sum(pdo.bits for pdo in self.outputs))
        return bytes(self.esc.memory[PINS : PINS + count]) if self.esc.is_watched() else bytes(count)

    @classmethod
    def chosen(cls, way: int) -> tuple[Pdo, ...]:
        """The objects that its link table assigns: 0 outputs, 1 inputs."""
        known = {pdo.index: pdo for pdo in (cls.outputs, cls.inputs)[way]}
        return tuple(known[index] for index in cls.assigns[way]) if cls.assigns else tuple(known.values())

    def wanted_pins(self) -> bytes | None:
        """What its pins must be once its variables are set, or nothing if its script looks at them."""
        return None if self.script else packed(self.variables, self.chosen(0))

    def looks(self) -> dict[str, str]:
        """What can be looked at, by name."""
        code = self.esc.word(AL_CODE)
        state = NAMES.get(self.state, f"state {self.state}") + (f"+ERROR {code:04x}" if self.has_error else "")
        return {"state": state, "pins": self.pins().hex()}


class Parted(Slave):
    """A terminal whose SII lists more objects behind its own, by direction: the area that has them, its length there, and the objects."""

    said = {"is_parted": True}
    more: dict[str, tuple[Area, int, tuple[Pdo, ...]]] = {}

    def image(self) -> eeprom.Image:
        image = super().image()
        for way, (area, size, pdos) in self.more.items():
            use = eeprom.PROCESS_OUT if way == "outputs" else eeprom.PROCESS_IN
            rows = dict(enumerate(image.managers)) | {area.number: (area.start, size, area.control, 1, use)}
            managers = tuple(rows.get(number, (0, 0, 0, 0, eeprom.UNUSED)) for number in range(max(rows) + 1))
            listed = getattr(image, way) + tuple((pdo.index, area.number, pdo.entries) for pdo in pdos)
            image = replace(image, managers=managers, **{way: listed})
        return image


class Smart(Slave):
    """A device with firmware: it decides on each AL request, and publishes its inputs [AL "AL state machine"; SSC]."""

    emulates = False
    boots = False
    # seconds that a state takes to be reached from the one below
    delays: dict[int, float] = {}
    # for how many seconds a request for OP waits for outputs that were received in SAFEOP; None: it doesn't look at them [SSC]
    patience: float | None = None
    # it reads its SII on the way to PREOP, and so needs it
    reads_sii = False
    # so many outputs it takes in OP before it falls back to SAFEOP
    falls_after: int | None = None

    def begin(self) -> None:
        self.move: tuple[int, float] | None = None
        self.is_fed, self.taken = False, 0
        self.outside = bytes(bytes_of(sum(pdo.bits for pdo in self.outputs)))

    def run(self) -> None:
        request = self.esc.take_request()
        if request is not None:
            self.decide(request)
        self.take_outputs()
        if self.move:
            self.proceed()
        if self.inputs and self.state in (SAFEOP, OP):
            self.esc.managers[self.in_area.number].publish(self.measured())
        if self.state == OP and self.esc.is_expired:
            self.fall(WATCHDOG)

    # ---- states

    def decide(self, control: int) -> None:
        """An AL request. With an error nothing is done before it is acknowledged; a state that can't be entered gives a code."""
        wanted = control & 0x0F
        if self.has_error and not control & 0x10:
            return
        self.move = None
        self.esc.show(self.state)
        code = self.fault_of(wanted)
        if code:
            self.refuse(code)
        elif wanted > self.state or self.state == BOOT:
            self.move = wanted, self.now + self.delays.get(wanted, 0)
        else:
            self.enter(wanted)

    def fault_of(self, wanted: int) -> int:
        """Why a state can't be asked for now, as an AL status code, or 0 [AL "AL state machine", transitions]."""
        if wanted not in NAMES:
            return UNKNOWN_STATE
        if wanted == BOOT:
            return 0 if self.boots and self.state in (INIT, BOOT) else BAD_CHANGE if self.boots else NO_BOOT
        if self.state == BOOT:
            return 0 if wanted == INIT else BAD_CHANGE
        if wanted <= self.state:
            return 0
        if LADDER.index(wanted) != LADDER.index(self.state) + 1:
            return BAD_CHANGE
        return {PREOP: self.preop_fault, SAFEOP: self.safeop_fault, OP: self.op_fault}[wanted]()

    def preop_fault(self) -> int:
        """The managers of the mailboxes must be as the device has them."""
        if self.reads_sii and not self.esc.memory[SII_OWNER] & 1:
            return NO_SII
        if not self.mailbox:
            return 0
        first, size, second, room = self.mailbox
        fits = self.has_manager(Area(0, first, 6), size) and self.has_manager(Area(1, second, 2), room)
        return 0 if fits else BAD_MAILBOX

    def safeop_fault(self) -> int:
        """The managers of the process data must have the length of what is assigned."""
        for way, code in ((0, BAD_OUTPUTS), (1, BAD_INPUTS)):
            length = bytes_of(sum(pdo.bits for pdo in self.assigned(way)))
            if length and not self.has_manager((self.out_area, self.in_area)[way], length):
                return code
        return 0

    def op_fault(self) -> int:
        return 0

    def has_manager(self, area: Area, length: int) -> bool:
        """Whether a manager is active as an area needs it, by start, length, mode and direction."""
        if area.number >= len(self.esc.managers):
            return False
        found = self.esc.managers[area.number]
        return found.active and (found.start, found.length, found.control & 15) == (area.start, length, area.control & 15)

    def proceed(self) -> None:
        """A transition goes on. OP waits for outputs for a while, and is refused then as by the watchdog [SSC]."""
        wanted, due = self.move
        if self.now < due:
            return
        if wanted == OP and self.patience is not None and self.assigned(0) and not self.is_fed:
            if self.now - due > self.patience:
                self.refuse(WATCHDOG)
            return
        self.move = None
        self.enter(wanted)

    def enter(self, state: int) -> None:
        before = self.state
        self.esc.show(state)
        if state == SAFEOP:
            self.is_fed = False
        if state != OP:
            self.outside = bytes(len(self.outside))
        if state in (PREOP, INIT):
            self.talk(before, state)

    def talk(self, before: int, state: int) -> None:
        """A mailbox is opened in PREOP, and closed in INIT."""

    def refuse(self, code: int) -> None:
        self.move = None
        self.esc.show(self.state, code)

    def fall(self, code: int) -> None:
        """Back to SAFEOP with an error: outputs are off. The manager of the outputs stays on, so frames go on counting [SSC]."""
        self.enter(SAFEOP)
        self.esc.show(SAFEOP, code)

    # ---- process data

    def take_outputs(self) -> None:
        """Outputs that a frame published. They reach the outside in OP alone."""
        if not self.outputs or self.out_area.number >= len(self.esc.managers):
            return
        manager = self.esc.managers[self.out_area.number]
        if not (manager.active and manager.fresh):
            return
        manager.fresh, self.is_fed = False, True
        if self.state != OP:
            return
        self.taken += 1
        if self.falls_after is not None and self.taken > self.falls_after:
            self.fall(BAD_OUTPUTS)
        else:
            self.outside = manager.value
            self.follow()

    def follow(self) -> None:
        """What a device does with new outputs in OP."""

    def measured(self) -> bytes:
        """Its inputs."""
        return packed(self.variables, self.assigned(1))

    def pins(self) -> bytes:
        return self.outside
