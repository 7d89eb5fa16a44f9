"""What is tried: rows of devices, what is done with them, and how `ecat master` ends with each.

An end is `up`, or `up, but ..` with what the plant shows otherwise, or the refusal of the start-up or of the table with its values.
Each row has a table of today's keys and one for hardware. Ends may only get better: if you teach the master a device, write its new end
here.
"""
from __future__ import annotations

from dataclasses import dataclass

import cell
import models
from slave import Slave
from tables import is_output, names_of

CYCLES = 5
# what is done with a row once it is up and its variables are set. `plant NAME WHAT VALUE` looks at a device, `silence MS` lets time pass
# without frames, every other line is the master's
MORE: dict[str, tuple[str, ...]] = {
    # the watchdog switches the pins off, and the state stays; the next cycle brings them back [ESC 0x0420]
    "EL2008": ("silence 90", "plant el2008 pins c5", "silence 200", "plant el2008 pins 00", "plant el2008 state OP", "cycle", "plant el2008 pins c5"),
    # EL4002's manager feeds no watchdog by its control byte 0x24, a drive's does by 0x64: it falls back
    "Drive": ("silence 200", "cycle", "plant drive state SAFEOP+ERROR 001b", "plant drive axis 08"),
    "EL4002": ("silence 200", "cycle", "plant el4002 pins 34120180"),
}
# rows of several devices; each device also is a row of its own
SEVERAL: dict[str, list[type[Slave]]] = {
    "digital": [models.EK1100, models.EL1008, models.EL2008],
    "branches": [models.EK1100, models.EL2008, models.EK1122, models.EL1008, models.EL2008, models.EL1008],
    "machine": [models.EK1100, models.EL1008, models.EL2008, models.EL3104, models.EL4002, models.Drive],
    # the devices of examples/cell
    "cell": list(cell.KINDS.values()),
    "drives": [models.EK1100, models.Drive, models.DriveRemapped, models.DriveShouting],
    "parameters": [models.Parameters, models.EL3104Filtered, models.FixedWithParameters],
    "odd": [models.Quick, models.LeftInOp, models.TwoFmmus, models.NoLrw, models.LeftInSafeop, models.ThreeFmmus, models.SiiByEight,
            models.LeftInBoot],
    "nibbles": [models.Nibble, models.Nibble],
    # as many slaves as there may be, each with a mailbox
    "many": [models.Quick] * 64,
}
# the end of each row with a table of today's keys
EXPECTED: dict[str, str] = {
    # the acknowledge bit is copied, so INIT is never seen
    **dict.fromkeys(("EK1100", "EK1122", "EL1008", "EL1008Nack", "EL1008Worn"), "31 TooSlow 2"),
    "EL1008Masked": "up",
    # a table can't say the register of the pins; in RAM nothing lights up
    "EL2008": "25 OutsideRam 0",
    "EL2008Elsewhere": "up, but pins 00, wanted c5; no manager has the outputs at 0x0f00; no FMMU has the outputs at 0x0f00",
    # polls of a wait rest, and so last 9 s
    **dict.fromkeys(("EL3102", "EL3104", "EL3104Compact", "EL3104Filtered", "Seconds", "LateSdo", "LateDownload", "NeverDone"), "up"),
    # as EL1008 and EL2008
    **dict.fromkeys(("EL1252", "Longer", "BehindWide"), "31 TooSlow 2"),
    **dict.fromkeys(("EL2809", "PartedBothWays", "BehindRepeats"), "25 OutsideRam 0"),
    # outputs don't come before OP: the device gives up after 5 s (0x001B), or at once
    **dict.fromkeys(("EL4002", "EL4002Quick", "EL4002Impatient", "EL6001", "Drive"), "29 AlError 0 27"),
    "EL6224": "13 BadValue 1 0", "SpareObject": "13 BadValue 1 0", "Repeats": "20 EntryTwice 0", "AlwaysRepeats": "20 EntryTwice 0",
    "Quick": "up", "NoLrw": "up", "TwoFmmus": "up", "ThreeFmmus": "up",
    "LeftFmmu": "up, but unmet `expect taken`; 2 FMMUs are active, wanted 1",
    # cycles go by LRW
    "UnsaidLrw": "up, but unmet `expect taken`; unmet `expect unsaidlrw_force 48879`; pins 00, wanted a5",
    "FourthManager": "29 AlError 0 29",
    "Bare": "28 Counter 3",
    # a message that nobody asked for is taken for the reply
    "Emergencies": "9 BadMailbox 0", "Chatty": "9 BadMailbox 0", "EndlessEmergencies": "9 BadMailbox 0", "OtherProtocol": "9 BadMailbox 0",
    **dict.fromkeys(("EndlessBehind", "ManyEmergencies", "TooManyEmergencies", "EndlessOthers"), "9 BadMailbox 0"),
    # step 17 sends the first request, step 19 the second
    "Normal": "9 BadMailbox 0", "Deaf": "31 TooSlow 18", "DeafBehind": "31 TooSlow 20", "Full": "28 Counter 19",
    "WrongIndex": "9 BadMailbox 0", "WrongSubindex": "9 BadMailbox 0", "Unsized": "9 BadMailbox 0",
    "Wide": "9 BadMailbox 0", "Erring": "9 BadMailbox 0", "FixedWithParameters": "9 BadMailbox 0", "DriveShouting": "9 BadMailbox 0",
    # 0x06010002: the object can only be read
    **dict.fromkeys(("FixedAssignment", "FixedUnsaid", "FixedOtherwise", "FixedFewer"), "30 Abort 0 100728834"),
    # parameters can't be said, and aren't needed
    "Parameters": "up", "ManyParameters": "up", "TooManyParameters": "up", "RefusesValue": "up",
    "RefusesLength": "up", "RefusesBehind": "up",
    # two entries where one is wanted; the second is 0x60FF0020, a speed
    "OtherMapping": "38 Mapping 0 5632 0 2", "DriveRemapped": "38 Mapping 0 5632 2 1627324448",
    "BigMailbox": "up",
    "NewerRevision": "27 Identity 0 1445 274 4",
    **dict.fromkeys(("SiiOfPdi", "SiiFailed", "NoSii"), "27 Identity 0 0 0 0"), "SiiByEight": "up", "ReadsSii": "29 AlError 0 80",
    "LeftInOp": "up", "LeftInSafeop": "up", "LeftInBoot": "up", "LeftInError": "up",
    # bits of a byte in RAM can't be written one by one
    "Twelve": "up, but pins 23f1, wanted 2301",
    "Nibble": "up",
    "nibbles": "up, but nibble: pins 55, wanted 05; nibble_2: pins 55, wanted 05",
    "Falls": "up, but state SAFEOP+ERROR 001d; pins 00, wanted a5",
    "Refuses": "up",
    # nothing sets its mode
    "DriveQuick": "up, but unmet `expect drivequick_status & 0x1000 == 0x1000`; unmet `expect drivequick_position 4711`; "
                  "drivequick: position 0, wanted 4711; unmet `expect drivequick_position -300`; drivequick: position 0, wanted -300",
    "DriveByClocks": "29 AlError 0 48",
    # 264 is 0x108, a gap with a subindex; 0x08000022: not in this state of the device
    "NumberedGap": "38 Mapping 0 5632 2 264", "NoMark": "up", "EmptySlot": "up", "ClosedAssignment": "30 Abort 0 134217762", "NoAssignment": "30 Abort 0 100794368",
    "digital": "25 OutsideRam 2", "branches": "25 OutsideRam 1", "machine": "25 OutsideRam 2", "cell": "25 OutsideRam 2",
    "odd": "up", "many": "up",
    "drives": "31 TooSlow 2", "parameters": "9 BadMailbox 2",
}
# the end of each row with a table for hardware: `up`, but for these
EXPECTED_HARDWARE: dict[str, str] = {
    # entries of over 64 bits, and managers over 3, can't be said
    **dict.fromkeys(("EL6224", "SpareObject", "FourthManager"), "13 BadValue 1 0"),
    # an entry may be exchanged once in a direction
    "Repeats": "20 EntryTwice 0", "AlwaysRepeats": "20 EntryTwice 0",
    # no reply to the first request comes, which step 22 sends, or within 1000 polls, or to the second, or one to another object
    **dict.fromkeys(("Deaf", "EndlessEmergencies", "EndlessOthers", "TooManyEmergencies", "Erring", "NeverDone"), "31 TooSlow 23"),
    "DeafBehind": "31 TooSlow 25", "EndlessBehind": "31 TooSlow 25", "WrongIndex": "9 BadMailbox 0", "WrongSubindex": "9 BadMailbox 0",
    # normal replies aren't read
    "Normal": "9 BadMailbox 0",
    # the second request finds the mailbox full
    "Full": "28 Counter 24",
    # a parameter is aborted: no such object (0x06020000) or subindex (0x06090011), a value out of range (0x06090030), a length that
    # doesn't match (0x06070010)
    "Refuses": "30 Abort 0 100794368", "RefusesBehind": "30 Abort 0 101253137", "RefusesValue": "30 Abort 0 101253168",
    "RefusesLength": "30 Abort 0 101122064",
    # a fixed assignment: its first object is 0x1A01; it has one
    "FixedOtherwise": "38 Mapping 0 7187 1 6657", "FixedFewer": "38 Mapping 0 7187 0 1",
    "NoSii": "27 Identity 0 0 0 0",
    # outputs are fed by LRW
    "UnsaidLrw": "28 Counter 48",
    # a gap with a subindex can't be said
    "NumberedGap": "38 Mapping 0 5632 2 264",
    # its assignment can't be written: not now (0x08000022), or there is none (0x06020000)
    "ClosedAssignment": "30 Abort 0 134217762", "NoAssignment": "30 Abort 0 100794368",
    # 65 parameters
    "TooManyParameters": "13 BadValue 1 0",
    # there are no distributed clocks
    "DriveByClocks": "29 AlError 0 48",
    # a real slave goes on counting in SAFEOP
    "Falls": "up, but state SAFEOP+ERROR 001d; pins 00, wanted a5",
}

# What `--explain` says of a start-up that fails, in phrases between `;`: what the device said, what the table wants, and a likely cause.
# First by a table of today's keys.
EXPLAINED: dict[str, str] = {
    **dict.fromkeys(("EK1100", "EK1122", "EL1008", "EL1008Nack", "EL1008Worn", "drives"), "without firmware copies the acknowledgement"),
    **dict.fromkeys(("EL4002", "EL4002Quick", "EL4002Impatient", "EL6001", "Drive"), "0x001B;outputs before OP"),
    **dict.fromkeys(("EL1252", "Longer", "BehindWide"), "without firmware copies the acknowledgement"),
    "FourthManager": "0x001D", "ReadsSii": "0x0050", "DriveByClocks": "0x0030", "Bare": "the FMMUs of all slaves;working counter",
    **dict.fromkeys(("SiiOfPdi", "SiiFailed", "NoSii"), "its SII read zeros;firmware or a former master held it"),
    "NewerRevision": "vendor 0x000005A5, product 0x00000112, revision 0x00000004",
    "Deaf": "a reply is awaited;the upload of 0x1600:0x00", "DeafBehind": "a reply is awaited;the upload of 0x1600:0x01",
    "Full": "the upload of 0x1600:0x01;as if it was full",
    **dict.fromkeys(("FixedAssignment", "FixedUnsaid", "FixedOtherwise", "FixedFewer"), "0x06010002: the object can only be read"),
    "OtherMapping": "has 0x2 in its object 0x1600:0x00", "DriveRemapped": "has 0x60FF0020 in its object 0x1600:0x02",
}
EXPLAINED_HARDWARE: dict[str, str] = {
    "NoSii": "its SII read zeros although the master took it", "UnsaidLrw": "outputs are fed in this step;takes no part in LRW",
    "Deaf": "the upload of 0x1600:0x00;it sent no reply", "DeafBehind": "the upload of 0x1600:0x01;it sent no reply",
    "Full": "the upload of 0x1600:0x01;as if it was full",
    "EndlessEmergencies": "the upload of 0x1600:0x00;sent an emergency, error code 0x;it sent no reply",
    "EndlessBehind": "the upload of 0x1600:0x01;sent an emergency, error code 0x;it sent no reply",
    "TooManyEmergencies": "sent an emergency, error code 0x5000, error register 0x00;it sent no reply",
    **dict.fromkeys(("EndlessOthers", "Erring"), "sent a message of another protocol;it sent no reply"),
    "NeverDone": "the parameter 0x2BC into 0x8010:0x01;it sent no reply",
    **dict.fromkeys(("WrongIndex", "Normal"), "the upload of 0x1600:0x00"), "WrongSubindex": "into 0x8010:0x01",
    "Refuses": "0x06020000: it has no such object;the parameter 0x8 into 0x6060:0x00, row 1 of `init` of its type",
    "RefusesBehind": "0x06090011: the object has no such subindex;the parameter 0x1 into 0x8010:0x04, row 3 of `init` of the slave",
    "RefusesValue": "0x06090030;the parameter 0x65 into 0x8010:0x01, row 1 of `init` of its type",
    "RefusesLength": "0x06070010;the parameter 0x1 into 0x8010:0x01, row 1 of `init` of its type",
    "FixedOtherwise": "has 0x1A01 in its object 0x1C13:0x01;the table has 0x1A00 there;fixed assignment",
    "FixedFewer": "has 0x1 in its object 0x1C13:0x00;the table has 0x2 there;fixed assignment",
    "DriveByClocks": "0x0030;distributed clocks",
}

# Groups of rows by what comes of `ecat scan`. The table that it prints is one that `ecat plan` accepts, and says what the devices are.
# It brings the row up, with the row's inputs and outputs.
UP = "up with the row's inputs and outputs"
# It does with parameters that only the row's own table knows: the mode of a drive, or that an assignment is fixed whose SII says otherwise.
COMPLETED = "with the row's parameters"
# A scan finds the mapping that a device has, and not the one that the row's parameters write. The row comes up by that mapping, with other
# inputs and outputs (`scanned` and `completed` in models.py).
SHOWN = "by the mapping shown"
# A table can't say all of a device. What is left out stands in a comment; `alone` is what a start-up by the rest comes to.
UNSAID = "unsaid"
# The row doesn't come up by its own table either. The scan, or the start-up behind it, ends as that does.
NEVER = "that no table brings up"
# Its own table brings it up, and a scan can't read all that it needs of it, so it prints none.
UNREAD = "that a scan can't read"
GROUPS = (UP, COMPLETED, SHOWN, UNSAID, NEVER, UNREAD)


@dataclass(frozen=True)
class Scanned:
    """The group of a row, how its scan ends, how its start-up ends by the table that was found, and with what words the table and the
    terminal begin to say what is left out; several, if they say several things."""

    group: str = UP
    alone: str | None = "up"
    scan: str = "found"
    unsaid: str | tuple[str, ...] | None = None


# rows that aren't of the first group
SCANNED: dict[str, Scanned] = {
    # without its mode a drive is enabled and stands still
    **dict.fromkeys(("Drive", "DriveQuick", "DriveShouting", "machine", "cell"), Scanned(COMPLETED)),
    # 0x06010002: the object can only be read
    "FixedUnsaid": Scanned(COMPLETED, "30 Abort 0 100728834"),
    **dict.fromkeys(("OtherMapping", "DriveRemapped", "drives"), Scanned(SHOWN)),
    # An entry of 240 bits is left out, and so the PDO. As delivered the device exchanges it: its firmware compares the manager with what is
    # assigned, and no manager is set for inputs that a table hasn't [AL "AL state machine", PREOP to SAFEOP; 0x001E, input configuration].
    "EL6224": Scanned(UNSAID, "29 AlError 0 30", "46 Unsaid 0", "inputs of it are left out"),
    # Managers 4 and 5 are left out, so 2 and 3 are set. The firmware finds its own unset [the same; 0x001D, output configuration].
    "FourthManager": Scanned(UNSAID, "29 AlError 0 29", "46 Unsaid 0", "its sync managers are left out"),
    # A gap with a subindex is left out, and so the PDO: as for EL6224, but of outputs (0x001D).
    "NumberedGap": Scanned(UNSAID, "29 AlError 0 29", "46 Unsaid 0", "outputs of it are left out"),
    # the PDO that is left out isn't assigned as delivered
    "SpareObject": Scanned(UNSAID, "up", "46 Unsaid 0", "inputs of it are left out"),
    # The PDO that repeats an entry is left out of the assignment. By CoE the device takes that; without a mailbox its firmware finds two
    # bytes too few [the same as for EL6224; 0x001D].
    "Repeats": Scanned(UNSAID, "up", "46 Unsaid 0", "its PDO 0x1601 is left out"),
    "AlwaysRepeats": Scanned(UNSAID, "29 AlError 0 29", "46 Unsaid 0", "its PDO 0x1601 is left out"),
    # a table has one manager for each direction
    "EL1252": Scanned(UNSAID, "up", "46 Unsaid 0", "inputs behind a second sync manager are left out"),
    "EL2809": Scanned(UNSAID, "up", "46 Unsaid 0", "outputs behind a second sync manager are left out"),
    "PartedBothWays": Scanned(UNSAID, "up", "46 Unsaid 0", ("outputs behind a second sync manager are left out",
                                                            "inputs behind a second sync manager are left out")),
    "Longer": Scanned(UNSAID, "up", "46 Unsaid 0", "its inputs may lie elsewhere"),
    # a byte of a table lies where it lies in the device: so what stands behind an object that is left out is left out too
    "BehindRepeats": Scanned(UNSAID, "up", "46 Unsaid 0", "its PDO 0x1601 is left out, and those behind it where the assignment can't be written"),
    "BehindWide": Scanned(UNSAID, "up", "46 Unsaid 0", "inputs of it are left out"),
    # a scan asks a mailbox, as a start-up does: no reply comes, or not in 1000 polls
    **dict.fromkeys(("Deaf", "DeafBehind", "EndlessEmergencies", "EndlessBehind", "EndlessOthers", "TooManyEmergencies", "Erring"),
                    Scanned(NEVER, None, "31 TooSlow")),
    # it replies to what wasn't asked, or in another form, or takes no second request
    **dict.fromkeys(("WrongIndex", "WrongSubindex", "Normal"), Scanned(NEVER, None, "9 BadMailbox 0")), "Full": Scanned(NEVER, None, "28 Counter"),
    "NoSii": Scanned(NEVER, None, "27 Identity 0 0 0 0"),
    # it is found, and then falls back, or wants distributed clocks
    **{name: Scanned(NEVER, EXPECTED_HARDWARE[name]) for name in ("Falls", "DriveByClocks")},
    # a word of its categories can't be read, or they don't end
    **dict.fromkeys(("EL1008Worn", "NoMark"), Scanned(UNREAD, None, "27 Identity 0 0 0 0")),
    "ClosedAssignment": Scanned(NEVER, None, EXPECTED_HARDWARE["ClosedAssignment"]),
    # it is found by its SII, and its assignment can't be written
    "NoAssignment": Scanned(UNSAID, EXPECTED_HARDWARE["NoAssignment"], "46 Unsaid 0", "it takes CoE and has no object 0x1C12 for its outputs"),
}


def scanned(name: str) -> Scanned:
    return SCANNED.get(name, Scanned())


def expected(name: str) -> tuple[str, str]:
    """The ends of a row: with a table of today's keys, and with one for hardware."""
    return EXPECTED.get(name, "an end in rows.py"), EXPECTED_HARDWARE.get(name, "up")


def explained(name: str, is_hardware: bool) -> list[str]:
    """The phrases that explain how a row ends."""
    return [phrase for phrase in (EXPLAINED, EXPLAINED_HARDWARE)[is_hardware].get(name, "").split(";") if phrase]


@dataclass(frozen=True)
class Row:
    """Devices in a row, by name."""

    name: str
    kinds: list[type[Slave]]

    def lines(self) -> list[str]:
        """What is done once the slaves are up: outputs are set, cycles run, inputs are expected; then what a device has besides."""
        names = list(zip(names_of(self.kinds), self.kinds))
        rows = [(f"{name}_{one.name}", one, is_output(kind, one)) for name, kind in names if not kind.script for one in kind.variables]
        found = [f"set {title} {one.value}" for title, one, is_out in rows if is_out]
        found += [f"repeat {CYCLES} cycle", "expect taken"]
        found += [f"expect {title} {one.value}" for title, one, is_out in rows if not is_out]
        for name, kind in names:
            found += [line.format(name) for line in kind.script or ()]
        return found

    def more(self) -> tuple[str, ...]:
        return MORE.get(self.name, ())


def all_devices() -> list[type[Slave]]:
    """The devices of models.py in its order."""
    kinds = [kind for kind in vars(models).values() if isinstance(kind, type) and issubclass(kind, Slave)]
    return [kind for kind in kinds if kind.__module__ == "models"]


def all_rows() -> dict[str, Row]:
    single = {kind.__name__: Row(kind.__name__, [kind]) for kind in all_devices()}
    return single | {name: Row(name, kinds) for name, kinds in SEVERAL.items()}
