"""Rows that `ecat scan` scans: the table that it prints is compared with the devices, and starts them up.

What a scan must find is worked out from the data sheet of a device, and never from what is printed: its identity, mailbox and managers, its
PDOs, those that are assigned as delivered, and their mapping as delivered.
"""
from __future__ import annotations

import functools
import os
import pty
import re
import select
import socket
import subprocess
import time
import tomllib

import cell
from direct import Direct
from named import KINDS, wrong_names
from plant import Plant, differences, trespasses, unsettled
from retold import Scanner
from rows import COMPLETED, NEVER, SHOWN, Row, all_rows, scanned
from session import PATIENCE, SECONDS, Retold, Session, Wrong, at_devices, attempt, brought_up
from slave import INIT, Pdo, Slave, Trial, places_of
from tables import init_lines, names_of, table_of

JUDGES = (differences, unsettled)
# what a type says if it doesn't say otherwise, and what is said for simulated slaves alone
USUAL = {"mailbox": None, "lrw": True, "firmware": True, "fixed": False, "out_manager": [2, 0x24], "in_manager": [3, 0x20], "out_start": 0,
         "in_start": 0, "rxpdo": [], "txpdo": []}
BESIDE = {"name", "slow", "emergency", "fmmus"}
# what explains a refusal of a scan without a table, as a pattern, by its number: what went wrong, what the last frame did, the likely cause
LOOKED = r"the last frame looked into the mailbox of slave \d+: the upload of 0x1[0-9A-F]{3}:0x[0-9A-F]{2}, .+"
EXPLAINED = {
    "9": rf"slave \d+ answered a request with something that is no reply to it; {LOOKED}\n",
    "27": r"slave (\d+) has an error where its SII is read; the last frame asked slave \1 for word 0x(?:0008|007E|103E) of its SII; its EEPROM may be blank.+\n",
    "28": r"frame \d+ came back with another working counter than it must have; the last frame wrote into the mailbox of slave \d+: the upload of "
          r".+; its mailbox took no request, as if it was full\n",
    "30": rf"slave \d+ aborted an SDO transfer, code 0x08000022: .+; {LOOKED}; it doesn't have this object.+\n",
    "31": f"a wait wasn't over after 1000 polls, or a slave took too many frames; {LOOKED}; it sent no reply to the request\n",
}
# what may go wrong with programs
FAULTS = (Wrong, OSError, subprocess.TimeoutExpired, tomllib.TOMLDecodeError)
# the groups whose rows are started up with parameters besides
WITH_MORE = (COMPLETED, SHOWN)
WITH_PARAMETERS, AS_BY_ITS_OWN = "with its parameters ", "as by its own table"


class Scan:
    """`ecat scan` of a plant."""

    def __init__(self, program, plant, *words):
        self.plant, self.limit = plant, program.limit + SECONDS * len(plant.devices)
        self.socket = socket.socket(socket.AF_INET, socket.SOCK_DGRAM)
        self.socket.bind(("127.0.0.1", 0))
        words = ["scan", "--to", "127.0.0.1:%d" % self.socket.getsockname()[1], "--patience", str(PATIENCE), *words]
        self.told, faults = pty.openpty()
        self.scan = program.start(words, stdin=subprocess.DEVNULL, stdout=subprocess.PIPE, stderr=faults)
        os.close(faults)

    def run(self):
        """Frames pass the plant until the scan has ended. Returns the table, the refusal, and what explains it, if there are any."""
        answered, until, printed = time.monotonic(), time.monotonic() + self.limit, b""
        try:
            while time.monotonic() < until:
                ready, _, _ = select.select([self.socket, self.scan.stdout], [], [], 1)
                if self.socket in ready:
                    payload, sender = self.socket.recvfrom(2000)
                    answer = self.plant.answer(payload, time.monotonic() - answered)
                    answered = time.monotonic()
                    if answer is not None:
                        self.socket.sendto(answer, sender)
                elif self.scan.stdout in ready:
                    more = os.read(self.scan.stdout.fileno(), 65536)
                    if not more:
                        refusal, _, explained = self.read_told().partition("\n")
                        return printed.decode(), refusal.removeprefix("ecat: "), explained
                    printed += more
            raise Wrong(f"the scan isn't done after {self.limit} s")
        finally:
            self.scan.kill()
            self.scan.communicate()
            os.close(self.told)
            self.socket.close()

    def read_told(self):
        """What it says on its terminal until it ends."""
        told = b""
        try:
            while more := os.read(self.told, 65536):
                told += more
        except OSError:
            pass  # nothing has it open any more
        return told.decode().replace("\r\n", "\n")


class Found(Session):
    """`ecat master` with a table that a scan printed. Lines are written for a row; each of its variables is one or more of the table."""

    def __init__(self, program, plant, text, kinds):
        super().__init__(program, plant, text)
        table = tomllib.loads(text)
        places = {slave["name"]: place for place, slave in enumerate(table["slave"])}
        self.names = {(places[link["slave"]], link["index"], link["sub"]): link["var"] for link in table.get("link", [])}
        self.parts = {
            f"{name}_{one.name}": (place, places_of(kind.chosen(0)) | places_of(kind.chosen(1)), one.objects)
            for place, (name, kind) in enumerate(zip(names_of(kinds), kinds)) for one in kind.variables}

    def tell(self, *lines):
        return super().tell(*(one for line in lines for one in self.by_parts(line)))

    def by_parts(self, line):
        """A line in the variables of the table: one for each entry of the row's variable, which has its bits of the value."""
        word, *rest = line.split()
        if word not in ("set", "expect") or rest[0] not in self.parts:
            return [line]
        place, entries, objects = self.parts[rest[0]]
        if any((place, *one) not in self.names for one in objects):
            raise Wrong(f"the table has no variables for `{line}`")
        names = [self.names[place, *one] for one in objects]
        if len(names) == 1:
            return [" ".join((word, *names, *rest[1:]))]
        value, found = int(rest[-1], 0), []
        for name, one in zip(names, objects):
            bits = entries[one][1]
            found.append(f"{word} {name} {value & (1 << bits) - 1}")
            value >>= bits
        return found


# ---- what a scan must find


@functools.cache
def as_found(kind: type[Slave], is_completed: bool) -> type[Slave]:
    """A device with its trial by the table that a scan finds, alone or with parameters: its PDOs and mappings are as delivered."""
    trial = (kind.completed if is_completed else kind.scanned) or Trial(kind.variables, kind.script, kind.init if is_completed else ())
    delivered, mapped = getattr(kind, "delivered", None), getattr(kind, "mapped", {})
    chosen = []
    for way, pdos in enumerate((kind.outputs, kind.inputs)):
        known = {pdo.index: Pdo(pdo.index, mapped.get(pdo.index, pdo.entries)) for pdo in pdos}
        indices = delivered[way] if delivered else known
        chosen.append(tuple(known[index] for index in indices if index in known and index not in kind.said.get("left_out", ())))
    return type(kind.__name__, (kind,), {
        "variables": trial.variables, "script": trial.script, "init": trial.init, "own_init": (), "told_revision": None, "any_revision": False,
        "told_out_start": None, "told_lrw": False, "assigns": tuple(tuple(pdo.index for pdo in way) for way in chosen),
        "chosen": classmethod(lambda _, way: chosen[way])})


@functools.cache
def as_said(kind: type[Slave]) -> type[Slave]:
    """A device, as it is found, as a table can say it. Of a fixed assignment there are no other PDOs."""
    sheet = {"fixed": kind.fixed, "outputs": kind.outputs, "inputs": kind.inputs} | kind.said
    chosen = []
    for way, key in enumerate(("outputs", "inputs")):
        found = {pdo.index: pdo for pdo in kind.chosen(way)}
        chosen.append(tuple(pdo for pdo in found.values() if any(pdo.index == one.index for one in sheet[key])))
        sheet[key] = chosen[way] if sheet["fixed"] else tuple(found.get(pdo.index, pdo) for pdo in sheet[key])
    sheet["assigns"] = tuple(tuple(pdo.index for pdo in way) for way in chosen)
    return type(kind.__name__, (kind,), sheet | {"chosen": classmethod(lambda _, way: chosen[way])})


def slaves_of(text):
    """What a table says of its slaves in order, but for names, parameters, and areas without process data."""
    table = tomllib.loads(text)
    kinds = {kind["name"]: USUAL | {key: value for key, value in kind.items() if key not in BESIDE} for kind in table.get("type", [])}
    found = []
    for slave in table.get("slave", []):
        kind = dict(kinds[slave["type"]])
        for way, key in (("out", "rxpdo"), ("in", "txpdo")):
            kind[way] = slave.get(way, [pdo["index"] for pdo in kind[key]])
            if not kind[key]:
                kind[f"{way}_start"] = kind[f"{way}_manager"] = None
        found.append(kind | {"serial": slave.get("serial", 0)})
    return found


def wrong_slaves(text, kinds):
    """Which slaves of a table aren't these devices."""
    wanted, came = slaves_of(table_of([as_said(kind) for kind in kinds], True)), slaves_of(text)
    if len(came) != len(wanted):
        yield f"{len(came)} slaves, wanted {len(wanted)}"
    for place, (one, other) in enumerate(zip(came, wanted)):
        yield from (f"slave {place} has {key} {one.get(key)}, wanted {other.get(key)}" for key in sorted(one | other) if one.get(key) != other.get(key))


def unlike_unsaid(text, refusal, explained, what):
    """What is wrong with a comment on a slave, and with the explanation of the refusal: both must say what is left out. Nothing else has
    a comment."""
    comments = re.findall(r'^((?:# .*\n)+)\[\[slave\]\]\nname = "(\w+)"$', text, re.M)
    if not what:
        return [f"commented on by {comments}"] * bool(comments) + [f"explained by {explained!r}"] * bool(explained)
    things = (what,) if isinstance(what, str) else what
    place = int(refusal.rpartition(" ")[2]) if re.fullmatch(r"46 Unsaid \d+", refusal) else -1
    wanted = [slave["name"] for slave in tomllib.loads(text)["slave"]][place:][:1]
    said = "".join(f"# {thing}.*\n" for thing in things)
    found = [] if [name for _, name in comments] == wanted and re.fullmatch(said, comments[0][0]) else [f"commented on by {comments}"]
    is_explained = re.fullmatch("".join(rf"slave {place} `\w+`: {thing}.*\n" for thing in things) + r"To do: .+\n", explained)
    return found + ([] if is_explained else [f"explained by {explained!r}"])


def unlike_explained(refusal, explained):
    """What is wrong with the explanation of a scan that has no table."""
    pattern = EXPLAINED.get(refusal.split()[0], "") + r"To do: .+\n"
    return [] if re.fullmatch(pattern, explained) else [f"explained by {explained!r}"]


# ---- what is tried


def with_parameters(text, kinds):
    """The text with what a builder adds to its types: their parameters, and that an assignment is fixed whose SII doesn't say it."""
    types = [slave["type"] for slave in tomllib.loads(text)["slave"]]
    for name, kind in dict(zip(types, kinds)).items():
        lines = init_lines(kind.init) + ["fixed = true"] * (kind.said.get("fixed") is False)
        head = f'[[type]]\nname = "{name}"\n'
        text = text.replace(head, head + "".join(f"{line}\n" for line in lines))
    return text


def left(device):
    """What isn't so at a device that was scanned: it is in INIT, and nobody tried to write an object."""
    found = [] if device.state == INIT else [f"state {device.looks()['state']} behind the scan"]
    return found + [f"0x{index:04x}:{sub} was downloaded by the scan" for index, sub in getattr(device, "tried", ())]


def forget(plant):
    """What a start-up transfers is counted from now on."""
    for device in plant.devices:
        if hasattr(device, "transfers"):
            device.transfers.clear()


def without_step(end):
    """An end without the number of a step: in a scan that is a frame's, which the pace decides."""
    return re.sub(r"^(28 Counter|31 TooSlow) \d+$", r"\1", end)


def found_row(row, is_completed):
    return Row(row.name, [as_found(kind, is_completed) for kind in row.kinds])


def has_more(row):
    """Whether a builder adds anything to the types of a row that was found."""
    return any(kind.init or kind.said.get("fixed") is False for kind in row.kinds)


def wanted_end(name):
    """How the scan of a row and its start-ups must end."""
    one, row = scanned(name), all_rows()[name]
    ends = [one.scan] + ([one.alone] if one.alone else [])
    if one.group in WITH_MORE and has_more(found_row(row, True)):
        ends.append(WITH_PARAMETERS + "up")
    return "; ".join(ends + [AS_BY_ITS_OWN] * (one.group == NEVER))


def compared(end, own):
    """Whether a row ends so by its own table, too."""
    own = without_step(own)
    return AS_BY_ITS_OWN if own == end else f"by its own table {own}"


def scan_and_start(program, row, what=None):
    """How the scan of a row ends, and how its devices start by the table that was found; what is wrong with it; and the table. If a table
    can't say all, the comment on what it leaves out begins so."""
    row = found_row(row, False)
    plant = Plant([kind() for kind in row.kinds])
    text, refusal, explained = Scan(program, plant).run()
    plant.tick(0.001)
    ends, wrong = [without_step(refusal) or "found"], [*at_devices(row, plant, trespasses), *at_devices(row, plant, left)]
    if text:
        wrong += [*wrong_slaves(text, row.kinds), *unlike_unsaid(text, refusal, explained, what)]
        wrong += ["`plan` refuses the table"] * bool(program.run(["plan"], input=text.encode()).returncode)
        forget(plant)
        ends.append(brought_up(Found(program, plant, text, row.kinds), row, JUDGES))
    else:
        wrong += unlike_explained(refusal, explained)
    return ends, wrong, text


def scan_row(program, name):
    """How the scan of a row and its start-ups end, and what is wrong."""
    row, one = all_rows()[name], scanned(name)
    try:
        ends, wrong, text = scan_and_start(program, row, one.unsaid)
        if text and one.group in WITH_MORE:
            ends += complete(program, row, text)
        if one.group == NEVER:
            ends.append(compared(ends[-1], attempt(program, row, True)))
        return "; ".join([*ends, *wrong])
    except FAULTS as why:
        return str(why)


def scan_any(program, row):
    """What is otherwise than a scan and a start-up in Python want, of a row at random."""
    try:
        ends, wrong, _ = scan_and_start(program, row)
    except FAULTS as why:
        return str(why)
    wanted = retold_scan(row)
    return "; ".join(wrong + ([] if ends == wanted else [f"scanned: {ends}, wanted {wanted}"]))


def complete(program, row, text):
    """The end of a row by the table that was found with its parameters, if it has any."""
    row = found_row(row, True)
    completed = with_parameters(text, row.kinds)
    if completed != text:
        plant = Plant([kind() for kind in row.kinds])
        yield WITH_PARAMETERS + brought_up(Found(program, plant, completed, row.kinds), row, JUDGES)


def unsaid(kinds):
    """How a scan of these devices ends if a table can't say all of one."""
    places = [place for place, kind in enumerate(kinds) if kind.said.keys() & {"outputs", "inputs", "out_area", "in_area", "left_out", "is_parted"}]
    return f"46 Unsaid {places[0]}" if places else "found"


def retold_scan(row):
    """How a scan of a row in Python ends, and the start-up in Python by what it must find, if it finds that."""
    found = found_row(row, False)
    plant = Plant([kind() for kind in found.kinds])
    end = without_step(Scanner(Direct(plant), plant, found.kinds).scan())
    if end != "found":
        return [end]
    forget(plant)
    return [unsaid(found.kinds), brought_up(Retold([as_said(kind) for kind in found.kinds], plant), found, JUDGES)]


def retell_row(name):
    """The same as `scan_row` by the scan and the start-up in Python."""
    row, one = all_rows()[name], scanned(name)
    ends = retold_scan(row)
    completed = found_row(row, True)
    if one.group in WITH_MORE and has_more(completed):
        ends.append(WITH_PARAMETERS + brought_up(Retold(completed.kinds, Plant([kind() for kind in completed.kinds])), completed, JUDGES))
    if one.group == NEVER:
        ends.append(compared(ends[-1], attempt(None, row, True)))
    return "; ".join(ends)


def against_cell(program):
    """What differs between the devices of the cell and its table, and how that ends."""
    printed, refusal, _ = Scan(program, Plant([kind() for kind in cell.KINDS.values()]), "--against", str(cell.TABLE)).run()
    return [*printed.splitlines(), *[refusal] * bool(refusal)]


def scan_names(program):
    """What is wrong with the names of devices whose SIIs name all that they have."""
    table, refusal, _ = Scan(program, Plant([kind() for kind in KINDS])).run()
    return [refusal] if refusal else wrong_names(table)
