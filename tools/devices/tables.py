"""Link tables for rows of devices, with today's keys alone or with those that are asked for real hardware.

What a table for hardware has beside today's keys is marked with `# hardware` on its line.
"""
from __future__ import annotations

from slave import Pdo, Slave, Variable, places_of

MARK = "  # hardware"


def names_of(kinds: list[type[Slave]]) -> list[str]:
    """The name of each slave in its link table: that of its class, with a number from the second on."""
    found: list[str] = []
    for place, kind in enumerate(kinds):
        before = kinds[:place].count(kind)
        found.append(kind.__name__.lower() + (f"_{before + 1}" if before else ""))
    return found


def table_of(kinds: list[type[Slave]], is_hardware: bool) -> str:
    """The link table of devices in this order: each variable of each is linked."""
    names = names_of(kinds)
    lines = [f"hardware = true{MARK}"] if is_hardware else []
    for kind in dict.fromkeys(kinds):
        lines += ["", *type_lines(kind, is_hardware)]
    for name, kind in zip(names, kinds):
        lines += ["", *slave_lines(name, kind, is_hardware)]
    for name, kind in zip(names, kinds):
        for variable in kind.variables:
            lines += ["", *variable_lines(name, kind, variable)]
    return "\n".join(lines) + "\n"


def type_lines(kind: type[Slave], is_hardware: bool) -> list[str]:
    out_start = kind.out_area.start if is_hardware or kind.told_out_start is None else kind.told_out_start
    lines = ["[[type]]", f'name = "{kind.__name__}"', f"vendor = 0x{kind.vendor:X}", f"product = 0x{kind.product:08X}"]
    if not (is_hardware and kind.any_revision):
        lines.append(f"revision = {kind.revision if kind.told_revision is None else kind.told_revision}")
    if kind.mailbox:
        lines.append("mailbox = [0x%04X, %d, 0x%04X, %d]" % kind.mailbox)
    lines.append(f"out_start = 0x{out_start if kind.outputs else 0:04X}")
    lines.append(f"in_start = 0x{kind.in_area.start if kind.inputs else 0:04X}")
    lines += object_lines("rxpdo", kind.outputs) + object_lines("txpdo", kind.inputs)
    if kind.chip.features & 0x0200 and not kind.told_lrw:
        lines.append("lrw = false")
    return lines + (hardware_lines(kind) if is_hardware else [])


def hardware_lines(kind: type[Slave]) -> list[str]:
    """The keys of a type that only tables for hardware have, as far as they aren't left out."""
    lines = []
    for key, area, pdos, usual in (("out_manager", kind.out_area, kind.outputs, (2, 0x24)), ("in_manager", kind.in_area, kind.inputs, (3, 0x20))):
        if pdos and (area.number, area.control) != usual:
            lines.append(f"{key} = [{area.number}, 0x{area.control:02X}]")
    if kind.emulates:
        lines.append("firmware = false")
    if kind.fixed:
        lines.append("fixed = true")
    lines += init_lines(kind.init)
    return [line + MARK for line in (*lines, *simulated_lines(kind))]


def simulated_lines(kind: type[Slave]) -> list[str]:
    """What makes a simulated slave alike: a firmware step for each 10 ms that a state takes, an emergency, and how many FMMUs."""
    steps = min(100, int(100 * max(getattr(kind, "delays", {}).values(), default=0)))
    rows = (("slow", steps, steps), ("emergency", "true", getattr(kind, "greetings", ())), ("fmmus", kind.chip.fmmus, kind.chip.fmmus in (2, 3)))
    return [f"{key} = {value}" for key, value, is_told in rows if is_told]


def init_lines(init: tuple[tuple[int, int, int, int], ...]) -> list[str]:
    if not init:
        return []
    return ["init = [" + ", ".join(f"[0x{index:04X}, {sub}, {bits}, {value}]" for index, sub, bits, value in init) + "]"]


def object_lines(key: str, pdos: tuple[Pdo, ...]) -> list[str]:
    if not pdos:
        return []
    rows = [f"    {{ index = 0x{pdo.index:04X}, entries = [{', '.join(entry_text(*entry) for entry in pdo.entries)}] }}," for pdo in pdos]
    return [f"{key} = [", *rows, "]"]


def entry_text(index: int, sub: int, bits: int) -> str:
    return f"[0x{index:04X}, {sub}, {bits}]" if index else f"[0, 0, {bits}]"


def slave_lines(name: str, kind: type[Slave], is_hardware: bool) -> list[str]:
    lines = ["[[slave]]", f'name = "{name}"', f'type = "{kind.__name__}"']
    if kind.assigns:
        for key, pdos, indices in (("out", kind.outputs, kind.assigns[0]), ("in", kind.inputs, kind.assigns[1])):
            if pdos:
                lines.append(f"{key} = [{', '.join(f'0x{index:04X}' for index in indices)}]")
    return lines + ([line + MARK for line in init_lines(kind.own_init)] if is_hardware else [])


def variable_lines(name: str, kind: type[Slave], variable: Variable) -> list[str]:
    """A variable, and a link for each of its entries."""
    places, way = places_of(kind.chosen(0)), "out"
    if not set(variable.objects) <= set(places):
        places, way = places_of(kind.chosen(1)), "in"
    sizes = [places[entry][1] for entry in variable.objects]
    lines = ["[[variable]]", f'name = "{name}_{variable.name}"', f'dir = "{way}"', f"bits = {sum(sizes)}"]
    for place, ((index, sub), bits) in enumerate(zip(variable.objects, sizes)):
        lines += ["[[link]]", f'var = "{name}_{variable.name}"', f'slave = "{name}"', f"index = 0x{index:04X}", f"sub = {sub}"]
        lines.append(f"bits = [{sum(sizes[:place])}, 0, {bits}]")
    return lines


def is_output(kind: type[Slave], variable: Variable) -> bool:
    return set(variable.objects) <= set(places_of(kind.chosen(0)))
