"""Simulated slaves of tables for hardware: `ecat segment`, which the start-up of retold.py brings up. So two masters and two kinds of
slaves, each written apart, have to agree.
"""
from __future__ import annotations

import re
import socket
import subprocess

from bus import BRD, Bus, Stumble
from checks import Climbing
from retold import LOGICAL, Master, size_of
from tables import table_of

CYCLES = 3
# a frame waits so many seconds for its answer
PATIENCE = 30


class Still:
    """In the place of a plant: a segment has no time, so a wait is over by polls alone."""

    def tick(self, seconds: float) -> None:
        pass


def free_port() -> int:
    with socket.socket(socket.AF_INET, socket.SOCK_DGRAM) as held:
        held.bind(("127.0.0.1", 0))
        return held.getsockname()[1]


def waits_for_outputs(row: object) -> bool:
    """Whether a slave of the row doesn't enter OP before its outputs have come."""
    return any(size_of(kind, 0) and not kind.emulates for kind in row.kinds)


def shown(master: Master) -> str | None:
    """Runs cycles. The applications show their outputs as their inputs, cut or with zeros behind them; what is otherwise."""
    master.image[0][:] = bytes((37 * place + 11) % 256 for place in range(master.sizes[0]))
    counted = [master.cycle() for _ in range(CYCLES)]
    came, count = master.bus.physical(BRD, 0, 0x0130, bytes(2))
    if not all(counted) or (came, count) != (b"\x08\0", len(master.kinds)):
        return f"counters as predicted: {counted}, AL status {came.hex()} of {count}"
    for place, kind in master.each():
        (first, outs), (behind, ins) = ((master.starts[place, way] - LOGICAL, size_of(kind, way)) for way in (0, 1))
        outputs, inputs = bytes(master.image[0][first : first + outs]), bytes(master.image[1][behind - master.sizes[0] :][:ins])
        if inputs != outputs[:ins].ljust(ins, b"\0"):
            return f"slave {place} has outputs {outputs.hex()} and inputs {inputs.hex()}"
    return None


def start(program: object, row: object, kind: type[Master]) -> str:
    """The end of a start-up against a segment with the table for hardware of a row."""
    port = free_port()
    words = ["segment", "--port", str(port), "--idle", str(PATIENCE)]
    segment = program.start(words, stdin=subprocess.PIPE, stdout=subprocess.DEVNULL, stderr=subprocess.PIPE)
    try:
        segment.stdin.write(table_of(row.kinds, True).encode())
        segment.stdin.close()
        said = segment.stderr.readline().decode()
        if str(port) not in said:
            return re.sub(r"^ecat: |\n", "", said)
        master = kind(Bus(port=port, patience=PATIENCE), Still(), row.kinds)
        end = master.start_up()
        fault = shown(master) if end == "up" and kind is Master else None
        return f"{end}, but {fault}" if fault else end
    except (OSError, Stumble) as why:
        return f"{type(why).__name__}: {why}"
    finally:
        segment.kill()
        segment.wait()
        segment.stderr.close()


def attempt(program: object, row: object, expected: str) -> str | None:
    """What is otherwise than it must be of the simulated slaves of a row, if something is. Without a refusal of the table they come up, but
    not without outputs if one waits for some."""
    refused = expected if expected.startswith(("12 ", "13 ", "20 ")) else None
    end = start(program, row, Master)
    if end != (refused or "up"):
        return f"{end}, wanted {refused or 'up'}"
    if refused:
        return None
    unfed, wanted = start(program, row, Climbing), "31 TooSlow" if waits_for_outputs(row) else "up"
    return None if unfed.startswith(wanted) else f"without outputs before OP {unfed}, wanted {wanted}"
