"""The EtherCAT master and the simulated slaves of libecat, for control programs in Python.

    with ecat.Master(open("machine.toml").read()) as m:
        m.bring_up(wire)
        m["lamp"] = 1
        if m.cycle(wire).taken:
            print(m["switches"])

`Master` and `Segment` have the calls of ecat.h, which describes them. A wire is anything with `send` and `receive`: `ecat.wires` has
those over UDP and network cards, and a `Segment` is one. The library is the file that ECAT_LIBRARY names, else the installed one.
Its calls hold Python's lock, so threads may share a handle.
"""
from __future__ import annotations

import ctypes
import time
from typing import Dict, List, NamedTuple, Optional, Protocol, Sequence, Tuple, Union

from ecat._library import FRAME, VERSION, Info, Owner, Refusal, Refused, lib, written
from ecat.segment import Segment

__all__ = ["FRAME", "VERSION", "Failed", "Master", "Refused", "Report", "Segment", "State", "Variable", "Wire"]
# the most bytes of the words for a failure; the place of a frame's second command, and commands that write process data
WORDS, COMMAND, WRITES = 512, 24, (11, 12)


class Failed(Exception):
    """A start-up failed, or a cycle can't begin: the number of the failure. Of a start-up also its name, its values, and it in words."""

    def __init__(self, number: int, name: str = "", values: Sequence[int] = (), words: str = "") -> None:
        super().__init__(" ".join(filter(None, [str(number), name, *map(str, values)])) + (f": {words}" if words else ""))
        self.number, self.name, self.values, self.words = number, name, list(values), words


class Variable(NamedTuple):
    """A variable: `bit` is its first bit in the image of its direction."""
    name: str
    bits: int
    is_output: bool
    is_signed: bool
    bit: int


class State(NamedTuple):
    """What a slave said of its AL state: the AL status word, of which bits 0 to 3 are the state, and the AL status code."""
    word: int
    code: int


class Report(NamedTuple):
    """A closed cycle: whether all inputs were taken, how many frames were missing, and the OR of the AL status words."""
    taken: bool
    missing: int
    al: int


class Wire(Protocol):
    """What carries frames. `receive` returns the next payload, or nothing if none came in time."""

    def send(self, frame: bytes) -> object: ...

    def receive(self) -> bytes: ...


class Master(Owner):
    """The master of a table. `m[NAME]` is a variable: KeyError if there is none, ValueError if it can't be set to a value."""

    def __init__(self, table: Union[str, bytes]) -> None:
        super().__init__(lib.ecat_open, lib.ecat_drop, table)
        self._room, self._missing, self._al = ctypes.create_string_buffer(FRAME), ctypes.c_size_t(), ctypes.c_uint16()
        self._numbers: Dict[str, int] = {}

    def next(self) -> bytes:
        return ctypes.string_at(self._room, lib.ecat_next(self._handle, self._room, FRAME))

    def take(self, payload: bytes) -> bool:
        return lib.ecat_take(self._handle, payload, len(payload), ctypes.byref(self._missing))

    def phase(self) -> int:
        return lib.ecat_phase(self._handle)

    def give_up(self) -> None:
        lib.ecat_give_up(self._handle)

    def waits(self) -> bool:
        return lib.ecat_waits(self._handle)

    def failure(self) -> Optional[Failed]:
        """How the last start-up failed, if it did."""
        told, words = Refusal(), ctypes.create_string_buffer(WORDS)
        if not lib.ecat_failure(self._handle, ctypes.byref(told)):
            return None
        lib.ecat_explain(self._handle, words, WORDS)
        return Failed(told.number, told.name.decode(), told.values[:told.count], words.value.decode())

    def slaves(self) -> int:
        return lib.ecat_slaves(self._handle)

    def state_next(self, slave: int) -> bytes:
        return ctypes.string_at(self._room, lib.ecat_state_next(self._handle, slave, self._room, FRAME))

    def state(self, slave: int) -> Optional[State]:
        code = ctypes.c_uint16()
        word = lib.ecat_state(self._handle, slave, ctypes.byref(code))
        return State(word, code.value) if word >= 0 else None

    def begin(self) -> int:
        parts = lib.ecat_begin(self._handle)
        if parts < 0:
            raise Failed(-parts)
        return parts

    def part(self, part: int) -> bytes:
        return ctypes.string_at(self._room, lib.ecat_part(self._handle, part, self._room, FRAME))

    def close(self) -> Report:
        taken = lib.ecat_close(self._handle, ctypes.byref(self._missing), ctypes.byref(self._al))
        return Report(taken, self._missing.value, self._al.value)

    def unit(self, unit: int) -> Optional[bool]:
        return {0: False, 1: True}.get(lib.ecat_unit(self._handle, unit))

    def counters(self, part: int) -> Tuple[int, ...]:
        found = ctypes.c_uint16(), ctypes.c_uint16()
        return tuple(counter.value for counter in found[:lib.ecat_counters(self._handle, part, *map(ctypes.byref, found))])

    def variables(self) -> List[Variable]:
        info, found = Info(), []
        for number in range(lib.ecat_variables(self._handle)):
            lib.ecat_variable_info(self._handle, number, ctypes.byref(info))
            found.append(Variable(info.name.decode(), info.bits, info.is_output, info.is_signed, info.bit))
        return found

    def variable(self, name: str) -> int:
        if name not in self._numbers:
            number = lib.ecat_variable(self._handle, name.encode())
            if number < 0:
                raise KeyError(name)
            self._numbers[name] = number
        return self._numbers[name]

    def __getitem__(self, name: str) -> int:
        return lib.ecat_get(self._handle, self.variable(name))

    def signed(self, name: str) -> int:
        """The value of a variable with its sign, if it has one."""
        return lib.ecat_get_signed(self._handle, self.variable(name))

    def __setitem__(self, name: str, value: int) -> None:
        """A variable with a sign takes negative values too. m[NAME] then reads its bits without the sign, signed(NAME) its value."""
        number, word = self.variable(name), value
        if value < 0:
            info = Info()
            lib.ecat_variable_info(self._handle, number, ctypes.byref(info))
            # the two's complement, if it has a sign and holds the value
            word += 1 << info.bits if info.is_signed and -value <= 1 << info.bits - 1 else 0
        if not 0 <= word < 1 << 64 or not lib.ecat_set(self._handle, number, word):
            raise ValueError(f"{name} is no output that holds {value}")

    def set_outputs(self, image: bytes) -> int:
        return lib.ecat_outputs(self._handle, image, len(image))

    def inputs(self) -> bytes:
        return written(lib.ecat_inputs, self._handle)

    def bring_up(self, wire: Wire) -> None:
        """Sends each frame of the start-up, and receives until its answer came. Between two polls of one wait it rests: not for the first
        10, then 1 ms up to the 100th, then 10 ms. Raises Failed if an answer doesn't come, or the start-up fails."""
        polls = 0
        while frame := self.next():
            if self.waits():
                polls += 1
                time.sleep(0 if polls < 10 else 0.001 if polls < 100 else 0.01)
            elif frame[COMMAND] not in WRITES:
                polls = 0
            wire.send(frame)
            while (payload := wire.receive()) and not self.take(payload):
                pass
            if not payload:
                self.give_up()
            if self.phase() < 0:
                break
        if self.phase() != 1:
            raise self.failure() or Failed(-self.phase())

    def read_state(self, wire: Wire, slave: int) -> Optional[State]:
        """Asks a slave for its AL state, and receives until the answer came."""
        if frame := self.state_next(slave):
            wire.send(frame)
            while payload := wire.receive():
                if self.take(payload):
                    return self.state(slave)
        return None

    def cycle(self, wire: Wire) -> Report:
        """Sends the frames of a cycle, and receives until none is missing. A late or foreign payload changes nothing."""
        self._missing.value = parts = self.begin()
        for part in range(parts):
            wire.send(self.part(part))
        while self._missing.value and (payload := wire.receive()):
            self.take(payload)
        return self.close()
