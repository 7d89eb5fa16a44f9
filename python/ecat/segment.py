"""The simulated slaves of a table, in the same process."""
from __future__ import annotations

import collections
import ctypes
from typing import Callable, Deque, Optional, Union

from ecat._library import Owner, lib, written

# the most bytes of a slave's outputs
OUTPUTS = 2730


class Segment(Owner):
    """The slaves of a table, and a wire to them. `application` returns the inputs of a slave, by its number and its outputs."""

    def __init__(self, table: Union[str, bytes], application: Callable[[int, bytes], bytes] = lambda _, outputs: outputs, full: bool = False) -> None:
        super().__init__(lib.ecat_segment_open, lib.ecat_segment_drop, table, full)
        self.application = application
        self._answers: Deque[bytes] = collections.deque()

    def pass_frame(self, frame: bytes) -> Optional[bytes]:
        room = ctypes.create_string_buffer(frame, len(frame))
        return room.raw if lib.ecat_segment_pass(self._handle, room, len(frame)) else None

    def serve(self, slave: int) -> bool:
        return lib.ecat_segment_serve(self._handle, slave)

    def get(self, slave: int, place: int) -> Optional[int]:
        byte = ctypes.c_uint8()
        return byte.value if lib.ecat_segment_get(self._handle, slave, place, ctypes.byref(byte)) else None

    def put(self, slave: int, place: int, byte: int) -> bool:
        return lib.ecat_segment_put(self._handle, slave, place, byte)

    def outputs(self, slave: int) -> bytes:
        return written(lib.ecat_segment_outputs, self._handle, slave)

    def set_inputs(self, slave: int, inputs: bytes) -> int:
        return lib.ecat_segment_inputs(self._handle, slave, inputs, len(inputs))

    def exchange(self, slave: int, inputs: bytes) -> bytes:
        """Makes a firmware step of a slave, writes its inputs, and returns its outputs."""
        room = ctypes.create_string_buffer(OUTPUTS)
        return ctypes.string_at(room, lib.ecat_segment_exchange(self._handle, slave, inputs, len(inputs), room, OUTPUTS))

    def fault(self, slave: int) -> bool:
        return lib.ecat_segment_fault(self._handle, slave)

    def reset(self, slave: int) -> bool:
        return lib.ecat_segment_reset(self._handle, slave)

    def step(self) -> None:
        """A firmware step of each slave, and one of its application."""
        slave = 0
        while self.serve(slave):
            inputs = self.application(slave, self.outputs(slave))
            self.set_inputs(slave, inputs.ljust(self.set_inputs(slave, b""), b"\0"))
            slave += 1

    def send(self, frame: bytes) -> None:
        """Passes a frame, which is received then, and makes a step."""
        if answer := self.pass_frame(frame):
            self._answers.append(answer)
        self.step()

    def receive(self) -> bytes:
        return self._answers.popleft() if self._answers else b""
