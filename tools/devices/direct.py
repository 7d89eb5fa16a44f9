"""A bus to a plant without a socket between them."""
from __future__ import annotations

import pathlib
import sys

from plant import Plant

sys.path.append(str(pathlib.Path(__file__).resolve().parent.parent / "masters"))
from bus import Bus  # noqa: E402


class Direct(Bus):
    """The bus of tools/masters, whose frames go to a plant without a socket."""

    def __init__(self, plant: Plant) -> None:
        self.plant, self.number, self.frames, self.least, self.slaves, self.heading = plant, 0, 0, 0, None, b""
        self.socket = self
        self.came = b""

    def exchange(self, datagrams: list) -> list:
        self.waiting = True
        return super().exchange(datagrams)

    def send(self, *words: object) -> object:
        """A frame of the bus's, or a datagram alone, as `Bus.send`."""
        if len(words) == 1:
            self.came = self.plant.answer(words[0])
            return None
        return super().send(*words)

    def receive(self) -> bytes:
        return self.came
