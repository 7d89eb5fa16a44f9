"""Wires over sockets, for `bring_up` and `cycle` of a `Master`: UDP packets, and the frames of a network card."""
from __future__ import annotations

import socket
import time
from typing import TypeVar

# the most bytes of a packet
PACKET = 1514
# the EtherType of EtherCAT, and the Ethernet header of a frame: to all, from this master
ETHER_TYPE = 0x88A4
HEADING = b"\xff" * 6 + b"\x00\x00\x00\x45\x43\x01" + ETHER_TYPE.to_bytes(2, "big")
# the least bytes of an Ethernet frame, without its checksum
LEAST = 60
Opened = TypeVar("Opened", bound="SocketWire")


class SocketWire:
    """A wire over a socket. `receive` waits until `patience` seconds after the last frame that was sent."""

    def __init__(self, opened: socket.socket, patience: float) -> None:
        self.socket, self.patience, self._end = opened, patience, 0.0

    def send(self, frame: bytes) -> None:
        """Sends a frame. One that can't be sent is lost."""
        try:
            self.socket.send(self.packet_of(frame))
        except OSError:
            pass
        self._end = time.monotonic() + self.patience

    def receive(self) -> bytes:
        """The next payload, or nothing if none came in time."""
        while True:
            left = self._end - time.monotonic()
            self.socket.settimeout(max(left, 0.000001))
            try:
                payload = self.payload_of(self.socket.recv(PACKET))
            except OSError:
                payload = b""
            if payload or left <= 0:
                return payload

    def close(self) -> None:
        self.socket.close()

    def __enter__(self: Opened) -> Opened:
        return self

    def __exit__(self, *_: object) -> None:
        self.close()

    def packet_of(self, frame: bytes) -> bytes:
        """What carries a frame."""
        return frame

    def payload_of(self, packet: bytes) -> bytes:
        """What a packet carries, or nothing if it isn't for this master."""
        return packet


class UdpWire(SocketWire):
    """Frames as UDP packets to an IPv4 address or a host (EtherCAT has port 34980), as `ecat segment` takes them."""

    def __init__(self, address: str, port: int = 34980, patience: float = 0.5) -> None:
        opened = socket.socket(socket.AF_INET, socket.SOCK_DGRAM)
        opened.connect((address, port))
        super().__init__(opened, patience)


class CardWire(SocketWire):
    """The frames of a network card. It needs the right to open raw sockets (CAP_NET_RAW)."""

    def __init__(self, interface: str, patience: float = 0.5) -> None:
        opened = socket.socket(socket.AF_PACKET, socket.SOCK_RAW, 0)
        opened.bind((interface, ETHER_TYPE))
        super().__init__(opened, patience)

    def packet_of(self, frame: bytes) -> bytes:
        return (HEADING + frame).ljust(LEAST, b"\0")

    def payload_of(self, packet: bytes) -> bytes:
        is_answer = packet[12:14] == HEADING[12:] and packet[6:12] != HEADING[6:12]
        return packet[14:] if is_answer else b""
