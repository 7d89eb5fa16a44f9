#!/usr/bin/env python3
"""The slaves of a table, whose answers are dropped, held back or doubled on their way, among frames that nobody sent.

    disturb.py TABLE PORT|INTERFACE EACH

They answer on a UDP port of 127.0.0.1, or on a network card. Of the cyclic frames, each EACHth answer is spoilt, by turns dropped and
held back until the next frame came; it comes before that one's answer. Each fifth answer comes twice. A foreign frame comes before
each answer: in turn bytes that are no frame, a frame without datagrams' data, and the answer before last once more.
"""
import socket
import struct
import sys

import ecat

LRD, LWR, LRW = 10, 11, 12
ETHER_TYPE = 0x88A4
OTHERS = b"\x02\x00\x00\x45\x43\x02"


def is_cyclic(frame):
    """Whether a datagram of a frame is a logical one."""
    at = 2
    while at + 12 <= len(frame):
        length = struct.unpack_from("<H", frame, at + 6)[0]
        if frame[at] in (LRD, LWR, LRW):
            return True
        at += 12 + (length & 0x7FF)
        if not length >> 15:
            break
    return False


class Disturbed:
    """What becomes of the answers to frames."""

    def __init__(self, slaves, each):
        self.slaves, self.each, self.count, self.cyclic = slaves, each, 0, 0
        self.held, self.old = [], [b"", b""]

    def answers(self, frame):
        """The payloads that come back for a frame, in order."""
        self.slaves.send(frame)
        answer = self.slaves.receive()
        self.count, self.cyclic = self.count + 1, self.cyclic + is_cyclic(frame)
        foreign = [b"\x00" * 7, b"\x0e\x10" + bytes(14), self.old[0] or b"-"][self.count % 3]
        is_spoilt = is_cyclic(frame) and self.cyclic % self.each == 0
        is_held = self.cyclic // self.each % 2 == 0
        came = [*self.held, foreign] + ([] if is_spoilt else [answer] * (1 + (self.count % 5 == 0)))
        self.held, self.old = [answer] if is_spoilt and is_held else [], [self.old[1], answer]
        return came


def serve_udp(port, disturbed):
    wire = socket.socket(socket.AF_INET, socket.SOCK_DGRAM)
    wire.bind(("127.0.0.1", port))
    print("listening", flush=True)
    while True:
        frame, peer = wire.recvfrom(1500)
        for answer in disturbed.answers(frame):
            wire.sendto(answer, peer)


def serve_card(interface, disturbed):
    """A frame comes back as from a segment: from another address."""
    card = socket.socket(socket.AF_PACKET, socket.SOCK_RAW, 0)
    card.bind((interface, ETHER_TYPE))
    print("listening", flush=True)
    while True:
        frame, address = card.recvfrom(1514)
        if address[2] != socket.PACKET_OUTGOING:
            for answer in disturbed.answers(frame[14:]):
                card.send((frame[:6] + OTHERS + frame[12:14] + answer).ljust(60, b"\x00"))


def main():
    table, place, each = sys.argv[1:4]
    with open(table) as file, ecat.Segment(file.read()) as slaves:
        disturbed = Disturbed(slaves, int(each))
        if place.isdigit():
            serve_udp(int(place), disturbed)
        else:
            serve_card(place, disturbed)


main()
