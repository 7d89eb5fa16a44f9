#!/usr/bin/env python3
"""Makes the calls of the package for Python that the examples leave out, over slaves in the same process, and over UDP.

    calls.py TABLE

TABLE is examples/small_machine.toml. It ends with status 1 if a call returns something else than it must.
"""
import collections
import socket
import sys
import threading
import time

import ecat
from ecat.wires import UdpWire

PANEL, PRESS = 0, 1
# the place of a frame's second datagram, and commands there
ASKING, LWR, LRW = 24, 11, 12


def must(holds, what):
    if not holds:
        sys.exit(f"calls: not so: {what}")


def fails(table, slaves):
    """How a start-up over slaves fails."""
    with ecat.Master(table) as m, slaves:
        must(m.failure() is None, "a start-up that did not begin has not failed")
        try:
            m.bring_up(slaves)
        except ecat.Failed as failure:
            return failure
    sys.exit("calls: the start-up must fail")


def polls_among_outputs(real):
    """Slaves whose firmware stops as the first outputs come are polled for OP: each poll but the first is one, and no frame of outputs."""
    with ecat.Master(real) as m, ecat.Segment(real) as slaves:
        polls = outputs = 0
        while polls < 5 and (frame := m.next()):
            writes = frame[ASKING] in (LWR, LRW)
            outputs += writes
            must(not (writes and m.waits()), "a frame of outputs is no poll")
            polls += outputs > 0 and m.waits()
            must(m.take(slaves.pass_frame(frame)), "a frame is answered")
            if not outputs:
                slaves.step()
        must(polls == 5 and outputs >= 10, "frames of outputs come before each poll")


def rests_grow(real):
    """Two slaves let each request wait for 100 firmware steps, and one is made with each frame. So PREOP and SAFEOP are asked for 100 times
    again, and OP, before which both parts are fed, 33 times: 9 times at once, then up to the 100th time after 1 ms, then after 10."""
    slow, rests, sleep = real.replace("[[type]]\n", "[[type]]\nslow = 100\n"), collections.Counter(), time.sleep
    time.sleep = lambda seconds: rests.update([seconds])
    with ecat.Master(slow) as m, ecat.Segment(slow) as slaves:
        m.bring_up(slaves)
    time.sleep = sleep
    must(rests == {0: 4 * 9 + 2 * 9, 0.001: 4 * 90 + 2 * 24, 0.01: 4}, "the rests between polls grow")


def is_set(m, name, value):
    """Whether a variable takes a value."""
    try:
        m[name] = value
    except ValueError:
        return False
    return True


def runs_as_real(table):
    """The same machine of a table for hardware, in which one variable is signed."""
    real = "hardware = true\n" + table.replace('dir = "out"\nbits = 16\n', 'dir = "out"\nbits = 16\nsigned = true\n')
    polls_among_outputs(real)
    rests_grow(real)
    with ecat.Master(real) as m, ecat.Segment(real) as slaves:
        m.bring_up(slaves)
        m["force_wanted"] = -5
        for value, holds in ((-0x8000, True), (-0x8001, False), (0x10000, False)):
            must(is_set(m, "force_wanted", value) == holds, f"{value} is a value of 16 bits with a sign")
        must(not is_set(m, "valves", -1), "a variable without a sign has no negative values")
        m["force_wanted"] = -5
        must(m.cycle(slaves).taken and m["force_wanted"] == 65531 and m.signed("force_wanted") == -5, "a signed variable has a sign")
        must([v.name for v in m.variables() if v.is_signed] == ["force_wanted"], "and no other has")


def serve(end, table):
    """Serves slaves behind a socket, until an empty packet comes."""
    with ecat.Segment(table) as slaves:
        while (received := end.recvfrom(2048))[0]:
            slaves.send(received[0])
            end.sendto(slaves.receive(), received[1])


def runs_over_udp(table):
    """Slaves behind a socket come up, and a cycle is taken. Where nobody listens a start-up is lost, and no wait is cut short."""
    end = socket.socket(socket.AF_INET, socket.SOCK_DGRAM)
    end.bind(("127.0.0.1", 0))
    port, slaves = end.getsockname()[1], threading.Thread(target=serve, args=(end, table), daemon=True)
    slaves.start()
    with ecat.Master(table) as m, UdpWire("127.0.0.1", port) as wire:
        m.bring_up(wire)
        must(m.cycle(wire).taken, "a cycle over UDP is taken")
        wire.send(b"")
    slaves.join()
    end.close()
    begun = time.monotonic()
    with ecat.Master(table) as m, UdpWire("127.0.0.1", port, 0.1) as wire:
        try:
            m.bring_up(wire)
        except ecat.Failed as failure:
            must(failure.name == "Lost", "a start-up where nobody listens is lost")
        else:
            must(False, "nobody comes up where nobody listens")
    must(time.monotonic() - begun >= 0.1, "a wait lasts as long as it is asked to")


def refusals_have_names(opens):
    """What opens a table that is refused says the number, the name and the values of the refusal."""
    for text, wanted in (("[[", (11, "Toml", [])), ("b = 1", (12, "BadKey", [0, 0]))):
        try:
            opens(text)
        except ecat.Refused as refusal:
            seen = (refusal.number, refusal.name, refusal.values)
            must(seen == wanted, f"a table is refused as {wanted}, and not as {seen}")
        else:
            sys.exit("calls: the table must be refused")


def denied_before_start(table):
    """Slaves in INIT make firmware steps, and let nobody at their process data."""
    with ecat.Segment(table) as slaves:
        must(slaves.get(PRESS, 0) is None and not slaves.put(PRESS, 0, 1), "a slave in INIT denies its outputs and inputs")
        must(slaves.outputs(PRESS) == b"" and slaves.set_inputs(PRESS, bytes(4)) == 0, "and as a whole")
        must([slaves.serve(slave) for slave in (PANEL, PRESS, 2)] == [True, True, False], "two slaves are there")


def main():
    with open(sys.argv[1]) as file:
        table = file.read()
    for opens in (ecat.Master, ecat.Segment):
        refusals_have_names(opens)
    denied_before_start(table)
    failure = fails(table, ecat.Segment(""))
    must((failure.number, failure.name, failure.values) == (26, "Count", [0]) and "2" in failure.words, "no slave is there")
    failure = fails(table, ecat.Segment(table.replace("0x0302", "0x0303")))
    must((failure.number, failure.values[:3]) == (27, [PRESS, 0x5A5, 0x303]) and "press" in failure.words, "another device is there")
    with ecat.Master(table) as m, ecat.Segment(table) as slaves:
        must(m.slaves() == 2 and m.state(PANEL) is None and m.counters(0) == () and not m.waits(), "nothing is known at first")
        m.bring_up(slaves)
        must([m.read_state(slaves, slave) for slave in (PANEL, PRESS, 2)] == [ecat.State(8, 0), ecat.State(8, 0), None], "both slaves are in OP")
        must(m.cycle(slaves).taken and m.counters(0) == (3,) and m.counters(1) == (1, 1) and m.counters(2) == (), "the counters are those of the plan")
        names = [(v.name, v.bits, v.is_output, v.is_signed, v.bit) for v in m.variables()]
        must(names[1] == ("valves", 2, True, False, 1) and names[4] == ("force", 16, False, False, 8) and len(names) == 5, "the variables are those of the table")
        m["force_wanted"] = 65535
        must(m.signed("force_wanted") == 65535, "no variable has a sign")
        m.set_outputs(bytes([6, 0, 0]))
        m.cycle(slaves)
        must(slaves.outputs(PANEL) == bytes([6]) and slaves.outputs(2) == b"" and slaves.get(PANEL, 0) == 6, "the panel's outputs are read whole, and by bytes")
        must(slaves.set_inputs(PANEL, b"") == 1 and slaves.set_inputs(PANEL, bytes([5, 9])) == 1 and slaves.set_inputs(2, b"5") == 0, "its inputs are written whole")
        must(m.cycle(slaves).taken and m["switches"] == 5 and m.inputs() == bytes([5, 0, 0]), "and taken")
        must(slaves.exchange(PANEL, bytes([9])) == bytes([6]) and slaves.exchange(2, b"") == b"", "a step writes inputs, and reads outputs")
        must(m.cycle(slaves).taken and m["switches"] == 9, "which are taken")
        slaves.fault(PRESS)
        state = m.read_state(slaves, PRESS)
        must(state.word == 0x14 and state.code != 0 and m.state(PANEL) == ecat.State(8, 0), "the press is in SAFEOP, with an error")
    runs_as_real(table)
    runs_over_udp(table)
    print("the package's calls return what they must")


main()
