"""Cycles of `ecat master` over a wire that lies, each judged by the payloads that the master got.

The wire stands between the master and `ecat segment`. It lets the start-up pass. In a cycle it gives the master what there is: answers
with other process data, tampered with or not, answers of other parts and of earlier cycles, frames that came to no slave, and bytes.
"""
import collections
import os
import select
import time

from ends import HERE, TABLE, Wrong, start_master, udp, want
from frames import fault_of, read, word
from payloads import mostly, random_payload, tampered

# where the AL status and the working counter of a cycle's second datagram stand: behind the header, the datagram that names the
# frame, and ten bytes; where the first process data are, and how far it is from the end of these to the next
STATUS, BROADCAST, PROCESS, BETWEEN = 34, 36, 48, 12
SLAVES = 3
# a master waits so many milliseconds for the answers of a cycle, and this tool so many seconds
PATIENCE, LIMIT = 500, 20
# so many answers of earlier cycles are remembered
MEMORY = 48

# a part is a frame of a cycle: its sync unit, its bytes of process data, and the working counters of its LRW, or of LWR and LRD
Part = collections.namedtuple("Part", "unit bytes counters")
# of each variable the part, its first bit in the process data, and its bits
Machine = collections.namedtuple("Machine", "name table version parts outputs inputs")
OUTPUTS, INPUTS = {"a": (0, 0, 4), "b": (0, 8, 12)}, {"c": (0, 4, 4), "d": (0, 8, 16)}
MACHINES = (
    Machine("three slaves", TABLE, 1, [Part(0, 3, (6,))], OUTPUTS, INPUTS),
    Machine("a slave without LRW", TABLE.replace("[[0x7000, 1, 4]] } ]", "[[0x7000, 1, 4]] } ]\nlrw = false"), 1, [Part(0, 3, (2, 2))], OUTPUTS, INPUTS),
    Machine("two sync units", "version = 2\n" + TABLE.replace('type = "di4"', 'type = "di4"\nunit = 1'), 2, [Part(0, 3, (5,)), Part(1, 1, (1,))],
            {"a": (0, 0, 4), "b": (0, 4, 12)}, {"c": (1, 0, 4), "d": (0, 4, 16)}),
)


def number(data, first, bits):
    """The number of so many bits of some bytes."""
    return int.from_bytes(data, "little") >> first & (1 << bits) - 1


def is_answer(payload, sent):
    """Whether a payload answers a frame, whatever the slaves made of it: datagrams with the same commands, indices and lengths, the
    first with the same data, and those behind the second with the same addresses."""
    wanted, (places, fault) = read(sent)[0], read(payload)
    if fault or places != wanted:
        return False
    same = all(payload[at : at + 2] == sent[at : at + 2] for at, _ in places)
    first = payload[12 : places[0][1] - 2] == sent[12 : places[0][1] - 2]
    return same and first and all(payload[at + 2 : at + 6] == sent[at + 2 : at + 6] for at, _ in places[2:])


def inputs_at(part):
    """Where the inputs of a part stand in its answer: in the data of its last datagram."""
    return PROCESS + (len(part.counters) - 1) * (part.bytes + BETWEEN)


def counters_in(part, answer):
    """The working counters of a part's process data in its answer."""
    return tuple(word(answer, PROCESS + part.bytes + place * (part.bytes + BETWEEN)) for place in range(len(part.counters)))


class Cycle:
    """A cycle's frames as they were sent, what the slaves made of them, and what the master must have kept of each."""

    def __init__(self, sent, answers):
        self.sent, self.answers, self.kept, self.is_over = sent, answers, [None] * len(sent), False

    def is_open(self):
        """Whether the master waits for more: it lacks an answer, and its patience isn't over."""
        return None in self.kept and not self.is_over

    def take(self, payload):
        """The master gets a payload. It keeps one that answers a frame which has no answer yet."""
        for place, sent in enumerate(self.sent):
            if self.kept[place] is None and is_answer(payload, sent):
                self.kept[place] = payload


class Judge:
    """What a master must print, by the answers that it kept."""

    def __init__(self, machine):
        self.machine, self.taken, self.untaken, self.missing = machine, 0, 0, 0
        self.inputs = dict.fromkeys(machine.inputs, 0)

    def is_good(self, place, kept):
        """Whether a part came back whole and good: all slaves counted."""
        part, answer = self.machine.parts[place], kept[place]
        return answer is not None and word(answer, BROADCAST) == SLAVES and counters_in(part, answer) == part.counters

    def report(self, kept):
        """The line of a closed cycle. The inputs of each unit all of whose parts are good become what came back."""
        parts, taken = self.machine.parts, {}
        for place, part in enumerate(parts):
            taken[part.unit] = taken.get(part.unit, True) and self.is_good(place, kept)
        for name, (place, first, bits) in self.machine.inputs.items():
            if taken[parts[place].unit]:
                self.inputs[name] = number(kept[place], 8 * inputs_at(parts[place]) + first, bits)
        self.taken += sum(taken.values())
        self.untaken += len(taken) - sum(taken.values())
        self.missing += kept.count(None)
        words = {unit: "taken" if is_taken else "untaken" for unit, is_taken in sorted(taken.items())}
        units = "".join(f" {unit} {said}" if self.machine.version == 2 else f" {said}" for unit, said in words.items())
        counters = ["-" if answer is None else "/".join(map(str, counters_in(part, answer))) for part, answer in zip(parts, kept)]
        status = 0
        for answer in kept:
            status |= 0 if answer is None else word(answer, STATUS)
        return f"report{units} missing {kept.count(None)} counters {' '.join(counters)} al {status:04x}"

    def shown(self):
        """The lines of the inputs."""
        return [f"{name} {value}" for name, value in self.inputs.items()]


class Liar:
    """What a master gets in a cycle, from a source of random numbers."""

    def __init__(self, random):
        self.random, self.old = random, []

    def plant(self, machine, answers):
        """The answers with process data at random, as slaves with other inputs make them. They are remembered."""
        made = []
        for part, answer in zip(machine.parts, answers):
            at = inputs_at(part)
            made.append(answer[:at] + self.random.randbytes(part.bytes) + answer[at + part.bytes :])
        self.old = [*made, *self.old][:MEMORY]
        return made

    def raised(self, payload, place):
        """A payload with a byte that is one higher."""
        return payload[:place] + bytes([(payload[place] + 1) % 256]) + payload[place + 1 :]

    def resized(self, payload):
        """A frame whose last datagram has a byte more or less."""
        at, behind = read(payload)[0][-1]
        more = self.random.choice((1, -1))
        data = payload[at + 10 : behind - 2] + b"\0" if more == 1 else payload[at + 10 : behind - 3]
        header, length = word(payload, 0) + more, word(payload, at + 6) + more
        return b"".join((header.to_bytes(2, "little"), payload[2 : at + 6], length.to_bytes(2, "little"), payload[at + 8 : at + 10], data, payload[behind - 2 :]))

    def lie(self, cycle):
        """A payload that is no answer as the slaves made it: tampered with, with a working counter that is one too high, with another
        index or length, of an earlier cycle, a frame that came to no slave, or anything."""
        answer, way = self.random.choice(cycle.answers), self.random.randrange(9)
        if way < 2:
            return tampered(self.random, answer)
        if way == 2:
            return self.raised(answer, mostly(self.random, 0.5, BROADCAST, len(answer) - 2))
        if way == 3:
            return self.raised(answer, 3)
        if way < 6:
            return self.random.choice(self.old)
        if way == 6:
            return self.resized(answer)
        return self.random.choice(cycle.sent) if way == 7 else random_payload(self.random)

    def foreign(self, cycle):
        """A payload that answers no frame of a cycle: with another index, of an earlier cycle, or anything."""
        earlier, way = self.random.choice(self.old[len(cycle.answers) :] or [b""]), self.random.randrange(3)
        return self.raised(self.random.choice(cycle.answers), 3) if way == 0 else earlier if way == 1 else random_payload(self.random)

    def next(self, cycle, lost):
        """What comes next: mostly an answer. The answer of a part that is lost doesn't come."""
        if lost is None:
            return self.random.choice(cycle.answers) if self.random.randrange(5) < 3 else self.lie(cycle)
        others = cycle.answers[:lost] + cycle.answers[lost + 1 :]
        return self.foreign(cycle) if self.random.randrange(10) or not others else self.random.choice(others)


class Line:
    """A master behind a wire that lies to it, in front of a segment."""

    def __init__(self, program, segment, machine, random):
        self.machine, self.random, self.liar, self.judge = machine, random, Liar(random), Judge(machine)
        self.inner, self.outer = udp(), udp()
        self.inner.connect((HERE, segment.port))
        self.address = self.outer.getsockname()
        self.master = start_master(program, f"{HERE}:{self.address[1]}", "--patience", str(PATIENCE), table=machine.table)
        # bytes that the master printed and nobody read, payloads that it didn't take yet, its last report, and faults of its wire
        self.printed, self.waiting, self.last, self.faults = b"", [], None, 0

    def __enter__(self):
        return self

    def __exit__(self, *why):
        if self.master.poll() is None:
            self.master.kill()
        self.master.communicate()
        self.inner.close()
        self.outer.close()

    def tell(self, *lines):
        self.master.stdin.write("".join(f"{line}\n" for line in lines))
        self.master.stdin.flush()

    def wait(self, count):
        """Waits until the master has printed so many lines."""
        ends = time.monotonic() + LIMIT
        while self.printed.count(b"\n") < count:
            ready, _, _ = select.select([self.master.stdout], [], [], max(0, ends - time.monotonic()))
            more = os.read(self.master.stdout.fileno(), 65536) if ready else b""
            want(more, f"wanted {count} lines, and the master printed {self.printed}")
            self.printed += more

    def read(self, count):
        """So many lines that the master prints."""
        self.wait(count)
        *lines, self.printed = self.printed.split(b"\n", count)
        return [line.decode() for line in lines]

    def frame(self):
        """The frame that the master sends next, and what the slaves make of it."""
        try:
            sent, self.peer = self.outer.recvfrom(2000)
        except TimeoutError:
            raise Wrong(f"the master sends no frame, and printed {self.printed}") from None
        self.inner.send(sent)
        came = self.inner.recv(2000)
        fault = fault_of(sent, came, SLAVES)
        want(not fault, f"{fault}; sent {sent.hex()}, came {came.hex()}")
        return sent, came

    def start(self):
        """Lets the start-up pass."""
        self.tell("ready")
        while not self.printed and self.master.poll() is None:
            ready, _, _ = select.select([self.outer, self.master.stdout], [], [], LIMIT)
            if self.outer in ready:
                self.outer.sendto(self.frame()[1], self.peer)
            else:
                want(self.read(1) == ["ready"], "the slaves don't come up")
                return
        raise Wrong("the master ended")

    def set_outputs(self):
        """Sets the outputs to random numbers, and returns these."""
        values = {name: self.random.getrandbits(bits) for name, (_, _, bits) in self.machine.outputs.items()}
        self.tell(*(f"set {name} {value}" for name, value in values.items()), "cycle", "report", "show")
        return values

    def begin(self):
        """A cycle begins: the master sends the frame of each part with the outputs that were set, and the slaves answer."""
        values = self.set_outputs()
        sent, answers = zip(*(self.frame() for _ in self.machine.parts))
        for name, (place, first, bits) in self.machine.outputs.items():
            came = number(sent[place], 8 * PROCESS + first, bits)
            want(came == values[name], f"wanted {name} {values[name]} in {sent[place].hex()}, came {came}")
        cycle = Cycle(sent, self.liar.plant(self.machine, answers))
        while self.waiting and cycle.is_open():
            cycle.take(self.waiting.pop(0))
        return cycle

    def give(self, cycle, payload):
        """Sends a payload to the master, which takes it at once unless it has closed its cycle."""
        self.outer.sendto(payload, self.peer)
        if cycle.is_open():
            cycle.take(payload)
        else:
            self.waiting.append(payload)

    def expire(self, cycle):
        """The master's patience is over: it has printed its report."""
        if cycle.is_open():
            self.wait(1)
            cycle.is_over = True

    def lie(self):
        """A cycle with lies up to its end; then a few payloads may come too late. In some the answer of a part doesn't come, or comes as
        the last before the master's patience is over."""
        cycle, lost = self.begin(), mostly(self.random, 0.95, None, self.random.randrange(len(self.machine.parts)))
        left = self.random.randrange(80)
        while cycle.is_open() and (lost is None or left):
            self.give(cycle, self.liar.next(cycle, lost))
            left -= 1
        if lost is not None and self.random.randrange(2):
            self.give(cycle, cycle.answers[lost])
        self.expire(cycle)
        for _ in range(mostly(self.random, 0.8, 0, self.random.randint(1, 3))):
            self.give(cycle, self.liar.next(cycle, None))
        self.last = self.judge.report(cycle.kept)
        return self.last

    def fall_silent(self):
        """A cycle with a few lies, and then nothing."""
        cycle = self.begin()
        for _ in range(self.random.randrange(4)):
            if cycle.is_open():
                self.give(cycle, self.liar.lie(cycle))
        self.expire(cycle)
        self.last = self.judge.report(cycle.kept)
        return self.last

    def leave(self):
        """A cycle while nobody is there: the system refuses what the master sends, and says so at once."""
        self.outer.close()
        self.set_outputs()
        self.wait(1)
        # a refusal may come behind the one that ended the cycle
        time.sleep(0.01)
        self.outer = udp(*self.address)
        return self.fault()

    def fault(self):
        self.faults += 1
        return "fault 37 Wire"

    def cycle(self, number):
        """Runs a cycle, and compares what the master prints."""
        way = self.random.randrange(300) if number else 299
        if way < 6 and not self.waiting:
            said = self.leave()
        else:
            said = self.fall_silent() if way == 6 else self.lie()
        wanted = [said, self.last, *self.judge.shown()]
        came = self.read(len(wanted))
        want(came == wanted, f"cycle {number}: wanted {wanted}, came {came}")
