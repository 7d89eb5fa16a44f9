"""Both ends of a wire over UDP: `ecat segment` and `ecat master` of one program, and a proxy between them."""
import os
import pathlib
import re
import select
import socket
import subprocess
import threading

TOP = pathlib.Path(__file__).resolve().parent.parent.parent
TABLE = (TOP / "examples" / "three_slaves.toml").read_text()
HERE = "127.0.0.1"


class Wrong(Exception):
    """What isn't as it must be."""


def want(holds, text):
    if not holds:
        raise Wrong(text)


def udp(address=HERE, port=0):
    """A socket that waits two seconds for a datagram."""
    end = socket.socket(socket.AF_INET, socket.SOCK_DGRAM)
    end.bind((address, port))
    end.settimeout(2)
    return end


def free_port():
    with udp() as end:
        return end.getsockname()[1]


class Segment:
    """A segment of the three slaves, or of another table, that is started, and says on standard error where it listens."""

    def __init__(self, program, *words, frames=1000000, table=TABLE, port=None, **how):
        self.port = port or free_port()
        words = ["segment", "--frames", str(frames), "--port", str(self.port), *words]
        pipes = dict.fromkeys(("stdin", "stdout", "stderr"), subprocess.PIPE)
        self.process = subprocess.Popen([program, *words], text=True, **pipes, **how)
        self.process.stdin.write(table)
        self.process.stdin.close()
        self.process.stdin = None
        self.told = self.process.stderr.readline()

    def __enter__(self):
        return self

    def __exit__(self, *why):
        if self.process.poll() is None:
            self.process.kill()
        self.process.communicate()

    def end(self):
        """Its status, and what it printed, once it has ended."""
        printed, told = self.process.communicate(timeout=60)
        return self.process.returncode, printed, told


class Proxy:
    """Hands datagrams from masters to a segment's port, and what comes back to the master that sent last. `handle` gets each
    answer and returns the datagrams that go back in its place."""

    def __init__(self, port, handle=lambda answer: [answer]):
        self.inner, self.outer, self.handle = udp(), udp(), handle
        self.inner.connect((HERE, port))
        self.port = self.outer.getsockname()[1]
        self.asked, self.ends = 0, os.pipe()
        self.thread = threading.Thread(target=self.run)

    def __enter__(self):
        self.thread.start()
        return self

    def __exit__(self, *why):
        os.write(self.ends[1], b"x")
        self.thread.join()
        for end in (self.inner, self.outer):
            end.close()
        for end in self.ends:
            os.close(end)

    def run(self):
        master = None
        while True:
            ready, _, _ = select.select([self.inner, self.outer, self.ends[0]], [], [])
            if self.ends[0] in ready:
                return
            if self.outer in ready:
                datagram, master = self.outer.recvfrom(2000)
                self.asked += 1
                self.inner.send(datagram)
            if self.inner in ready:
                for datagram in self.handle(self.inner.recv(2000)):
                    self.outer.sendto(datagram, master)


def start_master(program, to, *words, table=TABLE):
    """A master of the three slaves, or of another table, with its table. The lines are written to its input."""
    words = ["master", "--to", to, *words]
    process = subprocess.Popen([program, *words], stdin=subprocess.PIPE, stdout=subprocess.PIPE, stderr=subprocess.PIPE, text=True)
    process.stdin.write(table + "%%\n")
    process.stdin.flush()
    return process


def ask(master, line, *wanted):
    """Has a master do a line, and wants what it prints of it."""
    master.stdin.write(f"{line}\n")
    master.stdin.flush()
    ready, _, _ = select.select([master.stdout] if wanted else [], [], [], 10 if wanted else 0)
    want(ready or not wanted, f"nothing is printed for `{line}`")
    printed = [master.stdout.readline().rstrip("\n") for _ in wanted]
    want(printed == [*wanted], f"for `{line}` it prints {printed}")


def run_master(program, to, lines, *words):
    """The status of a master that does these lines, and what it printed."""
    process = start_master(program, to, *words)
    printed, told = process.communicate("".join(f"{line}\n" for line in lines), timeout=60)
    return process.returncode, printed.splitlines(), told


def counts_of(printed):
    """How many payloads a segment says that it answered, and how many not."""
    found = re.fullmatch(r"served (\d+) refused (\d+)\n", printed)
    want(found, f"a segment printed {printed!r}")
    return int(found[1]), int(found[2])


def run_rows(name, rows, program):
    """Runs each row, and prints a line for each that isn't as it must be. The exit status."""
    wrong = 0
    for row in rows:
        try:
            row(program)
        except (Wrong, subprocess.TimeoutExpired, OSError) as why:
            wrong += 1
            print(f"{name}: {row.__doc__} {why}", flush=True)
    print(f"{name}: {len(rows) - wrong} of {len(rows)} rows hold")
    return 1 if wrong else 0
