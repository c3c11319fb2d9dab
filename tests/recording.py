"""recording: a recorder as a process, and servers that speak to it, for the tests of the recorder."""
import contextlib
import pathlib
import select
import socket
import subprocess
import time

import journals
import program
from serving import faults

RECORDER = [program.MPS, "recorder"]
PROTOCOL = b"roles a b ; rec X . a -> b : int . b -> a : int . X"
SECONDS = 60  # that a busy machine is given
ROOMS = "/tmp"  # where folders of PostgreSQLs are made: the path of a socket has 107 bytes at most


def until(what, holds, seconds=SECONDS):
    """Waits until that holds. Whether it did."""
    end = time.monotonic() + seconds
    while not holds():
        if time.monotonic() > end:
            faults.append(f"{what}: not so after {seconds} s")
            return False
        time.sleep(0.02)
    return True


class Recorder:
    """A recorder of these databases, which tells what it has to say in a file."""

    def __init__(self, room, databases, *options, port=0, wrap=()):
        self.log = pathlib.Path(room) / f"recorder.{time.monotonic_ns()}.log"
        words = [*wrap, *RECORDER, "--port", str(port), *options]
        for database in databases:
            words += ["--database", database]
        with open(self.log, "wb") as log:
            self.process = subprocess.Popen(words, stdin=subprocess.DEVNULL, stdout=subprocess.PIPE, stderr=log, text=True)
        line = self.process.stdout.readline().split()
        self.port = int(line[1]) if line[:1] == ["listening"] else 0

    def __enter__(self):
        until("a recorder that is ready", lambda: self.status() == b"ready\n")
        return self

    def __exit__(self, *_):
        self.close()

    def close(self):
        """Ends it at once."""
        self.process.kill()
        self.process.wait()
        self.process.stdout.close()

    def told(self):
        """What it said so far."""
        return self.log.read_text(encoding="utf-8")

    def status(self):
        """What a balancer is told."""
        return ask(self.port, b"status\n")


def ask(port, text, seconds=SECONDS):
    """All that a connection is answered that sends this."""
    with socket.create_connection(("127.0.0.1", port), timeout=seconds) as stream:
        stream.sendall(text)
        found = b""
        with contextlib.suppress(ConnectionError):
            while piece := stream.recv(1 << 16):
                found += piece
        return found


class Served:
    """A session as a server has it: a connection to its recorder, and the bytes of its journal."""

    def __init__(self, recorder, session, protocol=PROTOCOL):
        self.session, self.protocol = session, protocol
        self.stream = socket.create_connection(("127.0.0.1", recorder.port), timeout=SECONDS)
        self.stream.setsockopt(socket.IPPROTO_TCP, socket.TCP_NODELAY, 1)
        self.file = self.stream.makefile("rb")
        self.send(b"open %d %s\n" % (session, protocol))
        self.answer = self.line()
        self.journal = b""
        if self.answer.startswith(b"journal "):
            self.journal = self.file.read(int(self.answer.split()[1]))
        self.read = journals.read(self.journal, journals.first_seal(protocol, session))
        self.seal = self.read.seal

    def __enter__(self):
        return self

    def __exit__(self, *_):
        self.close()

    def close(self):
        self.file.close()
        self.stream.close()

    def send(self, data):
        with contextlib.suppress(ConnectionError):
            self.stream.sendall(data)

    def line(self):
        """The next line of the recorder; what came of it, where the connection ends."""
        with contextlib.suppress(ConnectionError):
            return self.file.readline()
        return b""

    def write(self, *lines):
        """Sends these lines of the journal, after the mark where none is there yet."""
        data = b""
        for line in (lines if self.journal else (b"", *lines)):
            data += journals.sealed(self.seal, [line])
            self.seal = journals.next_seal(self.seal, line)
        self.journal += data
        self.send(data)

    def is_kept(self, *lines):
        """What the recorder says to these lines, and to the question whether they are kept."""
        self.write(*lines)
        self.send(b"\n")
        return self.line()

    def kept(self):
        """What it says where they are."""
        return b"kept %d\n" % len(self.journal)

    def waits(self, seconds=0.5):
        """Whether no answer comes in so many seconds."""
        return not select.select([self.stream], [], [], seconds)[0]


def opened(recorder, session, protocol=PROTOCOL, seconds=SECONDS):
    """The session, once the recorder gives it."""
    end = time.monotonic() + seconds
    while True:
        found = Served(recorder, session, protocol)
        if found.answer.startswith(b"journal ") or time.monotonic() > end:
            return found
        found.close()
        time.sleep(0.05)
