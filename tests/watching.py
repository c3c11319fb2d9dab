"""watching: servers as processes, with what each tells and counts, and those that ask it, for the tests of what it tells and counts,
and of how it ends."""
import collections
import contextlib
import os
import pathlib
import re
import resource
import signal
import socket
import subprocess
import tempfile
import threading
import time
import unittest

import journals
import program
from serving import SECONDS, answer_of, free_port

PATH = program.find()[1]
ORDERS = ("serve", "host")
RELAY = "roles a b c ; a -> b : int . b -> c : int . end"
STREAM = "roles a b ; rec X . a -> b : int . X"
# an event: its level, its name, and words KEY=VALUE, where a value without blanks may do without quotes
VALUE = r'(?:[!#-\[\]-~]+|"(?:[ !#-\[\]-~]|\\["\\]|\\x[0-9a-fA-F]{2})*")'
EVENT = re.compile(rf"<([3567])>([a-z]+)((?: [a-z]+={VALUE})*)")
LEVELS = {"fault": "3", "lost": "3", "unserved": "3", "refused": "5", "line": "7", "answer": "7"}  # that of all others is 6
WHYS = ("closed", "silent", "lost", "ending", "fault")
SAMPLE = re.compile(r'([a-z_]+)((?:\{(?:[a-z]+="[^"\\]*",?)+\})?) ([0-9.eE+-]+|\+Inf|NaN)')
HEALTH = b"GET /health HTTP/1.1\r\nHost: localhost\r\n\r\n"


def until(what, holds, seconds=SECONDS):
    """Waits until that holds, and gives what it then is."""
    end = time.monotonic() + seconds
    while not (found := holds()):
        if time.monotonic() > end:
            raise AssertionError(f"not so after {seconds} s: {what() if callable(what) else what}")
        time.sleep(0.02)
    return found


def run(*words, **how):
    """How a command ends that has no input, with what it prints and tells."""
    return subprocess.run(words, stdin=subprocess.DEVNULL, capture_output=True, text=True, timeout=SECONDS, check=False, **how)


class Watched:
    """A server, by that order, with what it tells and counts. Its standard input is open until it is told to end, by the end of
    that, or, where it is started by ./mps, by SIGTERM."""

    def __init__(self, order, *options, protocol=RELAY, sessions=2, connections=None, is_counted=True, by_mps=False, limit=None,
                 environment=(), wrap=(), port=0, given=()):
        self.order, self.by_mps, self.told = order, by_mps, []
        self.file = tempfile.NamedTemporaryFile(suffix=".protocol")
        self.file.write(protocol.encode())
        self.file.flush()
        self.counts = free_port() if is_counted else None
        words = [*wrap, program.MPS if by_mps else PATH, order, self.file.name, "--port", str(port), *map(str, options)]
        words += ["--metrics", str(self.counts)] if is_counted else []
        if order == "serve":
            words += ["--sessions", str(sessions), *(["--connections", str(connections)] if connections else ["--endless"])]

        def bounds():
            """No file longer than so many bytes."""
            signal.signal(signal.SIGXFSZ, signal.SIG_IGN)
            resource.setrlimit(resource.RLIMIT_FSIZE, (limit, limit))

        pipes = dict.fromkeys(("stdin", "stdout", "stderr"), subprocess.PIPE)
        self.process = subprocess.Popen(words, text=True, start_new_session=True, preexec_fn=bounds if limit else None,
                                        env={**os.environ, **dict(environment)}, pass_fds=given, **pipes)
        self.reader = threading.Thread(target=self.read, daemon=True)
        self.reader.start()
        line = self.process.stdout.readline().split()
        self.port = int(line[1]) if line[:1] == ["listening"] else 0

    def read(self):
        """Keeps what it tells as it comes."""
        for line in self.process.stderr:
            self.told.append(line.rstrip("\n"))

    def __enter__(self):
        return self

    def __exit__(self, *_):
        with contextlib.suppress(ProcessLookupError):
            os.killpg(self.process.pid, signal.SIGKILL)
        for end in (self.process.stdin, self.process.stdout):
            end.close()
        self.process.wait()
        self.reader.join(SECONDS)
        self.process.stderr.close()
        self.file.close()

    def tell_to_end(self):
        """Has it drain."""
        if self.by_mps:
            self.process.send_signal(signal.SIGTERM)
        else:
            self.process.stdin.close()

    def kill(self):
        """Kills it; where it has a parent, first the program itself, which would drain once its parent is gone."""
        parent = self.process.pid
        children = pathlib.Path(f"/proc/{parent}/task/{parent}/children").read_text(encoding="ascii").split()
        for number in (*map(int, children), parent):
            os.kill(number, signal.SIGKILL)
        self.process.wait(SECONDS)

    def end(self):
        """What it prints at its end, and its status."""
        status = self.process.wait(SECONDS)  # what it prints fits into the pipe
        out = self.process.stdout.read()
        self.reader.join(SECONDS)
        return out, status

    def connect(self):
        return socket.create_connection(("127.0.0.1", self.port), timeout=SECONDS)

    def join(self, session, role):
        """A connection that joined, or was refused, and what it was told."""
        stream = self.connect()
        return stream, ask(stream, f"join {session} {role}")

    def counted(self):
        """What it counts: for each sample its number, and for each metric its kind."""
        with socket.create_connection(("127.0.0.1", self.counts), timeout=SECONDS) as stream:
            return read_metrics(http(stream, b"GET /metrics HTTP/1.1\r\nHost: localhost\r\n\r\n").body)

    def numbers(self, *names):
        """The numbers of these samples now."""
        samples = self.counted()[0]
        return tuple(samples.get(name) for name in names)

    def events(self):
        """What it told, without the end of those that it refused."""
        refused = {line.split()[1] for line in self.told if line.startswith("<5>refused connection=")}
        return [line for line in self.told if not (line.startswith("<6>ended ") and refused & set(line.split()))]


def ask(stream, line):
    """The answer to a line."""
    stream.sendall(line.encode() + b"\n")
    return answer_of(stream).decode().rstrip("\n")


class Response(collections.namedtuple("Response", "status heads body")):
    """An answer by HTTP."""


def http(stream, request, asked="GET"):
    """What a request is answered; nothing, where the connection ends before."""
    if request:
        stream.sendall(request)
    head = b""
    while not head.endswith(b"\r\n\r\n"):
        piece = stream.recv(1)
        if not piece:
            return None
        head += piece
    first, *lines = head.decode().split("\r\n")[:-2]
    heads = {name.lower(): value.strip() for name, _, value in (line.partition(":") for line in lines)}
    length, body = int(heads.get("content-length", -1)), b""
    while asked != "HEAD" and len(body) != length:
        piece = stream.recv(length - len(body) if length >= 0 else 65_536)
        if not piece:
            break
        body += piece
    return Response(int(re.fullmatch(r"HTTP/1\.[01] (\d\d\d) .*", first)[1]), heads, body.decode())


def read_metrics(text):
    """The samples of a text of Prometheus' form, and the kinds of the metrics. Each has its line TYPE before it, and stands
    once."""
    samples, kinds = {}, {}
    assert text.endswith("\n"), text[-100:]
    for line in text.splitlines():
        if line.startswith("# TYPE "):
            _, _, name, kind = line.split()
            assert name not in kinds, line
            kinds[name] = kind
        elif line and not line.startswith("# HELP "):
            found = SAMPLE.fullmatch(line)
            assert found, line
            name, labels, number = found.groups()
            assert name in kinds or re.sub("_(bucket|sum|count)$", "", name) in kinds, line
            assert name + labels not in samples, line
            samples[name + labels] = float(number)
    return samples, kinds


def labelled(samples, name):
    """Of a metric with the label `answer` the numbers that aren't 0."""
    return {answer: number for answer, number in all_labelled(samples, name).items() if number}


def all_labelled(samples, name):
    """Of a metric with the label `answer` the numbers."""
    begin, end = f'{name}{{answer="', '"}'
    return {key[len(begin):-len(end)]: number for key, number in samples.items() if key.startswith(begin)}


def health(port):
    """What /health says there; nothing, where nobody answers any more."""
    with contextlib.suppress(OSError):
        with socket.create_connection(("127.0.0.1", port), timeout=SECONDS) as stream:
            found = http(stream, HEALTH)
            return found and f"{found.status} {found.body.strip()}"
    return None


def flood(stream):
    """Sends questions, and reads no answer, until the connection ends or takes no more for a second."""
    stream.settimeout(1)
    with contextlib.suppress(OSError):
        while True:
            stream.sendall(b"show\n" * 1000)


@contextlib.contextmanager
def recorded(server, listener):
    """A client of a host that joined session 7 as a, the end of its recorder, here at the listener, and what comes there, when
    the client's first line, and that it be kept, came there."""
    mark = journals.marked(journals.first_seal(RELAY.encode(), 7))
    with server.connect() as stream:
        stream.sendall(b"join 7 a\n")
        recorder, _ = listener.accept()
        recorder.settimeout(SECONDS)
        with recorder, recorder.makefile("rb") as lines:
            assert lines.readline().startswith(b"open 7 ")
            recorder.sendall(b"journal 0\n")
            assert (lines.readline(), lines.readline()) == (mark, b"\n")
            recorder.sendall(b"kept %d\n" % len(mark))
            assert answer_of(stream) == b"joined 7 a\n"
            stream.sendall(b"1 send b 5\n")
            line = lines.readline()
            assert line.startswith(b"a 1 send b 5 ")
            assert lines.readline() == b"\n"
            yield stream, recorder, len(mark) + len(line)


class Case(unittest.TestCase):
    maxDiff = None

    def setUp(self):
        room = tempfile.TemporaryDirectory(prefix="mps-watched-")
        self.addCleanup(room.cleanup)
        self.room = pathlib.Path(room.name)

    def expect_events(self, server, *wanted):
        """It has told these events, in some order, and no others; each in its form and of its level."""
        with contextlib.suppress(AssertionError):
            until("", lambda: sorted(server.events()) == sorted(wanted), 20)
        self.assertEqual(sorted(server.events()), sorted(wanted))
        self.expect_forms(server)

    def expect_forms(self, server):
        """Each line that it told is an event of a known form."""
        for line in server.told:
            found = EVENT.fullmatch(line)
            self.assertTrue(found, line)
            self.assertEqual(found[1], LEVELS.get(found[2], "6"), line)
            if found[2] == "ended":
                self.assertIn(re.search(r" why=([a-z]+)$", line)[1], WHYS, line)
