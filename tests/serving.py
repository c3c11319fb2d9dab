"""serving: servers and clients as processes, for the tests that start some. Each process has a time, after which it is
killed with all that it started."""
import os
import pathlib
import shutil
import signal
import socket
import struct
import subprocess
import threading
import time

HOME = pathlib.Path(__file__).resolve().parent.parent
CLIENTS = HOME / "examples" / "clients"
RELAY = HOME / "examples" / "relay.protocol"
SECONDS = 60
faults = []


def expect(what, found, wanted):
    """Notes what differs."""
    if found != wanted:
        faults.append(f"{what}: wanted {wanted!r}, found {found!r}")


class Started(subprocess.Popen):
    """A process in a group of its own, which is killed when its time is up or nobody needs it any more."""

    def __init__(self, words, seconds=SECONDS, **pipes):
        super().__init__(words, text=True, start_new_session=True, **pipes)
        self.clock = threading.Timer(seconds, self.end)
        self.clock.start()

    def end(self):
        try:
            os.killpg(self.pid, signal.SIGKILL)
        except ProcessLookupError:
            pass

    def __exit__(self, *told):
        self.clock.cancel()
        self.end()
        super().__exit__(*told)


class Server:
    """The program, as it serves a protocol, to so many connections or without a limit."""

    def __init__(self, path, sessions, connections=None, wrap=(), protocol=RELAY, port=0, more=()):
        words = ["serve", str(protocol), "--port", str(port), "--sessions", str(sessions), *more]
        words += ["--endless"] if connections is None else ["--connections", str(connections)]
        self.process = Started([*wrap, path, *words], stdin=subprocess.DEVNULL, stdout=subprocess.PIPE, stderr=subprocess.PIPE)
        line = self.process.stdout.readline().split()
        self.port = int(line[1]) if line[:1] == ["listening"] else 0

    def __enter__(self):
        return self

    def __exit__(self, *told):
        self.process.__exit__(*told)

    def connect(self):
        return socket.create_connection(("127.0.0.1", self.port), timeout=SECONDS)

    def ask(self, text):
        """What a connection that sends this, and no more, is answered."""
        with self.connect() as stream:
            stream.sendall(text)
            stream.shutdown(socket.SHUT_WR)
            return rest_of(stream)

    def client(self, words, text=""):
        """What a client with these words prints."""
        return printed([str(CLIENTS / words[0]), str(self.port), *words[1:]], text)

    def end(self, wanted, told="", status=0):
        """Uses up the connections that are left, and compares what is printed then, what is told and the status."""
        until = time.time() + SECONDS
        while self.process.poll() is None and time.time() < until:
            try:
                self.connect().close()
            except OSError:
                break
            time.sleep(0.01)
        try:
            found = self.process.communicate(timeout=SECONDS)
        except subprocess.TimeoutExpired:
            found = "it goes on\n", ""
        expect("the end of a server", (*found, self.process.returncode), (wanted, told, status))


def printed(words, text="", **how):
    """What a process prints that is given this text."""
    with Started(words, stdin=subprocess.PIPE, stdout=subprocess.PIPE, **how) as process:
        return process.communicate(text)[0]


def reset(stream):
    """Closes the stream as a connection that breaks."""
    stream.setsockopt(socket.SOL_SOCKET, socket.SO_LINGER, struct.pack("ii", 1, 0))
    stream.close()


def rest_of(stream):
    """All that comes until the end."""
    answers = b""
    while piece := stream.recv(4096):
        answers += piece
    return answers


def answer_of(stream):
    """What comes up to an LF."""
    answer = b""
    while not answer.endswith(b"\n"):
        byte = stream.recv(1)
        if not byte:
            break
        answer += byte
    return answer


def free_port():
    """A port that nobody has just now."""
    with socket.create_server(("127.0.0.1", 0)) as taken:
        return taken.getsockname()[1]


def rest_of(stream):
    """All that comes until the end."""
    answers = b""
    try:
        while piece := stream.recv(65_536):
            answers += piece
    except OSError:
        pass
    return answers


def is_traced():
    """Whether strace is here and may trace."""
    return shutil.which("strace") is not None and subprocess.run(
        ("strace", "-f", "-o", os.devnull, "true"), stderr=subprocess.DEVNULL, check=False).returncode == 0
