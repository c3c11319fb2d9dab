"""servers: the connections of servers, each for one session, in the thread that started the recorder."""
import collections
import contextlib
import os
import selectors
import socket
import time

from database import tell
from keeper import ELSEWHERE, LOST
from lines import LONGEST_LINE, LONGEST_OPEN, Unreadable, read_open

PIECE = 1 << 16  # bytes that are read at a time
MOST_BYTES = 1 << 26  # that a server sends before it asks whether they are kept
WAITING = 4096  # connections that may come at once
PAUSE = 1.0  # seconds until connections are taken again where the system had no room for one
READ, WRITE = selectors.EVENT_READ, selectors.EVENT_WRITE


class Server:
    """A server's connection. It asks for its session first; it has it once it was given the journal."""
    __slots__ = ("stream", "rest", "lines", "size", "answers", "session", "protocol", "has_session", "is_ending", "is_closed")

    def __init__(self, stream):
        self.stream, self.rest, self.answers = stream, b"", bytearray()
        self.lines, self.size = [], 0  # of the journal, about which it hasn't asked yet, and their bytes
        self.session = self.protocol = None
        self.has_session = self.is_ending = self.is_closed = False

    def split(self, piece):
        """The lines that end in what came."""
        *lines, self.rest = (self.rest + piece).split(b"\n")
        return lines

    def is_too_long(self):
        """Whether what came can't be what a server sends."""
        longest = LONGEST_OPEN if self.session is None else LONGEST_LINE
        return len(self.rest) > longest or self.size > MOST_BYTES

    def taken_lines(self):
        """The lines about which it asks now."""
        lines, self.lines, self.size = self.lines, [], 0
        return lines


class Answers:
    """Answers that the keeper has for servers, and whether PostgreSQL went away, until the servers' thread takes them."""

    def __init__(self):
        self.queue, self.bell = collections.deque(), os.eventfd(0, os.EFD_NONBLOCK | os.EFD_CLOEXEC)

    def put(self, server, answer, is_last):
        self.queue.append((server, answer, is_last))
        os.eventfd_write(self.bell, 1)

    def turn_away(self):
        """Has all servers turned away that ask for sessions."""
        self.put(None, ELSEWHERE, True)

    def take(self):
        """The answers that have come."""
        with contextlib.suppress(BlockingIOError):
            os.eventfd_read(self.bell)
        while self.queue:
            yield self.queue.popleft()


class Servers:
    """The servers that are connected, so many at most. `is_there` says whether PostgreSQL answers."""

    def __init__(self, listener, desk, answers, is_there, most):
        self.listener, self.desk, self.answers, self.is_there, self.most = listener, desk, answers, is_there, most
        self.count, self.opening = 0, set()
        self.selector = selectors.DefaultSelector()
        self.selector.register(answers.bell, READ)
        self.held = 0.0  # when connections were taken no more
        self.listen()

    def run(self):
        while True:
            if not self.is_listening and self.count < self.most and time.monotonic() > self.held + PAUSE:
                self.listen()
            for key, events in self.selector.select(None if self.is_listening else PAUSE):
                if key.fileobj is self.listener:
                    self.accept()
                elif key.data is None:
                    self.give_answers()
                else:
                    self.serve(key.data, events)

    def accept(self):
        """Takes a connection. Where there are as many as there may be, others wait until one ends."""
        try:
            stream, _ = self.listener.accept()
        except (BlockingIOError, ConnectionAbortedError):  # who came is gone
            return None
        except OSError as fault:
            return self.hold(fault.strerror)
        stream.setblocking(False)
        stream.setsockopt(socket.IPPROTO_TCP, socket.TCP_NODELAY, 1)
        self.selector.register(stream, READ, Server(stream))
        self.count += 1
        return self.hold(f"{self.count} are there (ulimit -n)") if self.count >= self.most else None

    def hold(self, why):
        """Takes no connections until one ends, or, where there may be more, for a moment."""
        tell(f"no more connections are taken: {why}")
        self.selector.unregister(self.listener)
        self.is_listening, self.held = False, time.monotonic()

    def listen(self):
        """Takes connections from now on."""
        self.selector.register(self.listener, READ)
        self.is_listening = True

    def serve(self, server, events):
        if events & WRITE and not server.is_closed:
            self.write(server)
        if events & READ and not server.is_closed:
            self.read(server)

    # --- What comes ---

    def read(self, server):
        """Reads what came."""
        try:
            piece = server.stream.recv(PIECE)
        except BlockingIOError:
            return
        except OSError:
            piece = b""
        try:
            for line in server.split(piece):
                self.obey(server, line)
            if server.is_too_long():
                raise Unreadable
        except Unreadable:
            self.answer(server, LOST if server.has_session else b"refused line\n", True)
        if not piece:
            self.close(server)

    def obey(self, server, line):
        """Does what a line asks."""
        if server.is_ending:
            return
        if server.session is None:
            self.begin(server, line)
        elif not server.has_session:
            raise Unreadable
        elif line:
            server.lines.append(line)
            server.size += len(line) + 1
        else:
            self.desk.put(self.desk.asked, (server, server.taken_lines()))

    def begin(self, server, line):
        """Does what a first line asks."""
        if line == b"status":
            return self.answer(server, b"ready\n" if self.is_there() else b"away\n", True)
        server.session, server.protocol = read_open(line)
        if not self.is_there():
            return self.answer(server, ELSEWHERE, True)
        self.opening.add(server)
        return self.desk.put(self.desk.opens, server)

    # --- What goes ---

    def give_answers(self):
        """Gives the keeper's answers to those whom they are for."""
        for server, answer, is_last in self.answers.take():
            if server is None:
                for waiting in list(self.opening):
                    self.answer(waiting, answer, is_last)
            elif not server.is_ending:
                server.has_session = True
                self.answer(server, answer, is_last)

    def answer(self, server, answer, is_last):
        """Answers a server, which may be the last that it hears."""
        self.opening.discard(server)
        server.answers += answer
        server.is_ending = server.is_ending or is_last
        self.write(server)

    def write(self, server):
        """Writes what the system takes now of a server's answers, and closes its connection after the last."""
        try:
            while server.answers and (count := server.stream.send(server.answers)):
                del server.answers[:count]
        except BlockingIOError:
            self.selector.modify(server.stream, READ | WRITE, server)
            return
        except OSError:
            server.is_ending = True
        if server.is_ending:
            self.close(server)
        else:
            self.selector.modify(server.stream, READ, server)

    def close(self, server):
        """Ends a connection. The keeper lets go of its session."""
        if server.is_closed:
            return
        server.is_ending = server.is_closed = True
        self.opening.discard(server)
        self.selector.unregister(server.stream)
        server.stream.close()
        self.count -= 1
        if server.session is not None:
            self.desk.put(self.desk.gone, server)
        if not self.is_listening:
            self.listen()
