"""recorder_scripted: the host beside a recorder of the test's own, which answers what it likes, as docs/FORMATS.md has it.

What the host says to it, byte for byte; that a client is answered only once the recorder said `kept`, with the right number, also at
a join; what comes of a session that is lost, refused, cut short, or not reached; and that no two questions are asked at once. It needs
no PostgreSQL."""
import contextlib
import select
import socket
import subprocess
import threading
import time

import journals
import program
from recording import PROTOCOL, SECONDS
from serving import Started, expect, reset

ROLES = b"abcdefgh"
CROWDED = b"roles a b c d e f g h ; " + b" . ".join(b"%c -> %c : int" % pair for pair in zip(ROLES, ROLES[1:])) + b" . end"
SEND, LINE = b"1 send b 5\n", b"a 1 send b 5"
JOIN = b"join 7 a\n"
JOINED = b"joined 7 a\n"
FIRST = journals.first_seal(PROTOCOL, 7)
MARK, JOURNAL = journals.marked(FIRST), journals.marked(FIRST, [LINE])
TOGETHER = 3  # seconds in which clients join and send at once
PAUSE = 0.003  # seconds that a recorder takes for an answer then


class Differs(Exception):
    """The host did something else, so that the rest of a check has no sense."""


def same(what, found, wanted):
    """Notes what differs, and ends the check then."""
    expect(what, found, wanted)
    if found != wanted:
        raise Differs


class End:
    """An end of a connection: of a client to the host, or of a recorder to it."""

    def __init__(self, stream):
        stream.settimeout(SECONDS)
        stream.setsockopt(socket.IPPROTO_TCP, socket.TCP_NODELAY, 1)
        self.stream, self.file = stream, stream.makefile("rb")

    def close(self):
        """Ends the connection."""
        self.file.close()
        self.stream.close()

    def say(self, data):
        """Sends this."""
        with contextlib.suppress(ConnectionError):
            self.stream.sendall(data)

    def line(self):
        """The next line; nothing at the end, and no line where none comes in time."""
        try:
            return self.file.readline()
        except TimeoutError:
            return b"silence"
        except OSError:
            return b""

    def is_silent(self, seconds=0.3):
        """Whether nothing comes in so many seconds."""
        return not select.select([self.stream], [], [], seconds)[0]


class Stage:
    """A host, what it told, and the port that is its recorder's, where the test takes its connections."""

    def __init__(self, room, protocol=PROTOCOL, port=0, more=()):
        self.ends, self.heard = contextlib.ExitStack(), 0
        (room / "scripted.protocol").write_bytes(protocol)
        self.log = room / f"host.{time.monotonic_ns()}.log"
        self.listener = None if port else self.ends.enter_context(socket.create_server(("127.0.0.1", 0)))
        words = [program.find()[1], *more, "host", str(room / "scripted.protocol"), "--port", "0", "--journal",
                 f"tcp:{port or self.listener.getsockname()[1]}"]
        log = self.ends.enter_context(open(self.log, "wb"))
        host = self.ends.enter_context(Started(words, 300, stdin=subprocess.DEVNULL, stdout=subprocess.PIPE, stderr=log))
        self.port = int(host.stdout.readline().split()[1])

    def __enter__(self):
        return self

    def __exit__(self, *_):
        self.ends.close()

    def end(self, stream):
        """One end of a connection, which is closed with the rest."""
        return self.ends.enter_context(contextlib.closing(End(stream)))

    def client(self, text=JOIN):
        """A client of the host, which sends this."""
        client = self.end(socket.create_connection(("127.0.0.1", self.port), SECONDS))
        client.say(text)
        return client

    def asked(self, protocol=PROTOCOL):
        """The recorder's end of the next connection of the host, which asks for session 7."""
        same("a connection of the host", select.select([self.listener], [], [], SECONDS)[0], [self.listener])
        link = self.end(self.listener.accept()[0])
        same("what a host says first", link.line(), b"open 7 %s\n" % protocol)
        return link

    def joined(self, journal=b""):
        """A client that joined session 7, which has this journal, and the recorder's end. A new session gets its mark."""
        client, link = self.client(), self.asked()
        link.say(b"journal %d\n%s" % (len(journal), journal))
        if not journal:
            same("the mark", link.line(), MARK)
        same("a question at a join", link.line(), b"\n")
        same("no answer before that", client.is_silent(), True)
        link.say(b"kept %d\n" % len(journal or MARK))
        same("a join that is confirmed", client.line(), JOINED)
        return client, link

    def again(self):
        """Joins until session 7 is opened anew, and the recorder has this journal."""
        end = time.monotonic() + SECONDS
        while time.monotonic() < end:
            client = self.client()
            if self.listener in select.select([self.listener, client.stream], [], [], SECONDS)[0]:
                link = self.asked()
                link.say(b"journal %d\n%s" % (len(JOURNAL), JOURNAL))
                same("a question at a later join", link.line(), b"\n")
                link.say(b"kept %d\n" % len(JOURNAL))
                same("a later join", client.line(), JOINED)
                return
            time.sleep(0.05)
        same("a session that was lost is opened anew", False, True)

    def tells(self, what, wanted):
        """Sees to it that the host told this since it was asked the last time."""
        end = time.monotonic() + SECONDS
        while (told := self.log.read_text(encoding="utf-8")[self.heard:]) != wanted and time.monotonic() < end:
            time.sleep(0.01)
        same(f"{what}: what is told", told, wanted)
        self.heard += len(told)


def what_is_said(room):
    """A host says `open` and the mark, asks at each join and after each line, and answers its client after that."""
    with Stage(room) as stage:
        client, link = stage.joined()
        client.say(SEND)
        same("a line and a question", [link.line(), link.line()], [JOURNAL[len(MARK):], b"\n"])
        same("no answer to a line before that", client.is_silent(), True)
        link.say(b"kept %d\n" % len(JOURNAL))
        same("a line that is kept", client.line(), b"done 1\n")
        other = stage.client(b"join 7 b\n")
        same("a question at the second join", link.line(), b"\n")
        same("no answer to the second join before that", other.is_silent(), True)
        link.say(b"kept %d\n" % len(JOURNAL))
        same("the second join", other.line(), b"joined 7 b\n")
        same("nothing more is said", link.is_silent(), True)
        stage.tells("what is said", "")
    with Stage(room) as stage:
        client, link = stage.joined(JOURNAL)
        client.say(b"2 mark m\n")
        line = journals.sealed(journals.read(JOURNAL, FIRST).seal, [b"a 2 mark m"])
        same("a line of a session that goes on", [link.line(), link.line()], [line, b"\n"])
        link.say(b"kept %d\n" % (len(JOURNAL) + len(line)))
        same("its answer", client.line().partition(b" ")[0], b"done")


def what_is_lost(room):
    """Where the answer to a question is another one, or none, no client is answered any more, all connections to the session end, and
    the next join opens it anew."""
    line = len(journals.marked(FIRST, [LINE, b"a 2 mark m"]))
    for text, answer in ((b"join 7 b\n", b"lost\n"), (b"2 mark m\n", b"lost\n"), (b"2 mark m\n", b"kept %d\n" % len(JOURNAL)),
                         (b"2 mark m\n", b"kept %d\n" % (line + 1)), (b"join 7 b\n", b"kept 0\n"), (b"join 7 b\n", b"")):
        with Stage(room) as stage:
            what = f"the answer {answer} to {text}"
            client, link = stage.joined(JOURNAL)
            asking = stage.client(text) if text.startswith(b"join") else client
            if asking is client:
                client.say(text)
                same(f"{what}: the line", link.line()[:11], b"a 2 mark m ")
            same(f"{what}: the question", link.line(), b"\n")
            link.say(answer)
            if not answer:
                link.close()
            same(f"{what}: who asked, and who was there", (asking.line(), client.line()), (b"", b""))
            stage.again()
            stage.tells(what, "refused journal 7\n")


def what_is_refused(room):
    """A session that can't be had: what its client is answered, and what is told. A connection that ends within the journal isn't
    taken for the journal's end, wherever it is cut: another server may have the session by then."""
    wrong = b"refused protocol\n", b"refused table\n", b"refused line\n", b"journal x\n", b"journal\n", b"kept 0\n"
    cut = [b"journal 100\n" + JOURNAL[:size] for size in (0, len(MARK), len(JOURNAL) - 5, len(JOURNAL))]
    with Stage(room, more=("-v",)) as stage:
        for answer, reply, why in (
                *((it, b"elsewhere", "connection reset\n") for it in cut), *((it, b"journal", "invalid data\n") for it in wrong),
                (b"", b"elsewhere", "failed to fill whole buffer\n"), (b"elsewhere\n", b"elsewhere", None),
                (None, b"elsewhere", "Connection reset by peer (os error 104)\n")):
            client, link = stage.client(), stage.asked()
            if answer is None:
                link.file.close()
                reset(link.stream)
            else:
                link.say(answer)
                link.stream.shutdown(socket.SHUT_WR)
            same(f"a join with {answer}", client.line(), b"refused %s\n" % reply)
            stage.tells(answer, "" if why is None else f"refused journal 7\n{why}")


def nobody_listens(room):
    """Where the recorder isn't there a join is `refused elsewhere`, which is told."""
    with socket.socket() as taken:
        taken.bind(("127.0.0.1", 0))  # so that it is nobody's, though nobody listens
        with Stage(room, port=taken.getsockname()[1]) as stage:
            same("a join without a recorder", stage.client().line(), b"refused elsewhere\n")
            stage.tells("without a recorder", "refused journal 7\n")


def play(stage, role, answers):
    """Joins for a role, sends a line, and leaves, again and again, for some time. The answers go into the set."""
    end = time.monotonic() + TOGETHER
    while time.monotonic() < end:
        with contextlib.suppress(OSError), contextlib.closing(End(socket.create_connection(("127.0.0.1", stage.port), SECONDS))) as client:
            client.say(b"join 7 %c\nmark m\n" % role)
            answer = client.line(), client.line()[:4]
            answers.add(answer)
            if answer[0] == b"refused taken\n":
                time.sleep(PAUSE)


def is_one_question(data):
    """Whether these are lines and one question, which is the last of it."""
    return data[:-1].find(b"\n\n") == -1 and (data == b"\n" or not data.startswith(b"\n"))


def many_at_once(room):
    """While eight clients join, send and leave, each question is answered before anything else is said, and nothing is lost."""
    with Stage(room, CROWDED) as stage:
        answers = set()
        clients = [threading.Thread(target=play, args=(stage, role, answers), daemon=True) for role in ROLES]
        for client in clients:
            client.start()
        link = stage.asked(CROWDED)
        link.say(b"journal 0\n")
        questions = size = 0
        data = b""
        while any(client.is_alive() for client in clients):
            if link.is_silent(0.05):
                continue
            piece = link.stream.recv(65_536)
            same("the connection goes on", piece == b"", False)
            data += piece
            if data == b"\n" or data.endswith(b"\n\n"):
                same("one question at a time", (is_one_question(data), link.is_silent(PAUSE)), (True, True))
                size, questions, data = size + len(data) - 1, questions + 1, b""
                link.say(b"kept %d\n" % size)
        same("many questions", questions > len(ROLES), True)
        same("what clients are answered", answers - {(b"refused taken\n", b"")},
             {(b"joined 7 %c\n" % role, b"done") for role in ROLES})
        same("no other connection", select.select([stage.listener], [], [], 0)[0], [])
        stage.tells("many at once", "")


CHECKS = what_is_said, what_is_lost, what_is_refused, nobody_listens, many_at_once
