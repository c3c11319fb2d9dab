# SPDX-License-Identifier: MIT OR Apache-2.0
"""cizhmolat: speaks for one role of a session of a server, `./mps host` or `./mps serve`. One file, of the standard library alone.

    from cizhmolat import Role

    with Role(session=1, role="b", port=4750, numbers="b.numbers") as b:
        step, value = b.receive("a", "x", timeout=60)
        b.send("c", 7)
        entries, gone = b.news(0)

Each command that changes the session has a number. Where the connection breaks before the answer is there, the role joins
again, and the same line is sent again: the server runs a number once, and gives the answer that was lost. All waiting is
bounded: a join by `patience`, an answer by `timeout`, and where the connection breaks before it, the join that follows and
what is sent again by `patience` together. A receipt asks until its own `timeout` is over; all of it, with the last question,
ends within `timeout` of the role after that. (The lookup of a host's name is bounded by the system, and each of its addresses
is given that time.) After an exception during an answer, also one of a signal's handler, the next call joins again: no answer
is taken for another line's. An OSError of a handler, such as TimeoutError, counts as a broken connection.

The newest number is kept in the file `numbers`, so that a program that is started again goes on from there. A number that
was used before is answered as before, and nothing is run. So a client that began at 1 again would lose commands without
noticing. A Role never does: where it joins before a command, and not to send one again, it asks the server first whether its newest
number is still the newest, by `N undo 0`. No step has the number 0, so this changes nothing; and it is refused as `number` unless N is
the newest number or the next one. Where another client acted for the role while it was free WrongNumber is raised, and the
command isn't sent.

A role is for one client at a time: where a connection breaks between a line and its answer, the line never came, and another
client gives exactly one numbered command before the role joins again, no answer tells that command from the one that was lost.

A command is in the file too, from before it is sent until `ask`, or the method that gave it, returns its answer, another
command takes its place, or `settle` lets go of it. However many programs end in between, the one that gives it again gets its
answer. What a program did with an answer no file of this module knows. So one that may end between an answer and its own
books first writes `newest + 1` there. When it is started again it gives the command again, unless `newest` has reached that
number and `resumed` is None: then it had the answer, and `standing` tells the step. After an exception of a signal's handler
it does the same, with a new Role. Such an answer says what was so when the command was run: others may have taken its step
back since, which `resumed.survives` and `news` tell.

A program that keeps no such books calls `settle` when it is started again, and then asks `standing`, which says what the
protocol wants of the role next, which values it keeps, and which steps it did, with the labels that it chose and picked. At a
server with --wait `stand` tells the same in one short line, of the steps only the newest, however many there are. Without
`settle` a new command that is spelled like the one under way would be taken for it: it would get the old answer, and not be
run.

**Steps that others took back.** Where others take back steps of a role, these are its last ones, from a receipt or a pick on,
and it stands at that one again. A send or a choice that was meant for a later place is then refused, as WrongAct, an undo or a
rollback of a step that is gone as NoStep, and `news` or `standing` tells why. But a receipt or a pick may be accepted as the act
of the earlier place, as in a loop, and a mark, a commit and a return to a mark are accepted anywhere. So `receive`, `pick`,
`mark`, `commit` and `back` ask for news in the same write, after the command, and raise TakenBack where steps are gone of which
the role hasn't heard. What a receipt, a pick or a mark did is put back before that, by an undo, and its message waits again. A
commit and a return to a mark can't be put back: they ask before the command too, a round trip more, and don't give it where
steps are gone. Where steps go in between, TakenBack has its answer. So when such a method returns, the program has been told of
all that others took back before its command. `ask` gives a line alone, and tells nothing of this.

A role has heard of what TakenBack, `news` and `standing` told it. How far that is stands in the file from its next command on.
So a program that is started again with that file hears what went while it was away, and once more what it was told just before
it ended. A Role without a file, and the first one with it, hears what goes after it was made. Where a program ends, or loses
the server, while a receipt is put back, `standing` tells whether it stands; else its message waits. So no message is lost, and
none is received twice.

**Waiting.** A receipt, a pick and a question for news that wait are asked by a line `wait MILLISECONDS LINE`, for 20 s at a
time, which a server with --wait answers as soon as there is something; the role's `timeout` counts from the end of these.
Another server can't read it, which is remembered as long as the connection lasts, and is asked again and again, with pauses
that grow from 2 ms to 0.5 s. So is one that answers early that there is nothing, as where steps of others were taken back; the
time that it waited counts as a pause. After a broken connection the line is sent alone, so an answer that was lost comes at
once.

**Many roles in one thread.** A Waiting waits for receipts, picks and news of many roles together, by `selectors`:

    with Waiting() as waiting:
        for role in roles:
            waiting.receive(role, "a", "x")
        for outcome in waiting:
            step, value = outcome.result()
            outcome.role.send("c", value)

cizhmolat_asyncio.py, which stands beside this file, has a Role for asyncio.

**Through TLS.** With `tls` a Role speaks to a gateway that asks for a certificate, and lets each name join only what a list says:

    context = ssl.create_default_context(cafile="authority.pem")
    context.load_cert_chain("b.pem")
    b = Role(session=1, role="b", port=4750, host="localhost", tls=context)

A certificate that is refused, the gateway's or the role's, raises NotTrusted at once. The connection of a join that isn't allowed
is closed without an answer, as is each while the server isn't there. So such a join is tried again, until patience runs out; then
Unreachable says that the gateway may not allow it.

A Role is used by one thread and for one call at a time. Only this module's own exceptions and ValueError, for words that no
line can have, no port, a file of another role and a second call at a time, are raised; a refusal has the class of its name,
such as NothingQueued, and the session is then as it was.
"""
from __future__ import annotations

import collections
import contextlib
import json
import math
import os
import re
import selectors
import socket
import time
import types
from collections.abc import Awaitable, Callable, Coroutine, Generator, Iterator, Sequence
from typing import TYPE_CHECKING, Any, NamedTuple, NoReturn, TypeVar, Union

if TYPE_CHECKING:
    import ssl

Value = Union[bool, int, str]
Made = TypeVar("Made")
NAME = re.compile("(?!(?:roles|rec|end|int|bool|text|true|false)$)[a-z][a-z0-9_]{0,31}")
TEXT = re.compile(r"[ !#-\[\]-~]{0,256}")
ANSWER = re.compile(r"(?:done|undone|news|joined|refused)\b.*|\{.*\}")  # what any answer looks like
DONE, UNDONE = r"done (\d+)", r"undone((?: \d+)*)"  # answers to a step forward, and to steps back
NOTHING_YET = re.compile(r"refused nothingqueued|news \d+")  # what is answered while others have still to act
CERTIFICATE = re.compile("CERTIFICATE|UNKNOWN_CA|HANDSHAKE_FAILURE")  # in a reason of OpenSSL: one was refused, or is missing
QUESTIONS = ("news", "show", "stand")  # which change nothing, and have no number
FULL = 100_000  # entries that a journal has at most
LONGEST = 2_000_000  # seconds that each system takes as a limit: 23 days
Selector: Any = getattr(selectors, "PollSelector", selectors.SelectSelector)  # what costs least for one socket
LONGEST_WAIT = 20.0  # seconds for which one line waits at the server
SHORTEST_PAUSE, LONGEST_PAUSE = 0.002, 0.5  # seconds between two questions


class Error(Exception):
    """What this module raises."""


class Unreachable(Error):
    """No server was there, or none answered, until patience or a receipt's time ran out. The command may have been run, or
    not. Give it again, and it is run once, also by the next Role with the same file of numbers. Or `settle` finds out."""


class NotTrusted(Unreachable):
    """A certificate was refused, and nothing is tried again: the gateway's, by the `tls` of the role, or the role's, by the
    gateway."""


class NotUnderstood(Error):
    """What came is no answer to what was asked, so it isn't such a server that listens there."""


class NotKept(Error):
    """The file of numbers can't be read or written, as on a full disk. As with Unreachable, the command may have been run, or
    not, and whoever gives it again has it run once."""


class TakenBack(Error):
    """Others took back steps of the role: `gone` has the numbers of those of which it hadn't heard, the earliest taken back first.
    The command's own step may be among them. The command wasn't run, or was put back, unless `answer` is there, which is its
    answer: then it is a commit or a return to a mark, which stands, or this exception has a cause, which came while the command
    was put back, so that it may stand."""

    def __init__(self, gone: list[int], command: str = "", answer: str | None = None) -> None:
        super().__init__(gone, command, answer)  # of which pickle and copy make it again
        self.gone, self.command, self.answer = gone, command, answer

    def __str__(self) -> str:
        told = f"others took back {' '.join(map(str, self.gone))}"
        return told if self.answer is None else f"{told}, and {self.command} was answered {self.answer}"


class Refused(Error):
    """A command was refused, and the session is as it was."""
    word = ""

    def __init__(self, answer: str, command: str, step: int | None = None) -> None:
        super().__init__(answer, command, step)  # of which pickle and copy make it again
        self.answer, self.command, self.step = answer, command, step

    def __str__(self) -> str:
        return f"{self.answer}: {self.command}"


class Ended(Refused):
    """The role's part of the protocol has ended."""
    word = "ended"


class WrongAct(Refused):
    """The protocol wants an act of another kind of the role now."""
    word = "wrongact"


class WrongPeer(Refused):
    """The protocol has another peer in that place."""
    word = "wrongpeer"


class WrongSort(Refused):
    """The value is of another sort than the protocol wants."""
    word = "wrongsort"


class NoLabel(Refused):
    """The choice has no branch of that label."""
    word = "nolabel"


class NothingQueued(Refused):
    """No message waits from the peer."""
    word = "nothingqueued"


class Mismatch(Refused):
    """The message that waits is another than the role's type expects. A server never answers so."""
    word = "mismatch"


class NoStep(Refused):
    """No step of that number survives."""
    word = "nostep"


class NotYours(Refused):
    """The step is another role's."""
    word = "notyours"


class Final(Refused):
    """A commit stands in the way, that of the number `step`."""
    word = "final"


class Needed(Refused):
    """Another step depends on the step that is to be undone: the least has the number `step`."""
    word = "needed"


class NoMark(Refused):
    """No mark of that name of the role survives."""
    word = "nomark"


class Full(Refused):
    """The session has as many entries as it takes, or the role has made its share of them."""
    word = "full"


class OutOfMemory(Refused):
    """The server ran out of memory in the command."""
    word = "memory"


class UnreadableLine(Refused):
    """The server can't read the line."""
    word = "line"


class NoSession(Refused):
    """No session has that number."""
    word = "nosession"


class NoRole(Refused):
    """The session has no role of that name."""
    word = "norole"


class Taken(Refused):
    """Another connection acts for the role, and did until patience ran out."""
    word = "taken"


class WrongNumber(Refused):
    """The session's newest number of this role isn't the one that was kept: it is another session than before, or another
    client acted for the role. A new Role without the file of numbers goes on after what that client did."""
    word = "number"


class Busy(Refused):
    """The server has as many sessions open as may be, and had until patience ran out."""
    word = "busy"


class BadJournal(Refused):
    """The server can't use the session's file."""
    word = "journal"


class Elsewhere(Refused):
    """Another server has the session, and had until patience ran out."""
    word = "elsewhere"


REFUSALS = {kind.word: kind for kind in Refused.__subclasses__()}
PASSING = (Taken, Busy, Elsewhere)  # of a join, which is tried again then


class Received(NamedTuple):
    """A receipt: the number of its step, and the value."""
    step: int
    value: Value


class Picked(NamedTuple):
    """A pick: the number of its step, and the label."""
    step: int
    label: str


class News(NamedTuple):
    """How many entries the journal has, and which of the role's steps others took back, in that order."""
    entries: int
    gone: list[int]


class Step(NamedTuple):
    """A step of the role: its number; its act, which is `send`, `choose`, `recv`, `pick`, `mark` or `commit`; the peer; the
    name, which is the label of a choice or a pick, the slot of a receipt, or that of the mark; and the value. What such an act
    doesn't have is None."""
    number: int
    act: str
    peer: str | None = None
    name: str | None = None
    value: Value | None = None


class Standing(NamedTuple):
    """What the protocol wants of the role next, such as `send b int`, `pick b go stop` or `end`; the numbers of its surviving
    steps; what its slots keep; and these steps, of which the last says where it is: after a pick, in that label's branch."""
    expects: str
    past: list[int]
    store: dict[str, Value]
    steps: list[Step]


class Stand(NamedTuple):
    """What the protocol wants of the role next, as in Standing; its newest surviving step, or None where it has none; and what its
    slots keep."""
    expects: str
    newest: Step | None
    store: dict[str, Value]


class Answered(NamedTuple):
    """A command that was accepted, while its answer may not have been seen, and the answer. The command is None where no
    file tells it. `survives` says whether the answer's step survived when the newest number was last found out: others may
    have taken it back after the command was run. It is None where no step is meant, or no file tells the command."""
    command: str | None
    answer: str
    survives: bool | None = None


PARTS = {"send": ("peer", "value"), "choose": ("peer", "name"), "recv": ("peer", "name", "value"), "pick": ("peer", "name"),
         "mark": ("name",), "commit": ()}  # what stands in a shown step after its act


def plain(text: str) -> str:
    """The text itself. A member of an enum has one too, but is formatted as something else."""
    return str.__str__(text)


def spelled(value: Value) -> str:
    """A value as a line spells it."""
    if isinstance(value, bool):
        return "true" if value else "false"
    if isinstance(value, int) and -2 ** 63 <= value < 2 ** 63:
        return int.__repr__(value)
    if isinstance(value, str) and TEXT.fullmatch(value):
        return f'"{plain(value)}"'
    raise ValueError(f"no value of a session: {value!r} (an int of 64 bits, a bool, or up to 256 bytes from the space to ~ "
                     'without " and \\)')


def name(word: str) -> str:
    """The word, which has to be a name."""
    if not isinstance(word, str) or not NAME.fullmatch(word):
        raise ValueError(f"no name: {word!r} (up to 32 small letters, digits and _, a letter first, no reserved word)")
    return plain(word)


def count(number: int) -> int:
    """The number, which has to be one that a line can have."""
    if isinstance(number, bool) or not isinstance(number, int) or not 0 <= number < 2 ** 64:
        raise ValueError(f"no number of a step or an entry: {number!r}")
    return int.__int__(number)


def steps(words: str) -> list[int]:
    """The numbers of steps in an answer."""
    return [int(word) for word in words.split()]


def read(command: str, answer: str, form: str) -> re.Match[str]:
    """The parts of the answer to a command, which has to have this form; a refusal is raised."""
    found = re.fullmatch(form, answer)
    refused = re.fullmatch(r"refused (\w+)(?: (\d+))?", answer)
    if refused and refused[1] in REFUSALS:
        raise REFUSALS[refused[1]](answer, command, int(refused[2]) if refused[2] else None)
    if found is None:
        raise NotUnderstood(f"{answer!r}, to {command}")
    return found


def shown_step(number: int, _: str, act: str, *parts: Any) -> Step:
    """A step of the role, as it is shown."""
    return Step(number, act, **dict(zip(PARTS[act], parts)))


def pauses(least: float, most: float) -> Iterator[float]:
    """Pauses that grow from the one to the other."""
    while True:
        yield least
        least = min(2 * least, most)


def left(until: float) -> float | None:
    """The seconds that are left until then, or None, which is no limit, for more than a system takes."""
    seconds = until - time.monotonic()
    return max(seconds, 0.0) if seconds < LONGEST else None


# --- Calls that stop --------------------------------------------------------------------------------------------------

class Need(NamedTuple):
    """Where a call stops: until the socket is ready for that event of `selectors`, or, where there is none, for that time."""
    stream: socket.socket | None
    event: int
    until: float


@types.coroutine
def stop(need: Need) -> Generator[Need, bool, bool]:
    """Stops a call there. Whoever runs it goes on with whether the socket is ready; else the time is over."""
    return (yield need)


def is_ready(need: Need) -> bool:
    """Whether what a call needs comes in time, for which this thread waits."""
    seconds = left(need.until)
    if need.stream is None:
        time.sleep(seconds or 0)
        return False
    with Selector() as selector:
        selector.register(need.stream, need.event)
        return bool(selector.select(seconds))


def now(call: Coroutine[Need, bool, Made]) -> Made:
    """What a call comes to, for which this thread waits."""
    go_on: Callable[[Any], Need] = call.send
    given: bool | BaseException | None = None
    try:
        while True:
            need = go_on(given)
            try:
                go_on, given = call.send, is_ready(need)
            except BaseException as error:  # of a signal's handler, which the call takes as if it had come there
                go_on, given = call.throw, error
    except StopIteration as end:
        made: Made = end.value
        return made
    finally:
        call.close()  # where an exception came in between: the answer that may still come is no other line's


class Connection:
    """A connection to a server, which answers each line with one."""

    def __init__(self, stream: socket.socket) -> None:
        self._socket = stream
        self.waits = True  # whether lines may wait at the server, as far as is known

    @classmethod
    async def open(cls, address: tuple[str, int], until: float, tls: ssl.SSLContext | None = None) -> Connection:
        """A connection to the server there, through TLS where there is a context of it."""
        seconds, fault = until - time.monotonic(), OSError("the host has no address")
        for family, kind, protocol, _, place in socket.getaddrinfo(*address, type=socket.SOCK_STREAM):
            try:
                with contextlib.ExitStack() as stack:
                    found = cls(stack.enter_context(socket.socket(family, kind, protocol)))
                    limit = time.monotonic() + seconds
                    await found._connect(place, limit)
                    if tls is not None:
                        wrapped = tls.wrap_socket(found._socket, server_hostname=address[0], do_handshake_on_connect=False)
                        found = Secured(stack.enter_context(wrapped))
                        await found._shake_hands(limit)
                    stack.pop_all()
                    return found
            except OSError as error:
                fault = error
        raise fault

    async def _connect(self, place: Any, until: float) -> None:
        self._socket.setblocking(False)
        with contextlib.suppress(OSError):  # answers then come later
            self._socket.setsockopt(socket.IPPROTO_TCP, socket.TCP_NODELAY, 1)
        with contextlib.suppress(BlockingIOError):  # as it goes on
            self._socket.connect(place)
        await self._ready(selectors.EVENT_WRITE, until)
        fault = self._socket.getsockopt(socket.SOL_SOCKET, socket.SO_ERROR)
        if fault:
            raise OSError(fault, os.strerror(fault))

    async def _ready(self, event: int, until: float) -> None:
        """Stops until the socket is ready. There has to be time left."""
        if left(until) == 0 or not await stop(Need(self._socket, event, until)):
            raise TimeoutError("the time is over")

    def close(self) -> None:
        """Ends the connection."""
        with contextlib.suppress(OSError):
            self._socket.close()

    def shut(self) -> None:
        """Breaks the connection, of which whoever waits for it hears."""
        with contextlib.suppress(OSError):
            self._socket.shutdown(socket.SHUT_RDWR)

    def is_over(self) -> bool:
        """Whether the other end was seen to break off, or something came that nobody asked for."""
        try:
            self._socket.recv(1)
        except BlockingIOError:
            return False
        except OSError:
            pass
        return True

    async def _send(self, text: bytes, until: float) -> None:
        if left(until) == 0:
            raise TimeoutError("the time is over")
        while text:
            try:
                text = text[self._socket.send(text):]
            except BlockingIOError:
                await self._ready(selectors.EVENT_WRITE, until)

    async def _receive(self, until: float) -> bytes:
        """The next piece. There has to be time left for each, lest a server that trickles is waited for without end."""
        await self._ready(selectors.EVENT_READ, until)
        return self._socket.recv(65536)

    async def talk(self, lines: Sequence[str], until: float) -> list[str]:
        """The answers to these lines, which are sent in one write. They have to be there until then."""
        await self._send("".join(f"{line}\n" for line in lines).encode("ascii"), until)
        came, ends = bytearray(), 0
        while ends < len(lines):
            piece = await self._receive(until)
            if not piece:
                raise ConnectionError("the connection broke")
            came += piece
            ends += piece.count(b"\n")
        *answers, rest = came.decode("ascii", errors="replace").split("\n")
        if rest or len(answers) > len(lines) or not all(it.isascii() and ANSWER.fullmatch(it) for it in answers):
            raise NotUnderstood(f"{bytes(came[:100])!r}, to {', '.join(lines)}")
        return answers


def tls_event(fault: OSError) -> int | None:
    """The event for which an act over TLS waits that ended so."""
    import ssl  # here alone, since a program that has no use for it would start later
    if isinstance(fault, ssl.SSLWantReadError):
        return selectors.EVENT_READ
    return selectors.EVENT_WRITE if isinstance(fault, ssl.SSLWantWriteError) else None


class Secured(Connection):
    """A connection through TLS. Whether the socket is ready says little of what can be read or written, since TLS keeps bytes that
    were read, and sends some of its own. So each act is tried, and says itself what it waits for."""
    _socket: ssl.SSLSocket

    async def _shake_hands(self, until: float) -> None:
        await self._act(self._socket.do_handshake, until)

    async def _act(self, act: Callable[[], Made], until: float) -> Made:
        """What the act comes to, once it can be done."""
        while left(until) != 0:
            try:
                return act()
            except OSError as fault:
                if CERTIFICATE.search(getattr(fault, "reason", None) or ""):
                    raise NotTrusted(f"a certificate was refused, or is missing: {fault}") from fault
                event = tls_event(fault)
                if event is None:
                    raise
            await self._ready(event, until)
        raise TimeoutError("the time is over")

    def shut(self) -> None:
        with contextlib.suppress(OSError):  # below TLS: its own leaves TLS off, and what still comes would be taken for answers
            socket.socket.shutdown(self._socket, socket.SHUT_RDWR)

    def is_over(self) -> bool:
        try:
            self._socket.recv(1)
        except OSError as fault:
            return tls_event(fault) is None
        return True

    async def _send(self, text: bytes, until: float) -> None:
        rest = memoryview(text)
        while rest:
            rest = rest[await self._act(lambda: self._socket.send(rest), until):]

    async def _receive(self, until: float) -> bytes:
        return await self._act(lambda: self._socket.recv(65536), until)


class Numbers:
    """The newest number of a role, how many entries of the journal it has heard of, and the command under way, in a file.

    The file has a line `SESSION ROLE NUMBER ENTRIES`, and a second one with the command that was given under the next number,
    until its answer is returned, another command is given, or `settle` lets go of it. It is replaced as a whole. It is of one
    session: take another file for another one. Files of earlier clients have no ENTRIES, which counts as 0."""

    def __init__(self, path: str | os.PathLike[str] | None, owner: str) -> None:
        self.path = None if path is None else os.fsdecode(path)
        self.owner, self.newest, self.heard = owner, 0, 0
        self.command: str | None = None
        text = self._text()
        self.is_known = text is not None
        if text is not None:
            first, _, rest = text.partition("\n")
            found = re.fullmatch(r"(\d+ \w+) (\d+)(?: (\d+))?", first)
            if found is None or found[1] != owner:
                raise ValueError(f"{self.path} has no numbers of {owner}")
            self.newest, self.heard, self.command = int(found[2]), int(found[3] or 0), rest.rstrip("\n") or None

    def keep(self, newest: int, heard: int, command: str | None = None) -> None:
        """Keeps the newest number, how many entries were heard of, and the command under way. Where the file can't be written
        nothing has changed."""
        if self.path is not None:
            beside = f"{self.path}.new"
            try:
                with open(beside, "w", encoding="ascii") as file:
                    file.write(f"{self.owner} {newest} {heard}\n" + (f"{command}\n" if command else ""))
                os.replace(beside, self.path)
            except OSError as error:
                raise NotKept(f"{self.path} can't be written: {error}") from error
        self.newest, self.heard, self.command, self.is_known = newest, heard, command, True

    def _text(self) -> str | None:
        """What is in the file, if there is one. A byte that isn't ASCII stands in no file of numbers."""
        if self.path is None:
            return None
        try:
            with open(self.path, encoding="ascii", errors="replace") as file:
                return file.read()
        except FileNotFoundError:
            return None
        except OSError as error:
            raise NotKept(f"{self.path} can't be read: {error}") from error


class Calls:
    """The calls of a role. Each stops where it has to wait, and whoever runs it goes on with it: a Role here, a Waiting, or a
    Role of cizhmolat_asyncio."""
    _half: tuple[str, str, News] | None = None  # a command that is being put back, its answer, and the news after it

    def __init__(self, session: int, role: str, port: int, *, host: str = "127.0.0.1",
                 numbers: str | os.PathLike[str] | None = None, timeout: float = 30, patience: float = 10,
                 tls: ssl.SSLContext | None = None) -> None:
        self.session, self.role = count(session), name(role)
        if not 0 <= port < 2 ** 16:
            raise ValueError(f"no port: {port!r}")
        self.address, self.timeout, self.patience, self.tls = (host, port), timeout, patience, tls
        self._connection: Connection | None = None
        self._numbers = Numbers(numbers, f"{self.session} {self.role}")
        self.resumed: Answered | None = None
        self._newest = self._numbers.newest  # one more than in the file, while `resumed` has the command that is there
        self._heard = self._numbers.heard  # in the file from the next command on
        self._is_settled = False  # whether the newest number is known, and is the session's as long as the connection lasts
        self._is_given_up = False  # whether `close` came meanwhile
        self._is_busy = False  # while a call goes on, whose answer no other one may take

    @property
    def heard(self) -> int:
        """Of how many entries of the journal the role has heard: `news(role.heard)` tells what was taken back since."""
        return self._heard

    @property
    def newest(self) -> int:
        """The newest number of the role's commands that was accepted."""
        return self._newest

    def close(self) -> None:
        """Ends the connection, and so frees the role. The next command joins again. A call that goes on, in a Waiting or a task,
        ends with Unreachable."""
        if self._is_busy:  # its socket isn't closed under what watches it, which another one with that number would be taken for
            self._is_given_up = True
            if self._connection is not None:
                self._connection.shut()
        else:
            self._drop()

    def _drop(self) -> None:
        if self._connection is not None:
            self._connection.close()
        self._connection, self._is_settled = None, False

    async def _start(self) -> None:
        """Joins, and finds out how the role stands."""
        is_new = not self._numbers.is_known
        try:
            await self._settle(math.inf)
            if is_new:
                await self._news(0, 0)  # what went before is told here
        except BaseException:
            self._drop()
            raise

    # --- Steps ---

    async def _step(self, command: str) -> int:
        return int((await self._read(command, DONE))[1])

    async def _steps_back(self, command: str) -> list[int]:
        return steps((await self._read(command, UNDONE))[1])

    async def _receive(self, peer: str, slot: str, timeout: float) -> Received:
        found = await self._told(f"recv {name(peer)} {name(slot)}", r'done (\d+) (true|false|-?\d+|"[^"]*")', timeout)
        return Received(int(found[1]), json.loads(found[2]))

    async def _pick(self, peer: str, timeout: float) -> Picked:
        found = await self._told(f"pick {name(peer)}", r"done (\d+) ([a-z]\w*)", timeout)
        return Picked(int(found[1]), found[2])

    async def _mark(self, mark: str) -> int:
        return int((await self._told(f"mark {name(mark)}", DONE))[1])

    async def _commit(self) -> int:
        return int((await self._told_for_good("commit", DONE))[1])

    async def _back(self, mark: str) -> list[int]:
        return steps((await self._told_for_good(f"back {name(mark)}", UNDONE))[1])

    # --- Questions ---

    async def _news(self, entries: int, timeout: float) -> News:
        question, until = f"news {count(entries)}", time.monotonic() + timeout
        limit = until + self.timeout if timeout else math.inf
        found = self._read_news(question, (await self._in_time(until, limit, question))[0])
        if entries <= self._heard:
            self._heard = found.entries
        return found

    async def _show(self) -> dict[str, Any]:
        return self._read_shown((await self._ask("show", math.inf))[0])

    async def _stand(self) -> Stand:
        told = self._read_shown((await self._ask("stand", math.inf))[0], "stand")
        try:
            newest = told["newest"]
            return Stand(told["expects"], None if newest is None else shown_step(*newest), dict(told["store"]))
        except (LookupError, TypeError, ValueError):
            self._drop()
            raise NotUnderstood(f"{told}, to stand") from None

    async def _standing(self) -> Standing:
        question = f"news {self._heard}"
        told, shown = await self._ask(question, math.inf, "show")
        entries = self._read_news(question, told).entries  # what goes after this may be shown as gone, and is told once more
        found = self._read_standing(self._read_shown(shown))
        self._heard, self._half = entries, None  # what stands is told here
        return found

    def _read_news(self, question: str, answer: str) -> News:
        found = self._understood(question, answer, r"news (\d+)((?: \d+)*)")
        return News(int(found[1]), steps(found[2]))

    def _read_shown(self, answer: str, question: str = "show") -> dict[str, Any]:
        """What is shown in an answer to `show` or `stand`."""
        text = self._understood(question, answer, r"\{.*\}")[0]
        try:
            return dict(json.loads(text))
        except ValueError:
            self._drop()
            raise NotUnderstood(text) from None

    def _read_standing(self, shown: dict[str, Any]) -> Standing:
        """How the role stands in a session that is shown."""
        try:
            own = next(it for it in shown["roles"] if it["role"] == self.role)
            steps = [shown_step(*it) for it in shown["history"] if it[1] == self.role]
            return Standing(own["expects"], own["past"], dict(own["store"]), steps)
        except (LookupError, StopIteration, TypeError, ValueError):
            self._drop()
            raise NotUnderstood(f"{shown}, to show") from None

    # --- Lines ---

    async def _let_go(self) -> Answered | None:
        self._check_free()
        if not self._is_settled:
            await self._settle(math.inf)
        found = self.resumed
        self._numbers.keep(self._newest, self._heard)
        self.resumed = None
        return found

    async def _ask(self, command: str, limit: float, *questions: str, wait: float = 0) -> list[str]:
        """The answer to a command line, which may wait so long at the server, and those to questions in the same write. Nothing
        waits beyond the limit."""
        if "\n" in command or not command.isascii():
            raise ValueError(f"no line: {command!r}")
        command = plain(command)
        self._check_free()
        if self._connection is not None and self._connection.is_over():
            self._drop()
        if command.split(" ")[0] in QUESTIONS:
            return await self._exchange([command, *questions], limit, wait)
        if not self._is_settled:
            await self._settle(limit)
        self._is_settled = False
        newest = self._newest
        if self.resumed is not None and self.resumed.command == command:
            answers = await self._exchange([f"{newest} {command}", *questions], limit)  # which is answered as before
        else:
            self._numbers.keep(newest, self._heard, command)
            answers = await self._exchange([f"{newest + 1} {command}", *questions], limit, wait)
            newest += 0 if answers[0].startswith("refused ") else 1
        self._numbers.keep(newest, self._heard)
        self._newest, self.resumed, self._is_settled = newest, None, True
        return answers

    async def _in_time(self, until: float, limit: float, command: str, *questions: str) -> list[str]:
        """The same for a command that is given again while all answers say that there is nothing yet, until that time."""
        pause = SHORTEST_PAUSE
        while True:
            asked = time.monotonic()
            answers = await self._ask(command, limit, *questions, wait=min(until - asked, LONGEST_WAIT))
            answered = time.monotonic()
            if answered >= until or not all(map(NOTHING_YET.fullmatch, answers)):
                return answers
            waits = self._connection is not None and self._connection.waits
            began = asked if waits else answered  # of the pause: also one that the server made
            if waits and answered - asked >= LONGEST_PAUSE:
                pause = SHORTEST_PAUSE
            try:
                self._is_busy, self._is_given_up = True, False
                await stop(Need(None, 0, min(began + pause, until)))
            finally:
                self._is_busy = False
            if self._is_given_up:
                self._drop()
                raise Unreachable("the role was closed")
            pause = min(2 * pause, LONGEST_PAUSE)

    async def _read(self, command: str, form: str) -> re.Match[str]:
        return self._understood(command, (await self._ask(command, math.inf))[0], form)

    def _understood(self, command: str, answer: str, form: str) -> re.Match[str]:
        """The parts of the answer. After one that isn't understood nothing that comes on this connection can be trusted."""
        try:
            return read(command, answer, form)
        except NotUnderstood:
            self._drop()
            raise

    async def _told(self, command: str, form: str, timeout: float = 0) -> re.Match[str]:
        """The parts of the answer to a command, after which no step was gone of which the role hadn't heard."""
        until = time.monotonic() + timeout
        await self._put_back_at_last(until)
        answer, news = await self._poll(command, until)
        if news.gone:
            await self._put_back(command, answer, news, until)
        self._heard = news.entries
        return self._understood(command, answer, form)

    async def _told_for_good(self, command: str, form: str) -> re.Match[str]:
        """The same for a command that no undo puts back: it isn't given where steps are gone, unless it was run already and waits
        to be given again."""
        await self._put_back_at_last(time.monotonic())
        if not self._is_settled:
            await self._settle(math.inf)
        if self.resumed is None or self.resumed.command != command:
            gone = (await self._news(self._heard, 0)).gone
            if gone:
                raise TakenBack(gone, command)
        return await self._told(command, form)

    async def _poll(self, command: str, until: float) -> tuple[str, News]:
        """The answer to a command, and the news after it. While it is refused because nothing waits, and nothing is gone, it is
        given again."""
        question = f"news {self._heard}"
        answer, told = await self._in_time(until, until + self.timeout, command, question)
        return answer, self._read_news(question, told)

    async def _put_back_at_last(self, until: float) -> None:
        """Puts back what an exception of a signal's handler, or the end of a task, kept from it."""
        if self._half is not None:
            await self._put_back(*self._half, until)

    async def _put_back(self, command: str, answer: str, news: News, until: float) -> NoReturn:
        """Raises TakenBack. What the command did may have been meant for another place: an undo puts it back, where one can."""
        self._half = command, answer, news
        entries, gone = news
        stands = answer if answer.startswith(("done", "undone")) else None
        cause: Error | None = None
        done = re.match(DONE, answer)
        if done and command != "commit":
            undo, question = f"undo {done[1]}", f"news {entries}"
            try:
                undone, told = await self._ask(undo, until + self.timeout, question)
                entries, more = self._read_news(question, told)
                gone = gone + more
                if undone != "refused nostep":  # which says that others took it back
                    self._understood(undo, undone, f"undone {done[1]}")
                stands = None
            except Error as error:
                cause = error
        self._heard, self._half = entries, None
        raise TakenBack(gone, command, stands) from cause

    # --- Numbers ---

    async def _settle(self, limit: float) -> None:
        """Finds out which number is the newest, and whether the command under way was accepted. Where none was under way, none may
        have been."""
        numbers = self._numbers
        past = None if numbers.command is None else self._read_standing(self._read_shown((await self._ask("show", limit))[0])).past
        first = numbers.newest + 1
        for number in range(first, first + 1 if numbers.is_known else FULL + 2):
            answer = (await self._exchange([f"{number} undo 0"], limit))[0]
            if answer != "refused number":
                break
        if answer == "refused nostep":
            self._newest, self.resumed = number - 1, None
        else:
            self._understood(f"{number} undo 0", answer, r"(?:un)?done.*")
            if numbers.is_known and numbers.command is None:
                raise WrongNumber("refused number", f"{number} undo 0")
            step = re.match(r"done (\d+)", answer)
            survives = None if past is None or step is None else int(step[1]) in past
            self._newest, self.resumed = number, Answered(numbers.command, answer, survives)
        if self.resumed is None or self.resumed.command is None:
            numbers.keep(self._newest, self._heard)
        self._is_settled = True

    # --- The connection ---

    def _check_free(self) -> None:
        if self._is_busy:
            raise ValueError(f"another call of {self.role} goes on")

    async def _exchange(self, lines: Sequence[str], limit: float, wait: float = 0) -> list[str]:
        """The answers to these lines, the first of which may wait so long at the server. Where the connection breaks they are sent
        again. Nothing waits beyond the limit."""
        self._check_free()
        try:
            self._is_busy, self._is_given_up = True, False
            if self._connection is None:
                await self._patiently(self._join, limit)
            try:
                answers = await self._talk_in_time(lines, limit, wait)
            except OSError:
                self._drop()
                answers = await self._patiently(lambda until: self._talk(lines, until), limit)
            if self._is_given_up:
                raise Unreachable("the role was closed")
            return answers
        except BaseException:
            self._drop()
            raise
        finally:
            self._is_busy = False

    async def _patiently(self, act: Callable[[float], Awaitable[Made]], limit: float) -> Made:
        """What the act comes to, which is told until when it may wait, and is tried again until patience runs out."""
        end = min(time.monotonic() + self.patience, limit)
        for pause in pauses(0.01, LONGEST_PAUSE):
            if self._is_given_up:
                raise Unreachable("the role was closed")
            try:
                return await act(min(time.monotonic() + self.timeout, end if self.patience else limit))
            except (OSError, *PASSING) as error:
                self._drop()
                if time.monotonic() + pause > end:
                    if isinstance(error, PASSING):
                        raise
                    raise Unreachable(f"no server answers at {self.address[0]}:{self.address[1]}: {error}") from error
            await stop(Need(None, 0, time.monotonic() + pause))
        raise AssertionError

    async def _join(self, until: float) -> Connection:
        """A connection that acts for the role, from now on this Role's; whoever calls closes it where it can't join."""
        self._connection = await Connection.open(self.address, until, self.tls)
        line = f"join {self.session} {self.role}"
        try:
            answer = (await self._connection.talk([line], until))[0]
        except OSError as fault:
            if self.tls is None or isinstance(fault, TimeoutError):
                raise
            raise ConnectionError(f"{line!r} wasn't answered, as where a gateway's list doesn't allow it: {fault}") from fault
        read(line, answer, f"joined {self.session} {self.role}")
        return self._connection

    async def _talk_in_time(self, lines: Sequence[str], limit: float, wait: float) -> list[str]:
        """The answers to these lines, the first of which may wait so long, where the server has lines that do."""
        connection = self._connection
        if connection is None or not connection.waits or wait <= 0:
            return await self._talk(lines, min(time.monotonic() + self.timeout, limit))
        waiting = [f"wait {math.ceil(1000 * wait)} {lines[0]}", *lines[1:]]
        answers = await self._talk(waiting, min(time.monotonic() + wait + self.timeout, limit))
        if answers[0] == "refused line":
            answers = await self._talk(lines, min(time.monotonic() + self.timeout, limit))
            connection.waits = answers[0] == "refused line"  # where that can't be read either, nothing is said of the other
        return answers

    async def _talk(self, lines: Sequence[str], until: float) -> list[str]:
        """The answers to these lines on this Role's connection, or on a new one. Where there is no memory for the news after a
        command, which may have been run, that counts as a broken connection."""
        answers = await (self._connection or await self._join(until)).talk(lines, until)
        if lines[-1].startswith("news ") and answers[1:] == ["refused memory"]:
            raise ConnectionError("the server ran out of memory")
        return answers


class Role(Calls):
    """A role of a session, for which this program acts.

    session, role    the session's number, and the role's name
    port, host       where the server listens
    numbers          the file that keeps the newest number; where there is none it is found by asking for 1, 2, 3 and so on
    timeout          seconds until an answer that hasn't come counts as a broken connection
    patience         seconds for which a server that isn't there or doesn't answer, a role that is taken, and a session that isn't
                     opened now are tried again; with 0 there is one try, for `timeout`
    tls              a context of `ssl` with the role's certificate, by which it speaks TLS to a gateway, whose own has to be for
                     `host`

    Each time may be math.inf, also that of a receipt: then the waiting has no limit.

    `resumed` has the command whose answer no program got, if that command was accepted. A program whose first command is the
    same one gets that answer, or TakenBack, and nothing is run a second time, also where `resumed.survives` is False, since
    the step was taken back meanwhile. With any other command it goes on. `settle` lets go of that command: call it where the same words
    would be a new one."""

    def __init__(self, session: int, role: str, port: int, *, host: str = "127.0.0.1",
                 numbers: str | os.PathLike[str] | None = None, timeout: float = 30, patience: float = 10,
                 tls: ssl.SSLContext | None = None) -> None:
        super().__init__(session, role, port, host=host, numbers=numbers, timeout=timeout, patience=patience, tls=tls)
        now(self._start())

    def __enter__(self) -> Role:
        return self

    def __exit__(self, *_: object) -> None:
        self.close()

    # --- Steps forward, of which `receive`, `pick`, `mark` and `commit` raise TakenBack where steps of the role are gone ---

    def send(self, peer: str, value: Value) -> int:
        """Sends the peer a value, and gives the number of the step."""
        return now(self._step(f"send {name(peer)} {spelled(value)}"))

    def choose(self, peer: str, label: str) -> int:
        """Chooses the branch of that label, tells the peer, and gives the number of the step."""
        return now(self._step(f"choose {name(peer)} {name(label)}"))

    def receive(self, peer: str, slot: str, timeout: float = 60) -> Received:
        """Receives the oldest value that waits from the peer, and keeps it in the slot. Where none waits it is waited for:
        NothingQueued is raised when none has come in `timeout` seconds, TakenBack as soon as steps of the role are gone, and
        Unreachable when the server didn't answer."""
        return now(self._receive(peer, slot, timeout))

    def pick(self, peer: str, timeout: float = 60) -> Picked:
        """Takes the oldest label that waits from the peer; where none waits, as with `receive`."""
        return now(self._pick(peer, timeout))

    def mark(self, mark: str) -> int:
        """Leaves a mark of that name, and gives the number of the step."""
        return now(self._mark(mark))

    def commit(self) -> int:
        """Makes final what the role did, with all on which that depends, and gives the number of the step."""
        return now(self._commit())

    # --- Steps back, each of which gives the numbers of the steps that were taken back, the newest first ---

    def undo(self, step: int) -> list[int]:
        """Takes back the role's own step, where nothing depends on it."""
        return now(self._steps_back(f"undo {count(step)}"))

    def rollback(self, step: int) -> list[int]:
        """Takes back the role's own step, and all that depends on it, of whatever role."""
        return now(self._steps_back(f"rollback {count(step)}"))

    def back(self, mark: str) -> list[int]:
        """Takes back all that the role did since its last mark of that name, and all that depends on it. TakenBack is raised
        where steps of the role are gone, since that mark may be too, and an earlier one have the name."""
        return now(self._back(mark))

    # --- Questions ---

    def news(self, entries: int = 0, timeout: float = 0) -> News:
        """Which of the role's steps others took back after the first so many entries of the journal. Ask the next time with
        the number of entries that this gives. Where there are none, some are waited for, until `timeout` seconds are over."""
        return now(self._news(entries, timeout))

    def show(self) -> dict[str, Any]:
        """The session: its `history`, `queues` and `roles`."""
        return now(self._show())

    def standing(self) -> Standing:
        """How the role stands in the session. A program that is started again, and goes on by this, calls `settle` first."""
        return now(self._standing())

    def stand(self) -> Stand:
        """The same, of its steps only the newest: a short answer, however long the session is. What others took back it doesn't tell,
        as `show` doesn't. A server without --wait can't read the question: UnreadableLine is raised."""
        return now(self._stand())

    # --- Lines ---

    def settle(self) -> Answered | None:
        """Lets go of the command under way, and gives it with its answer, if it was accepted and no program got that: a later
        command that is spelled alike is a new one. A program that is started again calls it, unless it gives that command
        again to get its answer."""
        return now(self._let_go())

    def ask(self, command: str) -> str:
        """The answer to a command line, which is given without a number; refusals of it aren't raised."""
        return now(self._ask(command, math.inf))[0]


# --- Many roles in one thread -----------------------------------------------------------------------------------------

class Outcome(NamedTuple):
    """What came of a wait of the role."""
    role: Role
    made: Received | Picked | News | None
    error: Error | None = None

    def result(self) -> Any:
        """What the Role's method gives. What it raises is raised here."""
        if self.error is not None:
            raise self.error
        return self.made


class Stopped:
    """A call of a role, and what it needs to go on."""
    need = Need(None, 0, math.inf)

    def __init__(self, role: Role, call: Coroutine[Need, bool | None, Any]) -> None:
        self.role, self.call = role, call


class Waiting:
    """Receipts, picks and questions for news of many roles, which wait together in one thread.

    `receive`, `pick` and `news` begin a wait, with the words of the Role's method after the role. A `for` gives the Outcome of each
    wait in the order in which they end, until none goes on; more may begin meanwhile, and all of them go on while one is waited
    for. Till a role's wait has ended no other call of it can be given. `close`, or the end of a `with`, gives up those that go on,
    as an exception of a signal's handler does: each role's next call joins again, and a receipt may have been run."""

    def __init__(self) -> None:
        self._selector = selectors.DefaultSelector()
        self._stopped: set[Stopped] = set()
        self._ended: collections.deque[Outcome] = collections.deque()

    def __enter__(self) -> Waiting:
        return self

    def __exit__(self, *_: object) -> None:
        self.close()

    def __len__(self) -> int:
        """How many outcomes are still to be given."""
        return len(self._stopped) + len(self._ended)

    def __iter__(self) -> Iterator[Outcome]:
        while (outcome := self.next()) is not None:
            yield outcome

    def close(self) -> None:
        """Gives up the waits that go on."""
        while self._stopped:
            self._stopped.pop().call.close()
        self._selector.close()

    def receive(self, role: Role, peer: str, slot: str, timeout: float = 60) -> None:
        """Begins a receipt."""
        self._begin(role, role._receive(peer, slot, timeout))

    def pick(self, role: Role, peer: str, timeout: float = 60) -> None:
        """Begins a pick."""
        self._begin(role, role._pick(peer, timeout))

    def news(self, role: Role, entries: int = 0, timeout: float = 60) -> None:
        """Begins a question for news."""
        self._begin(role, role._news(entries, timeout))

    def next(self, timeout: float = math.inf) -> Outcome | None:
        """The outcome of the next wait that ends; None where none does in so many seconds, or none goes on."""
        until = time.monotonic() + timeout
        while not self._ended and self._stopped:
            try:
                self._turn(until)
            except BaseException:  # also one of a signal's handler
                self.close()
                self._selector = selectors.DefaultSelector()
                raise
            if not self._ended and time.monotonic() >= until:
                return None
        return self._ended.popleft() if self._ended else None

    def _begin(self, role: Role, call: Coroutine[Any, Any, Any]) -> None:
        it = Stopped(role, call)
        try:
            self._stopped.add(it)
            self._run(it, None)
        except BaseException:  # also one of a signal's handler
            if it.need.stream is not None:
                with contextlib.suppress(KeyError, ValueError):
                    self._selector.unregister(it.need.stream)
            call.close()
            self._stopped.discard(it)
            raise

    def _turn(self, until: float) -> None:
        """Waits until calls can go on, and goes on with them."""
        first = min(it.need.until for it in self._stopped)
        for key, _ in self._selector.select(left(min(first, until))):
            self._go_on(key.data, True)
        if time.monotonic() >= first:
            for it in [it for it in self._stopped if it.need.until <= time.monotonic()]:
                self._go_on(it, False)

    def _go_on(self, it: Stopped, is_ready: bool) -> None:
        if it.need.stream is not None:
            self._selector.unregister(it.need.stream)
        self._run(it, is_ready)

    def _run(self, it: Stopped, is_ready: bool | None) -> None:
        """Runs a call until it stops again, or ends. Until then it is among those that stopped, so that each exception closes it."""
        try:
            it.need = it.call.send(is_ready)
        except StopIteration as end:
            self._ended.append(Outcome(it.role, end.value))
            self._stopped.discard(it)
        except Error as error:
            self._ended.append(Outcome(it.role, None, error))
            self._stopped.discard(it)
        else:
            if it.need.stream is not None:
                self._selector.register(it.need.stream, it.need.event, it)
