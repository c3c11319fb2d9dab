# SPDX-License-Identifier: MIT OR Apache-2.0
"""cizhmolat_embed: rooms in this process, with the names of cizhmolat, the client of a server.

    from cizhmolat_embed import Role, Room

    with Room("roles a b c ; a -> b : int . b -> c : int . end") as room:
        a, b = Role(room, "a"), Role(room, "b")
        a.send("b", 5)
        step, value = b.receive("a", "x")

A Role is a `cizhmolat.Role` whose session is a Room of this process in place of the number of a served one: it has the same
methods, which raise the same exceptions, and `stand` is refused as at a server without --wait. So a program that was written
for a server goes on here with

    from cizhmolat_embed import Role, Room
    session = Room(protocol)

in place of `from cizhmolat import Role` and `session = 1`. What speaks of the connection (`port`, `host`, `numbers`, `timeout`,
`patience`, `tls`) may stand there still, and does nothing: no answer is lost while the process lives. Where TakenBack is raised
the command wasn't run, a commit neither, since nobody else acts between the news and the command.

A room with a file is as the file leaves it, and each command that is accepted from then on is in the file before its answer is
told:

    with Room(protocol, file="kept/1.journal") as room:
        room.ask("a", "1 send b 5")

A line with a number may be given again by a program that goes on after a crash: it counts once. A Role gives its lines without
numbers, so after a crash its program asks `newest`, `expects` or `standing` where it stands.

A room has one call at a time, by a lock, so its Roles may be used in threads, each Role in one at a time. A receipt and a pick
wait for what other threads send, as at a server: NothingQueued is raised when nothing has come in `timeout` seconds.

This file stands beside cizhmolat.py. The library is libcizhmolat.so, which `./mps library DIR` makes, of the environment's
CIZHMOLAT_DIR, of the folder of this file, or libcizhmolat.so.0 where the system looks for libraries. `pip install` of this folder puts all three
into one."""
from __future__ import annotations

import collections
import ctypes
import json
import os
import re
import threading
import time
from pathlib import Path
from typing import TYPE_CHECKING, Any, cast

import cizhmolat
from cizhmolat import NOTHING_YET, Error, News, Refused, Value, count, name

if TYPE_CHECKING:
    import ssl

__all__ = ["BadFile", "BadLine", "BadProtocol", "FileInUse", "NoMemory", "NotStored", "Role", "Room", "UnusableFile"]

NO_MEMORY = ctypes.c_size_t(-1).value
SYNC, FULL_MERGING = 1, 2
TEXTS = ("toolong", "word", "unexpected", "toomanynodes", "toodeep", "trailing")
PROTOCOLS = ("rolecount", "doublerole", "toomanynodes", "toodeep", "unknownrole", "selfmessage", "doublelabel",
             "toomanybranches", "nobranches", "unbound", "shadowed", "unguarded")
PROJECTION, ELSEWHERE, FILE = 48, 64, 65
LINES = ("unreadable", "refused", "changed")  # the faults of a line of a file, from 66 on


class BadProtocol(Error):
    """The text gives no room.

    word      the kind of its fault, as `mps check` names it, such as `unexpected`, `unbound` or `projection`
    number    the fault's number, as cizhmolat.h lists them
    place     the byte of a fault of the text, the choice of a projection's, and else 0

    Of a projection, where there was memory to look for them, and else None and []:

    role      the role without a local type
    sender    who makes the choice whose branches it can't tell apart
    receiver  who is told of that
    labels    the labels of the branches

    `full_merging` is that of the Room, by which a role needn't do the same in all branches."""

    def __init__(self, number: int, place: int, role: str | None = None, sender: str | None = None, receiver: str | None = None,
                 *labels: str, full_merging: bool = False) -> None:
        super().__init__(number, place, role, sender, receiver, *labels)  # of which pickle and copy make it again
        self.number, self.place, self.full_merging = number, place, full_merging
        self.role, self.sender, self.receiver, self.labels = role, sender, receiver, list(labels)
        if number < 32:
            self.word = TEXTS[number - 16]
        elif number < PROJECTION:
            self.word = PROTOCOLS[number - 32]
        else:
            self.word = "projection"

    def __str__(self) -> str:
        if self.number < 32:
            return f"text {self.word} {self.place}"
        if self.number < PROJECTION:
            return f"protocol {self.word}"
        if self.role is None:
            return f"projection of role number {self.number - PROJECTION}, choice {self.place}"
        wrong = "can't be ready for all branches" if self.full_merging else "doesn't do the same in all branches"
        return (f"`{self.role}` takes no part in the choice between `{self.sender}` and `{self.receiver}`, and {wrong}: "
                f"`{'`, `'.join(self.labels)}`")


class BadFile(Error):
    """The file gives no room.

    word   the kind of its fault, as cizhmolat.h names it: `elsewhere`, `file`, `unreadable`, `refused` or `changed`
    path   the file's path"""
    word = ""

    def __init__(self, path: str, *more: object) -> None:
        super().__init__(path, *more)  # of which pickle and copy make it again
        self.path = path


class FileInUse(BadFile):
    """Another room, or another process, has the file."""
    word = "elsewhere"

    def __str__(self) -> str:
        return f"another room, or another process, has {self.path}"


class UnusableFile(BadFile, OSError):
    """The system refuses something of the file; or it is no plain file, or a link; or the session's number isn't 1 to 2^63. `errno` is
    the system's number, or None where there is none."""
    word = "file"

    def __init__(self, path: str, errno: int | None) -> None:
        super().__init__(path, errno)
        self.errno, self.filename = cast(Any, errno), path  # of an OSError it may be None, which not each type checker knows
        self.strerror = os.strerror(errno) if errno else "the system doesn't say why"

    def __reduce__(self) -> tuple[type[UnusableFile], tuple[str, int | None]]:  # that of an OSError hands on its filename too
        return type(self), (self.path, self.errno)

    def __str__(self) -> str:
        return f"{self.path} can't be used: {self.strerror}"


class BadLine(BadFile):
    """A line of the file isn't one of this room's journal, and the file stays as it is. Its number, from 1, is `line`. As `word`
    it is `unreadable`, as it spells no command; `refused`, as its command isn't accepted; or `changed`, as it isn't as it was
    written, or is of another session or protocol."""

    def __init__(self, path: str, word: str, line: int) -> None:
        super().__init__(path, word, line)
        self.word, self.line = word, line

    def __str__(self) -> str:
        return f"line {self.line} of {self.path} is {self.word}"


class NotStored(Error):
    """The disk didn't store the room's file. The room answers `refused journal` to each line from then on, and the file stays locked
    until this process ends."""


class NoMemory(Error):
    """Memory ran out: no room could be opened, or there was none for the text of an answer. In the second case the line was
    run, and `Room.answer` gives its answer later."""


class Handle(ctypes.Structure):
    """The struct of one pointer that owns a room."""
    _fields_ = [("at", ctypes.c_void_p)]


def library() -> ctypes.CDLL:
    """The library, with the types of its calls."""
    folders = [os.environ.get("CIZHMOLAT_DIR"), Path(__file__).resolve().parent]
    files = [Path(folder) / "libcizhmolat.so" for folder in folders if folder]
    found = ctypes.CDLL(str(next((file for file in files if file.exists()), "libcizhmolat.so.0")))
    size, text, place = ctypes.c_size_t, ctypes.c_char_p, ctypes.c_void_p
    calls: tuple[tuple[str, Any, list[Any]], ...] = (
        ("mps_open", ctypes.c_bool, [text, size, place, ctypes.POINTER(ctypes.c_uint32), ctypes.POINTER(ctypes.c_uint64)]),
        ("mps_open_full", ctypes.c_bool, [text, size, place, ctypes.POINTER(ctypes.c_uint32), ctypes.POINTER(ctypes.c_uint64)]),
        ("mps_choice", size, [text, size, ctypes.c_uint64, place, size]),
        ("mps_open_file", ctypes.c_bool, [text, size, text, size, ctypes.c_uint64, ctypes.c_uint32, place,
                                          ctypes.POINTER(ctypes.c_uint32), ctypes.POINTER(ctypes.c_uint64)]),
        ("mps_sync", ctypes.c_bool, [place]),
        ("mps_line", size, [place, text, size, text, size, place, size]), ("mps_answer", size, [place, place, size]),
        ("mps_would", size, [place, text, size, text, size, place, size]), ("mps_expects", size, [place, text, size, place, size]),
        ("mps_slot", size, [place, text, size, text, size, place, size]),
        ("mps_entries", ctypes.c_uint64, [place]), ("mps_entry", size, [place, ctypes.c_uint64, place, size]),
        ("mps_close_at", None, [place]))
    for call, result, takes in calls:
        getattr(found, call).restype, getattr(found, call).argtypes = result, takes
    return found


LIBRARY = library()


def coded(text: str | bytes) -> bytes:
    """The bytes of a text."""
    return text.encode() if isinstance(text, str) else text


def unmerged(text: bytes, role: int, choice: int) -> list[str]:
    """The names of a projection's fault: the role, who chooses, who is told, and the labels. There are none where memory ran out."""
    block = ctypes.create_string_buffer(18 * 33)  # of two roles and 16 labels at most, with 32 letters each at most
    length = LIBRARY.mps_choice(text, len(text), choice, block, len(block))
    if length == NO_MEMORY:
        return []
    roles = re.findall("[a-z0-9_]+", str(text, "ascii"))[1:]  # and then other words: a text begins with `roles` and these
    return [roles[role], *str(block.raw[:length], "ascii").split()]


def room_fault(number: int, place: int, text: bytes, file: Any, full_merging: bool) -> Error:
    """Why there is no room of the text, by the number and the place that the library tells."""
    if number == 1:
        return NoMemory("there is no memory for a room")
    if number < PROJECTION:
        return BadProtocol(number, place, full_merging=full_merging)
    if number < ELSEWHERE:
        return BadProtocol(number, place, *unmerged(text, number - PROJECTION, place), full_merging=full_merging)
    path = os.fsdecode(file)
    if number == ELSEWHERE:
        return FileInUse(path)
    return UnusableFile(path, place or None) if number == FILE else BadLine(path, LINES[number - FILE - 1], place)


class Room:
    """A room with a new session of the protocol that the text spells. BadProtocol is raised where there is none.

    file      a path: the room is as the file there leaves it, and keeps what is accepted in it. The file is made where there
              is none, and locked as long as the room is open. BadFile is raised where it gives no room
    session   of which session the file is, whose number goes into its seals: a server has session K in K.journal of its folder
    sync      whether the disk has stored each accepted command before its answer is told. Without it answers are safe from a
              crash of the process as they are told, and from one of the machine only after `sync()`
    full_merging
              whether a role that takes no part in a choice may be told of the branch by a label of its own, where else it has
              to do the same in all branches. The file doesn't say so: a text that gives a room by both may have it by either

    It is closed by `close`, at the end of a `with`, or when it is let go of. It can't be called after that. A fork of the process
    can't call a room with a file, and keeps the file locked until it ends, or lets go of the room."""

    def __init__(self, text: str | bytes, file: str | bytes | os.PathLike[str] | os.PathLike[bytes] | None = None, *,
                 session: int = 1, sync: bool = False, full_merging: bool = False) -> None:
        text = coded(text)
        fault, place = ctypes.c_uint32(), ctypes.c_uint64()
        self._handle = Handle()
        self._at = ctypes.addressof(self._handle)
        self._make_room(1024)
        self._turn = threading.Condition()  # whose lock each call takes, and which is told of each accepted command
        self._counted = 0  # entries, of which each role has so many:
        self._accepted: collections.Counter[str] = collections.Counter()
        self._process = None if file is None else os.getpid()  # to which the file belongs
        if file is None:
            opens = LIBRARY.mps_open_full if full_merging else LIBRARY.mps_open
            is_open = opens(text, len(text), self._at, fault, place)
        else:
            path, flags = os.fsencode(file), (SYNC if sync else 0) | (FULL_MERGING if full_merging else 0)
            is_open = LIBRARY.mps_open_file(text, len(text), path, len(path), count(session), flags, self._at, fault, place)
        if not is_open:
            raise room_fault(fault.value, place.value, text, file, full_merging)

    def __enter__(self) -> Room:
        return self

    def __exit__(self, *_: object) -> None:
        self.close()

    def __del__(self) -> None:
        if hasattr(self, "_turn"):
            self.close()

    def close(self) -> None:
        """Lets the room go."""
        with self._turn:
            if self._handle.at is not None:
                LIBRARY.mps_close_at(self._handle.at)
                self._handle.at = None
                self._turn.notify_all()

    def ask(self, role: str | bytes, line: str | bytes) -> str:
        """The answer to a line, which is run as a command of the role of that name. A line may have a number in front."""
        role, line = coded(role), coded(line)
        with self._turn:
            self._check()
            answer = self._whole(LIBRARY.mps_line(self._at, role, len(role), line, len(line), self._out, self._capacity))
            if answer.startswith(("done", "undone")):  # what is taken back may wait to be received again
                self._turn.notify_all()
            return answer

    def answer(self) -> str:
        """The answer to the newest line once more."""
        with self._turn:
            self._check()
            return self._whole(LIBRARY.mps_answer(self._at, self._out, self._capacity))

    def sync(self) -> None:
        """Has the disk store all that was answered so far, in one sync for a batch of lines. Nothing happens where the room has
        no file."""
        with self._turn:
            self._check()
            if not LIBRARY.mps_sync(self._at):
                raise NotStored("the disk didn't store the room's file")

    def would(self, role: str | bytes, line: str | bytes) -> Refused | None:
        """None where this line would be accepted, if it was given now; else the exception that a Role would raise. Nothing changes.
        The exception is given and not raised, since nothing was refused; and is no text, since its class and its `step` say how to
        go on, as after a command that was refused. Lack of memory for what an accepted command would do isn't foreseen."""
        role, line = coded(role), coded(line)
        answer = self._told_of(LIBRARY.mps_would, role, len(role), line, len(line))
        try:
            cizhmolat.read(line.decode("ascii", "backslashreplace"), answer, "accepted")
        except Refused as refused:
            return refused.with_traceback(None)
        return None

    def expects(self, role: str | bytes) -> str:
        """What the protocol wants of the role next, such as `send b int`, `pick b go stop` or `end`. NoRole is raised where the
        room has no role of that name."""
        role = coded(role)
        wanted = self._told_of(LIBRARY.mps_expects, role, len(role))
        if not wanted:
            raise cizhmolat.NoRole("refused norole", role.decode("ascii", "backslashreplace"))
        return wanted

    def slot(self, role: str | bytes, slot: str | bytes) -> Value | None:
        """The value in that slot of the role, or None where nothing was received there. NoRole is raised where the room has no
        role of that name."""
        role, slot = coded(role), coded(slot)
        value = self._told_of(LIBRARY.mps_slot, role, len(role), slot, len(slot))
        if not value:
            self.expects(role)
            return None
        read: Value = json.loads(value)
        return read

    @property
    def entries(self) -> int:
        """How many entries the journal has."""
        with self._turn:
            self._check()
            return int(LIBRARY.mps_entries(self._at))

    def entry(self, k: int) -> str:
        """Entry number k of the journal, from 0, as a line of a script. IndexError is raised past the end."""
        entry = self._told_of(LIBRARY.mps_entry, count(k))
        if not entry:
            raise IndexError(k)
        return entry

    def _accepted_of(self, role: str) -> int:
        """How many entries of the journal are the role's."""
        with self._turn:
            for k in range(self._counted, self.entries):
                self._accepted[self.entry(k).partition(" ")[0]] += 1
                self._counted += 1
            return self._accepted[role]

    def _told_of(self, call: Any, *words: bytes | int) -> str:
        """The whole text that a call gives which changes nothing."""
        with self._turn:
            self._check()
            length = call(self._at, *words, self._out, self._capacity)
            if NO_MEMORY != length > self._capacity:
                self._make_room(length)
                length = call(self._at, *words, self._out, length)
            return self._told(length)

    def _check(self) -> None:
        if self._handle.at is None:
            raise ValueError("the room is closed")
        if self._process not in (None, os.getpid()):  # a fork's copy would add to the file without the original's knowledge
            raise ValueError("the room's file is that of the process that opened it")

    def _whole(self, length: int) -> str:
        """The whole answer, of which the length is told, and which was written where it fitted."""
        if NO_MEMORY != length > self._capacity:
            self._make_room(length)
            length = LIBRARY.mps_answer(self._at, self._out, length)
        return self._told(length)

    def _told(self, length: int) -> str:
        """The text of that length that was written."""
        if length == NO_MEMORY:
            raise NoMemory("there is no memory for a text")
        return str(self._text[:length], "ascii")

    def _make_room(self, capacity: int) -> None:
        """Makes room for a text of so many bytes."""
        block = ctypes.create_string_buffer(capacity)
        self._text, self._out, self._capacity = memoryview(block), ctypes.addressof(block), capacity


def unnumbered(command: str) -> str:
    """The command line of a role, which has no number."""
    if "\n" in command or not command.isascii():
        raise ValueError(f"no line: {command!r}")
    if command[:1].isdigit():
        return f"0 {command}"  # two numbers are refused, as at a server, where each command has one
    return command


class Role(cizhmolat.Role):
    """A role of a room, for which this program acts. Each is used by one thread at a time.

    session, role    the Room, and the role's name; NoRole is raised where it has none of that name
    port and others  may stand there as for a served session, and do nothing

    `resumed` is always None."""
    session: Room  # type: ignore[assignment]  # of a server it is a number

    def __init__(self, session: Room, role: str, port: int = 0, *, host: str = "", numbers: str | os.PathLike[str] | None = None,
                 timeout: float = 0, patience: float = 0, tls: ssl.SSLContext | None = None) -> None:
        self.session, self.role = session, name(role)
        self.resumed = None
        self._heard, self._is_settled, self.timeout = 0, True, timeout  # no command is ever under way
        self.news()  # what went before is told here

    def close(self) -> None:
        """Does nothing: the room is closed by itself."""

    _drop = close

    def settle(self) -> None:
        """Does nothing: no command is under way."""

    @property
    def newest(self) -> int:
        """How many commands of the role were accepted that change the session, since it began."""
        return self.session._accepted_of(self.role)

    def would(self, command: str) -> Refused | None:
        """None where this command would be accepted, if it was given now; else the exception that it would raise, which is given and
        not raised. Nothing changes."""
        return self.session.would(self.role, unnumbered(command))

    def expects(self) -> str:
        """What the protocol wants of the role next, such as `send b int`, `pick b go stop` or `end`."""
        return self.session.expects(self.role)

    def slot(self, slot: str) -> Value | None:
        """The value in that slot, or None where nothing was received there."""
        return self.session.slot(self.role, slot)

    def ask(self, command: str) -> str:
        """The answer to a command line, which is given without a number; refusals aren't raised."""
        return self.session.ask(self.role, unnumbered(command))

    async def _ask(self, command: str, limit: float, *questions: str, wait: float = 0) -> list[str]:
        """The answer to a command line, and those to questions; nobody acts between them."""
        with self.session._turn:
            return [self.ask(command), *map(self.ask, questions)]

    async def _in_time(self, until: float, limit: float, command: str, *questions: str) -> list[str]:
        """The same for a command that is given again after each command that others had accepted, while there is nothing yet."""
        with self.session._turn:
            while True:
                answers = await self._ask(command, limit, *questions)
                if not all(map(NOTHING_YET.fullmatch, answers)) or not self._rest(until):
                    return answers

    async def _poll(self, command: str, until: float) -> tuple[str, News]:
        """The answer to a command, and the news before it. Where steps are gone the command isn't given, and has no answer. While
        nothing waits it is given again after each command that others had accepted."""
        question = f"news {self._heard}"
        with self.session._turn:
            while True:
                news = self._read_news(question, self.ask(question))
                answer = "" if news.gone else self.ask(command)
                if answer != "refused nothingqueued" or not self._rest(until):
                    return answer, news

    def _rest(self, until: float) -> bool:
        """Waits for the next command that others had accepted, where time is left."""
        left = until - time.monotonic()
        if left > 0:
            self.session._turn.wait(min(left, threading.TIMEOUT_MAX))
        return left > 0
