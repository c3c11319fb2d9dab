"""standing: how a recorded session stands, by what its journal has. The library runs its lines."""
import collections
import ctypes
import functools
import json
import re

import journal
import journals
from drawing import read_step, replay
from protocols import load

MARK = re.compile(rb" [0-9a-f]{16}")
# What was sent, an int or a text. What is left out of these is spelled as nobody needs to spell it.
SENT = re.compile(rb'( send [a-z0-9_]+ )(?:0|-?[1-9][0-9]{0,17}|("[ !#-\[\]-~]{0,256}"))$', re.MULTILINE)
KEPT, LONGEST = 4000, 2000  # how many ways to stand are kept, of sessions with lines of so many bytes at most
FINAL = (b" commit", b" undo ", b" rollback ", b" back ")  # what a line has that isn't a step more which may be taken back


class Row(collections.namedtuple("Row", "number changed entries is_marked stands waits uncommitted wrong recorder", defaults=("",))):
    """What there is to tell of a session.

    changed      when its journal was changed last, or None where that is gone
    entries      how many that has before what is wrong, or None where it can't be read
    is_marked    whether it has the mark
    stands       what each role may do next
    waits        for each role that has nothing to receive yet: from whom
    uncommitted  how many surviving steps no commit makes final
    wrong        what is wrong, or nothing
    recorder     of a session in PostgreSQL: which recorder has it"""

    @property
    def is_ended(self):
        """Whether each role's part has ended."""
        return not self.wrong and all(it == "end" for it in self.stands.values())


def unread(number, changed, wrong):
    """The row of a session that can't be read."""
    return Row(number, changed, None, False, {}, {}, 0, wrong)


def embed():
    """The module with rooms, which python finds once `sessions.run` has said where."""
    import cizhmolat_embed
    return cizhmolat_embed


class Room:
    """A room by the library's own calls: those of cizhmolat_embed, with a lock and a text for each answer, take five times as long.
    It is opened anew for each session."""

    def __init__(self, text, full):
        self.text, self.library, self.handle = text, embed().LIBRARY, embed().Handle()
        self.opens = self.library.mps_open_full if full else self.library.mps_open
        self.at, self.faults = ctypes.addressof(self.handle), (ctypes.c_uint32(), ctypes.c_uint64())
        self.make_room(1024)

    def make_room(self, capacity):
        """Makes room for a text of so many bytes."""
        self.block, self.capacity = ctypes.create_string_buffer(capacity), capacity
        self.out = ctypes.addressof(self.block)

    def __enter__(self):
        if not self.opens(self.text, len(self.text), self.at, *self.faults):
            raise MemoryError
        return self

    def __exit__(self, *_):
        self.library.mps_close_at(self.handle.at)
        self.handle.at = None

    def run(self, lines):
        """Whether all of these lines, each with its role in front, are accepted."""
        call, at, out = self.library.mps_line, self.at, self.out
        for line in lines:
            role, _, command = line.partition(b" ")
            call(at, role, len(role), command, len(command), out, 0)
        return self.library.mps_entries(at) == len(lines)

    def told(self, call, *words):
        """What a call tells."""
        length = call(self.at, *words, self.out, self.capacity)
        if length > self.capacity:
            if length == embed().NO_MEMORY:
                raise MemoryError
            self.make_room(length)
            length = self.library.mps_answer(self.at, self.out, length)
        return self.block[:length].decode("ascii")

    def expects(self, role):
        """What the role may do next."""
        return self.told(self.library.mps_expects, role, len(role))

    def is_waiting(self, role, command):
        """Whether this command of the role would be refused since nothing has come."""
        return self.told(self.library.mps_would, role, len(role), command, len(command)) == "refused nothingqueued"

    def show(self, role):
        """The session as it is shown."""
        return json.loads(self.told(self.library.mps_line, role, len(role), b"show", 4))


class Reader:
    """Reads sessions of a protocol, which has types by full or by plain merging.

    How a session stands doesn't depend on which ints and texts were sent. So the lines are run with others in their places, and
    what comes of these is kept: most sessions of a protocol have the lines of some other one."""

    def __init__(self, protocol, full):
        self.protocol, self.full = protocol, full
        self.roles = [str(role) for role in load(protocol, full)]
        self.text = protocol[:-1] if protocol.endswith(b"\n") else protocol
        self.room = Room(self.text, full)
        self.known = functools.lru_cache(KEPT)(self.standing)

    def row(self, number, changed, data):
        """The row of a session whose journal is that."""
        lines = journals.bodies(data, journals.first_seal(self.text, number))
        row = lines is not None and self.row_of(lines, number, changed, True, "")
        return row or self.judged(journal.Journal(number, self.protocol, data), changed, data)

    def judged(self, found, changed, data):
        """The row where the journal isn't just lines with seals that are accepted."""
        found.judge(())
        row = self.row_of(found.script, found.session, changed, found.found.is_sealed, fault(found, data))
        if row is None:
            found.judge(self.answers(found.script))
            row = self.row_of(found.script, found.session, changed, found.found.is_sealed, fault(found, data))
        return row

    def row_of(self, lines, number, changed, is_marked, wrong):
        """The row of a session with these lines, or None where one of them isn't accepted."""
        text = SENT.sub(least, b"\n".join([*lines, b""]))
        found = self.known(text) if len(text) <= LONGEST else self.standing(text)
        return found and Row(number, changed, len(lines), is_marked, *found, wrong)

    def standing(self, text):
        """How a session with the lines of this text stands: what a row says of that. None where one of them isn't accepted."""
        lines = text.split(b"\n")[:-1]
        with self.room as room:
            if not room.run(lines):
                return None
            stands, free = {role: room.expects(role.encode()) for role in self.roles}, len(lines)
            if any(word in text for word in FINAL):
                free = uncommitted(self.roles, room.show(self.roles[0].encode())["history"])
            return stands, waits(room, stands), free

    def answers(self, script):
        """The answers to these lines, each as it is asked for."""
        with embed().Room(self.protocol, full_merging=self.full) as room:
            for line in script:
                role, _, command = line.partition(b" ")
                yield room.ask(role, command)


def least(sent):
    """What was sent, with the least of its sort in its place."""
    return sent[1] + (b'""' if sent[2] else b"0")


def waits(room, stands):
    """For each role whose next act is a receipt or a pick, and for which nothing waits from that peer: the peer."""
    found = {}
    for role, wanted in stands.items():
        act, _, rest = wanted.partition(" ")
        if act in ("recv", "pick"):
            peer = rest.partition(" ")[0]
            command = f"recv {peer} x" if act == "recv" else f"pick {peer}"
            if room.is_waiting(role.encode(), command.encode()):
                found[role] = peer
    return found


def uncommitted(roles, history):
    """How many of the steps that survive no commit makes final: from the last on, whatever a step depends on that is final is
    final too."""
    if not any(row[2] == "commit" for row in history):
        return len(history)
    steps = [read_step(*row) for row in history]
    takes, settled, final = replay(roles, steps)[0], set(), set()
    for step in reversed(steps):
        if step.act == "commit" or step.role in settled or step.number in final:
            settled.add(step.role)
            final |= {step.number, takes.get(step.number)}
    return len(steps) - len(final - {None})


def fault(found, data):
    """What is wrong with a session's journal, in a few words."""
    if found.fault is None:
        return ""
    at = found.fault[0]
    return "of another session or protocol" if at == 1 and is_others(data) else f"damaged line {at}"


def is_others(data):
    """Whether a journal begins with a mark, and a line follows whose seal is the next: so these are the seals of another session."""
    mark, line, *_ = [*data.split(b"\n", 2)[:-1], b"", b""]
    return bool(MARK.fullmatch(mark)) and journals.Read([], [], None, 1, 0, bytes.fromhex(mark[1:].decode()), True).add(line)
