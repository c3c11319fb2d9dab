"""lines: what a server says to its recorder, and how a line of a journal stands in the tables."""
import re
from typing import NamedTuple, Optional

OPEN = re.compile(rb"open ([1-9][0-9]{0,18}) ([ -~]+)")
MARK = re.compile(rb" ([0-9a-f]{16})")
LINE = re.compile(rb"([a-z][a-z0-9_]{0,31}) (?:(0|[1-9][0-9]{0,19}) )?([a-z][ -~]*) ([0-9a-f]{16})")
LONGEST_OPEN = 140_000  # bytes that no protocol's written form reaches
LONGEST_LINE = 583  # bytes of a journal's line without its LF
GREATEST_SESSION = 1 << 63
GREATEST_NUMBER = (1 << 64) - 1


class Unreadable(Exception):
    """A line that no server has for its recorder."""


class Entry(NamedTuple):
    """A line of a journal, as its row has it."""
    role: str
    number: Optional[int]
    command: str
    seal: str


def read_open(line):
    """The session that the line opens, and its protocol."""
    found = OPEN.fullmatch(line)
    if not found or int(found[1]) > GREATEST_SESSION:
        raise Unreadable
    return int(found[1]), found[2].decode()


def read_mark(line):
    """The seal of a mark."""
    found = MARK.fullmatch(line)
    if not found:
        raise Unreadable
    return found[1].decode()


def read_entry(line):
    """The entry whose line this is."""
    found = LINE.fullmatch(line) if len(line) <= LONGEST_LINE else None
    if not found or found[2] and int(found[2]) > GREATEST_NUMBER:
        raise Unreadable
    role, number, command, seal = found.groups()
    return Entry(role.decode(), int(number) if number else None, command.decode(), seal.decode())


class Growth:
    """What a session's journal grows by: the lines that came, from where it stood, and what the server is answered once they
    are kept."""

    def __init__(self, entries, size, mark):
        self.before = self.entries, self.size = entries, size
        self.mark, self.added, self.answer = mark, [], b""

    def add(self, lines):
        """Adds lines, after which the server asked."""
        for line in lines:
            if self.size == 0:
                self.mark = read_mark(line)
            else:
                self.added.append(read_entry(line))
                self.entries += 1
            self.size += len(line) + 1
        self.answer += b"kept %d\n" % self.size
