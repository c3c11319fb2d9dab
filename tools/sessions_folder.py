"""sessions_folder: how the sessions stand that a folder records. It asks no server, takes no lock and changes nothing. Meanwhile
files may grow, come and go."""
import os
import re
import shlex
import stat
import time

import journal
import spread
from explain import printable
from journal import Unread
from standing import Reader, Row, unread

MOST, GREATEST = 67_108_864, 1 << 63  # bytes of a file that a server reads, and its greatest number of a session
SETTLED = 10.0  # seconds after which a server surely has written the mark of a session that it noted as begun
NOTED = re.compile(rb"^([1-9][0-9]{0,18}) (begun|removed)$", re.MULTILINE)


class Folder:
    """A folder with recorded sessions of a protocol, which has types by full or by plain merging. The row of each is made again only
    where its file was changed."""
    age_of = "file's last change"
    has_recorders = False

    def __init__(self, path, full):
        self.path, self.full, self.inside = path, full, os.path.join(path, "")
        if not os.path.isfile(self.at("protocol")):
            raise Unread(f"{path}: no folder that records sessions")
        self.reader = Reader(journal.bytes_of(self.at("protocol")), full)
        self.found = {}

    def at(self, name):
        """The path of a file."""
        return self.inside + name

    def name(self):
        """What the folder is called on a page."""
        return printable(os.fsencode(self.path))

    def story(self):
        """The command that writes the page of session K."""
        option, protocol = "--merging full " * self.full, shlex.quote(os.path.join(self.name(), "protocol"))
        return f"examples/story {option}{protocol} {shlex.quote(self.name())}/K.journal > K.html"

    # --- All sessions ---

    def look(self):
        """The rows, by their numbers. What has begun is noted after a session's file was made, and so is read first."""
        begun, numbers = self.begun(), self.numbers()
        self.found = {number: now or self.found[number] for number, now in zip(numbers, spread.over(self.now, numbers))}
        found = [marked(Row(*row), begun) for _, row in self.found.values() if row]
        gone = self.gone(begun.difference(numbers))
        return sorted(found + [unread(number, None, "has begun, but its file is gone") for number in gone])

    def begun(self):
        """The sessions that have begun, as the file `sessions` notes."""
        found, path = set(), self.at("sessions")
        data = journal.bytes_of(path) if os.path.lexists(path) else b""
        for number, what in NOTED.findall(data):
            (found.add if what == b"begun" else found.discard)(int(number))
        return found

    def numbers(self):
        """The sessions that have a file."""
        found = map(journal.NAME.fullmatch, os.listdir(self.path))
        return [number for number in (int(match[1]) for match in found if match) if number <= GREATEST]

    def gone(self, numbers):
        """Those of these sessions whose file is gone, and wasn't removed meanwhile by `mps journal --remove`."""
        numbers = numbers and numbers & self.begun()
        return [number for number in numbers if not os.path.lexists(self.at(f"{number}.journal"))]

    # --- One session ---

    def now(self, number):
        """What tells whether that session's file was changed, and what its row has, or None where the file has gone. None for both
        where it is as it was found before. What seems wrong is looked at again where the file was being changed: a server may have
        cut it there."""
        path, changed = self.at(f"{number}.journal"), None
        try:
            seen = os.lstat(path)
            if version(seen) == self.found.get(number, (None,))[0]:
                return None
            for _ in range(3):
                changed, wrong = seen.st_mtime, unusable(seen)
                row = unread(number, changed, wrong) if wrong else self.reader.row(number, changed, contents(path, seen.st_size))
                if not row.wrong or version(again := os.lstat(path)) == version(seen):
                    break
                seen = again
        except FileNotFoundError:
            return None, None
        except OSError as error:
            return None, tuple(unread(number, changed, f"unreadable: {error.strerror}"))
        return version(seen), tuple(row)


def version(seen):
    """What tells whether a file was changed."""
    return seen.st_ino, seen.st_size, seen.st_mtime_ns, seen.st_ctime_ns


def unusable(seen):
    """Why no server would take this file for that of a session, or nothing."""
    if not stat.S_ISREG(seen.st_mode):
        return "unreadable: no plain file"
    return f"unreadable: over {MOST:,} bytes" if seen.st_size > MOST else ""


def contents(path, size):
    """The first so many bytes of a plain file, or less where it has less. Nothing is waited for where it was exchanged for
    something else."""
    file = os.open(path, os.O_RDONLY | os.O_NOFOLLOW | os.O_NONBLOCK | os.O_CLOEXEC)
    try:
        data = os.read(file, size)
        while len(data) < size and (more := os.read(file, size - len(data))):
            data += more
        return data
    finally:
        os.close(file)


def marked(row, begun):
    """The row, which says so where the session has begun and its file has lost its mark, as a server would."""
    is_lost = row.number in begun and row.entries is not None and not row.is_marked and row.changed < time.time() - SETTLED
    return row._replace(wrong="has begun, but its file has no mark") if is_lost and not row.wrong else row
