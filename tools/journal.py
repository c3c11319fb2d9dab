"""journal: what the file of a recorded session has, without a server; and how a session is begun anew."""
import contextlib
import fcntl
import os
import re
import subprocess
import tempfile

import journals
import output

NAME = re.compile(r"([1-9][0-9]{0,18})\.journal")
SESSION = re.compile("[1-9][0-9]{0,18}")
NUMBERED = re.compile(rb"([a-z][a-z0-9_]*) ([1-9][0-9]*) (.+)", re.DOTALL)
LONGEST = 583  # bytes of a line without its LF
CHANGED = "it doesn't end in its seal: it, or a line before it, was changed, moved, doubled or left out"


class Unread(Exception):
    """Why a file can't be read as that of a session, or a session can't be removed."""


def bytes_of(path):
    """What the file has."""
    try:
        with open(path, "rb") as file:
            return file.read()
    except OSError as error:
        raise Unread(f"{path}: {error.strerror}") from None


def answers(program, options, protocol, lines):
    """What the program answers with these options to these lines, on a session of the protocol in that file."""
    with tempfile.NamedTemporaryFile(prefix="journal-") as script:
        script.write(b"".join(line + b"\n" for line in lines))
        script.flush()
        ran = subprocess.run([program, "run", *options, "--", protocol, script.name], stdin=subprocess.DEVNULL, stdout=subprocess.PIPE,
                             stderr=subprocess.PIPE, check=False)
    if ran.returncode != 0:
        raise Unread(f"{protocol} can't be used: {ran.stderr.decode(errors='replace').strip()}")
    return ran.stdout.decode().split("\n")[:-1]


class Journal:
    """What a session's file has, in a folder with that text as `protocol`: its lines as a script's, the newest number of each
    role that gave one, and the first line that is wrong, with why."""

    def __init__(self, session, protocol, data):
        self.session = session
        self.found = journals.read(data, journals.first_seal(protocol[:-1] if protocol.endswith(b"\n") else protocol, session))
        self.rest = data[self.found.size:] if self.found.fault is None else b""
        self.script, self.newest, self.fault = [], {}, None
        for at, line in zip(self.found.places, self.found.lines):
            if not self.add(at, line):
                break
        if self.fault is None and self.found.fault is not None:
            self.fault = (self.found.fault, CHANGED)

    def add(self, at, line):
        """Adds the line to the script. Whether its number, where it has one, is its role's next."""
        numbered = NUMBERED.fullmatch(line)
        if numbered:
            role, number, command = numbered.groups()
            last = self.newest.get(role, 0)
            if int(number) != last + 1:
                self.fault = (at, f"its number is {int(number)}, and the newest of its role is {last}")
                return False
            self.newest[role] = int(number)
            line = role + b" " + command
        self.script.append(line)
        return True

    def judge(self, answers):
        """Looks whether each line is accepted, by the answers to the script, and whether what stands after the last may be cut
        off."""
        for at, answer in enumerate(answers):
            if not answer.startswith(("done ", "undone")):
                line = self.script[at].decode(errors="replace")
                self.fault = (self.found.places[at], f"`{line}` is answered `{answer[:80]}`")
                del self.script[at:]
                return
        if self.fault is None and self.rest and not self.is_torn():
            self.fault = (self.found.count + 1, "it has no LF, and no write that broke off leaves such a rest")

    def is_torn(self):
        """Whether the rest may be what a write left that broke off."""
        is_shown = all(32 <= byte <= 126 for byte in self.rest)
        return is_shown and len(self.rest) <= LONGEST and not self.found.closes(self.rest[:-1])

    def report(self):
        """The lines that say what the file has."""
        yield counted(self.session, len(self.script))
        for role in sorted(self.newest):
            yield f"{role.decode()} {self.newest[role]}"
        if self.fault is not None:
            yield f"line {self.fault[0]}: {self.fault[1]}"
        elif self.rest:
            yield f"after the last line stand {len(self.rest)} bytes of one that wasn't answered: the next start cuts them off"


def read_file(path):
    """What the file of a session has, and the file beside it with the protocol."""
    folder, name = os.path.split(path)
    match = NAME.fullmatch(name)
    if not match:
        raise Unread(f"{path}: the name of a session's file is K.journal, where K is the session's number")
    protocol = os.path.join(folder, "protocol")
    return Journal(int(match[1]), bytes_of(protocol), bytes_of(path)), protocol


def own(path, owner):
    """The file of a folder with this owner, to be added to. It is made where there is none, as the server makes it; no link is followed."""
    number = os.open(path, os.O_WRONLY | os.O_APPEND | os.O_CREAT | os.O_NOFOLLOW | os.O_NONBLOCK, 0o600)
    if os.geteuid() == 0:
        os.fchown(number, owner.st_uid, owner.st_gid)
    return os.fdopen(number, "ab")


@contextlib.contextmanager
def held(path):
    """Holds the journal at this path, which no server may have, nor gets meanwhile."""
    with own(path, os.stat(os.path.dirname(path) or ".")) as kept:
        try:
            fcntl.flock(kept, fcntl.LOCK_EX | fcntl.LOCK_NB)
        except OSError:
            raise Unread(f"{path}: a server has it") from None
        if not os.path.exists(path) or not os.path.samestat(os.fstat(kept.fileno()), os.lstat(path)):
            raise Unread(f"{path}: a server has just let go of it; try again")
        yield


def note(folder, session, what):
    """Notes in the file `sessions` what became of the session."""
    with own(os.path.join(folder, "sessions"), os.stat(folder)) as noted:
        # alone on its line, also where the one before it was torn
        noted.write(f"\n{session} {what}\n".encode())
        noted.flush()
        os.fsync(noted.fileno())


def counted(session, count):
    """How many entries a session has."""
    return f"session {session}: {count} {'entry' if count == 1 else 'entries'}"


def check(folder, session):
    """Sees to it that these words name a session of a folder."""
    if not SESSION.fullmatch(session):
        raise Unread(f"{session}: no number of a session")
    if not os.path.isfile(os.path.join(folder, "protocol")):
        raise Unread(f"{folder}: no folder that records sessions")


def remove(folder, session):
    """Has the next server begin the session of that number anew: that is noted, and then its journal taken away. The exit status."""
    try:
        check(folder, session)
        path = os.path.join(folder, f"{session}.journal")
        with held(path):
            note(folder, session, "removed")
            os.unlink(path)
    except (Unread, OSError) as error:
        output.tell(f"{error}\n".encode())
        return 2
    return 0


def tell(program, options, path, as_script):
    """Writes what the file has, or its lines as a script, by the program with these options. The exit status: 3 where a line is
    wrong."""
    try:
        journal, protocol = read_file(path)
        journal.judge(answers(program, options, protocol, journal.script))
    except Unread as error:
        output.tell(f"{error}\n".encode())
        return 2
    lines = journal.report() if not as_script else (line.decode() for line in journal.script)
    output.write("".join(f"{line}\n" for line in lines))
    if as_script and journal.fault is not None:
        output.tell(f"line {journal.fault[0]}: {journal.fault[1]}\n".encode())
    return 0 if journal.fault is None else 3
