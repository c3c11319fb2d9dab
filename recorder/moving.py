"""moving: a session that goes from a folder into the tables, or from there into a folder.

No server of the folder goes on with it from the first change on: it is noted there as begun, and has no file K.journal, until that
comes back. The tables have no row of it before all of its lines, and none once the folder has it; meanwhile the row has the mover for
its holder, and, as long as that is connected, for its recorder. A move that broke off is finished by the same words."""
import os

import psycopg2

import journal
import output
from database import Away, Database, described, first_line
from journal import Unread
from lines import Growth, Unreadable
from tables import READ, Changed, Tables

PATIENCE = 5.0  # seconds until a PostgreSQL that doesn't answer is told to be away
WRONG, DAMAGED = 2, 3  # statuses
ROW = "select protocol from sessions where session = %s"
# A row without lines is that of a move which broke off, or of a server that nothing was said to.
ANY = """
select session from sessions where session = %s and entries > 0
union all (select session from entries where session = %s limit 1)"""
# Nothing is removed where another holder took the session meanwhile.
REMOVE = """
with gone as (delete from sessions where session = %s and holder = %s returning session)
delete from entries using gone where entries.session = gone.session"""
# Lines of an earlier holder. A session that was begun anew since they were removed has none.
LEFT = "select session from entries where session = %s and holder < %s limit 1"


class Damaged(Exception):
    """Why a journal isn't that of the session."""


class Mover:
    """Moves the session of that number between a folder and the tables. `answers` gives the program's answers to a script, by the file
    of its protocol."""

    def __init__(self, name, is_lone, folder, session, answers):
        try:
            self.where = described(name)
        except psycopg2.Error as fault:
            raise Unread(first_line(fault)) from None
        if not journal.SESSION.fullmatch(session):
            raise Unread(f"{session}: no number of a session")
        self.tables = Tables(Database([name], PATIENCE, is_lone, Tables.begin, lambda: None))
        self.folder, self.session, self.answers = folder, int(session), answers

    def at(self, name):
        """The path of a file of the folder."""
        return os.path.join(self.folder, name)

    def protocol(self):
        """The folder's protocol, in its written form."""
        return journal.bytes_of(self.at("protocol")).removesuffix(b"\n").decode()

    def checked(self, data):
        """The journal's whole lines, which have to be those of the session; and how many entries these are."""
        found = journal.Journal(self.session, self.protocol().encode(), data)
        found.judge(self.answers(self.at("protocol"), found.script))
        if found.fault is not None:
            raise Damaged(f"line {found.fault[0]}: {found.fault[1]}")
        if not found.found.is_sealed or not found.script:
            raise Unread(f"session {self.session} has no entry with a seal")
        return data[:found.found.size], len(found.script)

    def has_journal(self):
        """Whether the folder has a journal of the session. A server that refused one that isn't there may have made an empty file."""
        path = self.at(f"{self.session}.journal")
        if not os.path.lexists(path):
            return False
        with journal.held(path):
            return os.path.getsize(path) > 0

    def take(self):
        """The session's row, which is the mover's now, or None where a recorder has it, or it is of another protocol."""
        protocols = {self.session: self.protocol()}
        refused, others, gone = self.tables.stand(protocols)
        return None if refused or others else self.tables.take(protocols, gone).get(self.session)

    # --- Into the tables ---

    def into(self):
        """Moves the session from the folder into the tables. Its file is put aside before that, so that no server goes on with it."""
        path, aside = self.at(f"{self.session}.journal"), self.at(f"{self.session}.moving")
        if os.path.lexists(aside) and not self.has_journal():
            path = aside
        if not os.path.lexists(path):
            raise Unread(f"{self.folder}: there is no {self.session}.journal")
        with journal.held(path):
            data, count = self.checked(journal.bytes_of(path))
            self.tables.look()
            is_there = self.stored() == (self.protocol(), data)
            growth = None if is_there else self.growth(data)
            journal.note(self.folder, self.session, "begun")
            self.rename(path, aside)
            if not is_there and not self.put(growth):
                self.rename(aside, path)
                raise Unread(f"{self.where}: a recorder took session {self.session} meanwhile")
            self.rename(aside, self.at(f"{self.session}.moved"))
        return f"{journal.counted(self.session, count)}, now in {self.where}"

    def stored(self):
        """The protocol and the journal of the session that the tables have, or None. Only a move that broke off left the same."""
        rows = self.tables.database.ask(ROW, (self.session,))
        if not rows:
            return None
        [[text, *_]] = self.tables.database.ask(READ, (self.session,))
        [[mark]] = self.tables.database.ask("select mark from sessions where session = %s", (self.session,))
        return rows[0][0], f" {mark}\n{text}".encode()

    def growth(self, data):
        """What the session grows by in the tables, which must not have it."""
        growth = Growth(0, 0, None)
        try:
            growth.add(data.split(b"\n")[:-1])
        except Unreadable:
            raise Damaged("its file doesn't begin with the mark, as one of version 0.1") from None
        if self.tables.database.ask(ANY, (self.session, self.session)):
            raise Unread(f"{self.where} has session {self.session} already, or lines of it")
        return growth

    def put(self, growth):
        """Puts the session into the tables. Whether these took it. A row with the mark alone, as a recorder leaves that was killed,
        goes when it is let go of; then a new one is made."""
        for _ in range(2):
            taken = self.take()
            if taken is None:
                return False
            is_kept = taken.size == 0 and self.tables.add({(self.session, taken.holder): growth})
            self.tables.leave({self.session: taken.holder})
            if is_kept:
                return True
        return False

    # --- Into the folder ---

    def back(self):
        """Moves the session from the tables into the folder."""
        self.tables.look()
        if self.has_journal():
            raise Unread(f"{self.folder} has session {self.session} already")
        rows = self.tables.database.ask(ROW, (self.session,))
        if rows:
            self.begin(rows[0][0])
            self.fetch()
        elif not os.path.exists(self.at(f"{self.session}.coming")):
            raise Unread(f"{self.where} has no session {self.session}")
        count = self.checked(journal.bytes_of(self.at(f"{self.session}.coming")))[1]
        self.rename(self.at(f"{self.session}.coming"), self.at(f"{self.session}.journal"))
        return f"{journal.counted(self.session, count)}, now in {self.folder}"

    def begin(self, protocol):
        """Sees to it that the folder is there, and of that protocol."""
        os.makedirs(self.folder, mode=0o700, exist_ok=True)
        if not os.path.lexists(self.at("protocol")):
            self.write("protocol", f"{protocol}\n".encode())
        if self.protocol() != protocol:
            raise Unread(f"{self.folder} records sessions of another protocol than that of session {self.session}")

    def fetch(self):
        """Takes the session, has its journal beside those of the folder, and then removes it from the tables."""
        taken = self.take()
        if taken is None:
            raise Unread(f"a recorder of {self.where} has session {self.session}")
        try:
            data = self.checked(self.tables.read(taken))[0]
            self.check_coming(data)
            journal.note(self.folder, self.session, "begun")  # so that none is begun there until the file is
            self.write(f"{self.session}.coming", data)
        except (Changed, Damaged, Unread, OSError) as why:
            self.tables.leave({self.session: taken.holder})
            if isinstance(why, Changed):
                raise Damaged("the lines in the table aren't those of the session") from None
            raise
        self.tables.database.insist(REMOVE, (self.session, taken.holder))
        if self.tables.database.ask(LEFT, (self.session, taken.holder)):
            os.unlink(self.at(f"{self.session}.coming"))
            raise Unread(f"{self.where}: a recorder took session {self.session} meanwhile")

    def check_coming(self, data):
        """Sees to it that what an earlier move left is of this journal: not all that there is of a session whose rows it removed."""
        path = self.at(f"{self.session}.coming")
        if os.path.lexists(path) and not data.startswith(journal.bytes_of(path)):
            raise Unread(f"{path} is of an earlier session than the one in {self.where}")

    def write(self, name, data):
        """Writes a file of the folder, and has the disk store it."""
        with journal.own(self.at(name), os.stat(self.folder)) as file:
            file.truncate(0)
            file.write(data)
            file.flush()
            os.fsync(file.fileno())
        self.sync()

    def rename(self, path, to):
        """Gives a file of the folder another name."""
        os.rename(path, to)
        self.sync()

    def sync(self):
        """Has the disk store the names of the folder's files."""
        number = os.open(self.folder, os.O_RDONLY | os.O_DIRECTORY)
        try:
            os.fsync(number)
        finally:
            os.close(number)


def run(order, words, is_lone, answers):
    """Moves the session that these words name, says so, and gives the exit status."""
    name, folder, session = words
    try:
        mover = Mover(name, is_lone, folder, session, answers)
        output.write(f"{mover.into() if order == '--into' else mover.back()}\n")
        return 0
    except Damaged as why:
        output.tell(f"session {session}: {why}\n")
        return DAMAGED
    except (Unread, Away) as why:
        output.tell(f"{why}\n")
        return WRONG
