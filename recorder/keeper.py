"""keeper: does what servers ask of the database, in a thread of its own."""
import collections
import contextlib
import os
import threading
import time
import traceback

from database import Away, tell
from lines import Growth, Unreadable
from tables import Changed, Taken, Tables

PAUSE = 1.0  # seconds until the database is looked at where nobody asks
MOST_SESSIONS = 200  # that are opened together
MOST_LINES = 5_000  # that are added together, and those of one server more
FAILED = 1  # the status where something happens that nobody foresaw
UNKNOWN = 0  # in place of a holder
ELSEWHERE, LOST = b"elsewhere\n", b"lost\n"


class Desk:
    """What servers ask, until the keeper takes it."""

    def __init__(self):
        self.changed = threading.Condition()
        self.asked, self.gone, self.opens = collections.deque(), collections.deque(), collections.deque()

    def put(self, queue, what):
        """Puts something at the end of one of the desk's queues."""
        with self.changed:
            queue.append(what)
            self.changed.notify()

    def take(self, seconds):
        """What is there, or comes in so many seconds: servers that ask whether their lines are kept, with these; servers that
        left; and servers that ask for their sessions."""
        with self.changed:
            if not (self.asked or self.gone or self.opens):
                self.changed.wait(seconds)
            asked, count = [], 0
            while self.asked and count < MOST_LINES:
                asked.append(self.asked.popleft())
                count += len(asked[-1][1])
            return asked, some(self.gone, len(self.gone)), some(self.opens, MOST_SESSIONS)


def some(queue, most):
    """The first of a queue, so many at most, which are taken from it."""
    return [queue.popleft() for _ in range(min(most, len(queue)))]


class Held:
    """A session that a server has, and where its journal stands."""

    def __init__(self, server, taken, is_lost=False):
        self.server, self.holder = server, taken.holder
        self.entries, self.size, self.mark = taken.entries, taken.size, taken.mark
        self.is_lost = is_lost

    def growth(self):
        return Growth(self.entries, self.size, self.mark)

    def grow(self, growth):
        """Its journal has grown by that."""
        self.entries, self.size, self.mark = growth.entries, growth.size, growth.mark


class Keeper(threading.Thread):
    """Does what servers ask, and answers them by `answer(server, bytes, is_last)`."""

    def __init__(self, desk, database, answer):
        super().__init__(daemon=True)
        self.desk, self.database, self.answer = desk, database, answer
        self.tables = Tables(database)
        self.held = {}  # sessions
        self.seen = 0  # the connection to PostgreSQL after which it was looked at which of them others have

    def run(self):
        """Ends the process where it fails: what waits for it would wait for ever."""
        try:
            self.work()
        finally:
            traceback.print_exc()
            os._exit(FAILED)

    def work(self):
        """Does what is asked, for ever, and looks whether PostgreSQL is there."""
        looked = 0.0
        while True:
            asked, gone, opens = self.desk.take(PAUSE)
            if asked:
                self.keep(asked)
            if gone:
                self.leave(gone)
            if opens:
                self.open(opens)
            if time.monotonic() > looked + PAUSE or not self.tables.has_lock():
                self.look()
                looked = time.monotonic()

    def look(self):
        """Looks whether PostgreSQL is there. After it connected anew it is seen to whether others took sessions meanwhile."""
        with contextlib.suppress(Away):
            self.tables.look()
            if self.seen != self.database.times:
                self.find_overtaken()

    def find_overtaken(self):
        """Tells servers whose sessions others took. It is done again until others have had the time to take theirs: one of these
        may have held this recorder for gone just before it had its lock again."""
        times, is_last = self.database.times, self.database.is_calm()
        holders = {session: held.holder for session, held in self.held.items() if not held.is_lost}
        for session in sorted(self.tables.overtaken(holders)) if holders else ():
            self.lose(self.held[session], f"lost by holder {holders[session]}")
        if is_last:
            self.seen = times

    # --- Sessions that are opened ---

    def open(self, servers):
        """Gives servers their sessions, where no other has them."""
        wanted = {}
        for server in servers:
            if server.session in self.held or server.session in wanted:
                self.answer(server, ELSEWHERE, True)
            elif not server.is_closed:
                wanted[server.session] = server
        try:
            self.tables.look()
            self.take(wanted)
        except Away:  # it isn't known which of them were taken, and by which holder
            for session, server in wanted.items():
                self.held[session] = Held(server, Taken(session, UNKNOWN, 0, 0, None), is_lost=True)
                self.answer(server, ELSEWHERE, True)

    def take(self, wanted):
        """Takes those of these sessions that nobody else has. Each whose server was answered is taken off the list."""
        protocols = {session: server.protocol for session, server in wanted.items()}
        refused, others, gone = self.tables.stand(protocols)
        for session in refused:
            self.answer(wanted.pop(session), b"refused protocol\n", True)
        for session in others:
            self.answer(wanted.pop(session), ELSEWHERE, True)
        taken = self.tables.take({it: protocols[it] for it in wanted}, gone) if wanted else {}
        for session in wanted.keys() - taken.keys():
            self.answer(wanted.pop(session), ELSEWHERE, True)
        for session, row in taken.items():
            self.held[session] = Held(wanted[session], row)
            self.give(wanted[session], row)
            del wanted[session]

    def give(self, server, taken):
        """Gives a server the journal of the session that was taken for it."""
        try:
            journal = self.tables.read(taken)
        except Changed:
            tell(f"session {taken.session}: the lines in the table aren't those of the session")
            self.answer(server, b"refused table\n", True)
        else:
            tell(f"session {taken.session}: taken by holder {taken.holder}, {taken.entries} entries")
            self.answer(server, b"journal %d\n" % taken.size + journal, False)

    # --- Sessions that are open ---

    def keep(self, asked):
        """Keeps the lines of all that ask, by one statement, and answers each."""
        grown = {}
        for server, lines in asked:
            held = self.held.get(server.session)
            if held is not None and held.server is server and not held.is_lost:
                growth = grown.setdefault(server.session, held.growth())
                try:
                    growth.add(lines)
                except Unreadable:
                    self.lose(held, f"a line of holder {held.holder} can't be read")
                    del grown[server.session]
        if not grown:
            return
        kept = self.tables.add({(session, self.held[session].holder): growth for session, growth in grown.items()})
        for session, growth in grown.items():
            held = self.held[session]
            if session in kept:
                held.grow(growth)
                self.answer(held.server, growth.answer, False)
            else:
                self.lose(held, f"lost by holder {held.holder}")

    def lose(self, held, why):
        """Tells a server that nothing more is kept. Its connection ends then."""
        tell(f"session {held.server.session}: {why}")
        held.is_lost = True
        self.answer(held.server, LOST, True)

    def leave(self, servers):
        """Lets go of the sessions of servers whose connections have ended."""
        left = {server.session: held.holder for server in servers
                if (held := self.held.get(server.session)) is not None and held.server is server}
        unknown = {session: self.held[session].server.protocol for session, holder in left.items() if holder == UNKNOWN}
        if unknown:
            left.update(self.tables.retake(unknown))
        if left:
            self.tables.leave(left)
        for session in left:
            del self.held[session]
