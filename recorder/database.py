"""database: the connection to PostgreSQL, and what is said to be committed.

What PostgreSQL says was committed is with its standby too, unless

- the wait for the standby was cancelled: then it says so by a warning. Any warning counts, since its words are in the language
  of the database;
- no standby is set, or none was for a moment: then it says nothing. So after each commit it is looked at whether one is set,
  and whether the settings were read anew meanwhile. A process of PostgreSQL does so before its next statement, and is told to
  before those who wait are let go of;
- a standby was set just now, or PostgreSQL was just started: then it says nothing either, until another of its processes has
  read the settings. So that one is given a second.

Then the statement is given again. What it left before is visible by then, though the standby may not have it yet; but a commit
waits until the standby has all that was written before it.
"""
import collections
import contextlib
import select
import sys
import time

import psycopg2
import psycopg2.extensions

# Says to both ends when a connection whose other end is gone has ended: to this one after some ten seconds, to PostgreSQL after
# five. There the limit of keepalives isn't enough: none is sent while an answer is on its way.
LIVE = {"keepalives_idle": 3, "keepalives_interval": 2, "keepalives_count": 3, "tcp_user_timeout": 9000}
SET = """
set synchronous_commit = on;
set default_transaction_isolation = 'read committed';
set client_min_messages = warning;
set lock_timeout = 0;
set statement_timeout = 0;
set idle_session_timeout = 0;
set tcp_keepalives_idle = 2;
set tcp_keepalives_interval = 1;
set tcp_keepalives_count = 3;
set tcp_user_timeout = '5s';
set client_connection_check_interval = '5s'"""
LOOK = """
select pg_is_in_recovery(), current_setting('synchronous_standby_names') <> '' and current_setting('max_wal_senders')::int > 0,
    clock_timestamp() - greatest(pg_conf_load_time(), pg_postmaster_start_time()) between '0' and '1 s', pg_conf_load_time()"""
CONNECTING = 2  # seconds that a connection may take to be made
GRACE = 3  # seconds in which those whose connection broke take their locks again, before others may
LEAST, MOST = 0.05, 1  # seconds until a statement is given again


class Away(Exception):
    """PostgreSQL doesn't answer, or may not keep what it was told."""


def tell(text):
    """Says something to who operates the recorder."""
    with contextlib.suppress(OSError):
        sys.stderr.write(f"{text}\n")


def described(name):
    """Which database the words of that connection name, without a password."""
    words = psycopg2.extensions.parse_dsn(name)
    return " ".join(f"{key}={words[key]}" for key in ("host", "hostaddr", "port", "dbname") if key in words) or "the local database"


def first_line(fault):
    """Why a statement failed, in one line."""
    return next((line.strip() for line in str(fault).splitlines() if line.strip()), type(fault).__name__)


class Database:
    """The connection to PostgreSQL. Where it breaks it is made again, to the first of the databases that answers and may be
    written to. `begin` is given to each new one. `is_there` says whether it answered the last time; where it doesn't any more,
    `went` is called. One thread has it."""

    def __init__(self, names, patience, is_lone, begin, went):
        self.names, self.patience, self.is_lone = collections.deque(names), patience, is_lone
        self.begin, self.went = begin, went
        self.connection, self.is_there, self.said = None, False, set()
        self.loaded = None  # when the connection's process read the settings last
        self.times = 0  # that a connection was made
        self.calm = 0.0  # when others have had the time to take their locks again
        psycopg2.extensions.set_wait_callback(self.wait)

    # --- Waiting ---

    def wait(self, connection):
        """Waits for an answer of PostgreSQL. psycopg2 calls it."""
        patience = self.patience if connection is self.connection else min(CONNECTING, self.patience)
        while (state := connection.poll()) != psycopg2.extensions.POLL_OK:
            event = select.POLLIN if state == psycopg2.extensions.POLL_READ else select.POLLOUT
            ready = select.poll()
            ready.register(connection.fileno(), event)
            if not ready.poll(1000 * patience):
                self.lose_patience(connection)

    def lose_patience(self, connection):
        """No answer came in time. A commit that waits for its standby is left alone as long as no other database can be written
        to: whoever gave it again would only wait behind it, with one connection more each time. And it isn't cancelled, since
        PostgreSQL would then take it for done."""
        if connection is not self.connection:
            raise Away("no answer")
        self.go_away("no answer, as where its standby is away")
        if self.other_may_be_written():
            raise Away("no answer, and another database can be written to")

    def other_may_be_written(self):
        """Whether another of the databases answers, and isn't a standby."""
        for name in list(self.names)[1:]:
            with contextlib.suppress(psycopg2.Error, Away), contextlib.closing(psycopg2.connect(name, **LIVE)) as other:
                self.look(other)
                return True
        return False

    def go_away(self, why):
        """Notes that PostgreSQL doesn't answer, and says why, once until it answers again."""
        why = f"{described(self.names[0])}: {why}"
        if why not in self.said:
            tell(f"waiting: {why}")
        self.said.add(why)
        self.is_there = False
        self.went()

    # --- The connection ---

    def look(self, connection):
        """Sees to it that the database may be written to. When it read its settings last, a second ago or more."""
        while True:
            with connection.cursor() as cursor:
                cursor.execute(LOOK)
                is_standby, has_standby, is_new, loaded = cursor.fetchone()
            if is_standby:
                raise Away("it is a standby")
            if not has_standby and not self.is_lone:
                raise Away("no synchronous standby is set (synchronous_standby_names)")
            if not is_new:
                return loaded
            time.sleep(LEAST)

    def connect(self):
        """Makes the connection to the first database of the list."""
        made = psycopg2.connect(self.names[0], **LIVE)
        try:
            made.autocommit = True
            self.loaded = self.look(made)
            with made.cursor() as cursor:
                cursor.execute(SET)
        except BaseException:
            made.close()
            raise
        self.connection, self.times = made, self.times + 1
        self.calm = time.monotonic() + GRACE if self.times > 1 else 0.0
        for statement in self.begin:
            self.committed(statement)
        tell(f"uses {described(self.names[0])}")

    def drop(self):
        """Leaves the connection, and with it all locks, and turns to the next database."""
        if self.connection is not None:
            self.connection.close()
        self.connection = None
        self.names.rotate(-1)

    # --- Statements ---

    def committed(self, statement, words=None):
        """The rows of a statement that was committed, with the standby too, on the connection that there is."""
        while True:
            del self.connection.notices[:]
            with self.connection.cursor() as cursor:
                cursor.execute(statement, words)
                rows = cursor.fetchall() if cursor.description else []
            if self.connection.notices:
                raise Away(first_line(self.connection.notices[0]))
            before, self.loaded = self.loaded, self.look(self.connection)
            if self.loaded == before:
                return rows

    def ask(self, statement, words=None):
        """The same. Where it raises Away the connection is gone, and whether the statement was run isn't known; else it is the
        one of the statement before, or a new one where there was none."""
        try:
            if self.connection is None:
                self.connect()
            rows = self.committed(statement, words)
        except (psycopg2.Error, Away) as fault:
            why = first_line(fault)
            self.go_away(why)
            self.drop()
            raise Away(why) from None
        self.is_there = True
        self.said.clear()
        return rows

    def look_again(self):
        """Sees whether it is there."""
        self.ask("select")

    def is_calm(self):
        """Whether others have had the time to take their locks again on this primary."""
        return time.monotonic() >= self.calm

    def insist(self, statement, words):
        """The rows of a statement that may be given more than once, which is given again until it is committed."""
        pause = LEAST
        while True:
            try:
                return self.ask(statement, words)
            except Away:
                time.sleep(pause)
                pause = min(MOST, 1.5 * pause)
