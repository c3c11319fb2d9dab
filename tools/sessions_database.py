"""sessions_database: how the sessions stand that recorders keep in PostgreSQL. It reads one snapshot at a time, by a transaction that
can't write, so a standby will do. It changes nothing, and takes no lock for which a recorder would wait."""
import collections
import contextlib
import functools
import os
import sys
import time

import spread
from journal import Unread
from protocols import Fault
from sources import HOME
from standing import Reader, unread

SESSIONS = """
select session, protocol, holder, entries, bytes, mark, recorder, extract(epoch from now() - coalesce(changed, opened))::float8
from sessions order by session"""
# For each session one row: with PostgreSQL's own join of texts there are fewer to be fetched than lines.
JOURNALS = """
select a.session, l.text, l.count, l.least, l.greatest
from unnest(%s::numeric[]) as a (session) cross join lateral (
    select coalesce(string_agg(concat_ws(' ', role, number, command, seal) || E'\\n', '' order by entry), '') as text,
        count(*) as count, coalesce(min(entry), 1) as least, coalesce(max(entry), 0) as greatest
    from entries where session = a.session) l"""
# Lines of a session that has no row. A recorder would begin it anew, and trip over them.
STRAYS = "select distinct session from entries e where not exists (select from sessions s where s.session = e.session)"
# Each recorder has an advisory lock of its number on the primary; pg_locks shows that in two halves.
RECORDERS = """
select l.classid::bigint << 32 | l.objid::bigint, case when a.client_port < 0 then 'localhost' else host(a.client_addr) end
from pg_locks l left join pg_stat_activity a using (pid)
where l.locktype = 'advisory' and l.objsubid = 1 and l.granted
    and l.database = (select oid from pg_database where datname = current_database())"""
NO_ROW = "has lines, but no row in the table of sessions"
FETCHED = 50  # rows that are fetched at a time, of which each may have some MB
KEPT = 1000  # protocols that are kept ready
STORY = ("psql -Atc 'select protocol from sessions where session = K' > protocol; "
         "psql -Atc \"select role || ' ' || command from entries where session = K order by entry\" > K.script; "
         "examples/story {}protocol K.script > K.html")
Stored = collections.namedtuple("Stored", "protocol holder entries size mark")  # what a session's row has
Journal = collections.namedtuple("Journal", "number changed stored text count least greatest")


def psycopg():
    """psycopg2, and the recorder's module that speaks of connections."""
    try:
        import psycopg2
    except ModuleNotFoundError:
        raise Unread("psycopg2 isn't there: apt install python3-psycopg2") from None
    sys.path.append(os.path.join(HOME, "recorder"))
    import database
    return psycopg2, database


@functools.lru_cache(KEPT)
def reader(protocol, full):
    """What reads sessions of the protocol, or why nothing can."""
    try:
        return Reader(protocol.encode(), full)
    except Fault as refused:
        return refused.line.removeprefix("refused ")


class Database:
    """A database with sessions, each of its own protocol, which all have types by full or by plain merging. The row of each is made
    again only where its row there was changed."""
    age_of = "last line"
    has_recorders = True

    def __init__(self, words, full):
        self.words, self.full = words, full
        self.psycopg2, self.recorder = psycopg()
        self.seen, self.rows, self.strays = {}, {}, None
        try:
            self.described = self.recorder.described(words)
        except self.psycopg2.Error as error:
            raise Unread(f"--database: {self.recorder.first_line(error)}") from None

    def name(self):
        """What the database is called on a page."""
        return self.described

    def story(self):
        """The commands that write the page of session K."""
        return STORY.format("--merging full " * self.full)

    # --- All sessions ---

    def look(self):
        """The rows, by their numbers, as one snapshot has them."""
        try:
            with contextlib.closing(self.psycopg2.connect(self.words)) as connection:
                connection.set_session(isolation_level="REPEATABLE READ", readonly=True)
                connection.set_client_encoding("UTF8")
                return self.rows_of(connection)
        except self.psycopg2.Error as error:
            raise Unread(f"{self.described}: {self.recorder.first_line(error)}") from None

    def rows_of(self, connection):
        """The rows, by this connection."""
        [[is_there]] = ask(connection, "select to_regclass('sessions') is not null and to_regclass('entries') is not null")
        if not is_there:
            raise Unread(f"{self.described}: no recorder keeps sessions there")
        stored, times, recorders = {}, {}, {}
        live = self.live(connection)
        for number, protocol, *rest, recorder, age in stream(connection, SESSIONS):
            stored[int(number)] = Stored(sys.intern(protocol), *rest)
            times[int(number)], recorders[int(number)] = time.time() - age, told(recorder, live)
        changed = [number for number, row in stored.items() if self.seen.get(number) != row]
        journals = (Journal(int(number), times[int(number)], stored[int(number)], *lines)
                    for number, *lines in stream(connection, JOURNALS, listed(changed)))
        self.rows = {number: row for number, row in self.rows.items() if number in stored}
        self.rows.update((row.number, row) for row in spread.over(self.row, journals, lambda it: len(it.text)))
        self.seen = stored
        found = [row._replace(recorder=recorders[number]) for number, row in self.rows.items()]
        return sorted(found + [unread(number, None, NO_ROW) for number in self.stray(connection)])

    def live(self, connection):
        """Of each recorder that is connected, where; None on a standby, which doesn't know."""
        [[is_standby]] = ask(connection, "select pg_is_in_recovery()")
        return None if is_standby else dict(ask(connection, RECORDERS))

    def stray(self, connection):
        """The sessions that have lines and no row. They are looked for once, since it takes a look at all lines."""
        if self.strays is None:
            self.strays = [int(number) for number, in stream(connection, STRAYS)]
        elif self.strays:
            still = ask(connection, "select distinct session from entries where session = any(%s::numeric[])", (listed(self.strays),))
            self.strays = [int(number) for number, in still if int(number) not in self.seen]
        return self.strays

    # --- One session ---

    def row(self, found):
        """The row of that session."""
        of_protocol = reader(found.stored.protocol, self.full)
        if isinstance(of_protocol, str):
            return unread(found.number, found.changed, f"its protocol is refused: {of_protocol}")
        mark = "" if found.stored.mark is None else f" {found.stored.mark}\n"
        data = (mark + found.text).encode()
        row = of_protocol.row(found.number, found.changed, data)
        wrong = [it for it in (row.wrong, miscounted(found, len(data))) if it]
        return row._replace(wrong=", ".join(wrong))


def told(recorder, live):
    """How a session's recorder is told."""
    if recorder is None:
        return ""
    if live is None:
        return str(recorder)
    where = live.get(recorder) and f" at {live[recorder]}"
    return f"{recorder}{where or ''}" if recorder in live else f"{recorder} (gone)"


def miscounted(found, size):
    """What a session's row says otherwise than its lines, in a few words, or nothing."""
    stored = found.stored
    if (found.least, found.greatest) != (1, found.count):
        return f"{found.count} of the entries {min(1, found.least)} to {found.greatest}"
    if found.count != stored.entries:
        return f"{found.count} of {stored.entries} entries"
    return f"{size} of {stored.size} bytes" if size != stored.size else ""


def ask(connection, statement, words=None):
    """The rows of a statement."""
    with connection.cursor() as cursor:
        cursor.execute(statement, words)
        return cursor.fetchall()


def stream(connection, statement, *words):
    """The rows of a statement, as they are fetched."""
    with connection.cursor("rows") as cursor:
        cursor.itersize = FETCHED
        cursor.execute(statement, words or None)
        yield from cursor


def listed(numbers):
    """Numbers as PostgreSQL reads an array."""
    return "{" + ",".join(map(str, numbers)) + "}"
