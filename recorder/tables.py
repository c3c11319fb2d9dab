"""tables: the tables of sessions and of their journals' lines, and the statements over them.

A session's row is its fence. Who takes the session becomes its holder, by a number that no other ever has, and that is
committed before the lines are read. Lines are added for the newest holder alone, after those that are there, by the statement
that writes the session's row. So of two servers one adds nothing more, whatever it believes.

The row is written in any case, so that a commit waits for the standby also where no line came: so it says that nothing which
was read before can be lost.

A session's row also says which recorder has it, by a number of its own. As long as a recorder is connected it has an advisory
lock of that number. So a session may be taken whose recorder let go of it, or has its lock no more. The lock goes with the
connection, and with the primary: it says who may try, and not who may write. One lock for each session wouldn't do, since
PostgreSQL has room for some 7,000 where nothing else is set.
"""
import secrets
from typing import NamedTuple, Optional

# One recorder at a time makes what isn't there.
MAKE = """
do $$ begin
    perform pg_advisory_xact_lock(0);
    if to_regclass('entries') is null then
        create sequence holders;
        create table sessions (
            session numeric(20) primary key,
            protocol text not null,
            holder bigint not null,  -- whose lines are added
            recorder bigint,  -- which has it now
            entries bigint not null default 0,
            bytes bigint not null default 0,  -- of the journal: its mark and its lines
            mark text,
            opened timestamptz not null default now(),  -- by its holder
            changed timestamptz  -- when the last entry came
        ) with (fillfactor = 50);
        create table entries (
            session numeric(20) not null,
            entry bigint not null,
            holder bigint not null,
            role text not null,
            number numeric(20),
            command text not null,
            seal text not null,
            at timestamptz not null default now(),
            primary key (session, entry)
        );
    end if;
end $$"""
LOCK = "select pg_try_advisory_lock(%s)"
STAND = """
select session, s.protocol = a.protocol, recorder
from sessions s join unnest(%s::numeric[], %s::text[]) as a (session, protocol) using (session)"""
GONE = "select recorder from unnest(%s::bigint[]) as a (recorder) where pg_try_advisory_xact_lock(recorder)"
TAKE = """
insert into sessions as s (session, protocol, holder, recorder)
select session, protocol, nextval('holders'), %s from unnest(%s::numeric[], %s::text[]) as a (session, protocol)
on conflict (session) do update set holder = excluded.holder, recorder = excluded.recorder, opened = now()
    where s.protocol = excluded.protocol and (s.recorder is null or s.recorder = any(%s::bigint[]))
returning session, holder, entries, bytes, mark"""
READ = """
select coalesce(string_agg(concat_ws(' ', role, number, command, seal) || E'\\n', '' order by entry), ''), count(*),
    coalesce(min(entry), 1), coalesce(max(entry), 0)
from entries where session = %s"""
# What was added is added no second time where the statement is given again. The recorder is looked at too, since holders come
# again where a dump was restored, or a primary lost the end of what it wrote.
PREPARE = """
prepare add (numeric[], bigint[], bigint[], bigint[], bigint[], bigint[], text[],
    numeric[], bigint[], text[], numeric[], text[], text[], bigint) as
with asked as (
    select * from unnest($1, $2, $3, $4, $5, $6, $7) as a (session, holder, before, after, bytes_before, bytes_after, mark)
), moved as (
    update sessions s set entries = a.after, bytes = a.bytes_after, mark = a.mark,
        changed = case when s.entries = a.after then s.changed else now() end
    from asked a
    where s.session = a.session and s.holder = a.holder and s.recorder = $14
        and (s.entries, s.bytes) in ((a.before, a.bytes_before), (a.after, a.bytes_after))
    returning s.session, s.holder
), added as (
    insert into entries (session, entry, holder, role, number, command, seal)
    select l.session, l.entry, m.holder, l.role, l.number, l.command, l.seal
    from unnest($8, $9, $10, $11, $12, $13) as l (session, entry, role, number, command, seal) join moved m using (session)
    on conflict (session, entry) do nothing
)
select session from moved"""
ADD = """
execute add(%s::numeric[], %s::bigint[], %s::bigint[], %s::bigint[], %s::bigint[], %s::bigint[], %s::text[],
    %s::numeric[], %s::bigint[], %s::text[], %s::numeric[], %s::text[], %s::text[], %s)"""
# Sessions to which nothing more is added for that holder.
OVERTAKEN = """
select session from unnest(%s::numeric[], %s::bigint[]) as h (session, holder)
where not exists (select from sessions s where s.session = h.session and s.holder = h.holder and s.recorder = %s)"""
# A session without an entry leaves no row. One that has a new holder isn't let go of, though it may be the same recorder's.
LEAVE = """
with given as (
    select * from unnest(%s::numeric[], %s::bigint[]) as g (session, holder)
), removed as (
    delete from sessions s using given g where s.session = g.session and s.holder = g.holder and s.entries = 0
)
update sessions s set recorder = null from given g where s.session = g.session and s.holder = g.holder and s.entries > 0"""


class Taken(NamedTuple):
    """A session's row, as its new holder finds it."""
    session: int
    holder: int
    entries: int
    size: int
    mark: Optional[str]


class Changed(Exception):
    """The lines in the table aren't those of the session."""


def columns(rows, count):
    """These rows, of so many values each, as lists of the values of each column."""
    return [list(column) for column in zip(*rows)] if rows else [[] for _ in range(count)]


class Tables:
    """The tables in the database. Where PostgreSQL doesn't answer `add`, `leave` and `retake` wait; the others raise Away."""
    begin = (MAKE, PREPARE)

    def __init__(self, database):
        self.database = database
        self.recorder = secrets.randbelow(1 << 62) + 1
        self.locked_on = None  # the connection that has the recorder's lock

    def look(self):
        """Sees whether PostgreSQL is there, and to it that this recorder has its lock. After a connection broke PostgreSQL may
        still have the lock for that one."""
        if self.has_lock():
            self.database.look_again()
        elif self.database.ask(LOCK, (self.recorder,))[0][0]:
            self.locked_on = self.database.connection

    def has_lock(self):
        """Whether the recorder's lock was taken on the connection that there is."""
        return self.locked_on is not None and self.locked_on is self.database.connection

    def stand(self, protocols):
        """Of these sessions, each with its protocol, those that are of another one, and those that another recorder has; and the
        recorders that had some, and are gone. In the first seconds of a connection none is held to be gone: it may be about to
        take its lock again."""
        rows = self.database.ask(STAND, (list(protocols), list(protocols.values())))
        others, gone = {recorder for _, _, recorder in rows} - {None, self.recorder}, {self.recorder}
        if others and self.database.is_calm():
            gone.update(recorder for recorder, in self.database.ask(GONE, (list(others),)))
        others -= gone
        return ({int(session) for session, is_same, _ in rows if not is_same},
                {int(session) for session, is_same, recorder in rows if is_same and recorder in others}, gone)

    def take(self, protocols, gone):
        """Takes these sessions, each with its protocol: those of that protocol that no recorder has, or one of those that are
        gone."""
        rows = self.database.ask(TAKE, self.taking(protocols, gone))
        return {int(row[0]): Taken(int(row[0]), *row[1:]) for row in rows}

    def taking(self, protocols, gone):
        """The words with which these sessions are taken."""
        sessions = sorted(protocols)  # so that two recorders don't wait for each other
        return self.recorder, sessions, [protocols[it] for it in sessions], list(gone)

    def retake(self, protocols):
        """Takes these sessions where no other recorder has them, though it isn't known whether they were taken before, by a
        statement that may still be under way: this one is behind it. The holder of each."""
        rows = self.database.insist(TAKE, self.taking(protocols, {self.recorder}))
        return {int(session): holder for session, holder, *_ in rows}

    def read(self, taken):
        """The journal of a session that was just taken. What was read before it was taken might not be with the standby, and
        might not be all."""
        [[text, *found]] = self.database.ask(READ, (taken.session,))
        journal = (b"" if taken.mark is None else b" %s\n" % taken.mark.encode()) + text.encode()
        if found != [taken.entries, 1, taken.entries] or len(journal) != taken.size:
            raise Changed
        return journal

    def add(self, grown):
        """Adds what these sessions grew by, each with its holder: the sessions whose holder it is still."""
        rows, lines = [], []
        for (session, holder), growth in sorted(grown.items(), key=lambda it: it[0]):
            entries, size = growth.before
            rows.append((session, holder, entries, growth.entries, size, growth.size, growth.mark))
            for place, entry in enumerate(growth.added, entries + 1):
                lines.append((session, place, *entry))
        found = self.database.insist(ADD, [*columns(rows, 7), *columns(lines, 6), self.recorder])
        return {int(session) for session, in found}

    def overtaken(self, holders):
        """Of these sessions, each with its holder, those that another has by now, or nobody."""
        rows = self.database.ask(OVERTAKEN, [*columns(sorted(holders.items()), 2), self.recorder])
        return {int(session) for session, in rows}

    def leave(self, holders):
        """Has other recorders take these sessions, each with its holder, where it is that one's still."""
        self.database.insist(LEAVE, columns(sorted(holders.items()), 2))
