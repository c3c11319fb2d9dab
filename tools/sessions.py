"""sessions: who is there, of the sessions that a folder records, or that recorders keep in PostgreSQL. It asks no server, takes no lock
and changes nothing."""
import collections
import gc
import os
import shutil
import sys
import time

import explain
import output
import sessions_database
import sessions_folder
import sessions_page
import spread
from journal import Unread
from protocols import Fault
from sources import HOME

PAUSE = 2.0  # seconds from one look to the next
HEAD = ("session", "entries", "age", "stands", "waits", "uncommitted", "recorder", "wrong")
AGES = ((86400, "d"), (3600, "h"), (60, "min"))  # how many seconds each unit of an age has
RIGHT = ("session", "entries", "age", "uncommitted")  # what is flush right
WITH_VALUE = ("--html", "--database")
OPTIONS = (*WITH_VALUE, "--newest", "--watch")
Asked = collections.namedtuple("Asked", "folder database html newest watch")


def asked(words):
    """What these words after `mps sessions` ask for, or nothing where they are wrong."""
    folders, found, rest = [], {}, iter(words)
    for word in rest:
        if word in found or word.startswith("-") and word not in OPTIONS:
            return None
        if word in OPTIONS:
            found[word] = next(rest, "--") if word in WITH_VALUE else word
        else:
            folders.append(word)
    html, database = found.get("--html", "-"), found.get("--database")
    if len(folders) + (database is not None) != 1 or html.startswith("-") and html != "-" or (database or "").startswith("-"):
        return None
    return Asked(*folders or [None], database, found.get("--html"), "--newest" in found, "--watch" in found)


# --- What is told ----------------------------------------------------------------------------------------------------

def head(source):
    """The names of the columns."""
    return HEAD if source.has_recorders else tuple(name for name in HEAD if name != "recorder")


def cells(rows, source):
    """What stands in each column of each row. Of rows that share how they stand that is spelled once."""
    spelled, now = {}, time.time()
    for row in rows:
        shared = id(row.stands), id(row.waits)
        if shared not in spelled:
            spelled[shared] = "; ".join(f"{role}: {it}" for role, it in row.stands.items()), ", ".join(waiting(row))
        counts = ("-", "-") if row.entries is None else (str(row.entries), str(row.uncommitted))
        last = (row.recorder, row.wrong) if source.has_recorders else (row.wrong,)
        yield str(row.number), counts[0], age(row.changed, now), *spelled[shared], counts[1], *last


def age(changed, now):
    """For how long a journal hasn't been changed."""
    if changed is None:
        return "-"
    seconds = max(0, int(now - changed))
    for unit, name in AGES:
        if seconds >= unit:
            return f"{seconds // unit} {name}"
    return f"{seconds} s"


def waiting(row):
    """Who waits for whom; and whether that is for ever."""
    for role, peer in row.waits.items():
        why = " (ended)" if row.stands[peer] == "end" else " (a circle)" if is_circle(role, row.waits) else ""
        yield f"{role} for {peer}{why}"


def is_circle(role, waits_for):
    """Whether a role waits for one that waits for it, through any number of others."""
    at = waits_for[role]
    for _ in waits_for:
        if at == role:
            return True
        at = waits_for.get(at)
    return False


def summary(rows, source):
    """How many sessions there are, and how they stand."""
    counts = {"ended": sum(row.is_ended for row in rows), "waiting": sum(bool(row.waits) and not row.wrong for row in rows),
              "damaged": sum(bool(row.wrong) for row in rows)}
    told = ", ".join(f"{count:,} {what}" for what, count in counts.items())
    return f"{len(rows):,} {'session' if len(rows) == 1 else 'sessions'}: {told}. The age is that of the {source.age_of}."


def table(rows, source):
    """The lines of the table."""
    names = head(source)
    lines = [names, *cells(rows, source)]
    wide = [max(map(len, column)) for column in zip(*lines)]
    form = "  ".join(f"{{:{'>' if name in RIGHT else '<'}{far}}}" for name, far in zip(names, wide)).format
    for line in lines:
        yield form(*line).rstrip()


def painted(rows, source):
    """The table and the summary, in the place of what a terminal shows: as much as it has room for."""
    size = shutil.get_terminal_size()
    lines = [*list(table(rows[:size.lines], source))[:max(1, size.lines - 2)], summary(rows, source)]
    return "\x1b[H" + "\x1b[K\n".join(line[:size.columns] for line in lines) + "\x1b[K\x1b[J"


def put(page, path):
    """Writes the page, which comes to its place whole or not at all."""
    beside = f"{path}.{os.getpid()}"
    try:
        with open(beside, "w", encoding="utf-8") as file:
            file.write(page)
        os.replace(beside, path)
    finally:
        if os.path.exists(beside):
            os.remove(beside)


def show(rows, source, wanted):
    """Writes what is wanted of the rows."""
    if wanted.newest:
        rows = sorted(rows, key=lambda row: -(row.changed or 0))
    if wanted.html is not None:
        page = sessions_page.page(source, head(source), [*zip(rows, cells(rows, source))], summary(rows, source))
        output.write(page) if wanted.html == "-" else put(page, wanted.html)
    elif wanted.watch and os.isatty(1):
        output.write(painted(rows, source))
    else:
        output.write("\n".join([*table(rows, source), summary(rows, source), ""]))


def run(full, library, wanted):
    """Tells who is there, by the library in that folder, and gives the exit status: 2 where no sessions can be read, and 3 where
    the protocol of a folder is refused."""
    os.environ["CIZHMOLAT_DIR"] = library
    sys.path[:0] = [os.path.join(HOME, "bindings", "python"), os.path.join(HOME, "clients", "python")]
    gc.set_threshold(1_000_000)  # rows may be many, and none of them leads to itself
    try:
        in_folder = wanted.database is None
        source = sessions_folder.Folder(wanted.folder, full) if in_folder else sessions_database.Database(wanted.database, full)
        show(source.look(), source, wanted)
        while wanted.watch:
            time.sleep(PAUSE)
            rows = source.look()
            if wanted.html is None and not os.isatty(1):
                output.write("\n")
            show(rows, source, wanted)
        return 0
    except (Unread, spread.Ended) as error:
        output.tell(f"{error}\n")
        return 2
    except Fault as refused:
        line = f"{refused.line}\n".encode()
        output.tell(line + explain.told_of(os.path.join(wanted.folder, "protocol"), line, full=full))
        return refused.status
