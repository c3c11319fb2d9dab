#!/usr/bin/env python3
"""relay: the three roles of examples/relay.protocol, each a process of its own, on a session of a server, `./mps host` or `./mps serve`.

usage: relay.py PORT SESSION

a gives b a number, and b gives c one. Then a finds that its number was wrong, and rolls its step back with all that came
of it, and b and c hear which of their steps went. On the same session it may be run again. It ends with 1 where it can't join,
or is refused."""
import multiprocessing
import pathlib
import sys
import time

sys.path.insert(0, str(pathlib.Path(__file__).resolve().parent.parent.parent / "clients" / "python"))
from cizhmolat import Error, Role  # noqa: E402

PAUSE = 0.05  # seconds between two questions


def a(role):
    step = role.send("b", 5)
    yield f"sent 5 in step {step}"
    while not any(row[1:3] == ["c", "recv"] for row in role.show()["history"]):
        time.sleep(PAUSE)
    time.sleep(PAUSE)  # for c to hear that its receipt stood
    yield f"took back {role.rollback(step)}"


def b(role):
    yield "received {1} in step {0}".format(*role.receive("a", "x"))
    yield f"sent 7 in step {role.send('c', 7)}"
    yield f"lost {lost(role)}"


def c(role):
    yield "received {1} in step {0}".format(*role.receive("b", "y"))
    yield f"lost {lost(role)}"


def lost(role):
    """The steps that others took back, as soon as there are some."""
    return role.news(role.heard, timeout=60).gone


def play(port, session, part):
    with Role(session, part.__name__, port) as role:
        return list(part(role))


if __name__ == "__main__":
    if len(sys.argv) != 3:
        sys.exit(__doc__)
    with multiprocessing.Pool(3) as pool:
        played = [pool.apply_async(play, (*map(int, sys.argv[1:]), part)) for part in (a, b, c)]
        try:
            for role, told in zip("abc", played):
                for line in told.get(timeout=60):
                    print(f"{role} {line}")
        except Error as error:
            sys.exit(str(error))
