#!/usr/bin/env python3
"""many: the three roles of many sessions of examples/relay.protocol, in one process and one thread, at a server like
`./mps host FILE --wait 60`.

usage: many.py PORT SESSION COUNT

In each of COUNT sessions from SESSION on, of which nobody used one yet, a gives b a number, and b gives c the next one, as soon
as it has it. In every tenth session a then takes its number back, with all that came of it, and b and c hear which of their
steps went. While all of them wait nothing runs. It ends with 1 where it can't join, or is refused."""
import contextlib
import pathlib
import sys

sys.path.insert(0, str(pathlib.Path(__file__).resolve().parent.parent.parent / "clients" / "python"))
from cizhmolat import Error, News, Role, Waiting  # noqa: E402


def main(port, first, count):
    sessions, received, lost = range(first, first + count), 0, 0
    with contextlib.ExitStack() as stack:
        roles = {(session, name): stack.enter_context(Role(session, name, port)) for session in sessions for name in "abc"}
        waiting = stack.enter_context(Waiting())
        for session in sessions:
            waiting.receive(roles[session, "c"], "b", "x")
            waiting.receive(roles[session, "b"], "a", "x")
        steps = {session: roles[session, "a"].send("b", session) for session in sessions}
        for outcome in waiting:
            role, made = outcome.role, outcome.result()
            if isinstance(made, News):
                lost += len(made.gone)
            elif role.role == "b":
                role.send("c", made.value + 1)
            else:
                received += made.value == role.session + 1
                if role.session % 10 == 0:
                    for it in (role, roles[role.session, "b"]):
                        waiting.news(it, it.heard)
                    roles[role.session, "a"].rollback(steps[role.session])
    print(f"received {received} in the sessions {first} to {first + count - 1}, and {lost} steps were taken back by others")


if __name__ == "__main__":
    if len(sys.argv) != 4:
        sys.exit(__doc__)
    try:
        main(*map(int, sys.argv[1:]))
    except Error as error:
        sys.exit(str(error))
