#!/usr/bin/env python3
"""client: speaks for one role of a session of a server, `./mps host` or `./mps serve`.

usage: client.py PORT SESSION ROLE [FILE]

It joins as the role, sends each line of standard input as a command, and prints the answers. FILE keeps the number of the
newest command, so that a client that is started again goes on from there: where the answer to the last command was lost,
it comes when that command is given again. To give a new one with the same words, first give the line `settle`, which is
answered `settled`, with the lost answer and its command if there is one. Without FILE the server is asked for the number.

It ends with 0 at the end of the input, and with 1, after saying why on standard error, where it isn't used like this, can't
join, loses the server or the role to another client, can't keep FILE, or can't print an answer, which it says too."""
import os
import pathlib
import sys

sys.path.insert(0, str(pathlib.Path(__file__).resolve().parent.parent.parent / "clients" / "python"))
from cizhmolat import Error, Role  # noqa: E402


def answer(role, line):
    """The answer to a line. No line with other bytes than those of ASCII can be sent, and the server would refuse it."""
    if line == b"settle":
        lost = role.settle()
        return " ".join(["settled", *filter(None, (lost.answer, lost.command) if lost else ())])
    return role.ask(line.decode("ascii")) if line.isascii() else "refused line"


def show(text):
    """Prints a line at once."""
    try:
        print(text, flush=True)
    except OSError as error:
        os.dup2(os.open(os.devnull, os.O_WRONLY), sys.stdout.fileno())  # lest python tries again at its end
        sys.exit(f"can't print the answer {text}: {error}")


def main():
    if len(sys.argv) not in (4, 5):
        sys.exit(__doc__)
    if sys.stdout is None:
        sys.exit("there is no standard output for the answers")
    port, session, role, *file = sys.argv[1:]
    try:
        with Role(int(session), role, int(port), numbers=file[0] if file else None) as it:
            for line in sys.stdin.buffer:
                show(answer(it, line.rstrip(b"\n")))
    except (Error, ValueError) as error:
        sys.exit(str(error))


main()
