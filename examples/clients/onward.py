#!/usr/bin/env python3
"""onward: the numbers from 1 to ITEMS, from one role of examples/onward.protocol to the other, through as many sessions as it
takes, of a server like `./mps host`.

usage: onward.py PORT SESSION ITEMS [MOST]

A session takes 100,000 entries. So after MOST items, 10,000 if it isn't given, the source chooses `onward`, and both go on in the
session with the next number. Where each stands its sessions tell, and its newest numbers are in files of the folder in which this
runs: so it may be ended at any time, and started again there with the same words."""
import itertools
import pathlib
import sys
import threading

sys.path.insert(0, str(pathlib.Path(__file__).resolve().parent.parent.parent / "clients" / "python"))
from cizhmolat import Role  # noqa: E402


def sessions(name, port, first):
    """The role in one session after the other, with how it stands there."""
    for session in itertools.count(first):
        with Role(session, name, port, numbers=f"{name}.{session}") as role:
            role.settle()
            yield role, role.standing()


def acts(standing, act):
    """How many steps of that kind the role did."""
    return [step.act for step in standing.steps].count(act)


def source(port, first, items, most):
    sent = 0
    for role, standing in sessions("source", port, first):
        here, expects = acts(standing, "send"), standing.expects
        while expects != "end":
            if expects.startswith("send"):
                here += 1
                role.send("sink", sent + here)
                expects = "choose"
            elif here < most and sent + here < items:
                role.choose("sink", "item")
                expects = "send"
            else:
                role.choose("sink", "onward")
                expects = "end"
        sent += here
        if sent >= items:
            return


def sink(port, first, items):
    received = []
    for role, standing in sessions("sink", port, first):
        received += [step.value for step in standing.steps if step.act == "recv"]
        expects = standing.expects
        while expects != "end":
            if expects.startswith("recv"):
                received.append(role.receive("source", "x").value)
                expects = "pick"
            else:
                expects = "recv" if role.pick("source").label == "item" else "end"
        if len(received) >= items:
            return received, role.session


def main(port, first, items, most=10_000):
    sender = threading.Thread(target=source, args=(port, first, items, most), daemon=True)
    sender.start()
    received, last = sink(port, first, items)
    sender.join()
    print(f"received {len(received)} in the sessions {first} to {last}, {'in' if received == sorted(received) else 'out of'} order")


if __name__ == "__main__":
    if len(sys.argv) not in (4, 5):
        sys.exit(__doc__)
    main(*map(int, sys.argv[1:]))
