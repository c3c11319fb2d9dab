#!/usr/bin/env python3
"""items_plain: does what items.py does, without the classes of the states.

usage: items_plain.py ROLE PORT SESSION COUNT FILE"""
import random
import sys
from pathlib import Path

from cizhmolat import Role, Standing, TakenBack, WrongAct


def next_act(standing: Standing) -> str:
    return standing.expects.split()[0]


def run_source(role: Role, count: int) -> None:
    role.settle()
    standing = role.standing()
    act, items = next_act(standing), [step.number for step in standing.steps if step.act == "choose" and step.name == "item"]
    while act != "end":
        if act == "send":
            role.send("worker", len(items) - 1)
            act = "choose"
        elif items and random.random() < 0.1:
            at = len(items) - random.randint(1, min(len(items), 4))
            role.rollback(items[at])
            del items[at:]
        elif len(items) < count:
            items.append(role.choose("worker", "item"))
            act = "send"
        else:
            role.choose("worker", "done")
            act = "end"


def run_worker(role: Role) -> None:
    role.settle()
    is_lost = True
    while True:
        if is_lost:
            standing = role.standing()
            act, item = next_act(standing), standing.store.get("item")
            label = next((step.name for step in reversed(standing.steps) if step.act == "pick"), None)
            is_lost = False
        try:
            if act == "pick":
                label = role.pick("source").label
                act = "recv" if label == "item" else "choose"
            elif act == "recv":
                item = role.receive("source", "item").value
                act = "choose"
            elif act == "choose":
                assert label is not None
                role.choose("sink", label)
                act = "send" if label == "item" else "end"
            elif act == "send":
                assert isinstance(item, int)
                role.send("sink", 2 * item)
                act = "pick"
            else:
                return
        except (TakenBack, WrongAct):
            is_lost = True


def run_sink(role: Role, file: str) -> None:
    role.settle()
    is_lost = True
    while True:
        if is_lost:
            standing = role.standing()
            act, last = next_act(standing), standing.steps[-1].act if standing.steps else None
            got = [step.value for step in standing.steps if step.act == "recv"]
            is_lost = False
        try:
            if act == "pick":
                act = "recv" if role.pick("worker").label == "item" else "end"
            elif act == "recv":
                got.append(role.receive("worker", "item").value)
                act = "pick"
            elif last not in ("commit", "mark"):
                role.commit()
                last = "commit"
            else:
                break
        except TakenBack:
            is_lost = True
    if last == "commit":
        Path(file).write_text("".join(f"{item}\n" for item in got))
        role.mark("written")


if __name__ == "__main__":
    if len(sys.argv) != 6:
        sys.exit(__doc__)
    _, name, port, session, count, file = sys.argv
    with Role(int(session), name, int(port), numbers=f"{name}.numbers", patience=60) as role:
        if name == "source":
            run_source(role, int(count))
        elif name == "worker":
            run_worker(role)
        else:
            run_sink(role, file)
