#!/usr/bin/env python3
# SPDX-License-Identifier: MIT OR Apache-2.0
"""engine FOLDER: runs 1,000 orders to their ends, each a session of workflow.protocol with a file of its own in the folder.
However it ends, also by kill -9, the next start goes on where each order's file left it. A room is open only while its order
takes steps, so any number of orders may be under way."""
import collections
import sys
from pathlib import Path

from cizhmolat_embed import Role, Room

PROTOCOL = Path(__file__).with_name("workflow.protocol").read_text(encoding="ascii")
ROLES = ("client", "store", "bank")
ORDERS = range(1, 1001)


def command(order: int, role: Role, wants: str) -> str:
    """What the role does about what its type wants. Here an engine calls its services: once more where it was ended before the
    line was accepted, so they take order, role and number as a key."""
    act, peer, *rest = wants.split()
    if act == "recv":
        return f"recv {peer} {'price' if rest == ['int'] else 'item' if role.role == 'store' else 'outcome'}"
    if act == "pick":
        return f"pick {peer}"
    if act == "choose":
        return f"choose {peer} {'paid' if int(role.slot('price') or 0) <= 900 else 'declined'}"
    if rest == ["int"]:
        return f"send {peer} {order}"
    if role.role == "client":
        return f'send {peer} "lamp {order}"'
    is_paid = role.standing().steps[-1].name == "paid"  # the label that it picked
    return f'send {peer} "shipped"' if is_paid else f'send {peer} "cancelled"'


def advance(order: int, room: Room) -> bool:
    """Has each role take the step that it can take now. Whether there was a role whose part hasn't ended."""
    is_over = True
    for role in (Role(room, name) for name in ROLES):
        wants = role.expects()
        if wants != "end":
            is_over, line = False, command(order, role, wants)
            if role.would(line) is None:  # else it waits for a message
                answer = room.ask(role.role, f"{role.newest + 1} {line}")  # given twice, a line counts once
                if not answer.startswith("done"):
                    raise SystemExit(f"order {order}: {role.role} {line}: {answer}")  # `refused journal` where a disk is full
    return not is_over


def main() -> None:
    folder, left = Path(sys.argv[1]), collections.deque(ORDERS)
    folder.mkdir(parents=True, exist_ok=True)
    while left:
        order = left.popleft()
        with Room(PROTOCOL, folder / f"{order}.journal", session=order) as room:  # with sync=True it outlives the machine too
            if advance(order, room):
                left.append(order)
    print(f"{len(ORDERS)} orders have ended")


main()
