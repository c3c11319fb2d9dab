#!/usr/bin/env python3
"""items: the three roles of items.protocol, each a process of its own, which may be killed at any time and started again.

usage: items.py ROLE PORT SESSION COUNT FILE

The source sends 0, 1, 2 and on, COUNT of them. Now and then it finds that its last ones were wrong, takes them back and sends them
again. The worker sends on twice each, and the sink writes to FILE what it received, once nobody can take that back. The server is
`./mps host items.protocol --merging full` or `./mps serve`; source.py, worker.py and sink.py are written by

    ./mps api python items.protocol ROLE --merging full > ROLE.py"""
import random
import sys
from pathlib import Path

import sink
import source
import worker
from cizhmolat import Role


def run_source(role: Role, count: int) -> None:
    state = source.resume(role)
    while not isinstance(state, source.End):
        sent = [deed.place for deed in state.deeds if deed.value == "item"]
        if isinstance(state, source.SendWorker):
            state = state.send_worker(len(sent) - 1)
        elif sent and random.random() < 0.1:
            place = sent[-random.randint(1, min(len(sent), 4))]
            assert isinstance(place, source.ChooseWorker)
            state = state.back_to(place)
        else:
            state = state.choose_item() if len(sent) < count else state.choose_done()


def run_worker(role: Role) -> None:
    state = worker.resume(role)
    while not isinstance(state, worker.End):
        try:
            if isinstance(state, worker.PickSource):
                state = state.pick_source().state
            elif isinstance(state, worker.RecvSource):
                _, state = state.recv_source()
            elif isinstance(state, worker.ChooseSink_1):
                state = state.choose_item()
            elif isinstance(state, worker.SendSink):
                state = state.send_sink(2 * state.kept_source)
            else:
                state = state.choose_done()
        except worker.TakenBack as taken:
            state = taken.state


def run_sink(role: Role, file: str) -> None:
    state = sink.resume(role)
    while True:
        try:
            if isinstance(state, sink.PickWorker):
                state = state.pick_worker().state
            elif isinstance(state, sink.RecvWorker):
                _, state = state.recv_worker()
            elif not state.is_final:
                state = state.commit()
            else:
                break
        except sink.TakenBack as taken:
            state = taken.state
    if state.due:
        got = [deed.value for deed in state.deeds if deed.act == "recv"]
        Path(file).write_text("".join(f"{item}\n" for item in got))
        state.mark("written")


if __name__ == "__main__":
    if len(sys.argv) != 6:
        sys.exit(__doc__)
    _, name, port, session, count, file = sys.argv
    with Role(int(session), name, int(port), numbers=f"{name}.numbers", patience=60) as role:
        if name == "source":
            run_source(role, int(count))
        elif name == "worker":
            run_worker(role)
        else:
            run_sink(role, file)
