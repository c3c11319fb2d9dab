"""A store, which matches each state in which it may stand, and a reader, which takes a page back that it asked for too early."""
from typing import List, assert_never

import reader
import store
from cizhmolat import Role


def run_store(role: Role, pages: List[str]) -> None:
    state = store.resume(role)
    while True:
        try:
            match state:
                case store.PickReader():
                    picked = state.pick_reader()
                    match picked:
                        case store.PickReader_next(asked):
                            state = asked.send_reader(pages[sum(it.act == "send" for it in asked.deeds)])
                        case store.PickReader_stop(end):
                            state = end.commit()
                        case _:
                            assert_never(picked)
                case store.SendReader():  # of a program that was started again
                    state = state.send_reader(pages[sum(it.act == "send" for it in state.deeds)])
                case store.End():
                    if state.due:
                        return
                    state = state.commit()
                case _:
                    assert_never(state)
        except store.TakenBack as taken:
            state = taken.state


def run_reader(role: Role, count: int) -> List[str]:
    state = reader.resume(role)
    assert isinstance(state, reader.ChooseStore)
    _, early = state.choose_next().recv_store()
    _, early = early.choose_next().recv_store()
    state = early.back_to(state)
    got: List[str] = []
    while len(got) < count:
        page, state = state.choose_next().recv_store()
        got.append(page)
    state.choose_stop()
    return got
