"""The coordinator of a two-phase commit, which may be started again in each state."""
import coordinator as it
from cizhmolat import Role


def decide(role: Role) -> str:
    state = it.resume(role)
    while True:
        try:
            if isinstance(state, it.SendFirst):
                state = state.send_first("the sale")
            elif isinstance(state, it.SendSecond):
                state = state.send_second("the sale")
            elif isinstance(state, it.RecvFirst):
                _, state = state.recv_first()
            elif isinstance(state, it.RecvSecond):
                _, state = state.recv_second()
            elif isinstance(state, it.ChooseFirst):
                state = state.choose_commit() if state.kept_first_vote and state.kept_second_vote else state.choose_abort()
            elif isinstance(state, it.ChooseSecond_1):
                state = state.choose_commit()
            elif isinstance(state, it.ChooseSecond_2):
                state = state.choose_abort()
            else:
                return str(state.commit())
        except it.TakenBack as taken:
            state = taken.state
