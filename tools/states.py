"""states: the states of a role, from its local type.

A role stands in one state at a time. A state allows one act, and each sort or label of that act leads to a state. At the end
nothing is allowed. A state has a name by what it does, and one that receives a value has a slot, which keeps it.
"""
import dataclasses

from protocols import Fault, Local, Rec, Var, is_name, load

LONGEST = 32  # letters of a name


class Unfit(Exception):
    """The slots that were asked for can't be given."""


@dataclasses.dataclass
class Kept:
    """What a slot has in a state: a value of this sort, always or on some ways there."""
    sort: str
    always: bool


@dataclasses.dataclass(eq=False)
class State:
    """A state of a role.

    name    by what it does, such as SendBob; states that do the same are numbered, as SendBob_1
    kind    send, recv, choose, pick or end
    peer    with whom
    then    for each label, or for the one sort, the state that follows
    slot    that of what is received
    after   the labels on the way here, in the text of the type
    bound   each slot that may have a value here, with its sort, and whether it always has one
    """
    kind: str
    peer: str
    then: dict
    after: tuple = ()
    name: str = ""
    slot: str = ""
    bound: dict = dataclasses.field(default_factory=dict)

    @property
    def is_input(self):
        """Whether others can leave the role here, by taking back what it did after this."""
        return self.kind in ("recv", "pick")

    @property
    def sort(self):
        """The sort of what is sent or received."""
        return next(iter(self.then)) if self.kind in ("send", "recv") else ""


def states_of(local, slots=()):
    """The states of a local type, in the order of its text and the end last, if it is reached; and the first of them. What is
    received goes to these slots, one for each `recv` of the type in the order of its text, or where there are none to slots with
    the names of the senders."""
    states, start = found(local)
    name_all(states)
    give_slots([state for state in states if state.kind == "recv"], slots)
    bind(states, start)
    return states, start


def is_plain(text):
    """Whether plain merging accepts the protocol."""
    try:
        return bool(load(text))
    except Fault:
        return False


def found(local):
    """The states without names and slots, and the first of them."""
    first = head(local, {})
    acting, end, wanted = {}, State("end", "", {}), [(first, ())]
    while wanted:
        (node, loops), after = wanted.pop()
        if isinstance(node, Local) and id(node) not in acting:
            heads = {word: head(below, loops) for word, below in node.branches}
            acting[id(node)] = State(node.kind, node.peer, heads, after)
            wanted += reversed([(below, after + (word,) * (node.kind in ("choose", "pick"))) for word, below in heads.items()])
    for state in acting.values():
        state.then = {word: acting.get(id(node), end) for word, (node, _) in state.then.items()}
    start = acting.get(id(first[0]), end)
    is_reached = start is end or any(end in state.then.values() for state in acting.values())
    return [*acting.values(), *([end] if is_reached else [])], start


def head(node, loops):
    """What a type does first, with the `rec`s around it: a variable leads back to its `rec`."""
    while isinstance(node, (Rec, Var)):
        if isinstance(node, Rec):
            loops = {**loops, node.name: (node, loops)}
            node = node.body
        else:
            node, loops = loops[node.name]
    return node, loops


def name_all(states):
    """Names the states by what they do."""
    names = [camel(state.kind, state.peer) for state in states]
    for at, (state, name) in enumerate(zip(states, names)):
        state.name = name if names.count(name) == 1 else f"{name}_{names[:at].count(name) + 1}"


def camel(*words):
    """The words as one, in which each part has a capital."""
    return "".join(part[:1].upper() + part[1:] for word in words for part in word.split("_"))


def give_slots(receipts, names):
    """Gives a slot to each of these states. Those that share one have one sort."""
    if names and len(names) != len(receipts):
        raise Unfit(f"the role receives {len(receipts)} values, and {len(names)} slots were given")
    sorts = {}
    for state, slot in zip(receipts, names or own_slots([state.peer for state in receipts])):
        if not is_name(slot):
            raise Unfit(f"{slot} is no name of a slot")
        if sorts.setdefault(slot, state.sort) != state.sort:
            raise Unfit(f"the slot {slot} can't keep both {sorts[slot]} and {state.sort}")
        state.slot = slot


def own_slots(peers):
    """A slot of its own for each value from these peers: the peer's name, and a number from the second value on."""
    slots = []
    for at, peer in enumerate(peers):
        names = [peer, *(f"{peer}_{number}" for number in range(2, len(peers) + 2)), *(f"slot_{number}" for number in range(1, at + 2))]
        taken = {*slots, *peers} - ({peer} - {*slots})
        slots.append(next(name for name in names if name not in taken and len(name) <= LONGEST))
    return slots


def bind(states, start):
    """Tells each state which slots may have a value there, and whether they always have one."""
    always, ever = {start: frozenset()}, {start: frozenset()}
    changed = [start]
    while changed:
        state = changed.pop()
        for after in state.then.values():
            sure, possible = always[state] | {state.slot} - {""}, ever[state] | {state.slot} - {""}
            if after in always:
                sure, possible = always[after] & sure, ever[after] | possible
            if (sure, possible) != (always.get(after), ever.get(after)):
                always[after], ever[after] = sure, possible
                changed.append(after)
    slots = {state.slot: state.sort for state in states if state.slot}
    for state in states:
        state.bound = {slot: Kept(sort, slot in always[state]) for slot, sort in slots.items() if slot in ever[state]}
