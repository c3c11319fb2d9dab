"""api_python: a role's states as classes, in Python."""
import re
import textwrap

from protocols import load, spelled
from states import is_plain, states_of

SORTS = {"int": "int", "bool": "bool", "text": "str"}  # what a sort is in Python
ARTICLES = {"int": "an int", "bool": "a bool", "text": "a text"}
WIDTH = 120  # of a line that may be broken

MODULE = '''\
"""{role}'s part in the protocol below, as classes. It is

{local}

`mps api python FILE {words}` wrote this. docs/STATES.md says how it is used; cizhmolat_states.py and cizhmolat.py stand beside it.
"""
from __future__ import annotations

{imports}

import cizhmolat_states
from cizhmolat import Role
from cizhmolat_states import Act, Part

PROTOCOL = """\
{protocol}
"""
FULL_MERGING = {full}  # whether the protocol needs it
{classes}

{unions}

class TakenBack(cizhmolat_states.TakenBack):
    """Others took back steps of {role}."""
    state: Input


PART = Part("{role}", {start}, TakenBack)
{acts}

def resume(role: Role) -> State:
    """The state in which {role} stands: at the start, after a restart, and after Unsure."""
    return cast(State, cizhmolat_states.resume(role, PART))


def places(state: State) -> list[State]:
    """The states in which the steps of {role} were done that survive, in order: `state.back_to` takes each."""
    return [cast(State, deed.place) for deed in state.deeds]
'''

CLASS = '''

class {name}(cizhmolat_states.State):
    """{what}"""
'''

SEND = '''
    def send_{peer}(self, value: {type}) -> {then}:
        """Sends the {sort} to {peer}."""
        return self._send(value, {then})
'''

RECV = '''
    def recv_{peer}(self, timeout: float = 60) -> tuple[{type}, {then}]:
        """Waits for the {sort} from {peer}, and keeps it in the slot `{slot}`."""
        return self._recv({type}, {then}, timeout)
'''

CHOOSE = '''
    def choose_{label}(self) -> {then}:
        """Tells {peer} that it is `{label}`."""
        return self._choose("{label}", {then})
'''

PICK = '''
    def pick_{peer}(self, timeout: float = 60) -> {picked}:
        """Waits for the label that {peer} chooses."""
        return cast("{picked}", self._pick(timeout))
'''

PICKED = '''

@dataclass(frozen=True)
class {name}_{label}:
    """{peer} chose `{label}`."""
    state: {then}
    label: ClassVar[Literal["{label}"]] = "{label}"
'''

ALWAYS = '''
    @property
    def kept_{slot}(self) -> {type}:
        """The newest {sort} in the slot `{slot}`."""
        return cast({type}, self._kept["{slot}"])
'''

MAYBE = '''
    @property
    def kept_{slot}(self) -> Optional[{type}]:
        """The newest {sort} in the slot `{slot}`, if one was received."""
        return cast("Optional[{type}]", self._kept.get("{slot}"))
'''


def module(text, role, slots=(), full=False):
    """The module for a role of the protocol that the text spells. What it receives goes to these slots, if there are any."""
    local = load(text, full)[role]
    states, start = states_of(local, slots)
    names = [state.name for state in states]
    inputs = [state.name for state in states if state.is_input]
    classes = "".join(class_of(role, state) for state in states)
    unions = (f"State = Union[{', '.join(names)}]", f"Input = Union[{', '.join(inputs or names)}]")
    return MODULE.format(
        role=role, words=" ".join([role, *slots, *(["--merging full"] if full else [])]), local=wrapped(spelled(local), "    ", "    "), imports=imports(classes), full=full and not is_plain(text), classes=classes,
        protocol="\n".join(wrapped(line) for line in text.decode("ascii").strip().expandtabs().splitlines()),
        unions="".join(map(code, unions)), start=start.name,
        acts="".join(code(act_of(state)) for state in states))


def imports(classes):
    """The lines that import what these classes name."""
    names = [name for name in ("ClassVar", "Literal", "Optional", "Union", "cast")
             if name in ("Union", "cast") or f"{name}[" in classes]
    data = "from dataclasses import dataclass\n" if "@dataclass" in classes else ""
    return f"{data}from typing import {', '.join(names)}"


def wrapped(text, indent="", more=""):
    """The text in lines, where it is too long for one; those after the first begin with more."""
    if len(indent) + len(text) <= WIDTH:
        return indent + text
    return textwrap.fill(text, WIDTH, initial_indent=indent, subsequent_indent=more, break_long_words=False, break_on_hyphens=False)


def code(text):
    """A line of code, which goes on in further ones within its first bracket where it is too long."""
    if len(text) <= WIDTH:
        return f"{text}\n"
    at = re.search(r"[\[(]", text).end()
    rest = wrapped(text[at:].replace(": ", ":\0"), "    ", "    ")  # a key isn't parted from what it has
    return f"{text[:at]}\n{rest}\n".replace("\0", " ")


def class_of(role, state):
    """The text of a role's state, and of the labels that it picks."""
    kept = "".join((ALWAYS if it.always else MAYBE).format(slot=slot, sort=it.sort, type=SORTS[it.sort])
                   for slot, it in state.bound.items())
    head = CLASS.format(name=state.name, what=wrapped(what(role, state), more="    "))
    return head + methods_of(state) + kept + (picked_of(state) if state.kind == "pick" else "")


def what(role, state):
    """What the protocol has the role do in a state."""
    labels = " or ".join(f"`{label}`" for label in state.then)
    here = f"After {', '.join(f'`{label}`' for label in state.after)}" if state.after else "Here"
    return {"send": f"{here} {role} sends {ARTICLES.get(state.sort)} to {state.peer}.",
            "recv": f"{here} {role} receives {ARTICLES.get(state.sort)} from {state.peer}.",
            "choose": f"{here} {role} tells {state.peer} which it is: {labels}.",
            "pick": f"{here} {state.peer} tells {role} which it is: {labels}.",
            "end": f"The end of what {role} does. Others may still take it back, unless it commits."}[state.kind]


def methods_of(state):
    """The methods of what a state allows."""
    facts = {"peer": state.peer, "slot": state.slot, "sort": state.sort, "type": SORTS.get(state.sort), "picked": picked(state)}
    if state.kind == "pick":
        return PICK.format(**facts)
    form = {"send": SEND, "recv": RECV, "choose": CHOOSE, "end": ""}[state.kind]
    return "".join(form.format(**facts, label=word, then=then.name) for word, then in state.then.items())


def picked(state):
    """The name of what is picked in a state: of PickBob_2 it is PickedBob_2."""
    return f"Picked{state.name[len('Pick'):]}"


def picked_of(state):
    """The classes of the labels that may be picked in a state, and their union."""
    classes = "".join(PICKED.format(name=state.name, peer=state.peer, label=label, then=then.name)
                      for label, then in state.then.items())
    cases = ", ".join(f"{state.name}_{label}" for label in state.then)
    return classes + "\n\n" + code(f"{picked(state)} = Union[{cases}]")


def act_of(state):
    """The line that says what a state allows."""
    then = ", ".join(f'"{word}": {after.name}' for word, after in state.then.items())
    words = [f'"{state.kind}"', f'"{state.peer}"', f"{{{then}}}", *([f'"{state.slot}"'] if state.slot else [])]
    if state.kind == "pick":
        words.append("picked={" + ", ".join(f'"{label}": {state.name}_{label}' for label in state.then) + "}")
    return f"{state.name}.act = Act({', '.join(words)})"
