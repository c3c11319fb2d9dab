"""api_rust: a module in Rust with a struct for each state of a role. It stands on bindings/rust/src/states.rs."""
import re
import textwrap

from protocols import load, spelled
from states import camel, is_plain, states_of

WIDTH = 100  # letters of a line, as rustfmt breaks them
SORTS = {"int": "i64", "bool": "bool", "text": "String"}  # what a sort is in Rust, and where a value is lent
LENT = {**SORTS, "text": "&str"}
SPOKEN = {"int": "an int", "bool": "a bool", "text": "a text"}

MODULE = '''\
//! The states of `{role}`, as `./mps api rust {words}` writes them.
//!
//! Its part in the protocol is
//!
//! ```text
{local}
//! ```
//!
//! The method of a state uses the state up, and gives the next one. `resume` gives the one in which `{role}` stands, and
//! [`Standing`](cizhmolat::states::Standing) has what every state can do.
#![allow(dead_code, clippy::enum_variant_names, clippy::upper_case_acronyms)]

use cizhmolat::states::{{self, {imports}}};
{value}
/// The protocol, for [`{opening}`](cizhmolat::{opening}).
pub const PROTOCOL: &str = "\\
{protocol}
";

/// Whether the protocol needs full merging.
pub const FULL_MERGING: bool = {full};

/// The state in which `{role}` stands in the room's session.
pub fn resume(room: &Shared) -> Result<State, Lost> {{
    states::resume(room)
}}

{structs}/// Each state of `{role}`.
#[derive(Debug)]
#[must_use]
pub enum State {{
{all}}}

/// {left}
#[derive(Debug)]
#[must_use]
pub enum Input {{{inputs}}}

cizhmolat::standing! {{
    role "{role}";
{table}    inputs [{places}];
}}
'''
STRUCT = '''\
/// {does}
#[derive(Debug)]
{must_use}pub struct {name}(Talk);

'''
SEND = '''\
    /// Sends the value.
{signature}
        self.0.send(Value::{variant})
    }}
'''
RECV = '''\
    /// Gives the value, which is kept as `{slot}`, and the next state.
{signature}
        self.0.recv()
    }}
'''
CHOOSE = '''\
    /// Chooses `{label}`.
{signature}
        self.0.choose("{label}")
    }}
'''
PICK = '''\
    /// Gives the branch that `{peer}` chose, with the next state.
{signature}
        self.0.pick({picked}::of)
    }}
'''
PICKED = '''\
/// What [`{name}`] picks.
#[derive(Debug)]
#[must_use]
pub enum {picked} {{
{variants}}}

impl {picked} {{
    fn of(label: &str, talk: Talk) -> Self {{
        match label {{
{arms}            other => unreachable!("{{other}} is no label of this pick"),
        }}
    }}
}}

'''
KEPT = '''\
    /// The newest value in the slot `{slot}`{often}.
{signature}
        self.0.{how}("{slot}")
    }}
'''


def module(text: bytes, role: str, slots: list[str], full: bool) -> str:
    """The module of a role of the protocol that the text spells. Its slots are those of states_of."""
    types = load(text, full)
    states, _ = states_of(types[role], slots)
    names = struct_names(states)
    inputs = [state for state in states if state.is_input]
    words = " ".join(["FILE", role, *slots, *(["--merging full"] if full else [])])
    is_needed = full and not is_plain(text)
    left = f"The states in which others may leave `{role}`, by taking steps back." if inputs else \
        f"Others can't take back what `{role}` does, as it receives nothing."
    return MODULE.format(
        role=role, words=words, local="\n".join(f"//! {line}" for line in textwrap.wrap(spelled(types[role]), WIDTH)),
        imports=", ".join(["Lost", "Shared", *(["Stopped"] if len(states) > 1 or states[0].then else []), "Talk"]),
        value="use cizhmolat::Value;\n" if any(state.kind == "send" for state in states) else "",
        opening="Room::open_full" if is_needed else "Room::open", protocol=lines_of(text), full=str(is_needed).lower(), left=left,
        structs="".join(struct(role, state, names) for state in states), all=variants(states, names),
        inputs="\n" + variants(inputs, names) if inputs else "",
        table="".join(row(at, state, names) for at, state in enumerate(states)),
        places=", ".join(f"{at} {names[state]}" for at, state in enumerate(states) if state.is_input))


def lines_of(text):
    """The protocol, in the lines of its text."""
    lines = re.sub("[\t\r]", " ", text.decode().strip(" \t\r\n")).split("\n")
    return "\n".join(line.rstrip() for line in lines)


# --- Names -----------------------------------------------------------------------------------------------------------

def struct_names(states):
    """Each state's struct. SendBob_2 is SendBob2 in Rust, and where that is the name of another SendBobNo2."""
    found, taken = {}, {state.name for state in states if "_" not in state.name}
    for state in states:
        base, line, number = state.name.partition("_")
        name = state.name if base[-1].isdigit() else base + number  # rustc takes a line between digits
        while number and name in taken:
            base, name = base + "No", f"{base}No{number}"
        found[state] = name
        taken.add(name)
    return found


def apart(words, spell, line=""):
    """Each word as it is spelled, and the later ones of those that are spelled alike with a number."""
    found, all_spelled = {}, [spell(word) for word in words]
    for word, name in zip(words, all_spelled):
        more = (f"{name}{line}{number}" for number in range(2, 2 * len(words) + 2))
        free = (other for other in more if other not in all_spelled and other not in found.values())
        found[word] = next(free) if name in found.values() else name
    return found


def snake(word):
    """The word as a part of a method's name, in which rustc wants single lines."""
    return re.sub("__+", "_", word)


def variant(label):
    """The label as the variant of an enum, whose name is no word of Rust's own."""
    return "Self_" if camel(label) == "Self" else camel(label)


def picked(name):
    """The enum of what a state picks."""
    return "Picked" + name.removeprefix("Pick")


# --- The parts of a module -------------------------------------------------------------------------------------------

def does(role, state):
    """What a role does in a state."""
    words = [*state.then] if state.sort else ["{", " , ".join(state.then), "}"]
    act = " ".join([state.kind, state.peer, *words])
    return {
        "send": f"`{role}` sends {SPOKEN.get(state.sort)} to `{state.peer}`: `{act}`.",
        "recv": f"`{role}` receives {SPOKEN.get(state.sort)} from `{state.peer}`: `{act}`.",
        "choose": f"`{role}` chooses a branch, and tells `{state.peer}`: `{act}`.",
        "pick": f"`{role}` goes into the branch that `{state.peer}` chose: `{act}`.",
        "end": f"The part of `{role}` has ended. Others may still take back what it did, unless it commits.",
    }[state.kind]


def struct(role, state, names):
    """A state's struct, with its methods."""
    name = names[state]
    methods = "\n".join([*acts(state, names), *kept(state)])
    text = STRUCT.format(does=does(role, state), must_use="" if state.kind == "end" else "#[must_use]\n", name=name)
    text += f"impl {name} {{\n{methods}}}\n\n" if methods else ""
    return text + (picked_enum(state, names) if state.kind == "pick" else "")


def acts(state, names):
    """The methods of what a state allows."""
    then, peer = [*state.then.values()], snake(state.peer)
    if state.kind == "send":
        sent = "Text(value.to_owned())" if state.sort == "text" else f"{state.sort.capitalize()}(value)"
        return [SEND.format(variant=sent, signature=act(f"send_{peer}", names[then[0]], f"value: {LENT[state.sort]}"))]
    if state.kind == "recv":
        return [RECV.format(slot=state.slot, signature=act(f"recv_{peer}", f"({SORTS[state.sort]}, {names[then[0]]})"))]
    if state.kind == "pick":
        enum = picked(names[state])
        return [PICK.format(peer=state.peer, picked=enum, signature=act(f"pick_{peer}", enum))]
    methods = apart([*state.then], snake, "_")
    return [CHOOSE.format(label=label, signature=act(f"choose_{methods[label]}", names[after]))
            for label, after in state.then.items()]


def act(name, result, *arguments):
    """The first lines of a method that uses a state up."""
    return signature(name, ["self", *arguments], f"Result<{result}, Stopped<Self, Input>>")


def signature(name, arguments, result):
    """The first lines of a method."""
    line = f"    pub fn {name}({', '.join(arguments)}) -> {result} {{"
    if len(line) <= WIDTH:
        return line
    return "\n".join([f"    pub fn {name}(", *(f"        {it}," for it in arguments), f"    ) -> {result} {{"])


def kept(state):
    """The methods that give what is kept in a state's slots."""
    methods = apart([*state.bound], snake, "_")
    found = []
    for slot, value in state.bound.items():
        result = LENT[value.sort] if value.always else f"Option<{LENT[value.sort]}>"
        how, often = ("kept", "") if value.always else ("kept_if_any", ", if there is one")
        first = signature(f"kept_{methods[slot]}", ["&self"], result)
        found.append(KEPT.format(slot=slot, how=how, often=often, signature=first))
    return found


def picked_enum(state, names):
    """The enum of what a state picks."""
    labels = apart([*state.then], variant)
    return PICKED.format(
        name=names[state], picked=picked(names[state]),
        variants="".join(f"    /// `{label}`.\n    {labels[label]}({names[after]}),\n" for label, after in state.then.items()),
        arms="".join(f'            "{label}" => Self::{labels[label]}(talk.at()),\n' for label in state.then))


def variants(states, names):
    """The variants of an enum of states."""
    return "".join(f"    /// [`{names[state]}`].\n    {names[state]}({names[state]}),\n" for state in states)


def row(at, state, names):
    """A state's row in the table of its module."""
    then = ", ".join(f'"{word}" {names[after]}' for word, after in state.then.items())
    return f'    {at} {names[state]} "{state.kind}{" " * bool(state.peer)}{state.peer}" [{then}] "{state.slot}";\n'
