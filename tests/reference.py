#!/usr/bin/env python3
"""reference: the monitor once more, plain and slow, for the program to be compared with.

It is written from docs/FORMATS.md and docs/DEFINITIONS.md and from nothing else, so that a reader can hold it against
them line by line. A history is a list of steps, and every answer comes from replaying it. Protocols and their local
types are read by tools/protocols.py, which is written in the same way.

reference.py check FILE | run FILE SCRIPT | same FILE SCRIPT SCRIPT, each with --merging plain|full or without
"""
import contextlib
import functools
import itertools
import json
import os
import re
import sys
from typing import NamedTuple

sys.dont_write_bytecode = True
sys.path.insert(0, os.path.join(os.path.dirname(os.path.dirname(os.path.realpath(__file__))), "tools"))
from protocols import (  # noqa: E402, F401
    Choice, End, Fault, Message, Rec, Var, is_name, load, spelled)

# --- Numbers and values ----------------------------------------------------------------------------------------------

def is_number(word):
    """`0`, or digits that don't begin with `0`, below 2^64."""
    return re.fullmatch("0|[1-9][0-9]{0,19}", word) is not None and int(word) < 2 ** 64


@functools.lru_cache(100_000)
def sort_of(word):
    """The sort of the value that is spelled so, or nothing. As each value has one spelling, a value is its spelling."""
    if word in ("true", "false"):
        return "bool"
    if re.fullmatch(r'"[ !#-\[\]-~]{0,256}"', word):
        return "text"
    if re.fullmatch("0|-?[1-9][0-9]{0,18}", word) and -2 ** 63 <= int(word) < 2 ** 63:
        return "int"
    return None


# --- The machine: views and what leads from one to the next ----------------------------------------------------------

class Act(NamedTuple):
    """A send, recv, choose, pick, mark or commit. The word is the value, the slot, the label or the mark's name."""
    kind: str
    peer: str | None
    word: str | None


IDLE = ("mark", "commit")  # the acts that give nothing and take nothing: each is allowed always


class Step(NamedTuple):
    """An act of a role, with its number."""
    number: int
    role: str
    act: Act


class View:
    """For each role its past, its type to come and its store; for each ordered pair of roles a queue.

    Of each step in a past, the message that it took stands beside it, or nothing. A message is its spelling, as no
    value is spelled like a label. A type to come is a part of the local type, with the `rec`s around it."""

    def __init__(self, types):
        self.past = {role: [] for role in types}
        self.types = {role: (node, {}) for role, node in types.items()}
        self.store = {role: {} for role in types}
        self.queues = {pair: [] for pair in itertools.product(types, types)}

    def head(self, role):
        """What the role's type allows first, with the `rec`s around: a variable leads back to its `rec`."""
        node, loops = self.types[role]
        while isinstance(node, (Rec, Var)):
            if isinstance(node, Rec):
                loops = {**loops, node.name: (node, loops)}
                node = node.body
            else:
                node, loops = loops[node.name]
        return node, loops


def violation(view, role, act):
    """Why an act isn't allowed: the first of seven reasons that applies, or nothing."""
    node, _ = view.head(role)
    if act.kind in IDLE:
        return None
    if isinstance(node, End):
        return "ended"
    if node.kind != act.kind:
        return "wrongact"
    if node.peer != act.peer:
        return "wrongpeer"
    branches = [word for word, _ in node.branches]
    if act.kind == "send":
        return None if sort_of(act.word) in branches else "wrongsort"
    if act.kind == "choose":
        return None if act.word in branches else "nolabel"
    waiting = view.queues[act.peer, role]
    if not waiting:
        return "nothingqueued"
    found = sort_of(waiting[0]) if act.kind == "recv" else waiting[0]
    return None if found in branches else "mismatch"


def rule(view, step):
    """Makes the view that after a step which is allowed, and gives the message that the step took."""
    role, act, taken = step.role, step.act, None
    if act.kind in ("recv", "pick"):
        taken = view.queues[act.peer, role].pop(0)
    if act.kind in ("send", "choose"):
        view.queues[role, act.peer].append(act.word)
    if act.kind == "recv":
        view.store[role][act.word] = taken
    if act.kind not in IDLE:
        node, loops = view.head(role)
        message = taken or act.word
        view.types[role] = dict(node.branches)[sort_of(message) or message], loops
    view.past[role].append((step, taken))
    return taken


def replay(types, history):
    """The view after these steps."""
    view = View(types)
    for step in history:
        rule(view, step)
    return view


# --- Dependence ------------------------------------------------------------------------------------------------------

def is_matched(history, s, t):
    """Whether step t receives what s sent: as many were sent before s as were received before t."""
    give, take = history[s], history[t]
    if give.act.kind not in ("send", "choose") or take.act.kind not in ("recv", "pick"):
        return False
    if (give.role, give.act.peer) != (take.act.peer, take.role):
        return False
    outputs = [it for it in history[:s] if it.role == give.role and it.act.kind in ("send", "choose")]
    inputs = [it for it in history[:t] if it.role == take.role and it.act.kind in ("recv", "pick")]
    return sum(it.act.peer == take.role for it in outputs) == sum(it.act.peer == give.role for it in inputs)


def depends_on(history, s, t):
    """Whether t depends directly on s: s is earlier, and both are one role's or t receives what s sent."""
    return s < t and (history[s].role == history[t].role or is_matched(history, s, t))


def consequences(history, s):
    """The places of a step and of all that depend on it, through any number of links, in order."""
    found = [s]
    for t in range(s + 1, len(history)):
        if any(depends_on(history, earlier, t) for earlier in found):
            found.append(t)
    return found


# --- Rooms: a session with its journal -------------------------------------------------------------------------------

class Entry(NamedTuple):
    """An accepted command but `news` and `show`: whose it was, and the steps that it took back, in their order."""
    role: str
    gone: list


class Room:
    """A session: the surviving steps, the number that the next one gets, and the journal."""

    def __init__(self, types):
        self.types, self.history, self.next, self.journal = types, [], 1, []

    def view(self):
        """The view to which the surviving steps lead."""
        return replay(self.types, self.history)

    def consequences(self, place):
        """The places of the step there and of all that depend on it."""
        return consequences(self.history, place)

    def is_full(self):
        """Whether the journal has as many entries as it may have."""
        return len(self.journal) >= 100_000

    def forward(self, role, act):
        """The answer to a step forward."""
        view = self.view()
        reason = violation(view, role, act) or (self.is_full() and "full")
        if reason:
            return f"refused {reason}"
        step = Step(self.next, role, act)
        taken = rule(view, step)
        self.history.append(step)
        self.next += 1
        self.journal.append(Entry(role, []))
        return f"done {step.number}" + (f" {taken}" if taken else "")

    def place_of_step(self, role, number):
        """The place of the step of that number, or why the role can't take it back."""
        places = [place for place, step in enumerate(self.history) if step.number == number]
        if not places:
            return None, "nostep"
        return places[0], None if self.history[places[0]].role == role else "notyours"

    def final(self, places):
        """The first commit among the steps at these places, as the reason why they can't be taken back, or nothing."""
        commits = [self.history[place].number for place in places if self.history[place].act.kind == "commit"]
        return f"final {commits[0]}" if commits else None

    def undo(self, role, number):
        """The answer to an undo."""
        place, reason = self.place_of_step(role, number)
        if reason is None:
            needed = self.consequences(place)[1:]
            reason = self.final([place]) or (f"needed {self.history[needed[0]].number}" if needed else None)
        return self.without(role, [place], reason)

    def rollback(self, role, number):
        """The answer to a rollback."""
        place, reason = self.place_of_step(role, number)
        places = [] if reason else self.consequences(place)
        return self.without(role, places, reason or self.final(places))

    def back(self, role, name):
        """The answer to a return to a mark: a rollback of the role's first step after its last mark of that name."""
        own = [place for place, step in enumerate(self.history) if step.role == role]
        marks = [place for place in own if self.history[place].act == Act("mark", None, name)]
        later = [place for place in own if marks and place > marks[-1]]
        places = self.consequences(later[0]) if later else []
        return self.without(role, places, self.final(places) if marks else "nomark")

    def without(self, role, places, reason):
        """The answer where the steps at these places are to be taken out, unless there is a reason against it."""
        reason = reason or (self.is_full() and "full")
        if reason:
            return f"refused {reason}"
        gone, left = [self.history[place] for place in reversed(places)], set(range(len(self.history))) - set(places)
        self.history = [self.history[place] for place in sorted(left)]
        self.journal.append(Entry(role, gone))
        return " ".join(["undone", *(str(step.number) for step in gone)])

    def news(self, role, number):
        """How many entries the journal has, and which of the role's steps others took back after the first `number`."""
        others = [entry for entry in self.journal[number:] if entry.role != role]
        gone = [step for entry in others for step in entry.gone if step.role == role]
        return " ".join(["news", str(len(self.journal)), *(str(step.number) for step in gone)])

    def show(self):
        """The session as it is shown."""
        view = self.view()
        past = sorted((it for role in self.types for it in view.past[role]), key=lambda it: it[0].number)
        queues = [[*pair, [shown_message(it) for it in waiting]] for pair, waiting in view.queues.items() if waiting]
        roles = [{"expects": expects(view.head(role)[0]), "past": [step.number for step, _ in view.past[role]],
                  "role": role, "store": [[slot, json.loads(value)] for slot, value in view.store[role].items()]}
                 for role in self.types]
        shown = {"history": [shown_step(*it) for it in past], "queues": queues, "roles": roles}
        return json.dumps(shown, separators=(",", ":"), sort_keys=True)


def shown_step(step, taken):
    """A step as it is shown; values are spelled as in JSON."""
    kind, peer, word = step.act
    shown = {"send": lambda: [peer, json.loads(word)], "choose": lambda: [peer, word], "pick": lambda: [peer, taken],
             "recv": lambda: [peer, word, json.loads(taken)], "mark": lambda: [word], "commit": lambda: []}
    return [step.number, step.role, kind, *shown[kind]()]


def shown_message(message):
    """A message as it is shown in a queue."""
    return json.loads(message) if sort_of(message) else {"label": message}


def expects(node):
    """What a type allows first, as it is shown."""
    return "end" if isinstance(node, End) else " ".join([node.kind, node.peer, *(word for word, _ in node.branches)])


# --- Script lines ----------------------------------------------------------------------------------------------------

def read_line(line, roles):
    """The role, the verb and the other parts of a line, or nothing where it is unreadable."""
    peer = roles.__contains__
    forms = {"send": (peer, sort_of), "recv": (peer, is_name), "choose": (peer, is_name), "pick": (peer,),
             "mark": (is_name,), "commit": (), "undo": (is_number,), "rollback": (is_number,), "back": (is_name,),
             "news": (is_number,), "show": ()}
    if len(line) > 512 or not line.isascii() or b" " not in line:
        return None
    role, verb, *parts = line.decode("ascii").split(" ", 3)
    if role not in roles or verb not in forms or len(parts) != len(forms[verb]):
        return None
    return (role, verb, parts) if all(test(it) for test, it in zip(forms[verb], parts)) else None


def answer(room, line):
    """The answer to a line."""
    read = read_line(line, room.types)
    if read is None:
        return "refused line"
    role, verb, parts = read
    if verb in ("undo", "rollback", "news"):
        return getattr(room, verb)(role, int(parts[0]))
    if verb == "back":
        return room.back(role, parts[0])
    if verb == "show":
        return room.show()
    peer, word = [None, *parts, None][:2] if verb in IDLE else [*parts, None][:2]
    return room.forward(role, Act(verb, peer, word))


def lines_of(script):
    """The lines of a script: the bytes before each LF, and a rest where there is one."""
    *lines, rest = script.split(b"\n")
    return [*lines, rest] if rest else lines


# Conversations, with numbered lines, have their place here: a class beside Room that hands it the commands, and an order
# beside the three below.

# --- The program -----------------------------------------------------------------------------------------------------

class Outcome(NamedTuple):
    """What the program comes to: its standard output, its fault line without the LF, or nothing, and its status. Where the
    status is no fault's, the line is what is told with -v."""
    out: bytes
    fault: str
    status: int


def check(protocol, full=False):
    """`check` of a protocol's text, under full or plain merging."""
    try:
        types = load(protocol, full)
    except Fault as fault:
        return Outcome(b"", fault.line, fault.status)
    return Outcome("".join(f"{role} : {spelled(node)}\n" for role, node in types.items()).encode(), "", 0)


def run(protocol, script, kind=Room, full=False):
    """`run` of a script under a protocol, in a room of that kind."""
    try:
        room = kind(load(protocol, full))
    except Fault as fault:
        return Outcome(b"", fault.line, fault.status)
    return Outcome("".join(f"{answer(room, line)}\n" for line in lines_of(script)).encode(), "", 0)


class Deeds(NamedTuple):
    """What each role did in the steps that survive a script, and took: all of a view that numbers leave open. And how many of
    the script's lines were refused, and how many there are."""
    view: tuple
    refused: int
    lines: int


def deeds(protocol, script, kind, full):
    """The deeds of a script under a protocol."""
    room = kind(load(protocol, full))
    answers = [answer(room, line) for line in lines_of(script)]
    view = room.view()
    done = {role: [(step.act, taken) for step, taken in past] for role, past in view.past.items()}
    refused = sum(said.startswith("refused") for said in answers)
    return Deeds((done, view.store, view.queues), refused, len(answers))


def same(protocol, first, second, kind=Room, full=False):
    """`same` of two scripts under a protocol."""
    try:
        found = [deeds(protocol, script, kind, full) for script in (first, second)]
    except Fault as fault:
        return Outcome(b"", fault.line, fault.status)
    told = [f"{which} script: {one.refused} of {one.lines} lines refused" for which, one in zip(("first", "second"), found)]
    told = "\n".join(told) if any(one.refused for one in found) else ""
    return Outcome(b"same\n", told, 0) if found[0].view == found[1].view else Outcome(b"different\n", told, 1)


def outcome_of(order, protocol, *scripts, full=False):
    """What an order over files comes to: the protocol is read and checked before a script is opened, and all scripts are
    opened before one is read. `-` is what the standard input has left."""
    try:
        with contextlib.ExitStack() as files:
            text = files.enter_context(open(protocol, "rb")).read()
            load(text, full)
            given = sys.stdin and sys.stdin.buffer
            opened = [given if script == "-" else files.enter_context(open(script, "rb")) for script in scripts]
            if None in opened:  # a standard input that was closed before this began
                raise OSError
            texts = [file.read() for file in opened]
    except Fault as fault:
        return Outcome(b"", fault.line, fault.status)
    except OSError as error:  # which has the name of a file that can't be opened
        return Outcome(b"", "refused read", 4) if error.filename is None else Outcome(b"", f"refused file {error.filename}", 2)
    return {"check": check, "run": run, "same": same}[order](text, *texts, full=full)


def main():
    words, merging = sys.argv[1:], "plain"
    if "--merging" in words:
        at = words.index("--merging")
        merging, words = "".join(words[at + 1:at + 2]), words[:at] + words[at + 2:]
    if [len(words), words[:1]] not in ([2, ["check"]], [3, ["run"]], [4, ["same"]]) or merging not in ("plain", "full"):
        print("usage: reference.py check FILE | run FILE SCRIPT | same FILE SCRIPT SCRIPT, with --merging plain|full or without",
              file=sys.stderr)
        sys.exit(2)
    found = outcome_of(*words, full=merging == "full")
    sys.stdout.buffer.write(found.out)
    if found.fault and found.status > 1:
        print(found.fault, file=sys.stderr)
    sys.exit(found.status)


if __name__ == "__main__":
    main()
