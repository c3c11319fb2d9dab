"""story_words: what a line of a script did, or why it was refused, in a sentence.

The reason for a refusal is the word of the answer; the history says which step stands in the way, and how.
"""
import collections
import re

import chains
from drawing import said
from unreadable import either, listed, unreadable

SORTS = {"int": "an int", "bool": "a bool", "text": "a text"}
TAKEN = {"recv": "received what {0} sent", "pick": "picked what {0} chose"}


def steps(numbers):
    """Steps by their numbers, which rise; more than two neighbours by the first and the last."""
    runs = chains.runs(numbers)
    names = [name for first, last in runs for name in (
        [f"{first} to {last}"] if last > first + 1 else map(str, range(first, last + 1)))]
    return f"step{'s' * (len(numbers) > 1)} {listed(names)}"


def expected(expects):
    """What a role expects, as one says it."""
    act, *rest = expects.split(" ")
    if act == "end":
        return "nothing, since its part has ended"
    if act in ("choose", "pick"):
        return f"to {act} {either(rest[1:])} {'for' if act == 'choose' else 'from'} {rest[0]}"
    return f"to send {rest[0]} {SORTS[rest[1]]}" if act == "send" else f"to receive {SORTS[rest[1]]} from {rest[0]}"


def link(made, number, before):
    """Why a step depends directly on one before it."""
    it, other = made[number], made[before].step.role
    if it.takes == before:
        return f"{it.step.role}'s step {number} " + TAKEN[it.step.act].format(f"{other}'s step {before}")
    return f"{it.step.role}'s step {number} came after its step {before}"


# --- Refusals --------------------------------------------------------------------------------------------------------

def refusal(session, line, answer):
    """Why a line is refused, by the session as it stands."""
    word, *number = answer.split(" ")[1:]
    if word == "line":
        return f"This can't be read: {unreadable(line, session.types)[1]}."
    role, verb, *parts = line.decode("ascii").split(" ", 3)
    return REASONS[word](session, role, verb, parts, *map(int, number))


def next_of(session, role):
    """What comes next for a role, as the end of a sentence."""
    return f"what comes next for {role} is {expected(session.expects(role))}"


def wrong_act(session, role, verb, _):
    """The type allows an act of another kind."""
    verb = "receive" if verb == "recv" else verb
    return f"{role} asks to {verb}, but {next_of(session, role)}."


def wrong_peer(session, role, verb, parts):
    """The type names another peer."""
    verb = {"send": "send to", "recv": "receive from", "choose": "choose for", "pick": "pick from"}[verb]
    return f"{role} asks to {verb} {parts[0]}, but {next_of(session, role)}."


def wrong_sort(session, role, _, parts):
    """The value is of another sort."""
    sort = "a text" if parts[1].startswith('"') else "a bool" if parts[1] in ("true", "false") else "an int"
    return f"{parts[1]} is {sort}, but {next_of(session, role)}."


def no_label(session, role, _, parts):
    """No branch has the label."""
    return f"{parts[1]} is no label of this choice: {next_of(session, role)}."


def ended(_session, role, *_):
    """The role's part has ended."""
    return f"{role}'s part of the protocol has ended. It can still mark, commit, and take steps back."


def nothing_queued(session, role, _, parts):
    """No message waits: its sender has something to do first."""
    return f"No message waits for {role} from {parts[0]}: {next_of(session, parts[0])}."


def mismatch(_session, role, _, parts):
    """The message that waits first isn't expected."""
    return f"The message that waits first from {parts[0]} is another than {role} expects."


def no_step(session, _role, _verb, parts):
    """No step of that number survives: it was taken back, or there was none."""
    number = int(parts[0])
    line, role = session.skipped.get(number, (None, None))
    if number in session.made:
        line, role = session.made[number].gone, session.made[number].by
    if role:
        return f"{role} took step {number} back, in line {line}."
    return f"No step has the number {number}" + (" yet." if number > session.newest else ".")


def not_yours(session, role, _, parts):
    """The step is another role's."""
    owner = session.made[int(parts[0])].step.role
    return f"Step {parts[0]} is {owner}'s, and {role} can take back its own steps alone."


def needed(session, _role, _verb, parts, number):
    """Another step depends on it, directly, since it is the first of those that do."""
    return f"{link(session.made, number, int(parts[0]))}: take that back first."


def final(session, role, verb, parts, number):
    """A commit stands in the way: it is the step itself, or depends on it."""
    first = int(parts[0]) if verb != "back" else first_after(session, role, parts[0])
    if first == number:
        return f"Step {number} is a commit, and nothing takes a commit back."
    chain = chains.chain(session.made, first, number)
    which = f"step {first}" + f", {role}'s first after its mark {parts[0]}" * (verb == "back")
    return (f"Step {number} is a commit, which nothing takes back, and it depends on {which}: "
            + ", ".join(link(session.made, *reversed(pair)) for pair in zip(chain, chain[1:])) + ".")


def first_after(session, role, mark):
    """The role's first step after its last mark of that name."""
    past = session.past[role]
    return past[1 + max(at for at, it in enumerate(past) if session.made[it].step[2:5] == ("mark", None, mark))]


def no_mark(session, role, _, parts):
    """No mark of that name survives."""
    gone = [it for it in session.made.values() if it.gone and it.step[1:5] == (role, "mark", None, parts[0])]
    if gone:
        last = gone[-1]
        return f"{role}'s mark {parts[0]}, step {last.step.number}, was taken back by {last.by} in line {last.gone}."
    return f"{role} has no mark {parts[0]}."


REASONS = {
    "ended": ended, "wrongact": wrong_act, "wrongpeer": wrong_peer, "wrongsort": wrong_sort, "nolabel": no_label,
    "nothingqueued": nothing_queued, "mismatch": mismatch, "nostep": no_step, "notyours": not_yours, "final": final,
    "needed": needed, "nomark": no_mark,
    "full": lambda *_: "The journal has 100,000 entries, and can't have more.",
    "memory": lambda *_: "Memory ran out in this command. Nothing has changed.",
}


# --- What was done ---------------------------------------------------------------------------------------------------

def told(session, line, answer):
    """What an accepted line did, by the session after it."""
    role, verb, *parts = line.decode("ascii").split(" ", 3)
    kind, *numbers = answer.split(" ")
    if kind == "done":
        return f"Step {numbers[0]}: {done(session.made[int(numbers[0])])}."
    if kind == "undone":
        return undone(session, role, verb, parts, [int(it) for it in numbers])
    if kind == "news":
        lost = f"its {steps(sorted(map(int, numbers[1:])))}" if numbers[1:] else "none of its steps"
        since = f" after the first {parts[0]}" if parts[0] != "0" else ""
        return f"{role} asks for news. The journal has {entries(int(numbers[0]))}. Others took back {lost}{since}."
    return f"{role} asks how the session stands. That changes nothing."


def entries(count):
    """So many entries of a journal."""
    return f"{count:,} {'entry' if count == 1 else 'entries'}"


def done(it):
    """What a step does."""
    step, what = it.step, said(it.step.what)
    return {
        "send": f"{step.role} sends {step.peer} {what}",
        "recv": f"{step.role} receives {what} from {step.peer}, which step {it.takes} sent, and keeps it as {step.name}",
        "choose": f"{step.role} chooses {what} for {step.peer}",
        "pick": f"{step.role} picks {what} from {step.peer}, which step {it.takes} chose",
        "mark": f"{step.role} leaves the mark {step.name}",
        "commit": f"{step.role} commits. Nothing can take back this step any more, nor anything on which it depends",
    }[step.act]


def undone(session, role, verb, parts, numbers):
    """What an undo, a rollback or a return to a mark took back."""
    own, others = [], collections.defaultdict(list)
    for number in sorted(numbers):
        owner = session.made[number].step.role
        (own if owner == role else others[owner]).append(number)
    returns = f"{role} returns to its mark {parts[0]}, and " if verb == "back" else ""
    if not numbers:
        return f"{returns}nothing is taken back, since no step of {role} came after it."
    more = ", ".join(f"{steps(numbers)} of {it}" for it, numbers in sorted(others.items(), key=lambda it: it[1]))
    return (f"{returns or role + ' '}takes back its {steps(own)}"
            + f", and with {'it' if len(own) == 1 else 'them'} {more}" * bool(more) + ".")
