"""explain_script: which lines of a script are refused, and why, for the person who wrote it.

The program runs the script, and its answers say what is refused. Here they are followed: which steps survive them, and
where each role stands in its type. So the time is that of the answers, however long the script is.
"""
import collections
import contextlib
import itertools
import os
import re
import subprocess
import sys
import tempfile

import output
import story_words
from building import Stopped
from drawing import Step
from explain import pointed
from story_session import Session
from story_types import read_types
from unreadable import unreadable

MOST = 67_108_864  # bytes of a script that is no file
LONG = 2_000  # bytes of a line that are looked at
LINKS = 4  # of a chain of steps that is told
WANTS = ("wrongact", "wrongpeer", "wrongsort", "nolabel")  # reasons that the type alone gives


class Followed(Session):
    """A session that follows the answers to a script's lines."""

    def __init__(self, types):
        super().__init__(types)
        self.marks = collections.defaultdict(list)  # of each role and name the marks that survive
        self.lost = {}  # of each role and name the mark that was taken back last
        self.places = {}  # of each step its place among those of its role

    def expects(self, role):
        """What the role may do next."""
        return self.place(role).expects()

    def add(self, step, line):
        """Takes in a new step."""
        self.places[step.number] = len(self.past[step.role])
        super().add(step, line)
        if step.act == "mark":
            self.marks[step.role, step.name].append(step.number)

    def remove(self, number, line, role):
        """Takes out a step."""
        super().remove(number, line, role)
        step = self.made[number].step
        if step.act == "mark":
            self.marks[step.role, step.name].pop()
            self.lost[step.role, step.name] = self.made[number]

    def follow(self, number, line, answer):
        """Takes in the answer to that line of the script, where it was accepted."""
        kind, *words = answer.split(" ")
        role, verb, *parts = line.decode("ascii").split(" ", 3)
        if kind == "done":
            self.add(step_of(int(words[0]), role, verb, parts, " ".join(words[1:])), number)
        if kind == "undone":
            for gone in words:
                self.remove(int(gone), number, role)


def step_of(number, role, verb, parts, taken):
    """A step as the session keeps it, with the label that it gives or takes."""
    if verb in ("mark", "commit"):
        return Step(number, role, verb, None, parts[0] if parts else None, None)
    label = {"choose": parts[-1], "pick": taken}.get(verb)
    return Step(number, role, verb, parts[0], parts[1] if verb == "recv" else None, label and {"label": label})


# --- What is said of a refusal -----------------------------------------------------------------------------------------

def near(made, first, last):
    """A shortest chain from a step to one that depends on it, if it is short."""
    ways = [[last]]
    for _ in range(LINKS):
        ways = [[before, *way] for way in ways for before in (made[way[0]].takes, made[way[0]].follows) if before]
        found = next((way for way in ways if way[0] == first), None)
        if found:
            return found
    return []


def final(session, role, verb, parts, number):
    """A commit stands in the way: it is the step itself, or depends on it."""
    mark = session.marks[role, parts[0]][-1] if verb == "back" else None
    first = session.past[role][session.places[mark] + 1] if mark else int(parts[0])
    if first == number:
        return f"Step {number} is a commit, and nothing takes a commit back."
    chain = near(session.made, first, number)
    links = ", ".join(story_words.link(session.made, *reversed(pair)) for pair in zip(chain, chain[1:]))
    which = f"step {first}" + f", {role}'s first after its mark {parts[0]}" * (verb == "back")
    return f"Step {number} is a commit, which nothing takes back, and it depends on {which}{links and ': '}{links}."


def no_mark(session, role, _, parts):
    """No mark of that name survives."""
    last = session.lost.get((role, parts[0]))
    if last:
        return f"{role}'s mark {parts[0]}, step {last.step.number}, was taken back by {last.by} in line {last.gone}."
    return f"{role} has no mark {parts[0]}."


REASONS = {**story_words.REASONS, "final": final, "nomark": no_mark}  # in time that the script's length doesn't change


def refusal(session, line, answer):
    """Why a line is refused that can be read."""
    word, *number = answer.split(" ")[1:]
    role, verb, *parts = line.decode("ascii").split(" ", 3)
    told = REASONS[word](session, role, verb, parts, *map(int, number))
    return f"{told[:-1]} (`{session.expects(role)}`)." if word in WANTS else told


def told_of(session, number, line, answer):
    """Of a line that is refused where it is, and in the column where it can't be read; why; and the line."""
    at, why = unreadable(line, session.types) if answer == "refused line" else (0, None)
    _, column, shown, _ = pointed(line[:LONG], min(at, LONG))
    place = f"{number}:{column}" if why else f"{number}"
    return f"{place}: {answer}: {f'{why}.' if why else refusal(session, line, answer)}\n  {shown}\n"


# --- The run ---------------------------------------------------------------------------------------------------------

@contextlib.contextmanager
def steady(path):
    """A path that can be read twice: that of a copy, where it is no file's; `-` is the standard input. Where it can't be read,
    the program says so."""
    if os.path.isfile(path) and path != "-" or path == "-" and sys.stdin is None:
        yield path
        return
    with tempfile.NamedTemporaryFile(prefix="mps-explain-") as copy:
        try:
            with open(0 if path == "-" else path, "rb", closefd=path != "-") as source:
                text = source.read(MOST + 1)
        except OSError:
            yield path
            return
        if len(text) > MOST:
            raise Stopped(f"{path} has more than {MOST:,} bytes, and is no file")
        copy.write(text)
        copy.flush()
        yield copy.name


def lines_of(script):
    """The lines of a script, as the program reads them."""
    with open(script, "rb") as file:
        yield from (line.rstrip(b"\n") for line in file)


def explained(session, answers, lines, counts):
    """What is said of each refused line. The answers are counted by their first words, and unreadable lines besides."""
    for number, (answer, line) in enumerate(zip(answers, lines), 1):
        kind = answer[:16].split(b" ")[0]
        counts["lines"] += 1
        counts[kind] += 1
        counts["unreadable"] += answer == b"refused line"
        if kind == b"refused":
            yield told_of(session, number, line, answer.decode())
        if kind in (b"done", b"undone"):
            session.follow(number, line, answer.decode())


def summary(counts):
    """How many lines are refused."""
    refused, unread = counts[b"refused"], counts["unreadable"]
    if not refused:
        return "No line is refused.\n"
    told = f"{refused} of {counts['lines']} lines {'is' if refused == 1 else 'are'} refused"
    return told + f", {unread} of them unreadable" * bool(unread) + ".\n"


def explain(program, options, protocol, script, name):
    """Explains the refused lines of a script, which is called by that name, on a session of a protocol that the program accepts
    with these options. Gives 1 where there are any, else 0; or the program's status, where that isn't 0."""
    checked = subprocess.run([program, "check", *options, "--", protocol], stdout=subprocess.PIPE, check=True)
    session, counts = Followed(read_types(checked.stdout.decode())), collections.Counter()
    words = [program, "-v", "run", *options, "--", protocol, script]
    with tempfile.TemporaryFile() as said, subprocess.Popen(words, stdout=subprocess.PIPE, stderr=said) as ran:
        answers = (answer.rstrip(b"\n") for answer in ran.stdout)
        told = explained(session, answers, lines_of(script), counts)
        while piece := "".join(f"{name}:{it}" for it in itertools.islice(told, 1_000)):
            output.write(piece)
        ran.wait()
        said.seek(0)
        output.tell(b"".join(line for line in said if not re.match(rb"line \d+ is unreadable", line)))
    if ran.returncode == 0:
        output.write(summary(counts))
    return (1 if counts[b"refused"] else 0) if ran.returncode == 0 else ran.returncode if ran.returncode > 0 else 128 - ran.returncode
