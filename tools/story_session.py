"""story_session: what a session comes to, line by line.

./mps runs the script with a line `ROLE show` after each line of the story, which is a question and changes nothing. Whatever
is told of the session is from the answers to these; all that is found here besides is which step took what another one gave,
which step of its role came before each, and where in its type a role stands.
"""
import collections
import contextlib
import json
import os
import re
import subprocess
import tempfile

import journals
import story_words
from drawing import Unshown, needs, read_step
from explain import printable
from story_types import read_types

MPS = os.path.join(os.path.dirname(os.path.dirname(os.path.realpath(__file__))), "mps")
LINES = STEPS = 500  # of the newest of these at most a story tells
BEGIN, QUEUES = b'{"history":[', b'],"queues":'  # how a shown session begins, and what comes after its history
Line = collections.namedtuple("Line", "number text answer told")
State = collections.namedtuple("State", "queues roles")
Standing = collections.namedtuple("Standing", "expects place store")


class Made:
    """A step, in which line it was made and taken back, and by whom; which step of its role it follows, and which it takes."""

    def __init__(self, step, born, follows, takes, place):
        self.step, self.born, self.follows, self.takes, self.place = step, born, follows, takes, place
        self.gone, self.by = None, None


class Session:
    """A session after some of its lines: its steps by their numbers, those that were taken back too; of each role the numbers
    of the steps that survive; of each queue the numbers of those whose messages wait; and what else was shown."""

    def __init__(self, types):
        self.types, self.made, self.text = types, {}, b""
        self.past = {role: [] for role in types}
        self.queues = {(p, q): collections.deque() for p in types for q in types if p != q}
        self.newest, self.skipped, self.shown = 0, {}, None

    def place(self, role):
        """Where the role stands in its type."""
        return self.made[self.past[role][-1]].place if self.past[role] else self.types[role][1]

    def expects(self, role):
        """What the role may do next, as it was shown last."""
        return self.shown.roles[role].expects

    def survives(self, number):
        """Whether there is a step of that number."""
        return number in self.made and self.made[number].gone is None

    def add(self, step, line):
        """Takes in a new step."""
        pair, takes = (step.role, step.peer), None
        if step.act in ("send", "choose"):
            self.queues[pair].append(step.number)
        elif step.peer:
            takes = self.queues[pair[::-1]].popleft()
        past, place = self.past[step.role], self.place(step.role).after(step)
        self.made[step.number] = Made(step, line, past[-1] if past else None, takes, place)
        past.append(step.number)
        self.newest = max(self.newest, step.number)

    def remove(self, number, line, role):
        """Takes out a step, after all that came later and are taken back with it."""
        made = self.made[number]
        made.gone, made.by = line, role
        self.past[made.step.role].pop()
        pair = made.step.role, made.step.peer
        if made.takes:
            self.queues[pair[::-1]].appendleft(made.takes)
        elif made.step.peer:
            self.queues[pair].pop()

    def read(self, data, line, role):
        """Takes in the session as it is shown after that line, which is of that role."""
        needs(data.startswith(BEGIN) and QUEUES in data, f"line {line}: no session is shown after it, but {data[:80]!r}")
        text, rest = data[len(BEGIN):].split(QUEUES, 1)
        if text.startswith(self.text):  # most lines add a step at the end or change nothing
            rows = json.loads(b"[" + text[len(self.text):].lstrip(b",") + b"]")
        else:
            rows = json.loads(b"[" + text + b"]")
            left = {row[0] for row in rows}
            lost = [number for past in self.past.values() for number in past if number not in left]
            for number in sorted(lost, reverse=True):
                self.remove(number, line, role)
        self.text = text
        for row in rows:
            if not self.survives(row[0]):
                self.add(read_step(*row), line)
        rest = re.sub(rb'"past":\[[0-9,]*\]', b'"past":[]', rest)  # as long as the history, which has it all
        self.shown = self.state(json.loads(b'{"queues":' + rest), line)

    def state(self, shown, line):
        """The queues and the roles, which are compared with what was shown of them."""
        queues = {pair: tuple(queue) for pair, queue in self.queues.items() if queue}
        found = [[*pair, [self.made[number].step.what for number in queue]] for pair, queue in queues.items()]
        roles = {it["role"]: Standing(it["expects"], self.place(it["role"]), it["store"]) for it in shown["roles"]}
        needs(json.dumps(found) == json.dumps(shown["queues"]), f"line {line}: the history doesn't lead to the queues")
        for role, it in roles.items():
            needs(it.place.expects() == it.expects, f"line {line}: {role} stands at another place of its type")
        return State(queues, roles)


# --- The run ---------------------------------------------------------------------------------------------------------

def checked(options, protocol):
    """The local types of a protocol with these options, or why there are none. Where no program is built yet, ./mps builds it and
    says so."""
    begun = subprocess.run([MPS, "--version"], stdin=subprocess.DEVNULL, stdout=subprocess.DEVNULL, check=False)
    needs(begun.returncode == 0, "./mps has no program to run")
    found = subprocess.run([MPS, "check", *options, "--", protocol], stdin=subprocess.DEVNULL, capture_output=True, check=False)
    if found.returncode:
        told = subprocess.run([MPS, "explain", *options, protocol], stdin=subprocess.DEVNULL, capture_output=True, check=False)
        reason = (told.stdout or told.stderr or found.stderr).decode(errors="replace").rstrip()
        raise Unshown(f"{protocol} can't be used\n{reason}")
    return read_types(found.stdout.decode())


def lines_of(script):
    """The lines of a script, and of a kept session's file without their seals: each as it stands there, and as ./mps runs it,
    without the number that it may have. A last line of a kept file that has no LF was cut, and isn't run."""
    with open(script, "rb") as file:
        *lines, rest = file.read().split(b"\n")
    if not script.endswith(".journal"):
        return [(line, line) for line in lines + [rest] * bool(rest)]
    return [(line, re.sub(rb"^([a-z][a-z0-9_]*) [0-9]+ (?=.)", rb"\1 ", line)) for line in journals.unsealed(lines)]


@contextlib.contextmanager
def answers_to(options, protocol, lines, begin, role):
    """The answers to these lines with these options, from `begin` on with what `ROLE show` answers before and after each."""
    show = f"{role} show".encode()
    asked = [*lines[:begin], show, *(it for line in lines[begin:] for it in (line, show))]
    with tempfile.NamedTemporaryFile(prefix="story-") as file:
        file.write(b"".join(line + b"\n" for line in asked))
        file.flush()
        words = [MPS, "run", *options, "--", protocol, file.name]
        with subprocess.Popen(words, stdin=subprocess.DEVNULL, stdout=subprocess.PIPE) as run:
            yield (line.rstrip(b"\n") for line in run.stdout)


class Story:
    """The lines of a script from one of them on, `most` of them at most, with the session after each."""

    def __init__(self, options, protocol, script, begin, most):
        self.types, lines = checked(options, protocol), lines_of(script)
        self.whole = len(lines)
        self.begin = max(0, self.whole - most) if begin is None else min(begin - 1, self.whole)
        lines = lines[:self.begin + most]
        self.session, self.lines, self.states = Session(self.types), [], []
        role = next(iter(self.types))
        with answers_to(options, protocol, [line for _, line in lines], self.begin, role) as answers:
            for number, (_, line) in enumerate(lines[:self.begin], 1):
                self.skip(number, line, next(answers, b""))
            self.session.read(next(answers, b""), self.begin, None)
            self.states.append(self.session.shown)
            for number, (text, line) in enumerate(lines[self.begin:], self.begin + 1):
                self.go_on(number, text, line, next(answers, b""), next(answers, b""))
        made = sorted(self.session.made.values(), key=lambda it: it.step.number)
        self.steps, self.left_out = made[-STEPS:], made[:-STEPS]

    def skip(self, number, line, answer):
        """Notes what a line made or took back that isn't told."""
        verb, *numbers = answer.split(b" ")
        if verb == b"done":
            self.session.newest = int(numbers[0])
        if verb == b"undone":
            self.session.skipped.update(dict.fromkeys(map(int, numbers), (number, role_of(line, self.types))))

    def go_on(self, number, text, line, answer, shown):
        """Takes in a line, its answer, and the session after it."""
        answer = answer.decode()
        refused = story_words.refusal(self.session, line, answer) if answer.startswith("refused") else None
        self.session.read(shown, number, role_of(line, self.types))
        told = refused or story_words.told(self.session, line, answer)
        self.lines.append(Line(number, printable(text), answer, told))
        self.states.append(self.session.shown)


def role_of(line, types):
    """The role whose line this is, if it is one's."""
    role = line.split(b" ")[0].decode(errors="replace")
    return role if role in types else None
