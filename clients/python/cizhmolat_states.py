# SPDX-License-Identifier: MIT OR Apache-2.0
"""cizhmolat_states: what the modules share that `./mps api python FILE ROLE` writes. It stands beside cizhmolat.py.

Such a module has a class for each state of its role. A state's methods are what the protocol allows there, and each gives the next
state: so a type checker refuses a program that does something else. docs/STATES.md says how to use one.

A state is used once. A second use raises UsedTwice, since no type checker finds it.

A method that returns says: of what this program did before, nothing was taken back up to its command. Where others took back steps
TakenBack is raised, with the state in which the role stands now. What is gone later the next method tells, whichever it is. This
holds as long as the role's commands are given by its states alone.

After any other exception than TakenBack, Refused and ValueError the program doesn't know whether its command was run. Each method
then raises Unsure, until `resume` finds out."""
from __future__ import annotations

import contextlib
import itertools
import time
import weakref
from collections.abc import Callable, Iterable, Iterator, Mapping
from typing import Any, ClassVar, Literal, NamedTuple, TypeVar, Union, cast

import cizhmolat
from cizhmolat import Error, Refused, Role, Step, Value, spelled

S = TypeVar("S", bound="State")
P = TypeVar("P", bound="State")
V = TypeVar("V", bool, int, str)
M = TypeVar("M")
Kind = Union[Literal["send"], Literal["recv"], Literal["choose"], Literal["pick"], Literal["mark"], Literal["commit"]]
SORTS = {bool: "bool", int: "int", str: "text"}


class TakenBack(Error):
    """Others took back steps of the role.

    state      where the role stands now
    gone       the steps that went, the oldest first
    committed  the number of a commit that was accepted after that, and makes final what is left; else None"""

    def __init__(self, state: State, gone: list[Deed], committed: int | None) -> None:
        super().__init__(state, gone, committed)
        self.state, self.gone, self.committed = state, gone, committed

    def __str__(self) -> str:
        return f"others took back {', '.join(map(str, self.gone))}"


class UsedTwice(Error):
    """The role doesn't stand in this state: one of its methods was called before, or steps were taken back since."""


class Unsure(Error):
    """A command, this one or one before it, may have been run or not. `resume` gives the state."""


class OtherProtocol(Error):
    """What the session shows of the role is nothing that its states allow."""


class Act(NamedTuple):
    """What a state allows: with whom; for each sort or label the state that follows; the slot of what is received; and for each label
    that may be picked the class that says so."""
    kind: str
    peer: str
    then: Mapping[str, type[State]]
    slot: str = ""
    picked: Mapping[str, Callable[[Any], Any]] = {}

    def __str__(self) -> str:
        return " ".join([self.kind, self.peer, *self.then]).rstrip()


class Part(NamedTuple):
    """A role's part in a protocol."""
    role: str
    start: type[State]
    taken_back: type[TakenBack]


class Deed(NamedTuple):
    """A step of the role.

    number  the step's number
    act     what it was
    value   the value that was sent or received, the label that was chosen or picked, or the mark's name; None of a commit
    place   the state in which it was done"""
    number: int
    act: Kind
    value: Value | None
    place: State

    @property
    def command(self) -> str:
        """The step as a line spells it."""
        place, value = self.place.act, self.value
        if self.act == "send" and value is not None:
            value = spelled(value)
        peer = None if self.act in ("mark", "commit") else place.peer
        last = {"recv": place.slot, "pick": None}.get(self.act, value)
        return " ".join(str(word) for word in (self.act, peer, last) if word is not None)

    def __str__(self) -> str:
        return f"{self.number} {self.command}"


class Talk:
    """A role's conversation: in which state it stands, if that is known."""

    def __init__(self, role: Role, part: Part) -> None:
        self.role, self.part = role, part
        self.now = State(self, None, {})
        self.is_sure = False


TALKS: weakref.WeakKeyDictionary[Role, Talk] = weakref.WeakKeyDictionary()  # the newest of each role


class State:
    """A state in which a role stands. `deed` is the step that led there."""
    act: ClassVar[Act]

    def __init__(self, talk: Talk, deed: Deed | None, kept: Mapping[str, Value]) -> None:
        self._talk, self.deed, self._kept = talk, deed, kept

    def __repr__(self) -> str:
        return f"{type(self).__name__} after {self.deed}" if self.deed else type(self).__name__

    # --- What is allowed in each state ---

    def check(self, timeout: float = 0) -> None:
        """Raises TakenBack where others took back steps of the role, or do within so many seconds. Else nothing changes."""
        until = time.monotonic() + timeout
        with self._command() as talk:
            while True:
                self._hear(talk.role.news(talk.role.heard, max(0.0, until - time.monotonic())).gone)
                if time.monotonic() >= until:
                    return

    def mark(self: S, mark: str) -> S:
        """The same state, after a mark of that name, by which a program that is started again knows how far it came."""
        with self._command() as talk:
            number = self._told(lambda: talk.role.mark(mark))
            return self._after(Deed(number, "mark", mark, self), type(self), self._kept)

    def commit(self: S) -> S:
        """The same state, after a commit: nobody takes back any more what the role did, nor what that depends on."""
        with self._command() as talk:
            number = self._told(talk.role.commit)
            return self._after(Deed(number, "commit", None, self), type(self), self._kept)

    def back_to(self, place: P) -> P:
        """An earlier state, after a rollback of the first step that the role did since, with all that depends on it. The state that is
        given may have been used; those of `deeds` serve too. ValueError is raised where it isn't behind this one."""
        with self._command() as talk:
            first = None
            for first in self._since(place._number):
                pass
            found = self if first is None else first.place
            if found._number != place._number or not isinstance(found, type(place)):
                raise ValueError(f"{place} isn't behind {self}")
            if first is not None:
                number = first.number
                self._if_there(lambda: talk.role.rollback(number))
            return stands_at(found)

    @property
    def deeds(self) -> list[Deed]:
        """The role's steps that survive, as far as this program was told, in order, each with the state in which it was done."""
        return [*self._since(0)][::-1]

    @property
    def is_final(self) -> bool:
        """Whether a commit came after all that the role did by the protocol, so that nobody takes it back any more."""
        return next((deed.act == "commit" for deed in self._since(0) if deed.act != "mark"), False)

    @property
    def due(self) -> list[Deed]:
        """The commits since the role's last mark. What a program does outside of the session after a commit, and before the mark that
        says so, may be still to do."""
        since = itertools.takewhile(lambda deed: deed.act != "mark", self._since(0))
        return [deed for deed in since if deed.act == "commit"][::-1]

    # --- What a module's methods are made of ---

    def _send(self, value: Value, then: type[P]) -> P:
        peer = self.act.peer
        return self._out("send", value, lambda role: role.send(peer, value), then)

    def _choose(self, label: str, then: type[P]) -> P:
        peer = self.act.peer
        return self._out("choose", label, lambda role: role.choose(peer, label), then)

    def _recv(self, sort: type[V], then: type[P], timeout: float) -> tuple[V, P]:
        act, until = self.act, time.monotonic() + timeout
        with self._command() as talk:
            number, value = self._told(lambda: talk.role.receive(act.peer, act.slot, max(0.0, until - time.monotonic())))
            if not isinstance(value, sort) or type(value) is not sort:  # a bool is an int too
                raise OtherProtocol(f"{act.peer} sent {value!r}, where {act} is allowed")
            return value, self._after(Deed(number, "recv", value, self), then, {**self._kept, act.slot: value})

    def _pick(self, timeout: float) -> Any:
        act, until = self.act, time.monotonic() + timeout
        with self._command() as talk:
            number, label = self._told(lambda: talk.role.pick(act.peer, max(0.0, until - time.monotonic())))
            if label not in act.then:
                raise OtherProtocol(f"{act.peer} chose {label}, where {act} is allowed")
            return act.picked[label](self._after(Deed(number, "pick", label, self), act.then[label], self._kept))

    # --- One command ---

    @property
    def _number(self) -> int:
        return self.deed.number if self.deed else 0

    def _since(self, number: int) -> Iterator[Deed]:
        """The role's steps with larger numbers, the newest first."""
        deed = self.deed
        while deed is not None and deed.number > number:
            yield deed
            deed = deed.place.deed

    @contextlib.contextmanager
    def _command(self) -> Iterator[Talk]:
        """The conversation during a command, of which nothing is known until it is answered, refused, or found to be none."""
        talk = self._talk
        if not talk.is_sure:
            raise Unsure("a command may have been run or not: resume gives the state")
        if talk.now is not self:
            raise UsedTwice(f"the role stands at {talk.now}, and not at {self}")
        talk.is_sure = False
        try:
            yield talk
        except (Refused, TakenBack, ValueError):
            talk.is_sure = True
            raise
        talk.is_sure = True

    def _after(self, deed: Deed, then: type[P], kept: Mapping[str, Value]) -> P:
        """The state after that step, in which the role stands now."""
        state = then(self._talk, deed, kept)
        self._talk.now = state
        return state

    def _out(self, act: Kind, value: Value, call: Callable[[Role], int], then: type[P]) -> P:
        with self._command() as talk:
            number = self._if_there(lambda: call(talk.role))
            return self._after(Deed(number, act, value, self), then, self._kept)

    def _if_there(self, call: Callable[[], M]) -> M:
        """What a call gives that is refused where steps are gone."""
        try:
            return call()
        except (cizhmolat.WrongAct, cizhmolat.NoStep, cizhmolat.Final):
            role = self._talk.role
            self._hear(role.news(role.heard).gone)
            raise

    def _told(self, call: Callable[[], M]) -> M:
        """What a call gives that tells by itself where steps are gone. It is given again where none of them is this program's."""
        while True:
            try:
                return call()
            except cizhmolat.TakenBack as told:
                if told.__cause__ is not None:
                    raise Unsure(f"{told.command} may stand: resume gives the state") from told
                committed = None if told.answer is None else int(told.answer.split()[1])
                self._hear(told.gone, committed)
                if committed is not None:
                    return cast(M, committed)

    def _hear(self, numbers: Iterable[int], committed: int | None = None) -> None:
        """Raises TakenBack where steps with these numbers are this program's."""
        lost = self._lost({*numbers})
        if lost:
            place = lost[0].place
            if committed is not None:
                place = type(place)(self._talk, Deed(committed, "commit", None, place), place._kept)
            raise self._talk.part.taken_back(stands_at(place), lost, committed)

    def _lost(self, numbers: set[int]) -> list[Deed]:
        """The role's steps from the first on that has one of these numbers, in order."""
        since = [*self._since(min(numbers) - 1)] if numbers else []
        first = max((at for at, deed in enumerate(since) if deed.number in numbers), default=-1)
        return since[:first + 1][::-1]


def stands_at(place: P) -> P:
    """A new state for that one, which may have been used: the role stands there now."""
    talk = place._talk
    state = type(place)(talk, place.deed, place._kept)
    talk.now = state
    return state


def resume(role: Role, part: Part) -> State:
    """The state in which the role stands, as the session shows it. States of this Role that were given before are over."""
    if role.role != part.role:
        raise ValueError(f"these are the states of {part.role}, and not of {role.role}")
    role.settle()
    standing = role.standing()
    before, talk = TALKS.get(role), Talk(role, part)
    TALKS[role] = talk
    state = part.start(talk, None, {})
    for step in standing.steps:
        state = followed(state, step)
    if standing.expects != str(state.act):
        raise OtherProtocol(f"the session wants {standing.expects} of {role.role}, where {state.act} is allowed")
    talk.is_sure = True
    state = stands_at(state)
    if before is not None:
        before.now, before.is_sure = state, True
    return state


def followed(state: State, step: Step) -> State:
    """The state after a step of the role that is shown."""
    talk, act, kept = state._talk, state.act, state._kept
    if step.act in ("mark", "commit"):
        return type(state)(talk, Deed(step.number, cast(Kind, step.act), step.name, state), kept)
    word = step.name or "" if step.value is None else SORTS[type(step.value)]
    if (step.act, step.peer) != (act.kind, act.peer) or word not in act.then:
        raise OtherProtocol(f"step {step.number} is {shown(step)}, where {act} is allowed")
    value = step.name if step.value is None else step.value
    if step.act == "recv" and step.value is not None:
        if step.name != act.slot:
            raise OtherProtocol(f"step {step.number} is {shown(step)}, where the slot is {act.slot}")
        kept = {**kept, act.slot: step.value}
    return act.then[word](talk, Deed(step.number, cast(Kind, step.act), value, state), kept)


def shown(step: Step) -> str:
    """A step as it is told."""
    return " ".join(str(word) for word in (step.act, step.peer, step.name, step.value) if word is not None)
