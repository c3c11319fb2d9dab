# SPDX-License-Identifier: MIT OR Apache-2.0
"""cizhmolat_asyncio: the Role of cizhmolat for programs of asyncio, with the same names.

    from cizhmolat_asyncio import Role

    async with Role(session=1, role="b", port=4750, numbers="b.numbers") as b:
        step, value = await b.receive("a", "x", timeout=60)
        await b.send("c", 7)
        entries, gone = await b.news(0)

All that cizhmolat.py says of numbers, files and steps that others took back holds here too: the code is the same, and this file
stands beside it. While a call waits other tasks go on, but not while the name of a host is looked up, or a file of numbers written.

A Role joins at the beginning of the `async with`, or where it is awaited: `b = await Role(1, "b", 4750)`. It is used for one call
at a time; ValueError is raised where a task gives a second one. A call whose task is cancelled ends as by an exception of a
signal's handler: the next one joins again, and the command may have been run. So `asyncio.wait_for` may end a receipt, and no
message is lost where it is given again.

The loop has to have `add_reader`, which on Windows asyncio's SelectorEventLoop has."""
from __future__ import annotations

import asyncio
import math
import selectors
from collections.abc import Callable, Coroutine, Generator
from typing import Any, TypeVar

from cizhmolat import Answered, Calls, Need, News, Picked, Received, Stand, Standing, Value, count, left, name, spelled

__all__ = ["Role"]

Made = TypeVar("Made")


async def is_ready(need: Need) -> bool:
    """Whether what a call needs comes in time, while other tasks go on."""
    seconds = left(need.until)
    if need.stream is None:
        await asyncio.sleep(seconds or 0)
        return False
    loop, stream = asyncio.get_running_loop(), need.stream.fileno()
    came = loop.create_future()
    add, remove = (loop.add_reader, loop.remove_reader) if need.event == selectors.EVENT_READ else (loop.add_writer, loop.remove_writer)
    add(stream, note, came, True)
    clock = None if seconds is None else loop.call_later(seconds, note, came, False)
    try:
        return bool(await came)
    finally:
        remove(stream)
        if clock is not None:
            clock.cancel()


def note(came: asyncio.Future[bool], is_there: bool) -> None:
    """Notes what came first."""
    if not came.done():
        came.set_result(is_there)


async def later(call: Coroutine[Need, Any, Made]) -> Made:
    """What a call comes to, while other tasks go on."""
    go_on: Callable[[Any], Need] = call.send
    given: bool | BaseException | None = None
    try:
        while True:
            need = go_on(given)
            try:
                go_on, given = call.send, await is_ready(need)
            except BaseException as error:  # also one that cancels the task
                go_on, given = call.throw, error
    except StopIteration as end:
        made: Made = end.value
        return made
    finally:
        call.close()


class Role(Calls):
    """A role of a session, for which this program acts: as `cizhmolat.Role`, with the same words and methods, which are awaited."""

    def __await__(self) -> Generator[Any, Any, Role]:
        return self.__aenter__().__await__()

    async def __aenter__(self) -> Role:
        await later(self._start())
        return self

    async def __aexit__(self, *_: object) -> None:
        self.close()

    # --- Steps forward ---

    async def send(self, peer: str, value: Value) -> int:
        """Sends the peer a value."""
        return await later(self._step(f"send {name(peer)} {spelled(value)}"))

    async def choose(self, peer: str, label: str) -> int:
        """Chooses the branch of that label."""
        return await later(self._step(f"choose {name(peer)} {name(label)}"))

    async def receive(self, peer: str, slot: str, timeout: float = 60) -> Received:
        """Receives the oldest value from the peer."""
        return await later(self._receive(peer, slot, timeout))

    async def pick(self, peer: str, timeout: float = 60) -> Picked:
        """Takes the oldest label from the peer."""
        return await later(self._pick(peer, timeout))

    async def mark(self, mark: str) -> int:
        """Leaves a mark of that name."""
        return await later(self._mark(mark))

    async def commit(self) -> int:
        """Makes final what the role did."""
        return await later(self._commit())

    # --- Steps back ---

    async def undo(self, step: int) -> list[int]:
        """Takes back the role's own step."""
        return await later(self._steps_back(f"undo {count(step)}"))

    async def rollback(self, step: int) -> list[int]:
        """Takes back the role's own step, and all that depends on it."""
        return await later(self._steps_back(f"rollback {count(step)}"))

    async def back(self, mark: str) -> list[int]:
        """Takes back all since the last mark of that name."""
        return await later(self._back(mark))

    # --- Questions and lines ---

    async def news(self, entries: int = 0, timeout: float = 0) -> News:
        """Which steps others took back after so many entries."""
        return await later(self._news(entries, timeout))

    async def show(self) -> dict[str, Any]:
        """The session."""
        return await later(self._show())

    async def standing(self) -> Standing:
        """How the role stands in the session."""
        return await later(self._standing())

    async def stand(self) -> Stand:
        """The same, of its steps only the newest, at a server with --wait."""
        return await later(self._stand())

    async def settle(self) -> Answered | None:
        """Lets go of the command under way."""
        return await later(self._let_go())

    async def ask(self, command: str) -> str:
        """The answer to a command line."""
        return (await later(self._ask(command, math.inf)))[0]
