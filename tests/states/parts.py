"""parts: the classes that `./mps api python` writes, and roles of a room of the reference for them."""
import itertools
import pathlib
import random
import sys
import types

sys.dont_write_bytecode = True
HOME = pathlib.Path(__file__).resolve().parent.parent.parent
sys.path[:0] = [str(HOME / folder) for folder in ("tests", "tools", "clients/python")]
import api_python  # noqa: E402
import cizhmolat  # noqa: E402
import made  # noqa: E402
import reference  # noqa: E402

TRIES = 3  # how often a command is given while there is nothing yet
NUMBERS = itertools.count()


class Role(cizhmolat.Role):
    """A role of a room of the reference. Before each of its lines the others act."""

    def __init__(self, room, role, others=lambda: None):
        self.session, self.role, self.others, self.resumed = room, role, others, None
        self._heard, self._is_settled, self.timeout = 0, True, 0
        self.news()

    def settle(self):
        """Does nothing: no command is under way."""

    def _drop(self):
        """Does nothing: there is no connection."""

    async def _ask(self, command, limit, *questions, wait=0):
        return [self.said(line) for line in (command, *questions)]

    async def _in_time(self, until, limit, command, *questions):
        for _ in range(TRIES):
            answers = await self._ask(command, limit, *questions)
            if not all(map(cizhmolat.NOTHING_YET.fullmatch, answers)):
                break
        return answers

    def said(self, line):
        """The answer to a line."""
        self.others()
        return reference.answer(self.session, f"{self.role} {line}".encode())


def module_of(text, role, slots=(), full=False):
    """The module of a role, as a program imports it."""
    name = f"part_{next(NUMBERS)}"
    module = sys.modules[name] = types.ModuleType(name)
    exec(compile(api_python.module(text.encode(), role, slots, full), name, "exec"), module.__dict__)
    return module


def examples():
    """The text of each example protocol that is accepted, and whether by full merging alone."""
    for file in sorted((HOME / "examples").glob("*.protocol")):
        if not file.stem.endswith("_draft"):
            text = file.read_text(encoding="ascii")
            yield file, text, is_refused(text)


def is_refused(text):
    """Whether plain merging refuses the protocol."""
    try:
        return not reference.load(text.encode())
    except reference.Fault:
        return True


def made_protocol(dice):
    """The text of a random protocol, each role's local type, and whether by full merging."""
    while True:
        full = dice.random() < 0.4
        if full:
            text = made.told(dice).decode()
        else:
            roles = made.names(dice, dice.choice((2, 2, 3, 4)))
            text = " ".join(["roles", *roles, ";", *made.tokens_of(made.Maker(dice, roles).type(dice.choice((5, 15, 40)), 1, {}))])
        try:
            return text, reference.load(text.encode(), full), full
        except (reference.Fault, RecursionError):
            continue


def expects(room, role):
    """What the protocol wants of the role next, as it is shown."""
    return reference.expects(room.view().head(role)[0])
