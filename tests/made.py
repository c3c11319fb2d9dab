"""made: protocols and scripts made at random, each from the dice that it is handed."""
import random
import re

import reference
from fast import FastRoom
from reference import Choice, End, Message, Rec, Var

LETTERS = "abcdefghijklmnopqrstuvwxyz"
# names that are words of scripts and answers too, and names beside reserved words
NAMES = ("send recv choose pick mark commit undo rollback back news show join done undone refused line full final label "
         "ends rolesx rec_ en tru in text0 e0 a_ a_b").split()
SORTS = ("int", "bool", "text")
INTS = ("0", "1", "-1", "7", "10", "-10", "99", "123456", "9223372036854775807", "-9223372036854775808",
        "-9223372036854775807", "999999999999999999", "1000000000000000000")


def name(dice):
    """A name of 1 to 32 bytes."""
    if dice.random() < 0.15:
        return dice.choice(NAMES)
    length = dice.choice((1, 1, 1, 2, 3, 8, 9, 16, 31, 32, dice.randint(1, 32)))
    found = dice.choice(LETTERS) + "".join(dice.choice(LETTERS + "0123456789_") for _ in range(length - 1))
    return found if reference.is_name(found) else "x"


def names(dice, count):
    """So many names that differ."""
    found = []
    while len(found) < count:
        found += [it for it in [name(dice)] if it not in found]
    return found


def text(dice, length=None):
    """A text of that length, or of any from 0 to 256."""
    if length is None:
        length = dice.choice((0, 1, 15, 16, 32, 33, 255, 256, dice.randint(0, 40), *[dice.randint(0, 256)] * 8))
    letters = "".join(chr(byte) for byte in range(0x20, 0x7F) if chr(byte) not in '"\\')
    return '"' + "".join(dice.choices(letters, k=length)) + '"'


def value(dice, sort):
    """A value of that sort."""
    if sort == "bool":
        return dice.choice(("true", "false"))
    if sort == "text":
        return text(dice)
    if dice.random() < 0.5:
        return dice.choice(INTS)
    return str(dice.randint(-2 ** dice.randint(0, 63), 2 ** dice.randint(0, 63) - 1))


# --- Protocols -------------------------------------------------------------------------------------------------------

class Maker:
    """Makes global types for these roles, most of which have all projections."""

    def __init__(self, dice, roles):
        self.dice, self.roles = dice, roles
        self.labels = names(dice, 16)

    def pair(self):
        """A sender and a receiver."""
        return self.dice.sample(self.roles, 2)

    def leaf(self, loops):
        """`end`, or the way back into a loop in which something was done."""
        bound = [name for name, acted in loops.items() if acted]
        return Var(self.dice.choice(bound)) if bound and self.dice.random() < 0.85 else End()

    def type(self, nodes, level, loops):
        """A type of about so many nodes at most, with its root at that level."""
        dice, acted = self.dice, dict.fromkeys(loops, True)
        if nodes <= 1 or level > 55:
            return self.leaf(loops)
        kind = dice.random()
        if kind < 0.55:
            return Message(*self.pair(), dice.choice(SORTS), self.type(nodes - 1, level + 1, acted))
        if kind < 0.72 and nodes > 2:
            variable = dice.choice(("X", "Y", "ZZ", "END", "A_1", "L" * 32, f"V{level}"))
            if variable not in loops:
                return Rec(variable, self.type(nodes - 1, level + 1, {**loops, variable: False}))
        if kind < 0.95:
            return self.choice(nodes - 1, level, acted)
        return self.leaf(loops)

    def choice(self, nodes, level, loops):
        """A choice; of more than two roles the others do the same after each branch."""
        dice, (sender, receiver) = self.dice, self.pair()
        count = dice.choice((1, 2, 2, 2, 3, 3, 4, 5, 8, 15, 16))
        count = max(1, min(count, nodes))
        share, labels = nodes // count, dice.sample(self.labels, count)
        if len(self.roles) == 2 or dice.random() < 0.03:
            branches = [self.type(share, level + 1, loops) for _ in labels]
        else:
            after = self.type(share - 1, level + 4, loops) if dice.random() < 0.8 else End()
            branches = [self.private(sender, receiver, share, after) for _ in labels]
            if isinstance(after, End):  # the two go on alone, in loops of their own
                alone = Maker(dice, [sender, receiver])
                branches = [alone.type(share, level + 1, {}) if dice.random() < 0.7 else it for it in branches]
        return Choice(sender, receiver, tuple(zip(labels, branches)))

    def private(self, sender, receiver, nodes, after):
        """A few acts of two roles, and after them that type."""
        dice = self.dice
        for _ in range(dice.choice((0, 0, 1, 1, 2)) if nodes > 3 else 0):
            sender, receiver = dice.sample((sender, receiver), 2)
            if dice.random() < 0.2 and nodes > 12:
                after = Choice(sender, receiver, tuple((label, after) for label in dice.sample(self.labels, 2)))
                nodes //= 2
            else:
                after = Message(sender, receiver, dice.choice(SORTS), after)
        return after

    def wild(self, nodes, level, loops):
        """A type in which anything may stand, faults too."""
        dice = self.dice
        kind = dice.random() if nodes > 1 and level < 60 else 1
        sender, receiver = self.pair() if dice.random() < 0.95 else dice.choices([*self.roles, "nobody"], k=2)
        if kind < 0.4:
            return Message(sender, receiver, dice.choice(SORTS), self.wild(nodes - 1, level + 1, loops))
        if kind < 0.55:
            variable = dice.choice(("X", "Y", "Z", f"V{level}", f"V{level}"))
            return Rec(variable, self.wild(nodes - 1, level + 1, [*loops, variable]))
        if kind < 0.8:
            labels = dice.choice((dice.choices, dice.sample))(self.labels, k=dice.choice((1, 2, 3, 16)))
            branches = [self.wild(nodes // len(labels), level + 1, loops) for _ in labels]
            return Choice(sender, receiver, tuple(zip(labels, branches)))
        return Var(dice.choice(loops or ["X"])) if dice.random() < 0.6 and (loops or dice.random() < 0.1) else End()


def tokens_of(node):
    """The tokens of a global type."""
    if isinstance(node, End):
        return ["end"]
    if isinstance(node, Var):
        return [node.name]
    if isinstance(node, Rec):
        return ["rec", node.name, ".", *tokens_of(node.body)]
    if isinstance(node, Message):
        return [node.sender, "->", node.receiver, ":", node.sort, ".", *tokens_of(node.then)]
    branches = [it for label, below in node.branches for it in (",", label, ":", *tokens_of(below))]
    return [node.sender, "->", node.receiver, "{", *branches[1:], "}"]


def spaced(dice, tokens):
    """The text of these tokens, with blanks as they may stand, or with one space between two."""
    if dice.random() < 0.5:
        return " ".join(tokens)
    blanks, found = ("", "", " ", "\n", "\t", "\r\n", "  "), ""
    for token in tokens:
        blank = dice.choice(blanks)
        needed = found[-1:].isalnum() or found[-1:] == "_"
        found += (blank or " " if needed and (token[0].isalnum() or token[0] == "_") else blank) + token
    return found + dice.choice(("", " ", "\n", "\r\n\t "))


def spoiled(dice, tokens):
    """These tokens with something that doesn't belong there."""
    tokens, at = list(tokens), dice.randrange(len(tokens))
    junk = ["", "-", ">", "%", "Bc", "1a", "_a", "a" * 33, "X" * 33, "x\xe9", "\x00", "a-b", "->", *":;.,{}",
            "rec", "end", "int", "roles", "true", "X", "a", "a b", "end end", *tokens]
    change = dice.choice(("replace", "replace", "insert", "delete", "double", "cut", "more"))
    if change == "replace":
        tokens[at] = dice.choice(junk)
    if change == "insert":
        tokens.insert(at, dice.choice(junk))
    if change == "delete":
        del tokens[at]
    if change == "double":
        tokens.insert(at, tokens[at])
    if change == "cut":
        del tokens[at:]
    if change == "more":
        tokens.append(dice.choice(junk))
    return [token for token in tokens if token] or ["end"]


def at_the_limits(dice):
    """A protocol at a limit, or one over it: of roles, nodes, levels, branches, bytes or the length of a word."""
    kind = dice.choice(("roles", "nodes", "levels", "branches", "bytes", "words", "both"))
    over = dice.choice((-1, 0, 0, 1, 1))
    if kind == "roles":
        return "roles " + " ".join(names(dice, dice.choice((1, 2, 8, 8 + max(over, 0))))) + " ; end"
    if kind == "nodes":  # a choice of 15 branches with 16 messages and an end each, and one node more or less
        branches = [f"l{at} : " + "a -> b : int . " * (16 + (at == 14) * over) + "end" for at in range(15)]
        return "roles a b ; a -> b { " + " , ".join(branches) + " }"
    if kind == "levels":
        front = dice.choice(("a -> b : int . ", "rec V# . ", "a -> b { l : "))
        front = "".join(front.replace("#", str(at)) for at in range(63 + over))
        return f"roles a b ; {front}end" + " }" * front.count("{")
    if kind == "branches":
        return "roles a b ; a -> b { " + " , ".join(f"l{at} : end" for at in range(16 + over)) + " }"
    if kind == "bytes":
        found = "roles a b ; a -> b : text . end"
        return found + dice.choice(" \t\n\r") * (65536 + over - len(found))
    if kind == "words":
        long = "n" * (32 + over)
        front, loop = "roles a b ; ", long.upper()
        return dice.choice((f"roles {long} b ; {long} -> b : int . end", f"{front}rec {loop} . a -> b : int . {loop}",
                            f"{front}a -> b {{ {long} : end }}"))
    # a node at level 65, after 255, 256 or 257 others: it is too deep, or one too many
    branches = [f"l{at} : " + "a -> b : int . " * (15 + (at == 11) * over) + "end" for at in range(12)]
    return "roles a b ; a -> b { " + " , ".join(branches) + " , m : " + "a -> b : int . " * 70 + "end }"


def protocol(dice):
    """The text of a protocol; some have a fault."""
    kind = dice.random()
    if kind < 0.07:
        return at_the_limits(dice).encode("latin-1")
    roles = names(dice, dice.choice((2, 2, 2, 3, 3, 4, 5, 6, 7, 8)))
    nodes = dice.choice((1, 2, 4, 8, 8, 16, 16, 30, 60, 120, 240))
    maker = Maker(dice, roles)
    if kind < 0.15:
        tree = maker.wild(nodes, 1, [])
        roles = dice.choices(roles, k=len(roles)) if dice.random() < 0.2 else roles
    else:
        loops = {"LOOP": False} if dice.random() < 0.5 else {}
        tree = maker.type(nodes, 2, loops)
        tree = Rec("LOOP", tree) if loops else tree
    tokens = ["roles", *roles, ";", *tokens_of(tree)]
    if 0.15 < kind < 0.23:
        tokens = spoiled(dice, tokens)
    return spaced(dice, tokens).encode("latin-1")


# --- Protocols whose third roles are told -----------------------------------------------------------------------------

class Teller:
    """Makes global types for these roles, of about so many nodes, in which those that take no part in a choice are told of it."""

    def __init__(self, dice, roles, nodes):
        self.dice, self.roles, self.left = dice, roles, nodes

    def leaf(self, names, often):
        """A way back to one of these loops, where there is one and the dice say so, or `end`."""
        return Var(self.dice.choice(names)) if names and self.dice.random() < often else End()

    def wild(self, loops):
        """A type without a plan. `loops` has the names around, and whether something was done since."""
        dice, acted = self.dice, dict.fromkeys(loops, True)
        self.left -= 1
        kind = dice.random()
        if self.left <= 0 or kind < 0.12:
            return self.leaf([name for name, has_acted in loops.items() if has_acted], 0.7)
        if kind < 0.24 and len(loops) < 3:
            name = "XYZ"[len(loops)]
            return Rec(name, self.wild({**loops, name: False}))
        pair = dice.sample(self.roles, 2)
        if kind < 0.55:
            return Message(*pair, dice.choice(SORTS[:2]), self.wild(acted))
        return Choice(*pair, tuple((label, self.wild(acted)) for label in dice.sample("lmn", dice.choice((1, 2, 2, 3)))))

    def told(self, live, loops):
        """A type in which these roles act, and are mostly told of a choice by labels of their own. `loops` has the names around,
        each with the roles that act there, and whether something was done since."""
        dice = self.dice
        self.left -= 1
        kind = dice.random()
        if self.left <= 0 or len(live) < 2 or kind < 0.06:
            return self.leaf([name for name, (roles, acted) in loops.items() if acted and roles <= set(live)], 0.75)
        if kind < 0.3 and len(loops) < 3:
            name = "XYZ"[len(loops)]
            return Rec(name, self.told(live, {**loops, name: (set(live), False)}))
        loops = {name: (roles, True) for name, (roles, _) in loops.items()}
        pair = dice.sample(live, 2)
        if kind < 0.5:
            return Message(*pair, dice.choice(SORTS[:2]), self.told(live, loops))
        others = dice.sample([role for role in live if role not in pair], len(live) - 2)
        told = others[:dice.randrange(len(others) + 1)] if dice.random() < 0.25 else others
        front, steady = self.front(others), dice.random()
        labels = dice.sample(("more", "stop", "pay", "back"), dice.choice((2, 2, 2, 3)))
        untold = others[len(told):]
        return Choice(*pair, tuple((label, in_front(front, self.telling(pair, told, untold, label, loops, steady)))
                                   for label in labels))

    def front(self, others):
        """Acts of roles that don't know of a choice yet: each a sender, a receiver, and a sort or labels."""
        acts = []
        while len(others) > 1 and self.dice.random() < 0.35:
            acts.append((*self.dice.sample(others, 2), self.dice.choice((*SORTS[:2], ("q",), ("q", "r")))))
        return acts

    def telling(self, informed, told, untold, label, loops, steady):
        """The told ones hear of the branch with that label, one after the other, each from one who knows, and those who know go
        on. What is decided by `steady` is the same in each branch."""
        dice = self.dice
        if not told:
            return self.told(informed + untold * (dice.random() < 0.1), loops)
        role, *rest = told
        same = random.Random(f"{steady} {role}")
        teller = same.choice(informed) if dice.random() < 0.95 else dice.choice(informed)
        kind = same.random()
        then = self.telling([*informed, role], rest, untold, label, loops, steady)
        if kind < 0.1:
            return Message(teller, role, "int", then)
        word = label if kind < 0.85 else "same" if kind < 0.9 else dice.choice("uvw")
        branches = [(word, then)]
        if dice.random() < 0.15:
            branches.append((f"{label}_2", self.telling([*informed, role], rest, untold, label, loops, steady)))
        return Choice(teller, role, tuple(branches))


def in_front(acts, then):
    """These acts, and then that."""
    for sender, receiver, what in reversed(acts):
        if isinstance(what, str):
            then = Message(sender, receiver, what, then)
        else:
            then = Choice(sender, receiver, tuple((label, then) for label in what))
    return then


def told(dice):
    """The text of a protocol of three to five roles. Full merging accepts a fifth, and half of these plain merging."""
    roles = list("abcde"[:dice.choice((3, 3, 4, 4, 5))])
    if dice.random() < 0.15:
        tree = Teller(dice, roles, dice.randrange(4, 26)).wild({})
    else:
        tree = Teller(dice, roles, dice.randrange(6, 40)).told(roles, {})
    return " ".join(["roles", *roles, ";", *tokens_of(tree)]).encode()


# --- Scripts ---------------------------------------------------------------------------------------------------------

def allowed(room):
    """The acts that are allowed: each role with its kind, peer and the words of its branches."""
    view, found = room.view(), []
    for role in room.types:
        node, _ = view.head(role)
        if not isinstance(node, End) and (node.kind in ("send", "choose") or view.queues[node.peer, role]):
            found.append((role, node.kind, node.peer, [word for word, _ in node.branches]))
    return found


class Writer:
    """Writes the lines of a script, and knows how the session stands."""

    def __init__(self, dice, types):
        self.dice, self.room, self.roles = dice, FastRoom(types), list(types)
        self.slots, self.marks = names(dice, dice.choice((1, 2, 5, 40))), names(dice, 3)
        self.labels = [*names(dice, 2), *labels_of(types)]
        self.weights = dice.choice((
            (90, 3, 1, 2, 1, 1, 1, 1, 1, 1), (60, 8, 3, 8, 6, 6, 4, 2, 8, 8), (80, 6, 0, 6, 6, 6, 2, 1, 1, 1),
            (97, 1, 0, 0, 0, 0, 0, 1, 1, 1), (50, 5, 3, 25, 5, 5, 5, 5, 5, 5), (60, 6, 12, 6, 10, 8, 2, 2, 1, 1)))

    def line(self):
        """One more line."""
        write = self.dice.choices((self.step, self.mark, self.commit, self.undo, self.rollback, self.back, self.news,
                                   self.show, self.other_step, self.unreadable), self.weights)[0]
        line = write().encode("latin-1")
        reference.answer(self.room, line)
        return line

    def step(self):
        """A step that is allowed, where there is one."""
        steps = allowed(self.room)
        if not steps:
            return self.dice.choice((self.mark, self.undo, self.rollback, self.back, self.other_step, self.news))()
        role, kind, peer, words = self.dice.choice(steps)
        if kind == "pick":
            return f"{role} pick {peer}"
        word = {"send": lambda: value(self.dice, words[0]), "choose": lambda: self.dice.choice(words),
                "recv": lambda: self.dice.choice(self.slots)}[kind]()
        return f"{role} {kind} {peer} {word}"

    def other_step(self):
        """A step that is mostly refused."""
        dice, role = self.dice, self.dice.choice(self.roles)
        node, _ = self.room.view().head(role)
        kind = dice.choice(("send", "recv", "choose", "pick"))
        peer = dice.choice(self.roles)
        if not isinstance(node, End) and dice.random() < 0.6:
            kind, peer = node.kind, dice.choice((peer, node.peer, node.peer))
        if kind == "pick":
            return f"{role} pick {peer}"
        words = {"send": [value(dice, dice.choice(SORTS))], "recv": self.slots, "choose": self.labels}
        return f"{role} {kind} {peer} {dice.choice(words[kind])}"

    def number(self):
        """The number of a step, mostly of one that survives and of a late one, with its role."""
        dice, history = self.dice, self.room.history
        if history and dice.random() < 0.9:
            step = history[-min(len(history), dice.choice((1, 1, 2, 3, 5, 10, dice.randint(1, len(history)))))]
            return step.role if dice.random() < 0.9 else dice.choice(self.roles), step.number
        number = dice.choice((0, self.room.next, dice.randint(0, self.room.next), 2 ** 64 - 1, 2 ** 32, 2 ** 63))
        return dice.choice(self.roles), number

    def undo(self):
        """An undo."""
        return "{} undo {}".format(*self.number())

    def rollback(self):
        """A rollback."""
        return "{} rollback {}".format(*self.number())

    def mark(self):
        """A mark."""
        return f"{self.dice.choice(self.roles)} mark {self.dice.choice(self.marks)}"

    def commit(self):
        """A commit."""
        return f"{self.dice.choice(self.roles)} commit"

    def back(self):
        """A return to a mark, mostly to one that survives."""
        marks = [(step.role, step.act.word) for step in self.room.history[-200:] if step.act.kind == "mark"]
        if marks and self.dice.random() < 0.8:
            return "{} back {}".format(*self.dice.choice(marks))
        return f"{self.dice.choice(self.roles)} back {self.dice.choice(self.marks)}"

    def news(self):
        """A question for news."""
        length = len(self.room.journal)
        places = (0, length, length + 1, max(0, length - 3), self.dice.randint(0, length), 2 ** 64 - 1)
        return f"{self.dice.choice(self.roles)} news {self.dice.choice(places)}"

    def show(self):
        """A question for the state."""
        return f"{self.dice.choice(self.roles)} show"

    def unreadable(self):
        """A line that is mostly unreadable: one that could stand here with something wrong in it, or one by itself."""
        dice = self.dice
        moves = (self.step, self.step, self.mark, self.commit, self.undo, self.rollback, self.back, self.news, self.show)
        line = dice.choice(moves)()
        at = dice.randint(0, len(line))
        more = dice.choice((*" \r\t\x00\x7f\xff0-\"\\A_+x", " x", "a" * 513))
        length = dice.choice((257, 511, 512, 513, 514, 600, 2000))
        role, peer = dice.choice(self.roles), dice.choice(self.roles)
        no_value = dice.choice(("9223372036854775808", "-9223372036854775809", "-0", "007", "-", "+5", text(dice, 257)))
        no_number = dice.choice(("18446744073709551616", "00", "01", "-1", "", "x"))
        return dice.choice((
            "", line[:at], line[:at] + more + line[at:], line[:at] + line[at + 1:], line + more, " " + line,
            line.upper(), line.replace(" ", "  ", 1), line + " " * max(0, length - len(line)), "x" * length,
            f"{role} send {peer} {no_value}", f"{role} undo {no_number}", f"{role} stand"))


def labels_of(types):
    """The labels of local types."""
    found = set()
    for node in types.values():
        found.update(re.findall(r"(\w+) :", reference.spelled(node)))
    return sorted(found)


def scripts(dice, types, lines):
    """A script of so many lines, and one that may come to the same."""
    writer = Writer(dice, types)
    first = [writer.line() for _ in range(lines)]
    second = list(first)
    for _ in range(dice.choice((0, 1, 1, 5, 50)) if lines > 1 else 0):  # neighbours are exchanged
        at = dice.randrange(lines - 1)
        second[at:at + 2] = second[at + 1], second[at]
    if dice.random() < 0.3:
        other = Writer(dice, types)
        other.room = writer.room
        second += [other.line() for _ in range(dice.randint(1, 4))]
    return joined(dice, first), joined(dice, second)


def joined(dice, lines):
    """The bytes of a script, which may stop anywhere."""
    script = b"\n".join(lines) + dice.choice((b"\n", b"\n", b"", b"\n\n", b"\r\n"))
    return script[:dice.randint(0, len(script))] if dice.random() < 0.2 else script
