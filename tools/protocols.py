"""protocols: protocol texts, their faults, and what each role does in them.

It is written from docs/FORMATS.md and docs/DEFINITIONS.md and from nothing else, so that a reader can hold it against
them line by line. tests/reference.py is built on it, and so is explain.py; a token therefore knows where it stands, and
a fault what there is to say of it.
"""
import dataclasses
import functools
import re

# --- Names -----------------------------------------------------------------------------------------------------------

RESERVED = ("roles", "rec", "end", "int", "bool", "text", "true", "false")


@functools.lru_cache(100_000)
def is_name(word):
    """1 to 32 small letters, digits and `_`, the first a letter, and no reserved word."""
    return re.fullmatch("[a-z][a-z0-9_]{0,31}", word) is not None and word not in RESERVED


def is_variable(word):
    """1 to 32 capital letters, digits and `_`, the first a letter."""
    return re.fullmatch("[A-Z][A-Z0-9_]{0,31}", word) is not None


# --- Protocol text ---------------------------------------------------------------------------------------------------

class Token(str):
    """A token of a text, with the byte at which it stands."""

    def __new__(cls, word, at):
        token = super().__new__(cls, word)
        token.at = at
        return token


@dataclasses.dataclass(frozen=True)
class End:
    """`end`, in global and in local types."""


@dataclasses.dataclass(frozen=True)
class Var:
    """A variable, in global and in local types."""
    name: str


@dataclasses.dataclass(frozen=True)
class Rec:
    """`rec NAME . BODY`, in global and in local types."""
    name: str
    body: object


@dataclasses.dataclass(frozen=True)
class Message:
    """`SENDER -> RECEIVER : SORT . THEN`."""
    sender: str
    receiver: str
    sort: str
    then: object


@dataclasses.dataclass(frozen=True)
class Choice:
    """`SENDER -> RECEIVER { LABEL : G , .. }`; each branch is a label and a type."""
    sender: str
    receiver: str
    branches: tuple


class Fault(Exception):
    """The line and the exit status with which the program ends; the fault's kind, the byte at which it is, and what more
    there is to say of it, by names."""

    def __init__(self, line, kind, at, **facts):
        super().__init__(line)
        self.line, self.status, self.kind, self.at, self.facts = line, 3, kind, at, facts


# what a token may have to be, apart from the tokens that are spelled in one way
KINDS = {"NAME": is_name, "VAR": is_variable}
TYPE = ("NAME", "VAR", "rec", "end")  # how a global type may begin
SORTS = ("int", "bool", "text")


class Reader:
    """Reads a protocol text from the left, token by token, up to the first fault."""

    def __init__(self, text):
        self.text, self.at, self.nodes = text, 0, 0

    def fault(self, kind, **facts):
        """The fault of that kind here."""
        return Fault(f"refused text {kind} {self.at}", kind, self.at, **facts)

    def token(self):
        """The token that comes next and is not yet taken, empty at the end of the text."""
        self.at = re.compile("[ \t\n\r]*").match(self.text, self.at).end()
        found = re.compile("[A-Za-z0-9_]+|->|[:;.,{}]").match(self.text, self.at)
        if self.at == len(self.text):
            return Token("", self.at)
        word = found.group() if found else ""
        if not (is_name(word) or is_variable(word) or word in RESERVED or word in ("->", *":;.,{}")):
            raise self.fault("word")
        return Token(word, self.at)

    def take(self, *may_come, **facts):
        """Takes the next token, which has to be one of these, or of one of these kinds."""
        token = self.token()
        if not is_one_of(token, may_come):
            raise self.fault("unexpected", expected=may_come, **facts)
        self.at += len(token)
        return token

    def protocol(self):
        """The roles and the global type of the whole text."""
        if len(self.text) > 65536:
            raise Fault("refused text toolong 65536", "toolong", 65536)
        self.take("roles")
        roles = [self.take("NAME", counts=True), self.take("NAME", counts=True)]
        while len(roles) < 8 and (token := self.take("NAME", ";")) != ";":
            roles.append(token)
        if len(roles) == 8:
            self.take(";", counts=True)
        body = self.type(1)
        if self.token():
            raise self.fault("trailing")
        return roles, body

    def type(self, level):
        """A global type whose root is at that level."""
        if is_one_of(self.token(), TYPE):
            self.nodes += 1
            if self.nodes > 256:
                raise self.fault("toomanynodes")
            if level > 64:
                raise self.fault("toodeep")
        token = self.take(*TYPE)
        if token == "end":
            return End()
        if is_variable(token):
            return Var(token)
        if token == "rec":
            name = self.take("VAR")
            self.take(".")
            return Rec(name, self.type(level + 1))
        self.take("->")
        return self.act(token, self.take("NAME"), level)

    def act(self, sender, receiver, level):
        """A message or a choice, after its two roles."""
        if self.take(":", "{") == ":":
            sort = self.take(*SORTS)
            self.take(".")
            return Message(sender, receiver, sort, self.type(level + 1))
        branches = [self.branch(level + 1)]
        while self.take(",", "}") == ",":
            branches.append(self.branch(level + 1))
        return Choice(sender, receiver, tuple(branches))

    def branch(self, level):
        """A label, and the type after it."""
        label = self.take("NAME")
        self.take(":")
        return label, self.type(level)


def is_one_of(token, may_come):
    """Whether a token is one of these, or of one of these kinds."""
    return any(KINDS[it](token) if it in KINDS else token == it for it in may_come)


# --- Faults of the protocol ------------------------------------------------------------------------------------------

def protocol_faults(roles, body):
    """The faults of a protocol that was read, the first first, of each place one. Those that the reader refuses are left out."""
    found = {}
    for fault in (*seconds("doublerole", roles), *type_faults(roles, body, {})):
        found.setdefault(fault.at, fault)
    return [*found.values()]


def seconds(kind, names):
    """The faults of names that stand twice in a list, at each further place."""
    return [named(kind, name, first=names[names.index(name)]) for at, name in enumerate(names) if name in names[:at]]


def named(kind, token, **facts):
    """The fault of that kind at this token."""
    return Fault(f"refused protocol {kind}", kind, token.at, token=token, **facts)


def type_faults(roles, node, loops):
    """The faults of the nodes in preorder. `loops` has the `rec`s around, and whether an act came since."""
    yield from node_faults(roles, node, loops)
    for below, inside in nodes_below(node, loops):
        yield from type_faults(roles, below, inside)


def nodes_below(node, loops):
    """The nodes right below a node, from the left, each with the `rec`s around it."""
    acted = dict.fromkeys(loops, True)
    if isinstance(node, Rec):
        others = {name: has_acted for name, has_acted in loops.items() if name != node.name}
        return [(node.body, {**others, node.name: False})]
    if isinstance(node, Message):
        return [(node.then, acted)]
    return [(below, acted) for _, below in node.branches] if isinstance(node, Choice) else []


def node_faults(roles, node, loops):
    """The faults of this node, in the order of the table."""
    if isinstance(node, (Message, Choice)):
        yield from act_faults(roles, node)
    elif isinstance(node, Var) and node.name not in loops:
        yield named("unbound", node.name)
    elif isinstance(node, Rec) and node.name in loops:
        yield named("shadowed", node.name, first=outer(node.name, loops))
    elif isinstance(node, Var) and not loops[node.name]:
        yield named("unguarded", node.name, first=outer(node.name, loops))


def act_faults(roles, node):
    """The faults of a message or a choice."""
    labels = [label for label, _ in node.branches] if isinstance(node, Choice) else []
    yield from (named("unknownrole", name, roles=roles) for name in (node.sender, node.receiver) if name not in roles)
    if node.sender == node.receiver:
        yield named("selfmessage", node.receiver)
    yield from seconds("doublelabel", labels)
    if len(labels) > 16:
        yield named("toomanybranches", labels[16])


def outer(name, loops):
    """The variable of that name, as the `rec` around has it."""
    return next(it for it in loops if it == name)


# --- Local types -----------------------------------------------------------------------------------------------------

@dataclasses.dataclass(frozen=True)
class Local:
    """`send PEER SORT . THEN` or `recv PEER SORT . THEN`: the one branch has the sort in place of a label.
    `choose PEER { LABEL : T , .. }` or `pick PEER { LABEL : T , .. }`."""
    kind: str
    peer: str
    branches: tuple


class Apart(Exception):
    """Two types that can't be merged: the labels after which they part, and the two types there."""

    def __init__(self, labels, one, other):
        super().__init__()
        self.labels, self.one, self.other = labels, one, other


class Unmerged(Exception):
    """This choice has branches that can't be merged for the role: the first that another one can't be merged with, that one,
    and where the two part."""

    def __init__(self, choice, first, other, apart):
        super().__init__()
        self.choice, self.first, self.other, self.apart = choice, first, other, apart


def merged(one, other, full):
    """The type that stands for both. Plainly they have to be the same. Under full merging picks from one peer have the labels
    of both, the first's in front; all else begins alike, and what follows is merged."""
    if full and isinstance(one, Rec) and isinstance(other, Rec) and one.name == other.name:
        return Rec(one.name, merged(one.body, other.body, full))
    if full and isinstance(one, Local) and isinstance(other, Local) and (one.kind, one.peer) == (other.kind, other.peer):
        return Local(one.kind, one.peer, merged_branches(one, other))
    if one != other:
        raise Apart((), one, other)
    return one


def merged_branches(one, other):
    """The branches of the type that stands for two of one kind and peer, under full merging."""
    ones, others = dict(one.branches), dict(other.branches)
    words = [*ones, *(word for word in others if word not in ones)]
    if one.kind != "pick" and list(ones) != list(others) or len(words) > 16:
        raise Apart((), one, other)
    return tuple((word, followed(one, word, ones, others)) for word in words)


def followed(node, word, ones, others):
    """What follows the label, or the sort, of that type: of two lists of branches that both have it, what stands for both."""
    if word not in ones or word not in others:
        return ones[word] if word in ones else others[word]
    try:
        return merged(ones[word], others[word], True)
    except Apart as found:
        label = (word,) if node.kind in ("choose", "pick") else ()
        raise Apart((*label, *found.labels), found.one, found.other) from None


def projection(role, node, full=False):
    """What a role does in a global type, under full or plain merging."""
    if isinstance(node, (End, Var)):
        return node
    if isinstance(node, Rec):
        is_idle = all(role not in parties(it) for it in preorder(node)) and not leads_out(node, set())
        return End() if is_idle else Rec(node.name, projection(role, node.body, full))
    if isinstance(node, Message):
        then = projection(role, node.then, full)
        kind, peer = part(role, node, "send", "recv")
        return Local(kind, peer, ((node.sort, then),)) if kind else then
    branches = tuple((label, projection(role, below, full)) for label, below in node.branches)
    kind, peer = part(role, node, "choose", "pick")
    return Local(kind, peer, branches) if kind else one_for_all(node, branches, full)


def one_for_all(choice, branches, full):
    """The type of a role that isn't told of a choice: its branches merged from the left."""
    found = branches[0][1]
    for place, branch in enumerate(branches[1:], 1):
        try:
            found = merged(found, branch[1], full)
        except Apart as apart:
            raise unmerged(choice, branches[:place], branch, full, apart) from None
    return found


def unmerged(choice, earlier, other, full, apart):
    """That this branch can't be merged with those before it: with the first of them with which it can't be by itself, or with
    all of them, as they have too many labels together."""
    for first in earlier:
        try:
            merged(first[1], other[1], full)
        except Apart as found:
            return Unmerged(choice, first, other, found)
    return Unmerged(choice, earlier[0], other, apart)


def preorder(node):
    """The node and all below it, in preorder."""
    return [node, *(it for below, _ in nodes_below(node, {}) for it in preorder(below))]


def parties(node):
    """The sender and the receiver of a node, if it has them."""
    return (node.sender, node.receiver) if isinstance(node, (Message, Choice)) else ()


def leads_out(node, loops):
    """Whether a variable in a type is that of no `rec` in it, nor of one of these loops."""
    if isinstance(node, Var):
        return node.name not in loops
    inside = {*loops, node.name} if isinstance(node, Rec) else loops
    return any(leads_out(below, inside) for below, _ in nodes_below(node, {}))


def part(role, node, output, input_):
    """The kind of the role's act and its peer there, or nothing where the act is that of two others."""
    return {node.sender: (output, node.receiver), node.receiver: (input_, node.sender)}.get(role, (None, None))


def spelled(node):
    """The text of a local type."""
    if isinstance(node, End):
        return "end"
    if isinstance(node, Var):
        return node.name
    if isinstance(node, Rec):
        return f"rec {node.name} . {spelled(node.body)}"
    if node.kind in ("send", "recv"):
        return f"{node.kind} {node.peer} {node.branches[0][0]} . {spelled(node.branches[0][1])}"
    branches = " , ".join(f"{label} : {spelled(below)}" for label, below in node.branches)
    return f"{node.kind} {node.peer} {{ {branches} }}"


def projected(role, body, full=False):
    """A role's local type, or the fault of a role that has none: its first choice with branches that can't be merged."""
    try:
        return projection(role, body, full)
    except Unmerged as found:
        choices = [node for node in preorder(body) if isinstance(node, Choice)]
        place = next(place for place, choice in enumerate(choices) if choice is found.choice)
        return Fault(f"refused projection {role} {place}", "projection", found.choice.sender.at, role=role,
                     choice=found.choice, branches=(found.first, found.other), apart=found.apart, full=full)


def examined(protocol, full=False):
    """Each role's local type, in the order of the roles, and the faults of the protocol, the first first: that of its text, or
    those of its nodes, or of its roles without a local type. Where there are faults, no types are of use."""
    try:
        roles, body = Reader(protocol.decode("latin-1")).protocol()
    except Fault as fault:
        return {}, [fault]
    faults = protocol_faults(roles, body)
    types = {} if faults else {role: projected(role, body, full) for role in roles}
    return types, faults or [it for it in types.values() if isinstance(it, Fault)]


def load(protocol, full=False):
    """Each role's local type, in the order of the roles, or the first fault of the protocol."""
    types, faults = examined(protocol, full)
    if faults:
        raise faults[0]
    return types
