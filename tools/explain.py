"""explain: why the program refuses a protocol, in a few lines for the person who wrote it.

The program says what is wrong in one line, by a name and a number. This says where in the file that is, shows the line
of text with a caret below the place, and says what is expected there. tools/protocols.py finds the fault once more.
"""
import os
import re

from protocols import RESERVED, Local, Rec, examined, is_name, is_variable, spelled

BLANKS = b" \t\r\n"
WIDE = 100  # characters of a line of text that are shown at most
MOST = 65_536  # bytes of a protocol's text
LONG = 160  # characters of a local type that are shown at most
KINDS = {"NAME": "a name", "VAR": "a variable"}
NEAR = 4  # labels that are shown at most of those after which two types part
ADVICE = "docs/DESIGNING.md of Cizhmolat shows what to do about it"
FULLY = "with --merging full this protocol is accepted"
MARK = b"\xef\xbb\xbf"  # which some editors put before a text in UTF-8
NO_MARK = "a byte order mark stands here, which editors don't show: save the text as UTF-8 without one"
SPELLING = "names are of small letters, digits and `_`, variables of capital ones, with a letter first"


def told_of(path, line, most=None, full=False):
    """What there is to say of the protocol in that file, which the program refused with that line under full or plain merging,
    of so many faults at most: nothing where the file can't be read again, as a pipe can't, or doesn't have that fault any
    more."""
    if not os.path.isfile(path):
        return b""
    try:
        with open(path, "rb") as file:
            text = file.read(MOST + 1)
    except OSError:
        return b""
    faults = faults_of(text, full)
    if not faults or line != f"{faults[0].line}\n".encode():
        return b""
    told = "".join(explanation(path, text, fault) for fault in faults[:most])
    if faults[0].kind == "projection":
        told += f"{FULLY}\n" * (not full and not faults_of(text, True)) + f"{ADVICE}\n"
    return told.encode(errors="surrogateescape")


def faults_of(text, full=False):
    """The faults of a protocol's text under full or plain merging, the first first."""
    return examined(text, full)[1]


def explanation(path, text, fault):
    """The lines that explain this fault of the text of that file."""
    end = len(text.rstrip(BLANKS)) if fault.kind == "unexpected" else len(text)
    line, column, shown, under = pointed(text, min(fault.at, end))
    lines = [f"{path}:{line}:{column}: {REASONS[fault.kind](text, fault)}", f"  {shown}", f"  {' ' * under}^"]
    if fault.kind == "projection":
        lines += differing(fault)
    return "".join(f"{it}\n" for it in lines)


# --- The place -------------------------------------------------------------------------------------------------------

def position(text, at):
    """The line and the column of a byte, counted from 1, as an editor shows them."""
    before = text[:at].split(b"\n")
    return len(before), len(printable(before[-1])) + 1


def printable(line):
    """A line as a terminal may show it: what can't be printed is a question mark."""
    return "".join(it if it.isprintable() else " " if it == "\t" else "?" for it in line.decode(errors="replace"))


def pointed(text, at):
    """The line and the column of a byte, the part of that line that is shown, and how far into it the byte is."""
    line, column = position(text, at)
    whole = printable(text.split(b"\n")[line - 1].rstrip(b"\r"))
    begin = max(0, min(column - 1 - WIDE // 2, len(whole) - WIDE))
    return line, column, whole[begin:begin + WIDE], column - 1 - begin


def where(text, token):
    """The line and the column of a token."""
    return "line {}, column {}".format(*position(text, token.at))


# --- What is said of each fault --------------------------------------------------------------------------------------

def no_token(text, fault):
    """Of bytes that are no token."""
    word = re.compile(b"[A-Za-z0-9_]*").match(text, fault.at).group().decode()
    if text.startswith(MARK) and fault.at == 0:
        return NO_MARK
    if not word:
        return "nothing in a protocol begins like this: names are of the letters a to z, and there are no comments"
    if is_name(word[:32]) or is_variable(word[:32]):
        return "names and variables have 32 letters at most"
    return f"`{word}` is neither a name nor a variable: {SPELLING}"


def not_expected(text, fault):
    """Of a token that can't follow those before it."""
    expected = fault.facts["expected"]
    *most, last = [KINDS.get(it, f"`{it}`") for it in expected]
    wanted = f"{', '.join(most)} or {last}" if most else last
    found = re.compile(b"[A-Za-z0-9_]+|->|.?", re.DOTALL).match(text, fault.at).group().decode()
    why = ""
    if fault.facts.get("counts") and (found == ";" or is_name(found)):
        why = ": a protocol has two to eight roles"
    if "NAME" in expected and found in RESERVED:
        why = f": `{found}` is a reserved word"
    if "NAME" in expected and is_variable(found) or "VAR" in expected and is_name(found):
        why = f": {SPELLING}"
    return f"{wanted} is expected here, {f'not `{found}`' if found else 'where the text ends'}{why}"


def unmerged(_, fault):
    """Of a role that does different things in the branches of a choice that others make."""
    role, choice = fault.facts["role"], fault.facts["choice"]
    what = "can't be ready for all branches" if fault.facts["full"] else "doesn't do the same in all branches"
    return f"`{role}` takes no part in this choice between `{choice.sender}` and `{choice.receiver}`, and {what}"


def differing(fault):
    """What the role does in the two branches that differ."""
    role, (first, other) = fault.facts["role"], fault.facts["branches"]
    texts = [spelled(first[1]).split(" "), spelled(other[1]).split(" ")]
    same = next((at for at, pair in enumerate(zip(*texts)) if pair[0] != pair[1]), min(map(len, texts)))
    begin = max(0, same - 8) if max(len(" ".join(it)) for it in texts) > LONG else 0
    wide = max(len(first[0]), len(other[0])) + 2
    for label, words in zip((first[0], other[0]), texts):
        shown = " ".join([".."] * bool(begin) + words[begin:])
        label = f"`{label}`".ljust(wide)
        yield f"what {role} does in {label} : {cut(shown)}"
    if fault.facts["full"]:
        yield parting(role, fault.facts["apart"])


def cut(text):
    """The beginning of a text, as much as is shown."""
    return text if len(text) <= LONG else text[:LONG - 3] + " .."


def parting(role, apart):
    """After which labels the role would have to know the branch, and what it would come to there."""
    labels = [".."] * (len(apart.labels) > NEAR) + [f"`{label}`" for label in apart.labels[-NEAR:]]
    after = f"after {', '.join(labels)}, " if labels else ""
    one, other = begun(apart.one), begun(apart.other)
    if isinstance(apart.one, Rec) and isinstance(apart.other, Rec):
        return f"{after}{role} comes to `{one}` or to `{other}`, and loops of two names aren't merged"
    if one.startswith("pick ") and one.split(" ")[:2] == other.split(" ")[:2]:
        return f"{after}{role} would pick from more than 16 labels, and a choice has 16 at most"
    return f"{after}{role} would have to know the branch: it comes to `{one}` or to `{other}`"


def begun(node):
    """How a local type begins."""
    text = spelled(node)
    if isinstance(node, Local) and node.kind in ("choose", "pick"):
        return cut(f"{node.kind} {node.peer} {{ {' , '.join(label for label, _ in node.branches)} }}")
    return text.split(" . ")[0]


REASONS = {
    "toolong": lambda text, fault: "the text goes on here, and a protocol has 65,536 bytes at most",
    "word": no_token,
    "unexpected": not_expected,
    "toomanynodes": lambda text, fault: "this is the 257th node, counting each `end`, variable, `rec`, message and choice, "
                                        "and a protocol has 256 at most",
    "toodeep": lambda text, fault: "this is at level 65, and a protocol has 64 levels at most: 63 acts and what comes after "
                                   "them",
    "trailing": lambda text, fault: "the protocol ends before this, and nothing may come after it",
    "doublerole": lambda text, fault: "the role `{token}` is named twice".format(**fault.facts),
    "unknownrole": lambda text, fault: "`{}` is no role of this protocol, whose roles are {}".format(
        fault.facts["token"], " ".join(fault.facts["roles"])),
    "selfmessage": lambda text, fault: "`{token}` can't send to itself".format(**fault.facts),
    "doublelabel": lambda text, fault: "the label `{}` has a branch of this choice already, at {}".format(
        fault.facts["token"], where(text, fault.facts["first"])),
    "toomanybranches": lambda text, fault: "this is the 17th branch, and a choice has 16 at most",
    "unbound": lambda text, fault: "no `rec {token}` stands around this `{token}`".format(**fault.facts),
    "shadowed": lambda text, fault: "this `rec {}` stands inside another one, at {}".format(
        fault.facts["token"], where(text, fault.facts["first"])),
    "unguarded": lambda text, fault: "nothing is sent between this `{0}` and its `rec {0}`, at {1}".format(
        fault.facts["token"], where(text, fault.facts["first"])),
    "projection": unmerged,
}
