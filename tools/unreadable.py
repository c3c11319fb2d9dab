"""unreadable: why a line of a script can't be read, and where in the line that is.

It goes through a line from the left, as docs/FORMATS.md has the forms of lines, up to the first part that isn't as it
should be. What is said of it begins with what the program says with -v (crates/mps_program/src/flaws.rt), and goes on after
a comma or a colon with what only this line has.
"""
import re

from explain import MARK, NO_MARK
from protocols import RESERVED, is_name

FORMS = {"send": "send PEER VALUE", "recv": "recv PEER SLOT", "choose": "choose PEER LABEL", "pick": "pick PEER",
         "mark": "mark NAME", "commit": "commit", "undo": "undo NUMBER", "rollback": "rollback NUMBER", "back": "back NAME",
         "news": "news NUMBER", "show": "show"}
LONGEST, LONGEST_TEXT = 512, 256  # bytes of a line, and of a text in it
COMMENT = re.compile("#|//|--|;|%")  # how comments begin elsewhere


def either(names):
    """These names, as one of which to choose."""
    *most, last = names
    return f"{', '.join(most)} or {last}" if most else last


def listed(names):
    """These names, all of them."""
    *most, last = names
    return f"{', '.join(most)} and {last}" if most else last


ASCII = "all bytes of a line are ASCII, 127 at most"
A_COMMENT = "it looks like a comment, and a script has none"
SPACE_AT_END = "it ends with a space"
TWO_SPACES = "it has two spaces in a row, and between two words is one"
NO_NUMBERS = "and a script's lines have none"


def unreadable(line, roles):
    """The byte of a line from which on it can't be read, and why; nothing where it can be read."""
    return unreadable_bytes(line) or unreadable_words(line.decode("ascii"), roles)


def unreadable_bytes(line):
    """Of a line that has nothing, too much, or a byte that no line may have."""
    if len(line) > LONGEST:
        return LONGEST, f"a line has {LONGEST} bytes at most, and this one has {len(line)}"
    foreign = re.search(rb"[^\x00-\x7f]", line)
    if foreign:
        return foreign.start(), f"{ASCII}: {NO_MARK if line.startswith(MARK) else foreign_byte(line[foreign.start():])}"
    if not line:
        return 0, "it is empty"
    if COMMENT.match(line[:2].decode()):
        return 0, A_COMMENT
    control = re.search(rb"[^ -~]", line)
    return (control.start(), control_byte(line[control.start():])) if control else None


def foreign_byte(rest):
    """The letter over 127 with which these bytes begin."""
    letter = re.match(r"\w?", rest[:4].decode(errors="ignore")).group()
    return f"{f'`{letter}`' if letter else 'another byte'} stands here"


def control_byte(rest):
    """Of the byte with which these begin, which no line may have."""
    if rest == b"\r":
        return "it ends with a carriage return, and lines end with LF alone, not with CR and LF"
    if rest[0] == 9:
        return "it has a tab, and between two words is one space"
    return f"it has a control character, the byte 0x{rest[0]:02X}"


def unreadable_words(text, roles):
    """Of a line whose bytes are those of lines."""
    role, _, rest = text.partition(" ")
    verb = rest.partition(" ")[0]
    if role not in roles:
        return 0, wrong_role(text, roles)
    if verb not in FORMS:
        return len(role) + 1, wrong_verb(rest, verb)
    at = len(role) + 1 + len(verb)
    for kind in FORMS[verb].split(" ")[1:]:
        if at == len(text):
            return at, f"{form(verb)}: {kind} is missing"
        at += 1
        word = text[at:] if kind == "VALUE" else text[at:].partition(" ")[0]
        fault = wrong_blank(text[at:]) or WRONG[kind](word, roles)
        if fault:
            return at + fault[0], fault[1]
        at += len(word)
    return (at, wrong_end(text[at:], verb)) if at < len(text) else None


def form(verb):
    """What the form of such a line is."""
    return f"the form of such a line is ROLE {FORMS[verb]}, with one space between two words"


def wrong_role(text, roles):
    """Of a line that doesn't begin with a role."""
    word = text.partition(" ")[0]
    if not word:
        return "it begins with a space, and a line begins with its role"
    if word.isdigit():
        return f"it begins with a number, {NO_NUMBERS}"
    return f"its first word is no role of the protocol, whose roles are {listed(list(roles))}"


def wrong_verb(rest, verb):
    """Of what comes after the role."""
    if rest.startswith(" "):
        return TWO_SPACES
    if verb.isdigit():
        return f"a number stands before the command, {NO_NUMBERS}"
    return f"after the role comes a command: one of {either(list(FORMS))}" + f", not `{verb}`" * bool(verb)


# Each of what follows gives how far into a word, or what stands in its place, something is wrong, and what; or nothing.

def wrong_blank(rest):
    """Of a space where a word begins, or of a line that ends there."""
    if not rest.strip(" "):
        return 0, SPACE_AT_END
    return (0, TWO_SPACES) if rest[0] == " " else None


def wrong_peer(word, roles):
    """Of a peer."""
    return None if word in roles else (0, f"the peer is no role of the protocol, whose roles are {listed(list(roles))}")


def wrong_name(word, _):
    """Of a slot, a label or the name of a mark."""
    if is_name(word):
        return None
    if word in RESERVED:
        return 0, f"a reserved word is no name: `{word}` is one"
    if is_name(word[:32]):
        return 0, f"names have 32 letters at most, and this one has {len(word)}"
    return 0, f"names are of small letters, digits and `_`, with a letter first: `{word}` is none"


def wrong_number(word, _):
    """Of a number."""
    if not re.fullmatch("[0-9]+", word):
        return 0, f"a number has nothing but digits: `{word}` is none"
    if word != "0" and word.startswith("0"):
        return 0, f"no number but 0 begins with a zero: `{word}` does"
    return (0, f"the greatest number is {2 ** 64 - 1}: `{word}` is over it") if int(word) >= 2 ** 64 else None


def wrong_value(rest, _):
    """Of a value, with all that comes after it in the line."""
    if rest.startswith('"'):
        return wrong_text(rest)
    word = rest.partition(" ")[0]
    if word != rest:
        return after_value(rest, len(word))
    if re.fullmatch("-?0[0-9]+|-0", word):
        return 0, f"no int but 0 begins with a zero: `{word}` does"
    if re.fullmatch("-?[0-9]+", word):
        is_int = -2 ** 63 <= int(word) < 2 ** 63
        return None if is_int else (0, f"an int is from {-2 ** 63} to {2 ** 63 - 1}: `{word}` isn't")
    if word in ("true", "false"):
        return None
    return 0, f"a value is an int such as -5, `true` or `false`, or a text in double quotes: `{word}` is none"


def wrong_text(rest):
    """Of a text, with all that comes after it in the line."""
    inside, end, more = rest[1:].partition('"')
    if "\\" in inside:
        return 1 + inside.index("\\"), "a `\\` stands in the text, and a text has none"
    if not end:
        return 0, "a `\"` is missing at the end of the text"
    if more.endswith('"'):
        return 1 + len(inside), "a `\"` stands in the text, and a text has none"
    if more:
        return after_value(rest, 2 + len(inside))
    is_long = len(inside) > LONGEST_TEXT
    return (0, f"a text has {LONGEST_TEXT} bytes at most, and this one has {len(inside)}") if is_long else None


def after_value(rest, at):
    """Of what comes after a value that ends there."""
    more = rest[at:]
    why = needless(more) or "nothing comes after a value: a text of several words stands in double quotes"
    return at + (len(more) - len(more.lstrip(" "))) * bool(more.strip(" ")), why


def wrong_end(rest, verb):
    """What is wrong with what comes after the last word."""
    return needless(rest) or f"{form(verb)}: nothing comes after that"


def needless(rest):
    """What is wrong with a space at the end, or with a comment."""
    if not rest.strip(" "):
        return SPACE_AT_END
    return A_COMMENT if COMMENT.match(rest.strip(" ")) else None


WRONG = {"PEER": wrong_peer, "SLOT": wrong_name, "LABEL": wrong_name, "NAME": wrong_name, "NUMBER": wrong_number,
         "VALUE": wrong_value}
