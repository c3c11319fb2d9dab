"""story_types: where a role stands in its local type.

`./mps check` writes the types, as docs/FORMATS.md has them. A place is the beginning of a send, a receipt, a choice, a pick
or an end in such a text; what the role does there leads on to the next place.
"""
import re

WIDE = {"send": 3, "recv": 3, "choose": 2, "pick": 2, "end": 1}  # how many tokens say what comes first


class Place:
    """A place in a type: from which token to which it stands, what a shown session says of it, and where it leads."""

    def __init__(self, tokens, begin):
        self.begin, self.end = begin, begin + WIDE[tokens[begin]]
        self.words, self.branches = tokens[begin:self.end], {}

    def expects(self):
        """What is expected here, as a shown session has it."""
        return " ".join(self.words + (list(self.branches) if self.words[0] in ("choose", "pick") else []))

    def after(self, step):
        """The place after a step of the role: a mark and a commit leave it where it is."""
        if step.act in ("mark", "commit"):
            return self
        branch = step.what["label"] if step.act in ("choose", "pick") else self.words[2]
        found = self.branches[branch]
        while isinstance(found, list):  # a variable, which leads back to its `rec`
            found = found[0]
        return found


def read_places(tokens, at, loops):
    """The first place of the type that begins at that token, and the token after the type. `loops` has for each variable a
    list, in which the first place after its `rec` will be."""
    word = tokens[at]
    if word == "rec":
        loop = []
        found, end = read_places(tokens, at + 3, {**loops, tokens[at + 1]: loop})
        loop.append(found)
        return found, end
    if word in loops:
        return loops[word], at + 1
    place = Place(tokens, at)
    at = place.end
    if word in ("send", "recv"):
        place.branches[tokens[at - 1]], at = read_places(tokens, at + 1, loops)
    elif word != "end":
        while tokens[at] in ("{", ","):
            place.branches[tokens[at + 1]], at = read_places(tokens, at + 3, loops)
        at += 1
    return place, at


def read_types(checked):
    """Of each role, in order, the text of its type and the place where it begins, from what `./mps check` writes."""
    types = {}
    for role, text in re.findall(r"^(\S+) : (.*)$", checked, flags=re.MULTILINE):
        types[role] = text, read_places(text.split(" "), 0, {})[0]
    return types
