"""The declarations of a file of proofs, and shorter ones that may take their places: candidates, which the prover judges."""
import collections
import re
import typing

WORD = re.compile(r"[^\s(){}\[\];,]+|[(){}\[\];,]")
OPEN, CLOSE = "({[", ")}]"
OPERATOR = re.compile(r"[≡≢∷∙→×⊎+*<≤=|&:.∘←↔¬⊥⊤^%/\-]+")
ENDS = set(") } ] , ; = in where | ↦ let λ at".split())  # words that end what a lemma is applied to
TACTICS = set("omega grind search cc rw simp first_of at grw".split())
# what proofs import from modules of proofs that is no lemma for a tactic: definitions and tactics
NO_LEMMAS = set("""absurd add ap ap₂ arith cc codes cond const drop elim eqb false filter first_of fold get_or grind id inl
inr leb length ltb map max min nat_eq nat_le nat_lt negsuc not omega pos refl replicate reverse rules rw search set simp
slice_get slice_index_or slice_set subst suc sum sym take tests true tt vec_capacity vec_items vec_len zero
⊎_elim""".split())
NOT_DECLARED = set("use mod infixl infixr infix open ruleset syntax".split())
CONSTRUCTORS = set("true false refl tt zero suc inl inr".split())
FRESH = "other others further second third fourth fifth sixth seventh eighth ninth tenth".split()
MOST = 12  # how many lemmas a tactic is given
LONGEST = 90  # of a lemma's application that a tactic is given, as a longer one is a proof of its own


class Word(typing.NamedTuple):
    """A word of a text, and where it stands."""
    text: str
    begin: int
    end: int


class Candidate(typing.NamedTuple):
    """A declaration's text from begin to end, and what may stand in its place."""
    declaration: object
    kind: str
    saves: int
    begin: int
    end: int
    text: str

    def whole(self):
        """The declaration as it would be."""
        old = self.declaration.text
        return old[:self.begin] + self.text + old[self.end:]


class Declaration:
    """A declaration: its lines from first to end, its names, and of what sort it is."""

    def __init__(self, lines, first):
        words = lines[first].split()
        marks = [word for word in words[:3] if word in ("pub", "abbrev", "unfoldable", "private")]
        rest = words[len(marks):] or [""]
        self.first, self.end, self.indent = first, first + 1, indent(lines[first])
        self.is_public, self.is_mutual = "pub" in marks, rest[0] == "mutual"
        self.is_type = rest[0] in ("record", "data", "inductive")
        self.is_lemma = not self.is_type and set(marks) <= {"pub"}
        self.names = [] if self.is_mutual else rest[1:2] if self.is_type else rest[:1]
        self.text = ""

    def take(self, line, at):
        """Takes a further line."""
        if self.is_mutual and (named := re.match(rf" {{{self.indent + 2}}}(?:pub )?(\S+) : ", line)):
            self.names.append(named[1])
        if not line.strip().startswith("--"):
            self.end = at + 1

    def goes_on(self, line, words):
        """Whether a line belongs to it."""
        if indent(line) > self.indent or words[0][0] in CLOSE or words[0] == "unfolding":
            return True
        return not self.is_mutual and words[:1] == self.names[:1] and words[1:2] != [":"]

    def clauses(self):
        """Its clauses, each as the places in its text where it begins and ends."""
        starts, place, column = [], 0, self.indent + 2 * self.is_mutual
        for line in self.text.split("\n"):
            words = line.split()
            if words and indent(line) == column and words[0][0] not in CLOSE:
                starts.append((place, words[0] in self.names and words[1:2] != [":"]))
            place += len(line) + 1
        ends = [begin for begin, _ in starts[1:]] + [len(self.text)]
        return [(begin, len(self.text[:end].rstrip())) for (begin, is_clause), end in zip(starts, ends) if is_clause]


class Proofs:
    """A file of proofs: its lines, its declarations, and which names are lemmas."""

    def __init__(self, text):
        self.lines = text.split("\n")
        self.declarations = declarations(self.lines)
        for it in self.declarations:
            it.text = "\n".join(self.lines[it.first:it.end])
        self.imported = imported(text)
        self.lemmas = {name for name, path in self.imported.items() if is_lemma(name, path)}
        self.lemmas.update(name for it in self.declarations if it.is_lemma for name in it.names)

    def helpers(self):
        """The lemmas of this file alone that one or two others cite, and not themselves: how many do, and what they cite."""
        words = {it: collections.Counter(re.split(r"[\s(){};,\[\]|.]+", it.text)) for it in self.declarations}
        found = {}
        for it in self.declarations:
            if it.is_public or not it.is_lemma or it.is_mutual or "unfolding" in it.text:
                continue
            users = sum(1 for other in self.declarations if other is not it and words[other][it.names[0]])
            clauses = it.clauses()
            if clauses and 1 <= users <= 2:
                inside = tokens(it.text[clauses[0][0]:])
                if sum(word.text == it.names[0] for word in inside) <= len(clauses):
                    found[it.names[0]] = (it, users, facts(inside, 0, len(inside), self.lemmas - {it.names[0]})[1])
        return found


def indent(line):
    """How many blanks a line begins with."""
    return len(line) - len(line.lstrip(" "))


def declarations(lines):
    """The declarations of these lines, those of `module _` blocks too."""
    found, now, is_header = [], None, False
    for at, line in enumerate(lines):
        words = line.split()
        if is_header:
            is_header = "where" not in words
        elif words and now and now.goes_on(line, words):
            now.take(line, at)
        elif words:
            now = None
            if words[0] == "module":
                is_header = "where" not in words
            elif not words[0].startswith("--") and not NOT_DECLARED & {words[0], words[words[0] == "pub"]}:
                now = Declaration(lines, at)
                found.append(now)
    return found


def imported(text):
    """The names that a file imports, each with the path of its module."""
    found = {}
    for path, names in re.findall(r"(?m)^(?:pub )?use ([^\s{]+?)\.\{([^}]*)\}", text):
        for name in filter(None, re.split(r"\s*,\s*", names.strip())):
            found[name.split(" as ")[-1]] = path
    return found


def is_lemma(name, path):
    """Whether an imported name may be a lemma, by its form and its module."""
    is_named = "◌" not in name and (re.match("[a-z]", name) or "-" in name)
    return bool(is_named) and name not in NO_LEMMAS and not f"{path}.".count(".specs.")


def is_variable(text):
    """Whether an argument on the left of a clause is a plain variable."""
    return re.fullmatch(r"[a-z_][^\s.]*", text) is not None and text not in CONSTRUCTORS


def tokens(text):
    """The words of a text, comments aside."""
    without = re.sub(r"(?m)--.*$", lambda it: " " * len(it[0]), text)
    return [Word(it[0], it.start(), it.end()) for it in WORD.finditer(without)]


def closing(words, at):
    """Where the bracket closes that opens at a place."""
    depth = 0
    for place in range(at, len(words)):
        depth += (words[place].text in OPEN) - (words[place].text in CLOSE)
        if depth == 0:
            return place
    return len(words) - 1


def outer(words, first, end):
    """The places of these words that stand in no brackets of their own; the brackets count."""
    depth = 0
    for at in range(first, end):
        depth -= words[at].text in CLOSE
        if depth < 0:
            return
        if depth == 0:
            yield at
        depth += words[at].text in OPEN


def place_of(text, words, first, end):
    """Where a word stands first outside brackets, or None."""
    return next((at for at in outer(words, first, end) if words[at].text == text), None)


def split(words, first, end, separator):
    """The ranges between separators that stand outside brackets."""
    cuts = [first - 1, *(at for at in outer(words, first, end) if words[at].text == separator), end]
    return [(low + 1, high) for low, high in zip(cuts, cuts[1:])]


def atoms(words, first, end):
    """The ranges of arguments that stand in a row: each a word, or what brackets hold."""
    found, opened = [], first
    for at in outer(words, first, end):
        if words[at].text in OPEN:
            opened = at
        else:
            found.append((opened if words[at].text in CLOSE else at, at + 1))
    return found


def parts_of_let(words, first, end):
    """Where the `=` of a let stands, whether a type is before it, and where its `in` stands."""
    lets, equal, is_typed = 0, None, False
    for at in outer(words, first, end):
        text = words[at].text
        lets += (text == "let") - (text == "in")
        if lets == 0:
            return equal, is_typed, at
        if lets == 1 and equal is None:
            equal = at if text == "=" else None
            is_typed = is_typed or text == ":"
    return equal, is_typed, end


def body_of_lambda(words, first, end):
    """Where the body of a lambda begins, or None."""
    return next((at + 1 for at in outer(words, first + 1, end) if words[at].text.endswith(".")), None)


def regions(words, first, end, kind, counts=True):
    """The expressions within these words, the whole too where it counts, each with its kind."""
    if first >= end:
        return
    if counts:
        yield kind, first, end
    if words[first].text == "let":
        equal, is_typed, at = parts_of_let(words, first, end)
        if equal is not None:
            yield from regions(words, equal + 1, at, "let", is_typed)
        yield from regions(words, at + 1, end, "in")
    elif words[first].text.startswith("λ") and body_of_lambda(words, first, end):
        yield from regions(words, body_of_lambda(words, first, end), end, "lambda")
    else:
        at = first
        while at < end:
            if words[at].text in OPEN:
                close = closing(words, at)
                yield from within(words, at, min(close, end), words[at - 1].text if at > first else "")
                at = close
            at += 1


def within(words, first, close, before):
    """The expressions in a bracket: a tuple's parts, a record's fields, or branches."""
    kinds = {"(": ("part", ",", None), "{": ("field", ";", "="), "[": ("branch", "|", "↦")}
    kind, separator, begins = kinds[words[first].text]
    for low, high in split(words, first + 1, close, separator):
        at = place_of(begins, words, low, high) if begins else low - 1
        if at is not None:
            yield from regions(words, at + 1, high, kind, before not in TACTICS)


def bound(words):
    """The names that lambdas, lets and branches among these words bind, each with the place of the first that does."""
    found = {}
    for at, word in enumerate(words):
        if word.text.startswith("λ"):
            end = body_of_lambda(words, at, len(words)) or at + 6
            names = [it.text.rstrip(".") for it in words[at + 1:end]]
        elif word.text == "let" and at + 1 < len(words):
            end = closing(words, at + 1) if words[at + 1].text in OPEN else at + 1
            names = [it.text for it in words[at + 1:end + 1]]
        elif word.text == "↦":
            low = next((low for low in range(at - 1, -1, -1) if words[low].text in ("|", "[")), at)
            names = [it.text for it in words[low + 1:at]]
        else:
            continue
        for name in filter(is_variable, names):
            found.setdefault(name, at)
    return found


def facts(words, first, end, lemmas):
    """The ranges of lemmas' applications that need no bound name, and the names of the lemmas."""
    inside, applied, names = bound(words[first:end]), [], []
    at = first
    while at < end:
        if words[at].text not in lemmas:
            at += 1
            continue
        after = end_of_application(words, at + 1, end)
        is_closed = all(inside.get(it.text.split(".")[0], at) >= at - first for it in words[at:after])
        if is_closed and after - at > 1:
            applied.append((at, after))
        names += [it.text for it in words[at:after if is_closed else at + 1] if it.text in lemmas]
        at = after if is_closed else at + 1
    return applied, list(dict.fromkeys(names))


def end_of_application(words, at, end):
    """Where the arguments end that begin at a place."""
    while at < end:
        text = words[at].text
        is_empty = text == "[" and words[min(at + 1, end - 1)].text == "]"
        if text in ENDS or text == "[" and not is_empty or text.startswith("λ") or OPERATOR.fullmatch(text):
            return at
        at = closing(words, at) + 1 if text in OPEN else at + 1
    return min(at, end)


def plain(text):
    """An expression in one line."""
    text = re.sub(r"\s+", " ", text).strip()
    return text.replace("( ", "(").replace(" )", ")").replace(",)", ")")


def grind(lemmas):
    """The tactic that uses these lemmas."""
    return f"grind ({', '.join(['arith', *lemmas])})" if lemmas else "grind arith"


def tactics(text, words, found):
    """What may take the place of an expression that uses these facts."""
    applied, names = found
    uses = dict.fromkeys(plain(text[words[low].begin:words[high - 1].end]) for low, high in applied)
    uses = [it for it in uses if len(it) <= LONGEST][:MOST]
    yield grind(names[:MOST])
    yield f"cc ({', '.join(uses)})" if uses else "(cc)"
    if uses:
        yield grind(uses)


def expressions(text, words):
    """The expressions of a clause and of the definitions below its where: kinds, ranges, and where each one's end is."""
    equal = place_of("=", words, 0, len(words))
    if equal is None:
        return
    where = place_of("where", words, equal, len(words))
    for kind, low, high in regions(words, equal + 1, where or len(words), "clause"):
        yield kind, low, high, len(text) if kind == "clause" else words[high - 1].end
    if where is None or where + 1 == len(words):
        return
    below = text.rfind("\n", 0, words[where + 1].begin) + 1
    column = words[where + 1].begin - below
    starts = [at for at in range(where + 1, len(words)) if words[at].text not in CLOSE
              and words[at].begin - (text.rfind("\n", 0, words[at].begin) + 1) == column]
    for first, end in zip(starts, [*starts[1:], len(words)]):
        equal = place_of("=", words, first, end)
        if equal is not None and words[min(first + 1, end - 1)].text != ":":
            for kind, low, high in regions(words, equal + 1, end, "where"):
                yield kind, low, high, words[high - 1].end


def shorter_parts(proofs, declaration):
    """A tactic in the place of each expression of each clause."""
    for first, last in declaration.clauses():
        text = declaration.text[first:last]
        words = tokens(text)
        for kind, low, high, end in expressions(text, words):
            begin = words[low].begin
            is_body = kind in ("clause", "where") and text[:begin].rstrip(" ").endswith("\n")
            saves = text[begin:end].count("\n") + is_body
            if saves < 1 or words[low].text in TACTICS and saves < 3:
                continue
            begin = words[low - 1].end if is_body else begin
            found = facts(words, low, len(words) if end == len(text) else high, proofs.lemmas - set(declaration.names))
            for tactic in tactics(text, words, found):
                if len(tactic) < len(plain(text[words[low].begin:end])):  # fewer words, not the same ones in fewer lines
                    yield Candidate(declaration, kind, saves, first + begin, first + end, " " * is_body + tactic)
