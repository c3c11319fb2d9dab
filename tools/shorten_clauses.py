"""Fewer clauses in the place of a declaration's, and clauses that need no helper: further candidates of tools/shorten."""
import collections
import re

from shorten_proofs import (FRESH, LONGEST, MOST, Candidate, atoms, closing, facts, grind, is_variable, place_of, plain,
                            shorter_parts, split, tokens)


def candidates(proofs, is_inner):
    """What may take the place of declarations: of clauses, or within them and of helpers."""
    helpers = proofs.helpers() if is_inner else {}
    for declaration in proofs.declarations:
        if not declaration.is_lemma or not declaration.names:
            continue
        for it in shorter_parts(proofs, declaration):
            if is_inner != (it.kind == "clause" and it.saves > 1):
                yield it
        if is_inner:
            yield from absorbing(proofs, declaration, helpers)
        elif not declaration.is_mutual:
            yield from merged(proofs, declaration)
        if not declaration.is_mutual:
            yield from caught(proofs, declaration)


def columns(text):
    """The arguments on the left of a clause, and its right side; None where it has none."""
    words = tokens(text)
    equal = place_of("=", words, 0, len(words))
    if equal is None:
        return None
    left = [text[words[low].begin:words[high - 1].end] for low, high in atoms(words, 1, equal)]
    return left, plain(text[words[equal].end:])


def arguments(signature):
    """The names of the explicit arguments of a signature, None for one that it leaves unnamed."""
    words = tokens(signature)
    found = []
    for low, high in split(words, 0, len(words), "→")[:-1]:
        names, at = [], low
        while at < high and words[at].text in "({":
            close = closing(words, at)
            group = [it.text for it in words[at + 1:close]]
            if ":" not in group or close + 1 < high and words[close + 1].text not in "({":
                break
            names += group[:group.index(":")] if words[at].text == "(" else []
            at = close + 1
        found += names if at >= high else [None]
    return found


def merged(proofs, declaration):
    """One clause with plain arguments, in the place of several or of patterns."""
    clauses = declaration.clauses()
    if not clauses:
        return
    body = declaration.text[clauses[0][0]:]
    words = tokens(body)
    sides = [columns(declaration.text[first:end]) for first, end in clauses]
    is_recursive = sum(it.text in declaration.names for it in words) > len(clauses)
    if is_recursive or None in sides or body.count("\n") < 1:
        return
    if len(sides) == 1 and all(map(is_variable, sides[0][0])):
        return
    head = declaration.text[:clauses[0][0]]
    names = arguments(re.sub(r"(?m)^\s*unfolding .*$", "", head).partition(" : ")[2])
    fresh = [it for it in FRESH if not re.search(rf"(?<!\w){it}(?!\w)", declaration.text)]
    for at, name in enumerate(names):
        if name is None:
            given = [left[at] for left, _ in sides if at < len(left)]
            used = [it for it in given if is_variable(it) and it not in (*names, "_")]
            names[at] = used[0] if used else fresh.pop(0) if fresh else f"h{at}"
    found = facts(words, 0, len(words), proofs.lemmas - set(declaration.names))[1]
    left = " ".join([declaration.names[0], *names])
    yield Candidate(declaration, "merged", body.count("\n"), clauses[0][0], len(declaration.text),
                    f"{' ' * declaration.indent}{left} = {grind(found[:MOST])}")


def caught(proofs, declaration):
    """A last clause for all others, in the place of those of one line that say the same, or of all of one line."""
    clauses = [(*it, columns(declaration.text[slice(*it)])) for it in declaration.clauses()]
    if len(clauses) < 3 or any(it[2] is None for it in clauses) or len({len(it[2][0]) for it in clauses}) > 1:
        return
    short = [it for it in clauses if "\n" not in declaration.text[it[0]:it[1]]]
    groups = collections.defaultdict(list)
    for it in short:
        groups[it[2][1]].append(it)
    trials = [(group, right) for right, group in groups.items() if len(group) > 1]
    if 3 <= len(short) < len(clauses):
        words = tokens("\n".join(declaration.text[first:end] for first, end, _ in short))
        trials.append((short, grind(facts(words, 0, len(words), proofs.lemmas - set(declaration.names))[1][:MOST])))
    for group, right in trials:
        for kept in (0, 1):
            if len(group) > kept + 1:
                yield catching(declaration, group, group[kept:], right)


def catching(declaration, group, gone, right):
    """The declaration with a last clause in the place of those that are gone, named as those of the group are."""
    fresh = [it for it in FRESH if not re.search(rf"(?<!\w){it}(?!\w)", declaration.text)]
    left = []
    for column in zip(*(it[2][0] for it in group)):
        is_one = len(set(column)) == 1 and is_variable(column[0])
        left.append(column[0] if is_one else fresh.pop(0) if fresh else f"h{len(left)}")
    text = declaration.text
    for first, end, _ in reversed(gone):
        text = text[:first] + text[end + 1:]
    last = f"{' ' * declaration.indent}{' '.join([declaration.names[0], *left])} = {right}"
    return Candidate(declaration, "caught", len(gone) - 1, 0, len(declaration.text), text.rstrip("\n") + "\n" + last)


def cited(names, helpers, seen=()):
    """The lemmas with what helpers among them cite in their places."""
    found = []
    for name in names:
        if name in helpers and name not in seen:
            found += cited(helpers[name][2], helpers, (*seen, name))
        elif name not in seen:
            found.append(name)
    return list(dict.fromkeys(found))


def absorbing(proofs, declaration, helpers):
    """A tactic with what the helpers of a clause cite, which then may go."""
    own = set(declaration.names)
    for first, end in declaration.clauses():
        text = declaration.text[first:end]
        words = tokens(text)
        equal = place_of("=", words, 0, len(words))
        if equal is None:
            continue
        applied, names = facts(words, equal + 1, len(words), proofs.lemmas)
        used = [it for it in names if it in helpers and it not in own]
        if used:
            recursive = [plain(text[words[low].begin:words[high - 1].end]) for low, high in applied if words[low].text in own]
            recursive = [it for it in dict.fromkeys(recursive) if len(it) <= LONGEST
                         and not any(word.text in used for word in tokens(it))][:4]
            lemmas = [it for it in cited(names, helpers) if it not in own][:MOST + 2] + recursive
            gain = sum(helpers[it][0].end - helpers[it][0].first + 1 for it in used if helpers[it][1] == 1)
            saves = text[words[equal].end:].count("\n") + gain
            if not saves:
                continue
            yield Candidate(declaration, "absorbed", saves, first + words[equal].end, first + len(text),
                            f" {grind(lemmas)}")
