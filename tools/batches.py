"""Wrong bodies that are tried together: a check of many functions, with a wrong body in each, says of each whether it is
proved, so the start of the prover is paid once for all of them.

A function whose callee isn't proved may be passed over; it is tried again in a later check, without that callee's wrong
body. What a check doesn't settle is left for `rt must-fail`, which tries each alone: a change outside a function's body, one
that doesn't compile, one that is still proved, and one of which a proof says only that a name is gone."""
import collections
import pathlib
import re
import subprocess

GONE = re.compile(r"(?:note: )?(?:\./)?proofs/(\S+?)/\w+\.antt:.*(?:has no field|is not in scope|has no `|was not admitted)")
FUNCTION = re.compile(r"(\s*)(?:pub(?:\(\w+\))? )?(?:const )?fn (\w+)")


class Wrong:
    """A wrong body: the file of the edit, what it replaces in which sources, and the one function in which that stands,
    as `function` names it, or nothing."""

    def __init__(self, edit, crate):
        self.edit, self.pairs = edit, []
        file = old = None
        for line in edit.read_text(encoding="utf-8").splitlines():
            word, _, rest = line.partition(": ")
            if word == "file":
                file = rest
            elif word == "old":
                old = rest
            elif line.startswith("new:") and file and old:
                self.pairs.append((file, old, rest))
        places = {function(crate, file, old) for file, old, _ in self.pairs}
        self.function = places.pop() if len(places) == 1 else None

    def apply(self, crate):
        """Writes the wrong body into the sources of the crate."""
        for file, old, new in self.pairs:
            path = crate / file
            path.write_text(path.read_text(encoding="utf-8").replace(old, new), encoding="utf-8")


def function(crate, file, old):
    """The function in whose body the text stands, if it stands once in the file and there is such a function: its name,
    after that of its type and its trait, or of its module, as the end of the path by which a check names it."""
    path = crate / file
    if not file.startswith("src/") or not path.is_file():
        return None
    text = path.read_text(encoding="utf-8")
    if text.count(old) != 1:
        return None
    lines = text.splitlines()
    at = text.count("\n", 0, text.index(old))
    for start in range(at - 1, -1, -1):
        begins = FUNCTION.match(lines[start])
        if begins and len(begins[1]) < len(lines[at]) - len(lines[at].lstrip()):
            ends = [k for k in range(start, at) if lines[k] == begins[1] + "}"]
            body = next((k for k in range(start, at) if lines[k] == begins[1] + "{" or lines[k].endswith(" {")), at)
            owner = owner_of(lines, start) if begins[1] else module(crate, file)
            return f"{owner}::{begins[2]}" if body < at and not ends else None
    return None


def module(crate, file):
    """The name of the module that a file of src/ is."""
    stem = pathlib.PurePosixPath(file).stem
    return crate.name if stem in ("lib", "main") else stem


def owner_of(lines, start):
    """The type of the `impl` in which the line stands, and its trait, as one word."""
    first = next((k for k in range(start, -1, -1) if lines[k].startswith("impl")), start)
    last = next((k for k in range(first, start) if lines[k].endswith("{") or lines[k].startswith("where")), first)
    head = " ".join(lines[first:last + 1]).removeprefix("impl").rstrip("{ ")
    head = head.split(" where")[0].strip()
    if head.startswith("<"):
        depth = 0
        for at, sign in enumerate(head):
            depth += (sign == "<") - (sign == ">" and head[at - 1] != "-")
            if depth == 0:
                head = head[at + 1:].strip()
                break
    trait, found, name = head.rpartition(" for ")
    return re.sub(r"<.*", "", name) + (re.sub(r"'\w+|\W", "", trait) if found else "")


class Batches:
    """Tries the wrong bodies of a crate, in a copy of the repository that has this crate and those below it."""

    def __init__(self, room, name, say, keep):
        self.name, self.say, self.keep = name, say, keep
        self.crate = room / "crates" / name
        self.calls = collections.defaultdict(set)
        self.refused, self.alone = set(), []

    def run(self, edits):
        """Tries these edits; returns those that a proof refuses, and the others, which are to be tried alone."""
        wrong = [Wrong(edit, self.crate) for edit in edits]
        self.alone = [it.edit for it in wrong if not it.function]
        waiting = [it for it in wrong if it.function]
        if len(waiting) < 2:
            return set(), edits
        while waiting:
            waiting = [it for it in waiting if it not in (batch := self.chosen(waiting))] + self.tried(batch)
        return self.refused, self.alone

    def chosen(self, waiting):
        """Of those that wait at most one for each function, and none that waits for another's callee."""
        batch = {}
        for it in waiting:
            met = self.reached(it.function)
            if it.function not in batch and not met & set(batch):
                batch[it.function] = it
        return list(batch.values())

    def tried(self, batch):
        """Tries these together, and returns those that this doesn't settle though another check may."""
        lines, is_proved = self.check(batch)
        half = len(batch) // 2
        if half and is_proved is None:
            return self.tried(batch[:half]) + self.tried(batch[half:])
        if is_proved is not False:
            self.alone += [it.edit for it in batch]
            return []
        told = collections.defaultdict(list)
        for line in lines:
            if found := re.match(rf"fn ({self.name}::\S+): (.*)", line):
                told[end(found[1])].append(found[2])
                self.calls[end(found[1])] |= {end(it) for it in re.findall(rf"`({self.name}::\S+?)`", found[2].partition("it calls")[2])}
        names = {it.function for it in batch}
        # functions that call each other have one proof, in a folder whose name begins with +
        strays = {it for it, said in told.items() if any(is_refusal(why) and "/+" not in why for why in said)} - names
        if strays:
            self.say(f"rt: must-fail {self.name}: {', '.join(sorted(strays))} isn't proved either, so each edit is tried alone")
            self.alone += [it.edit for it in batch]
            return []
        gone = {found[1].rsplit("/", 1)[-1] for line in lines if (found := GONE.match(line))}
        left = []
        for it in batch:
            name = it.function.rsplit("::", 1)[-1]
            why = [line for line in told[it.function] if is_refusal(line)]
            if why and ("search" in why[0] or name not in gone):
                first = next((line for line in lines if f"/{name}/" in line and ": error" in line), f"{it.function}: {why[0]}")
                self.refused.add(it.edit)
                self.keep(it.edit)
                self.say(f"rt: must-fail {self.name}/{it.edit.name}: refused, as it must be: {first[:160]}")
            elif self.reached(it.function) & (names - {it.function}):
                left.append(it)
            else:
                self.alone.append(it.edit)
        return left

    def reached(self, function):
        """The functions that a check named as callees of this one, or of such a callee."""
        found, new = set(), {function}
        while new:
            found |= new
            new = set().union(*(self.calls.get(it, set()) for it in new)) - found
        return found - {function}

    def check(self, batch):
        """What rt says of these functions with the wrong bodies, line by line, and whether it proves them, if it says so."""
        files = {self.crate / file for it in batch for file, _, _ in it.pairs}
        was = {file: file.read_bytes() for file in files}
        for it in batch:
            it.apply(self.crate)
        only = [word for it in batch for word in ("--only", it.function)]
        ran = subprocess.run(["rt", "check", *only], cwd=self.crate, stdin=subprocess.DEVNULL, stdout=subprocess.PIPE,
                             stderr=subprocess.STDOUT, text=True, errors="replace", check=False)
        for file, content in was.items():
            file.write_bytes(content)
        lines = ran.stdout.splitlines()
        found = next((it for line in reversed(lines) if (it := re.fullmatch(r"only=(\d+) proved=(\d+)", line))), None)
        return lines, found and found[1] == found[2]


def end(path):
    """The end of the path by which a check names a function: its name, and the name before it."""
    return "::".join(path.split("::")[-2:])


def is_refusal(line):
    """Whether a function isn't proved for a reason of its own, not only for a callee's."""
    return "`search` did not prove" in line or line.startswith(("not proved", "no proof")) and "it calls" not in line
