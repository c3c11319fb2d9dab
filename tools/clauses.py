#!/usr/bin/env python3
"""Writes docs/CLAUSES.md: for each crate its public functions, with their clauses, their wrong bodies and their tests.

tools/clauses.py            writes the page
tools/clauses.py --check    says whether the page is what would be written, and ends with 1 where it isn't

A wrong body is an edit of the crate, and belongs to each function in which it replaces a line. A file of tests belongs to
a function where the text tells that it calls it: a free function by its name, imported from the crate or qualified by it;
a method by its type, or by a name that no other public method has which the file could mean."""
import pathlib
import re
import sys

sys.dont_write_bytecode = True
sys.path.insert(0, str(pathlib.Path(__file__).resolve().parent))
from functions import exported, functions_of  # noqa: E402

ROOT = pathlib.Path(__file__).resolve().parent.parent
PAGE = ROOT / "docs" / "CLAUSES.md"
MOST_TESTS = 3  # how many files of tests a row names
HEAD = """# Clauses

For each public function: the names of its clauses, the wrong bodies that the prover refuses (in bold those that the gate \
tries) and files of tests that call it; a wrong body of a private function, of a constant or of a type's method of a trait \
stands in a row of that one. `tools/clauses.py` writes this page, and `.ci/names` compares it.
"""
TABLE = "| Function | Clauses | Wrong bodies | Tests |\n|---|---|---|---|\n"
# methods of the library of the language that are called like methods here, so that a call alone doesn't tell which it is
OF_THE_LIBRARY = set("""accept append as_bytes as_slice back bytes copy count entries entry expect find first front get id
into_inner is is_none iter key last len lines name new next nth of open push read recv remove send sort source take to
write""".split())


def crates():
    """The folders of the crates, in the order of crates.txt: those with the code, and those with the tests."""
    lines = (ROOT / "crates.txt").read_text(encoding="utf-8").splitlines()
    names = [line.split(":")[0].split()[0] for line in lines if ":" in line.split("#")[0]]
    folders = [ROOT / "crates" / name for name in names]
    return ([crate for crate in folders if not crate.name.startswith("mps_test_")],
            [crate for crate in folders if crate.name.startswith("mps_test_")])


def changed_lines(crate, edit):
    """For each `old:` line of an edit its file and its place there, as the earlier lines of the edit left the file."""
    texts, file, old = {}, None, None
    for line in edit.read_text(encoding="utf-8").splitlines():
        word, _, text = line.partition(":")
        text = text.removeprefix(" ")
        if word == "file":
            file = text
            texts.setdefault(file, (crate / file).read_text(encoding="utf-8"))
        elif word == "old":
            old = text
            before, found, _ = texts[file].partition(old)
            if found:
                yield file, before.count("\n")
        elif word == "new" and old is not None:
            texts[file] = texts[file].replace(old, text, 1)


def wrong_bodies(crate, functions):
    """For each function that an edit changes its edits, those that the gate tries in bold, before the others; and for
    nothing the edits that change none."""
    bodies = {}
    for folder, mark in (("must-fail", "**"), ("attacks", "")):
        for edit in sorted(crate.glob(f"{folder}/*.edit")):
            places = list(changed_lines(crate, edit))
            changed = [function for function in functions
                       if any(file == function.file and function.first <= place < function.end for file, place in places)]
            for function in changed or [None]:
                bodies.setdefault(function, []).append(f"{mark}`{edit.stem}`{mark}")
    return bodies


class TestFile:
    """A file of tests: what it imports of which crate, and what it calls."""

    def __init__(self, path):
        self.name = "/".join(part for part in path.relative_to(ROOT / "crates").with_suffix("").parts if part != "src")
        self.path = path.relative_to(ROOT)
        text = re.sub(r"//[^\n]*|'(?:[^'\\]|\\[\s\S])'|\"(?:[^\"\\]|\\[\s\S])*\"", "", path.read_text(encoding="utf-8"))
        self.crates = set(re.findall(r"\bmps_\w+", text))
        self.named = {(used[1], word) for used in re.finditer(r"\buse (mps_\w+)::([^;]*);", text)
                      for word in re.findall(r"\w+|\*", used[2])}
        code = re.sub(r"\buse [^;]*;", "", text)
        self.named |= {(used[1], used[2]) for used in re.finditer(r"\b(mps_\w+)::(?:\w+::)*(\w+)", code)}
        self.own = set(re.findall(r"\bfn (\w+)", code))
        self.called = set(re.findall(r"(?<![\w.:])\w+(?=\()", code))
        self.methods = set(re.findall(r"\.(\w+)\(", code))
        self.paths = set(re.findall(r"\b(\w+)::(?:\w+::)*(\w+)\(", code)) | set(re.findall(r"\b(\w+)::(\w+)\(", code))

    def names(self, crate, word):
        """Whether it names what the crate calls so."""
        return (crate, word) in self.named or (crate, "*") in self.named

    def calls(self, crate, function, owners):
        """Whether it surely calls the function, where these types and traits have a public method of its name."""
        name, kind = function.name, function.kind
        if not kind:
            is_imported = name in self.called and name not in self.own and self.names(crate, name)
            return is_imported or (crate, name) in self.paths
        if (kind, name) in self.paths and self.names(crate, kind):
            return True
        if name in OF_THE_LIBRARY or name in self.own or name not in self.methods:
            return False
        others = [place for place, owner in owners if (place, owner) != (crate, kind)]
        is_meant = not function.trait and self.names(crate, kind) and not self.crates.intersection(others)
        return not others or is_meant


def tests_of(crate, function, owners, files):
    """The files of tests that call the function, as links, and how many more there are."""
    found = [f"[{file.name}]" for file in files if file.calls(crate, function, owners)]
    more = [f"and {len(found) - MOST_TESTS} more"] if len(found) > MOST_TESTS else []
    return ", ".join(found[:MOST_TESTS] + more)


def row(crate, function, bodies, tests, types):
    """The line of a function."""
    said = "" if function.is_public else " (constant)" if function.is_constant else " (private)"
    if function.trait not in ("", function.kind) and function.kind in types:
        said = f" (`{function.trait}`)"
    clauses = ", ".join(f"`{clause}`" if clause else "unnamed" for clause in function.clauses)
    link = f"[`{function.path()}`](../crates/{crate.name}/{function.file})"
    return f"| {link}{said} | {clauses} | {', '.join(bodies.get(function, []))} | {tests} |\n"


def section(crate, functions, owners, files):
    """The section of a crate."""
    bodies, types = wrong_bodies(crate, functions), exported(crate)[2]
    public = [function for function in functions if function.is_public]
    more = [function for function in functions if not function.is_public
            and (function in bodies or (function.trait and function.clauses and function.kind in types))]
    if not public + more:
        return f"\n## {crate.name}\n\nNo public function.\n"
    rows = [row(crate, function, bodies, tests_of(crate.name, function, owners.get(function.name, ()), files), types)
            for function in public]
    rows += [row(crate, function, bodies, "", types) for function in more]
    if None in bodies:
        rows.append(f"| elsewhere |  | {', '.join(bodies[None])} |  |\n")
    return f"\n## {crate.name}\n\n{TABLE}{''.join(rows)}"


def page():
    """What docs/CLAUSES.md has to be."""
    with_code, of_tests = crates()
    files = [TestFile(path) for crate in of_tests for path in sorted((crate / "src").rglob("*.rt"))]
    functions = {crate: list(functions_of(crate)) for crate in with_code}
    owners = {}
    for crate, found in functions.items():
        for function in found:
            if function.is_public and function.kind:
                owners.setdefault(function.name, []).append((crate.name, function.kind))
    text = HEAD + "".join(section(crate, functions[crate], owners, files) for crate in with_code)
    links = "".join(f"[{file.name}]: ../{file.path}\n" for file in files if f"[{file.name}]" in text)
    return f"{text}\n{links}"


def is_written():
    """Whether docs/CLAUSES.md is what would be written."""
    return PAGE.is_file() and PAGE.read_text(encoding="utf-8") == page()


def main():
    if sys.argv[1:] == ["--check"]:
        if not is_written():
            print("docs/CLAUSES.md: not what tools/clauses.py writes")
            sys.exit(1)
    elif sys.argv[1:]:
        sys.exit(__doc__)
    else:
        PAGE.write_text(page(), encoding="utf-8")


if __name__ == "__main__":
    main()
