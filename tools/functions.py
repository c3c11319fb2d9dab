"""The functions of a crate, as they stand in its sources: where each is, who may call it, and its contract's clauses."""
import re
from typing import NamedTuple

WORD = re.compile(r"[A-Za-z_][A-Za-z0-9_]*")
BLOCK = re.compile(r"(?:impl|(?:pub )?trait)\b(?:<[^>]*(?:<[^>]*>)?[^>]*>)?\s+(?:([\w<>:, ']+) for )?(\w+)")
START = re.compile(r'( *)(pub )?(?:pub\(\w+\) )?(?:const )?(?:unsafe )?(?:extern "C" )?fn (\w+)')
CONSTANT = re.compile(r"(?:pub )?(?:pub\(\w+\) )?const (\w+):")
CLAUSE = re.compile(r" *ensures\*?(?: (\w+))? \{")


class Function(NamedTuple):
    """A function of a file, or a constant, and the lines that it takes there, counted from 0 to before the end."""
    file: str
    name: str
    kind: str  # the type or the trait of which it is a method, or nothing
    trait: str  # the trait that its block declares or implements, or nothing
    is_public: bool
    clauses: tuple  # a clause without a name is an empty one
    first: int
    end: int
    is_constant: bool = False

    def path(self):
        """The name by which callers call it, once they have imported what it belongs to."""
        return f"{self.kind}::{self.name}" if self.kind else self.name


def exported(crate):
    """What the crate's root gives out: its public modules, the names that it re-exports and the types that it declares;
    and the files that are there for tests alone."""
    src = crate / "src"
    root = next(file for file in (src / "lib.rt", src / "main.rt") if file.exists())
    text = root.read_text(encoding="utf-8")
    modules = set(re.findall(r"^pub mod (\w+);", text, flags=re.M))
    names = set()
    for group in re.findall(r"^pub use [\w:]*?(\{[^}]*\}|\w+);", text, flags=re.M):
        names.update(WORD.findall(group))
    names.update(re.findall(r"^pub (?:enum|struct|trait) (\w+)", text, flags=re.M))
    tests = set(re.findall(r"^#\[cfg\(test\)\]\n(?:pub )?mod (\w+);", text, flags=re.M))
    return root, modules, names, tests


def end_of(lines, first, indent):
    """The line after a function that begins at the first of these lines, with or without a body."""
    in_body, depth = False, 0
    for place in range(first, len(lines)):
        line = lines[place]
        if line in (f"{indent}}}", f"{indent}{{}}") or (place == first and line.endswith("}")):
            return place + 1
        depth += line.count("{") - line.count("}")
        if not in_body and depth == 0 and line.endswith(";"):
            return place + 1
        of_header = place == first or line.startswith(f"{indent})")
        in_body = in_body or line == f"{indent}{{" or (of_header and line.endswith("{"))
    return len(lines)


def functions_of_file(path, file, whole, names):
    """The functions and the constants of one file. Callers can name all that is public in the whole of it, or what has one
    of these names."""
    lines = path.read_text(encoding="utf-8").splitlines()
    kind = trait = ""
    of_trait = False
    for place, line in enumerate(lines):
        block, found, constant = BLOCK.match(line), START.match(line), CONSTANT.match(line)
        if block:
            kind, of_trait = block[2], "trait " in line.split("<")[0]
            trait = kind if of_trait else block[1] or ""
        elif line.startswith("}"):
            kind = trait = ""
            of_trait = False
        if constant:
            yield Function(file, constant[1], "", "", False, (), place, place + 1, True)
        if found and len(found[1]) <= 4:
            owner = kind if found[1] else ""
            can_be_named = whole or (owner or found[3]) in names
            end = end_of(lines, place, found[1])
            clauses = tuple(clause[1] or "" for clause in map(CLAUSE.match, lines[place:end]) if clause)
            is_public = can_be_named and bool(found[2] or (owner and of_trait))
            yield Function(file, found[3], owner, trait if owner else "", is_public, clauses, place, end)


def functions_of(crate):
    """The functions and the constants of the crate, in the order of its files, those of its tests left out."""
    root, modules, names, tests = exported(crate)
    for path in sorted((crate / "src").glob("*.rt")):
        if path.stem not in tests:
            whole = path == root or path.stem in modules
            yield from functions_of_file(path, path.relative_to(crate).as_posix(), whole, names)
