"""manual: the orders of mps with their options, as --help says them: what man pages and completions are made of."""
import re
import subprocess
from typing import NamedTuple

COLUMN = 31  # where the help of mps has what an order does


class Option(NamedTuple):
    """An option: its names, the short one first where there is one, its value's name or nothing, what may be its value, what
    it does, and whether it may be given without its value."""
    names: tuple
    value: str = ""
    choices: tuple = ()
    text: str = ""
    is_optional: bool = False


class Order(NamedTuple):
    """An order: how it is called, what it does, and its options; of one of the program's own, also the line that
    shows its use, and its arguments; and the words of which one has to come first, if there are such."""
    name: str
    text: str
    options: list
    use: str = ""
    arguments: tuple = ()
    first: tuple = ()


def entries(help_text):
    """Of the help of mps each way to call it, without `mps`, and what it does."""
    found = []
    for line in help_text.splitlines():
        if line.startswith("mps ") and not line.startswith("mps WORDS"):
            is_short = line[COLUMN - 2:COLUMN] == "  "
            found.append([line[:COLUMN].strip() if is_short else line, line[COLUMN:] if is_short else ""])
        elif line.startswith(" " * COLUMN) and found:
            found[-1][1] += f" {line.strip()}"
    return [(use[4:], text.strip()) for use, text in found]


def paragraphs(help_text):
    """The paragraphs of the help of mps, without the ways to call it and the first line."""
    return [part for part in help_text.strip().split("\n\n")[1:] if not part.startswith("mps ")]


def said(words):
    """What a tool prints."""
    return subprocess.run(words, stdin=subprocess.DEVNULL, stdout=subprocess.PIPE, text=True, check=True).stdout


def listed_options(text):
    """The options that a tool lists in its help."""
    value = r"<?[\w|]+>?"  # in brackets where it may be left out
    pattern = rf"^ *((?:-\w, )?--[a-z]+)(?: ?(\[=?{value}\])| ({value}))?(?:  +| *\n {{12,}})(.*(?:\n {{12,}}\S.*)*)"
    for found in re.finditer(pattern, text, flags=re.MULTILINE):
        names, optional, value, about = found.groups("")
        value = value or optional.strip("[=]")
        about, _, choices = re.sub(r"\s+", " ", about).partition(" [possible values: ")
        choices = choices[:-1].split(", ") if choices else value.split("|") if value.islower() and value[0] != "<" else ()
        yield Option(tuple(names.split(", ")), value.strip("<>"), tuple(choices), about, bool(optional))


def program_order(program, name):
    """An order of the program, as its help says."""
    about, use, *parts = said([program, name, "--help"]).strip().split("\n\n")
    arguments = re.findall(r"^  (<\w+>) +(.*)", parts[0], flags=re.MULTILINE)
    return Order(name, about, list(listed_options(parts[-1])), use.removeprefix("Usage: mps_tool "), tuple(arguments))


def own_order(name, help_text, use, merging):
    """An order of mps itself, whose use names its options, and the words that may come first."""
    told = [(call[len(name) + 1:], text) for call, text in entries(help_text) if call.split()[0] == name]
    options = []
    for word in re.findall("--[a-z]+", use):
        texts = [text for call, text in told if call.startswith(word)] or re.findall(f"with {word} ([^.;]*)", "; ".join(text for _, text in told))
        options.append(merging if word == merging.names[-1] else Option((word,), text=texts[0]))
    first = re.findall(r"(?<!\S)[a-z]+(?:\|[a-z]+)+(?!\S)", use.replace("plain|full", ""))
    return Order(name, told[0][1], options, first=tuple(first[0].split("|")) if first else ())


def orders(program, tools, help_text, uses):
    """All orders in the help of mps, in its order. Those of the program have options of their own, and so have those of which
    `tools` has the file; `uses` has those of the others."""
    found, merging = {}, next(it for it in program_order(program, "check").options if it.names[-1] == "--merging")
    for use, text in entries(help_text):
        name = use.split()[0]
        if name in found or not name.isalpha():
            continue
        if name in uses:
            found[name] = own_order(name, help_text, uses[name], merging)
        elif name in tools:
            found[name] = Order(name, text, list(listed_options(tools[name].read_text(encoding="utf-8").split('"""')[1])))
        else:
            found[name] = program_order(program, name)
    return list(found.values())


def brief(text):
    """The first words of what an order or an option does."""
    return re.match(r".{16,}?(?=[;:,.] |[.]?$)|.*", text)[0]
