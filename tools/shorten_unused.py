"""Drops from proofs what nothing cites any more: lemmas, `module _` blocks with nothing in them, and imports."""
import re
import subprocess

from shorten_proofs import declarations, indent

ANSWERS = ("Answers", "Invariants", "Proof")


def words_of(text):
    """The words of a text, comments aside."""
    return set(re.split(r"[\s(){};,\[\]|.:]+", re.sub(r"(?m)--.*$", "", text)))


def is_named(name, words):
    """Whether these words have the name, or all parts of the operator."""
    return all(part in words for part in name.split("◌") if part)


def outside(home, crate):
    """The words of each file of the repository beside the proofs of the crate; of a document, those of its code spans."""
    tracked = subprocess.run(["git", "ls-files"], cwd=home, stdout=subprocess.PIPE, text=True, check=True).stdout.splitlines()
    for place in tracked:
        file = home / place
        is_own = place.startswith(f"crates/{crate}/proofs/")
        if is_own or file.suffix not in (".antt", ".rt", ".edit", ".md") or not file.is_file():
            continue
        text = file.read_text(encoding="utf-8")
        yield words_of(text if file.suffix != ".md" else " ".join(re.findall(r"`([^`\n]+)`", text)))


def drop_unused(folder, others):
    """Drops what nothing cites from the proofs in a folder, where other files have these words, until all is cited, and gives
    the names that it dropped."""
    dropped = []
    texts = {file: file.read_text(encoding="utf-8") for file in sorted(folder.rglob("*.antt"))}
    before = None
    while before != texts:
        before = dict(texts)
        words = {file: words_of(text) for file, text in texts.items()}
        for file in texts:
            elsewhere = [it for other, it in words.items() if other != file] + others
            texts[file] = without_imports(without_blocks(without_lemmas(file.stem, texts[file], elsewhere, dropped)))
    for file, text in texts.items():
        if text != file.read_text(encoding="utf-8"):
            file.write_text(text, encoding="utf-8")
    return dropped


def without_lemmas(stem, text, elsewhere, dropped):
    """A file's text without the lemmas that nothing else in it names, nor a file with these words that names the file; it
    notes their names."""
    lines = text.split("\n")
    users = [words for words in elsewhere if stem in words]
    for it in reversed(declarations(lines)):
        rest = words_of("\n".join(lines[:it.first] + lines[it.end:]))
        is_open = it.is_public or it.is_mutual
        is_answer = stem in ANSWERS and (is_open or "goal." in lines[it.first])
        is_cited = any(is_named(name, words) for name in it.names for words in [rest, *(users if is_open else [])])
        if it.is_type or not it.names or is_answer or is_cited:
            continue
        first, end = it.first, it.end
        while first > 0 and lines[first - 1].strip().startswith("--") and "-- --" not in lines[first - 1]:
            first -= 1
        if lines[end:end + 1] == [""] and (first == 0 or not lines[first - 1].strip()):
            end += 1
        del lines[first:end]
        dropped += [f"{stem}.{name}" for name in it.names]
    return "\n".join(lines)


def without_blocks(text):
    """A file's text without `module _` blocks that declare nothing."""
    lines = text.split("\n")
    for at in range(len(lines) - 1, -1, -1):
        if re.match(r" *module _ ", lines[at]):
            head = next((it for it in range(at, len(lines)) if "where" in lines[it].split()), len(lines))
            after = next((it for it in range(head + 1, len(lines)) if lines[it].strip()), len(lines) - 1)
            if not lines[after].strip() or indent(lines[after]) <= indent(lines[at]):
                del lines[at:after]
    return "\n".join(lines)


def without_imports(text):
    """A file's text without the imports of single names that it doesn't use."""
    lines = text.split("\n")
    body = re.sub(r"--.*", "", "\n".join(line for line in lines if not re.match(r"(pub )?use ", line)))
    kept = []
    for line in lines:
        found = re.fullmatch(r"use (\S+?)\.\{([^}]*)\}", line)
        names = [name for name in found[2].split(", ") if is_used(name.split(" as ")[-1].strip(), body)] if found else []
        if not found:
            kept.append(line)
        elif names:
            kept.append(f"use {found[1]}.{{{', '.join(names)}}}")
    return "\n".join(kept)


def is_used(name, body):
    """Whether a text uses the name, or the parts of the operator."""
    return all(re.search(rf"(?<![^\s(){{}}\[\];,.λ]){re.escape(part)}(?![^\s(){{}}\[\];,.])", body)
               if re.fullmatch(r"[\w\-⊎₂]+", part) else part in body for part in name.split("◌") if part)
