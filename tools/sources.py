"""The crates of the repository, what they stand on, sums of their sources, and where what is built of these stands."""
import contextlib
import hashlib
import os
import subprocess
import time

HOME = os.path.dirname(os.path.dirname(os.path.realpath(__file__)))
OUT = os.path.join(HOME, "out")
INSTALLED = os.path.join(HOME, "installed")  # what a package tells of what it put here
SETTLED = 3  # seconds after which a file that is changed again has another time, on any file system


def listed():
    """The crates of the repository, each with the libraries that it names."""
    found = {}
    with open(os.path.join(HOME, "crates.txt"), encoding="utf-8") as lines:
        for line in lines:
            name, colon, below = line.split("#")[0].partition(":")
            if colon:
                found[name.split()[0]] = below.split()
    return found


def needed(crates, top):
    """The crates that `top` stands on, the lowest first and itself last, each with the libraries that it names."""
    found = {}

    def visit(name):
        if name in crates and name not in found:
            for low in crates[name]:
                visit(low)
            found[name] = crates[name]

    visit(top)
    return found


def place(kind, sources, name="mps_tool"):
    """Where the program, or the library, of that kind stands that was built of the sources with that digest."""
    return os.path.join(OUT, kind, sources, name)


def installed():
    """The kind and the sources of the program that a package put here, and the folder of the library; or nothing."""
    with contextlib.suppress(FileNotFoundError), open(INSTALLED, encoding="ascii") as file:
        kind, sources, folder = file.read().split()
        return kind, sources, os.path.join(HOME, folder)
    return None


def built(sources, name="mps_tool"):
    """The kind and the place of the program that runs, the proved one before the checked one; or nothing."""
    if installed():
        return installed()[0], os.path.join(HOME, "mps_tool")
    places = ((kind, place(kind, sources, name)) for kind in ("proved", "checked"))
    return next((found for found in places if os.path.exists(found[1])), None)


def digest(crates):
    """A digest of the sources of these crates."""
    found = hashlib.sha256()
    for name, below in crates.items():
        found.update(f"{name}: {' '.join(below)}\n".encode())
        for folder in ("src", "specs", "proofs"):
            for top, folders, files in os.walk(os.path.join(HOME, "crates", name, folder)):
                folders.sort()
                for file in sorted(files):
                    path = os.path.join(top, file)
                    with open(path, "rb") as source:
                        content = hashlib.sha256(source.read()).hexdigest()
                    found.update(f"{os.path.relpath(path, HOME)} {content}\n".encode())
    return found.hexdigest()[:16]


def noted_digest(crates):
    """The same digest, with a note for the next run of mps, which says what the note is for."""
    seen, began = look(), time.time()
    sources = digest(crates)
    times = [float(word) for line in seen.splitlines() for word in line.rsplit(b" ", 2)[1:]]
    if times and max(times) < began - SETTLED and look() == seen:
        write_note(sources.encode() + b"\n" + seen)
    return sources


def look():
    """What the system says of each source, or nothing where it isn't said."""
    ran = subprocess.run([os.path.join(HOME, "tools", "look")], stdout=subprocess.PIPE, stderr=subprocess.DEVNULL, check=False)
    return ran.stdout if ran.returncode == 0 else b""


def write_note(text):
    """Writes the note, which comes to its place whole or not at all; where it can't be written, there is none."""
    there = os.path.join(OUT, "sources")
    beside = f"{there}.{os.getpid()}"
    with contextlib.suppress(OSError):
        with open(beside, "wb") as note:
            note.write(text)
        os.replace(beside, there)
