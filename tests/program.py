"""program: the program that ./mps runs, as the tests call it."""
import os
import pathlib
import pty
import re
import subprocess
import sys
import tempfile

import reference

HOME = pathlib.Path(__file__).resolve().parent.parent
OUT = HOME / "out" / "tests"
MPS = str(HOME / "mps")


def find():
    """Where the program stands that ./mps runs; the checked one is built where there is none."""
    for words in (["which"], ["--version"], ["which"]):
        told = subprocess.run([MPS, *words], cwd=HOME, stdin=subprocess.DEVNULL, stdout=subprocess.PIPE, text=True,
                              check=True).stdout
        found = re.fullmatch(r"(proved|checked) program of the sources \w+: (\S+)\n", told)
        if found:
            return found[1], str(HOME / found[2])
    sys.exit(f"tests: ./mps which says {told}")


def examples():
    """The orders of the examples: each with its options, and the texts of its protocol and its scripts."""
    folder = HOME / "examples"
    for line in (folder / "commands").read_text(encoding="utf-8").splitlines():
        order, *words = line.partition(" > ")[0].split() or [""]
        options = words[:2] if words[:1] == ["--merging"] else []
        if order in ("check", "run", "same"):
            yield order, options, *((folder / word).read_bytes() for word in words[len(options):])


class Program:
    """The program, with a folder for what it reads."""

    def __init__(self):
        self.kind, self.path = find()
        memory = "/dev/shm" if os.access("/dev/shm", os.W_OK) else None
        self.room = tempfile.TemporaryDirectory(prefix="mps-tests-", dir=memory)

    def __enter__(self):
        return self

    def __exit__(self, *_):
        self.room.cleanup()

    def run(self, words, seconds=120, **streams):
        """What the program comes to with these words."""
        streams = {"stdout": subprocess.PIPE, "stdin": subprocess.DEVNULL, **streams}
        try:
            ran = subprocess.run([self.path, *words], stderr=subprocess.PIPE, timeout=seconds, check=False, **streams)
        except subprocess.TimeoutExpired:
            return reference.Outcome(b"", f"ran for more than {seconds} seconds", -1)
        told = ran.stderr.decode("latin-1")
        fault = told[:-1] if told.endswith("\n") else told and f"{told} (without LF)"
        return reference.Outcome(ran.stdout or b"", fault, ran.returncode)

    def order(self, order, *texts, options=(), **more):
        """What the program comes to with this order and these options, over files with these texts; of two scripts it tells how
        many lines it refused."""
        paths = [os.path.join(self.room.name, str(place)) for place in range(len(texts))]
        for path, text in zip(paths, texts):
            with open(path, "wb") as file:
                file.write(text)
        return self.run([*(["-v"] if order == "same" else []), order, *options, *paths], **more)


def lost(words, stream, **how):
    """Runs of a command whose standard output, or error, is full, closed, and a pipe that nobody reads."""
    words, number = [str(word) for word in words], {"stdout": 1, "stderr": 2}[stream]
    reader, writer = os.pipe()
    os.close(reader)
    with open("/dev/full", "wb") as full, open(writer, "wb") as unread:
        for call, end in ((words, full), (["sh", "-c", f'exec "$@" {number}>&-', "sh", *words], None), (words, unread)):
            streams = {"stdin": subprocess.DEVNULL, "stdout": subprocess.PIPE, "stderr": subprocess.PIPE, stream: end}
            yield subprocess.run(call, **streams, text=True, timeout=60, check=False, **how)


def unwritten(words, **how):
    """What a command tells, and its status, each time that its standard output is lost."""
    return [(ran.stderr, ran.returncode) for ran in lost(words, "stdout", **how)]


def untold(words, **how):
    """What a command writes, and its status, each time that its standard error is lost."""
    return [(ran.stdout, ran.returncode) for ran in lost(words, "stderr", **how)]


def unwritten_by(tool):
    """What comes of that where a tool has something to write."""
    told = f"{tool}: standard output can't be written: "
    return [(f"{told}No space left on device\n", 2), (f"{told}Bad file descriptor\n", 2), ("", 141)]


def at_terminal(words, **how):
    """What a command prints, what it tells a terminal, and its status."""
    mine, other = pty.openpty()
    streams = {"stdin": subprocess.DEVNULL, "stdout": subprocess.PIPE, "stderr": other}
    with subprocess.Popen([str(word) for word in words], **streams, **how) as ran:
        os.close(other)
        out, told = ran.stdout.read().decode(), b""
        try:
            while piece := os.read(mine, 4096):
                told += piece
        except OSError:  # as the other end is closed
            pass
    os.close(mine)
    return out, told.decode().replace("\r\n", "\n"), ran.returncode


def keep(name, order, texts, options=()):
    """Keeps the files of a run under out/tests, and gives the command that repeats it."""
    OUT.mkdir(parents=True, exist_ok=True)
    ends = ("protocol", "script", "second.script")
    paths = [OUT / f"{name}.{end}" for end, _ in zip(ends, texts)]
    for path, text in zip(paths, texts):
        path.write_bytes(text)
    return " ".join(["mps", order, *options, *(str(path.relative_to(HOME)) for path in paths)])


def first_difference(wanted, found):
    """What differs in two outcomes, in a few lines."""
    told = []
    if wanted[1:] != found[1:]:
        told.append(f"  fault and status: wanted {wanted.fault!r} and {wanted.status}, "
                    f"found {found.fault[:300]!r} and {found.status}")
    if wanted.out != found.out:
        pairs = zip(wanted.out.split(b"\n") + [b""], found.out.split(b"\n") + [b""])
        line, pair = next(((line, pair) for line, pair in enumerate(pairs, 1) if pair[0] != pair[1]), (0, (b"", b"")))
        told.append(f"  line {line} of the output: wanted {pair[0][:300]!r}, found {pair[1][:300]!r}")
    return "\n".join(told)
