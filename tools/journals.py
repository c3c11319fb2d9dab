"""The files of recorded sessions, whose lines have seals, by FORMATS and nothing else."""
import dataclasses
import hashlib

SEAL = 8  # bytes


def first_seal(protocol, session):
    """The seal before the first line of a session: over the protocol's text, an LF, and the session's number."""
    return hashlib.sha256(protocol + b"\n" + str(session).encode()).digest()[:SEAL]


def next_seal(seal, line):
    """The seal of the line after the one with this seal."""
    return hashlib.sha256(seal + line).digest()[:SEAL]


def text_of(seal):
    """A seal as it stands at the end of its line."""
    return b" " + seal.hex().encode()


def sealed(seal, lines):
    """The bytes of these lines, each with its seal and its LF, after the line with this seal."""
    found = []
    for line in lines:
        seal = next_seal(seal, line)
        found.append(line + text_of(seal) + b"\n")
    return b"".join(found)


def marked(seal, lines=()):
    """The bytes of a file: the mark, and these lines."""
    return sealed(seal, [b"", *lines])


@dataclasses.dataclass
class Read:
    """What a file has: its lines without their seals, in order, and where each stands in the file, counted from 1; the number of
    the first line whose seal is wrong, where one is; how many lines and bytes stand before that, or in all; the seal of the
    last of these lines; and whether each line from there on has its own."""
    lines: list
    places: list
    fault: object
    count: int
    size: int
    seal: bytes
    is_sealed: bool

    def add(self, line):
        """Adds the next line of the file. Whether its seal is right."""
        is_mark = not self.is_sealed and line.startswith(b" ")
        body = line[:-1 - 2 * SEAL] if self.is_sealed else b"" if is_mark else line
        seal = next_seal(self.seal, body)
        if (self.is_sealed or is_mark) and line != body + text_of(seal):
            return False
        if is_mark:
            self.is_sealed = True
        else:
            self.lines.append(body)
            self.places.append(self.count + 1)
        self.count, self.size, self.seal = self.count + 1, self.size + len(line) + 1, seal
        return True

    def closes(self, line):
        """Whether the next line could be this one, with its seal, or the mark."""
        body = line[:-1 - 2 * SEAL] if self.is_sealed else b""
        return line == body + text_of(next_seal(self.seal, body))


def read(data, seal):
    """Reads the whole lines of a file, where this is the seal before the first. A rest without an LF is left out."""
    found = Read([], [], None, 0, 0, seal, False)
    for line in data.split(b"\n")[:-1]:
        if not found.add(line):
            found.fault = found.count + 1
            break
    return found


def bodies(data, seal):
    """The lines of a file without their seals, where this is the seal before the first, and the file is the mark and whole lines
    with right seals; else None. It is for the many files of which nothing else is to be told."""
    sha256, size, seals = hashlib.sha256, 1 + 2 * SEAL, b""
    *lines, rest = data.split(b"\n")
    if rest or not lines or len(lines[0]) != size:
        return None
    found = [line[:-size] for line in lines]
    for body in found:
        seal = sha256(seal + body).digest()[:SEAL]
        seals += seal
    # all seals are compared at once
    is_right = b"".join([line[-size:] for line in lines]) == b" " + seals.hex(" ", SEAL).encode()
    return found[1:] if is_right else None


def unsealed(lines):
    """Lines of a file without their seals, which aren't looked at, and without the mark, after which lines have them."""
    is_sealed = False
    for line in lines:
        if is_sealed:
            yield line[:-1 - 2 * SEAL]
        elif line.startswith(b" "):
            is_sealed = True
        else:
            yield line
