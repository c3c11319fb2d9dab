"""standings: what `./mps sessions` prints, read as rows, and random sessions of random protocols, each with its row as the reference
has it."""
import re
import subprocess

import journals
import made
import program
import protocols
import reference

RELAY = b"roles a b c ; a -> b : int . b -> c : int . end"
LINES = [b"a 1 send b 5", b"b recv a x", b"b 1 send c 7", b"c recv b y", b"c mark m"]
OTHERS = "of another session or protocol"
FULL = ("--merging", "full")
COLUMNS = ("session", "entries", "age", "stands", "waits", "uncommitted", "recorder", "wrong")


def mps(*words, **how):
    """What ./mps sessions prints and tells with these words, and its status."""
    ran = subprocess.run([program.MPS, "sessions", *map(str, words)], stdin=subprocess.DEVNULL, capture_output=True, text=True,
                         timeout=120, check=False, **how)
    return ran.stdout, ran.stderr, ran.returncode


def read_table(text):
    """The rows of a table, each by the names of its columns, and the summary."""
    head, *lines, summary = text.splitlines()
    names = [name for name in COLUMNS if f"  {name}" in f"  {head}"]
    ends = [head.index(name) + len(name) for name in names]
    begins = [0, ends[0], ends[1], *(head.index(name) for name in names[3:])]
    spans = list(zip(names, begins, [ends[0], ends[1], ends[2], *begins[4:], None]))
    return [{name: line[begin:end].strip() for name, begin, end in spans} for line in lines], summary


def told(*words):
    """The rows and the summary of a run that goes well."""
    out, said, status = mps(*words)
    if (said, status) != ("", 0):
        raise AssertionError(f"{words}: {said}, status {status}")
    return read_table(out)


def sealed(lines, protocol=RELAY, session=1):
    """The file of a session with these lines."""
    return journals.marked(journals.first_seal(protocol, session), lines)


def protocol_of(dice, full):
    """A random protocol that is accepted, in its written form, and its types."""
    while True:
        text = made.told(dice) if full else made.protocol(dice)
        try:
            types = reference.load(text, full)
        except reference.Fault:
            continue
        words = re.findall(rb"[A-Za-z0-9_]+|->|[:;.,{}]", text)
        return b" ".join(words), types


def session_of(dice, types):
    """A random session, by the reference: the room, and the lines that it accepted, some of them with numbers."""
    writer, room, lines, numbers = made.Writer(dice, types), reference.Room(types), [], dict.fromkeys(types, 0)
    for _ in range(dice.choice((0, 1, 5, 12, 30, 60))):
        line = writer.line()
        if reference.answer(room, line).startswith(("done ", "undone")):
            role, _, command = line.partition(b" ")
            if dice.random() < 0.5:
                numbers[role.decode()] += 1
                command = b"%d %s" % (numbers[role.decode()], command)
            lines.append(role + b" " + command)
    return room, lines


def row_of(room):
    """What a row has to say of a room of the reference."""
    view = room.view()
    heads = {role: view.head(role)[0] for role in room.types}
    stands = "; ".join(f"{role}: {reference.expects(node)}" for role, node in heads.items())
    waits = ", ".join(f"{role} for {node.peer}" for role, node in heads.items() if isinstance(node, protocols.Local)
                      and node.kind in ("recv", "pick") and not view.queues[node.peer, role])
    acts = [step.act.kind for step in room.history]
    free = sum(all(acts[at] != "commit" for at in room.consequences(place)) for place in range(len(acts)))
    return {"entries": str(len(room.journal)), "stands": stands, "waits": waits, "uncommitted": str(free), "wrong": ""}
