"""claims: cases whose answers are held against what can be said of them, and runs over a pipe."""
import os
import random
import select
import subprocess
import time

import made
import program
import reference
import scripts
from fast import FastRoom
from scripts import PAIR, ROLES, pair_turns, ring, ring_turns, script


def wrong_numbers(answers):
    """The first answer whose numbers can't be: `done` has to count up by one, and `undone` to fall."""
    newest = 0
    for answer in answers:
        word, *given = answer.split(" ")
        if word == "done":
            if given[:1] != [str(newest + 1)]:
                return f"{answer} comes after step {newest}"
            newest += 1
        if word == "undone":
            steps = [newest + 1, *(int(number) for number in given)]
            if any(one <= other for one, other in zip(steps, steps[1:])):
                return f"{answer} doesn't fall from {newest}"
    return None


def numbers(bench):
    """Of random scripts: `undone` lists fall, and no number is given out twice or before a smaller one."""
    for count in range(2, 9):
        protocol = scripts.all_pairs(count)
        writer = made.Writer(random.Random(count), reference.load(protocol))
        writer.weights = (90, 3, 1, 2, 1, 1, 0, 0, 1, 1)
        lines = [writer.line().decode("latin-1") for _ in range(3000)]
        wrong = wrong_numbers(bench.answers(protocol, *lines))
        bench.holds(wrong is None, wrong, protocol, *lines)


def cut(bench):
    """After a return to the first mark the shown state is that of the script cut there."""
    for count in range(2, 9):
        turns, last = 24_000 // (2 * count), [f"a mark {'m' * 32}", "a show", f"{ROLES[count - 1]} send a 0"]
        first, protocol = ring_turns(count, 0, turns // 4), ring(count)
        later = [*ring_turns(count, 7, turns), "a mark n", *ring_turns(count, 3, 20), "a back n",
                 *ring_turns(count, 9, 20), f"a back {'m' * 32}"]
        lines = [*first, last[0], *later, *last[1:]]
        told, wanted = bench.answers(protocol, *lines), bench.answers(protocol, *first, *last)
        bench.holds(told[-2:] == wanted[-2:], "the state isn't that of the script cut at the mark", protocol, *lines)


def one_by_one(bench):
    """40,000 steps taken back one by one, the last one first, leave an opening session and a number that goes on."""
    undos = [(f"{'ab'[at % 2]} undo {at + 1}", f"undone {at + 1}") for at in reversed(range(40_000))]
    lines = [*pair_turns(0, 20_000), *[line for line, _ in undos], "a show", "a send b 1"]
    told = bench.answers(PAIR, *lines)
    bench.holds(told[40_000:80_000] == [answer for _, answer in undos], "an undo is missing", PAIR, *lines)
    bench.holds(told[80_000].startswith('{"history":[],"queues":[],'), "steps are left", PAIR, *lines)
    bench.holds(told[80_001] == "done 40001", told[80_001], PAIR, *lines)


def pieces(bench):
    """Scripts that come through a pipe in pieces of each small size are answered as those of a file are."""
    text = script(*ring_turns(3, 0, 20), "a rollback 31", "x" * 600, "b news 0", "a show")[:-1]
    wanted = reference.run(ring(3), text, FastRoom)
    bench.runs += 1
    bench.mps.order("check", ring(3))  # whose file the runs below read
    for size in (1, 2, 7, 10, 11, 12, 13, 511, 512, 513, 600):
        with subprocess.Popen([bench.mps.path, "run", f"{bench.mps.room.name}/0", "-"], stdin=subprocess.PIPE,
                              stdout=subprocess.PIPE, bufsize=0) as ran:
            for at in range(0, len(text), size):
                ran.stdin.write(text[at:at + size])
                if at < 50 * size:
                    time.sleep(0.0002)
            ran.stdin.close()
            out = ran.stdout.read()
        found = reference.Outcome(out, "", ran.returncode)
        if found != wanted:
            bench.fault(program.first_difference(wanted, found), "run", ring(3), text)


def at_once(bench):
    """Each line that comes by itself is answered before the next is written."""
    lines = [*ring_turns(4, 0, 10), "a rollback 9", "d news 0", "a show", "", "z"]
    wanted = reference.run(ring(4), script(*lines), FastRoom).out.splitlines(keepends=True)
    bench.runs += 1
    bench.mps.order("check", ring(4))
    with subprocess.Popen([bench.mps.path, "run", f"{bench.mps.room.name}/0", "-"], stdin=subprocess.PIPE,
                          stdout=subprocess.PIPE, bufsize=0) as ran:
        for line, answer in zip(lines, wanted):
            ran.stdin.write(script(line))
            found = b""
            while not found.endswith(b"\n") and select.select([ran.stdout], [], [], 10)[0]:
                found += os.read(ran.stdout.fileno(), 65_536) or b"\n"
            if found != answer:
                bench.fault(f"  to {line!r} at once {found!r}", "run", ring(4), script(*lines))
                break


CASES = (numbers, cut, one_by_one, pieces, at_once)
