"""compared: cases whose answers are compared with those of the reference, in its fast form."""
import random

import made
import program
import reference
import scripts
from fast import FastRoom
from scripts import PAIR, ROLES, TEXTS, pair_turns, receipts, ring, ring_turns, script, sends

MILLION = 1_000_000


def counts(bench):
    """Rings of 2 to 8 roles: marks, rollbacks and returns that reach all roles, and what each then hears and shows."""
    for count in range(2, 9):
        roles, turn = ROLES[:count], 2 * count
        questions = ("news 0", "news 10", f"news {turn * 140}", "show")
        asked = [f"{role} {question}" for role in roles for question in questions]
        marked = [f"{role} mark {role}m" for role in roles]
        backed = [f"{role} back {role}m" for role in reversed(roles)]
        bench.agrees(
            ring(count), *ring_turns(count, 0, 100), "a mark m", *ring_turns(count, 100, 40), "a show",
            f"{roles[-1]} undo {turn * 140}", f"a undo {turn * 140 + 1}", f"a rollback {turn * 120 + 2}", *asked,
            *ring_turns(count, 120, 5), *marked, *ring_turns(count, 125, 5), *backed, *asked,
            "a back m", *asked, "a back m", *ring_turns(count, 1, 3))


def pairs(bench):
    """All pairs of 2 to 8 roles, with a show in each state of a turn and a rollback by each role."""
    for count in range(2, 9):
        protocol, lines = scripts.all_pairs(count), scripts.all_pairs_turns(count, 1)
        shown = [it for line in lines for it in (line, f"{line[0]} show")]
        bench.agrees(protocol, *lines, *lines, *shown, *lines[:len(lines) // 2], "a show")
        for at, role in enumerate(ROLES[:count]):
            number = 4 * len(lines) + 1 + next(place for place, line in enumerate(lines) if line[0] == role)
            asked = [f"{it} news 0" for it in ROLES[:count]]
            bench.agrees(protocol, *4 * lines, *lines[:len(lines) * 3 // 4], f"{role} rollback {number}", "a show",
                         *asked, *lines, f"{role} show", f"{ROLES[(at + 1) % count]} undo 1")


def living(bench):
    """Random scripts that live long, for each count of roles."""
    for count in range(2, 9):
        for seed, protocol in enumerate((ring(count), scripts.all_pairs(count))):
            writer = made.Writer(random.Random(100 * count + seed), reference.load(protocol))
            writer.weights = (94, 2, 0.2, 1, 0.3, 0.1, 1, 0.1, 1, 1)
            bench.agrees(protocol, b"\n".join(writer.line() for _ in range(2500)))


def taken(bench):
    """A rollback, and a return to a mark, of 2,000 and of 50,000 steps, late in a session."""
    for steps in (2000, 2001, 50_000):
        lines = [*pair_turns(0, 10_000), "a mark m", *pair_turns(0, steps // 2), *sends(steps % 2)]
        for line in ("a rollback 20002", "a back m", "b rollback 20003"):
            told = bench.agrees(PAIR, *lines, line, "b recv a x", *pair_turns(0, 10), "b news 20000", "a news 0")
            wanted = steps if line[0] == "a" else steps // 2
            bench.holds(len(told[len(lines)].split()) == wanted + 1, f"{line} took other steps", PAIR, *lines, line)
    for count, turns in ((8, 125), (8, 3000), (5, 200)):
        steps = 2 * count * turns
        bench.agrees(ring(count), *ring_turns(count, 0, 1000), "a mark m", *ring_turns(count, 0, turns),
                     "h back m" if count == 8 else "a back m", f"a rollback {2 * count * 1000 + 2}", "a show",
                     f"{ROLES[count - 1]} news 10", *ring_turns(count, 0, 2), f"a news {steps}")
    lines = scripts.four_pairs_turns(4000)
    bench.agrees(scripts.four_pairs(), *lines, "c rollback 16003", "c rollback 3", "d news 0", "a news 0", *lines[:800],
                 "h show")


def news(bench):
    """News of 3, 100 and 10,000 steps, from places 0, 10 and the end."""
    for steps in (1, 3, 9, 10, 11, 100, 10_000):
        lines = [*pair_turns(0, 10), *pair_turns(10, steps), "a rollback 21"]
        end = len(lines)
        places = (0, 1, 9, 10, 11, 19, 20, end - 2, end - 1, end, end + 1, 2 ** 64 - 1)
        told = bench.agrees(PAIR, *lines, *[f"{role} news {at}" for at in places for role in "ab"])
        bench.holds(len(told[end + 1].split()) == steps + 2, f"the news of b are not {steps}", PAIR, *lines, "b news 0")
    lines = []
    for at in range(200):
        asked = [f"b news {place}" for place in (7 * at, 7 * at + 6, at)]
        lines += [*pair_turns(at, 3), f"a rollback {6 * at + 3}", *asked]
    bench.agrees(PAIR, *lines, *[f"b news {at}" for at in range(0, 1400, 13)])


def shown(bench):
    """The state after 10, 1,000 and 20,000 steps, with all received, with half of it waiting and with all waiting."""
    for steps in (8, 9, 10, 99, 100, 101, 1000, 20_000):
        half = steps // 2
        bench.agrees(PAIR, *pair_turns(0, half), "a show", "b show")
        bench.agrees(PAIR, *sends(steps), "a show", *receipts(half), "b show", *receipts(half), "b show")
        bench.agrees(TEXTS, *[line for at in range(half) for line in (f'a send b "{at}"', "b recv a x")], "a show")
        bench.agrees(ring(8), *ring_turns(8, 0, steps // 16 + 1)[:steps], "h show", "a mark m", "a show")
    bench.agrees(scripts.four_pairs(), *scripts.four_pairs_turns(1250), "a show")


def slots(bench):
    """Up to 1,000 slots in a role: bound, bound anew, and freed again by rollbacks."""
    for count in (1, 2, 8, 9, 63, 64, 65, 66, 127, 128, 129, 1000):
        for slot in ("s#", f"{'n' * 27}_#"):
            anew = [line.replace(f"{slot[:-1]}{at}", f"{slot[:-1]}{count - 1 - at}") for at in range(count)
                    for line in pair_turns(at, 1, slot)]
            half = 2 * count + 2 * (count // 2) + 2
            bench.agrees(PAIR, *pair_turns(0, count, slot), "b show", *anew, "b show", f"b undo {4 * count}", "b show",
                         f"b rollback {half}", "b show", f"b rollback {2 * (count // 2) + 2}", "b show", "b rollback 2",
                         "b show", *receipts(1), f"b recv a {slot.replace('#', '5')}", "b show")


def texts(bench):
    """Texts of each length, sent, received, shown and taken back, and one byte too long."""
    dice = random.Random(1)
    lines = []
    for length in range(258):
        lines += [f"a send b {made.text(dice, length)}", f"b recv a x{length % 5}", *["b show"] * (length % 16 == 1)]
    waiting = [f"a send b {made.text(dice, length)}" for length in range(257)]
    bench.agrees(TEXTS, *lines, "a show", *waiting, "a show", "a rollback 3", "b show", "a rollback 1", "b show",
                 *lines[:99])
    bench.agrees(TEXTS, *waiting, *receipts(257), "b show", "b rollback 300", "b show")


def full(bench):
    """A journal with 100,000 entries takes no more, and whatever else is refused is refused as before."""
    asked = ["a send b 1", "b recv a x", "a mark m", "a undo 99999", "b undo 100000", "a undo 99997",
             "b rollback 99998", "a rollback 1", "a rollback 2", "a back m", "a back n", "b recv b x", "a send b true",
             "a undo 0", "a show ", "b news 0", "a news 99999", "a news 100000", "b choose a x", "a pick b"]
    bench.agrees(PAIR, *pair_turns(0, 50_000), *asked, "a show", "a send b 1")
    bench.agrees(PAIR, "a mark m", *sends(99_998), *asked, "a back n", "b recv a x", *asked, "a back m")
    bench.agrees(PAIR, *[line for at in range(50_000) for line in ("a mark m", f"a undo {at + 1}")], *asked, "a show")
    bench.agrees(PAIR, "a mark m", *["a back m"] * 99_999, *asked, "a show")
    bench.agrees(PAIR, *sends(99_999), "a rollback 1", "a news 0", "b show", *asked)
    bench.agrees(PAIR, *sends(100_000), *receipts(3), "a undo 100000", "a undo 99999", "b news 1")


def lines_of_each_length(bench):
    """Lines of up to a million bytes, readable or not, between others; and lines without a byte."""
    lengths = (1, 256, 510, 511, 512, 513, 514, 1024, 65_535, 65_536, 65_537, 131_072, 200_001, MILLION)
    for front in (b"x", b"a send b 1 ", b'a send b "', b"\xff", b"a send b 5\r"):
        lines = [front + b" " * (length - len(front)) for length in lengths]
        bench.agrees(PAIR, b"a send b 7\n" + b"\na send b 8\nb recv a x\n".join(lines) + b"\na show")
    for shift in range(0, 65_600, 4099):  # what ends where one read ends and the next begins
        front = b"y" * (65_530 - shift % 13) + b"\n" + b"a send b 12\nb recv a xyz\n" * 8
        bench.agrees(PAIR, front + b"z" * shift + b"\na show")
    bench.agrees(PAIR, b"\n" * MILLION + b"a send b 1")
    bench.agrees(PAIR, b"a send b 1\r\n" * 50_000)


def without_a_break(bench):
    """Scripts of a million bytes without an LF, after nothing and after a line."""
    for front in (b"", b"a send b 5\n", b"a send b 5\n\n"):
        for byte in (b"x", b" ", b"\0", b"\xff", b"a send b 5\r"):
            bench.agrees(PAIR, front + (byte * MILLION)[:MILLION])
            bench.agrees(PAIR, front + (b"a send b 5" + byte * MILLION)[:MILLION])


def choices(bench):
    """Choices of 16 branches, each of which is taken, and types with 256 nodes and 64 levels, to their ends."""
    labels = [f"l{at}" for at in range(16)]
    loop = "roles a b ; rec X . a -> b { " + " , ".join(f"{it} : b -> a : int . X" for it in labels) + " }"
    lines = [line for at in range(1600)
             for line in (f"a choose b {labels[at * 7 % 16]}", "b pick a", f"b send a {at}", "a recv b x")]
    bench.agrees(loop.encode(), *lines, "a choose b l16", "a show", "b rollback 1003", "a show", *lines[:64])
    wide = [f"{it} : {15 * 'a -> b : int . '}end" for it in labels[:15]]
    wide = "roles a b ; a -> b { " + " , ".join([*wide, f"l15 : {14 * 'b -> a : bool . '}end"]) + " }"
    for label in labels:
        bench.agrees(wide.encode(), f"a choose b {label}", "b pick a", *15 * ["a send b 1", "b recv a x"], "a show")
    deep = "roles a b ; " + 63 * "a -> b : int . " + "end"
    bench.agrees(deep.encode(), *sends(64), "a show", *receipts(64), "b show", "a rollback 33", "a show", *sends(40),
                 *receipts(40))
    deep = "roles a b ; " + 63 * "a -> b { l : " + "end" + 63 * " }"
    bench.agrees(deep.encode(), *64 * ["a choose b l"], "a show", *64 * ["b pick a"], "b show", "b rollback 100",
                 "a show")


def marks(bench):
    """1,000 marks with names of their own, of each of four roles, and returns to each."""
    lines = [line for at in range(1000) for line in (f"a send b {at}", *(f"{role} mark m{at}" for role in "abcd"))]
    protocol = b"roles a b c d ; rec X . a -> b : int . X"
    bench.agrees(protocol, *lines, "d show", *[f"{role} back m{at}" for at in range(999, 0, -7) for role in "abcd"],
                 *[f"{role} back m1" for role in "dcba"], "c back m2", "a show", "a back m0", "b news 0")


def commits(bench):
    """Commits late in a session: what they rest on is final, and what comes after them, or stands beside, is not."""
    for steps in (2, 2000, 50_000):
        lines = [*pair_turns(0, 1000), "a mark m", *pair_turns(0, steps // 2), "b commit"]
        asked = [f"{role} rollback {number}" for role in "ab" for number in (1, 2, 2000, 2001, 2002, steps + 2002)]
        asked += ["a back m", "b undo 2000", f"b undo {steps + 2002}", "a undo 2001", "a news 0", "b news 0"]
        told = bench.agrees(PAIR, *lines, *asked, *pair_turns(0, 100), *asked, f"a rollback {steps + 2003}", *asked)
        bench.holds(told[len(lines)] == f"refused final {steps + 2002}", told[len(lines)], PAIR, *lines, asked[0])
    for count in range(2, 9):
        roles, last = ROLES[:count], 2 * count * 200
        lines = [*ring_turns(count, 0, 100), *[f"{role} mark {role}m" for role in roles], *ring_turns(count, 100, 100)]
        asked = [f"{role} {question}" for role in roles for question in ("back " + role + "m", "undo 1", "rollback 1")]
        for role in roles:
            bench.agrees(ring(count), *lines, f"{role} commit", *asked, *ring_turns(count, 0, 20), f"{roles[-1]} show",
                         f"a rollback {last + count + 2}", *asked, "a show", *[f"{it} commit" for it in roles], *asked)
    lines = scripts.four_pairs_turns(1000)
    bench.agrees(scripts.four_pairs(), *lines, "c commit", "f commit", *[f"{it} rollback {at + 1}" for at, it in
                                                                      enumerate("abcdefgh")], *lines[:80], "a show")
    many = [line for at in range(10_000) for line in (f"a send b {at}", "b commit", "b recv a x", "a commit")]
    bench.agrees(PAIR, *many, "a rollback 1", "b rollback 2", "b rollback 39999", "a undo 40000", "a undo 39999",
                 "b undo 39998", "a send b 1", "a undo 40001", "a show")


def needed(bench):
    """Undos that a step far behind stands against."""
    bench.agrees(PAIR, *sends(20_000), *receipts(20_000), "a undo 20000", "a undo 19999", "a undo 1", "b undo 40000",
                 "a undo 20000", "b undo 40000", "b undo 39999", "a undo 19999", "a show")
    bench.agrees(ring(8), *ring_turns(8, 0, 1000), *[f"{role} undo {at + 1}" for at, role in enumerate("abbccdd")])


def scripts_compared(bench):
    """`same` of two long scripts that come to the same, and of some that don't quite."""
    protocol = scripts.four_pairs()
    mixed = scripts.four_pairs_turns(3000)
    sorted_by_pair = sorted(mixed, key=lambda line: ROLES.index(line[0]) // 2)
    cases = {"the same": sorted_by_pair, "less": sorted_by_pair[:-1], "a mark more": [*mixed, "a mark m"],
             "a commit more": [*mixed, "a commit"], "another value": [*mixed[:-2], "g send h 1", "h recv g x"], "another slot": [*mixed[:-1], "h recv g y"],
             "more and taken back": [*sorted_by_pair, "a mark m", "a undo 24001"]}
    for told, lines in cases.items():
        texts_ = protocol, script(*mixed), script(*lines)
        wanted, found = reference.same(*texts_, FastRoom), bench.mps.order("same", *texts_)
        bench.runs += 1
        if wanted != found:
            bench.fault(f"  {told}: {program.first_difference(wanted, found)}", "same", *texts_)


CASES = (counts, pairs, living, taken, news, shown, slots, texts, full, lines_of_each_length, without_a_break, choices,
         marks, commits, needed, scripts_compared)
