"""scripts: protocols and scripts that are long, wide or large, made by rule."""
ROLES = "abcdefgh"
PAIR = b"roles a b ; rec X . a -> b : int . X"
TEXTS = b"roles a b ; rec X . a -> b : text . X"


def looped(roles, acts):
    """A protocol that goes through these acts again and again."""
    return f"roles {' '.join(roles)} ; rec X . {' '.join(f'{act} .' for act in acts)} X".encode()


def ring(count):
    """So many roles, each of which tells the next one something, and the last the first: one step leads to the next."""
    roles = ROLES[:count]
    return looped(roles, [f"{it} -> {after} : int" for it, after in zip(roles, roles[1:] + roles[0])])


def ring_turns(count, first, turns):
    """The lines of so many turns through the ring, from that turn on."""
    roles = ROLES[:count]
    pairs = list(zip(roles, roles[1:] + roles[0]))
    return [line for turn in range(first, first + turns) for giver, taker in pairs
            for line in (f"{giver} send {taker} {turn}", f"{taker} recv {giver} x{turn % 7}")]


def all_pairs(count):
    """So many roles, each of which tells each other one something."""
    roles = ROLES[:count]
    return looped(roles, [f"{one} -> {other} : int" for one in roles for other in roles if one != other])


def all_pairs_turns(count, turns):
    """The lines of so many turns of that: what later roles say waits until all have spoken."""
    roles, lines = ROLES[:count], []
    for turn in range(turns):
        for at, giver in enumerate(roles):
            lines += [f"{giver} recv {lower} {lower}{turn % 3}" for lower in roles[:at]]
            lines += [f"{giver} send {taker} {turn}" for taker in roles if taker != giver]
        for at, taker in enumerate(roles):
            lines += [f"{taker} recv {higher} {higher}{turn % 3}" for higher in roles[at + 1:]]
    return lines


def four_pairs():
    """Eight roles in four pairs that have nothing to do with each other."""
    return looped(ROLES, [f"{one} -> {other} : int" for one, other in zip(ROLES[::2], ROLES[1::2])])


def four_pairs_turns(turns):
    """The lines of so many turns of each pair."""
    return [line for turn in range(turns) for one, other in zip(ROLES[::2], ROLES[1::2])
            for line in (f"{one} send {other} {turn}", f"{other} recv {one} x")]


def pair_turns(first, turns, slot="x"):
    """The lines of so many messages from a to b, from that one on; # in the slot's name is the message's number."""
    return [line for turn in range(first, first + turns)
            for line in (f"a send b {turn}", f"b recv a {slot.replace('#', str(turn))}")]


def sends(count):
    """The lines of so many messages from a to b that wait."""
    return [f"a send b {at}" for at in range(count)]


def receipts(count):
    """The lines of so many receipts of b."""
    return ["b recv a x"] * count


def script(*lines):
    """The bytes of a script with these lines."""
    return "".join(f"{line}\n" for line in lines).encode("latin-1")
