"""chains: which steps depend on a step, and why, for pictures and stories.

docs/DEFINITIONS.md says when a step depends on another: through links, each from a step to a later one of its role, or to
the one that receives what it sent. A chain is a shortest way along such links.
"""


def links(first, later):
    """Of each of the later steps that depends on the first, the one before it on a chain from there. Each comes as its number,
    that of the step which it takes, and that of the step of its role which it follows."""
    far, before, nearest = {first: 0}, {}, {first: (0, first)}  # `nearest` is of the steps of a role up to one
    for number, takes, follows in later:
        way, other = far.get(takes), nearest.get(follows)
        if way is None and other is None:
            continue
        if way is not None and (other is None or way <= other[0]):
            before[number] = takes
        else:
            way, before[number] = other
        far[number] = way + 1
        nearest[number] = other if other and other[0] <= way + 1 else (way + 1, number)
    return before


def chain(made, first, last):
    """The steps of a chain from the first step to one that depends on it."""
    before = links(first, [(it, made[it].takes, made[it].follows) for it in sorted(made) if first < it <= last])
    found = [last]
    while found[-1] != first:
        found.append(before[found[-1]])
    return found[::-1]


def runs(numbers):
    """Numbers that rise, each run of neighbours by its first and its last."""
    found = []
    for number in numbers:
        if found and found[-1][1] == number - 1:
            found[-1][1] = number
        else:
            found.append([number, number])
    return found
