"""spread: work on many things by as many processes as there are cores."""
import collections
import concurrent.futures
import ctypes
import gc
import itertools
import multiprocessing
import os
import signal
from concurrent.futures.process import BrokenProcessPool

FEW = 500  # things that one process does by itself, and that are handed to one at a time
HEAVY = 4_000_000  # bytes of things that are handed over at a time
AHEAD = 3  # how often as much is handed over as there are processes
DEATH_SIGNAL = 1  # PR_SET_PDEATHSIG of prctl: the signal that comes where the process above ends
WORK = []  # what this process does with each thing that it is handed


class Ended(Exception):
    """A process of those that worked was ended."""


def begin(work):
    """Begins as one of the processes. It leaves it to the process above to say that it is ended, and ends with it, also where that is
    killed. What it has from there it doesn't look through for what is let go of."""
    gc.freeze()
    ctypes.CDLL(None).prctl(DEATH_SIGNAL, signal.SIGKILL)
    signal.signal(signal.SIGINT, signal.SIG_IGN)
    signal.signal(signal.SIGTERM, signal.SIG_DFL)
    WORK[:] = [work]


def do(things):
    """What comes of these things."""
    return [WORK[0](thing) for thing in things]


def parts(things, weigh):
    """These things in lists, of which none is long or heavy."""
    part, weight = [], 0
    for thing in things:
        part.append(thing)
        weight += weigh(thing)
        if len(part) == FEW or weight >= HEAVY:
            yield part
            part, weight = [], 0
    if part:
        yield part


def over(work, things, weigh=lambda thing: 0):
    """What comes of work on each of these things, in order. Only some of them are in memory at a time."""
    rest = parts(things, weigh)
    first = list(itertools.islice(rest, 2))
    if len(first) < 2:
        yield from map(work, *first or [()])
        return
    count, handed = len(os.sched_getaffinity(0)), collections.deque()
    pool = concurrent.futures.ProcessPoolExecutor(count, multiprocessing.get_context("fork"), begin, (work,))
    try:
        for part in itertools.chain(first, rest):
            handed.append(pool.submit(do, part))
            if len(handed) > AHEAD * count:
                yield from handed.popleft().result()
        while handed:
            yield from handed.popleft().result()
    except BrokenProcessPool as error:
        raise Ended("a process that read sessions was ended") from error
    finally:
        pool.shutdown(cancel_futures=True)
