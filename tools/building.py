"""building: builds the program and the library, checked or proved, in the folder out, and copies them elsewhere."""
import contextlib
import fcntl
import glob
import os
import shutil
import signal
import subprocess
import tempfile
import time
from typing import NamedTuple

import checked_build
import library
from output import tell
from progress import Progress
from sources import HOME, OUT, built, digest, listed, needed, place


class Stopped(Exception):
    """Why there is no program to run, or no library."""


class Goal(NamedTuple):
    """What can be built: how it is called, the crate that it is made of, and its name in the folder of its sources."""
    called: str
    crate: str
    name: str

    def crates(self):
        """The crates that it stands on."""
        return needed(listed(), self.crate)

    def make_checked(self, out):
        """Makes it without proofs."""
        if self is LIBRARY:
            library.make_checked(self.crates(), out)
        else:
            checked_build.build(HOME, self.crate, self.crates(), out)

    def make_proved(self, out):
        """Makes it of the crates as they were proved."""
        os.makedirs(os.path.dirname(out), exist_ok=True)
        if self is LIBRARY:
            library.make_proved(out)
        else:
            copy(os.path.join(HOME, "crates", self.crate, "out", self.name), out)


PROGRAM = Goal("mps_tool", "mps_tool", "mps_tool")
LIBRARY = Goal("the library", library.CRATE, f"library.{library.NUMBER}")


@contextlib.contextmanager
def alone(kind):
    """Waits until no other run builds a program of that kind here."""
    try:
        os.makedirs(os.path.join(OUT, kind), exist_ok=True)
        lock = open(os.path.join(OUT, kind, "lock"), "w", encoding="utf-8")
    except OSError as error:
        raise Stopped(f"the {kind} program of these sources isn't built yet, and can't be built by you, since {OUT} can't be "
                      f"written: {error.strerror}") from error
    with lock:
        fcntl.flock(lock, fcntl.LOCK_EX)
        yield


def only(made, kind):
    """Removes what was built of that kind of other sources."""
    for other in glob.glob(place(kind, "*", os.path.basename(made))):
        if other != made:
            shutil.rmtree(os.path.dirname(other), ignore_errors=True)


def need_kit(goal):
    """Nothing is built without the kit."""
    if shutil.which("rt") is None:
        raise Stopped(f"{goal.called} isn't built of these sources yet, and there is no rt, the command of the Rattle kit, on "
                      "your PATH to build it with")


def need_same(goal, sources):
    """The sources have to be as they were when the building began."""
    if digest(goal.crates()) != sources:
        raise Stopped(f"a source was changed while {goal.called} was built; call it again")


class Proof:
    """A crate that is being proved, in a process group of its own."""

    def __init__(self, name):
        words = ["lib"]
        if name == "mps_tool":  # which is linked too, and run once
            words = ["run", "--", "run", "data/relay.protocol", "data/rollback.script"]
        self.name = name
        self.log = tempfile.TemporaryFile()
        self.process = subprocess.Popen(
            ["rt", *words], cwd=os.path.join(HOME, "crates", name), stdin=subprocess.DEVNULL,
            stdout=self.log, stderr=subprocess.STDOUT, start_new_session=True)

    def is_over(self, progress):
        """Whether it is proved; where it can't be, that is told and nothing built."""
        if self.process.poll() is None:
            return False
        if self.process.returncode != 0:
            self.log.seek(0)
            with progress.away():
                tell(self.log.read())
            raise Stopped(f"{self.name} isn't proved")
        return True

    def stop(self):
        os.killpg(self.process.pid, signal.SIGTERM)
        self.process.wait()


def prove_all(crates):
    """Proves the crates, as many side by side as there are cores and 4 GB of memory for each."""
    memory = os.sysconf("SC_PAGE_SIZE") * os.sysconf("SC_PHYS_PAGES")
    room = max(1, min(os.cpu_count() or 1, (memory + (2 << 30)) // (4 << 30)))
    waiting, running, proved = list(crates), [], set()
    tell(f"{len(crates)} crates are proved, which takes some minutes\n")
    try:
        with Progress("crates are proved", len(crates)) as progress:
            while waiting or running:
                for name in list(waiting):
                    if len(running) < room and all(low in proved for low in crates[name] if low in crates):
                        waiting.remove(name)
                        running.append(Proof(name))
                time.sleep(0.1)
                for proof in [proof for proof in running if proof.is_over(progress)]:
                    running.remove(proof)
                    proved.add(proof.name)
                    progress.done += 1
                    with progress.away():
                        tell(f"[{len(proved)}/{len(crates)}] {proof.name} is proved\n")
    finally:
        for proof in running:
            if proof.process.poll() is None:
                proof.stop()


def prove():
    """Builds the proved program and the proved library of these sources where they are missing, and gives their places."""
    sources = {goal: digest(goal.crates()) for goal in (PROGRAM, LIBRARY)}
    places = {goal: place("proved", sources[goal], goal.name) for goal in sources}
    if not all(os.path.exists(there) for there in places.values()):
        with alone("proved"):
            missing = [goal for goal in places if not os.path.exists(places[goal])]
            for goal in missing:
                need_kit(goal)
            prove_all({name: below for goal in missing for name, below in goal.crates().items()})
            for goal in missing:
                need_same(goal, sources[goal])
                with told_why(goal):
                    goal.make_proved(places[goal])
                only(places[goal], "proved")
    return places


@contextlib.contextmanager
def told_why(goal):
    """Says why a goal can't be made."""
    try:
        yield
    except checked_build.Refused as refused:
        raise Stopped(f"{goal.called} doesn't compile:\n{refused}") from refused
    except library.NotMade as reason:
        raise Stopped(f"{goal.called} can't be linked: {reason}") from reason


def check(goal, sources):
    """What is checked of these sources, which is built where it is missing; what is proved where it can't be."""
    there = place("checked", sources, goal.name)
    with alone("checked"):
        if os.path.exists(there):
            return there
        need_kit(goal)
        tell(f"building {goal.called}, which takes about a minute ..\n")
        try:
            with told_why(goal), Progress(f"building {goal.called}"):
                goal.make_checked(there)
        except checked_build.NotAsExpected as reason:
            tell(f"mps: no checked build ({reason}), so what is proved is built\n")
        else:
            try:
                need_same(goal, sources)
            except Stopped:
                shutil.rmtree(os.path.dirname(there))
                raise
            only(there, "checked")
            tell("checked build: each step is tested as it runs; ./mps prove builds what is proved, some 30 minutes\n")
            return there
    return prove()[goal]


def made_library():
    """The kind and the place of the library, which is built where it is missing, and its sources."""
    sources = digest(LIBRARY.crates())
    if not built(sources, LIBRARY.name):
        check(LIBRARY, sources)
    return *built(sources, LIBRARY.name), sources


def give_library(folder):
    """Copies the library into a folder; what it is, and where it then stands."""
    kind, made, sources = made_library()
    try:
        places = library.put(made, folder)
    except OSError as error:
        raise Stopped(f"{folder} can't be written: {error.strerror}") from error
    return "\n".join([f"{kind} library of the sources {sources}", *places])


def copy(program, there):
    """Copies a program to its place, where it comes whole or not at all."""
    beside = f"{there}.{os.getpid()}"
    try:
        shutil.copyfile(program, beside)
        os.chmod(beside, 0o755)
        os.replace(beside, there)
    finally:
        with contextlib.suppress(OSError):
            os.remove(beside)


def install(program, folder):
    """Copies the program into a folder, as mps_tool, which is made if need be, and says where it then stands."""
    there = folder
    try:
        os.makedirs(folder, exist_ok=True)
        there = os.path.join(folder, "mps_tool")
        copy(program, there)
    except OSError as error:
        raise Stopped(f"{there} can't be written: {error.strerror}") from error
    return there
