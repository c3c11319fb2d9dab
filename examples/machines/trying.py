"""trying: clients that play sessions on the machines while one part after the other fails, and what became of what they were told."""
import contextlib
import os
import pathlib
import random
import signal
import statistics
import subprocess
import sys
import threading
import time

sys.path.insert(0, str(pathlib.Path(__file__).resolve().parent.parent.parent / "clients" / "python"))
import machines  # noqa: E402
from cizhmolat import Error, NothingQueued, Role  # noqa: E402

PROTOCOL = str(machines.HERE / "exchange.protocol")
PAUSE = 0.1  # seconds between two commands of a client
PATIENCE = 120  # seconds that a client waits for a machine
ROUNDS = 150  # of one session, after which its two clients go on in another, as new sessions come and go at a server
STANDS = 1.0  # seconds without an answer from which a session counts as one that stood still


class Game:
    """What clients were answered. At each table two of them play one session after the other."""

    def __init__(self, folder, first, tables):
        self.folder, self.first, self.is_over = folder / "numbers", first, False
        self.folder.mkdir()
        self.heard, self.troubles, self.kept = {}, [], 0  # of each session what a role was answered; how many lines are kept
        self.times = [[time.monotonic()] for _ in range(tables)]  # at which an answer came
        self.clients = [Client(self, table, role) for table in range(tables) for role in "ab"]
        for client in self.clients:
            client.start()

    def end(self):
        """Ends the clients."""
        self.is_over = True
        for client in self.clients:
            client.join(PATIENCE)
        self.troubles += [f"{it.role} of session {it.session} doesn't end" for it in self.clients if it.is_alive()]

    def goes_on(self, since, count=3):
        """Whether so many answers have come at each table since then."""
        return all(len(times) >= count and times[-count] > since for times in self.times)

    def stood(self, begin, end):
        """For how long no answer came between these times, at the longest, at each table."""
        for times in self.times:
            within = [begin, *(it for it in list(times) if begin < it < end), end]
            yield max(after - before for before, after in zip(within, within[1:]))


class Client(threading.Thread):
    """Plays a role: the two send each other numbers, in turn."""

    def __init__(self, game, table, role):
        super().__init__(daemon=True)
        self.game, self.table, self.role, self.peer = game, table, role, "ab"[role == "a"]
        self.session = game.first + table

    def note(self, number, command, answer):
        """Notes an answer."""
        self.game.heard.setdefault(self.session, []).append((self.role, number, command, answer))
        self.game.times[self.table].append(time.monotonic())

    def run(self):
        while not self.game.is_over:
            try:
                self.play()
            except Error as error:
                self.game.troubles.append(f"{self.role} of session {self.session}: {error!r}")
                time.sleep(1)

    def play(self):
        """Plays a session to its end, or until the game is over, from where the role stands, and goes on to the next one."""
        numbers = self.game.folder / f"{self.session}.{self.role}"
        with Role(self.session, self.role, 4750, numbers=numbers, timeout=PATIENCE, patience=PATIENCE) as role:
            if (given := role.settle()) is not None:
                self.note(role.newest, given.command, given.answer)
            sends = role.standing().expects.startswith("send")
            while not self.game.is_over:
                if role.newest == 2 * ROUNDS:
                    self.session += len(self.game.times)
                    return
                if sends:
                    value = role.newest % 1000
                    step = role.send(self.peer, value)
                    self.note(role.newest, f"send {self.peer} {value}", f"done {step}")
                elif not self.received(role):
                    continue
                sends = not sends
                time.sleep(PAUSE)

    def received(self, role):
        """Whether a number came in some time."""
        try:
            got = role.receive(self.peer, "x", timeout=2)
        except NothingQueued:
            return False
        self.note(role.newest, f"recv {self.peer} x", f"done {got.step} {got.value}")
        return True


# --- What became of it ---

def lines_of(session):
    """The lines of a session in the tables: the role, the number, and the command of each; and how many its row tells."""
    with contextlib.closing(machines.primary()) as made, made.cursor() as cursor:
        cursor.execute("select role, number, command, entry from entries where session = %s order by entry", (session,))
        rows = cursor.fetchall()
        cursor.execute("select entries from sessions where session = %s", (session,))
        return rows, cursor.fetchone()[0]


def compare(game, session):
    """What is wrong with a session: each answer that a client got stands there once, without gaps, and the same lines have the same
    answers where they are run alone."""
    rows, count = lines_of(session)
    game.kept += count
    if [int(row[3]) for row in rows] != list(range(1, count + 1)):
        yield f"session {session}: {len(rows)} lines, and {count} in its row"
    script = "".join(f"{role} {command}\n" for role, _, command, _ in rows)
    ran = subprocess.run([machines.fleet.MPS, "run", PROTOCOL, "-"], input=script, capture_output=True, text=True, timeout=600, check=False)
    answers, told = ran.stdout.splitlines(), {}
    if len(answers) != len(rows) or not all(it.startswith("done ") for it in answers):
        yield f"session {session}: its lines are answered otherwise alone"
    for (role, number, command, _), answer in zip(rows, answers):
        if (role, int(number)) in told:
            yield f"session {session}: {role} {number} stands there twice"
        told[role, int(number)] = command, answer
    for role, number, *heard in game.heard[session]:
        if told.get((role, number)) != tuple(heard):
            yield f"session {session}: {role} {number} was answered {heard}, and kept is {told.get((role, number))}"


# --- Faults ---

class Faults:
    """The faults, each of which gives what it did, once it is over."""

    def __init__(self, world, dice):
        self.world, self.dice = world, dice

    def with_role(self, role):
        """A PostgreSQL of that role, which has to be there soon."""
        for _ in range(10 * machines.LIMIT):
            for name, found in machines.roles().items():
                if found == role:
                    return name
            time.sleep(0.1)
        raise RuntimeError(f"no PostgreSQL is the {role}")

    def without_power(self, seconds, *names):
        """Takes the power from machines for so long."""
        for name in names:
            self.world.machines[name].off.touch()
        time.sleep(seconds)
        for name in names:
            self.world.machines[name].off.unlink()
        return f"{' '.join(names)} for {seconds:.0f} s"

    def server(self):
        return self.dice.choice(list(machines.SERVERS))

    def machine_killed(self):
        return self.without_power(self.dice.uniform(3, 30), self.server())

    def cut(self, machine):
        """Takes the network from a machine for some time."""
        seconds = self.dice.uniform(3, 20)
        self.world.network.join(machine, False)
        time.sleep(seconds)
        self.world.network.join(machine, True)
        return f"{machine} for {seconds:.0f} s"

    def machine_cut_off(self):
        return self.cut(self.server())

    def front_cut_off(self):
        return self.cut("front")

    def host_stopped(self):
        machine, seconds = self.world.machines[self.server()], self.dice.uniform(3, 20)
        machine.signal("host", signal.SIGSTOP)
        time.sleep(seconds)
        machine.signal("host", signal.SIGCONT)
        return f"that of {machine.name} for {seconds:.0f} s"

    def ended(self, program):
        """Ends a program of a server at once."""
        machine = self.world.machines[self.server()]
        machine.signal(program, signal.SIGKILL)
        return f"that of {machine.name}"

    def host_killed(self):
        return self.ended("host")

    def recorder_killed(self):
        return self.ended("recorder")

    def primary_killed(self):
        name = self.with_role("leader")
        first = (self.world.folder / name / "data" / "postmaster.pid").read_text(encoding="ascii").split()[0]
        os.kill(int(first), signal.SIGKILL)
        return name

    def primarys_machine_killed(self):
        return self.without_power(self.dice.uniform(15, 40), self.with_role("leader"))

    def standbys_machine_killed(self):
        return self.without_power(self.dice.uniform(5, 20), self.with_role("sync_standby"))

    def two_databases_killed(self):
        return self.without_power(self.dice.uniform(5, 20), self.with_role("leader"), self.with_role("sync_standby"))

    def all_machines_killed(self):
        return self.without_power(self.dice.uniform(3, 10), *machines.SERVERS, *machines.DATABASES)

    def switchover(self):
        machines.call("patronictl", "-c", str(machines.HERE / "patroni.yml"), "switchover", "--force")
        return f"to {self.with_role('leader')}"


KINDS = ("machine_killed", "machine_cut_off", "front_cut_off", "host_stopped", "host_killed", "recorder_killed", "primary_killed",
         "primarys_machine_killed", "standbys_machine_killed", "two_databases_killed", "all_machines_killed", "switchover")


class Trial(threading.Thread):
    """Makes faults while clients play, one after the other, each once the one before is over."""

    def __init__(self, world, count, seed, sessions):
        super().__init__(daemon=True)
        self.dice = random.Random(seed)
        self.faults = Faults(world, self.dice)
        self.game = Game(world.folder, self.dice.randrange(1, 1 << 62), sessions)
        self.count, self.stood, self.wrong, self.is_over = count, {kind: [] for kind in KINDS}, [], False

    def is_well(self):
        """Whether all machines serve, and PostgreSQL has its standbys."""
        return machines.is_replicated() and all(machines.serves(address) for address in machines.SERVERS.values())

    def wait(self, what, holds):
        """Waits until that holds."""
        end = time.monotonic() + machines.SECONDS
        while not holds():
            if time.monotonic() > end:
                self.wrong.append(f"{what} after {machines.SECONDS} s")
                print(self.wrong[-1], flush=True)
                return
            time.sleep(0.1)

    def run(self):
        try:
            self.wait("not all sessions are played", lambda: self.game.goes_on(0))
            order = [KINDS[place % len(KINDS)] for place in range(self.count)]
            if self.count > len(KINDS):
                self.dice.shuffle(order)
            for kind in order:
                self.make(kind)
            self.game.end()
            for session in self.game.heard:
                self.wrong += compare(self.game, session)
        except BaseException as fault:  # pylint: disable=broad-exception-caught
            self.wrong.append(f"{type(fault).__name__}: {fault}")
            raise
        finally:
            self.is_over = True

    def make(self, kind):
        """Makes a fault, waits until it is over, and tells for how long sessions stood still."""
        time.sleep(self.dice.uniform(0, 1))
        begin = time.monotonic()
        what = getattr(self.faults, kind)()
        over = time.monotonic()
        self.wait(f"{kind}, {what}: sessions stand still", lambda: self.game.goes_on(over))
        stood = [seconds for seconds in self.game.stood(begin, time.monotonic()) if seconds >= STANDS]
        self.wait(f"{kind}, {what}: not all is back", self.is_well)
        self.stood[kind] += stood
        worst = f", {statistics.median(stood):.1f} s in the middle, {max(stood):.1f} s at worst" if stood else ""
        print(f"{kind.replace('_', ' ')} ({what}): {len(stood)} of {len(self.game.times)} sessions stood still{worst}", flush=True)

    def report(self):
        """Tells what came of it all."""
        for kind, stood in self.stood.items():
            if stood:
                print(f"{kind.replace('_', ' ')}: {len(stood)} times a session stood still, {statistics.median(stood):.1f} s in the "
                      f"middle, {max(stood):.1f} s at worst")
        for text in (*self.game.troubles[:20], *self.wrong[:20]):
            print(text)
        print(f"{self.count} faults: {sum(map(len, self.game.heard.values()))} answers in {len(self.game.heard)} sessions, "
              f"{self.game.kept} lines kept, {len(self.game.troubles)} troubles of clients, {len(self.wrong)} wrong")


def attempt(world, count, seed, sessions):
    """Plays sessions while faults come, so many; 1 where anything is wrong."""
    trial = Trial(world, count, seed, sessions)
    trial.start()
    while not trial.is_over:
        time.sleep(machines.fleet.LOOK)
        world.look()
    trial.report()
    return 1 if trial.wrong else 0
