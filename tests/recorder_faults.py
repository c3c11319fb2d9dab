"""recorder_faults: two servers with a recorder each over two PostgreSQLs, whose clients go on while one part after the other fails.

No client is told that its session's journal can't be used, or that its number is wrong. In the end the table has each answer that a
client got, once and without gaps; the program gives the same answers to its lines; and the journal of each session, as the table has
it, is accepted by `./mps journal`."""
import contextlib
import pathlib
import random
import signal
import subprocess
import threading
import time

import cizhmolat
import postgres
import program
from forwarder import Forwarder
from progress import Progress
from recording import PROTOCOL, ask
from serving import expect, faults, free_port

SESSIONS = range(1, 5)
ROLES = (("a", "b"), ("b", "a"))  # each with its peer
ANSWERS = 10  # that clients get before the next fault
STUCK = 60  # seconds in which they have to
QUICK = 0.5  # seconds in which a recorder says whether it is ready
NEVER = cizhmolat.BadJournal, cizhmolat.WrongNumber  # that a client meets: its session is whole, and has all that it was answered
FAULTS = ("server", "recorder", "machine", "stop", "switch", "disconnect", "primary", "promote", "standby", "cancel")


class Process(threading.Thread):
    """A process that is started again when it ends, unless it is held back."""

    def __init__(self, room, name, words):
        super().__init__(daemon=True)
        self.words, self.log = [str(word) for word in words], open(room / f"{name}.log", "ab")
        self.is_held, self.is_over, self.process, self.starts = False, False, None, 0
        self.start()

    def run(self):
        while not self.is_over:
            if not self.is_held:
                self.starts += 1
                self.process = subprocess.Popen(self.words, stdin=subprocess.DEVNULL, stdout=self.log, stderr=self.log)
                self.process.wait()
            time.sleep(0.2)
        self.log.close()

    def signal(self, kind):
        if self.process is not None and self.process.poll() is None:
            self.process.send_signal(kind)

    def kill(self):
        self.signal(signal.SIGKILL)

    def end(self):
        """Ends it, also where it is just being started again."""
        self.is_over = True
        while self.is_alive():
            self.kill()
            self.join(0.2)


class Client(threading.Thread):
    """Plays a role of a session until the game is over, and notes each answer with the number of its command."""

    def __init__(self, game, session, role, peer):
        super().__init__(daemon=True)
        self.game, self.session, self.role, self.peer = game, session, role, peer
        self.dice, self.heard, self.errors = random.Random(f"{session} {role}"), [], []
        self.start()

    def run(self):
        numbers = self.game.room / f"{self.session}.{self.role}"
        while not self.game.is_over:
            try:
                with cizhmolat.Role(self.session, self.role, self.game.port, numbers=numbers, timeout=20, patience=300) as client:
                    while not self.game.is_over:
                        self.act(client)
            except cizhmolat.Error as error:
                self.errors.append(error)
                time.sleep(0.2)

    def act(self, client):
        """Does what may be done next."""
        with contextlib.suppress(cizhmolat.WrongAct, cizhmolat.NothingQueued):
            if self.dice.random() < 0.2:
                self.note(client, "mark m", f"done {client.mark('m')}")
            elif self.dice.random() < 0.5:
                value = client.newest % 1000
                self.note(client, f"send {self.peer} {value}", f"done {client.send(self.peer, value)}")
            else:
                step, value = client.receive(self.peer, "x", timeout=0.2)
                self.note(client, f"recv {self.peer} x", f"done {step} {value}")

    def note(self, client, command, answer):
        self.heard.append((client.newest, command, answer))


class Game:
    """Two machines, each a server and its recorder; the PostgreSQLs; and clients at a port that hands them to one of the machines."""

    def __init__(self, room, pair, seed):
        self.room, self.pair, self.dice, self.is_over = room, pair, random.Random(seed), False
        self.protocol = room / "faults.protocol"
        self.protocol.write_bytes(PROTOCOL)
        ports = [[free_port(), free_port()] for _ in range(2)]
        databases = [word for database in pair.databases for word in ("--database", database)]
        path = program.find()[1]
        self.machines = [(
            Process(room, f"recorder{place}", [program.MPS, "recorder", "--port", recorder, *databases, "--patience", "1"]),
            Process(room, f"server{place}", [path, "host", self.protocol, "--port", server, "--journal", f"tcp:{recorder}", "--keep", "1",
                                             "--wait", "5"]))
            for place, (recorder, server) in enumerate(ports)]
        self.forwarder = Forwarder([server for _, server in ports], lambda place: ask(ports[place][0], b"status\n", QUICK) == b"ready\n")
        self.port = self.forwarder.port
        self.clients = [Client(self, session, *role) for session in SESSIONS for role in ROLES]

    def heard(self):
        """How many answers were heard so far."""
        return sum(len(client.heard) for client in self.clients)

    def wait(self, count):
        """Waits until so many more answers were heard. For how many seconds; nothing where none came in time."""
        began, goal = time.monotonic(), self.heard() + count
        while self.heard() < goal:
            if time.monotonic() > began + STUCK:
                faults.append(f"{self.heard()} answers, and no more in {STUCK} s")
                return None
            time.sleep(0.02)
        return time.monotonic() - began

    def end(self):
        """Ends all but the PostgreSQLs."""
        self.is_over = True
        until = time.monotonic() + STUCK
        for client in self.clients:
            client.join(max(0, until - time.monotonic()))
            if client.is_alive():
                faults.append(f"{client.role} of session {client.session} never gets its answer")
        for machine in self.machines:
            for process in machine:
                process.end()
        for client in self.clients:
            faults.extend(f"{client.role} of session {client.session}: {error!r}" for error in client.errors if isinstance(error, NEVER))

    # --- Faults ---

    def fail(self, fault):
        """Has a part fail, which goes on some time later."""
        getattr(self, fault)()

    def place(self):
        """A machine, mostly the one to which clients are handed."""
        return self.forwarder.place if self.dice.random() < 0.7 else 1 - self.forwarder.place

    def server(self):
        self.machines[self.place()][1].kill()

    def recorder(self):
        self.machines[self.place()][0].kill()

    def machine(self):
        """A machine is away for some time."""
        machine = self.machines[self.place()]
        for process in machine:
            process.is_held = True
            process.kill()
        time.sleep(self.dice.uniform(0.2, 2))
        for process in machine:
            process.is_held = False

    def stop(self):
        """A machine stands still for some time, so that PostgreSQL gives up its connection, and its clients are handed to the
        other; then it goes on with what it was about to do."""
        place = self.place()
        for process in self.machines[place]:
            process.signal(signal.SIGSTOP)
        self.disconnect()
        self.forwarder.switch(1 - place)
        time.sleep(self.dice.uniform(0.2, 3))
        for process in self.machines[place]:
            process.signal(signal.SIGCONT)

    def switch(self):
        """The clients are handed to the other machine."""
        self.forwarder.switch(1 - self.forwarder.place)

    def disconnect(self):
        """The connections to the primary end."""
        self.pair.primary.ask("select pg_terminate_backend(pid) from pg_stat_activity where backend_type = 'client backend'"
                              " and pid <> pg_backend_pid()")

    def promote(self):
        self.pair.promote()

    def primary(self):
        self.pair.primary.kill()
        self.pair.primary.start()

    def standby(self):
        self.pair.standby.pause()
        time.sleep(self.dice.uniform(0.2, 2))
        self.pair.standby.go_on()

    def cancel(self):
        """Cancels what waits for a standby that has nothing of it. Half the time the primary is lost then, with all of it."""
        self.pair.standby.pause()
        self.pair.primary.ask("select pg_terminate_backend(pid) from pg_stat_replication")
        for _ in range(2):
            time.sleep(0.3)
            self.pair.primary.ask("select pg_cancel_backend(pid) from pg_stat_activity where wait_event = 'SyncRep'")
        time.sleep(0.1)
        if self.dice.random() < 0.5:
            self.pair.primary.kill()
            self.pair.standby.go_on()
            self.pair.turn()
            self.pair.standby.copy(self.pair.primary)
        else:
            self.pair.standby.go_on()

    # --- What is kept ---

    def compare(self):
        """What the tables have, and what the clients heard. How many lines there are."""
        return sum(self.compare_session(session) for session in SESSIONS)

    def compare_session(self, session):
        """The same of one session."""
        what = f"session {session}"
        lines = self.pair.primary.ask("select entry, role, number, command, seal from entries where session = %s order by entry",
                                      (session,))
        expect(f"{what}: its entries", [line[0] for line in lines], list(range(1, len(lines) + 1)))
        places = {(role, int(number)): entry - 1 for entry, role, number, _, _ in lines}
        expect(f"{what}: numbers that come twice", len(lines) - len(places), 0)
        answers = self.answers(session, lines)
        for client in (it for it in self.clients if it.session == session):
            for number, command, answer in client.heard:
                place = places.get((client.role, number))
                found = None if place is None else (lines[place][3], answers[place])
                expect(f"{what}: command {number} of {client.role}", found, (command, answer))
        self.judge(session, lines)
        return len(lines)

    def answers(self, session, lines):
        """What the program answers to the session's lines."""
        script = self.room / f"{session}.script"
        script.write_text("".join(f"{role} {command}\n" for _, role, _, command, _ in lines), encoding="ascii")
        words = [program.MPS, "run", self.protocol, script]
        return subprocess.run(words, stdout=subprocess.PIPE, text=True, check=True).stdout.splitlines()

    def judge(self, session, lines):
        """Whether `./mps journal` accepts the session's journal as the tables have it."""
        folder = self.room / "journals"
        folder.mkdir(exist_ok=True)
        [[protocol, mark]] = self.pair.primary.ask("select protocol, mark from sessions where session = %s", (session,))
        (folder / "protocol").write_text(f"{protocol}\n", encoding="ascii")
        text = "".join(f"{' '.join(map(str, line[1:]))}\n" for line in lines)
        (folder / f"{session}.journal").write_text(f" {mark}\n{text}", encoding="ascii")
        ran = subprocess.run([program.MPS, "journal", folder / f"{session}.journal"], capture_output=True, text=True, check=False)
        entries = f"session {session}: {len(lines)} {'entry' if len(lines) == 1 else 'entries'}"
        expect(f"session {session}: its journal", (ran.stdout.partition("\n")[0], ran.stderr, ran.returncode), (entries, "", 0))


def run(room, count, seed):
    """So many faults at random, and what came of them, in a few words."""
    room = pathlib.Path(room) / "faults"
    room.mkdir()
    pauses = {}
    with postgres.Pair(room) as pair:
        game = Game(room, pair, seed)
        try:
            with Progress("faults", count) as progress:
                while progress.done < count and game.wait(ANSWERS) is not None:
                    fault = game.dice.choice(FAULTS)
                    game.fail(fault)
                    pauses.setdefault(fault, []).append(game.wait(1) or 0.0)
                    progress.done += 1
            game.wait(ANSWERS)
        finally:
            game.end()
        lines = game.compare()
    starts = sum(process.starts for machine in game.machines for process in machine)
    longest = max((seconds for found in pauses.values() for seconds in found), default=0)
    return f"with {count} faults, {game.heard()} answers, {lines} lines, {starts} starts; the longest pause took {longest:.1f} s"
