"""players: clients of a kept session that send numbered lines, and each again until it has its answer; and what the reference
says that they have to be answered, from the session's file."""
import random
import re
import socket
import threading
import time

import fast
import reference
import journals
from serving import SECONDS, expect, faults


class Client(threading.Thread):
    """Speaks for a role with random commands, numbered, and sends a line again until it has its answer.

    The game has the port, the roles, for how many seconds a client pauses at most, and whether the game is over; and it may
    say which refusals of a join pass, beside that the role is taken, and how often a client leaves."""

    def __init__(self, game, session, role, seed):
        super().__init__(daemon=True)
        self.game, self.session, self.role = game, session, role
        self.dice = random.Random(seed)
        self.number, self.line, self.stream = 1, None, None
        self.mine, self.got = [], []

    def command(self):
        """A command that may be accepted."""
        dice, others = self.dice, [it for it in self.game.roles if it != self.role]
        turn = dice.random()
        if turn < 0.07 and self.mine:
            return f"rollback {dice.choice(self.mine[-8:])}"
        if turn < 0.12 and self.mine:
            return f"undo {self.mine[-1]}"
        if turn < 0.2:
            return f"mark {dice.choice('kmn')}"
        if turn < 0.23:
            return f"back {dice.choice('kmn')}"
        if turn < 0.24:
            return "commit"
        at = self.game.roles.index(self.role)
        before, after = self.game.roles[at - 1], self.game.roles[(at + 1) % len(self.game.roles)]
        if turn < 0.26:
            before, after = dice.choice(others), dice.choice(others)
        return dice.choice((f"recv {before} x", f"recv {before} y", f"send {after} {dice.randrange(-9, 9)}",
                            f'send {after} "a text {dice.randrange(9)}"', f"send {after} true", f"choose {after} go",
                            f"pick {before}"))

    def run(self):
        while True:
            if self.line is None:
                if self.game.over:
                    return
                self.line = f"{self.number} {self.command()}"
            answer = self.exchange()
            if answer is None:
                time.sleep(0.002)
                continue
            if not answer.startswith("refused "):
                self.got.append((self.line, answer))
                self.number += 1
                if answer.startswith("done "):
                    self.mine.append(int(answer.split()[1]))
            self.line = None
            if self.dice.random() < 0.02 and not self.ask_questions():
                continue
            if self.dice.random() < getattr(self.game, "leaves", 0):
                self.lose()
            time.sleep(self.dice.random() * self.game.pause)

    def ask_questions(self):
        """A question is answered, or the connection is lost."""
        answer = self.round_trip(self.dice.choice(("show", "news 0")))
        if answer is not None and not answer.startswith(("{", "news ")):
            faults.append(f"a question is answered {answer!r}")
        return answer is not None

    def exchange(self):
        """The answer to the line, if it comes."""
        if self.stream is None and not self.join_session():
            return None
        return self.round_trip(self.line)

    def join_session(self):
        try:
            stream = socket.create_connection(("127.0.0.1", self.game.port), timeout=SECONDS)
            stream.setsockopt(socket.IPPROTO_TCP, socket.TCP_NODELAY, 1)
            self.stream = stream.makefile("rwb")
            stream.close()
        except OSError:
            self.stream = None
            return False
        answer = self.round_trip(f"join {self.session} {self.role}")
        if answer == f"joined {self.session} {self.role}":
            return True
        if answer not in (None, "refused taken", *getattr(self.game, "passing", ())):
            faults.append(f"{self.role} of session {self.session} joins and is answered {answer!r}")
        self.lose()
        return False

    def round_trip(self, line):
        try:
            self.stream.write(line.encode() + b"\n")
            self.stream.flush()
            answer = self.stream.readline()
        except OSError:
            answer = b""
        if not answer.endswith(b"\n"):
            self.lose()
            return None
        return answer[:-1].decode()

    def lose(self):
        if self.stream is not None:
            try:
                self.stream.close()
            except OSError:
                pass
        self.stream = None

    def join_by(self, until):
        """Waits for the thread, for so long."""
        self.join(max(0.0, until - time.time()))
        if self.is_alive():
            faults.append(f"{self.role} of session {self.session} never gets its answer")


def replayed(protocol, lines):
    """For each role its lines, without its name, and the answers that the reference gives to them."""
    room, given = fast.FastRoom(reference.load(protocol)), {}
    for line in lines:
        role, rest = line.decode().split(" ", 1)
        answer = reference.answer(room, f"{role} {re.sub('^[0-9]+ ', '', rest)}".encode())
        if answer.startswith("refused "):
            faults.append(f"a line of a file is answered {answer!r}: {line!r}")
        given.setdefault(role, []).append((rest, answer))
    return given


def compare(place, protocol, session, data, clients):
    """Whether each line of the session's file has its seal, and the file gives each of its clients just the answers that it
    got. How many entries there are."""
    found = journals.read(data, journals.first_seal(protocol, session))
    expect(f"{place}: the first line of session {session} whose seal is wrong", found.fault, None)
    given = replayed(protocol, found.lines)
    for client in clients:
        expect(f"{place}: the answers of {client.role} in session {client.session}", client.got, given.get(client.role, []))
    return sum(len(it) for it in given.values())
