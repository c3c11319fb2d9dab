#!/usr/bin/env python3
"""fleet: sessions of several machines behind a balancer; here the machines are processes of one.

usage: fleet.py N FILE [--port P] [--folder FOLDER] [--sessions S] [options of host]

Starts N shards, each of which is `./mps host` of the protocol in FILE: the first has the sessions 1 to S, the second S+1 to 2*S,
and so on, where S is 1,000,000 by default. Their ports of 127.0.0.1 are P+1, P+2 and so on, where P is 4750 by default, and shard K
keeps its sessions in FOLDER/K, where FOLDER is fleet by default. In front of them haproxy listens on port P, and hands each
connection to the shard whose session its first line names; one for a session of no shard is closed. Its configuration is written to
FOLDER/haproxy.cfg. A process that ends is started again, a shard on its folder. Further options, such as --sync and --idle 300, are
those of each shard.

`listening P` is printed once all are there, and `shard K is process ID` whenever one is started. Control-C ends all.
Started again with a larger N, on the same FOLDER, the fleet has the sessions that it had, and those of more shards.
"""
import argparse
import contextlib
import os
import pathlib
import re
import shutil
import signal
import socket
import subprocess
import sys
import time

MPS = str(pathlib.Path(__file__).resolve().parent.parent.parent / "mps")
SESSIONS = 1_000_000  # of a shard
LOOK = 0.05  # seconds between two looks at the processes
LEAST, MOST = 0.1, 10  # seconds until a process is started again
PORTS = 65_535  # which there are
ENDS = (signal.SIGINT, signal.SIGTERM, signal.SIGHUP)

BALANCER = """# Hands each connection to the shard that has the session of its first line, `join SESSION ROLE`.
defaults
    mode tcp
    timeout connect 250ms
    retries 3
    timeout client 1d
    timeout server 1d

frontend sessions
    bind 127.0.0.1:{port}
    tcp-request inspect-delay 10s
    tcp-request content accept if {{ req.payload(0,0) -m sub "\\n" }}
    # which answers a line that names no session
    use_backend shard0 unless {{ req.payload(0,0) -m reg "^join [1-9][0-9]* " }}
    use_backend shard%[req.payload(0,0),word(2,' '),sub(1),div({sessions})]
    default_backend none

# A connection for a session of no shard is closed.
backend none

"""


def configuration(port, ports, sessions=SESSIONS):
    """The configuration of a balancer that listens at that port, before shards at those ports, of so many sessions each."""
    shards = (f"backend shard{place}\n    server shard{place} 127.0.0.1:{of}\n" for place, of in enumerate(ports))
    return BALANCER.format(port=port, sessions=sessions) + "".join(shards)


def heed(handler):
    """What is done from now on at a signal that ends the fleet."""
    for kind in ENDS:
        signal.signal(kind, handler)


def deafen():
    """No signal ends the fleet from now on. They are blocked, and one that has come by then does nothing; of SIG_IGN in its
    place python would complain."""
    signal.pthread_sigmask(signal.SIG_BLOCK, ENDS)
    heed(lambda *_: None)


def stop(*_):
    """Ends the fleet, once: a second signal would leave processes behind that the first was about to end."""
    deafen()
    sys.exit(0)


@contextlib.contextmanager
def held():
    """Signals that come meanwhile end the fleet afterwards."""
    came = []
    heed(lambda *_: came.append(True))
    try:
        yield
    finally:
        heed(stop)
    if came:
        stop()


class Process:
    """A process that is started again when it ends."""

    def __init__(self, name, words):
        self.name, self.words = name, words
        self.pause = LEAST
        self.process = None

    def start(self):
        self.began, self.ended = time.monotonic(), None
        try:
            with held():  # else a process that has no name here yet would be left behind
                self.process = subprocess.Popen(self.words, stdin=subprocess.DEVNULL, stdout=subprocess.PIPE, text=True)
        except OSError as error:
            sys.exit(f"{self.name} can't be started: {error.strerror}")
        print(f"{self.name} is process {self.process.pid}", flush=True)

    def look(self):
        """Starts it again if it has ended: soon, where it had run for a while, and else after pauses that grow."""
        now = time.monotonic()
        if self.ended is None and self.process.poll() is not None:
            self.process.stdout.close()
            self.ended = now
            self.pause = LEAST if now - self.began > 1 else min(2 * self.pause, MOST)
        if self.ended is not None and now - self.ended >= self.pause:
            self.start()

    def has(self, port):
        """Whether it listens at the port, soon, as long as it hasn't ended."""
        for _ in range(100):
            if self.process.poll() is not None:
                return False
            if listener(port) in sockets(self.process.pid):
                return True
            time.sleep(LOOK)
        return False

    def end(self):
        if self.process:
            self.process.terminate()
            self.process.wait()


def shard(place, options, more):
    """A shard, which isn't started yet."""
    words = [MPS, "host", options.file, "--port", str(options.ports[place]), "--journal", str(options.folder / str(place)), *more]
    return Process(f"shard {place}", words)


def listener(port):
    """The socket that listens at the port, as the system names it."""
    lines = pathlib.Path("/proc/net/tcp").read_text(encoding="ascii").splitlines()
    rows = (line.split() for line in lines[1:])
    return next((f"socket:[{row[9]}]" for row in rows if row[1] == f"0100007F:{port:04X}" and row[3] == "0A"), None)


def sockets(process):
    """The files that are open in a process, sockets among them."""
    with contextlib.suppress(OSError):  # it ended, or a file was closed meanwhile
        for file in pathlib.Path(f"/proc/{process}/fd").iterdir():
            with contextlib.suppress(OSError):
                yield os.readlink(file)


def count(word, port):
    """The number of shards that a word spells, for each of which there is a port after the balancer's."""
    most = PORTS - port
    if not 0 < port < PORTS:
        sys.exit(f"the port of a fleet is 1 to {PORTS - 1}, and not {port}")
    if not re.fullmatch("[1-9][0-9]{0,4}", word) or int(word) > most:
        sys.exit(f"a fleet at port {port} has 1 to {most} shards, and not {word}")
    return int(word)


def need_ports(ports):
    """Each port has to be free: haproxy would share one with another haproxy."""
    for port in ports:
        try:
            socket.create_server(("127.0.0.1", port)).close()
        except OSError as error:
            sys.exit(f"port {port} can't be listened on: {os.strerror(error.errno)}")


def keep_spread(options):
    """Notes in the folder how many sessions a shard has. In a folder with other shards sessions would be looked for elsewhere."""
    note = options.folder / "sessions"
    if any(options.folder.glob("[0-9]*/*.journal")) or note.exists():
        found = note.read_text(encoding="utf-8").strip() if note.exists() else "16"
        if found != str(options.sessions):
            sys.exit(f"{options.folder} has shards of {found} sessions each, and not {options.sessions}")
    note.write_text(f"{options.sessions}\n", encoding="utf-8")


def write_configuration(options):
    """Makes the folder and the balancer's configuration there, and gives the place of that."""
    file = options.folder / "haproxy.cfg"
    try:
        options.folder.mkdir(exist_ok=True)
        keep_spread(options)
        file.write_text(configuration(options.port, options.ports, options.sessions), encoding="utf-8")
    except OSError as error:
        sys.exit(f"{error.filename or file} can't be written: {error.strerror}")
    return file


def run(options, more, processes):
    """Starts the processes, and then looks after them without an end."""
    options.ports = range(options.port + 1, options.port + 1 + options.count)
    need_ports([options.port, *options.ports])
    file = write_configuration(options)
    processes += [shard(place, options, more) for place in range(options.count)]
    for process in processes:
        process.start()
    for process in processes:
        if not process.process.stdout.readline().startswith("listening "):
            sys.exit(f"{process.name} can't be started")
    balancer = Process("the balancer", ["haproxy", "-db", "-f", str(file)])
    processes.append(balancer)
    balancer.start()
    if not balancer.has(options.port):
        sys.exit("the balancer can't be started")
    print(f"listening {options.port}", flush=True)
    while True:
        time.sleep(LOOK)
        for process in processes:
            process.look()


def main():
    heed(stop)
    reader = argparse.ArgumentParser(usage=__doc__.split("usage: ")[1].split("\n")[0])
    reader.add_argument("count", metavar="N")
    reader.add_argument("file", metavar="FILE")
    reader.add_argument("--port", type=int, default=4750)
    reader.add_argument("--folder", type=pathlib.Path, default=pathlib.Path("fleet"))
    reader.add_argument("--sessions", type=int, default=SESSIONS)
    options, more = reader.parse_known_args()
    options.count = count(options.count, options.port)
    if options.sessions < 1:
        sys.exit(f"a shard has one session or more, and not {options.sessions}")
    if shutil.which("haproxy") is None:
        sys.exit("fleet.py needs haproxy, which Debian has as a package")
    processes = []
    try:
        try:
            run(options, more, processes)
        finally:
            deafen()  # or ends with stop, which does it too
    finally:
        for process in processes:
            process.end()


if __name__ == "__main__":
    main()
