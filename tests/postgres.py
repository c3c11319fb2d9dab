"""postgres: two PostgreSQLs of Debian's packages, one the other's synchronous standby, for tests of the recorder.

They stand in a temporary folder, with sockets there and no port. PostgreSQL doesn't run as root: there it is its package's user
postgres."""
import contextlib
import glob
import os
import pathlib
import pwd
import shutil
import signal
import subprocess
import time

import psycopg2

SETTINGS = """
listen_addresses = ''
synchronous_commit = on
wal_log_hints = on
shared_buffers = 32MB
max_connections = 40
wal_sender_timeout = 5s
wal_retrieve_retry_interval = 200ms
"""
SECONDS = 60  # that a busy machine is given
USER = "postgres"
DATABASE = "mps"  # and the name of its owner


def folder():
    """The folder of the newest PostgreSQL's programs, if one is there, and its user where that is needed."""
    found = glob.glob("/usr/lib/postgresql/*/bin")
    if not found or os.getuid() == 0 and USER not in (user.pw_name for user in pwd.getpwall()):
        return None
    return max(found, key=lambda path: int(path.split("/")[4]))


def as_user():
    """The words before a program that runs as PostgreSQL does."""
    return ["setpriv", f"--reuid={USER}", f"--regid={USER}", "--clear-groups"] if os.getuid() == 0 else []


def send(pid, number):
    """Sends a signal to a process, if it is there."""
    with contextlib.suppress(ProcessLookupError):
        os.kill(pid, number)


def state(pid):
    """The letter of a process's state, as ps has it; nothing where there is no such process."""
    try:
        return pathlib.Path(f"/proc/{pid}/stat").read_text(encoding="latin-1").rpartition(")")[2].split()[0]
    except (FileNotFoundError, ProcessLookupError):
        return ""


def wait(pids, states):
    """Waits until each of these processes is in one of these states, or is no more."""
    end = time.monotonic() + SECONDS
    while not all(state(pid) in states for pid in pids):
        if time.monotonic() > end:
            raise TimeoutError(f"processes {pids} aren't in the states {states}")
        time.sleep(0.01)


class Postgres:
    """A PostgreSQL with a folder of its own, in which its socket is too. `other` is the name of the one that is its standby."""

    def __init__(self, room, name, other):
        self.name, self.other = name, other
        self.folder, self.data = room / name, room / name / "data"
        self.dsn = f"host={self.folder} user={DATABASE} dbname={DATABASE}"
        self.folder.mkdir()
        if as_user():
            shutil.chown(self.folder, USER, USER)

    def call(self, program, *words, check=True):
        """Runs one of its programs."""
        return subprocess.run([*as_user(), f"{folder()}/{program}", *map(str, words)], check=check, stdin=subprocess.DEVNULL,
                              stdout=subprocess.PIPE, stderr=subprocess.STDOUT, text=True, cwd="/", timeout=2 * SECONDS,
                              env={**os.environ, "LC_ALL": "C", "PGOPTIONS": "-c synchronous_commit=local"})

    def configure(self):
        """Each has the other for its standby, from the beginning: one that is promoted commits nothing before it has one."""
        with open(self.data / "postgresql.conf", "a", encoding="ascii") as file:
            file.write(f"{SETTINGS}unix_socket_directories = '{self.folder}'\nsynchronous_standby_names = '{self.other}'\n")

    def make(self):
        """Begins as a primary, with an empty database of a user without rights."""
        self.call("initdb", "-D", self.data, "-U", USER, "-A", "trust", "-E", "UTF8", "--no-sync")
        self.configure()
        self.start()
        self.call("createuser", "-h", self.folder, DATABASE)
        self.call("createdb", "-h", self.folder, "--owner", DATABASE, DATABASE)

    def copy(self, primary):
        """Becomes the standby of another, anew."""
        shutil.rmtree(self.data, ignore_errors=True)
        primary.ask("select pg_drop_replication_slot(slot_name) from pg_replication_slots where not active")
        self.call("pg_basebackup", "-c", "fast", "-d", f"host={primary.folder} user={USER} application_name={self.name}", "-D", self.data,
                  "-R", "-X", "stream", "-C", "-S", self.name, "--no-sync")
        self.configure()
        self.start()

    def start(self):
        self.call("pg_ctl", "-D", self.data, "-l", self.folder / "log", "-w", "-t", SECONDS, "start")

    def promote(self):
        self.call("pg_ctl", "-D", self.data, "-w", "promote")

    def ask(self, statement, words=None):
        """The rows of a statement, which waits for no standby."""
        with contextlib.closing(psycopg2.connect(f"host={self.folder} user={USER} dbname={DATABASE} connect_timeout=30")) as made:
            made.autocommit = True
            with made.cursor() as cursor:
                cursor.execute("set synchronous_commit = local")
                cursor.execute(statement, words)
                return cursor.fetchall() if cursor.description else []

    def stand_by(self, name):
        """Says by which name its standby is known from now on: with none it waits for no standby."""
        self.ask(f"alter system set synchronous_standby_names = '{name}'")
        self.ask("select pg_reload_conf()")

    def signal(self, number):
        """Sends a signal to all of its processes. The one that starts the others is stopped first, so that there are no more. Which
        these are."""
        first = (self.data / "postmaster.pid").read_text(encoding="ascii").split()[0]
        send(int(first), signal.SIGSTOP)
        wait([first], ("T", "Z", ""))
        told = subprocess.run(["ps", "-o", "pid=", "--ppid", first], stdout=subprocess.PIPE, text=True, check=False).stdout
        pids = [int(first), *map(int, told.split())]
        for pid in pids:
            send(pid, number)
        return pids

    def pause(self):
        self.signal(signal.SIGSTOP)

    def go_on(self):
        self.signal(signal.SIGCONT)

    def kill(self):
        """Ends it all, as a lost machine would. It can't be started again before its processes are no more."""
        wait(self.signal(signal.SIGKILL), ("",))

    def end(self):
        if (self.data / "postmaster.pid").exists():
            self.go_on()
            self.call("pg_ctl", "-D", self.data, "-m", "immediate", "stop", check=False)


class Pair:
    """A primary and its synchronous standby, in a folder that is for them."""

    def __init__(self, room):
        self.room = room = pathlib.Path(room)
        room.chmod(0o755)
        self.primary, self.standby = Postgres(room, "one", "two"), Postgres(room, "two", "one")
        self.databases = self.primary.dsn, self.standby.dsn

    def __enter__(self):
        try:
            self.primary.make()
            self.standby.copy(self.primary)
        except BaseException:
            self.__exit__()
            raise
        return self

    def __exit__(self, *_):
        for one in (self.primary, self.standby):
            one.end()

    def promote(self):
        """The primary's machine is lost, its standby takes its place, and it comes back as the standby."""
        self.primary.kill()
        self.turn()
        self.standby.copy(self.primary)

    def turn(self):
        """Has the standby be the primary; the other has to end, or is left as it is."""
        self.standby.promote()
        self.primary, self.standby = self.standby, self.primary
