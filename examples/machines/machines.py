#!/usr/bin/python3
"""machines: sessions that outlive their machine, tried on one machine, in network namespaces that stand for several.

usage: machines.py up [FILE [options of host]]        starts all, for the sessions of the protocol in FILE; Control-C ends all
       machines.py kill|start MACHINE                 takes the power from a machine, without a word to others; gives it again
       machines.py cut MACHINE SECONDS                takes the network from a machine for so long
       machines.py at MACHINE COMMAND ..              runs a command on a machine, such as a client at `front`
       machines.py try [FAULTS [SEED [SESSIONS]]]     starts all, plays sessions, kills one part after the other, compares, ends all

The machines are m1 and m2, each with a recorder, `./mps host` and haproxy; pa, pb and pc, each with PostgreSQL, Patroni and etcd;
and front, with the balancer. Their configurations are the files beside this one, as they are. The clients of `try` are at front
too. Commands meet at the folder machines, which has the logs and the data, or another that --folder says before the command; and
--name there has namespaces of other names, so that several are up at once. No traffic leaves the namespaces. It needs root,
iproute2, haproxy, postgresql, patroni, etcd-server and python3-psycopg2.

`NAME is process ID` is printed whenever a process is started, as one is again that ended, and `listening 4750` once all is there.
"""
import argparse
import contextlib
import ctypes
import glob
import json
import os
import pathlib
import shutil
import signal
import subprocess
import sys
import time
import urllib.request

sys.dont_write_bytecode = True
HERE = pathlib.Path(__file__).resolve().parent
sys.path[:0] = [str(HERE), str(HERE.parent / "fleet")]
import fleet  # noqa: E402

SERVERS = {"m1": "10.77.0.11", "m2": "10.77.0.12"}
DATABASES = {"pa": "10.77.0.1", "pb": "10.77.0.2", "pc": "10.77.0.3"}
FRONT = {"front": "10.77.0.20"}
ADDRESSES = {**SERVERS, **DATABASES, **FRONT}
TOOLS = {"ip": "iproute2", "haproxy": "haproxy", "patroni": "patroni", "etcd": "etcd-server", "psql": "postgresql"}
USER = "postgres"
SECONDS = 120  # that a busy machine is given
LIMIT = 20  # seconds that a command of the system may take
CLONE_NEWNET = 0x40000000
LOG = 'exec "$@" >> "$0" 2>&1'  # what a shell does that has a program's words, and before them the file that it writes to


def need():
    """Says what is missing, in one line."""
    missing = [package for tool, package in TOOLS.items() if shutil.which(tool) is None]
    try:
        import psycopg2  # noqa: F401  # pylint: disable=import-outside-toplevel,unused-import
    except ModuleNotFoundError:
        missing.append("python3-psycopg2")
    if missing:
        sys.exit(f"machines.py needs packages: apt install {' '.join(missing)}")
    if os.getuid() != 0:
        sys.exit("machines.py needs root, for network namespaces")


def call(*words, check=True):
    """What a command of the system prints."""
    done = subprocess.run(words, stdin=subprocess.DEVNULL, capture_output=True, text=True, timeout=LIMIT, check=False)
    if check and done.returncode:
        raise RuntimeError(f"{' '.join(words)}: {done.stderr.strip()}")
    return done.stdout


class Network:
    """The namespaces: one with a bridge, and one for each machine, with an address there."""

    def __init__(self, name):
        self.name, self.home, self.place = name, os.open("/proc/self/ns/net", os.O_RDONLY), None

    def space(self, machine):
        """The name of a machine's namespace."""
        return f"{self.name}-{machine}"

    def make(self):
        """Makes them all."""
        net = self.space("net")
        call("ip", "netns", "add", net)
        call("ip", "-n", net, "link", "add", "bridge", "type", "bridge")
        call("ip", "-n", net, "link", "set", "bridge", "up")
        for machine, address in ADDRESSES.items():
            space = self.space(machine)
            call("ip", "netns", "add", space)
            call("ip", "-n", net, "link", "add", machine, "type", "veth", "peer", "name", "eth0", "netns", space)
            call("ip", "-n", net, "link", "set", machine, "master", "bridge", "up")
            call("ip", "-n", space, "link", "set", "lo", "up")
            call("ip", "-n", space, "addr", "add", f"{address}/24", "dev", "eth0")
            call("ip", "-n", space, "link", "set", "eth0", "up")

    def remove(self):
        """Ends what runs in them, and takes them away, as far as they are there."""
        there = {line.split()[0] for line in call("ip", "netns", "list").splitlines()}
        for machine in (*ADDRESSES, "net"):
            if self.space(machine) in there:
                self.kill(machine)
                call("ip", "netns", "del", self.space(machine))

    def kill(self, machine):
        """Ends all processes of a machine at once, but this one."""
        end = time.monotonic() + LIMIT
        with self.outside():
            while (pids := call("ip", "netns", "pids", self.space(machine)).split()) and time.monotonic() < end:
                for pid in pids:
                    with contextlib.suppress(ProcessLookupError):
                        os.kill(int(pid), signal.SIGKILL)
                time.sleep(0.01)

    def join(self, machine, is_joined):
        """Has the machine be in the network, or not."""
        call("ip", "-n", self.space("net"), "link", "set", machine, "up" if is_joined else "down")

    def enter(self, machine):
        """Has this thread be on the machine from now on, as far as the network goes, and those that it starts."""
        self.place = os.open(f"/run/netns/{self.space(machine)}", os.O_RDONLY)
        move(self.place)

    @contextlib.contextmanager
    def outside(self):
        """Has this thread be where it began."""
        move(self.home)
        try:
            yield
        finally:
            if self.place is not None:
                move(self.place)


def move(space):
    """Moves this thread to that namespace."""
    if ctypes.CDLL(None, use_errno=True).setns(space, CLONE_NEWNET):
        raise OSError(ctypes.get_errno(), "setns")


class Machine:
    """A machine: its processes, each with its name and words, and whether it has power. A file in the folder says that it has none."""

    def __init__(self, network, folder, name):
        self.network, self.name, self.processes, self.is_on = network, name, {}, None
        self.log = folder / "logs"
        self.off = folder / f"{name}.off"

    def add(self, program, *words):
        """Another process, whose log is in a file."""
        name = f"{program} of {self.name}"
        log = self.log / f"{self.name}.{program}.log"
        inside = ["ip", "netns", "exec", self.network.space(self.name), *map(str, words)]
        self.processes[program] = fleet.Process(name, ["sh", "-c", LOG, str(log), *inside])

    def start(self):
        self.is_on = True
        for process in self.processes.values():
            process.start()

    def look(self):
        """Starts again what ended; takes the power, or gives it, as the file says. Before `start` nothing is done."""
        should = not self.off.exists()
        if should and self.is_on:
            for process in self.processes.values():
                process.look()
        elif self.is_on:
            print(f"{self.name} is killed", flush=True)
            self.network.join(self.name, False)
            self.network.kill(self.name)
            self.is_on = False
        elif should and self.is_on is not None:
            self.network.join(self.name, True)
            for process in self.processes.values():
                process.end()  # which it has; so nothing is left of it
            self.start()

    def signal(self, program, number):
        """Sends a signal to one of its processes."""
        with contextlib.suppress(ProcessLookupError):
            os.kill(self.processes[program].process.pid, number)


def as_user():
    """The words before a program that runs as PostgreSQL does."""
    return ["setpriv", f"--reuid={USER}", f"--regid={USER}", "--clear-groups"]


def settings(file):
    """The settings in a file of this folder, which a service has in its environment."""
    lines = (HERE / file).read_text(encoding="ascii").splitlines()
    return dict(line.split("=", 1) for line in lines if line and line[0] != "#")


def database_words(machine, address, folder):
    """What PostgreSQL's machine has in its environment."""
    newest = max(glob.glob("/usr/lib/postgresql/*/bin"), key=lambda path: int(path.split("/")[4]))
    given = {**settings("database.env"), "ETCD_DATA_DIR": f"{folder}/etcd", "PATRONI_POSTGRESQL_DATA_DIR": f"{folder}/data",
             "PATRONI_POSTGRESQL_PGPASS": f"{folder}/pass", "PATRONI_POSTGRESQL_BIN_DIR": newest, "LC_ALL": "C", "HOME": folder}
    return ["env", *(f"{key}={value}".replace("@NAME@", machine).replace("@ADDRESS@", address) for key, value in given.items())]


class World:
    """All machines, in a folder."""

    def __init__(self, name, folder, file, more=()):
        self.network, self.folder = Network(name), folder
        self.machines = {it: Machine(self.network, folder, it) for it in ADDRESSES}
        for it, address in DATABASES.items():
            self.add_database(self.machines[it], address)
        for it in SERVERS:
            self.add_server(self.machines[it], file, more)
        self.machines["front"].add("haproxy", "haproxy", "-db", "-f", HERE / "front.cfg")

    def add_database(self, machine, address):
        """Its processes run as PostgreSQL's user, with a folder of their own."""
        words = [*as_user(), *database_words(machine.name, address, self.folder / machine.name)]
        machine.add("etcd", *words, "etcd")
        machine.add("patroni", *words, "patroni", HERE / "patroni.yml")

    def add_server(self, machine, file, more):
        """Its processes have what their units of systemd give them."""
        recorder, host = settings("orders.recorder"), settings("orders.env")
        machine.add("recorder", fleet.MPS, "recorder", "--port", recorder["PORT"], *recorder["DATABASES"].split())
        machine.add("host", fleet.MPS, "host", "--port", host["PORT"], "--journal", host["JOURNAL"], *(more or host["OPTIONS"].split()),
                    "--", file)
        machine.add("haproxy", "haproxy", "-db", "-f", HERE / "haproxy.cfg")

    def make_folders(self):
        (self.folder / "logs").mkdir(parents=True)
        self.folder.chmod(0o755)
        for it in DATABASES:
            (self.folder / it).mkdir()
            shutil.chown(self.folder / it, USER, USER)

    def start(self):
        """Starts all, and waits until sessions are served."""
        for it in (*DATABASES, "front"):
            self.machines[it].start()
        self.network.enter("front")
        self.until("a PostgreSQL with its standby", is_replicated)
        self.until("a database", make_database)
        for it in SERVERS:
            self.machines[it].start()
        self.until("machines that serve", lambda: all(serves(address) for address in SERVERS.values()))
        print("listening 4750", flush=True)

    def until(self, what, holds, seconds=SECONDS):
        """Looks after the processes until that holds."""
        end = time.monotonic() + seconds
        while not holds():
            if time.monotonic() > end:
                sys.exit(f"{what}: not there after {seconds} s; see {self.folder}/logs")
            self.look()
            time.sleep(fleet.LOOK)

    def look(self):
        for machine in self.machines.values():
            machine.look()

    def __enter__(self):
        try:
            self.network.remove()
            shutil.rmtree(self.folder, ignore_errors=True)
            self.make_folders()
            self.network.make()
            self.start()
        except BaseException:
            self.__exit__()
            raise
        return self

    def __exit__(self, *_):
        fleet.deafen()
        self.network.remove()


def asked(address):
    """What is answered to a question by HTTP: the status and the text, or 0 where nothing is."""
    try:
        with urllib.request.urlopen(f"http://{address}", timeout=1) as answer:
            return answer.status, answer.read().decode()
    except OSError:
        return 0, ""


def serves(address):
    """Whether a machine says that it can serve."""
    return asked(f"{address}:4752/up")[0] == 200


def members():
    """What Patroni tells of its PostgreSQLs, by name."""
    for address in DATABASES.values():
        status, text = asked(f"{address}:8008/cluster")
        if status == 200:
            return {it["name"]: it for it in json.loads(text)["members"]}
    return {}


def roles():
    """The role of each PostgreSQL that runs, by name: `leader`, `sync_standby` or `replica`."""
    return {name: it["role"] for name, it in members().items() if it.get("state") in ("running", "streaming")}


def is_replicated():
    """Whether all PostgreSQLs are there, one of them the synchronous standby."""
    return sorted(roles().values()) == ["leader", "replica", "sync_standby"]


def primary(database="mps", user="mps"):
    """A connection to the PostgreSQL that is the primary, or None."""
    import psycopg2  # pylint: disable=import-outside-toplevel
    for address in DATABASES.values():
        with contextlib.suppress(psycopg2.Error):
            made = psycopg2.connect(host=address, user=user, dbname=database, connect_timeout=2, options="-c statement_timeout=10s")
            made.autocommit = True
            with made.cursor() as cursor:
                cursor.execute("select pg_is_in_recovery()")
                if not cursor.fetchone()[0]:
                    return made
            made.close()
    return None


def make_database():
    """Makes the recorders' database, if there is a primary."""
    made = primary("postgres", USER)
    if made is None:
        return False
    with contextlib.closing(made), made.cursor() as cursor:
        cursor.execute("create role mps login")
        cursor.execute("create database mps owner mps")
    return True


# --- Commands ---

def up(options):
    """Starts all, and looks after it without an end."""
    need()
    fleet.heed(fleet.stop)
    file, *more = options.words or [HERE.parent / "relay.protocol"]
    with World(options.name, options.folder, os.path.abspath(file), more) as world:
        while True:
            time.sleep(fleet.LOOK)
            world.look()


def attempt(options):
    """Starts all, and tries it."""
    need()
    import trying  # pylint: disable=import-outside-toplevel
    fleet.heed(fleet.stop)
    count, seed, sessions = (int(word) for word in (*options.words, *("12", "1", "8")[len(options.words):]))
    with World(options.name, options.folder, trying.PROTOCOL) as world:
        return trying.attempt(world, count, seed, sessions)


def named(options):
    """The machine that the words name first."""
    if not options.words or options.words[0] not in ADDRESSES:
        sys.exit(f"a machine is one of {' '.join(ADDRESSES)}")
    return options.words[0]


def power(options):
    """Takes the power from a machine, or gives it again."""
    off = options.folder / f"{named(options)}.off"
    if not options.folder.is_dir():
        sys.exit(f"nothing was started in {options.folder}")
    if options.order == "kill":
        off.touch()
    else:
        off.unlink(missing_ok=True)


def cut(options):
    """Takes the network from a machine for some time."""
    network, machine = Network(options.name), named(options)
    seconds = float(options.words[1]) if len(options.words) == 2 else sys.exit("for how many seconds?")
    network.join(machine, False)
    try:
        time.sleep(seconds)
    finally:
        network.join(machine, True)


def at(options):
    """Runs a command on a machine."""
    os.execvp("ip", ["ip", "netns", "exec", Network(options.name).space(named(options)), *options.words[1:]])


ORDERS = {"up": up, "try": attempt, "kill": power, "start": power, "cut": cut, "at": at}


def main():
    reader = argparse.ArgumentParser(usage=__doc__.split("usage: ")[1].split("\n\n")[0])
    reader.add_argument("--name", default="mps")
    reader.add_argument("--folder", type=pathlib.Path, default=pathlib.Path("machines"))
    reader.add_argument("order", choices=ORDERS)
    reader.add_argument("words", nargs=argparse.REMAINDER)
    options = reader.parse_args()
    options.folder = options.folder.absolute()
    sys.exit(ORDERS[options.order](options))


if __name__ == "__main__":
    main()
