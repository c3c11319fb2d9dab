"""draining: the parent of a server, `mps serve` or `mps host` with --drain, that has it drain when it is told to end.

usage: draining.py PROGRAM WORDS..

The program drains once its standard input has ended. So it gets one that ends when this process does, and a session of its
own, where no signal of the terminal reaches it. It also gets the descriptors that this process was given, for --listener. What it
prints is passed on as it comes. The first SIGTERM, SIGINT or SIGHUP ends its input. Where it goes on for longer than it should, or
at a second signal, it is killed, by which its journals lose nothing. The status is the program's. Where NOTIFY_SOCKET names a
socket, as systemd does, it is told there when the server listens, and when it is about to end."""
import contextlib
import os
import select
import signal
import socket
import sys

sys.dont_write_bytecode = True
sys.path.insert(0, os.path.dirname(os.path.realpath(__file__)))
import output  # noqa: E402

OWN = 1  # seconds that the program gives its connections to end
MOST = OWN + 6  # seconds after which it is killed: the ends of thousands of connections take time too
ENDS = (signal.SIGTERM, signal.SIGINT, signal.SIGHUP)
UNWRITTEN = 4  # the program's status where its standard output can't be written


def notify(text):
    """Tells who waits to be told, if somebody does."""
    address = os.environ.get("NOTIFY_SOCKET", "")
    if address:
        with contextlib.suppress(OSError), socket.socket(socket.AF_UNIX, socket.SOCK_DGRAM | socket.SOCK_CLOEXEC) as end:
            end.sendto(text.encode(), "\0" + address[1:] if address[0] == "@" else address)


class Program:
    """The program as it runs with these words: its number, what keeps its standard input open, as long as it is, what it
    prints, and a pipe that gets a byte for each signal."""

    def __init__(self, words, mask):
        self.is_written = True
        (begin, end), (self.printed, out), (self.woken, wake) = os.pipe(), os.pipe(), os.pipe()
        os.set_blocking(wake, False)
        signal.set_wakeup_fd(wake, warn_on_full_buffer=False)
        self.input = [end]
        files = [(os.POSIX_SPAWN_DUP2, begin, 0), (os.POSIX_SPAWN_DUP2, out, 1)]
        environment = {name: value for name, value in os.environ.items() if name != "NOTIFY_SOCKET"}
        # python ignores SIGPIPE, and the program shouldn't
        self.number = os.posix_spawn(words[0], words, environment, file_actions=files, setsid=True, setsigmask=mask,
                                     setsigdef=[signal.SIGPIPE])
        os.close(begin)
        os.close(out)

    def drain(self, *_):
        """Ends its standard input; kills it where that was done before."""
        try:
            os.close(self.input.pop())  # in one step, since a second signal may come between any two
        except IndexError:
            self.kill()
            return
        signal.setitimer(signal.ITIMER_REAL, MOST, OWN)
        notify("STOPPING=1")

    def kill(self, *_):
        """Kills it. Its number is nobody else's, since it is never reaped."""
        os.kill(self.number, signal.SIGKILL)

    def write(self, text):
        """Passes on what it printed. Where that can't be, it drains, as if it had ended for that reason itself."""
        try:
            while text and self.is_written:
                text = text[os.write(1, text):]
        except OSError:
            self.is_written = False
            output.tell("refused write\n")
            if self.input:
                self.drain()

    def pieces(self):
        """What it prints, as it comes, until its end. Python looks for signals before a call and where one interrupts it, and misses
        one that comes in between: so the call that waits here also waits for the byte of a signal."""
        while True:
            ready, _, _ = select.select([self.printed, self.woken], [], [])
            if self.woken in ready:
                os.read(self.woken, 65_536)
            if self.printed in ready:
                piece = os.read(self.printed, 65_536)
                if not piece:
                    return
                yield piece

    def pass_on(self):
        """Passes on what it prints until its end. Its first line says that it listens."""
        first = b""
        for piece in self.pieces():
            self.write(piece)
            if b"\n" not in first:
                first += piece
                line, end, _ = first.partition(b"\n")
                if end and line.startswith(b"listening "):
                    notify(f"READY=1\nSTATUS={line.decode()}")

    def status(self):
        """Its status, once it has ended, as a shell tells it."""
        ended = os.waitid(os.P_PID, self.number, os.WEXITED | os.WNOWAIT)
        status = ended.si_status if ended.si_code == os.CLD_EXITED else 128 + ended.si_status
        return status if self.is_written else status or UNWRITTEN


def main():
    while (stream := os.open(os.devnull, os.O_RDONLY)) <= 2:  # in place of a closed one, whose number a pipe would get
        pass
    os.close(stream)
    signal.signal(signal.SIGCHLD, signal.SIG_DFL)
    mask = signal.pthread_sigmask(signal.SIG_BLOCK, ENDS)
    program = Program(sys.argv[1:], mask)
    signal.signal(signal.SIGALRM, program.kill)
    for number in ENDS:
        if signal.getsignal(number) != signal.SIG_IGN:  # what was to be ignored is
            signal.signal(number, program.drain)
    signal.pthread_sigmask(signal.SIG_SETMASK, mask)
    program.pass_on()
    os._exit(program.status())  # at once, deaf to signals: nothing is left to write


output.run("mps", main, OSError)
