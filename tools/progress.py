"""progress: a line at a terminal that tells how far long work is, and is written over until the work has ended."""
import contextlib
import os
import shutil
import threading
import time

import output

SHORT, PAUSE = 1.0, 0.5  # seconds of which nothing is told, and from one line to the next
CLEAR = "\r\x1b[K"


class Progress:
    """Tells on standard error how many of so many things are `done`, which whoever does them counts, and how fast that goes; of
    work whose things can't be counted only for how long it goes on. It tells nothing where that is no terminal."""

    def __init__(self, what, count=None):
        self.what, self.count, self.done, self.began = what, count, 0, time.monotonic()
        self.turn, self.is_over, self.is_shown = threading.Lock(), threading.Event(), False
        self.teller = threading.Thread(target=self.tell, daemon=True)

    def __enter__(self):
        if os.isatty(2):
            self.teller.start()
        return self

    def __exit__(self, *_):
        self.is_over.set()
        if self.teller.ident is not None:
            self.teller.join()
        with self.away():
            pass

    def tell(self):
        """Writes the line again and again."""
        pause = SHORT
        while not self.is_over.wait(pause):
            pause = PAUSE
            with self.turn:
                output.tell(CLEAR + self.line(time.monotonic() - self.began)[:shutil.get_terminal_size().columns - 1])
                self.is_shown = True

    def line(self, seconds):
        """What is told after so many seconds."""
        if self.count is None:
            return f"{self.what}, {seconds:.0f} s"
        rate, unit = (self.done / seconds, "second") if self.done >= seconds else (60 * self.done / seconds, "minute")
        speed = f", {rate:,.1f} a {unit}" if self.done else ""
        return f"{self.done:,} of {self.count:,} {self.what}{speed}, {seconds:.0f} s"

    @contextlib.contextmanager
    def away(self):
        """Has no line on the terminal, so that other lines may be written there meanwhile."""
        with self.turn:
            if self.is_shown:
                output.tell(CLEAR)
            self.is_shown = False
            yield
