"""output: what the tools write to their standard output and error, and how they end where they can't."""
import contextlib
import errno
import os
import sys


def pour(stream, text, errors):
    """Writes all of a text, or of bytes, past the stream's buffer, of which python would write the rest once more at its end."""
    rest = text.encode(errors=errors) if isinstance(text, str) else text
    if stream is None:  # it was closed before the tool began, and its number may be another file's by now
        raise OSError(errno.EBADF, os.strerror(errno.EBADF))
    while rest:
        rest = rest[os.write(stream.fileno(), rest):]


def write(text):
    """Writes all of a text, or of bytes, to the standard output."""
    try:
        pour(sys.stdout, text, "surrogateescape")
    except BrokenPipeError:
        raise
    except OSError as error:
        raise OSError(f"standard output can't be written: {error.strerror}") from error


def tell(text):
    """Says a text, or bytes, on standard error. Where that can't be written nobody could be told so, and the tool goes on."""
    with contextlib.suppress(OSError):
        pour(sys.stderr, text, "backslashreplace")


def run(name, main, reason):
    """Runs a tool of that name. Where it can't do what it is asked, for a reason of that kind or one of the system's, it says
    why and ends with 2. Where nobody reads what it writes any more it ends as by SIGPIPE."""
    try:
        main()
    except KeyboardInterrupt:
        sys.exit(130)
    except BrokenPipeError:
        sys.exit(141)
    except (reason, OSError) as error:
        tell(f"{name}: {error}\n")
        sys.exit(2)
