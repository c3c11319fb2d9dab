"""mps WORDS..: runs mps_tool, the program of Cizhmolat, with these words, from the caller's folder.

mps check FILE                 each role's local type of the protocol in FILE
mps run [--strict] FILE SCRIPT
                               the answers to a script, on a session of the protocol; - for SCRIPT is the standard input;
                               --strict ends at the first line that is refused, with status 1
mps same FILE SCRIPT SCRIPT    whether two scripts come to the same
mps serve FILE --port P --sessions S ..
                               serves these sessions of the protocol to clients; mps serve --help has the options
mps host FILE --port P ..      serves each session that somebody joins, for a service whose sessions come and go; mps host
                               --help has the options
mps explain FILE               as check; where the protocol is refused it says where in FILE and why, of each fault that
                               can be told apart. The five above tell the first where standard error is a terminal
mps explain FILE SCRIPT        of each line of the script that is refused or unreadable, where it is and why; ends with 1
                               where there is one, and else with 0
mps journal FILE [--script]    what the file of a recorded session has, FOLDER/K.journal: how many entries, each role's newest
                               number, and the first line that is wrong, if one is; with --script its lines as a script.
                               It asks no server; ends with 3 where a line is wrong, and else with 0
mps sessions FOLDER|--database DSN [--html FILE|-] [--newest] [--watch]
                               who is there, of the sessions that a folder records: of each how many entries it has, the time
                               since its file was changed last, what each role may do next, who waits for whom, how many
                               surviving steps no commit makes final, and what is wrong; with --database of those that
                               recorders keep in that PostgreSQL, also which recorder has each, from a snapshot, for which a
                               standby will do; with --html as a page in that file, or on standard output where it is -; with
                               --newest those first that were changed last; with --watch again every 2 seconds. It asks no
                               server, takes no lock and changes nothing
mps recorder --port P --database DSN ..
                               keeps the journals of a server with --journal tcp:P in PostgreSQL, which another machine's server
                               goes on with; mps recorder --help has the options
mps api python|rust FILE ROLE [SLOT ..]
                               the role's part of the protocol as classes, by which mypy or rustc finds what the protocol
                               doesn't allow: docs/STATES.md. What it receives goes to these slots, or to slots with the
                               names of the senders
mps story PROTOCOL SCRIPT      writes a page that goes through a session line by line; mps story --help has the options
mps picture                    draws the session that the answers on the standard input show last; mps picture --help has the
                               options
mps .. --merging full          with check, run, same, serve, host, explain, journal, sessions and api: a role that takes no
                               part in a choice may be told of the branch by labels of its own. docs/DESIGNING.md says how
mps serve|host .. --drain      told to end, by SIGTERM, SIGINT or SIGHUP, answers the line that each connection runs, and then
                               ends; at a second signal, or seven seconds after the first, it is killed. Here the standard
                               input, which the program itself waits for, doesn't count
mps journal --remove FOLDER K  has the next server begin session K of FOLDER anew, and takes its file away, which no server
                               may have
mps journal --into DSN FOLDER K [--lone]
                               moves session K of FOLDER, which no server may have, into the tables of a recorder in that
                               PostgreSQL, which must not have it, once its seals and commands are looked at; with --lone also
                               where no synchronous standby is set
mps journal --from DSN FOLDER K [--lone]
                               moves session K back from there into FOLDER, which is made if need be
mps prove                      builds the proved program and the proved library: each crate is proved, side by side on
                               all cores, which takes about half an hour; prints where the program stands
mps which [--path]             tells which program runs, and of which sources; with --path prints only where it stands
mps install DIR                copies the program that runs to DIR/mps_tool, where it needs nothing else;
                               DIR is made if need be
mps library DIR                copies the library for programs in C, Rust and Python to DIR, which is made if need be:
                               libcizhmolat.a, libcizhmolat.so and cizhmolat.h, and what CMake and pkg-config find them by,
                               FindCizhmolat.cmake and cizhmolat.pc. docs/EMBEDDING.md says how to call it
mps package DIR                makes of the program, the library and all here that needs no prover a package for Debian,
                               cizhmolat_VERSION_amd64.deb, and for others cizhmolat-VERSION-x86_64.tar.gz with an install.sh, in
                               DIR, which is made if need be: docs/OPERATING.md says what is installed
mps --version                  the program's version
mps --help                     this; mps run --help and the like say what the program's own orders take

After explain, journal, sessions, api, install, library and package a path that begins with - is given as ./-x. With -v or --verbose,
before an order or after it, more is told on standard error; where there is no more to tell, as with which, it changes nothing.

The proved program runs where one was built of the sources as they are, else the checked one: the same sources, with a
check at each step where a proof would have shown that nothing goes wrong. The checked one is built where it is missing,
which takes about a minute. So it is with the library, by which sessions runs the lines of files.

The exit status of the program, with which mps ends:
0 all was done    1 two scripts differ, or a strict run met a refusal    2 wrong words, a file or a port that can't be had
3 the protocol is refused, or a journal's line    4 a device failed, a session was lost, or memory ran out
explain ends so too, with 1 where a line of the script is refused, 2 where FILE or SCRIPT can't be opened, 3 where the
protocol is refused, and 4 where one can't be read. mps itself ends with 2 where its words are wrong, no program can be
run, or what it writes to standard output can't be written, and with 141 where nobody reads that.
"""
import functools
import os
import re
import signal
import subprocess
import sys

sys.dont_write_bytecode = True
sys.path.insert(0, os.path.dirname(os.path.realpath(__file__)))
import api  # noqa: E402
import building  # noqa: E402
import explain  # noqa: E402
import explain_script  # noqa: E402
import journal  # noqa: E402
import output  # noqa: E402
import sessions  # noqa: E402
import sessions_database  # noqa: E402
from sources import HOME, built, digest, installed, noted_digest  # noqa: E402

# the words that each order of mps itself may have after it
USES = {"prove": "", "which": "[--path]", "install": "DIR", "explain": "[--merging plain|full] FILE [SCRIPT]", "library": "DIR",
        "package": "DIR", "journal": "[--merging plain|full] FILE [--script] | --remove FOLDER K | --into|--from DSN FOLDER K [--lone]",
        "sessions": "[--merging plain|full] FOLDER|--database DSN [--html FILE|-] [--newest] [--watch]",
        "api": "[--merging plain|full] python|rust FILE ROLE [SLOT ..]"}
PROGRAMS = ("check", "run", "same", "serve", "host")  # the orders of the program
SERVERS = ("serve", "host")  # those that may drain
DRAWING = ("picture", "story")  # the tools in examples
DRAINING = os.path.join(HOME, "tools", "draining.py")
RECORDER = os.path.join(HOME, "recorder", "recorder.py")
PYTHON = "/usr/bin/python3"  # the system's, which has the package that speaks to PostgreSQL
BUILDING = ("prove", "library", "package")  # the orders that need the repository
FULL = (["--merging", "full"], ["--merging=full"])  # the words of which each asks for full merging
PLAIN = ([], ["--merging", "plain"], ["--merging=plain"])
MOVING = (["--into"], ["--from"])  # the words of which each moves a session
HELP = ("--help", "-h", "help")
VERBOSE = ("-v", "--verbose")  # by which the program says more


def help_text(is_installed):
    """What --help says, without what only the repository can do where a package put mps."""
    left_out = rf"(?m)^mps ({'|'.join(BUILDING)}) .*\n( .*\n)*|^The proved program runs (.+\n)*\n"
    if not is_installed:
        return __doc__
    return re.sub(left_out, "", __doc__).replace("api, install, library and package", "api and install")


def asks_for_help(words):
    """Whether these words ask for the help of mps, and not for that of one of the program's orders."""
    if words[0] in HELP:
        return words[1:] == [] or words[1] in USES
    return words[0] in USES and any(word in HELP[:2] for word in words[1:])


def past_verbose(words):
    """These words without those by which more is told in front of the order."""
    return words[next((at for at, word in enumerate(words) if word not in VERBOSE), len(words)):]


def merging_in(words):
    """Of these words those that say how branches are merged, and the others."""
    at = next((at for at, word in enumerate(words) if word.split("=")[0] == "--merging"), len(words))
    end = at + 1 + (words[at:at + 1] == ["--merging"])
    return words[at:end], words[:at] + words[end:]


def may_follow(order, words):
    """Whether these words may follow an order of mps itself. No path among them begins with `-`."""
    if order in ("explain", "journal", "sessions", "api"):
        option, words = merging_in(words)
        if option not in (*PLAIN, *FULL) or option and words[:1] == ["--remove"]:
            return False
    if order == "which":
        return words in ([], ["--path"])
    if order == "sessions":
        return sessions.asked(words) is not None
    if order == "api":
        return len(words) >= 3 and words[0] in api.LANGUAGES and not any(word.startswith("-") for word in words)
    if order == "journal" and words[:1] == ["--remove"]:
        return len(words) == 3 and not any(word.startswith("-") for word in words[1:])
    if order == "journal" and words[:1] in MOVING:
        words = words[1:-1] if words[-1] == "--lone" else words[1:]
        return len(words) == 3 and not any(word.startswith("-") for word in words)
    if order == "explain" and words[1:] == ["-"] or order == "journal" and words[1:] == ["--script"]:
        words = words[:1]
    most = {"prove": 0, "explain": 2}.get(order, 1)
    return min(most, 1) <= len(words) <= most and not any(word.startswith("-") for word in words)


def which(words, sources):
    """Which program runs, and of which sources."""
    found = built(sources)
    if found and words:
        return found[1]
    if found:
        place = found[1] if installed() else os.path.relpath(found[1])
        return f"{found[0]} program of the sources {sources}: {place}"
    if words:
        raise building.Stopped("no program of these sources is built yet")
    return f"no program of the sources {sources} yet: mps builds the checked one when it is called, mps prove the proved one"


def program_of(sources):
    """Where the program stands that runs, which is built where it is missing."""
    found = built(sources)
    return found[1] if found else building.check(building.PROGRAM, sources)


def library_folder():
    """The folder of the library, which is built where it is missing."""
    if installed():
        return installed()[2]
    sources = digest(building.LIBRARY.crates())
    found = built(sources, building.LIBRARY.name)
    return found[1] if found else building.check(building.LIBRARY, sources)


def who_is_there(option, words):
    """The status of `sessions`, with the words that say how branches are merged. A database needs a python with packages."""
    wanted = sessions.asked(words)
    if wanted.database is not None:
        with_packages()
    return sessions.run(option in FULL, library_folder(), wanted)


def with_packages():
    """Goes on with a python that has packages."""
    if sys.flags.no_site and os.path.exists(PYTHON):
        os.execv(PYTHON, [PYTHON, "-I", *sys.argv])


def moved(program, option, words):
    """The status of a session's move between a folder and a database, with the words that say how branches are merged."""
    with_packages()
    try:
        sessions_database.psycopg()
    except journal.Unread as missing:
        raise building.Stopped(str(missing)) from None
    import moving  # of the recorder, whose folder is known by now
    order, *words = words
    answers = functools.partial(journal.answers, program, option)
    return moving.run(order, [word for word in words if word != "--lone"], "--lone" in words, answers)


def refused_file(program, words):
    """The file with a protocol among these words, if the program refuses it."""
    merging, words = merging_in(past_verbose(words))
    file = next((word for word in words[1:] if os.path.isfile(word)), None)
    if file is None or words[0] not in PROGRAMS:
        return None
    quiet = dict.fromkeys(("stdin", "stdout", "stderr"), subprocess.DEVNULL)
    check = [program, "check", *merging, "--", file]
    return file if subprocess.run(check, **quiet, check=False).returncode == 3 else None


def run_explained(program, words, file, write, most=None, **streams):
    """The status of a run of the program. Where it refuses the protocol of that file, its line is written, and why, by so many
    faults at most."""
    ran = subprocess.run([program, *words], stderr=subprocess.PIPE, check=False, **streams)
    told = explain.told_of(file, ran.stderr, most, merging_in(words)[0] in FULL) if ran.returncode == 3 else b""
    (write if told else output.tell)(ran.stderr + told)
    return ran.returncode if ran.returncode >= 0 else 128 - ran.returncode


def explained(program, option, file, script=None):
    """The status of `explain`, with the words that say how branches are merged."""
    check = ["-v", "check", *option, "--"]
    if script is None:
        return run_explained(program, [*check, file], file, output.write)
    with explain_script.steady(file) as protocol, explain_script.steady(script) as text:
        status = run_explained(program, [*check, protocol], file, output.write, stdout=subprocess.DEVNULL)
        return status or explain_script.explain(program, option, protocol, text, script)


def more(words):
    """The word by which the program says more, where these words don't have it yet."""
    return ["-v"] if words[0] in PROGRAMS and not set(VERBOSE) & set(words) else []


def drains(words):
    """Whether these words are those of a server that drains when it is told to end."""
    order, *words = past_verbose(words) or [""]
    return order in SERVERS and "--drain" in words[:words.index("--") if "--" in words else None]


def run(program, words):
    """Becomes the program, or its parent where it drains. Where a person reads what it says, it says more; and of a refused
    protocol they are told why."""
    is_read = os.isatty(2)
    file = refused_file(program, words) if is_read else None
    if file is not None:
        sys.exit(run_explained(program, [*more(words), *words], file, output.tell, most=1))
    parent = [sys.executable, "-IS", DRAINING] if drains(words) else []
    call = [*parent, program, *(more(words) if is_read else []), *words]
    os.execv(call[0], call)


def main():
    order, *words = past_verbose(sys.argv[1:]) or [""]
    if order in HELP and words[:1] and words[0] in (*DRAWING, "recorder"):
        order, words = words[0], ["--help"]
    if not sys.argv[1:] or order and asks_for_help([order, *words]):
        (output.write if sys.argv[1:] else output.tell)(help_text(installed()).encode())
        sys.exit(0 if sys.argv[1:] else 2)
    words = [word for word in words if word not in VERBOSE]
    if order in DRAWING:
        os.execv(sys.executable, [sys.executable, "-IS", os.path.join(HOME, "examples", order), *words])
    if order == "recorder":
        os.execv(PYTHON, [PYTHON, "-I", RECORDER, *words])
    if order in USES and not may_follow(order, words):
        raise building.Stopped(f"usage: mps {order} {USES[order]}")
    if order in USES and "" in words:
        raise building.Stopped(f"the path that mps {order} was given is empty")
    if order == "api":
        option, words = merging_in(words)
        sys.exit(api.run(option in FULL, *words))
    if installed() and order in BUILDING:
        raise building.Stopped(f"mps {order} builds from the repository of Cizhmolat, and this mps was installed from a package")
    if order == "sessions":
        sys.exit(who_is_there(*merging_in(words)))
    sources = installed()[1] if installed() else noted_digest(building.PROGRAM.crates())
    obey(order, words, sources)


def obey(order, words, sources):
    """Does what is ordered, with the program of these sources."""
    if order == "which":
        output.write(f"{which(words, sources)}\n")
    elif order == "prove":
        output.write(f"{building.prove()[building.PROGRAM]}\n")
    elif order == "library":
        output.write(f"{building.give_library(*words)}\n")
    elif order == "package":
        import package  # which an installed mps doesn't have
        output.write(package.make(*words, program_of(sources), sources, help_text(True), USES))
    elif order == "install":
        output.write(f"{building.install(program_of(sources), *words)}\n")
    elif order == "explain":
        option, words = merging_in(words)
        sys.exit(explained(program_of(sources), option, *words))
    elif order == "journal" and words[0] == "--remove":
        sys.exit(journal.remove(*words[1:]))
    elif order == "journal" and merging_in(words)[1][:1] in MOVING:
        sys.exit(moved(program_of(sources), *merging_in(words)))
    elif order == "journal":
        option, words = merging_in(words)
        sys.exit(journal.tell(program_of(sources), option, words[0], words[1:] == ["--script"]))
    else:
        run(program_of(sources), sys.argv[1:])


for number in (signal.SIGTERM, signal.SIGHUP):
    signal.signal(number, lambda number, _: sys.exit(128 + number))
output.run("mps", main, building.Stopped)
