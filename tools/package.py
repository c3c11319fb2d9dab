"""package: makes a package for Debian, and a tar.gz for other systems, of the program, the library, and all here that needs no
prover. Both are the same byte for byte each time: every file has the date of the changelog's newest version."""
import ast
import calendar
import gzip
import hashlib
import io
import lzma
import os
import pathlib
import re
import tarfile
import tempfile
import textwrap
import time
from typing import NamedTuple

import building
import checked_build
import completions
import library
import man_pages
import manual
from progress import Progress
from sources import HOME, built

ROOT = pathlib.Path(HOME)
FROM = ROOT / "packaging"
NAME = "cizhmolat"
MAINTAINER = "Cizhmolat maintainers <maintainers@users.noreply.cizhmolat.example>"
SUMMARY = "monitor of sessions whose steps can be taken back"
RUN = ("mps.py", "draining.py", "story", "picture")  # what is started of tools and examples
TOOLS = {"story": ROOT / "examples" / "story", "picture": ROOT / "examples" / "picture", "recorder": ROOT / "recorder" / "recorder.py"}
PAGES = ("TOUR", "DESIGNING", "OPERATING", "EMBEDDING", "STATES", "FORMATS")  # of docs, for users
MODULES = (*sorted((ROOT / "clients" / "python").glob("*.py")), ROOT / "bindings" / "python" / "cizhmolat_embed.py")
CONFIGURED = ("etc/cizhmolat/relay.env", "etc/cizhmolat/relay.protocol")
# what is built has code of these parts of the kit
PORTS = ("bytes", "clap", "http1", "httparse", "indexmap", "itoa", "memchr", "serde_json", "slab", "strsim", "thiserror",
         "unicode")
CONFIG = 'include("${CMAKE_CURRENT_LIST_DIR}/FindCizhmolat.cmake")\n'  # by which CMake finds the module where it is installed


class Made(NamedTuple):
    """What goes into the packages: the kinds of the program and the library, their sources, the version, the changelog's date in
    seconds, and the help of the installed mps with its orders."""
    program: str
    kind: str
    library: str
    library_kind: str
    sources: str
    version: str
    date: int
    help_text: str
    orders: list


class Layout(NamedTuple):
    """Where things are installed: the folder of all, in it those of the library and the modules, and that of the settings."""
    prefix: str
    library: str
    modules: str
    settings: str


DEBIAN = Layout("usr/", "lib/x86_64-linux-gnu", "lib/python3/dist-packages", "etc/cizhmolat")
LOCAL = Layout("usr/local/", "lib", "python", "usr/local/etc/cizhmolat")


def text_of(*parts):
    """The text of a file of the repository."""
    return ROOT.joinpath(*parts).read_text(encoding="utf-8")


def zipped(data):
    """The data as gzip has it, of no date."""
    return gzip.compress(data, 9, mtime=0)


# --- What is installed -------------------------------------------------------------------------------------------------

def imported(files):
    """The modules of tools that these files of Python import when they start, and those that these import."""
    found, work = set(), list(files)
    while work:
        for node in ast.parse(work.pop().read_text(encoding="utf-8")).body:
            names = [name.name for name in node.names] if isinstance(node, ast.Import) else [getattr(node, "module", "")]
            new = {path for path in (ROOT / "tools" / f"{name}.py" for name in names) if path.is_file()} - found
            found |= new
            work += new
    return sorted(found)


def of_program(made, layout):
    """What `mps` is made of, in lib/cizhmolat."""
    started = [ROOT / ("tools" if name.endswith(".py") else "examples") / name for name in RUN]
    of_sessions = [file for file in MODULES if file.stem in ("cizhmolat", "cizhmolat_embed")]
    of_recorder = sorted((ROOT / "recorder").glob("*.py"))
    for file in (ROOT / "mps", *started, *imported(started), *sorted((ROOT / "tools" / "story").iterdir()), *of_sessions, *of_recorder):
        yield f"lib/cizhmolat/{file.relative_to(ROOT)}", file.read_bytes()
    yield "lib/cizhmolat/mps_tool", pathlib.Path(made.program).read_bytes()
    yield "lib/cizhmolat/installed", f"{made.kind} {made.sources} {os.path.relpath(layout.library, 'lib/cizhmolat')}\n".encode()
    yield "bin/mps", "../lib/cizhmolat/mps"


def of_library(made, layout):
    """The library, with what compilers, pkg-config, CMake and Python find it by."""
    name, links = library.shared()
    for file, installed in zip(library.FILES, (library.FILES[0], name)):
        yield f"{layout.library}/{installed}", pathlib.Path(made.library, file).read_bytes()
    for link, target in links.items():
        yield f"{layout.library}/{link}", target
    header, find = (pathlib.Path(library.FOR_C, name) for name in library.BESIDE)
    yield f"include/{header.name}", header.read_bytes()
    yield f"{layout.library}/cmake/Cizhmolat/{find.name}", find.read_bytes()
    yield f"{layout.library}/cmake/Cizhmolat/CizhmolatConfig.cmake", CONFIG.encode()
    described = library.package(f"/{layout.prefix}", "${prefix}/" + layout.library, "${prefix}/include")
    yield f"{layout.library}/pkgconfig/{library.PACKAGE}", described.encode()
    for file in MODULES:
        yield f"{layout.modules}/{file.name}", file.read_bytes()


def of_pages(made):
    """The man pages, the completions, and the pages for users."""
    day = time.strftime("%Y-%m-%d", time.gmtime(made.date))
    for file, text in man_pages.pages(made.orders, made.help_text, text_of("docs", "FORMATS.md"), made.version, day):
        yield f"share/man/man{file[-1]}/{file}.gz", zipped(text.encode())
    yield "share/bash-completion/completions/mps", completions.bash(made.orders).encode()
    yield "share/zsh/vendor-completions/_mps", completions.zsh(made.orders).encode()
    yield "share/fish/vendor_completions.d/mps.fish", completions.fish(made.orders).encode()
    for name in PAGES:
        yield f"share/doc/{NAME}/docs/{name}.md", text_of("docs", f"{name}.md").encode()
    for file in sorted((ROOT / "examples" / "watching").iterdir()):
        yield f"share/doc/{NAME}/examples/watching/{file.name}", file.read_bytes()
    yield f"share/doc/{NAME}/changelog.gz", zipped(changelog().encode())
    yield f"share/doc/{NAME}/copyright", copyright_text().encode()
    kit = pathlib.Path(checked_build.page_folder(), "rattle")
    for file in sorted(file for port in PORTS for file in (kit / port).glob("LICENSE*")):
        yield f"share/doc/{NAME}/licences/{file.parent.name}-{file.name}", file.read_bytes()


def of_server(layout):
    """The units of systemd, and the settings of an instance."""
    for file in sorted(FROM.glob("*.service")):
        unit = file.read_text(encoding="utf-8").replace("BIN/", f"/{layout.prefix}bin/").replace("ETC/", f"/{layout.settings}/")
        yield f"{layout.prefix}lib/systemd/system/{file.name}", unit.encode()
    yield f"{layout.settings}/relay.env", (FROM / "relay.env").read_bytes()
    yield f"{layout.settings}/relay.protocol", text_of("examples", "relay.protocol").encode()


def tree(made, layout):
    """What is installed: for the path of each file its bytes, or the target of a link."""
    below = {**dict(of_program(made, layout)), **dict(of_library(made, layout)), **dict(of_pages(made))}
    return {**{f"{layout.prefix}{path}": content for path, content in below.items()}, **dict(of_server(layout))}


def copyright_text():
    """The file copyright, with the text of the licence."""
    _, whose, *text = text_of("LICENSE-MIT").strip().split("\n\n")
    within = "".join(f" {line or '.'}\n" for line in "\n\n".join(text).splitlines())
    whose = whose.replace("Copyright (c)", "Copyright:")
    return (FROM / "copyright").read_text(encoding="utf-8").replace("COPYRIGHT", whose).replace("MIT\n", within)


# --- The changelog -----------------------------------------------------------------------------------------------------

def versions():
    """The versions in the changelog, the newest first: the number, the date, and the lines."""
    for part in text_of("CHANGELOG.md").split("\n## ")[1:]:
        head, _, lines = part.partition("\n")
        number, _, day = head.partition(", ")
        if not re.fullmatch(r"\d{4}-\d\d-\d\d", day):
            raise building.Stopped(f"CHANGELOG.md has no day, such as 2026-11-30, after version {number}")
        yield number, calendar.timegm(time.strptime(day, "%Y-%m-%d")), re.findall("(?m)^- (.*)", lines)


def changelog():
    """The changelog as Debian has it."""
    parts = []
    for number, date, lines in versions():
        lines = [re.sub(r"\[([^]]*)\]\([^)]*\)", r"\1", line) for line in lines]
        form = {"width": 78, "initial_indent": "  * ", "subsequent_indent": "    ", "break_on_hyphens": False}
        told = "".join(f"{textwrap.fill(line, **form)}\n" for line in lines)
        day = time.strftime("%a, %d %b %Y %H:%M:%S +0000", time.gmtime(date))
        parts.append(f"{NAME} ({number}) unstable; urgency=medium\n\n{told}\n -- {MAINTAINER}  {day}\n")
    return "\n".join(parts)


# --- Archives ----------------------------------------------------------------------------------------------------------

def is_run(path):
    """Whether a file is made to be run."""
    return path.endswith(("/lib/cizhmolat/mps", "/mps_tool", "/examples/story", "/examples/picture", "install.sh", "prerm"))


def archive(files, date, root="./"):
    """A tar of these files in that folder, and of the folders above them, all root's."""
    entries = {f"{root}{path}": content for path, content in files.items()}
    for path in files:
        entries.update((os.path.join(root, folder).removesuffix("/."), None) for folder in pathlib.PurePath(path).parents)
    out = io.BytesIO()
    with tarfile.open(fileobj=out, mode="w", format=tarfile.GNU_FORMAT) as tar:
        for path, content in sorted(entries.items()):
            entry = tarfile.TarInfo(path)
            entry.mtime, entry.uname, entry.gname = date, "root", "root"
            entry.mode = 0o644 if isinstance(content, bytes) and not is_run(path) else 0o755
            if isinstance(content, bytes):
                entry.size = len(content)
            elif content is None:
                entry.type = tarfile.DIRTYPE
            else:
                entry.type, entry.linkname, entry.mode = tarfile.SYMTYPE, content, 0o777
            tar.addfile(entry, io.BytesIO(content) if isinstance(content, bytes) else None)
    return out.getvalue()


def described(made):
    """What the description says: README's first paragraph, and which program and library these are."""
    about = text_of("README.md").split("\n\n")[1]
    kinds = f"This package has the {made.kind} program, of the sources {made.sources}, and the {made.library_kind} library."
    return "\n .\n".join(textwrap.indent(textwrap.fill(part, 78), " ") for part in (about, kinds))


def control(made, files):
    """The files with which dpkg installs these files."""
    size = sum(-(-len(content) // 1024) if isinstance(content, bytes) else 1 for content in files.values())
    text = (f"Package: {NAME}\nVersion: {made.version}\nArchitecture: amd64\nMaintainer: {MAINTAINER}\nInstalled-Size: {size}\n"
            f"Depends: libc6 (>= 2.28), python3\nSuggests: postgresql, python3-psycopg2\nSection: net\nPriority: optional\nDescription: {SUMMARY}\n{described(made)}\n")
    sums = "".join(f"{hashlib.md5(content).hexdigest()}  {path}\n" for path, content in sorted(files.items())
                   if isinstance(content, bytes) and path not in CONFIGURED)
    settings = "".join(f"/{path}\n" for path in CONFIGURED)
    shlibs = f"libcizhmolat {library.NUMBER} {NAME} (>= {made.version})\n"
    return {"control": text.encode(), "md5sums": sums.encode(), "conffiles": settings.encode(),
            "triggers": b"activate-noawait ldconfig\n", "shlibs": shlibs.encode(), "prerm": (FROM / "prerm").read_bytes()}


def debian(made):
    """The package for Debian: an ar of the form's version, the control files and the files, as deb(5) has it."""
    files = tree(made, DEBIAN)
    members = {"debian-binary": b"2.0\n", "control.tar.xz": lzma.compress(archive(control(made, files), made.date)),
               "data.tar.xz": lzma.compress(archive(files, made.date))}
    out = b"!<arch>\n"
    for name, content in members.items():
        head = f"{name:<16}{made.date:<12}{0:<6}{0:<6}{100644:<8}{len(content):<10}`\n"
        out += head.encode() + content + b"\n" * (len(content) % 2)
    return out


def local(made):
    """The tar.gz, with install.sh and, in files, what it installs."""
    files = {f"files/{path.removeprefix(LOCAL.prefix)}": content for path, content in tree(made, LOCAL).items()}
    files["install.sh"] = (FROM / "install.sh").read_bytes()
    return zipped(archive(files, made.date, f"{NAME}-{made.version}-x86_64/"))


def stripped(place, folder, words):
    """A copy of a file without what only debuggers read."""
    there = os.path.join(folder, os.path.basename(place))
    library.run("strip", *words, "-o", there, place)
    return there


def make(folder, program, sources, help_text, uses):
    """Makes both packages in a folder, of that program; what they have, and where they then stand."""
    library_kind, there, _ = building.made_library()
    version = manual.said([program, "--version"]).split()[1]
    newest, date, _ = next(versions())
    if newest != version:
        raise building.Stopped(f"the program is of version {version}, and CHANGELOG.md's newest is {newest}")
    try:
        with tempfile.TemporaryDirectory(prefix="mps-package-") as room, Progress("packages", 2) as progress:
            for name, words in zip(library.FILES, (["--strip-debug"], ["--strip-unneeded"])):
                stripped(os.path.join(there, name), room, words)
            made = Made(stripped(program, room, []), built(sources)[0], room, library_kind, sources, version, date, help_text,
                        manual.orders(program, TOOLS, help_text, uses))
            files = {}
            for name, packed in ((f"{NAME}_{version}_amd64.deb", debian), (f"{NAME}-{version}-x86_64.tar.gz", local)):
                files[name] = packed(made)
                progress.done += 1
    except (library.NotMade, checked_build.NotAsExpected) as reason:
        raise building.Stopped(f"the packages can't be made: {reason}") from reason
    places = [f"{made.kind} program and {library_kind} library of version {version}"]
    try:
        os.makedirs(folder, exist_ok=True)
        for name, content in files.items():
            places.append(os.path.join(folder, name))
            pathlib.Path(places[-1]).write_bytes(content)
    except OSError as error:
        raise building.Stopped(f"{folder} can't be written: {error.strerror}") from error
    return "".join(f"{line}\n" for line in places)
