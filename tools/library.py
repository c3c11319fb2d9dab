"""library: makes libcizhmolat.a and libcizhmolat.so of the exports of mps_c, and puts them where they are wanted, with their header and
what CMake and pkg-config find them by.

Both have the few functions of the kit's C code by which memory and files are asked for, and need nothing but the C library. Nothing
but the exports can be named by who links them. The kit has the linker; objcopy is one of the binutils."""
import os
import re
import shutil
import subprocess
import tempfile

import checked_build
from sources import HOME

CRATE = "mps_c"
FILES = ("libcizhmolat.a", "libcizhmolat.so")
NUMBER = 0  # of the calls, which is another one where programs that were linked with the shared library have to be linked anew
SONAME = f"{FILES[1]}.{NUMBER}"  # by which these programs find it
FOR_C = os.path.join(HOME, "bindings", "c")
BESIDE = ("cizhmolat.h", "FindCizhmolat.cmake")  # of that folder, beside the library
PACKAGE = "cizhmolat.pc"  # what pkg-config reads, made from the file with .in behind its name


class NotMade(Exception):
    """Why the library can't be linked."""


def exports():
    """The names of the exports."""
    with open(os.path.join(HOME, "crates", CRATE, "src", "lib.rt"), encoding="utf-8") as file:
        return checked_build.EXPORT.findall(file.read())


def make_checked(crates, out):
    """Makes the library without proofs, in the folder out."""
    with tempfile.TemporaryDirectory(prefix="mps-build-") as work:
        made = os.path.join(work, "exports.o")
        checked_build.build_exports(HOME, CRATE, crates, made)
        make(made, out)


def make_proved(out):
    """Makes the library of the crates as they were proved, in the folder out."""
    make(os.path.join(HOME, "crates", CRATE, "out", f"lib{CRATE}.a"), out)


def make(code, out):
    """Makes the library of an object file or an archive, in the folder out, which comes to its place whole or not at all."""
    beside = f"{out}.{os.getpid()}"
    os.makedirs(beside)
    try:
        link(checked_build.page_folder(), code, beside)
        os.replace(beside, out)
    except checked_build.NotAsExpected as error:
        raise NotMade(str(error)) from error
    finally:
        shutil.rmtree(beside, ignore_errors=True)


def link(kit, code, folder):
    """Links the code to an archive and a shared library in that folder."""
    tools = os.path.join(kit, "toolchain", "bin")
    archive, shared = (os.path.join(folder, name) for name in FILES)
    with tempfile.TemporaryDirectory(prefix="mps-link-") as work:
        whole, names, versions = (os.path.join(work, name) for name in ("cizhmolat.o", "names", "versions"))
        with open(names, "w", encoding="ascii") as file:
            file.writelines(f"{name}\n" for name in exports())
        with open(versions, "w", encoding="ascii") as file:
            file.write("{ global: " + " ".join(f"{name};" for name in exports()) + " local: *; };\n")
        run(f"{tools}/ld.lld", "-r", "-o", f"{whole}.all", "--whole-archive", code, "--no-whole-archive", f"{kit}/c/liblibc_c.a", f"{kit}/c/libos_c.a")
        run("objcopy", f"--keep-global-symbols={names}", f"{whole}.all", whole)
        run(f"{tools}/llvm-ar", "rcs", archive, whole)
        run(f"{tools}/ld.lld", "-shared", "-soname", SONAME, "--version-script", versions, "--gc-sections", "--no-undefined",
            "-z", "now", "-z", "relro", "-z", "noexecstack", "-o", shared, whole, f"{kit}/toolchain/lib/libc.so.6")


def run(*words):
    """Runs a tool."""
    try:
        ran = subprocess.run(words, stdin=subprocess.DEVNULL, stdout=subprocess.PIPE, stderr=subprocess.STDOUT, text=True,
                             errors="replace", check=False)
    except FileNotFoundError as error:
        raise NotMade(f"there is no {words[0]}, which is one of the binutils") from error
    if ran.returncode:
        raise NotMade(f"{os.path.basename(words[0])} ended with {ran.returncode}: {ran.stdout[:400]}")


def version():
    """The library's version, that of the crate for Rust."""
    with open(os.path.join(HOME, "bindings", "rust", "Cargo.toml"), encoding="utf-8") as file:
        return re.search('(?m)^version = "(.*)"$', file.read())[1]


def shared():
    """How the shared library's file is called, by its version, and the links to it, each with its target: that for programs,
    and that for linkers."""
    name = f"{FILES[1]}.{version()}"
    return name, {SONAME: name, FILES[1]: SONAME}


def package(folder, library="${prefix}", header="${prefix}"):
    """What pkg-config reads of the library in that folder, or in these below it."""
    with open(os.path.join(FOR_C, f"{PACKAGE}.in"), encoding="utf-8") as file:
        text = file.read()
    # where a `$` isn't doubled a variable follows it
    text = text.replace("@PREFIX@", os.path.abspath(folder).replace("$", "$$")).replace("@VERSION@", version())
    return text.replace("@LIBRARY@", library).replace("@HEADER@", header)


def put(made, folder):
    """Copies the library into a folder, which is made if need be, with its header and what CMake and pkg-config find it by, and says
    where they then stand."""
    os.makedirs(folder, exist_ok=True)
    with tempfile.TemporaryDirectory(prefix="mps-package-") as work:
        described = os.path.join(work, PACKAGE)
        with open(described, "w", encoding="utf-8") as file:
            file.write(package(folder))
        name, links = shared()
        files = dict(zip((FILES[0], name), (os.path.join(made, file) for file in FILES)))
        files.update((os.path.basename(file), file) for file in (*(os.path.join(FOR_C, name) for name in BESIDE), described))
        for name, file in files.items():
            checked_build.put(file, os.path.join(folder, name))
    for name, target in links.items():
        link_to(target, os.path.join(folder, name))
    return [os.path.join(folder, name) for name in (*files, *links)]


def link_to(target, there):
    """Makes a link to a file beside it, which comes to its place as that of a file would."""
    beside = f"{there}.{os.getpid()}"
    try:
        os.symlink(target, beside)
        os.replace(beside, there)
    finally:
        if os.path.lexists(beside):
            os.remove(beside)
