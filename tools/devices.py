"""Builds tests/devices.c, by which tests refuse memory and cut what is read and written."""
import os
import subprocess

import checked_build
from sources import HOME


def build():
    """The library that is loaded before the program under test. It takes a moment, so it is built anew each time."""
    made = os.path.join(HOME, "out", "devices.so")
    os.makedirs(os.path.dirname(made), exist_ok=True)
    beside = f"{made}.{os.getpid()}"
    subprocess.run([f"{checked_build.kit_folder()}/toolchain/bin/clang", "-shared", "-fPIC", "-O1", "-nostdlib", "-fuse-ld=lld",
                    "-o", beside, os.path.join(HOME, "tests", "devices.c")], check=True)
    os.replace(beside, made)
    return made
