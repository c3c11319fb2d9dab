# SPDX-License-Identifier: MIT OR Apache-2.0
"""backend: how pip makes the wheel of this folder, as PEP 517 has it. It needs nothing but Python, so no net.

In the wheel are cizhmolat_embed.py, cizhmolat.py and cizhmolat_states.py of clients/python, and libcizhmolat.so, which
`./mps library lib` makes at the top of the clone: of the folder that the environment's CIZHMOLAT_DIR names, or of that lib."""
from __future__ import annotations

import base64
import hashlib
import os
import re
import sys
import zipfile
from pathlib import Path
from typing import NoReturn

HERE = Path(__file__).resolve().parent
HOME = HERE.parent.parent
TAG = "py3-none-linux_x86_64"  # the library is no other machine's
WHEEL = f"Wheel-Version: 1.0\nGenerator: backend\nRoot-Is-Purelib: false\nTag: {TAG}\n"


def build_wheel(wheel_directory: str, config_settings: object = None, metadata_directory: str | None = None) -> str:
    """Makes the wheel in that folder, and gives the name of its file."""
    project = dict(re.findall(r'(?m)^([a-z-]+) = "(.*)"$', (HERE / "pyproject.toml").read_text(encoding="utf-8")))
    stem = f"{project['name']}-{project['version']}"
    about = (f"Metadata-Version: 2.1\nName: {project['name']}\nVersion: {project['version']}\nSummary: {project['description']}\n"
             f"License: {project['license']}\nRequires-Python: {project['requires-python']}\n")
    parts = {file.name: file.read_bytes() for file in sources()}
    parts.update({f"{stem}.dist-info/{file.name}": file.read_bytes() for file in sorted(HOME.glob("LICENSE-*"))})
    parts.update({f"{stem}.dist-info/{name}": text.encode() for name, text in (("METADATA", about), ("WHEEL", WHEEL))})
    record = "".join(f"{name},sha256={digest(part)},{len(part)}\n" for name, part in parts.items())
    parts[f"{stem}.dist-info/RECORD"] = f"{record}{stem}.dist-info/RECORD,,\n".encode()
    with zipfile.ZipFile(Path(wheel_directory) / f"{stem}-{TAG}.whl", "w", zipfile.ZIP_DEFLATED) as wheel:
        for name, part in parts.items():
            wheel.writestr(name, part)
    return f"{stem}-{TAG}.whl"


def build_sdist(sdist_directory: str, config_settings: object = None) -> NoReturn:
    """There is none: half of what is installed stands elsewhere in the clone."""
    sys.exit("cizhmolat-embed is installed from a clone of its repository, and has no source distribution")


def sources() -> list[Path]:
    """The files that are installed, each of which has to be there."""
    folder = Path(os.environ.get("CIZHMOLAT_DIR") or HOME / "lib")
    if not folder.is_absolute():
        sys.exit(f"CIZHMOLAT_DIR is {folder}, and has to be an absolute path")
    clients = HOME / "clients" / "python"
    *modules, library = [HERE / "cizhmolat_embed.py", clients / "cizhmolat.py", clients / "cizhmolat_states.py", folder / "libcizhmolat.so"]
    for file in modules:
        if not file.is_file():
            sys.exit(f"there is no {file}: install from a clone of the repository of Cizhmolat")
    if not library.is_file():
        sys.exit(f"{folder} has no libcizhmolat.so: make it by `./mps library lib` at the top of the clone, or set CIZHMOLAT_DIR "
                 "to the folder that has it")
    return [*modules, library]


def digest(part: bytes) -> str:
    """The hash of a part, as a RECORD has it."""
    return base64.urlsafe_b64encode(hashlib.sha256(part).digest()).rstrip(b"=").decode()
