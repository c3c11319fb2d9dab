"""api: writes a role's part of a protocol as classes, by which a type checker or a compiler finds what the protocol doesn't allow."""
import api_python
import api_rust
import explain
import output
from protocols import Fault, load
from states import Unfit

LANGUAGES = {"python": api_python.module, "rust": api_rust.module}


def run(full, language, file, role, *slots):
    """Writes the classes for a role of the protocol in the file, and gives the exit status: 3 where the protocol is refused under full
    or plain merging, which is told and explained, and 2 where the words are wrong."""
    try:
        with open(file, "rb") as protocol:
            text = protocol.read()
    except OSError as error:
        output.tell(f"refused file {file}\n{error.strerror} (os error {error.errno})\n")
        return 2
    try:
        roles = load(text, full)
        if role not in roles:
            raise Unfit(f"the protocol has no role {role}: it has {' '.join(roles)}")
        output.write(LANGUAGES[language](text, role, slots, full))
        return 0
    except Fault as fault:
        line = f"{fault.line}\n".encode()
        output.tell(line + explain.told_of(file, line, full=full))
        return fault.status
    except Unfit as unfit:
        output.tell(f"mps api: {unfit}\n")
        return 2
