"""bench: runs a script on the program, and notes what is wrong."""
import program
import reference
from fast import FastRoom
from scripts import script


class Bench:
    """The program, and what was found to be wrong."""

    def __init__(self, mps):
        self.mps, self.case, self.runs, self.faults = mps, "", 0, []

    def fault(self, told, order, *texts):
        """Notes what is wrong, and keeps the files."""
        kept = program.keep(f"long.{self.case}.{len(self.faults)}", order, texts)
        self.faults.append(f"{self.case}: {kept}:\n{told}")
        print(self.faults[-1], flush=True)

    def agrees(self, protocol, *lines):
        """Runs a script, of lines or of bytes, and compares what is answered with the reference; gives the answers."""
        text = lines[0] if isinstance(lines[0], bytes) else script(*lines)
        self.runs += 1
        wanted, found = reference.run(protocol, text, FastRoom), self.mps.order("run", protocol, text)
        if wanted != found:
            self.fault(program.first_difference(wanted, found), "run", protocol, text)
        return answers_in(found.out, len(lines))

    def answers(self, protocol, *lines):
        """The answers to a script, which has to run to its end; the reference isn't asked."""
        self.runs += 1
        found = self.mps.order("run", protocol, script(*lines))
        if found.status or found.fault or found.out.count(b"\n") != len(lines):
            told = f"{found.status}, {found.fault!r} and {found.out.count(10)} answers to {len(lines)} lines"
            self.fault(f"  ended with {told}", "run", protocol, script(*lines))
        return answers_in(found.out, len(lines))

    def holds(self, claim, told, protocol, *lines):
        """Notes that a claim doesn't hold of this script."""
        if not claim:
            self.fault(f"  {told}", "run", protocol, script(*lines))


def answers_in(out, count):
    """The answers in an output, with an empty one for each that is missing."""
    found = out.decode("latin-1").split("\n")[:-1]
    return found + [""] * (count - len(found))
