"""Asks the program `cases` its cases that hold a word, one by one, before anything is proved.

They are in crates/cases/stdin; `tools/check runs --unproved` asks those of `jpath`. `rt try` makes the program, in some minutes. Under the number
of the line of a case that does not hold is what it wants, and what came. The last line counts the cases, and the status is 0 only where all hold.
"""

import subprocess
import tempfile

from lib.cases import cases_of
from lib.programs import UNPROVED_STACK, raise_stack
from lib.repository import ROOT, write


def add_arguments(parser):
    """Adds the arguments of this check."""
    parser.add_argument("word", nargs="?", default="", help="what a case has to hold; without it all are asked")


def run(options):
    """Asks the cases, and returns the status."""
    raise_stack(UNPROVED_STACK)
    crate = f"{ROOT}/crates/cases"
    with tempfile.TemporaryDirectory(prefix="check-cases-") as folder:
        for number, line in cases_of(f"{crate}/stdin"):
            if options.word in line:
                write(f"{folder}/line_{number}", f"{line}\n")
                write(f"{folder}/line_{number}.stdout", "1 of 1 cases hold\n")
        # (the interpreter, which rt try asks too, is for smaller programs)
        return subprocess.run(["rt", "try", "--steps", "1", "--cases", folder], cwd=crate, check=False).returncode
