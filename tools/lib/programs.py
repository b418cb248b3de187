"""The programs that were built, and the stack that they get."""

import glob
import os
import resource
import subprocess
import sys

from lib.repository import ROOT

# Cases may nest deep, and the levels of a program that is not proved take more stack.
UNPROVED_STACK = 1 << 30


def add_options(parser, crate):
    """Adds the options that choose the program of a crate."""
    choice = parser.add_mutually_exclusive_group()
    choice.add_argument("--program", metavar="PATH", help=f"asks this one in place of crates/{crate}/out/{crate}, where the gate leaves it")
    if crate == "jpath":
        choice.add_argument("--unproved", action="store_true", help="asks the one that ./jpath makes without a proof")


def chosen(options, crate):
    """Returns the path of the program that the options choose."""
    return unproved() if getattr(options, "unproved", False) else built(crate, options.program)


def built(crate, named=None):
    """Returns the path of a program: the one that is named, or the one that the gate leaves in `out` of its crate, for jpath also ./prove."""
    program = os.path.abspath(named) if named else f"{ROOT}/crates/{crate}/out/{crate}"
    if not os.access(program, os.X_OK):
        sys.exit(f"tools/check: no program lies at {program}; .ci/run makes that of each crate, ./prove that of jpath")
    return program


def unproved():
    """Returns the path of the program that ./jpath makes without a proof. Where it finds more wrong than a proved one would, its status is 125."""
    subprocess.run([f"{ROOT}/jpath", "paths", "$"], input=b"0", stdout=subprocess.DEVNULL, check=True)
    made = sorted(glob.glob(f"{ROOT}/crates/jpath/out/unproved/jpath-*"), key=os.path.getmtime)
    if not made:
        sys.exit("tools/check: ./jpath runs the proved program, or keeps the unproved one elsewhere: name it by --program")
    os.environ["ASAN_OPTIONS"] = "exitcode=125:detect_leaks=0:allocator_may_return_null=1"
    raise_stack(UNPROVED_STACK)
    return made[-1]


def raise_stack(most=resource.RLIM_INFINITY):
    """Gives this process and those that it starts a stack of `most` bytes, or of all that are allowed where these are fewer."""
    allowed = resource.getrlimit(resource.RLIMIT_STACK)[1]
    size = min([it for it in (most, allowed) if it != resource.RLIM_INFINITY], default=resource.RLIM_INFINITY)
    resource.setrlimit(resource.RLIMIT_STACK, (size, allowed))
