"""Tells the memory that the kit plans for the proof of each crate, in GB, and fails where a crate is above its limit.

Where a library of the kit is not found, that is printed, and its size is not counted. The plan of a crate above it is then a lower bound,
'at least'. Where that is above the limit, this fails. Where it is not, this says that the answer is not known, and does not fail.

Two processors for jsonpath_rust want 1.6 times its plan, of 0.85 of the free memory (21.2 GB on a machine of 24 GiB), and nothing else ready or
at work: so jsonpath_base has to leave room for its own tests beside its proof. The kit counts a GB, 1 MB a line of `.rt`, 0.2 MB a line of
`.antt`, 0.08 MB a line of `.rt` of the crates below, and five times the size of the kit's libraries that are named (`rattle-kit-13f`).
"""

import os
import subprocess

from lib.repository import ROOT, below, crates_of

LIMITS = {"jsonpath_rust": 13.2, "jsonpath_base": 10.7}


def run(_options):
    """Tells the plan of each crate, and returns the status."""
    place, told, status = kit(), [], 0
    for crate in crates_of(ROOT):
        planned, missing = plan(crate, place)
        for file in [it for it in missing if it not in told]:
            print(f"plan: {file} is not there: its size is not counted")
            told.append(file)
        limit = LIMITS.get(crate)
        is_above = limit is not None and planned > limit
        verdict = ": above the limit" if is_above else ": whether it is within the limit is not known" if missing else ""
        print(f"plan of {crate}: {'at least ' if missing else ''}{planned:.2f} GB" + (f", of {limit}{verdict}" if limit else ""))
        status = 1 if is_above else status
    return status


def kit():
    """Returns the folder of the kit: that of the page that `rt doc` names, or the one above; the words `the kit` where it names none."""
    try:
        told = subprocess.run(["rt", "doc"], stdin=subprocess.DEVNULL, capture_output=True, text=True, check=True)
    except (OSError, subprocess.CalledProcessError):
        return "the kit"
    folder = os.path.dirname(told.stdout.strip())
    above = os.path.dirname(folder)
    return above if os.path.isdir(f"{above}/rlibs") and not os.path.isdir(f"{folder}/rlibs") else folder or "the kit"


def lines_of(crate, ending):
    """Returns how many lines the files of a crate with this ending have, but for what was built."""
    found = 0
    for path, folders, files in os.walk(f"{ROOT}/crates/{crate}"):
        folders[:] = [it for it in folders if it != "out"]
        for file in [it for it in files if it.endswith(ending)]:
            with open(os.path.join(path, file), "rb") as content:
                found += content.read().count(b"\n")
    return found


def plan(crate, place):
    """Returns what the kit at that place plans for the proof of a crate, in GB, and the files of its libraries that are not there."""
    crates, others = crates_of(ROOT), below(ROOT, crate)
    libraries = {it for name in [crate, *others] for it in crates[name] if it not in crates} - {"io", "libc", "os"}
    files = sorted(f"{place}/rlibs/{it}.rlib/toolchain/checked.a" for it in libraries)
    missing = [it for it in files if not os.path.isfile(it)]
    loaded = sum(os.path.getsize(it) for it in files if it not in missing)
    lines = lines_of(crate, ".rt") + 0.2 * lines_of(crate, ".antt") + 0.08 * sum(lines_of(it, ".rt") for it in others)
    return 1 + lines / 1000 + min(5 * loaded, 2_500_000_000) / 1e9, missing
