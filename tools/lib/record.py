"""The record of a trial of promises: what it rests on, and what it has to hold.

For each crate it has a line with the checksum of what the trial rests on, a line for each mutant with the goals that were denied, and one for each
control that it was not refused. A crate's part that lacks a line, or has one without its goals, holds nothing. The line `made at` tells a reader
of which commit and with which kit the trial was made. The checksum has neither, so the record holds on a machine with another kit.
"""

import hashlib
import os
import re
import subprocess

from lib.repository import ROOT, below, files_of, lines_of_crates, read, write

# The files that try mutants and judge what came of them.
JUDGE = ["checks/mutants.py", *[f"lib/{name}.py" for name in ("mutant_lists", "record", "repository", "trial", "verdicts")]]
JUDGE = [os.path.join("tools", name) for name in JUDGE]
# The parts of a source file that are proved: each text and character, as a text may look like a comment; and a comment.
PARTS = {
    ".rt": re.compile(r'"(?:\\.|[^"\\])*"|\br(#*)".*?"\1|\'(?:\\[^\']+|\\\'|[^\'\\])\'|(//[^\n]*|/\*.*?\*/)', re.S),
    ".antt": re.compile(r'"(?:\\.|[^"\\])*"|()((?:^|(?<=\s))--(?=[\s-]|$)[^\n]*)', re.S | re.M),
}


def without_comments(name, text):
    """Returns the text of a source file without its comments and its blank lines, which nothing proves."""
    parts = PARTS.get(os.path.splitext(name)[1])
    if parts:
        text = parts.sub(lambda part: "" if part[2] else part[0].replace("\n", "\\n"), text)
    return "\n".join(line.rstrip() for line in text.splitlines() if line.strip())


def kit():
    """Returns what the kit says that it is."""
    return subprocess.run(["rt", "version"], stdin=subprocess.DEVNULL, capture_output=True, text=True, check=True).stdout.strip()


def made_at(crate, mutants):
    """Returns the line that tells of which commit and with which kit a trial is made."""
    files = [f"crates/{name}/{part}" for name in [crate, *below(ROOT, crate)] for part in ("src", "specs", "proofs")]
    files += ["crates.txt", *JUDGE, *{os.path.relpath(it.path, ROOT) for it in mutants}]
    how = {"cwd": ROOT, "capture_output": True, "text": True}
    changed = subprocess.run(["git", "status", "--porcelain", "--untracked-files=all", "--", *files], check=True, **how).stdout
    commit = subprocess.run(["git", "rev-parse", "--short=8", "--verify", "--quiet", "HEAD"], check=False, **how).stdout.strip()
    return f"  made at {'an uncommitted tree' if changed or not commit else commit} with {kit()}"


def sum_of(root, crate, mutants):
    """Returns the checksum of what a trial of these mutants of a crate rests on, in a copy of the repository: the mutants; the sources of the
    crate; of the crates below, what can be cited from above, which is all but the proofs of their functions; their lines of crates.txt; and the
    judge."""
    others = below(root, crate)
    own = re.compile(rf"crates/{crate}/(?:src|specs|proofs)/")
    cited = re.compile(rf"crates/(?:{'|'.join(others)})/(?:src/|specs/|proofs/(?:laws/.*/)?[^/]*$|proofs/laws/)")
    total = hashlib.sha256()
    for name, line in lines_of_crates(root).items():
        if name == crate or name in others:
            total.update(f"{line}\n".encode())
    for file in JUDGE:
        total.update(hashlib.sha256(read(os.path.join(ROOT, file)).encode()).digest())
    for it in mutants:
        total.update(repr((it.name, it.pairs, it.denies, it.control and it.control.pairs)).encode())
    for name in files_of(root):
        if own.match(name) or (others and cited.match(name)):
            text = without_comments(name, read(os.path.join(root, name)))
            total.update(f"{hashlib.sha256(text.encode()).hexdigest()}  {name}\n".encode())
    return total.hexdigest()


class Record:
    """The parts of the record, by crate: the checksum, and the lines below it."""

    def __init__(self, path):
        self.path, self.parts = path, {}
        for line in read(path).splitlines() if os.path.isfile(path) else []:
            if line.startswith("  "):
                [*self.parts.values()][-1][1].append(line)
            else:
                crate, _, total = line.partition(" ")
                self.parts[crate] = total, []

    def holds(self, crate, total, mutants):
        """Returns whether it tells of a trial of these mutants, of what has that checksum, in which each was refused and no control was."""
        told, lines = self.parts.get(crate, ("", []))
        lines = [line for line in lines if not line.startswith("  made at ")]
        forms = [rf"  refused: {it.name}: \S.* \(by \w+\)" for it in mutants]
        forms += [rf"  not refused: the control of {it.name}: \S.*" for it in mutants if it.control]
        return told == total and len(lines) == len(forms) and all(any(re.fullmatch(form, line) for line in lines) for form in forms)

    def write(self, crates):
        """Writes the parts of these crates, in this order, and no other."""
        lines = [line for crate in crates if crate in self.parts for line in (f"{crate} {self.parts[crate][0]}", *self.parts[crate][1])]
        write(f"{self.path}.new", "".join(f"{line}\n" for line in lines))
        os.replace(f"{self.path}.new", self.path)
