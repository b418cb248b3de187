"""The mutants of the crates: functions changed to return something else, which the prover has to refuse.

The list `crates/CRATE/mutants` has an entry for each, with a blank line between two entries. A line is a word and what it says:

    mutant: whole_without_elements          its name, which tells the lie
    promise                                 where it stands for a promise
    file: src/value.rt                      a file of the crate
    old:         !self.items_whole(items)   a text of one line that is once in that file, with its blanks
    new:         false                      the text in its place
    denies: -clause-numbers                 a part of the name of a goal that has to be denied

More pairs of `old` and `new`, under a `file` of their own or the last one, apply to what the earlier ones made. An entry that begins with
`control: NAME` is the control of that mutant: the same change with the right meaning. A file `crates/CRATE/must-fail/NAME.edit`, which
`rt ci` tries too, has the lines `file`, `old` and `new` of one mutant.
"""

import dataclasses
import glob
import os
import sys

from lib.repository import read
from lib.verdicts import OUTSIDE, function_at


@dataclasses.dataclass(eq=False)
class Mutant:
    """A wrong body: texts of files, and what is in their place; or the control of one, whose own control is None."""

    crate: str
    name: str
    path: str
    pairs: list = dataclasses.field(default_factory=list)
    denies: str = ""
    is_promise: bool = False
    control: "Mutant | None" = None

    def read(self, lines):
        """Takes what the lines of its entry say; returns what is wrong with them, or None."""
        file = old = None
        for line in lines:
            word, _, rest = line.partition(": ")
            if word == "file":
                file = rest
            elif word == "old" and file and old is None:
                old = rest
            elif word == "new" and old is not None:
                self.pairs.append((file, old, rest))
                old = None
            elif word == "denies":
                self.denies = rest
            elif line == "promise":
                self.is_promise = True
            else:
                return line
        return None if self.pairs and old is None else "an `old` with its `new` is missing"

    def applied(self, text_of):
        """Returns the texts that it makes of files, and the functions that it changes, by file, or OUTSIDE; None where it cannot be applied."""
        texts, changed = {}, set()
        for file, old, new in self.pairs:
            text = texts.get(file) or text_of(file)
            if text is None or text.count(old) != 1:
                return None
            at = text.index(old)
            changed.add((file, function_at(text, at + len(old))))
            texts[file] = text[:at] + new + text[at + len(old) :]
        return texts, {it for it in changed if it[1] != OUTSIDE} or {OUTSIDE}


def entries_of(path, first=""):
    """Returns the entries of a file, as lists of lines, without comments; this line is put in front."""
    parts = (first + read(path)).split("\n\n")
    entries = ([line for line in part.split("\n") if line and not line.startswith("#")] for part in parts)
    return [entry for entry in entries if entry]


def mutants_of(root, crate):
    """Returns the mutants of a crate, by name. A file that is no list of mutants ends the program."""
    found = {}
    folder = os.path.join(root, "crates", crate)
    files = [(path, f"mutant: {os.path.basename(path)[:-5]}\n") for path in sorted(glob.glob(f"{folder}/must-fail/*.edit"))]
    files += [(path, "") for path in glob.glob(f"{folder}/mutants")]
    for path, first in files:
        for head, *lines in entries_of(path, first):
            word, _, name = head.partition(": ")
            mutant = Mutant(crate, name, path)
            wrong = mutant.read(lines)
            if word == "mutant" and name not in found and not wrong:
                found[name] = mutant
            elif word == "control" and name in found and found[name].control is None and not wrong:
                found[name].control = mutant
            else:
                sys.exit(f"{path}: no entry of a mutant: {head}: {wrong or 'its name'}")
    return found


def with_controls(mutants):
    """Returns each mutant, and behind it its control."""
    return [it for mutant in mutants for it in (mutant, mutant.control) if it]
