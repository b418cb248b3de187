"""What `rt check` says of a mutant, and what of it counts as a refusal.

A goal of a function that a mutant changes is denied

  by values  where the check finds values at which it is false;
  by search  where the search finds no proof of it and the function has lost no stored answer, so that none stood for this goal before: a
             condition is a part of a goal's name, and the answer for a goal under another name is lost;
  by answer  where the answer that is stored for it no longer fits, if the mutant has a control, the same change with the right meaning, of
             which the check proves all goals: so it is the meaning that does not fit, and not the shape.
"""

import os
import re
import subprocess

from lib.repository import read

VALUES, SEARCH, ANSWER = "by values", "by search", "by answer"
OUTSIDE = ("", 0)
HEAD = re.compile(r"^([ \t]*)(?:pub(?:\([a-z]+\))?[ \t]+)?(?:const[ \t]+)?fn[ \t]+(\w+)", re.M)
# The lines of `rt check`, their paths without `./`: where the source is not compiled; a goal that the search found no proof for, behind the place in
# the source that asks for it; a goal for which it found values at which it is false, and the proof file that would have its answer; and what is wrong
# in a proof file.
NOT_COMPILED = r"(?:error: )?(src/[^:]+):(\d+):\d+: error"
OPEN_GOAL = r"note: (src/[^:]+):(\d+):\d+: it is not proved .*?\(`([^`]+)`\)"
FALSE_GOAL = r"note: `([^`]+)` of (proofs/\S+) may be false: "
WRONG_PROOF = r"(proofs/[^:]+):\d+:\d+: error: (?:`([^`]+)`: )?(.*)"
# What the prover says of a proof that names what the source no longer gives, and of one of a goal that is no longer asked.
GONE = re.compile(r"has no field|is not in scope|has no `|was not admitted")


def function_at(text, at):
    """Returns the name of the function that a place of a source file is in, and how many of that name are before it; OUTSIDE where it is in none."""
    heads = list(HEAD.finditer(text, 0, at))
    if not heads or re.search(rf"^{heads[-1][1]}\}}", text[heads[-1].end() : at], re.M):
        return OUTSIDE
    names = [head[2] for head in heads]
    return names[-1], names[:-1].count(names[-1])


def span(text, function):
    """Returns the lines of a function: from its head, and the attributes on it, to the next one's."""
    name, before = function
    heads = list(HEAD.finditer(text))
    found = [i for i, head in enumerate(heads) if head[2] == name]
    if before >= len(found):
        return range(0)
    at = found[before]
    first = text.count("\n", 0, heads[at].start()) + 1
    lines = text.splitlines()
    while first > 1 and lines[first - 2].lstrip().startswith("#["):
        first -= 1
    behind = heads[at + 1].start() if at + 1 < len(heads) else len(text)
    return range(first, text.count("\n", 0, behind) + 1)


def stored_names(folder):
    """Returns the names of functions of a crate that have a proof file, and of those in a cycle that have a goal in its file."""
    names = set()
    for at, _, files in os.walk(os.path.join(folder, "proofs")):
        names.add(os.path.basename(at).lstrip("+"))
        for file in files if os.path.basename(at).startswith("+") else []:
            names |= set(re.findall(r"^(?:abbrev )?pub (?:invariant-|decreases-)?(?:\w+::)*(\w+)", read(os.path.join(at, file)), re.M))
    return names


class Check:
    """What `rt check` says of a crate."""

    def __init__(self, folder, *flags):
        ran = subprocess.run(["rt", "check", *flags], cwd=folder, stdin=subprocess.DEVNULL, capture_output=True, text=True)
        self.lines = [re.sub(r"^so far: |(?<![^ ])\./", "", line) for line in (ran.stdout + ran.stderr).splitlines()]
        self.proved = any(line.startswith("logic=proved") for line in self.lines)
        self.reached = self.proved or any(line.startswith("logic=not-proved") for line in self.lines)

    def found(self, form):
        """Yields what this form finds in each of the lines that begin with it."""
        return (said.groups() for line in self.lines for said in [re.match(form, line)] if said)

    def proves(self, function):
        """Returns whether it proved what bears that name."""
        said = [how for name, how in self.found(r"fn (\S+): (.+)") if name.split("::")[-1] == function]
        return self.proved or (bool(said) and all(how == "proved" for how in said))


def is_proof_of(function, file, goal):
    """Returns whether what is in a proof file is the function's: by the file's folder or, in that of a cycle, by the goal's name."""
    folder = os.path.basename(os.path.dirname(file))
    own = re.match(r"(?:invariant-|decreases-)?(?:\w+::)*(\w+)", goal)
    if not folder.startswith("+"):
        return folder == function
    # In a cycle of one function its goals begin with what they are.
    return own is not None and (own[1] == function or (folder == f"+{function}" and own[1] in ("returns", "loop")))


class Outcome:
    """What came of a mutant: the goals that the check denies, each with how; where there is none, whether it proves all that the mutant changes."""

    def __init__(self, said, denied=(), proved=False):
        self.said, self.denied, self.proved = said, [*denied], proved

    def refused_by(self, control):
        """Returns the goals that count, given the outcome of the mutant's control, or None where it has none."""
        fits = control is not None and control.proved
        return [(goal, how) for goal, how in self.denied if how != ANSWER or fits]


class Changed:
    """The functions that a mutant changes, by file and place, in the texts that are checked."""

    def __init__(self, functions, texts):
        # One that changes no function is tried alone, and all that is denied is its.
        self.is_all = functions == {OUTSIDE}
        self.names = set() if self.is_all else {name for _, (name, _) in functions}
        self.lines = {(file, line): name for file, (name, at) in ([] if self.is_all else functions) for line in span(texts[file], (name, at))}

    def at(self, file, line):
        """Returns the name of the changed function that is there."""
        return file if self.is_all else self.lines.get((file, int(line)))

    def proved_by(self, file, goal):
        """Returns the name of the changed function of which that file has the proof of a goal."""
        return file if self.is_all else next((name for name in self.names if is_proof_of(name, file, goal)), None)

    def denied(self, check):
        """Returns the goals that are denied, each with how, and the functions that have lost a stored answer."""
        wrong = [(self.proved_by(file, goal or ""), goal or "", said) for file, goal, said in check.found(WRONG_PROOF)]
        lost = {name for name, _, said in wrong if name and GONE.search(said)}
        false = {f"{name}: {goal}": VALUES for goal, file in check.found(FALSE_GOAL) for name in [self.proved_by(file, goal)] if name}
        unproved = [(self.at(file, line), goal, SEARCH) for file, line, goal in check.found(OPEN_GOAL)]
        unproved += [(name, goal, ANSWER) for name, goal, said in wrong if not GONE.search(said)]
        told = {f"{name}: {goal}": how for name, goal, how in unproved if name and name not in lost}
        return [*{**told, **false}.items()], lost

    def outcome(self, check):
        """Returns what came of the mutant; None where that is not known yet."""
        if not check.reached:
            return Outcome("it does not compile") if any(self.at(*place) for place in check.found(NOT_COMPILED)) else None
        denied, lost = self.denied(check)
        if denied:
            return Outcome("only stored answers do not fit, and no control shows that its shape does", denied)
        if lost:
            return Outcome("its proof names what the mutant took away")
        if check.proved or (self.names and all(check.proves(name) for name in self.names)):
            return Outcome("what it changes is proved with it", proved=True)
        return None
