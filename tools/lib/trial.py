"""The trial of mutants: checks of a crate with some of its mutants, in copies of the repository."""

import os
import queue
import re
import shutil
import subprocess
import sys
from concurrent.futures import ThreadPoolExecutor

from lib.mutant_lists import with_controls
from lib.repository import ROOT, below, files_of, read, write
from lib.verdicts import OUTSIDE, Changed, Check, Outcome, stored_names

# What a check takes of memory beside others, in kB.
CHECK_MEMORY = 6_000_000


def copy_tree(room, crates):
    """Copies the files here, and what out/ keeps: the libraries, and the checks of these crates; nothing of it for no crate."""
    for name in files_of(ROOT):
        if "/must-fail/" not in name and not name.endswith("/mutants"):
            os.makedirs(os.path.dirname(os.path.join(room, name)), exist_ok=True)
            shutil.copy2(os.path.join(ROOT, name), os.path.join(room, name))
    for crate in os.listdir(os.path.join(ROOT, "crates")) if crates else []:
        for kept in ("rlib", "incremental") if crate in crates else ("rlib",):
            copy_kept(room, crate, kept)
    subprocess.run(["git", "init", "-q", room], check=True)


def copy_kept(room, crate, kept):
    """Copies what out/ of a crate here keeps under that name."""
    at = os.path.join("crates", crate, "out", kept)
    if os.path.isdir(os.path.join(ROOT, at)):
        linked(os.path.join(ROOT, at), os.path.join(room, at))


def linked(folder, to):
    """Copies a folder, what was proved in it by links: a check replaces such a file, and changes none."""

    def copy(one, other):
        """Links or copies a file."""
        try:
            if one.endswith(".oantt"):
                return os.link(one, other)
        except OSError:
            # (the other folder is on another disk)
            pass
        return shutil.copy2(one, other)

    shutil.copytree(folder, to, symlinks=True, copy_function=copy)


def take_libraries(room, crate):
    """Has the checks of a crate in the copy take the libraries that `rt ci` has made here of the crates below. It leaves them without the stamp that
    `rt check` asks for, the sum of what they are made of, which the kit's own module makes. Where that makes none, the check proves them again."""
    others = below(ROOT, crate)
    if not others:
        return
    for name in others:
        copy_kept(room, name, "rlib")
    sys.path.insert(0, os.path.dirname(os.path.realpath(shutil.which("rt"))))
    try:
        import rtlib

        made = [(it.name, it.stamp()) for it in rtlib.crates_below(room) if os.path.isdir(it.rlib)]
    except (ImportError, AttributeError, TypeError) as error:
        print(f"tools/check: this kit makes no stamp ({error}), so the crates below {crate} are proved again", flush=True)
        return
    for name, sum_of_it in made:
        stamp = os.path.join(room, "crates", name, "out", "rlib", "stamp")
        if not os.path.lexists(stamp):
            write(stamp, sum_of_it)


def rooms_beside():
    """Returns in how many copies a crate is checked side by side: as many as there are processors, and memory for."""
    free = int(re.search(r"MemAvailable:\s+(\d+)", read("/proc/meminfo"))[1])
    return max(1, min(len(os.sched_getaffinity(0)), free // CHECK_MEMORY))


class Trial:
    """The mutants of a crate, tried in rounds, each of as many checks side by side as there are copies of the repository.

    One check tries many mutants, at most one for a name that proof files have, and alone what changes no function.
    """

    def __init__(self, room, crate, mutants, flags=()):
        self.crate, self.mutants, self.flags = crate, mutants, flags
        self.rooms, self.free = [room], queue.Queue()
        self.shared = stored_names(self.folder(room))
        self.left = with_controls(mutants)
        self.outcomes, self.sources, self.lines = {}, {}, []
        self.refused = 0

    def folder(self, room, file=""):
        """Returns the folder of the crate in a copy, or the path of one of its files there."""
        return os.path.join(room, "crates", self.crate, file)

    def add_rooms(self, n):
        """Makes n more copies, of what has been proved in the first too."""
        for number in range(1, n + 1):
            room = f"{self.rooms[0]}-{number}"
            self.rooms.append(room)
            linked(self.rooms[0], room)

    def source(self, file):
        """Returns the text of a file of the crate as it is; None where there is none."""
        if file not in self.sources:
            path = self.folder(self.rooms[0], file)
            self.sources[file] = read(path) if os.path.isfile(path) else None
        return self.sources[file]

    def chosen(self, left, most):
        """Returns as many of these mutants as can be applied together, each with the functions that it changes, and the texts that come of them."""
        texts, taken, some = {}, set(), []
        for mutant in [*left]:
            alone = mutant.applied(self.source)
            if alone is None:
                left.remove(mutant)
                self.settle(mutant, Outcome("it cannot be applied"))
                continue
            is_alone = alone[1] == {OUTSIDE}
            names = {it[1][0] if it != OUTSIDE and it[1][0] in self.shared else it for it in alone[1]}
            together = mutant.applied(lambda file: texts.get(file) or self.source(file))
            if len(some) < (1 if is_alone else most) and together and not names & taken:
                texts.update(together[0])
                taken |= names
                some.append((mutant, alone[1]))
                left.remove(mutant)
                most = 1 if is_alone else most
        return some, texts

    def rounds(self, most):
        """Returns what is left, in checks of at most that many mutants each."""
        left, found = [*self.left], []
        while left:
            some, texts = self.chosen(left, most)
            if some:
                found.append((some, texts))
        return found

    def check(self, texts):
        """Checks the crate with these texts, in a copy that is free, puts its own back, and returns what the check says."""
        room = self.free.get()
        try:
            for file, text in texts.items():
                write(self.folder(room, file), text)
            return Check(self.folder(room), *self.flags)
        finally:
            for file in texts:
                write(self.folder(room, file), self.source(file))
            self.free.put(room)

    def settle(self, mutant, outcome):
        """Notes what came of a mutant; returns false where that is not known yet."""
        if outcome is None:
            return False
        self.left.remove(mutant)
        self.outcomes[mutant] = outcome
        for tried in self.mutants:
            if mutant in (tried, tried.control) and all(it in self.outcomes for it in with_controls([tried])):
                self.tell(tried)
        return True

    def tell(self, mutant):
        """Tells what came of a mutant and its control."""
        outcome, control = self.outcomes[mutant], mutant.control and self.outcomes[mutant.control]
        goals = sorted(outcome.refused_by(control), key=lambda it: mutant.denies not in it[0])
        astray = control.refused_by(None) if control else []
        if goals and mutant.denies in goals[0][0] and not astray:
            self.refused += 1
            lines = [f"refused: {mutant.name}: " + "; ".join(f"{goal} ({how})" for goal, how in goals[:3])]
        elif astray:
            lines = [f"not refused: {mutant.name}: its control is refused too: {astray[0][0]}"]
        else:
            lines = [f"not refused: {mutant.name}: " + (f"of {mutant.denies} no goal is denied" if goals else outcome.said)]
        if control and not astray:
            lines.append(f"not refused: the control of {mutant.name}: {control.said}")
        self.lines += lines
        print(*[f"{self.crate}: {line}" for line in lines], sep="\n", flush=True)

    def run(self):
        """Checks until it is known of each mutant what came of it, in the end each alone."""
        most = len(self.left)
        for room in self.rooms:
            self.free.put(room)
        while self.left:
            found = self.rounds(most)
            with ThreadPoolExecutor(len(self.rooms)) as pool:
                checks = [*pool.map(lambda it: self.check(it[1]), found)]
            news = False
            for (some, texts), check in zip(found, checks):
                known = [self.settle(mutant, Changed(functions, texts).outcome(check)) for mutant, functions in some]
                if not any(known) and len(some) == 1:
                    said = "no goal of what it changes is denied" if check.reached else "the check ended without a verdict"
                    known = [self.settle(some[0][0], Outcome(said))]
                news = news or any(known)
            if not news:
                most = max(1, most // 2)

    def remove(self):
        """Removes the copies."""
        for room in self.rooms:
            shutil.rmtree(room, ignore_errors=True)
