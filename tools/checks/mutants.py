"""Tries mutants, functions with a wrong body, on a copy of the repository, and tells which the prover refused, by which goal.

The mutants of a crate are in the list crates/CRATE/mutants, whose form tools/lib/mutant_lists.py tells, and in its must-fail/. A mutant is refused
where the prover denies a goal of a function that it changes, as tools/lib/verdicts.py has it; one that changes no function, where it denies any
goal. One that cannot be applied, or does not compile, is not refused. A control has to be proved, or its mutant is not refused. The last line is
'N refused, M not', and the status is 0 only where M is 0.

The copy takes what out/ keeps, so the first check of a crate takes as long as `rt check` there. `rt` itself may begin with what other checkouts on
this machine keep.

With --promises it tries the mutants that are marked `promise`, of each crate or of these, for which the record .ci/promises.record does not hold,
and writes the record. tools/lib/record.py tells what it holds and what it rests on. Where that was changed meanwhile, nothing is written. The
mutants of a crate that .ci/promises names as one of each run are tried where the crate is named here, and are not recorded. With --after it tries
those alone: each crate by one job and from nothing, over the libraries that `rt ci` has made here, once the log says that it has proved the crate.
"""

import os
import re
import shutil
import sys
import tempfile
import time

from lib.mutant_lists import mutants_of, with_controls
from lib.record import Record, made_at, sum_of
from lib.repository import ROOT, crates_of, read
from lib.trial import Trial, copy_tree, rooms_beside, take_libraries
from lib.verdicts import Check

EACH_RUN = os.path.join(ROOT, ".ci", "promises")
RECORD = os.path.join(ROOT, ".ci", "promises.record")


def add_arguments(parser):
    """Adds the arguments of this check."""
    parser.add_argument("words", metavar="CRATE[/MUTANT]", nargs="*", help="tries the mutants of this crate, or this one; all where there is none")
    parser.add_argument("--anew", action="store_true", help="begins with nothing of what out/ keeps, and holds nothing of the record for true")
    parser.add_argument("--promises", action="store_true", help="tries the mutants that stand for a promise")
    lone = parser.add_mutually_exclusive_group()
    check = "with --promises: tries none, and tells for which crates the record does not hold; the status is 0 only where there is none"
    lone.add_argument("--check", action="store_true", help=check)
    lone.add_argument("--after", metavar="LOG", help="with --promises: tries those of each run behind `rt ci`, which writes this log, and records nothing")


def run(options):
    """Tries the mutants that the options name, and returns the status."""
    if not options.promises and (options.check or options.after):
        sys.exit("tools/check: --check and --after go with --promises")
    left = promises(options) if options.promises else told(tried(chosen_mutants(options.words), options.anew)[0])
    return 1 if left else 0


def chosen_mutants(words):
    """Returns the mutants that the words name, by crate, lowest first."""
    every = {crate: mutants_of(ROOT, crate) for crate in crates_of(ROOT)}
    found = {crate: [] for crate in every}
    for word in words or every:
        crate, _, name = word.partition("/")
        if crate not in every or (name and name not in every[crate]):
            sys.exit(f"tools/check: {word} is no crate of crates.txt and no mutant of one, CRATE/MUTANT")
        found[crate] += [every[crate][name]] if name else every[crate].values()
    return {crate: mutants for crate, mutants in found.items() if mutants}


def promised():
    """Returns the mutants that stand for a promise, by crate, lowest first, and the crates of which the gate tries them in each run."""
    found = {crate: [it for it in mutants if it.is_promise] for crate, mutants in chosen_mutants([]).items()}
    each_run = re.findall(r"^each run:(.*)$", read(EACH_RUN), re.M)
    return {crate: mutants for crate, mutants in found.items() if mutants}, " ".join(each_run).split()


def tried(chosen, is_anew):
    """Tries the mutants, by crate; returns the trials, by crate, and the checksums of what was tried."""
    trials, sums = {}, {}
    room = tempfile.mkdtemp(prefix="check-mutants-")
    try:
        copy_tree(room, [] if is_anew else [*chosen])
        for crate, mutants in chosen.items():
            sums[crate] = sum_of(room, crate, mutants)
            trial = trials[crate] = Trial(room, crate, mutants)
            if not Check(trial.folder(room)).proved:
                sys.exit(f"tools/check: {crate} is not proved without a mutant")
            trial.add_rooms(min(rooms_beside(), len(trial.rounds(len(trial.left)))) - 1)
            trial.flags = ["--jobs", "1"] if len(trial.rooms) > 1 else []
            trial.run()
            for copy in trial.rooms[1:]:
                shutil.rmtree(copy, ignore_errors=True)
    finally:
        for trial in trials.values():
            trial.remove()
        shutil.rmtree(room, ignore_errors=True)
    return trials, sums


def wait_for(log, crate):
    """Waits until a log of `rt ci` says that it has proved a crate; returns whether it has."""
    while True:
        with open(log, encoding="utf-8", errors="replace") as file:
            said = re.search(rf"^(?:rt: )?{crate} (proved|is kept|NOT PROVED)|^(\d+ passed)", file.read(), re.M)
        if said:
            return said[1] in ("proved", "is kept")
        time.sleep(2)


def tried_after(log, chosen):
    """Tries the mutants of each crate after the gate has proved it; returns the trials, by crate."""
    trials = {}
    for crate, mutants in chosen.items():
        if not wait_for(log, crate):
            sys.exit(f"tools/check: the gate has not proved {crate}")
        room = tempfile.mkdtemp(prefix="check-mutants-")
        try:
            copy_tree(room, [])
            take_libraries(room, crate)
            # (rt would begin with what another checkout kept)
            os.makedirs(os.path.join(room, "crates", crate, "out", "incremental"))
            trials[crate] = Trial(room, crate, mutants, ["--jobs", "1"])
            trials[crate].run()
        finally:
            shutil.rmtree(room, ignore_errors=True)
    return trials


def promises(options):
    """Tries the promises that the options name, or with --check tells the crates for which the record does not hold; returns how many promises
    were not refused, or how many such crates there are."""
    chosen, each_run = promised()
    if options.after:
        return told(tried_after(options.after, {crate: mutants for crate, mutants in chosen.items() if crate in each_run}))
    for word in options.words:
        if word not in chosen:
            sys.exit(f"tools/check: {word} is no crate with a mutant that is marked `promise`")
    record = Record(RECORD)
    recorded = [crate for crate in chosen if crate not in each_run]
    stale = [crate for crate in recorded if options.anew or not is_held(record, crate, chosen[crate])]
    if options.check:
        for crate in stale:
            again = f"tools/check mutants --promises {crate}"
            print(f"{crate}: the record does not hold for its {len(chosen[crate])} mutants; {again} tries them and writes it")
        return len(stale)
    asked = [crate for crate in options.words or recorded if crate in stale or crate in each_run]
    trials, sums = tried({crate: mutants for crate, mutants in chosen.items() if crate in asked}, options.anew)
    for crate in [it for it in trials if it in recorded]:
        if sum_of(ROOT, crate, chosen[crate]) == sums[crate]:
            record.parts[crate] = sums[crate], [made_at(crate, chosen[crate]), *[f"  {line}" for line in trials[crate].lines]]
        else:
            print(f"tools/check: what the trial of {crate} rests on was changed meanwhile: nothing is recorded", flush=True)
    record.write(recorded)
    return told(trials)


def is_held(record, crate, mutants):
    """Returns whether the record holds of these mutants of a crate as it is here."""
    trial = Trial(ROOT, crate, mutants)
    if any(mutant.applied(trial.source) is None for mutant in with_controls(mutants)):
        return False
    return record.holds(crate, sum_of(ROOT, crate, mutants), mutants)


def told(trials):
    """Tells how many mutants were refused; returns how many were not."""
    refused = sum(trial.refused for trial in trials.values())
    every = sum(len(trial.mutants) for trial in trials.values())
    print(f"{refused} refused, {every - refused} not")
    return every - refused
