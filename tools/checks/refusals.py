"""Refuses to the programs each request for memory in turn, over their cases.

The programs are `jpath` and `cases`. Each case of crates/cases/stdin is a run of `cases`, with that case alone on its standard input. Each case
of crates/jpath/queries, and each of the others that asks whether two texts spell one tree, is a run of `jpath` by each of its commands, and one
that deletes by that one; those whose query no command line can hold are left out.

First a run has memory enough; then its first request is refused, then its second, up to the last. Each such run has to end as the first, or as
its program does without memory:

- `jpath`, by status 6, its line, and nothing written;
- `cases`, by status 0, the line `case 1, out of memory: CASE` and the one that tells that no case holds. It prints that line only where a call
  was refused for memory and each document that was handed to such a call is as it was; a case that does not hold for another reason, or whose
  document changed, is told otherwise, and is wrong here. Where the refused request is one by which the program reads its input, so that no case
  was asked yet, it may also end by status 1 and the line `Error: Kind(OutOfMemory)`, and nothing written. These are the first requests, as many
  as of an input of that length without a case.

With memory enough a case has to hold, and `jpath paths` has to print the paths of the case's nodes. Each run that ends otherwise is told. The last
line is 'N refusals met in M runs of K cases: A out of memory, B as with memory enough, W wrong; S runs not asked in full', and the status is 0 only
where W is 0. Neither the programs nor their builds are changed: a small library, which `cc` makes, is in front of malloc and realloc.
"""

import collections
import concurrent.futures
import dataclasses
import json
import os
import shlex
import signal
import subprocess
import tempfile

from lib import programs
from lib.cases import cases_of, text
from lib.repository import ROOT

# Where the cases of each program are; those of jpath that have words of their own are not asked.
FILES = {"jpath": "queries", "cases": "stdin"}
SECONDS = 120
HOLDS = (0, b"1 of 1 cases hold\n", b"")
UNREAD = (1, b"", b"Error: Kind(OutOfMemory)\n")
# The members of a case that name the call, the part or the caller that it asks.
NAMING = ("call", "process", "states", "of", "refused")
# The calls whose first argument names it.
NAMED_FIRST = ("error", "kind", "cmp", "Comparison::try_new", "TestFunction::try_new", "Runner::enough", "process", "Value::process", "Doc::process")
# The members of an answer that is a tree, or a refusal.
TOLD = ("tree", "shown", "end", "refused")


def add_arguments(parser):
    """Adds the arguments of this check."""
    cases = parser.add_mutually_exclusive_group()
    cases.add_argument("--table", action="store_true", help="asks of each program the first case of each kind, by its members and what it names")
    cases.add_argument("word", nargs="?", default="", help="asks the cases that hold this word; all where there is none")
    parser.add_argument("--jobs", type=int, default=1, metavar="N", help="how many runs are made side by side; 1 where it is not said")
    most = "of a run with more requests than N, 2000 where it is not said, the first and the last N / 2 alone are refused"
    parser.add_argument("--most", type=int, default=2000, metavar="N", help=most)
    one = "asks this program, jpath or cases, in place of both; PATH is where it is, if not in `out` of its crate"
    parser.add_argument("--program", action="append", metavar="NAME[=PATH]", help=one)


def run(options):
    """Refuses the requests of all runs, and returns the status."""
    programs.raise_stack()
    named = dict(it.partition("=")[::2] for it in options.program or FILES)
    paths = {name: programs.built(name, path) for name, path in named.items()}
    word = None if options.table else options.word
    runs = [it for crate in FILES for number, case in asked_of(crate, word) for it in runs_of(paths, crate, number, case)]
    with tempfile.TemporaryDirectory(prefix="check-refusals-") as folder:
        trial = Trial(paths, folder, options.most, len({it.case for it in runs}))
        signal.signal(signal.SIGTERM, lambda *_: trial.stop())
        with concurrent.futures.ThreadPoolExecutor(options.jobs) as jobs:
            for came in jobs.map(trial.refuse, enumerate(runs)):
                trial.note(*came)
    trial.tell()
    return 1 if trial.sums["wrong"] else 0


@dataclasses.dataclass
class Run:
    """A run of a program on a case; wanted is what it is to write with memory enough, where that is known."""

    case: str
    program: str
    words: list
    input: bytes
    wanted: bytes | None = None

    def is_right(self, end):
        """Returns whether it ended with memory enough as its case tells."""
        if self.program != "jpath":
            return end == HOLDS
        return self.wanted is None or end[0] != 0 or end[1] == self.wanted

    def without_memory(self):
        """Returns how it ends where memory is refused."""
        if self.program == "jpath":
            return 6, b"", b"jpath: out of memory\n"
        return 0, b"case 1, out of memory: " + self.input + b"0 of 1 cases hold\n", b""


def kind_of(case):
    """Returns what members a case has, and what it names; of a call how many arguments, and the members of an answer that is a tree or a refusal."""
    answer = case.get("answer")
    told = [it for it in TOLD if it in answer] + [answer.get("refused")] if isinstance(answer, dict) else []
    first = case["arguments"][:1] if case.get("call") in NAMED_FIRST else []
    return frozenset(case), len(case.get("arguments", ())), (*told, *first), tuple(str(case.get(it)) for it in NAMING)


def asked_of(crate, word):
    """Yields the cases of a crate that hold that word, or where there is None the first of each kind."""
    met = set()
    for number, spelled in cases_of(f"{ROOT}/crates/{crate}/{FILES[crate]}"):
        kind = kind_of(json.loads(spelled)) if word is None else number
        if kind not in met and (word is None or word in spelled):
            met.add(kind)
            yield number, spelled


def runs_of(paths, crate, number, spelled):
    """Yields the runs of these programs on a case of a crate."""
    name = f"{crate} {number}"
    if crate in paths and crate != "jpath":
        yield Run(name, crate, [], f"{spelled}\n".encode())
    if "jpath" in paths:
        yield from runs_of_jpath(name, json.loads(spelled))


def runs_of_jpath(name, case):
    """Yields the runs of `jpath` on a case, none where it asks and deletes no query."""
    query = case["arguments"][0] if case.get("call") == "same_tree" else case.get("delete", case.get("query"))
    if query is None:
        return
    depth = ["--depth", str(case["depth"])] if case.get("call") != "same_tree" and case.get("depth") is not None else []
    document = text(case["json"]) if "json" in case else json.dumps(case.get("document"), ensure_ascii=False)
    wanted = "".join(f"{text(it[0])}\n" for it in case["nodes"]).encode() if "nodes" in case else None
    for command in ["delete"] if "delete" in case else ["nodes", "values", "paths", "delete"]:
        words = [command, *depth, text(query)]
        # The kernel hands no program a word with a NUL, or one of 128 KiB.
        if "\0" not in words[-1] and len(words[-1].encode()) < 131072:
            yield Run(name, "jpath", words, document.encode(), wanted if command == "paths" else None)


class Trial:
    """Refuses requests to runs, and counts what came of that."""

    def __init__(self, paths, folder, most, cases):
        self.paths, self.folder, self.most, self.cases = paths, folder, most, cases
        self.sums = collections.Counter()
        self.library = f"{folder}/refuse.so"
        source = os.path.join(os.path.dirname(os.path.realpath(__file__)), "refuse.c")
        make = [*shlex.split(os.environ.get("CC", "cc")), "-O2", "-fno-builtin", "-shared", "-fPIC", source, "-o", self.library, "-ldl"]
        subprocess.run(make, check=True)

    def ended(self, it, at, told=None):
        """Returns the status of a run whose request at that place is refused, what it wrote, and its line."""
        env = {"LD_PRELOAD": self.library, "REFUSE_AT": str(at), **({"REFUSE_COUNT": told} if told else {})}
        how = {"input": it.input, "capture_output": True, "env": env, "close_fds": False, "timeout": SECONDS, "check": False}
        done = subprocess.run([self.paths[it.program], *it.words], **how)
        return done.returncode, done.stdout, done.stderr

    def counted(self, it, told):
        """Returns how a run with memory enough ends, and how many requests it makes."""
        end = self.ended(it, 0, told)
        with open(told, encoding="utf-8") as file:
            count = int(file.read())
        os.unlink(told)
        return end, count

    def refuse(self, numbered):
        """Refuses a run each request in turn; returns how many, how many of these it told, what is wrong, and whether some were left out."""
        number, it = numbered
        told = f"{self.folder}/count{number}"
        own, count = self.counted(it, told)
        reading = 0
        if it.program != "jpath":
            reading = self.counted(dataclasses.replace(it, input=b"#" * len(it.input)), told)[1]
        said, memory, wrong = f"case {it.case}: {it.program} {it.words}", 0, []
        if not it.is_right(own):
            wrong.append(f"{said}: with memory enough: status {own[0]}, {own[1]!r}, {own[2]!r}")
        places = range(1, count + 1)
        if count > self.most:
            places = [*range(1, self.most // 2 + 1), *range(count - self.most // 2 + 1, count + 1)]
        for at in places:
            end = self.ended(it, at)
            if end == it.without_memory() or (end == UNREAD and at <= reading):
                memory += 1
            elif end != own:
                wrong.append(f"{said}: request {at} of {count}: status {end[0]}, {end[1]!r}, {end[2]!r}")
        return len(places), memory, wrong, count > self.most

    def note(self, met, memory, wrong, is_short):
        """Counts what came of a run, and tells what is wrong."""
        self.sums.update(runs=1, met=met, memory=memory, wrong=len(wrong), short=is_short)
        for it in wrong:
            print(it, flush=True)

    def tell(self):
        """Prints the last line."""
        runs, met, memory, wrong, short = (self.sums[it] for it in ("runs", "met", "memory", "wrong", "short"))
        said = f"{memory} out of memory, {met - memory - wrong} as with memory enough, {wrong} wrong; {short} runs not asked in full"
        print(f"{met} refusals met in {runs} runs of {self.cases} cases: {said}", flush=True)

    def stop(self):
        """Tells how far it came, when it is ended before."""
        print("ended before the last case; so far:")
        self.tell()
        os._exit(2)
