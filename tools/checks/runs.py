"""Asks `jpath` the cases of crates/jpath/runs and of crates/jpath/queries, or those of other files.

A case is a line of JSON. In `runs` it has `words`, those behind the program's name; `input`; `status`, how the run exits; `shown`, what it writes
where that is 0, and else its line on standard error. The other stream stays empty. Where it is left open which of two ends comes, `or` has the
other, `{"status": .., "shown": ..}`. A word or an input that is no text is `{"bytes": [..]}`, an input that cannot be read `{"path": ..}`, what
lies there. Where nothing can be written, `output` is the path of what standard output leads to. `stack` is the stack that the run has, in KB; the
unproved program, whose levels take more, has none of its own.

In `queries` it has `query`, `document`, or `json`, the same as a text, and `nodes`, each a list of a path and a value, or `paths` alone; or
`query` and `refused`, the kind of the error; or `delete`, a query, with `document`, `count` and `left`, or with `refused`. `depth` is that of
`--depth`. Such a case is the run of `nodes`, `paths` or `delete` that writes exactly this. Each case may have a `name`. A text may be a list of
pieces, each a text, or a text and how often it is repeated. Each path of a case that has been asked is asked as a query, which has to write this
path alone, with its value where the case has that; this is a run of its own.

A file that is a compliance suite for JSONPath is asked test by test. A test is skipped for numbers that are not whole, or for the byte 0 in its
query. Each case and each test that does not hold is told. The last line is 'N of M runs hold', of a suite 'N of M tests hold, K skipped', and the
status is 0 only where all do.
"""

import contextlib
import json
import os
import resource
import shlex
import subprocess

from lib import programs
from lib.cases import cases_of, compact, text
from lib.repository import ROOT, read

RUN = {"words", "input", "status", "shown"}
OPTIONAL = {"or", "output", "stack", "name"}
# The members of a case of queries, beside `name` and `depth`.
QUERIES = (
    {"query", "document", "nodes"},
    {"query", "document", "paths"},
    {"query", "json", "nodes"},
    {"query", "json", "paths"},
    {"query", "refused"},
    {"delete", "document", "count", "left"},
    {"delete", "document", "refused"},
)
SECONDS = 60
NO_END = (f"no end in {SECONDS} seconds", b"", b"")
# The line of a refusal, by the kind of its error.
LINES = {
    "PestError": "jpath: not a query",
    "InvalidNumber": "jpath: a literal is no whole number of 64 bits",
    "MaxNestingDepthExceeded": "jpath: nesting deeper than {}",
    "InvalidJsonPath": "jpath: a pattern is too large",
}


def add_arguments(parser):
    """Adds the arguments of this check."""
    programs.add_options(parser, "jpath")
    parser.add_argument("files", metavar="FILE", nargs="*", help="asks these in place of runs and queries of crates/jpath")


def run(options):
    """Asks the cases of the files, and returns the status."""
    program = programs.chosen(options, "jpath")
    held, suites_hold = [], True
    for path in options.files or [f"{ROOT}/crates/jpath/{name}" for name in ("runs", "queries")]:
        tests = suite_of(path)
        if tests is None:
            held += ask_rows(program, path, has_stack=not options.unproved)
        else:
            suites_hold = ask_suite(program, tests) and suites_hold
    if held:
        print(f"{sum(held)} of {len(held)} runs hold")
    return 0 if suites_hold and all(held) else 1


def bytes_of(member):
    """Returns a word or an input of a case as bytes."""
    return bytes(member["bytes"]) if isinstance(member, dict) else text(member).encode()


def run_of(case):
    """Returns the case as one of `runs`; a KeyError where its members are those of no case."""
    if "words" in case:
        if not RUN <= set(case) <= RUN | OPTIONAL:
            raise KeyError
        return case
    if set(case) - {"name", "depth"} not in QUERIES:
        raise KeyError
    command = "delete" if "delete" in case else "paths" if "paths" in case else "nodes"
    depth = ["--depth", str(case["depth"])] if "depth" in case else []
    words = [command, *depth, case["delete"] if "delete" in case else case["query"]]
    if "refused" in case:
        name, _, most = case["refused"].partition(" ")
        status, shown = 1, LINES[name].format(most)
    elif "nodes" in case:
        status, shown = 0, "".join(f"{text(path)}\t{compact(value)}\n" for path, value in case["nodes"])
    elif "paths" in case:
        status, shown = 0, "".join(f"{text(path)}\n" for path in case["paths"])
    else:
        status, shown = 0, f"{case['count']}\n{compact(case['left'])}\n"
    return {"words": words, "input": case["json"] if "json" in case else compact(case.get("document")), "status": status, "shown": shown}


def wanted(end):
    """Returns an end of a case: the status, what is written, and the line."""
    shown = text(end["shown"]).encode()
    return (0, shown, b"") if end["status"] == 0 else (end["status"], b"", shown + b"\n")


def limited(case, has_stack):
    """Returns what sets the stack of the run, where the case tells it."""
    if "stack" not in case or not has_stack:
        return None
    limit = case["stack"] * 1024
    return lambda: resource.setrlimit(resource.RLIMIT_STACK, (limit, limit))


def ended(program, case, has_stack=False):
    """Returns how the run ends."""
    words = [program, *map(bytes_of, case["words"])]
    with contextlib.ExitStack() as open_files:
        streams = {"stdout": subprocess.PIPE, "stderr": subprocess.PIPE, "preexec_fn": limited(case, has_stack), "timeout": SECONDS}
        if "output" in case:
            streams["stdout"] = open_files.enter_context(open(case["output"], "wb"))
        if isinstance(case["input"], dict) and "path" in case["input"]:
            streams["stdin"] = os.open(case["input"]["path"], os.O_RDONLY)
            open_files.callback(os.close, streams["stdin"])
        else:
            streams["input"] = bytes_of(case["input"])
        try:
            done = subprocess.run(words, check=False, **streams)
        except subprocess.TimeoutExpired:
            return NO_END
    return done.returncode, done.stdout or b"", done.stderr


def ask(program, name, spelled, has_stack):
    """Runs the program on a case, tells what was asked, wanted and came where that does not hold, and returns whether it holds."""
    try:
        case = run_of(json.loads(spelled))
        ends = [wanted(case), *([wanted(case["or"])] if "or" in case else [])]
    except (KeyError, TypeError, ValueError):
        print(f"{name} is no case: {spelled}", flush=True)
        return False
    end = ended(program, case, has_stack)
    if end not in ends:
        asked = shlex.join(["jpath", *(bytes_of(word).decode(errors="replace") for word in case["words"])])
        print(f"{name} does not hold: {asked}, of {case['input']!r}: wanted {' or '.join(map(str, ends))}; came {end}", flush=True)
    return end in ends


def back(spelled):
    """Returns the cases that ask each path of this case as a query, each path once."""
    case = json.loads(spelled)
    kept = {member: case[member] for member in ("document", "json", "depth") if member in case}
    asked = {text(node[0]): {"nodes": [node]} for node in case.get("nodes", [])}
    asked |= {text(path): {"paths": [path]} for path in case.get("paths", [])}
    return [json.dumps({"query": path, **kept, **end}) for path, end in asked.items() if path != text(case["query"])]


def ask_rows(program, path, has_stack):
    """Runs the program on the cases of a file, and on the paths of those that hold; returns whether each run holds."""
    held = []
    for number, spelled in cases_of(path):
        name = f"{os.path.basename(path)}, line {number}"
        held.append(ask(program, name, spelled, has_stack))
        for again in back(spelled) if held[-1] else []:
            held.append(ask(program, f"{name}, a path", again, has_stack))
    return held


def is_whole(value):
    """Returns whether each number of the value is whole."""
    if isinstance(value, (list, dict)):
        return all(map(is_whole, value.values() if isinstance(value, dict) else value))
    return not isinstance(value, float)


def is_test_held(program, test):
    """Returns whether a test of a compliance suite holds; None where a number of it is not whole, or its query has the byte 0, as no word has."""
    if "\0" in test["selector"]:
        return None
    status, out, told = ended(program, {"words": ["nodes", test["selector"]], "input": compact(test.get("document"))})
    if test.get("invalid_selector"):
        return (status, out, told) == (1, b"", f"{LINES['PestError']}\n".encode())
    results = test["results"] if "results" in test else [test["result"]]
    is_number_refused = (status, out, told) == (1, b"", f"{LINES['InvalidNumber']}\n".encode())
    if status == 4 or is_number_refused or not is_whole(results):
        return None
    all_paths = test.get("results_paths", [test["result_paths"]] if "result_paths" in test else [None] * len(results))
    nodes = [line.split("\t", 1) for line in out.decode().split("\n")[:-1]]
    came = [compact(json.loads(value)) for _, value in nodes]
    came_at = [path for path, _ in nodes]
    ends = zip(results, all_paths)
    return status == 0 and any(came == [*map(compact, result)] and paths in (None, came_at) for result, paths in ends)


def ask_suite(program, tests):
    """Runs the program on each test of a compliance suite; returns whether all hold."""
    held = [is_test_held(program, test) for test in tests]
    for test, it in zip(tests, held):
        if it is False:
            print(f"test {test['name']!r} does not hold")
    print(f"{held.count(True)} of {len(tests)} tests hold, {held.count(None)} skipped")
    return False not in held


def suite_of(path):
    """Returns the tests of the compliance suite that the file is; None of another file."""
    try:
        return json.loads(read(path))["tests"]
    except (KeyError, TypeError, ValueError):
        return None
