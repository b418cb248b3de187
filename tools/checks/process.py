"""Asks `JpQuery::process`, from the root, and `js_path` the cases of crates/jpath/queries that have nodes or paths.

Both calls are asked of a `Value` and of the second document type. They have to give the same nodes, in order, and of a `Value` those, or the
paths, of the case. Left out are cases with a `depth` of their own, documents of more than 125 lists and objects in one another, which no case has
room for, and two names of cases that a walk ends early. Each case that does not hold is told. The last line is 'N of M cases hold', and the status
is 0 only where all do.
"""

import json
import re
import subprocess

from lib import programs
from lib.cases import cases_of, compact, text
from lib.repository import ROOT

TYPES = ("Value", "Doc")
# A case that wants this answer does not hold, so the program tells what came.
NO_ANSWER = {"no answer": "is this"}
CAME = re.compile(r"case (\d+) does not hold: (.*)", re.S)
MOST_LEVELS = 125
# In these a walk stops early or keeps what it found, and `process`, which does neither, would take all memory.
STOPPED = {"stops_and_keeps", "queries_from_the_root_in_one_another"}


def add_arguments(parser):
    """Adds the arguments of this check."""
    programs.add_options(parser, "cases")


def run(options):
    """Asks the cases, and returns the status."""
    program = programs.chosen(options, "cases")
    asked = [*vectors()]
    came = answers(program, [case for _, query, document, _ in asked for case in cases_for(query, document)])
    each = 2 * len(TYPES)
    held = 0
    for at, (name, query, _, case) in enumerate(asked):
        mine = came[at * each : (at + 1) * each]
        if holds(case, mine):
            held += 1
        else:
            print(f"{name} does not hold: {query}: came {json.dumps(mine, ensure_ascii=False)}")
    print(f"{held} of {len(asked)} cases hold")
    return 0 if held == len(asked) else 1


def levels(value):
    """Returns how many lists and objects of the value are in one another."""
    parts = value if isinstance(value, list) else value.values() if isinstance(value, dict) else ()
    return isinstance(value, (list, dict)) + max(map(levels, parts), default=0)


def vectors():
    """Yields what is asked of each case that has nodes or paths: its name, the query, the document, and the case."""
    for number, line in cases_of(f"{ROOT}/crates/jpath/queries"):
        case = json.loads(line)
        if "query" not in case or "depth" in case or case.get("name") in STOPPED or not ("nodes" in case or "paths" in case):
            continue
        document = json.loads(text(case["json"])) if "json" in case else case["document"]
        if levels(document) <= MOST_LEVELS:
            yield f"queries, line {number}", text(case["query"]), document, case


def cases_for(query, document):
    """Yields the cases that ask the query of the document, two for each type."""
    for kind in TYPES:
        yield {"call": f"{kind}::process", "arguments": ["jp_query", query, document], "answer": NO_ANSWER}
        yield {"call": f"{kind}::js_path", "arguments": [query, document], "answer": NO_ANSWER}


def answers(program, cases):
    """Returns what came of each case; None where nothing came."""
    lines = [json.dumps(case, ensure_ascii=False) for case in cases]
    told = subprocess.run([program], input="\n".join(lines) + "\n", stdout=subprocess.PIPE, encoding="utf-8", check=False).stdout
    found = [None] * len(cases)
    for line in told.split("\n"):
        match = CAME.fullmatch(line)
        if match:
            number = int(match[1]) - 1
            _, came, answer = match[2].partition(f"{lines[number]}, but ")
            found[number] = json.loads(answer) if came else None
    return found


def nodes_of(content):
    """Returns the nodes of a state, each a path and a value; None where it is a value."""
    if content == "nothing":
        return []
    if isinstance(content, dict) and "ref" in content:
        return [content["ref"]]
    return content["refs"] if isinstance(content, dict) and "refs" in content else None


def holds(case, came):
    """Returns whether what came is what the case wants, for each type."""
    processed, found = came[::2], came[1::2]
    wanted = [[text(path), value] for path, value in case.get("nodes", [])] or [text(path) for path in case.get("paths", [])]
    by_value = found[0] if "nodes" in case else [path for path, _ in found[0] or []]
    return compact([nodes_of(it) for it in processed]) == compact(found) and compact(by_value) == compact(wanted)
