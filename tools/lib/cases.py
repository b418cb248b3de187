"""The cases that ask a call or a program: lines of JSON in files, where a line with `#` in front is a comment."""

import json


def cases_of(path):
    """Yields each case of a file: the number of its line, and the line without its end."""
    with open(path, encoding="utf-8") as file:
        for number, line in enumerate(file, 1):
            if line.strip() and not line.startswith("#"):
                yield number, line.rstrip("\n")


def text(member):
    """Returns a text of a case: the member itself, or the pieces of a list; a piece is a text, or a text and how often it is repeated."""
    if isinstance(member, str):
        return member
    return "".join(it if isinstance(it, str) else it[0] * it[1] for it in member)


def compact(value):
    """Returns a value as compact JSON, its members in the order of the bytes of their names."""
    return json.dumps(value, ensure_ascii=False, separators=(",", ":"), sort_keys=True)
