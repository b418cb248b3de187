"""Has `jpath` read texts by both of its types of document, and tells where they differ.

`values` of a text reads it into the type that borrows it, `delete` of nothing into a `Value`. Both have to end with the same status, and to print
the same document. The first texts are the borders of JSON; the others are made from the seed, and most of them are spoilt. The last line is
'N of M texts are the same document', and the status is 0 only where all are.
"""

import random
import subprocess

from lib import programs

# No text has a member of this name.
ABSENT = '$["no such name"]'
ESCAPES = ["\\u0061", "\\n", "\\\\", '\\"', "\\/", "\\b", "\\f", "\\r", "\\t", "\\u00e9", "\\ud83d\\ude00", "\\u0000", "\\u2028"]
NAMES = ["a", "b", "c", "ab", "", "é", "\U0001f600", "\\u0061", "\\u0062", "a\\u0062", "\\ud83d\\ude00", "name", "longer than the others"]
NUMBERS = ["0", "-0", "1", "-1", "9007199254740993", "9223372036854775807", "-9223372036854775808", "9223372036854775808", "18446744073709551616",
           "1.0", "1.5", "1e2", "1E+2", "-1e-2", "1e400", "-1e400", "1e-400", "01", "1.", ".5", "+1", "--1", "0x1"]
BYTES = [b"", b" ", b'"', b"\\", b",", b":", b"[", b"]", b"{", b"}", b"\x00", b"\x1f", b"\x7f", b"\x80", b"\xc0\xaf", b"\xed\xa0\x80", b"\xf4\x90\x80\x80",
         b"\xef\xbb\xbf", b"\xff", b"null", b"nul", b"1", b"-", b"e", b"\\u", b"\\ud800", b"\\udc00", b"\n", b"\t", b"/**/"]


def borders():
    """Yields the borders of JSON, as bytes."""
    for depth in (126, 127, 128, 129):
        yield b"[" * depth + b"]" * depth
        yield b'{"a":' * depth + b"1" + b"}" * depth
        yield b'[{"a":' * (depth // 2) + b"[" * (depth % 2) + b"]" * (depth % 2) + b"}]" * (depth // 2)
    for number in NUMBERS:
        yield number.encode()
        yield f'{{"a":{number},"a":1}}'.encode()
        yield f'{{"a":1,"\\u0061":{number}}}'.encode()
    for piece in BYTES:
        for text in (piece, b'"' + piece + b'"', b'{"' + piece + b'":1}', b"[1]" + piece, piece + b"[1]", b"[1," + piece + b"2]"):
            yield text
    for escape in ESCAPES:
        yield f'"{escape}"'.encode()
        yield f'{{"{escape}":1,"{escape}":2}}'.encode()
    many = 10**6
    yield b"{" + b",".join(b'"%07d":%d' % (it, it) for it in range(many)) + b"}"
    yield b"{" + b",".join(b'"%07d":%d' % (it, it) for it in reversed(range(many))) + b"}"
    yield b"{" + b",".join(b'"a":%d' % it for it in range(many)) + b"}"
    yield b"[" + b",".join([b'"a"'] * many) + b"]"


def text_of(draw):
    """Returns the inside of a text."""
    return "".join(draw.choice([*NAMES, *ESCAPES, "x" * draw.randrange(40)]) for _ in range(draw.randrange(4)))


def made(draw, depth):
    """Returns a text of JSON, most of whose numbers are whole."""
    kind = draw.randrange(8 if depth else 5)
    blank = draw.choice(["", "", "", " ", "\n\t"])
    if kind == 0:
        return draw.choice(["null", "true", "false"])
    if kind == 1:
        return draw.choice(NUMBERS[:7]) if draw.random() < 0.98 else draw.choice(NUMBERS)
    if kind <= 4:
        return f'"{text_of(draw)}"'
    if kind == 5:
        return "[" + f",{blank}".join(made(draw, depth - 1) for _ in range(draw.randrange(6))) + "]"
    members = (f'"{draw.choice(NAMES)}"{blank}:{blank}{made(draw, depth - 1)}' for _ in range(draw.randrange(16)))
    return "{" + f"{blank},".join(members) + "}"


def spoilt(draw, text):
    """Returns the text with some bytes changed, taken out or put in."""
    for _ in range(draw.randrange(1, 4)):
        at = draw.randrange(len(text) + 1)
        text = text[:at] + draw.choice(BYTES) + text[at + draw.randrange(3):]
    return text


def texts(seed, count):
    """Returns `count` texts."""
    draw = random.Random(seed)
    found = [*borders()][:count]
    while len(found) < count:
        text = made(draw, 5).encode()
        found.append(text if draw.random() < 0.4 else spoilt(draw, text))
    return found


def ended(program, command, query, text):
    """Returns the status of a run, and what it prints."""
    done = subprocess.run([program, command, query], input=text, capture_output=True, check=False)
    return done.returncode, done.stdout, done.stderr


def add_arguments(parser):
    """Adds the arguments of this check."""
    programs.add_options(parser, "jpath")
    parser.add_argument("--seed", type=int, default=1, help="the number that the made texts follow from")
    parser.add_argument("count", metavar="COUNT", nargs="?", type=int, default=400, help="how many texts; 400 where none is given")


def run(options):
    """Has the texts read, and returns the status."""
    program = programs.chosen(options, "jpath")
    same = taken = 0
    for text in texts(options.seed, options.count):
        status, out, told = ended(program, "values", "$", text)
        left_status, left, left_told = ended(program, "delete", ABSENT, text)
        if (status, out, told) == (left_status, left.removeprefix(b"0\n"), left_told):
            same += 1
            taken += status == 0
        else:
            shown = text if len(text) < 200 else text[:200] + b".."
            print(f"{shown!r}: values {status} {out[:100]!r}, delete {left_status} {left[:100]!r}")
    print(f"of these {taken} are documents")
    print(f"{same} of {options.count} texts are the same document")
    return 0 if same == options.count else 1
