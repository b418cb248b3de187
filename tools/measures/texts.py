"""Prints cases on random trees as texts, which `cases` asks: `tools/bench texts 10000 1 | crates/cases/out/cases`.

A case is that `to_query_text` writes of a tree the text told here, which is read as the tree that the case's own text spells. Each case's own text
spells a tree in a random way: names bare or quoted, characters as they are or escaped, numbers with a fraction or an exponent, blanks wherever the
grammar of RFC 9535 has them. The other is written here by the form that docs/CALLING.md tells, and by no code of this repository.
"""

import json
import random
import typing

LETTERS = ["", "a", "b1", "_", "it's", 'say "x"', "\\", "/", "\n\t\b\f\r", "\u0001\u001f", "é", "☺𝄞", "[(", "a b", "$", "\u007f"]
BARE = {"a", "b1", "_", "é", "☺𝄞"}
NUMBERS = [0, 1, -1, 7, 10, -10, 4096, 2**53 - 1, 1 - 2**53]
WIDE = NUMBERS + [2**53, 2**63 - 1, -(2**63)]
SHORT = {"\b": "\\b", "\t": "\\t", "\n": "\\n", "\f": "\\f", "\r": "\\r", "'": "\\'", "\\": "\\\\"}
# How deep filters, groups and calls are in one another.
DEPTH = 3


class Pair(typing.NamedTuple):
    """Two texts that spell one part of a tree: one in a random way, and the one that `to_query_text` has to write."""

    own: str
    written: str

    def __add__(self, other):
        return Pair(self.own + other.own, self.written + other.written)


def same(text):
    """Returns the pair of a text that is spelled in one way."""
    return Pair(text, text)


def plain(it):
    """Returns a character as a Normalized Path spells it."""
    return SHORT.get(it) or ("\\u%04x" % ord(it) if ord(it) < 32 else it)


class Texts:
    """Makes pairs; a depth is how deep filters, groups and calls may be in one another."""

    def __init__(self, seed):
        self.random = random.Random(seed)

    def often(self):
        return self.random.random() < 0.5

    def blanks(self):
        return Pair("".join(self.random.choice(" \t\n\r") for _ in range(self.random.choice((0, 0, 0, 1, 2)))), "")

    def joined(self, parts):
        """Returns the parts, with blanks before each."""
        return sum((self.blanks() + it for it in parts), same(""))

    def listed(self, mark, parts):
        """Returns the parts with a mark between each two, and blanks about it."""
        whole = parts[0]
        for part in parts[1:]:
            whole += self.blanks() + same(mark) + self.blanks() + part
        return whole

    def around(self, opening, inside, closing):
        """Returns what is inside between two marks and blanks."""
        return same(opening) + self.blanks() + inside + self.blanks() + same(closing)

    def string(self):
        """Returns a text between quotes."""
        value, quote = self.random.choice(LETTERS), self.random.choice("'\"")
        return Pair(quote + "".join(self.character(it, quote) for it in value) + quote, "'" + "".join(map(plain, value)) + "'")

    def character(self, it, quote):
        """Returns a spelling of a character between these quotes."""
        code = ord(it)
        choices = [] if code < 32 or it in (quote, "\\") else [it]
        if it in (quote, "\\", "/") or (it in SHORT and it not in "'\\"):
            choices.append("\\" + it if it in (quote, "\\", "/") else SHORT[it])
        units = it.encode("utf-16-be", "surrogatepass").hex()
        choices.append("".join("\\u" + self.either_case(units[at : at + 4]) for at in range(0, len(units), 4)))
        return self.random.choice(choices)

    def either_case(self, digits):
        return "".join(self.random.choice((it.lower(), it.upper())) for it in digits)

    def number(self):
        """Returns a number literal of a whole value."""
        value = self.random.choice(WIDE)
        texts = [str(value), f"{value}.0", f"{value}e0", f"{value}.00E+0", f"{value}0e-1"] if value else ["0", "-0", "0.0", "-0e7", "0E-9"]
        return Pair(self.random.choice(texts), str(value))

    def index(self):
        return same(str(self.random.choice(NUMBERS)))

    def slice(self):
        start, end, step = (self.index() if self.often() else same("") for _ in range(3))
        whole = (start + self.blanks() if start.own else start) + same(":") + self.blanks() + (end + self.blanks() if end.own else end)
        return whole + (same(":") + self.blanks() + step if step.own else Pair(self.random.choice(("", ":")), ""))

    def selector(self, depth):
        kind = self.random.randrange(6 if depth else 4)
        if kind < 4:
            return (self.string, lambda: same("*"), self.index, self.slice)[kind]()
        test = self.logical(depth - 1)
        return same("?") + self.blanks() + test

    def segment(self, depth):
        dots = ".." if self.random.random() < 0.3 else ""
        name = self.random.choice(sorted(BARE) + ["*"])
        if self.random.random() < 0.4:
            return Pair((dots or ".") + name, f"{dots}[*]" if name == "*" else f"{dots}['{name}']")
        selectors = [self.selector(depth) for _ in range(self.random.choice((1, 1, 2, 3)))]
        return same(dots) + self.around("[", self.listed(",", selectors), "]")

    def segments(self, depth):
        return self.joined([self.segment(depth) for _ in range(self.random.choice((0, 1, 1, 2, 3)))])

    def step(self):
        """Returns a step of a singular query."""
        name = self.random.choice(sorted(BARE))
        if self.often():
            return Pair(f".{name}", f"['{name}']")
        return self.around("[", self.random.choice((self.index(), self.string())), "]")

    def singular(self):
        root = self.random.choice("@$")
        return same(root) + self.joined([self.step() for _ in range(self.random.randrange(3))])

    def query(self, depth):
        root = self.random.choice("@$")
        return same(root) + self.segments(depth)

    def literal(self):
        word = self.random.choice(("true", "false", "null"))
        return self.random.choice((self.number(), self.string(), same(word)))

    def logical(self, depth):
        """Returns operands of `||`, of `&&`, or one."""
        return self.listed("||", [self.conjunction(depth) for _ in range(self.random.choice((1, 1, 1, 2, 3)))])

    def conjunction(self, depth):
        return self.listed("&&", [self.basic(depth) for _ in range(self.random.choice((1, 1, 1, 2)))])

    def basic(self, depth):
        """Returns a group, a test or a comparison."""
        kind = self.random.randrange(5)
        negation = "!" if self.often() else ""
        if kind == 0 and depth:
            test = self.around("(", self.logical(depth - 1), ")")
        elif kind == 1 and depth:
            test = self.truth(depth - 1)
        elif kind < 4:
            test = self.query(depth)
        else:
            operator = self.random.choice(("==", "!=", "<", "<=", ">", ">="))
            left, right = self.side(depth), self.side(depth)
            return left + self.blanks() + same(operator) + self.blanks() + right
        return same(negation) + (self.blanks() if negation else same("")) + test

    def side(self, depth):
        kind = self.random.randrange(3 if depth else 2)
        return (self.literal, self.singular, lambda: self.value(depth - 1))[kind]()

    def value(self, depth):
        """Returns a call that gives a value."""
        name = self.random.choice(("length", "count", "value"))
        return self.called(name, [self.random.choice((self.literal(), self.singular())) if name == "length" else self.query(depth)])

    def truth(self, depth):
        """Returns a call that gives a truth."""
        name = self.random.choice(("match", "search", "in", "known", "a_1"))
        if name in ("match", "search"):
            return self.called(name, [self.side(depth), self.side(depth)])
        return self.called(name, [self.argument(depth) for _ in range(self.random.randrange(4))])

    def argument(self, depth):
        kind = self.random.randrange(4)
        return (self.literal, lambda: self.query(depth), lambda: self.side(depth), lambda: self.logical(depth))[kind]()

    def called(self, name, arguments):
        return self.around(f"{name}(", self.listed(",", arguments) if arguments else same(""), ")")


def add_arguments(parser):
    """Adds the arguments of this command."""
    parser.add_argument("count", type=int, help="how many cases")
    parser.add_argument("seed", type=int, help="the number that the random choices follow from")


def run(options):
    """Prints the cases."""
    texts = Texts(options.seed)
    for _ in range(options.count):
        own, written = same("$") + texts.segments(DEPTH)
        print(json.dumps({"call": "to_query_text", "arguments": [own], "answer": written}))
