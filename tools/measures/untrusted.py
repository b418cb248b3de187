"""Measures what untrusted queries cost, the stack that they need, and what a unit of work takes: tables of docs/PERFORMANCE.md.

    tools/bench times crates/jpath/out/jpath
    tools/bench stack crates/jpath/out/jpath
    tools/bench units crates/bench/out/bench
    tools/bench patterns crates/jpath/out/jpath

`times` has a query with its document in each row, in several sizes: the least of three runs of `jpath values`, in processor seconds,
with a slash between the sizes. After it is its like, which is cheap: it looks at the current node where the query looks at the root, or
is the query without what makes it expensive. Runs of `jpath delete` follow, also with the most memory in MB; no number is less than the
memory of this script, about 25 MB.

`stack` has the least stack of `jpath nodes` in KB, to within 64, for documents of lists, of objects, and of both by turns.

`units` has, for each size, the least number of units that is enough for a call of a runner, and nanoseconds a unit: the least of three
runs with one unit less, or with enough where that takes longer, minus the time of a run with no unit. A run with one unit less ends before
work that is paid for at once. After these are calls with a number of units: whether they are enough,
milliseconds, and the most memory.

`patterns` has processor seconds and MB of `jpath values` for patterns.
"""

import json
import os
import random
import resource
import subprocess
import sys

# A pattern that `regex` takes long to build.
LARGE = r"(\p{L}{50}){5}"


def ored(tests):
    """Tests with `||` between them."""
    return "||".join(tests)


def numbers(count):
    return list(range(1000, 1000 + count))


def early(others):
    """640 tests of every number, in a filter of the root, behind some others that are never reached."""
    behind = f"@.first&&({ored(f'$..k{i}' for i in range(others))})||" if others else ""
    tests = ored(f"@<-{i}" for i in range(1, 641))
    return f"$.l[?{behind}$..[?{tests}]]", {"l": numbers(4000)}


def nested(depth):
    """Filters in one another, each from the root."""
    inner = "..@.y" if depth == 0 else "@.y"
    for _ in range(depth):
        inner = f"$..[?@.q,?{inner}]"
    return inner, [{"x": i} for i in range(2000)]


def long_queries(count):
    """Queries of 1,652 segments, which differ in the last."""
    names = ".b" * 1650
    return f"$.l[?{ored(f'$..a{names}..[{i}]' for i in range(count))}]", {"l": numbers(200)}


def counted(size):
    """A count behind a test that never holds."""
    return "$[?$..[?@.nope&&count($..*..*..*..*)>9]]", [numbers(size) for _ in range(size)]


def searched(patterns, first=()):
    """A function of the size: patterns of the document, in turn, behind others that are asked first."""

    def row(size):
        asked = list(first) + [patterns[i % len(patterns)] for i in range(size)]
        return "$[?search(@.t,@.p)]", [{"t": "abc", "p": pattern} for pattern in asked]

    return row


def subsets(size):
    return "$.l[?subset_of($.a,$.b)]", {"l": numbers(size), "a": numbers(size), "b": numbers(size)[::-1]}


def subsets_like(size):
    return "$[?subset_of(@.a,@.b)]", [{"a": numbers(size), "b": numbers(size)[::-1]}]


def lengths(size):
    return "$.l[?length($.t)==@]", {"t": "a" * 5 * size, "l": numbers(size)}


def differing(size):
    return "$.l[?$.a!=$.b]", {"l": numbers(size), "a": numbers(size), "b": numbers(size)}


def members(size):
    return f"$.l[?{ored(f'in({i},$.a)' for i in range(1, 700))}]", {"l": numbers(size), "a": numbers(size)}


def side_by_side(nest):
    """A function of a count: so many nests of the form, each of its own, as tests of one filter. No document is needed."""

    return lambda count: (f"$[?{ored(nest(i) for i in range(count))}]", [])


def filters_from_the_root(depth):
    """A function of a number: filters from the root in one another."""

    return lambda number: "$" + "[?$" * (depth - 1) + f"[?@.a{number}]" + "]" * (depth - 1)


def calls(innermost):
    """A function of a depth: calls in one another, 400 numbers beside each, around this. No document is needed."""

    return lambda depth: (f"$[?{('f(' + '1,' * 400) * depth}{innermost}{')' * depth}]", [])


def guarded(size):
    """A count behind a name that is not there, with a third query in its nest, on lists in one another."""
    return "$.none[?count($..*..*..*..*..*[?$[?$[?@.x]]])>9]", nest_of_lists(size)


def guarded_by_filters(filters, lists):
    """A function of a size: a count around filters from the root, behind a name that is not there, on lists around so many numbers."""

    def row(size):
        document = numbers(size)
        for _ in range(lists - 1):
            document = [document]
        return "$.none[?count($..*..*..*..*" + "[?$" * filters + "[?@.x]" + "]" * filters + ")>9]", document

    return row


def in_random_order(size):
    """An object of so many members, and a name that it does not have."""
    names = [f"k{i}" for i in range(size)]
    random.Random(1).shuffle(names)
    return "$.zzz", {name: 0 for name in names}


def small_objects(size):
    return "$.zzz", [{"": 0}] * size


def nest_of_lists(size):
    return json.loads("[" * size + "]" * size)


def arguments(count):
    """So many arguments of one function, each all numbers."""
    return f"$[?f({','.join(['$.l[*]'] * count)})]", {"l": numbers(10**5)}


def chain(length, members):
    """Objects in one another, each with so many numbers behind the next."""
    value = 0
    for _ in range(length):
        value = {"a": value} | named(members)
    return value


def below_names(count, size):
    """So many numbers below so many short names in one another."""
    value = numbers(size)
    for _ in range(count):
        value = {"a": value}
    return value


def below_controls(count, size):
    """So many numbers below so many names of one control character in one another."""
    value = numbers(size)
    for _ in range(count):
        value = {"\x01": value}
    return value


def below_a_name(letters):
    """A function of a count: so many numbers below one name, which has so many letters for each of them."""

    return lambda size: ("$.*[*]", {"a" * (1 + letters * size): numbers(size)})


def equal_locations(size):
    """Two lists of so many indexes, which select four nodes again and again, each below 110 steps more."""
    indexes = ",".join("01"[i % 2] for i in range(size))
    below = nest_of_lists(111)
    return f"$[{indexes}][{indexes}]" + "[0]" * 110, [[below, below], [below, below]]


def equal_names(size):
    """So many times all members: two, whose names are long and differ in the last letter."""
    return f"$[{','.join('*' * size)}]", {"a" * 10**6 + last: 0 for last in "bc"}


def with_query(row, query):
    """The same document under another query."""
    return lambda size: (query, row(size)[1])


def of_current_nodes(row):
    """The like of a row: in filters `@` for `$`."""

    def like(size):
        query, document = row(size)
        return "$" + query[1:].replace("$", "@"), document

    return like


TOWERS = side_by_side(filters_from_the_root(123))
EQUAL = side_by_side(lambda number: filters_from_the_root(123)(0))
EIGHT = [f"x{i}" for i in range(8)]
# What the row is, the row, its like, and its sizes.
ROWS = [
    ("640 tests behind others", early, of_current_nodes(early), [0, 7, 8, 30]),
    ("filters in one another", nested, of_current_nodes(nested), [8, 32, 63, 124]),
    ("queries of 1,652 segments", long_queries, of_current_nodes(long_queries), [9, 18]),
    ("a count of lists", counted, of_current_nodes(counted), [30, 60, 120]),
    ("one pattern", searched([LARGE + "0"]), None, [250, 500, 1000]),
    ("eight in turn behind eight others", searched([f"{LARGE}{i}" for i in range(8)], EIGHT), None, [250, 500, 1000]),
    ("32 in turn", searched([f"a{{100}}{i}" for i in range(32)]), None, [250, 500, 1000]),
    ("subset_of", subsets, subsets_like, [200, 400, 800]),
    ("length", lengths, with_query(lengths, "$.l[?@==5]"), [20000, 40000]),
    ("unequal lists", differing, with_query(differing, "$.l[?@.a!=@.b]"), [1000, 2000, 4000]),
    ("nests of 123 filters side by side", TOWERS, of_current_nodes(TOWERS), [60, 125, 250]),
    ("equal nests", EQUAL, of_current_nodes(EQUAL), [60, 125, 250]),
    ("calls in one another", calls("1"), calls("@"), [30, 60, 120]),
    ("a guard", guarded, with_query(guarded, "$.none[?count($..*..*..*..*..*[?$[?@.x]])>9]"), [30, 60, 90, 120]),
    ("a guard around 60 filters, 20 lists", guarded_by_filters(60, 20), guarded_by_filters(2, 20), [1000, 10000]),
    ("an object in random order", in_random_order, lambda size: ("$.zzz", dict(sorted(in_random_order(size)[1].items()))), [10**5, 3 * 10**5, 10**6]),
    ("699 tests of a list", members, with_query(members, f"$.l[?{ored(f'@==-{i}' for i in range(1, 700))}]"), [2000, 4000, 8000]),
]
# The same of deletions.
DELETIONS = [
    ("numbers below a long name", below_a_name(10), below_a_name(0), [16000, 32000, 64000, 128000]),
    ("equal locations", equal_locations, with_query(equal_locations, "$[*][*]" + "[0]" * 110), [50, 100, 200]),
    ("equal long names", equal_names, with_query(equal_names, "$[*]"), [50, 100, 200]),
    ("all elements twice", lambda size: ("$[*,*]", numbers(size)), lambda size: ("$[*]", numbers(size)), [270000]),
    ("all elements from the last", lambda size: ("$[::-1]", numbers(size)), lambda size: ("$.zzz", numbers(size)), [270000]),
    ("small objects", with_query(small_objects, "$..*"), small_objects, [270000]),
]


def used(program, command, query, text):
    """Processor seconds and MB at the peak, of one run."""
    process = subprocess.Popen([program, command, query], stdin=subprocess.PIPE, stdout=subprocess.DEVNULL)
    process.stdin.write(text)
    process.stdin.close()
    _, status, taken = os.wait4(process.pid, 0)
    process.returncode = os.waitstatus_to_exitcode(status)
    if process.returncode != 0:
        sys.exit(f"{query}: status {process.returncode}")
    return taken.ru_utime + taken.ru_stime, taken.ru_maxrss / 1024


def least(runs):
    """Of each column the least."""
    return [min(column) for column in zip(*runs)]


def times(program):
    for command, rows in (("values", ROWS), ("delete", DELETIONS)):
        for name, row, like, sizes in rows:
            columns = []
            for made in (row, like):
                if made is None:
                    columns.append("")
                    continue
                asked = [made(size) for size in sizes]
                runs = [least(used(program, command, query, json.dumps(document).encode()) for _ in range(3)) for query, document in asked]
                columns.append("/".join(f"{seconds:.3f}" for seconds, _ in runs))
                if command == "delete":
                    columns[-1] += "; " + "/".join(f"{megabytes:.0f}" for _, megabytes in runs) + " MB"
            print(f"| {name}, {'/'.join(map(str, sizes))} | {columns[0]} | {columns[1]} |", flush=True)


def around(levels, kinds):
    """Lists `[` or objects `{` around one object, by turns as `kinds` has them."""
    opened = [kinds[i % len(kinds)] for i in range(levels)]
    text = "".join('{"a":' if it == "{" else "[" for it in opened) + '{"x":"a"}'
    return text + "".join("}" if it == "{" else "]" for it in reversed(opened))


def filters_joined(count):
    return "$..[?@.x&&" * count + "@.x" + "]" * count


def patterns(count):
    return "$..[?@.x&&" * count + "search(@.x,'((a{1000}){1000}){1000}')" + "]" * count


def unasked(count):
    return f"$.none[?{patterns(count)}]"


def filters(count):
    return "$" + "[?@" * count + ".x" + "]" * count


def parentheses(count):
    return "$..[?" + "(" * count + "@.x" + ")" * count + "]"


def queries(steps):
    """A function of a count: so many queries of these steps in one another, each in a filter of the one before."""

    return lambda count: f"${steps}" + f"[?${steps}" * (count - 1) + "]" * (count - 1)


def queries_around(inner):
    """A function of a count: three queries from the root in one another, around so many of the brackets that `inner` makes."""

    return lambda count: "$..[?@.x&&" * 3 + inner(count) + "]" * 3


def long_ways(count):
    """Filters of two kinds in one another: a plan's maker takes the most stack for each."""
    return "$[?" + "@.y||@.x&&@..[?" * count + "@.x" + "]" * count + "]"


# The query, what makes it of a count, and the counts at depth 128 and at depth 999.
STACKS = [
    ("`$..[?@.x&&$..[?@.x&&..`", filters_joined, [89, 125], [997]),
    ("the same around a pattern that is too large", patterns, [44, 125], [996]),
    ("this in `$.none[?..]`", unasked, [124], [995]),
    ("`$` and 124 `[0]`, a filter with the like, and so on", queries("[0]" * 124), [120], []),
    ("`.*` in their place", queries(".*" * 124), [120], []),
    ("50 `.*`", queries(".*" * 50), [], [990]),
    ("`$` and 124 `.*`, five queries in one another", queries(".*" * 124), [5], [5]),
    ("`$[?@[?@[?@..`", filters, [125], [996]),
    ("parentheses", parentheses, [124], [995]),
    ("`$..[?@.x&&$..[?@.x&&$..[?@.x&&` around parentheses", queries_around(lambda count: "(" * count + "@.x" + ")" * count), [124], []),
    ("the same around calls", queries_around(lambda count: "f(" * count + "@.x" + ")" * count), [124], []),
    ("the same around `@[?`", queries_around(lambda count: "@[?" * count + "@.x" + "]" * count), [124], []),
    ("`$..x[?$..x[?$..x[?`, five", lambda count: "$..x" + "[?$..x" * (count - 1) + "]" * (count - 1), [5], [5]),
    ("`@.y||@.x&&@..[?`", long_ways, [126], [997]),
]


def suffices(words, kilobytes, text):
    """Whether the run ends, well or refused, on a stack of so many KB, a fourth of which its words may take."""
    limit = kilobytes * 1024
    try:
        run = subprocess.run(
            words,
            env={},
            input=text,
            stdout=subprocess.DEVNULL,
            stderr=subprocess.DEVNULL,
            preexec_fn=lambda: resource.setrlimit(resource.RLIMIT_STACK, (limit, limit)),
        )
    except OSError:
        return False
    return run.returncode in (0, 1)


def least_stack(words, text):
    """In KB, to within 64; it doubles the stack until it suffices, and then halves what is between."""
    enough = 64
    while not suffices(words, enough, text):
        enough *= 2
        if enough > 1 << 20:
            return None
    less = enough // 2
    while enough - less > 64:
        middle = (enough + less) // 2
        if suffices(words, middle, text):
            enough = middle
        else:
            less = middle
    return enough


def stack(program):
    documents = [around(126, kinds).encode() for kinds in ("[", "{", "[{")]
    for name, query, *columns in STACKS:
        found = []
        for depth, counts in zip(("128", "999"), columns):
            runs = [[program, "nodes", "--depth", depth, query(count)] for count in counts]
            found.append("; ".join("/".join(str(least_stack(words, text)) for text in documents) for words in runs))
        print(f"| {name}, {columns[0]} and {columns[1]} | {found[0]} | {found[1]} |", flush=True)


def texts(patterns):
    """A query that searches for each pattern of the document."""
    return "$[?search('b',@)]", patterns


def spelling(number):
    """Eight branches that spell 2,048 literals each, and 70 groups behind."""
    groups = "".join(f"({chr(97 + i % 26)})" for i in range(70))
    return "|".join(f"{chr(97 + i)}{number}[ab]{{11}}{groups}" for i in range(8))


def named_groups(count):
    return "".join(f"(?<n{i}>b)" for i in range(count))


def in_branches(number):
    """Eight branches of 66 groups each, of its own."""
    return "|".join(f"a{chr(97 + i)}{number}[cd]{{11}}" + "(b)" * 66 for i in range(8))


def below_indexes(query):
    """A function of a size: a query that is asked 1,600 times of so many chains of 119 members."""
    chosen = ",".join("0" * 40)
    return lambda size: (f"${'[' + chosen + ']'}{'[' + chosen + ']'}{query}", [[[chain(119, 0)] * size]])


# What is asked under a limit, and in which sizes; `nodes` where no call is named.
UNITS = [
    ("a name below all", lambda size: ("$..x", [{"k": {str(i): i for i in range(10)}} for _ in range(size)]), [1000, 10000]),
    ("lists compared", lambda size: ("$[" + "0," * 199 + "0][?@==$[1]]", [[numbers(size)], numbers(size)]), [1000, 10000, 100000]),
    ("objects compared", lambda size: ("$[" + "0," * 199 + "0][?@==$[1]]", [[named(size)], named(size)]), [1000, 10000]),
    ("a list on the left of an object", lambda size: ("$.l[?$.o==@]", {"l": numbers(size), "o": named(size)}), [1000, 4000, 16000]),
    ("a list on the left of a chain of objects", lambda size: ("$.l[?$.o==@]", {"l": [[0] * 1000] * size, "o": chain(110, 850)}), [50, 200]),
    ("a nodelist spliced", lambda size: ("$.l[?f(@,$.l[*])]", {"l": numbers(size)}), [1000, 2000, 4000]),
    ("a long name compared", lambda size: ("$[" + "0," * 299 + "0][?@==$[1]]", [[{"a" * size: 1}], {"a" * size: 1}]), [10**5, 10**6]),
    ("patterns of the query", lambda size: (f"$[?{ored(f'search(@,{chr(39)}(a{{1000}}){{500}}{i}{chr(39)})' for i in range(size))}]", ["b"]), [1, 10, 40]),
    ("patterns of the document", lambda size: ("$[?search('b',@)]", ["(a{1000}){500}" + str(i) for i in range(size)]), [1, 10, 40]),
    ("a large pattern on a text", lambda size: ("$[?search(@,'(a|b)*a(a|b){400}c')]", ["ab" * size]), [1000, 10000]),
    ("a third query in a nest", lambda size: ("$.l[?@.x&&count($..*..*..*[?$[?$[?@.x]]])>9]", {"l": [1, 2], "m": nest_of_lists(size)}), [30, 60, 120]),
    ("sets", lambda size: ("$[?subset_of(@.a,@.b)]", subsets_like(size)[1]), [200, 400, 800]),
    ("literals that patterns spell", lambda size: texts([spelling(i) for i in range(size)]), [1, 10, 40]),
    ("wide classes in both cases", lambda size: texts(["(?i)" + "[!-\U0010ffff]" * size]), [10, 100, 1000]),
    ("empty groups", lambda size: texts(["()" * size]), [100, 1000, 2000]),
    ("named groups", lambda size: texts([named_groups(size)]), [100, 500, 1000]),
    ("groups", lambda size: texts(["(a)" * size]), [100, 1000, 2000]),
    ("paths of a long name", lambda size: ("$.*[*]", {"a" * size: numbers(100)}), [10**4, 10**5, 10**6]),
    ("a text of the query that is searched for the ends of words", lambda size: (f"$[?search('{'aé' * (size // 2)}',@)]", ["\\b\\B"] * 200), [1000, 10**4, 10**5]),
    ("the same in the document", lambda size: ("$[?search(@,'\\\\b\\\\B')]", ["aé" * (size // 2)] * 20), [1000, 10**4, 10**5]),
    ("a short pattern of the query, a long one", lambda size: (f"$[?search(@,'{'a' * size}')]", [""] * 1000), [10, 1000, 10**5]),
    ("119 names looked up", below_indexes("[?@" + ".a" * 119 + "]"), [1, 10, 100]),
    ("119 names of a walk", below_indexes("[*]" + ".a" * 119), [1, 10, 100]),
    ("119 names compared", below_indexes("[?@" + ".a" * 119 + "==@" + ".a" * 119 + "]"), [1, 10, 100]),
    ("125 parentheses", lambda size: ("$[?" + "(" * 125 + "@.a" + ")" * 125 + "]", numbers(size)), [1000, 10**4]),
    ("125 `!(`", lambda size: ("$[?" + "!(" * 125 + "@.a" + ")" * 125 + "]", numbers(size)), [1000, 10**4]),
    ("a condition on all values", lambda size: ("count(@..*)>9", named(size), "condition"), [1000, 10**5]),
    ("a condition on texts", lambda size: ("match(@.t,@.p)", {"t": "ab" * size, "p": "(a|b)*c"}, "condition"), [1000, 10**5]),
    ("a condition on 119 names", lambda size: ("||".join(["@" + ".a" * 119] * size), chain(118, 0), "condition"), [10, 100]),
    ("copies of a long text", lambda size: ("$[*]", ["a" * size] * 50, "copies"), [10**3, 10**5]),
    ("copies of small objects", lambda size: ("$[*]", [{"a": [0]}] * size, "copies"), [10, 100, 1000]),
    *[(f"{call} below {names} names", lambda size, call=call, names=names: ("$" + ".a" * names + "[*]", below_names(names, size), call), [10**4, 10**5]) for names in (3, 15) for call in ("nodes", "locations", "delete", "replace")],
    ("nodes below 63 control characters", lambda size: ("$" + "[*]" * 63 + "[*]", below_controls(63, size)), [10**4, 10**5]),
]


# The calls of a runner whose results hold on to memory.
CALLS = ["values", "nodes", "paths", "locations", "delete", "replace"]

# What is asked with so many units: a call that spends them takes time and memory for as many, whatever the size.
BOUNDED = [
    ("arguments of a function", arguments, [1, 10, 50, 200], 250000),
    ("objects in one another looked at for depth", lambda size: ("$.z[?$[?$[?$[?$[?$[?@.x]]]]]]", chain(118, size)), [10, 1000, 5000], 100),
    ("a guard on lists in one another", lambda size: ("$.none[?count($..*..*..*..*[?$[?$[?@.x]]])>9]", nest_of_lists(size)), [92, 94, 120], 10**6),
    ("the first of many elements", lambda size: ("$[*]", numbers(size), "first"), [2000, 10**5], 1000),
    ("locations below 63 names", lambda size: ("$" + ".a" * 63 + "[*]", below_names(63, size), "locations"), [10**4, 10**5], 25000),
    *[(f"{call} of numbers", lambda size, call=call: ("$[*]", numbers(size), call), [10**5, 10**6], 4 * 10**6) for call in CALLS],
    *[(f"{call} below {names} names", lambda size, call=call, names=names: ("$" + ".a" * names + "[*]", below_names(names, size), call), [10**4, 10**5], 10**6) for names in (14, 63) for call in CALLS],
]


def named(count):
    return {f"k{i}": i for i in range(count)}


def asked(program, text, units):
    """Whether so many units are enough, and nanoseconds."""
    run = subprocess.run([program, "units", str(units)], input=text, capture_output=True, check=True, text=True)
    enough, nanoseconds = run.stdout.split()
    return enough == "true", int(nanoseconds)


def least_units(program, text):
    """It doubles the units until they are enough, and then halves what is between."""
    enough = 1
    while not asked(program, text, enough)[0]:
        enough *= 2
    less = enough // 2
    while enough - less > 1:
        middle = (enough + less) // 2
        if asked(program, text, middle)[0]:
            enough = middle
        else:
            less = middle
    return enough


def units(program):
    for name, row, sizes in UNITS:
        counts, times = [], []
        for size in sizes:
            text = asked_text(*row(size))
            count = least_units(program, text)
            without, less, enough = (min(asked(program, text, given)[1] for _ in range(3)) for given in (0, count - 1, count))
            counts.append(count)
            times.append(f"{(max(less, enough) - without) / count:.0f}")
        print(f"| {name}, {'/'.join(map(str, sizes))} | {'/'.join(map(str, counts))} | {'/'.join(times)} |", flush=True)
    for name, row, sizes, given in BOUNDED:
        answers = [bounded(program, given, *row(size)) for size in sizes]
        print(f"| {name}, {'/'.join(map(str, sizes))}, {given} units | {' '.join(answers)} |", flush=True)


def asked_text(query, document, call="nodes"):
    """What the bench reads: a query, a document, and a call of a runner."""
    return f"{query}\n{json.dumps(document)}\n{call}\n"


def bounded(program, given, query, document, call="nodes"):
    """Whether so many units are enough, milliseconds, and the most memory in MB: less those of a run with no unit."""
    text = asked_text(query, document, call)
    enough, taken = asked(program, text, given)
    _, without = asked(program, text, 0)
    return f"{'enough' if enough else 'spent'} {(taken - without) / 1e6:.1f} ms {peak(program, text, given) - peak(program, text, 0):.0f} MB"


def peak(program, text, given):
    """The most memory of a run, in MB."""
    code = "import resource, subprocess, sys; subprocess.run(sys.argv[1:], stdout=subprocess.DEVNULL); print(resource.getrusage(resource.RUSAGE_CHILDREN).ru_maxrss)"
    run = subprocess.run([sys.executable, "-c", code, program, "units", str(given)], input=text, capture_output=True, check=True, text=True)
    return int(run.stdout) / 1024


def searches(count):
    """So many patterns, each searched for in 60 kB of letters at random, for which it works out some 10 MB."""
    letters = random.Random(1).choices("ab", k=60000)
    asked = (f"search(@,'a[ab]{{12}}[^ab{chr(0x4E00 + i)}]')" for i in range(count))
    return f"$[?{ored(asked)}]", ["".join(letters)]


def both(size):
    """So many patterns of the query and so many of the document, each searched for in 60 kB, for which it works out some 10 MB."""
    query, document = searches(size)
    others = [f"a[ab]{{12}}[^ab{chr(0x5E00 + i)}]" for i in range(size)]
    return query[:-1] + f"||search($[0],@)]", document + others


# Patterns that take much of `regex`.
PATTERNS = [
    ("literals that patterns spell", lambda size: texts([spelling(i) for i in range(size)]), [1, 10, 40]),
    ("wide classes in both cases", lambda size: texts(["(?i)" + "[!-\U0010ffff]" * size]), [10, 100, 1000]),
    ("empty groups", lambda size: texts(["()" * size]), [1000, 2000, 10000]),
    ("named groups", lambda size: texts([named_groups(size)]), [500, 1000, 16000]),
    ("groups", lambda size: texts(["(a)" * size]), [1000, 2000, 20000]),
    ("patterns on one text", searches, [1, 24, 200]),
    ("patterns of the query and of the document on one text", both, [1, 31]),
    ("groups in branches", lambda size: texts([in_branches(i) for i in range(size)]), [10, 40, 200]),
]


def patterns_tried(program):
    for name, row, sizes in PATTERNS:
        tried = []
        for size in sizes:
            query, document = row(size)
            tried.append(used(program, "values", query, json.dumps(document).encode()))
        seconds_taken = "/".join(f"{taken:.3f}" for taken, _ in tried)
        print(f"| {name}, {'/'.join(map(str, sizes))} | {seconds_taken} | {'/'.join(f'{most:.0f}' for _, most in tried)} |", flush=True)


TABLES = {"times": times, "stack": stack, "units": units, "patterns": patterns_tried}


def add_arguments(parser):
    """Adds the arguments of a table."""
    parser.add_argument("program", help="the program that is measured")


def run(options):
    """Prints the table that the options name."""
    TABLES[options.name](options.program)
