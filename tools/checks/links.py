"""Finds the links of the pages that lead nowhere.

The pages are those at the top, in docs/ and in the crates. A link leads nowhere where it leads to no file; to no heading of a page; or, where it
names an item of a file, as [`name`](file#L12), to a line that is not the head of that item. Each is told, and the status is 0 only where there is
none.
"""

import glob
import os
import re

from lib.repository import ROOT, read, write

PAGES = ["*.md", "docs/*.md", "crates/*/README.md"]
LINK = re.compile(r"\]\(([^()\s]+)\)")
ITEM = re.compile(r"\[`([^`]+)`\]\(([^()\s#]+)#L(\d+)\)")
CODE = re.compile(r"^```.*?^```|^ {4}.*?$", re.M | re.S)


def heads_of(path, name):
    """Returns the lines of a file at which an item of that name begins."""
    head = re.compile(rf"\s*(?:pub )?(?:const )?(?:fn|struct|enum|trait|type) {re.escape(name)}\b")
    return [at for at, line in enumerate(read(path).splitlines(), 1) if head.match(line)]


def name_of(text):
    """Returns the item that a link's text names: the last of a path or of calls in a row, without what it takes."""
    return re.split(r"\.|::", re.sub(r"\([^()]*\)", "", text))[-1]


def headings_of(path):
    """Returns the anchors of a page's headings."""
    found = []
    for title in re.findall(r"^#+ (.*)$", CODE.sub("", read(path)), re.M):
        words = re.sub(r"[^\w\- ]", "", re.sub(r"\[([^\]]*)\]\([^)]*\)", r"\1", title).lower())
        found.append(words.strip().replace(" ", "-"))
    return found


def is_there(page, target):
    """Returns whether a link of a page leads to a file, and to a heading where it names one."""
    path, _, anchor = target.partition("#")
    path = os.path.join(os.path.dirname(page), path) if path else page
    if not os.path.exists(path):
        return False
    return not anchor or not path.endswith(".md") or anchor in headings_of(path)


def asked(page):
    """Returns what is wrong on a page, and its text with the lines of items mended."""
    text, wrong = read(page), []

    def right(link):
        """Returns a link of an item with the right line, and notes it where it had another."""
        named, path, line = link[1], link[2], int(link[3])
        file = os.path.join(os.path.dirname(page), path)
        heads = heads_of(file, name_of(named)) if os.path.isfile(file) else [line]
        if line in heads:
            return link[0]
        wrong.append(f"{named}: {path}#L{line}, and the item begins at {heads or 'no line'}")
        return f"[`{named}`]({path}#L{min(heads, key=lambda head: abs(head - line), default=line)})"

    mended = ITEM.sub(right, text)
    targets = [it for it in LINK.findall(CODE.sub("", text)) if not re.match(r"\w+:", it)]
    wrong += [f"{it}: leads nowhere" for it in targets if not is_there(page, it)]
    return wrong, mended


def add_arguments(parser):
    """Adds the arguments of this check."""
    parser.add_argument("--fix", action="store_true", help="gives each link of an item the line of the nearest item of that name")


def run(options):
    """Tells the links that lead nowhere, and returns the status, with --fix 0."""
    count = 0
    for page in sorted(it for pages in PAGES for it in glob.glob(os.path.join(ROOT, pages))):
        wrong, mended = asked(page)
        count += len(wrong)
        for it in wrong:
            print(f"{os.path.relpath(page, ROOT)}: {it}")
        if options.fix and mended != read(page):
            write(page, mended)
    return 1 if count and not options.fix else 0
