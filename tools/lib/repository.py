"""The repository: its folder, its files, and its crates."""

import os
import re
import subprocess

ROOT = os.path.dirname(os.path.dirname(os.path.dirname(os.path.realpath(__file__))))


def read(path):
    """Returns the text of a file."""
    with open(path, encoding="utf-8") as file:
        return file.read()


def write(path, text):
    """Writes the text of a file."""
    with open(path, "w", encoding="utf-8") as file:
        file.write(text)


def files_of(root):
    """Returns the files that git does not ignore, by their paths from the top of the repository."""
    told = subprocess.run(["git", "ls-files", "-z", "--cached", "--others", "--exclude-standard"], cwd=root, capture_output=True, check=True)
    return sorted({name for name in told.stdout.decode().split("\0") if name and os.path.isfile(os.path.join(root, name))})


def lines_of_crates(root):
    """Returns the lines of crates.txt by the names of their crates, lowest first."""
    text = read(os.path.join(root, "crates.txt"))
    return {line[1]: line[0] for line in re.finditer(r"^([a-z][a-z0-9_]*)[^:\n]*:.*$", text, re.M)}


def crates_of(root):
    """Returns what each crate of crates.txt stands on, crates and libraries of the kit, lowest crate first."""
    return {name: line.split(":")[1].split() for name, line in lines_of_crates(root).items()}


def below(root, crate):
    """Returns the crates below a crate, each once."""
    crates, found = crates_of(root), []
    left = [*crates[crate]]
    while left:
        name = left.pop()
        if name in crates and name not in found:
            found.append(name)
            left += crates[name]
    return found
