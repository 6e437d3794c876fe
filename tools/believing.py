"""The definitions that the contract of a call rests on: what a reader of it has to believe.

A line counts if it is neither blank nor a comment. Types of the code, std and ported crates don't count."""

import collections
import functools
import os
import re

import sources

CALLS = ["office_prog::run", "office_server::run_serve", "http_front::session"]
USE = re.compile(r"^\s*(?:ghost |pub |unfoldable )*use Rattle\.([^;\n]+);?", re.M)


def names_in(path):
    """Pairs of a local name and the path that it stands for, of what one `use` imports."""
    front, _, inner = path.partition(".{")
    if not inner:
        whole, _, other = path.partition(" as ")
        return [(other or whole.split(".")[-1], whole)]
    found = []
    for it in inner.rstrip("}").split(","):
        whole, _, other = it.strip().partition(" as ")
        found.append((other or whole.split(".")[-1], f"{front}.{whole}"))
    return found


@functools.cache
def imports_of(path):
    """What a file imports: each local name with its path."""
    return dict(pair for it in USE.findall(sources.read(path)) for pair in names_in(it.strip()))


@functools.cache
def blocks_of(path):
    """The definitions of a file: each name with its lines, and the first line of each."""
    found, name = collections.defaultdict(list), None
    for line in sources.read(path).splitlines():
        plain = line.split("--")[0].rstrip() if line.lstrip().startswith("--") else line
        if not plain.strip() or re.match(r"\s*(?:pub |unfoldable )*(?:use|mod) ", plain):
            continue
        begun = re.match(r"^(?:  )?(?:(?:abbrev|unfoldable|pub) )+(?:(?:record|data) )?([^\s:({]+)", plain)
        if begun and not re.match(r"^ +pub (?!record|data)\S+ :", plain):
            name = begun[1]
        if name:
            found[name].append(plain)
    return found


def place_of(path):
    """The file and the name of a definition of ours, or nothing."""
    parts = path.split(".")
    if "Below" in parts:
        at = len(parts) - 1 - parts[::-1].index("Below")
        parts = [parts[at + 1], "specs", *parts[at + 2:]]
    if len(parts) < 4 or parts[1] != "specs" or parts[2] == "declared":
        return None
    file = os.path.join(sources.TOP, "crates", parts[0], "specs", *parts[2:-1]) + ".antt"
    return (file, parts[-1]) if os.path.exists(file) else None


def reached(file, words, seen):
    """Adds to what is seen the definitions that these words of a file name, and all that they name in turn."""
    imports, own = imports_of(file), blocks_of(file) if file.endswith(".antt") else {}
    for word in words:
        place = (file, word) if word in own else place_of(imports[word]) if word in imports else None
        if place and place not in seen:
            target, name = place
            if name not in blocks_of(target):
                reached(target, [name], seen)
                continue
            seen.add(place)
            reached(target, sources.WORD.findall(" ".join(blocks_of(target)[name])), seen)


def of_call(name, seen):
    crate, _, call = name.partition("::")
    for it in sources.crates():
        for found in it.calls() if it.name == crate else []:
            if found.name == call:
                reached(found.path, sources.WORD.findall(" ".join(clause.text for clause in found.clauses)), seen)


def lines_of(calls=CALLS, but=()):
    """The lines of the definitions that the contracts of these calls rest on, by crate, and how many definitions these are. But for
    what only definitions of the names that are left out rest on, and these themselves."""
    left_out = {place_of(it) for it in but}
    seen = set(left_out)
    for name in calls:
        of_call(name, seen)
    lines = collections.Counter()
    for file, name in seen - left_out:
        lines[os.path.relpath(file, sources.TOP).split(os.sep)[1]] += len(blocks_of(file)[name])
    return lines, len(seen - left_out)
