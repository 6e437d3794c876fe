"""What the crates say of themselves: their order, first lines, exported calls with their contracts, and definitions.

Sources are laid out by `rt fmt`: an item begins at the margin, what stands in a trait or an impl four spaces further on, and a
block ends with a brace under the item that it belongs to."""
import os
import re

TOP = os.path.dirname(os.path.dirname(os.path.abspath(__file__)))
WORD = re.compile(r"[A-Za-z_][A-Za-z_0-9]*")
FUNCTION = re.compile(r"^(?P<indent> *)(?P<pub>pub(?:\([a-z]+\))? )?(?:const )?fn (?P<name>\w+)", re.M)
BLOCK = re.compile(r"^(?P<pub>pub(?:\([a-z]+\))? )?(?P<kind>trait|impl)\b(?P<head>[^{]*)\{", re.M)
ITEM = re.compile(r"^(?P<pub>pub(?:\([a-z]+\))? )?(?P<kind>struct|enum|trait|fn|const fn|const|type) (?P<name>\w+)", re.M)
CONTRACT = re.compile(r"(requires|ensures)(?: (\w+))? \{")


class Clause:
    """A clause of a contract: `requires` or `ensures`, its name or nothing, and what it says."""

    def __init__(self, kind, name, text):
        self.kind, self.name, self.text = kind, name, text


class Call:
    """A function, or a method of a type or trait."""

    def __init__(self, name, owner, path, head, clauses, comment, is_of_trait):
        self.name, self.owner, self.path, self.head, self.clauses, self.comment = name, owner, path, head, clauses, comment
        self.is_of_trait = is_of_trait

    def module(self):
        return os.path.basename(self.path)[:-len(".rt")]

    def title(self):
        return f"{self.owner}::{self.name}" if self.owner else self.name

    def doc(self):
        """What its comment says, but for that a law does nothing."""
        return self.comment.replace(" It does nothing.", "")

    def of(self, kind):
        return [it for it in self.clauses if it.kind == kind]

    def is_law(self):
        """It gives nothing, takes nothing and may change nothing, so that its contract is all that there is to it."""
        takes = re.search(r"&mut|\(\s*(mut )?self\b|: (?!&)", self.head[self.head.find("("):])
        return not takes and "->" not in self.head and bool(self.of("ensures"))


class Crate:
    """A crate: its name, the crates that it uses, the lines that it begins with, and what its files hold."""

    def __init__(self, name, uses):
        self.name, self.uses = name, uses
        self.folder = os.path.join(TOP, "crates", name)
        self.files = {it: read(it) for it in files_under(os.path.join(self.folder, "src"), ".rt")}
        self.lib = next((text for path, text in self.files.items() if path.endswith(("/src/lib.rt", "/src/main.rt"))), "")

    def lines(self):
        """Its `//!` lines, as paragraphs."""
        first = [it[3:].strip() for it in self.lib.splitlines() if it.startswith("//!")]
        return [" ".join(it.split()) for it in "\n".join(first).split("\n\n")]

    def uses_of_lib(self):
        """What `pub use` names in lib.rt: pairs of a path in front and a name."""
        found = re.findall(r"^pub use ([^;]+);", self.lib, re.M)
        return [pair for it in found for pair in pairs_in("".join(it.split()))]

    def exported(self):
        """What others may use of it, each with the module that it stands in: of its own modules, and of lib.rt itself."""
        own = set(re.findall(r"^mod (\w+)", self.lib, re.M))
        named = {(path.split("::")[-1], name) for path, name in self.uses_of_lib() if path.split("::")[0] in own}
        return named | {("lib", it["name"]) for it in ITEM.finditer(self.lib) if (it["pub"] or "").strip() == "pub"}

    def handed_on(self):
        """What it hands on from other crates."""
        own = set(re.findall(r"^mod (\w+)", self.lib, re.M))
        return sorted(f"{path}::{name}" if path else name for path, name in self.uses_of_lib() if path.split("::")[0] not in own)

    def calls(self):
        """Every function, method and trait's method that it exports, by file."""
        exported = self.exported()
        names = {name for _, name in exported}
        found = [it for path, text in sorted(self.files.items()) for it in calls_in(path, text)]
        return [it for it in found if it.owner in names or (it.module(), it.name) in exported]

    def traits_met(self):
        """Pairs of an exported or plain type and the trait that an impl says it meets."""
        heads = [it["head"] for text in self.files.values() for it in BLOCK.finditer(text) if it["kind"] == "impl"]
        pairs = [trait_and_type(it) for it in heads]
        return sorted({(of, trait) for trait, of in pairs if trait})


def read(path):
    with open(path, encoding="utf-8") as file:
        return file.read()


def files_under(folder, end):
    found = [os.path.join(at, it) for at, _, names in os.walk(folder) for it in names]
    return sorted(it for it in found if it.endswith(end))


def pairs_in(path):
    """The paths and names that one `use` names."""
    if "{" not in path:
        front, _, name = path.rpartition("::")
        return [(front, name)]
    front, _, names = path.partition("::{")
    return [(front, it) for it in names.rstrip("}").split(",") if it]


def without_generics(text):
    """The text without what stands in angle brackets."""
    text = text.replace("->", "  ")
    while True:
        shorter = re.sub(r"<[^<>]*>", "", text)
        if shorter == text:
            return text
        text = shorter


def trait_and_type(head):
    """The trait, or nothing, and the type of the head of an impl."""
    plain = without_generics(head).split(" where")[0].strip()
    front, is_of_trait, of = plain.partition(" for ")
    trait, of = (front, of) if is_of_trait else ("", front)
    return trait.split("::")[-1].strip(), of.split("::")[-1].strip()


def blocks_in(text):
    """The traits and impls of a file: where each begins and ends, its trait and its type."""
    found = []
    for it in BLOCK.finditer(text):
        end = re.compile(r"^\}|(?<=\{)\}", re.M).search(text, it.end())
        trait, of = trait_and_type(it["head"])
        if it["kind"] == "trait":
            trait, of = "", WORD.search(it["head"])[0]
        found.append((it.start(), end.end() if end else len(text), it["kind"], trait, of))
    return found


def calls_in(path, text):
    """The functions of a file that another crate may call, if their names are exported."""
    blocks = blocks_in(text)
    found = []
    for it in FUNCTION.finditer(text):
        block = next((b for b in blocks if b[0] < it.start() < b[1]), None)
        is_of_trait = bool(block) and block[2] == "trait"
        if block and block[3] or ((it["pub"] or "").strip() != "pub" and not is_of_trait):
            continue
        head, clauses = contract_at(text, it.end())
        found.append(Call(it["name"], block[4] if block else "", path, head, clauses, comment_above(text, it.start()), is_of_trait))
    return found


def comment_above(text, at):
    """The `///` lines that stand right above, as one line."""
    above = re.search(r"((?:^ *///.*\n)*)(?:^ *#\[.*\n)*\Z", text[:at], re.M)
    return " ".join(above[1].replace("///", " ").split())


def contract_at(text, at):
    """The head of a function from behind its name, and the clauses of its contract."""
    begin, clauses, depth = at, [], 0
    head_end = None
    while at < len(text):
        clause = CONTRACT.match(text, at) if depth == 0 and text[at - 1].isspace() else None
        if clause:
            head_end = head_end or at
            close = closing_brace(text, clause.end() - 1)
            clauses.append(Clause(clause[1], clause[2] or "", " ".join(text[clause.end():close].split())))
            at = close + 1
        elif text.startswith("//", at):
            at = text.index("\n", at)
        elif depth == 0 and text[at] in "{;":
            break
        else:
            depth += (text[at] in "([") - (text[at] in ")]")
            at += 1
    return text[begin:head_end or at], clauses


def closing_brace(text, at):
    """Where the brace ends that is open there."""
    depth = 0
    for place in range(at, len(text)):
        depth += (text[place] == "{") - (text[place] == "}")
        if depth == 0:
            return place
    raise ValueError("a brace isn't closed")


def crates():
    """The crates in the order of crates.txt."""
    lines = [line.split("#")[0].strip() for line in read(os.path.join(TOP, "crates.txt")).splitlines()]
    pairs = [line.split(":", 1) for line in lines if line]
    return [Crate(name.strip(), uses.split()) for name, uses in pairs]


def groups():
    """Each group of crates.txt, which a line of its heading begins, with the names of its crates."""
    parts = [part.splitlines() for part in read(os.path.join(TOP, "crates.txt")).split("\n\n")]
    found = [part for part in parts if len(part) > 1 and part[0].startswith("# ") and not part[1].startswith("#")]
    return {lines[0][2:]: [line.split(":")[0].strip() for line in lines[1:]] for lines in found}


def programs_in(all_crates):
    """The programs that are for use: those with a main file, but for what benchmarks compare with."""
    return [it.name for it in all_crates if os.path.join(it.folder, "src", "main.rt") in it.files and not it.name.startswith("bench_")]


# Crates that no program is made of, and that are there for what is proved of them.
PROVED_ALONE = ["book_recovery", "manual_acts"]


def program_of(all_crates, roots=("office",)):
    """The crates that the program, or some programs, are made of."""
    uses = {it.name: it.uses for it in all_crates}
    seen, left = set(), list(roots)
    while left:
        name = left.pop()
        if name in uses and name not in seen:
            seen.add(name)
            left.extend(uses[name])
    return seen


DEFINITION = re.compile(
    r"^(?P<indent>(?:  )?)(?:(?:abbrev|unfoldable|pub) )*(?:(?:record|data) (?P<record>\w+)(?:[^\n]|\n(?= +[({]))*? where\n|(?P<name>[^\W\d]\w*)\b[^\n]*?:)", re.M)


def definitions_in(crate, folder="specs"):
    """The definitions of its specs/, or the lemmas of its proofs/, by name: the file and, of a record, the fields."""
    found = {}
    for path in files_under(os.path.join(crate.folder, folder), ".antt"):
        text = re.sub(r" *--[^\n]*", "", read(path))
        for it in DEFINITION.finditer(text):
            found.setdefault(it["record"] or it["name"], (path, fields_behind(text, it) if it["record"] else []))
    return found


def fields_behind(text, record):
    """The fields of a record: the names in front of a colon that stand deeper than it, up to what doesn't."""
    inside = re.match(r"(?:(?:%s  .*)?\n)*" % record["indent"], text[record.end():])[0]
    return re.findall(r"^%s  (?:pub )?(\w+) :" % record["indent"], inside, re.M)
