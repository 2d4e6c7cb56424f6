"""The items of a crate's files and their contracts, read from text that `rt fmt` laid out: by its indents and its ends of lines."""
import dataclasses
import itertools
import re

OPENS = re.compile(r"(?P<is_public>pub )?(?:pub\(\w+\) )?(?:const )?(?:unsafe )?(?:extern \"C\" )?(?P<kind>fn|struct|enum|trait|type|impl|const|static|ghost|use|mod)\b ?(?P<name>\w*)")
CLAUSE = re.compile(r"\s*(requires|ensures\*?)\s*(\w*)\s*\{")
EQUATION = re.compile(r"ghost (\w+)(:| =) \{(.*)\}[;,]$")
IMPORTED = re.compile(r"(?m)^ *(?:pub )?(?:ghost )?use ([\w.]+)\.\{([^}]*)\}")
MEMBERS = "    "


@dataclasses.dataclass
class Clause:
    """One fact of a contract: `requires`, `ensures`, `ensures*`, or `ghost` for what a trait's own clause is here."""

    kind: str
    name: str
    text: str


@dataclasses.dataclass
class Item:
    """An item of a file: what it is, its `///` lines, its signature, its clauses, and the items inside. Its lines are counted from 0: that of
    its first word, and the one after its last."""

    kind: str
    name: str
    is_public: bool
    told: list
    head: list
    clauses: list = dataclasses.field(default_factory=list)
    members: list = dataclasses.field(default_factory=list)
    body: list = dataclasses.field(default_factory=list)
    line: int = 0
    end: int = 0


def braced(text, at):
    """Where the brace that opens at a place is closed."""
    depth = 0
    for end in range(at, len(text)):
        depth += {"{": 1, "}": -1}.get(text[end], 0)
        if not depth:
            return end
    raise ValueError(f"no closing brace: {text[at:at + 80]}")


def clauses_of(text):
    """The clauses, one after the other, each on one line."""
    found, at = [], 0
    while opened := CLAUSE.match(text, at):
        end = braced(text, opened.end() - 1)
        found.append(Clause(opened[1], opened[2], " ".join(text[opened.end() : end].split())))
        at = end + 1
    return found


def head_end(lines, at, pad, kind):
    """The last line before a body, or of an item without one."""
    if kind in ("const", "static"):
        return next((it for it in range(at, len(lines)) if lines[it].endswith(";")), len(lines) - 1)
    for end in range(at, len(lines)):
        line = lines[end]
        if line in (f"{pad}{{", f"{pad}{{}}") or line.endswith((";", "}")) and not CLAUSE.match(line) and end == at:
            return end
        if line.endswith(";") or line.endswith((" {", " {}")) and not CLAUSE.match(line):
            return end
    return len(lines) - 1


def read(lines, pad="", first=0):
    """The items of these lines of a file, from the line `first` on, which are indented by `pad`."""
    told, derived, at = [], [], 0
    while at < len(lines):
        text = lines[at][len(pad) :]
        opened = OPENS.match(text) if lines[at].startswith(pad) and not text.startswith(" ") else None
        if text.startswith("///"):
            told.append(text[4:])
        elif text.startswith("#[derive"):
            derived.append(text)
        elif opened:
            end = head_end(lines, at, pad, opened["kind"])
            stop = end if not lines[end].endswith("{") else next((it for it in range(end, len(lines)) if lines[it] == f"{pad}}}"), len(lines) - 1)
            made = item(opened, told, derived, lines[at : end + 1], lines[end + 1 : stop], pad)
            made.line, made.end = first + at, first + stop + 1
            if made.kind in ("impl", "trait"):
                made.members = list(read(made.body, pad + MEMBERS, first + end + 1))
            yield made
            told, derived, at = [], [], stop
        elif not text.startswith("#"):
            told, derived = [], []
        at += 1


def item(opened, told, derived, head, body, pad):
    """The item of these lines: its signature, its clauses, and its body."""
    kind, name = opened["kind"], opened["name"]
    first = next((n for n, it in enumerate(head) if CLAUSE.match(it)), len(head))
    signature = [*derived, *(it[len(pad) :] for it in head[:first])]
    clauses = clauses_of("\n".join(it for it in head[first:] if not it.lstrip().startswith("//")))
    if kind == "ghost":
        name = head[0].split()[1].rstrip(":")
        whole = " ".join(it.strip() for it in head)
        equation = EQUATION.match(whole)
        clauses = [Clause("ghost", equation[1], " ".join(equation[3].split()))] if equation else []
    return Item(kind, name, bool(opened["is_public"]), told, signature, clauses, body=body)


def subject(block):
    """The type that a block is for, and the trait, if it is the block of one."""
    text = " ".join(it.strip() for it in block.head).removeprefix("impl")
    if text.startswith("<"):
        depths = list(itertools.accumulate({"<": 1, ">": -1}.get(it, 0) for it in text.replace("->", "- ")))
        text = text[depths.index(0) + 1 :]
    trait, _, of = text.strip().partition(" for ")
    return type_name(of or trait), type_name(trait) if of else None


def type_name(text):
    """The name of a type without what it is made of, or all of it where it has no name of its own."""
    named = re.match(r"(?:\w+::)*(\w+)", text)
    return named[1] if named else text


def imported(text):
    """The names that a text imports from modules of definitions and lemmas: each by its name here, with the module and its name there."""
    found = {}
    for module, names in IMPORTED.findall(text):
        for it in names.split(","):
            there, _, here = it.strip().partition(" as ")
            found[here.strip() or there] = (module, there)
    return found


def words_of(items):
    """The words that these items import for contracts."""
    return imported("\n".join(line for it in items if it.kind == "ghost" and it.name == "use" for line in it.head))
