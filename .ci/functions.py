"""Functions in the text of a source file: where each begins and ends, what it is a function of, and its proof files.

A file is read by its layout, which `rt fmt` makes (tools/items.py).
"""
import dataclasses
import re

from items import braced, read, subject

# What only one function may have: a name for the linker, or a place in a cycle of calls.
UNIQUE = re.compile(r"\s*#\[.*\b(?:export_name|no_mangle|cycle|test|cfg)\b")


@dataclasses.dataclass(frozen=True)
class Function:
    """A function of a file: its name, which of that name it is (from 0), its lines (from 0, the end after the last), and its owner."""

    name: str
    number: int
    start: int
    end: int
    # The type of its `impl`, "" for a function of a module, or None for one of a trait.
    owner: object
    is_unique: bool
    is_recursive: bool

    @property
    def is_copyable(self):
        """Whether a copy under another name is next to it and means the same."""
        return self.owner is not None and not self.is_unique and not self.is_recursive

    def text(self, file):
        """Its lines in the text of its file."""
        return "\n".join(file.split("\n")[self.start : self.end])

    def renamed(self, text, name):
        """Its text, perhaps changed, under another name."""
        return re.sub(rf"\bfn {self.name}\b", f"fn {name}", text, count=1)


def functions(text):
    """Each function of a file as an item, with the block that it is in, or None."""
    for it in read(text.split("\n")):
        if it.kind == "fn":
            yield it, None
        yield from ((member, it) for member in it.members if member.kind == "fn")


def function_names(text):
    """The line of each function, from 0, and its name."""
    return [(it.line, it.name) for it, _ in functions(text)]


def first_above(lines, line, marks=("#[", "//")):
    """The first of the lines right above a line, from 0, that begin with one of these marks: attributes and comments. Without one the
    line itself."""
    while line and lines[line - 1].strip().startswith(marks):
        line -= 1
    return line


def function_at(text, part):
    """The function that has a part of the text, or None where no function has it."""
    lines, at = text.split("\n"), text[: text.index(part)].count("\n")
    before = [(it, block) for it, block in functions(text) if it.line <= at]
    if not before:
        return None
    found, block = before[-1]
    name, start = found.name, first_above(lines, found.line, ("#[",))
    number = sum(it.name == name for it, _ in before) - 1
    body = "\n".join(lines[found.line + 1 : found.end])
    is_unique = any(UNIQUE.match(it) for it in lines[start : found.line]) or at >= found.end
    return Function(name, number, start, found.end, owner_of(block), is_unique, bool(re.search(rf"\b{name}\b *(?:::<[^;(]*>)?\(", body)))


def span_of(text, name):
    """The lines of the function of that name, from 0 and the end after the last, with its doc lines. Raises ValueError without one."""
    found = next((it for it, _ in functions(text) if it.name == name), None)
    if found is None:
        raise ValueError(f"error: there is no function {name}")
    return first_above(text.split("\n"), found.line), found.end


def with_function(text, name, change):
    """The text of a file in which that function became what `change` makes of its text. Raises ValueError where that is the same."""
    lines = text.split("\n")
    start, end = span_of(text, name)
    old = "\n".join(lines[start:end])
    new = change(old)
    if new == old:
        raise ValueError(f"error: {name} is not changed")
    return "\n".join([*lines[:start], new, *lines[end:]])


def with_head(function, statement):
    """The text of a function with that statement at the head of its body."""
    head, brace, body = re.match(r"(?s)(.*?fn .*?\n?)( *\{\n|(?<= )\{\n)(.*)", function).groups()
    return f"{head}{brace}{statement}\n{body}"


def without_clause(function, name):
    """The text of a function without its clause of that name. Raises ValueError where it has not one."""
    opened = [*re.finditer(rf"(?m)^ *ensures\*? {name} (?=\{{)", function)]
    if len(opened) != 1:
        raise ValueError(f"error: there are {len(opened)} clauses {name}")
    return function[: opened[0].start()] + function[braced(function, opened[0].end()) + 2 :]


def owner_of(block):
    """The type of the `impl` that a function is in, "" where it is in a module, or None in a trait or its `impl`."""
    if not block:
        return ""
    of, trait = subject(block)
    return of if block.kind == "impl" and not trait and of[:1].isupper() else None


def proof_folder(crate, file, function):
    """The folder of a function's proof files in a crate, None where it has none, or False where that can't be told or it is proved by hand."""
    module = file.removeprefix("src/").removesuffix(".rt").removesuffix("/mod")
    top = crate / "proofs"
    if function.owner:
        found = [it for it in top.rglob(function.name) if it.is_dir() and re.fullmatch(rf"{function.owner}(?:\+.*)?", it.parent.name)]
    else:
        parent = top if module in ("lib", "main") else top / module
        found = [it for it in [parent / function.name] if it.is_dir()]
    if len(found) > 1 or found and any(found[0].rglob("Proof.antt")):
        return False
    return found[0] if found else None
