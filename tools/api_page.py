#!/usr/bin/env python3
"""Writes docs/API.md and out/INNER.md: the public calls of the library crates, each with its contract.

    api_page.py            writes both pages (`make docs`)

docs/API.md has the calls for users, and is kept in the repository. out/INNER.md has all others, and isn't kept. A page has an
index by name, and then each crate: its types with their calls, its traits and its functions, as rustdoc groups them. A call has
its signature, its `///` lines and all its clauses. Each word of a clause is a link to the line of its definition.
`.ci/checks/api_page.py` tells whether docs/API.md is fresh, and whether each public call is on one of the pages.
"""
import collections
import dataclasses
import functools
import os
import pathlib
import re
import sys

from items import Item, imported, read, subject, words_of
from workspace import ROOT, crates

# The crates of each page, what it is called, and how it begins.
API, INNER = "docs/API.md", "out/INNER.md"
PAGES = {
    API: (
        "Calls and contracts",
        ["imgref", "image_tiles", "image_regions", "imgref_replay"],
        "Every public call for users, with its contract. [CALLERS.md](CALLERS.md) shows how to use them. `make docs` writes this page, and `out/INNER.md` with the calls that users don't need.",
    ),
    INNER: (
        "Inner calls and contracts",
        ["imgref", "image_tiles", "image_shape", "row_mover", "image_rows", "image_pixels", "image_writes", "image_ops"]
        + ["image_turns", "image_means", "image_planes", "texts", "devices", "frame_texts", "frame_edits", "frame_formats"]
        + ["frame_requests", "frame_runs", "frame_messages", "imgref_run", "imgref_frames"],
        "The public calls that users don't need. [API.md](../docs/API.md) has the calls for users.",
    ),
}
# What the crates for users offer and users don't need: docs/API.md leaves it out. Users get iterators from calls of an image.
NOT_FOR_USERS = {"PixelsIter::new", "PixelsIterMut::new", "PixelsRefIter::new", "RowsIter::new", "RowsIterMut::new"}
# Calls whose clauses only a proof by hand can use.
NOT_FOR_USERS |= {"BandsMut::split_first", "BandsMut::step", "End", "RowsIterMut::split_end", "RowsIterMut::step"}
NOT_FOR_USERS |= {"Img::exact_pixels_mut", "Img::from_stretch", "Stretch"}
# Where cells, rows and tiles are.
NOT_FOR_USERS |= {"tile_at", "tiles_along"}
NOT_FOR_USERS |= {f"Shape::{it}" for it in "any_row cell cells_of_rows packed padding reach row row_above row_count stretch whole_rows".split()}
HOW_TO_READ = """## How to read a contract

A `requires` is what the caller has to prove, and an `ensures` is what it may rely on. An `ensures*` says what the lender has once a borrow ends. A parameter `x` stands for its value. Where it is a reference, `x.now` is what it points to. At a `&mut` parameter `x.old` is that before the call, and `x.new` after it. `x.entry` is the parameter as it was passed.

Each word with a link is a definition of this repository. These are the words of Rattle's library that occur most:

| Word | Says |
|---|---|
| `IfOk r (λ x. p)`, `IfErr`, `IfSome` | where `r` is `Ok x` (`Err x`, `Some x`), `p` holds |
| `OnErr r p` | where `r` is an `Err`, `p` holds |
| `MatchResult r (λ x. p) (λ e. q)` | `p` for `Ok x`, and `q` for `Err e` |
| `MatchBool b p q` | `p` where `b` is true, and else `q` |
| `IsTrue b`, `IsOk r` | `b` is true; `r` is an `Ok` |
| `All p xs` | `p` holds for each item of the list `xs` |
| `sem 𝓛 (follows A B a b f)` | once the borrow `b` ends with the value `v`, the borrow `a` has the value `f v`: writes reach the lender |
| `sem 𝓛 (follows_if A B a b f v)` | the same where there is a `b`, and else `a` has the value `v` |
| `Lends A B a b f` | the same as `follows`, of two references |
| `YieldsFirstBy f left s x t` | a step from `s` to `t` gives the first item that is left in `s`, as `f` reads it, and the others are left in `t`; where none is left it gives `None` |
| `item_count left s` | how many items are left in `s` |
| `F.pre f x`, `F.post f x y` | the closure `f` may be called with `x`; called so it may return `y` |

`rt lemma WORD` finds any other word.
"""
# How many lines of a file are seen where it opens.
TOP = 8
# A word of a clause with its fields; and what Markdown would take for its own.
WORD = re.compile(r"[^\W\d]\w*(?:\.\w+)*")
SPECIAL = re.compile(r"(?<!\w)_|_(?!\w)|[*\[\]\\`~|]")
DEFINED = re.compile(r"\s*(?:abbrev |unfoldable )?(?:pub )?(?:record |data )?([^\W\d][\w-]*)(?: |$)")
USED = re.compile(r"pub use Rattle\.([\w.]+?)$")


def lines_of(path):
    return path.read_text().splitlines()


@functools.cache
def definitions(path):
    """The line of each definition of a file. A field or a constructor is one only where nothing else has its name."""
    found, inner = {}, {}
    for number, line in enumerate(lines_of(path), 1):
        named = DEFINED.match(line)
        if named and (": " in line or " where" in line):
            kept = inner if line.startswith(" ") and not re.match(r"\s*(abbrev|unfoldable|pub (record|data))\b", line) else found
            kept.setdefault(named[1], number)
    return {**inner, **found}


@functools.cache
def defined(module, name):
    """Where a word is defined: its file and line; or None for a word of Rattle's library, and one that the compiler makes."""
    crate, _, below = module.partition(".specs.")
    if crate not in crates() or not below or below.split(".")[0] in ("contracts", "declared"):
        return declared(crate, below, name) if crate in crates() else None
    path = ROOT / "crates" / crate / "specs" / (below.replace(".", "/") + ".antt")
    if path.exists():
        if name in definitions(path):
            return path, definitions(path)[name]
        there, known = imported(path.read_text()).get(name, ("", ""))
        return defined(there.removeprefix("Rattle."), known) if there else None
    used = [USED.match(it) for it in lines_of(path.parent / "Lib.antt")]
    return next((defined(it[1], name) for it in used if it and it[1].endswith(f".specs.{below}")), None)


def declared(crate, below, name):
    """The file of a type or a variant of the code that a contract names."""
    parts = below.split(".")
    path = ROOT / "crates" / crate / "src" / f"{parts[1]}.rt" if parts[0] == "declared" else None
    found = [n for n, it in enumerate(lines_of(path), 1) if re.search(rf"^(pub (struct|enum) |    ){name}\b", it)] if path and path.exists() else []
    return (path, found[0]) if found else None


@dataclasses.dataclass
class Entry:
    """An item of a crate: where it is, the words of its clauses, the block that it belongs to, and its anchor."""

    crate: str
    path: pathlib.Path
    item: Item
    words: dict
    block: Item = None


class Crate:
    """What a crate offers: by `pub use` in its root file, from its own files or from another crate's."""

    def __init__(self, name):
        self.name = name
        self.root = next(it for it in (ROOT / f"crates/{name}/src/lib.rt", ROOT / f"crates/{name}/src/main.rt") if it.exists())
        text = lines_of(self.root)
        self.told = [it[4:] for it in text if it.startswith("//!")]
        modules = [it[4:-1] for it in text if re.match(r"mod \w+;", it)]
        self.entries = [it for module in modules for it in entries(name, self.root.parent / f"{module}.rt")]
        self.exports = dict(exported(text))

    def own(self):
        """The names that it offers from its own files."""
        return [it for it, module in self.exports.items() if module not in crates()]

    def others(self):
        """Those of other crates."""
        return {it: module for it, module in self.exports.items() if module in crates()}


def exported(text):
    """Each name that a root file offers, with the module or the crate that it comes from."""
    for module, names, name in re.findall(r"(?m)^pub use (\w+)::(?:\{([^}]*)\}|(\w+));", "\n".join(text)):
        yield from ((it.strip(), module) for it in (names or name).split(",") if it.strip())


def entries(crate, path):
    """The items of a file that a page may show, those of blocks one by one."""
    if not path.exists():
        return
    items = list(read(lines_of(path)))
    words = words_of(items)
    for it in items:
        yield Entry(crate, path, it, words)
        if it.kind in ("impl", "trait"):
            inner = {**words, **words_of(it.members)}
            yield from (Entry(crate, path, member, inner, it) for member in it.members)


@functools.cache
def crate_of(name):
    return Crate(name)


def home(name, crate):
    """The crate whose files define a name that another crate offers."""
    module = crate_of(crate).exports.get(name)
    return home(name, module) if module in crates() else crate


# ---- blocks of code


def code(lines):
    """A signature, without the brace or the comma after it."""
    text = "\n".join(lines).rstrip()
    return re.sub(r"\s*(\{\}|\{|;|,)$", "", text).rstrip(",")


def fields(item):
    """The public fields or the variants of a type, with their lines."""
    shown = [it for it in item.body if not re.match(r"\s*ghost ", it) and not re.match(r"    //(?!/)", it)]
    if item.kind == "enum":
        return shown
    kept, told = [], []
    for it in shown:
        told = [*told, it] if it.strip().startswith("///") else told
        if it.strip().startswith("pub "):
            kept += [*told, it]
        told = told if it.strip().startswith("///") else []
    return kept


def definition(item):
    """A type as its code says it, without what is private."""
    if item.kind in ("struct", "enum") and item.head[-1].endswith("{"):
        inner = fields(item)
        return "\n".join([*item.head, *inner, "}"] if inner else [*item.head[:-1], f"{item.head[-1]} /* private fields */ }}"])
    return "\n".join(item.head)


def members_of(entry):
    """The members of all blocks of a type, those in its own file first."""
    all_of_them = crate_of(entry.crate).entries
    aliases = [it.item.name for it in all_of_them if it.item.kind == "type" and not it.block and f"= {entry.item.name}<" in it.item.head[0]]
    inside = [it for it in all_of_them if it.block and it.block.kind == "impl" and subject(it.block)[0] in (entry.item.name, *aliases)]
    return sorted(inside, key=lambda it: it.path != entry.path)


# ---- a page


class Page:
    """One page: what it shows, and the links of its clauses."""

    def __init__(self, path):
        self.path, self.is_for_users = ROOT / path, path == API
        self.title, self.crates, self.intro = PAGES[path]
        # The crates of which the page has only the calls that the page for users leaves out.
        self.shared = [] if self.is_for_users else PAGES[API][1]
        # The names of the index with their anchors; what the words of clauses lead to; and those that are a trait's own.
        self.names, self.targets, self.of_traits = [], {}, {}
        said = [it for name in self.crates if name not in self.shared for it in crate_of(name).entries if it.block and it.block.kind == "trait" and it.block.is_public]
        self.traits_words = {it.item.name: f"{it.crate}.{it.block.name}" for it in said if it.item.kind == "ghost" and it.item.clauses}

    def link(self, path, line):
        """The line of a file. A file opens at its first lines without a number."""
        return os.path.relpath(path, self.path.parent) + (f"#L{line}" if line > TOP else "")

    def text(self):
        """The page. Its clauses are gone through twice: the first time tells which words need a longer label."""
        self.body()
        body = self.body()
        labels = sorted({f"[{self.label(word, target)}]: {self.link(*target)}" for word, targets in self.targets.items() for target in targets}, key=lambda it: (it.casefold(), it))
        labels += [f"[{word}]: #{anchor}" for word, anchor in sorted(self.of_traits.items())]
        head = [f"# {self.title}", "", "<!-- Written by `make docs` from the code: change the code, and not this page. -->", "", self.intro, ""]
        return "\n".join([*head, *self.index(), HOW_TO_READ, *body, *labels, ""])

    def index(self):
        """The names in the order of the alphabet, each with a link."""
        letters, count = {}, collections.Counter(name for name, _ in self.names)
        for name, anchor in sorted(self.names, key=lambda it: (it[0].split("::")[-1].casefold(), *it)):
            # (the same name in two crates says which)
            shown = name if count[name] == 1 else f"{anchor.split('.')[0]}::{name}"
            letters.setdefault(name.split("::")[-1][0].upper(), []).append(f"[`{shown}`](#{anchor})")
        return ["## Index by name", "", *[f"- **{letter}**: {' · '.join(links)}" for letter, links in letters.items()], ""]

    def label(self, word, target):
        """The label of a link: the word itself where no other definition on the page has it."""
        alike = {it for other, targets in self.targets.items() if other.casefold() == word.casefold() for it in targets}
        return word if alike == {target} else f"{target[0].parts[-3]}.{target[0].stem}.{word}"

    def body(self):
        """The lines of all crates."""
        self.names = []
        return [line for it in self.crates for line in self.crate(crate_of(it))]

    def heading(self, level, crate, name, shown=None):
        """A heading that is a place to link to, with its name in the index."""
        anchor = f"{crate}.{name}".replace("::", ".").replace(" ", "-")
        is_known = (name, anchor) in self.names
        if not is_known:
            self.names.append((name, anchor))
        place = "" if is_known else f'<a id="{anchor}"></a>'
        return f"{level} {place}`{shown or name}`"

    def crate(self, crate):
        if crate.name in self.shared:
            yield from self.left_out(crate)
            return
        yield from [f"## {crate.name}", "", *paragraphs(crate.told), ""]
        inlined = [name for name in crate.others() if self.shows(name) and self.shown_at(name, crate) == crate.name]
        yield from self.offered(crate, inlined)
        names = [it for it in [*crate.own(), *inlined] if self.shows(it)]
        for kinds in (("struct", "enum"), ("trait",), ("type",), ("fn", "const")):
            for name in names:
                for entry in crate_of(home(name, crate.name)).entries:
                    if entry.item.name == name and entry.item.kind in kinds and entry.block is None and entry.item.is_public:
                        yield from self.top(entry)

    def left_out(self, crate):
        """The calls of a crate for users that the page for users leaves out."""
        yield from [f"## {crate.name}", "", f"These are the calls that [API.md](../docs/API.md#{crate.name}) leaves out.", ""]
        for name in crate.own():
            yield from (line for it in crate.entries if it.item.name == name and it.block is None for line in self.own_calls(it))

    def shows(self, name):
        """Whether the page has an item or a call of a type: docs/API.md only what is for users."""
        return not self.is_for_users or name not in NOT_FOR_USERS

    def shown_at(self, name, crate):
        """The crate under which a page has an item of another crate: its own, or else the first one that offers it."""
        of = home(name, crate.name)
        known = self.crates if self.is_for_users else [it for _, names, _ in PAGES.values() for it in names]
        return of if of in known else next(it for it in known if name in crate_of(it).others())

    def offered(self, crate, inlined):
        """The items of other crates that this one offers and that are elsewhere on the pages."""
        links = []
        for name in (it for it in crate.others() if it not in inlined and self.shows(it)):
            page = ROOT / API if self.shown_at(name, crate) in self.shared else self.path
            links.append(f"[`{name}`]({'' if page == self.path else os.path.relpath(page, self.path.parent)}#{home(name, crate.name)}.{name})")
        if links:
            yield from [f"It also offers {', '.join(links)}.", ""]

    def top(self, entry):
        """A type with its calls, a trait, or a function."""
        item = entry.item
        yield self.heading("###", entry.crate, item.name)
        if item.kind == "trait":
            yield from self.trait(entry)
            return
        yield from self.block([definition(item) if item.kind != "fn" else code(item.head)], entry)
        if item.kind in ("struct", "enum"):
            yield from self.own_calls(entry)
            yield from self.traits_of(entry)

    def block(self, code_lines, entry):
        """A signature, its `///` lines, and its clauses. What it requires in words comes first among these."""
        yield from ["```rust", *code_lines, "```", ""]
        told, clauses = paragraphs(entry.item.told), list(self.clauses(entry))
        if clauses and told and told[-1].startswith("**Requires.**"):
            clauses.insert(0, f"- {told[-1]}")
            told = told[:-2]
        for lines in (told, clauses):
            if lines:
                yield from [*lines, ""]

    def own_calls(self, entry):
        """The calls of a type's own blocks, by name."""
        own = [it for it in members_of(entry) if it.item.kind == "fn" and it.item.is_public and not subject(it.block)[1]]
        for name in dict.fromkeys(it.item.name for it in own):
            full = f"{entry.item.name}::{name}"
            if self.has_call(entry.crate, full):
                yield self.heading("####", entry.crate, full)
                for it in (it for it in own if it.item.name == name):
                    yield from self.block([code(it.block.head), code(it.item.head)], it)

    def has_call(self, crate, name):
        """Whether the page has a call. The inner page has those of a crate for users that the page for users leaves out."""
        return name in NOT_FOR_USERS if crate in self.shared else self.shows(name)

    def traits_of(self, entry):
        """The traits of a type."""
        inside = members_of(entry)
        blocks = {id(it.block): it.block for it in inside if subject(it.block)[1]}
        yield from (line for block in blocks.values() for line in self.traits(entry.crate, [it for it in inside if it.block is block], block))

    def traits(self, crate, members, block):
        """A trait of a type: what its own clauses are here."""
        said = [it for it in members if it.item.clauses]
        if not said and not block.told:
            return
        of, trait = subject(block)
        yield from [self.heading("####", crate, f"{trait} for {of}", code([" ".join(it.strip() for it in block.head)])), ""]
        if told := paragraphs(block.told):
            yield from [*told, ""]
        equations = [line for it in said if it.item.kind == "ghost" for line in self.clauses(it)]
        if equations:
            yield from [*equations, ""]
        for it in (it for it in said if it.item.kind == "fn"):
            yield from self.block([code(it.item.head)], it)

    def trait(self, entry):
        """A trait: what it says of its types, its functions, and the types that have it."""
        yield from ["```rust", code(entry.item.head), "```", ""]
        yield from [*paragraphs(entry.item.told), ""]
        inside = [it for it in crate_of(entry.crate).entries if it.block is entry.item]
        for it in inside:
            name = f"{entry.item.name}::{it.item.name}"
            if it.item.kind == "fn":
                yield self.heading("####", entry.crate, name)
                yield from self.block([code(it.item.head)], it)
        said = [line for it in inside if it.item.kind == "ghost" for line in self.clauses(it)]
        if said:
            yield from ["The words of its contracts, and their laws:", "", *said, ""]

    def clauses(self, entry):
        """The clauses of an item, one a line, each word with a link."""
        for it in entry.item.clauses:
            told = f" ({' '.join(entry.item.told).rstrip('.')})" if it.kind == "ghost" and entry.item.told else ""
            name = f" **{it.name}**" if it.name else ""
            kind = "ensures\\*" if it.kind == "ensures*" else it.kind
            text = f"<code>{self.linked(it.text, entry)}</code>"
            yield f"-{name}{told}: {text}" if it.kind == "ghost" else f"- {kind}{name}: {text}"

    def linked(self, text, entry):
        """The text of a clause, in which each word that is defined here is a link."""
        parameters = set(re.findall(r"\b([a-z]\w*): ", " ".join(entry.item.head))) if entry.item.kind == "fn" else set()
        bound = {it for some in re.findall(r"λ ([\w ]+)\.|\(([\w ]+) : ", text) for it in " ".join(some).split()}
        shown, at = [], 0
        for found in WORD.finditer(text):
            shown.append(escaped(text[at : found.start()]))
            shown.append(self.word(found[0], parameters | bound, entry))
            at = found.end()
        return "".join([*shown, escaped(text[at:])])

    def word(self, text, bound, entry):
        """A word with its fields, as a link where it is a definition of this repository or a trait's own word."""
        word, dot, more = text.partition(".")
        target = None if word in bound else self.target(word, entry)
        if not target and more in self.traits_words and word not in bound:
            self.of_traits[text] = self.traits_words[more]
            return f"[{text}]"
        return (self.shown(word, target) if target else escaped(word)) + dot + escaped(more)

    def target(self, word, entry):
        """Where a word is defined, if it is a word of this repository."""
        if word not in entry.words:
            return None
        module, name = entry.words[word]
        return defined(module.removeprefix("Rattle."), name)

    def shown(self, word, target):
        self.targets.setdefault(word, set()).add(target)
        label = self.label(word, target)
        return f"[{word}]" if label == word else f"[{word}][{label}]"


def escaped(text):
    """What Markdown and HTML would take for their own, as plain text."""
    plain = text.replace("&", "&amp;").replace("<", "&lt;").replace(">", "&gt;")
    return SPECIAL.sub(lambda it: f"\\{it[0]}", plain)


def paragraphs(told):
    """The `///` lines as text, a paragraph on a line: a heading is bold, and a name in brackets is a name."""
    text = re.sub(r"\[(`[^`]*`)\]", r"\1", "\n".join(told))
    text = re.sub(r"(?m)^# (.*)\n\n", r"**\1.** ", text)
    return re.sub(r"(?<=[^\n])\n(?![\n|]|[-*] |\d+\. |    )", " ", text).splitlines()


def main(words):
    if words:
        sys.exit(__doc__)
    for path in PAGES:
        (ROOT / path).parent.mkdir(exist_ok=True)
        (ROOT / path).write_text(Page(path).text())
        print(path)


if __name__ == "__main__":
    main(sys.argv[1:])
