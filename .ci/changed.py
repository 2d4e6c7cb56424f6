"""Which planted bugs a change can have affected since a commit.

The check of a bug reads its function, the function's proof files, the contracts of what the function calls, and the definitions,
lemmas and types that one of these cites. A bug is affected where one of these, or the bug itself, has no equal in the old tree.
Texts are compared and not paths, so what only moved to another file or crate hasn't changed. A name is followed by its import: to
the module that has it, also where another module passes it on. Only a method is told by its name alone, since no text says its
type. Another kit affects all.
"""
import collections
import dataclasses
import functools
import hashlib
import re
import tarfile
import tempfile

from functions import function_names, proof_folder
from items import imported
from processes import run_to_end
from workspace import PARTS, ROOT, crates, entries, own_sources, with_those_below

# The last commit that had landed when the work began, and the kit that proved it.
LANDED = ROOT / ".ci/last_landed"
# Of the bugs of public functions that no change affects, CI tries one in so many.
DRAWN = 20
# Pages, and what is built around the library for C and the programs. No proof reads them, and no check that the gate alone runs.
PAGES = re.compile(r"(?:docs|web|bindings|include|man)/.*|.*\.md|\.ci/last_landed|\.ci/checks/sentences\.py")
# A crate's texts, which are compared by themselves, and its planted bugs.
OF_A_CRATE = re.compile(rf"crates/\w+/(?:{'|'.join(PARTS)}|must-fail)/")
WORDS = re.compile(r"[^\s(){}\[\],.;:`<>&|!?=]+")
# What is called: a path before the name, or the point of a method.
CALLED = re.compile(r"(\.|\b(?:\w+::)+|\b)(\w+)(?:::<[^;(]*>)?\(")
# The first words of a definition, before its name.
OPENS = re.compile(r"(?:(?:pub|abbrev|record|data|law|opaque|instance|theorem|ruleset) )*(\S+)")
# Imports of whole modules, perhaps under another name.
RENAMED = re.compile(r"(?m)^ *(?:pub )?(?:ghost )?use ([\w.]+?)(?: as (\w+))?;?$")
RUST_USE = re.compile(r"(?m)^ *(?:pub )?use ([\w:]+?)::(?:(\w+)|\{([^}]*)\});")
# A type, a constant or a trait of a source file, up to the line that ends it.
ITEM = re.compile(r"(?ms)^(?:pub(?:\(\w+\))? )?(?:struct|enum|trait|type|const|union) (\w+).*?(?:^\}|;$)")
# Proof files of one function, which nothing else cites.
OF_ONE_FUNCTION = ("Answers.antt", "Invariants.antt", "Proof.antt")
COMMENT = re.compile(r"(?m)^ *//.*$|^--.*$")
BODY = re.compile(r"(?m)^ *\{$|\{$")
IS_PUBLIC = re.compile(r"(?m)^ *pub (?:const )?(?:unsafe )?(?:extern \"C\" )?fn ")


def git(*words):
    """What git says, or None where it fails."""
    ran = run_to_end(["git", "-C", ROOT, *words])
    return ran.stdout if ran.returncode == 0 else None


@functools.cache
def words_of(text):
    """The words of a text without its comments."""
    return frozenset(WORDS.findall(COMMENT.sub("", text)))


def plain(text):
    """A text without comments, in which a module has the same name in each crate."""
    return re.sub(r"\bRattle\.\w+\.", "Rattle.", COMMENT.sub("", text))


def old_files(commit):
    """The texts of the crates at a commit by their paths, or None where the history doesn't reach it."""
    with tempfile.NamedTemporaryFile(suffix=".tar") as file:
        if git("archive", "-o", file.name, commit, "crates") is None:
            return None
        with tarfile.open(file.name) as tar:
            return {it.name: tar.extractfile(it).read().decode() for it in tar if it.isfile() and it.name.endswith((".rt", ".antt", ".edit"))}


def definitions(text):
    """The definitions of a file: the name and the text of each."""
    for block in re.split(r"\n\s*\n", text):
        lines = [it for it in block.split("\n") if not it.startswith(("--", "use ", "pub use "))]
        if lines and (found := OPENS.match(lines[0])):
            yield found[1], "\n".join(lines)


@functools.lru_cache(maxsize=4096)
def functions_of(text):
    """The functions of a source file: the name of each and its text up to the next one."""
    heads, lines = function_names(text), text.split("\n")
    ends = [*(at for at, _ in heads[1:]), len(lines)]
    return [(name, "\n".join(lines[at:end])) for (at, name), end in zip(heads, ends)]


def contract(text):
    """What comes before a function's body."""
    body = BODY.search(text)
    return text[: body.start()] if body else text


def parts_of(name, text):
    """The texts of a file that may be the same elsewhere: each with its name."""
    if name.endswith(".antt"):
        yield from definitions(text)
    if name.endswith(".rt"):
        yield from ((found[1], found[0]) for found in ITEM.finditer(text))
        for function, whole in functions_of(text):
            yield from ((function, whole), (function, contract(whole)))
    yield "", text


@dataclasses.dataclass
class File:
    """A file of a crate, what it imports, and what it defines."""

    crate: str
    module: str
    text: str
    is_proof: bool
    # By the name here: the module and the name there. By the name of a module here: that module.
    imports: dict = dataclasses.field(default_factory=dict)
    modules: dict = dataclasses.field(default_factory=dict)
    # By the name that Rust code has for it: the crate that it is from.
    rust: dict = dataclasses.field(default_factory=dict)

    def __post_init__(self):
        self.imports = imported(self.text)
        for module, name in RENAMED.findall(self.text):
            self.modules[name or module.rpartition(".")[2]] = module
        for path, one, several in RUST_USE.findall(self.text):
            first = path.split("::")[0]
            for it in (one or several).split(","):
                self.rust[it.strip().rpartition(" ")[2]] = self.crate if first in ("crate", "self", "super") else first


@dataclasses.dataclass(frozen=True)
class Contract:
    """The contract of a function: its crate, the stem of its file, its name, and whether it is a method."""

    crate: str
    stem: str
    name: str
    is_method: bool


class Tree:
    """The crates as they are now: what each file defines, and what of that is new beside an old tree or cites something new."""

    def __init__(self, old):
        self.old = {(name, plain(part)) for path, text in old.items() for name, part in parts_of(path, text)}
        self.files = {}
        for crate in crates():
            for at in own_sources(crate):
                inside = at.relative_to(ROOT / "crates" / crate).with_suffix("").as_posix()
                text = at.read_text(encoding="utf-8")
                self.files[at] = File(crate, f"Rattle.{crate}.{inside.replace('/', '.')}", text, at.name in OF_ONE_FUNCTION)
        self.proofs = collections.defaultdict(list)
        for at, file in self.files.items():
            if file.is_proof:
                self.proofs[file.crate].append((at, file))
        self.by_module = {it.module: it for it in self.files.values()}
        self.defined = {it.module: {name for name, _ in definitions(it.text)} for at, it in self.files.items() if at.suffix == ".antt"}
        self.find_new()

    def is_old(self, name, text):
        return (name, plain(text)) in self.old

    def find_new(self):
        """What is new: definitions by module and name, types and functions with a new contract by crate and name, and these contracts."""
        self.new, self.contracts, cited = set(), set(), []
        for at, file in self.files.items():
            if at.suffix == ".antt" and not file.is_proof:
                for name, text in definitions(file.text):
                    if not self.is_old(name, text):
                        self.new.add((file.module, name))
                    elif "specs" in at.parts:
                        # (only a definition changes what another one means: what cites a lemma means what it did)
                        cited.append(((file.module, name), None, file, text))
            elif at.suffix == ".rt":
                self.new |= {(file.crate, found[1]) for found in ITEM.finditer(file.text) if not self.is_old(found[1], found[0])}
                for name, text in functions_of(file.text):
                    told = contract(text)
                    made = Contract(file.crate, at.stem, name, "self" in told.partition(")")[0])
                    if self.is_old(name, told):
                        cited.append(((file.crate, f"fn {name}"), made, file, told))
                    else:
                        self.contracts.add(made)
        self.new |= {(it.crate, f"fn {it.name}") for it in self.contracts}
        while more := [it for it in cited if (it[1] not in self.contracts if it[1] else it[0] not in self.new) and self.cites_new(it[3], it[2])]:
            self.new |= {key for key, *_ in more}
            self.contracts |= {made for _, made, *_ in more if made}

    @functools.lru_cache(maxsize=None)
    def followed(self, module, name):
        """Where a name comes from that a module has or passes on: its module and its name there."""
        file = self.by_module.get(module)
        if file and name not in self.defined.get(module, ()) and name in file.imports and file.imports[name] != (module, name):
            return self.followed(*file.imports[name])
        return module, name

    def is_new_in(self, module, name):
        """Whether a name of a module is new. A generated module is told by the types and functions of its crate that its path names."""
        module, name = self.followed(module, name)
        if (module, name) in self.new:
            return True
        _, crate, *path = [*module.split("."), "", ""]
        return module not in self.by_module and any((crate, it) in self.new or (crate, f"fn {it}") in self.new for it in [*path, name])

    def cites_new(self, text, file):
        """Whether a text of a file cites a definition, a lemma or a type that is new."""
        words = words_of(text)
        if any((file.module, it) in self.new or (file.rust.get(it, file.crate), it) in self.new for it in words):
            return True
        if any(self.is_new_in(*file.imports[it]) for it in words if it in file.imports):
            return True
        return any(self.is_new_in(file.modules[it], name) for it in words if it in file.modules for name in words)

    def calls_new(self, text, file, stem):
        """Whether the text of a function, in a file of that stem, has a call of one whose contract is new."""
        return any(self.may_be_called(it, path, file, stem) for path, name in CALLED.findall(text) for it in self.contracts if it.name == name)

    def may_be_called(self, made, path, file, stem):
        """Whether a call with such a path before its name, in a file, may be one of the function with this contract."""
        below = {*with_those_below(file.crate)}
        if made.crate not in below or path == ".":
            return made.crate in below and made.is_method
        first, *rest = path.removesuffix("::").split("::")
        crate = first if first in below else file.rust.get(first or made.name, file.crate)
        if crate != file.crate:
            # (a library passes on functions of those below it)
            return crate in below and made.crate in with_those_below(crate)
        last = (rest or [first])[-1]
        module = stem if not path and made.name not in file.rust else last if last[:1].islower() and last not in ("crate", "self", "super") else made.stem
        return made.crate == crate and made.stem in (module, "mod", "lib")


class Changes:
    """What differs from the texts of an old tree, by their paths."""

    def __init__(self, old):
        self.tree = Tree(old)

    def affects(self, bug):
        """Whether a bug, its function, what proves it, or what its function cites or calls differs."""
        tree, crate = self.tree, bug.path.parent.parent
        if not tree.is_old("", bug.path.read_text(encoding="utf-8")) or None in bug.functions:
            return True
        for at, function in bug.functions:
            file = tree.files[crate / at]
            text = [it for name, it in functions_of(file.text) if name == function.name][function.number]
            if not tree.is_old(function.name, text) or tree.cites_new(text, file) or tree.calls_new(text, file, (crate / at).stem):
                return True
            if any(not tree.is_old("", it.text) or tree.cites_new(it.text, it) for it in self.proofs(crate, at, function)):
                return True
        return False

    def proofs(self, crate, at, function):
        """The proof files of a function. Where its folder can't be told, those of all functions of its name."""
        folder = proof_folder(crate, at, function)
        if folder:
            yield from (self.tree.files[it] for it in folder.rglob("*.antt"))
        elif folder is False:
            yield from (it for path, it in self.tree.proofs[crate.name] if function.name in path.parent.parts)


def last_landed():
    """The commit that had landed last, and whether the kit here has the logic that proved it. Exits where that is no ancestor of this
    commit."""
    words = LANDED.read_text(encoding="utf-8").split()
    if len(words) != 2:
        raise SystemExit(f"{LANDED.relative_to(ROOT)} has two words: the commit that landed last, and the last word of `rt version`")
    commit, logic = words
    # (where the history lacks it, all bugs are tried)
    if git("cat-file", "-e", f"{commit}^{{commit}}") is not None and git("merge-base", "--is-ancestor", commit, "HEAD") is None:
        raise SystemExit(f"{LANDED.relative_to(ROOT)} names {commit}, which this commit doesn't follow: write there the last one that had landed when the work began")
    return commit, run_to_end(["rt", "version"]).stdout.split()[-1:] == [logic]


@dataclasses.dataclass
class SinceLanding:
    """What differs from the last landed commit: the crates, with those above them, and whether more does than crates and pages."""

    crates: list
    has_more: bool


def since(old, old_list, paths):
    """What differs from an old tree: by the texts of its crates, its list of crates, and the paths of the files that differ."""
    lines = {line.partition(":")[0].split()[0]: line for line in old_list.splitlines() if ":" in line}
    now = {name: line for line, name, _, _ in entries()}
    texts = {name: {it.relative_to(ROOT).as_posix(): it.read_text(encoding="utf-8") for it in own_sources(name)} for name in now}
    was = lambda name: {path: text for path, text in old.items() if path.startswith(tuple(f"crates/{name}/{part}/" for part in PARTS))}
    differ = {name for name, line in now.items() if lines.get(name) != line or texts[name] != was(name)}
    more = [it for it in paths if it != "crates.txt" and not OF_A_CRATE.match(it) and not PAGES.fullmatch(it)]
    return SinceLanding([name for name in now if differ & {*with_those_below(name)}], bool(more))


@functools.cache
def since_landing():
    """What differs from the last landed commit. Where that can't be told it is all."""
    commit, is_same_kit = last_landed()
    old = old_files(commit) if is_same_kit else None
    listed = (git("diff", "--name-only", "--no-renames", commit), git("ls-files", "--others", "--exclude-standard"))
    if old is None or None in listed:
        return SinceLanding([*crates()], True)
    return since(old, git("show", f"{commit}:crates.txt") or "", "".join(listed).splitlines())


def affected(bugs, commit):
    """Those of the bugs that differ from a commit (without one from the last that landed) in something that they show."""
    landed, is_same_kit = last_landed()
    old = old_files(commit or landed)
    if old is None or not is_same_kit:
        print(f"all planted bugs: {'the kit is another one' if old else 'the history lacks the commit'}, beside {commit or landed}", flush=True)
        return bugs
    changes = Changes(old)
    print(f"only the planted bugs that a difference from {commit or landed} affects", flush=True)
    return {name: kept for name, found in bugs.items() if (kept := [it for it in found if changes.affects(it)])}


def is_public(bug):
    """Whether a bug changes a public function."""
    crate = bug.path.parent.parent
    return any(it and IS_PUBLIC.search(it[1].text((crate / it[0]).read_text(encoding="utf-8"))) for it in bug.functions)


def for_landing(bugs):
    """Those that a change since the last landing affects, and one in twenty of the other public functions' ones, drawn by the number of
    this commit."""
    chosen = affected(bugs, "")
    head = (git("rev-parse", "HEAD") or "").strip()
    is_drawn = lambda it: int(hashlib.sha256(f"{head} {it.name}".encode()).hexdigest(), 16) % DRAWN == 0 and is_public(it)
    drawn = {name: [it for it in found if it in chosen.get(name, []) or is_drawn(it)] for name, found in bugs.items()}
    count = lambda found: sum(map(len, found.values()))
    print(f"{count(chosen)} planted bugs are affected, {count(drawn) - count(chosen)} of the others are drawn, of {count(bugs)} in all", flush=True)
    return {name: found for name, found in drawn.items() if found}
