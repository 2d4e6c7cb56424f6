"""Planted bugs, crates/*/must-fail/*.edit: how they are read, and how several are planted in one copy of a crate.

Several bugs of one function are several copies of it, each with a name of its own and with copies of its proof files.
"""
import collections
import dataclasses
import pathlib

from functions import first_above, function_at, function_names, proof_folder

# At most so many bugs are tried in one check. Fewer would read the libraries more often, and more would leave processors idle at the end.
MOST = 48


@dataclasses.dataclass
class Bug:
    """A planted bug: its file, its pairs of old and new text by file, the function of each pair or None, and its copy's proof folder.

    `folder` is False where the bug is tried in the function itself, None where the function has no proof files."""

    path: pathlib.Path
    pairs: list
    functions: list
    folder: object = False

    @property
    def name(self):
        return f"{self.path.parent.parent.name}/{self.path.stem}"

    @property
    def copy(self):
        """The name of the copy of its function."""
        return f"planted_{self.path.stem}"

    @property
    def is_copied(self):
        return self.folder is not False


def pairs_of(text):
    """The pairs of old and new text of an edit, each with its file."""
    file, old, pairs = None, None, []
    for line in text.split("\n"):
        if line.startswith("file: "):
            file = line[len("file: ") :].strip()
        elif line.startswith("old: "):
            old = line[len("old: ") :]
        elif line.startswith("new:"):
            pairs.append((file, old, line[len("new:") :].removeprefix(" ")))
    return pairs


def read(path, crate):
    """Reads an edit of a crate, or raises ValueError."""
    pairs = pairs_of(path.read_text(encoding="utf-8"))
    texts = {file: (crate / file).read_text(encoding="utf-8") for file, _, _ in pairs}
    applied(dict(texts), pairs)
    places = [(file, function_at(texts[file], old)) for file, old, _ in pairs if old in texts[file]]
    bug = Bug(path, pairs, [(file, it) if it else None for file, it in places])
    bug.folder = folder_of(bug, texts, crate)
    return bug


def folder_of(bug, texts, crate):
    """The folder of the proof files that a copy of the bug's function takes, None where it has none, or False where it can't be copied."""
    if None in bug.functions or len({(file, it.name, it.start) for file, it in bug.functions}) != 1:
        return False
    file, function = bug.functions[0]
    text = function.text(texts[file])
    if not function.is_copyable or len(bug.functions) != len(bug.pairs):
        return False
    try:
        applied({file: text}, bug.pairs)
    except ValueError:
        return False
    return proof_folder(crate, file, function)


def applied(texts, pairs):
    """Changes the texts of the files by pairs of old and new text, each of which must be there once."""
    for file, old, new in pairs:
        if texts[file].count(old) != 1:
            raise ValueError(f"{file} has the text {texts[file].count(old)} times, and not once: {old}")
        texts[file] = texts[file].replace(old, new)
    return texts


@dataclasses.dataclass
class Planted:
    """The files of a crate with some bugs, and the lines of each bug's function there: a file, the first line and the last, from 1."""

    texts: dict
    spans: dict


def plant(bugs, crate):
    """Plants bugs together: copies of functions after the functions, and the other bugs in the functions themselves."""
    files = {file for bug in bugs for file, _, _ in bug.pairs}
    texts = {file: (crate / file).read_text(encoding="utf-8") for file in files}
    copies = collections.defaultdict(list)
    for bug in (it for it in bugs if it.is_copied):
        file, function = bug.functions[0]
        changed = applied({file: function.text(texts[file])}, bug.pairs)[file]
        copies[file].append((function, bug, function.renamed(changed, bug.copy)))
    applied(texts, [pair for bug in bugs if not bug.is_copied for pair in bug.pairs])
    for file, found in copies.items():
        lines = texts[file].split("\n")
        # (from the last line to the first, so that the lines before stay where they are)
        for function, _, text in sorted(found, key=lambda it: -it[0].end):
            lines[function.end : function.end] = ["", *text.split("\n")]
        texts[file] = "\n".join(lines)
    spans = {}
    for bug in bugs:
        names = [(file, bug.copy if bug.is_copied else it.name, it) for file, it in (at for at in bug.functions if at)]
        spans[bug.name] = [(file, *lines_of(texts[file], name, it)) for file, name, it in names]
        if bug.folder:
            texts.update(copied_proofs(crate, bug))
    return Planted(texts, spans)


def lines_of(text, name, function):
    """The lines of a function in a changed text, from 1. (A text of a bug is one line, so functions keep their order and length.)"""
    names = function_names(text)
    at = [it for it, found in names if found == name]
    start = at[function.number] if len(at) > function.number else at[0]
    lines = text.split("\n")
    after = next((it for it, _ in names if it > start), len(lines))
    # (a goal of the whole function is told at its first attribute)
    return first_above(lines, start) + 1, first_above(lines, after)


def copied_proofs(crate, bug):
    """The proof files of a copy, by their paths in the crate."""
    _, function = bug.functions[0]
    dotted = lambda it: ".".join(it.relative_to(crate / "proofs").parts)
    new = bug.folder.with_name(bug.copy)
    old_path, new_path = (f"Rattle.{crate.name}.proofs.{dotted(it)}." for it in (bug.folder, new))
    found = {}
    for it in bug.folder.rglob("*.antt"):
        text = it.read_text(encoding="utf-8").replace(old_path, new_path)
        found[str((new / it.relative_to(bug.folder)).relative_to(crate))] = text
    return found


def is_apart(bug, others):
    """Whether a bug can be tried beside these: all in copies, which a check of these alone tries, or in different functions."""
    functions = lambda it: {(file, f.name, f.number) for file, f in it.functions}
    for other in others:
        if bug.is_copied and other.is_copied:
            continue
        if bug.is_copied or other.is_copied or None in bug.functions or None in other.functions or functions(bug) & functions(other):
            return False
        if {it[:2] for it in bug.pairs} & {it[:2] for it in other.pairs}:
            return False
    return True


def batches(bugs):
    """Parts the bugs into those that are tried in one check: as few as can be, and of about one size."""
    copied = sum(it.is_copied for it in bugs)
    most = -(-copied // max(-(-copied // MOST), 1))
    found = []
    for bug in sorted(bugs, key=lambda it: it.is_copied):
        batch = next((it for it in found if len(it) < (most if bug.is_copied else MOST) and is_apart(bug, it)), None)
        if batch is None:
            found.append(batch := [])
        batch.append(bug)
    return found
