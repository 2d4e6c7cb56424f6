#!/usr/bin/env python3
"""Tries the planted bugs, crates/*/must-fail/*.edit: the prover must refuse each at a goal of the function that it changes.

    planted_bugs.py [CRATE..] [--only NAME] [--changed [COMMIT]] [--landing] [--once] [--list] [--compile]

A function's proof cites the contracts of others and not their bodies. So many bugs are tried in one check, and each is judged
by the goals that stay open in its own function. Several bugs of one function are several copies of it, each with a name of its
own and with copies of its proof files. A method of a trait, a function that calls itself, and one that is proved by hand have
no copies: of these one bug is tried at a time, in the function itself.

A written answer that no longer fits a goal is left out, and the check made again: that a goal has changed is no evidence that
it doesn't hold. What shows no goal so is tried by itself, in the function itself, and judged as `rt must-fail` does. What is
then refused by a proof by hand alone is counted and said.

The crates are only read: each check runs in a room of its own. A crate whose cached proofs are not fresh is proved first, beside the
checks of the others.
With --changed only those bugs are tried that a difference from a commit affects (the one of .ci/last_landed), as changed.py tells.
With --landing it is these, and one in twenty of the others that change a public function. With
--once none is tried where all were refused before at these very texts of the crates, as by `make gate`. With
--compile nothing is proved: it tells in a few minutes which bugs don't compile any more, for example because an item was renamed.
The last line counts the bugs.
"""
import argparse
import collections
import concurrent.futures
import dataclasses
import pathlib
import re
import sys
import time

sys.path.insert(0, str(pathlib.Path(__file__).resolve().parent.parent / "tools"))
from bugs import batches, plant, read
from changed import affected, for_landing
from packing import sum_of, sum_of_tree
from processes import end_on_signals, run_to_end, workers
from proving import Progress, all_below, changed, processors, prove_changed, said_with, weights_of
from workspace import PARTS, ROOT, crates, with_those_below

GOAL = re.compile(r"note: (?:\./)?(src/\S+?):(\d+):\d+: ")
STALE = re.compile(r"(?:note: )?(?:\./)?(proofs/\S+/Answers\.antt):\d+:\d+: error: `([^`]*)`")
# An answer or a lemma of a file of answers: whether it is public, and its name. And the words of a text.
ANSWER, WORD = re.compile(r"(pub )?(\S+) : "), re.compile(r"[^\s(){}\[\],.;:]+")
# So begins what is said of what depends on a stale answer.
DEPENDS = re.compile(r"\d+ declarations? that depends? on ")
ERROR = re.compile(r"(?:\./)?(\S+?):\d+:\d+: error: (?:(`[^`]*`): )?(.*)")
# An error of these kinds says that a text could not be read, where a bug that only makes a statement false reads well.
UNREADABLE = re.compile(r"is not in scope|has no field|is no name|operand is missing|expected the end|cannot continue")
# What is said of a name that several functions have, such as that of a method of a trait: the name, and their paths.
SEVERAL = re.compile(r"rattle: error: several functions are named `([^`]*)`: help: write one of (.*)")
# No function has this name. A check of it alone compiles the crate, says that there is none, and proves nothing.
NO_FUNCTION = "no_such_function"
# The sum of the crates' texts at which all planted bugs were refused last.
REFUSED = ROOT / "out/planted_bugs_refused"
# A check is made at most so many times, each without what the one before found stale.
MOST_CHECKS = 4
HARDLY = re.compile(r"(?:\./)?proofs/.*(?:has no field|is not in scope|has no `|was not admitted)")


def said_of(name, texts, only=()):
    """What the check of a crate, or of these functions, says with these texts in place of its own. Where several functions have a name, all
    of them are checked."""
    only = [*only]
    while True:
        lines, status = said_with(name, {f"{name}/{file}": text for file, text in texts.items()}, [word for it in only for word in ("--only", it)])
        several = next((found for found in map(SEVERAL.match, lines) if found and found[1] in only), None)
        if not several:
            return lines, status
        only.remove(several[1])
        only += re.findall(r"`([^`]*)`", several[2])


def goal_of(spans, lines):
    """The first goal that stays open in these lines of the sources, or nothing."""
    for line in lines:
        found = GOAL.match(line)
        if found and any(found[1] == file and first <= int(found[2]) <= last for file, first, last in spans):
            return line
    return None


def without(text, names):
    """The answers of a file without those of these names, and without what cites a lemma of the file that goes so."""
    head, *items = re.split(r"(?m)^(?=(?:pub )?\S+ : )", text)
    gone, lemmas = {*names}, set()
    while left := [it for it in items if ANSWER.match(it)[2] in gone or lemmas & {*WORD.findall(it)}]:
        items = [it for it in items if it not in left]
        lemmas |= {name for public, name in map(lambda it: ANSWER.match(it).groups(), left) if not public}
    return "".join([head, *items])


def is_unreadable(line, texts):
    """Whether an edited text could not be read."""
    at = ERROR.match(line)
    if not at or at[1] not in texts and not at[1].startswith(("src/", "specs/")):
        return False
    # (a copied answer that names a step which the bug took away doesn't fit its goal any more, and is left out. What depends on it is
    # checked then)
    if STALE.match(line) or DEPENDS.match(at[3]):
        return False
    return not at[2] or bool(UNREADABLE.search(re.sub(r"`[^`]*`", "", at[3])))


def names_of(bugs):
    """What a check of these bugs alone proves: their copies, or the functions that they change. Nothing where one changes more."""
    if any(not it.functions or None in it.functions for it in bugs if not it.is_copied):
        return []
    own = lambda function: f"{function.owner}::{function.name}" if function.owner else function.name
    return sorted({name for bug in bugs for name in ([bug.copy] if bug.is_copied else [own(it) for _, it in bug.functions])})


def folder_of_copy(bug, crate):
    """The folder of the proof files of a bug's copy, as messages name it."""
    return f"{bug.folder.with_name(bug.copy).relative_to(crate).as_posix()}/"


def try_together(name, bugs, only):
    """Tries bugs in one check of these functions, or of the whole crate. Gives the goal of each that is refused, those that show
    none, and what the first check said with which texts."""
    crate = ROOT / "crates" / name
    refused, left, alone, answers, first = {}, bugs, [], {}, None
    for _ in range(MOST_CHECKS):
        planted = plant(left, crate)
        for file, goals in answers.items():
            text = planted.texts.get(file)
            if text is None and (crate / file).is_file():
                text = (crate / file).read_text(encoding="utf-8")
            if text is not None:
                planted.texts[file] = without(text, goals)
        lines, status = said_of(name, planted.texts, only(left))
        first = first or (lines, status, planted.texts)
        unread = [ERROR.match(it)[1] for it in lines if is_unreadable(it, planted.texts)]
        # (a copy's own proof file that can't be read says nothing of the other bugs)
        folders = {bug.name: folder_of_copy(bug, crate) for bug in left if bug.folder}
        lost = [bug for bug in left if bug.name in folders and any(it.startswith(folders[bug.name]) for it in unread)]
        if status != 1 or any(not it.startswith(tuple(folders.values())) for it in unread):
            break
        goals = {bug.name: goal_of(planted.spans[bug.name], lines) for bug in left if bug not in lost}
        refused |= {bug: goal for bug, goal in goals.items() if goal}
        alone += lost
        left = [bug for bug in left if bug not in lost and not goals[bug.name]]
        stale = [it.groups() for it in map(STALE.match, lines) if it]
        if not left or not stale:
            break
        for file, goal in stale:
            answers.setdefault(file, set()).add(goal)
        print(f"{name}: again without {', '.join(f'{file} {goal}' for file, goal in stale)}: {', '.join(it.path.stem for it in left)}", flush=True)
    return refused, [*left, *alone], first


def try_all(name, bugs):
    """Tries bugs together, and those that show no goal so one by one. Gives for each whether it is refused and what to say."""
    alone = len(bugs) == 1 and not bugs[0].is_copied
    refused, left, first = try_together(name, bugs, names_of)
    if left and alone and names_of(left):
        # (of the whole crate: another function may refuse the bug, and the last line says whether all is proved)
        more, left, first = try_together(name, left, lambda _: [])
        refused |= more
    yield from ((True, f"{bug}: refused: {goal[:160]}") for bug, goal in refused.items())
    if alone:
        yield from (judged(bug, *first) for bug in left)
    else:
        for bug in left:
            yield from try_all(name, [dataclasses.replace(bug, folder=False)])


def compile_all(name, bugs):
    """Compiles bugs together, and where that fails one by one. Gives for each whether it compiles and what to say."""
    lines, _ = said_of(name, plant(bugs, ROOT / "crates" / name).texts, [NO_FUNCTION])
    if any(f"no function `{NO_FUNCTION}`" in it for it in lines):
        yield from ((True, f"{bug.name}: compiles") for bug in bugs)
    elif len(bugs) > 1:
        for bug in bugs:
            yield from compile_all(name, [bug])
    else:
        yield False, f"{bugs[0].name}: FAILED: it doesn't compile: {' | '.join(lines[:2])[:300]}"


def judged(bug, lines, status, texts):
    """Whether a bug is refused that left no goal of its function open, by what the check said of it alone, and what to say."""
    bad = next((it for it in lines if is_unreadable(it, texts)), None)
    if bad:
        return False, f"{bug.name}: FAILED: it can't be read, so no contract was tried: {bad[:300]}"
    if status == 0:
        return False, f"{bug.name}: NOT REFUSED: the crate is still proved"
    if status != 1 or not any(it.startswith("logic=not-proved") for it in lines):
        return False, f"{bug.name}: FAILED: it did not reach the prover: {' | '.join(lines[:4])}"
    told = next((it for it in lines if GOAL.match(it)), None)
    if told:
        return True, f"{bug.name}: refused, at another function: {told[:160]}"
    told = next((it for it in lines if ": error" in it and not HARDLY.match(it)), lines[0])
    return True, f"{bug.name}: refused, by a proof by hand alone: {told[:160]}"


def all_bugs(names, only):
    """The planted bugs of these crates, and what is wrong with those that can't be planted."""
    good, bad = collections.defaultdict(list), []
    for name in names:
        for path in sorted((ROOT / "crates" / name / "must-fail").glob("*")):
            if path.suffix == ".md" or only and path.stem not in only:
                continue
            try:
                if path.suffix != ".edit":
                    raise ValueError("the name of a planted bug ends in .edit")
                good[name].append(read(path, ROOT / "crates" / name))
            except (ValueError, OSError, TypeError) as why:
                bad.append(f"{name}/{path.stem}: FAILED: it can't be planted: {why}")
    return good, bad


def told(name, found):
    """Prints what is said of each bug as soon as it is judged, and gives whether it is refused. Then what the check of them took."""
    began, count = time.monotonic(), 0
    for is_refused, line in found:
        count += 1
        print(line, flush=True)
        yield is_refused
    print(f"{name}: {count} bugs in {time.monotonic() - began:.0f} s", flush=True)


def sum_of_crates():
    """The sum of all texts of the crates, the planted bugs with them, and of the toolchain's version."""
    folders = [ROOT / "crates" / name / part for name in crates() for part in (*PARTS, "must-fail")]
    return sum_of("".join([run_to_end(["rt", "version"]).stdout, *map(sum_of_tree, filter(pathlib.Path.is_dir, folders))]).encode())


def main():
    asked = argparse.ArgumentParser(description=__doc__, formatter_class=argparse.RawDescriptionHelpFormatter)
    asked.add_argument("crates", nargs="*")
    asked.add_argument("--only", action="append", default=[], metavar="NAME")
    asked.add_argument("--changed", nargs="?", const="", default=None, metavar="COMMIT")
    asked.add_argument("--landing", action="store_true", help="those that a change since the last landing affects, and one in twenty of the others of public functions")
    asked.add_argument("--once", action="store_true", help="tries none where all were refused at these texts before")
    asked.add_argument("--list", action="store_true", help="prints the bugs of each check, and tries none")
    asked.add_argument("--compile", action="store_true", help="compiles the bugs, and proves nothing")
    asked = asked.parse_args()
    tries_all = not (asked.crates or asked.only or asked.changed is not None or asked.landing or asked.list or asked.compile)
    now = sum_of_crates() if tries_all else ""
    if asked.once and tries_all and REFUSED.is_file() and REFUSED.read_text(encoding="utf-8") == now:
        print("all planted bugs were refused at these texts before")
        return 0
    bugs, bad = all_bugs(asked.crates or [*crates()], asked.only)
    print(*bad, sep="\n", end="\n" if bad else "")
    passed, failed = 0, len(bad)
    if asked.changed is not None:
        bugs = affected(bugs, asked.changed)
    elif asked.landing:
        bugs = for_landing(bugs)
    checks = [(name, batch) for name, found in bugs.items() for batch in batches(found)]
    if asked.list:
        print(*(f"{name}: {', '.join(it.path.stem + ('' if it.is_copied else ' (in place)') for it in batch)}" for name, batch in checks), sep="\n", flush=True)
        return 0
    # (the longest first)
    checks.sort(key=lambda it: -len(it[1]) * (1 + len(with_those_below(it[0]))))
    way = compile_all if asked.compile else try_all
    with workers(processors()) as pool:
        begin = lambda names: [pool.submit(lambda name, bugs: [*told(name, way(name, bugs))], *it) for it in checks if it[0] in names]
        proved = {it for it in bugs if not changed([it])}
        running = begin(proved)
        said = prove_changed([*bugs], Progress(*weights_of(all_below([*bugs]))))
        if said is None:
            running += begin({*bugs} - proved)
        else:
            print(said, flush=True)
            failed += 1
        for it in concurrent.futures.as_completed(running):
            refused = it.result()
            passed, failed = passed + sum(refused), failed + len(refused) - sum(refused)
    print(f"{passed} passed, {failed} failed")
    if tries_all and passed and not failed:
        REFUSED.parent.mkdir(exist_ok=True)
        REFUSED.write_text(now, encoding="utf-8")
    return 1 if failed or not passed and asked.changed is None else 0


if __name__ == "__main__":
    end_on_signals()
    try:
        sys.exit(main())
    except KeyboardInterrupt:
        sys.exit("interrupted")
