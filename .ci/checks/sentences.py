#!/usr/bin/env python3
"""The documents are in plain English: short sentences, and no odd words.

A sentence has at most 25 words, also in the `///` and `//!` lines of crates. A paragraph, a list item, a heading and a cell of a
table are read as sentences; blocks of code are left out. A piece of code within a line counts as one word. A sentence that is too
long is shown with its number of words.

A paragraph, a list item and a cell have at most 60 words and five sentences: a longer one is a wall, and a list reads better. A row
of a table is about one thing: no cell has a semicolon, and the first cell names at most four pieces of code, of which all else is true.
Each page has its words: LIMITS has the most that it may have, counted as by `wc -w`. All together have at most MOST_IN_ALL. A page of
LINES is short in lines too.

    sentences.py             everything
    sentences.py PAGE ..     only these pages, by all rules (a path from the top, such as docs/WEB.md)
    sentences.py --limits    a table: the words of each page, its limit, its walls and its rows of more than one thing
    sentences.py --loose     the loose sentences

No document, no comment and no text within quotes of a source has a word of TICS: each such line is shown with the better word.
The pages of WRITTEN are left out, since tools make them from the lines of the code.

A sentence is loose where it begins with a word of POINTS after a sentence with two nouns: a reader may not see which one is meant.
Most are clear all the same, so no single one fails. Their number has a limit, MOST_LOOSE, which may only fall: a list that fails
nothing would not be read, and with a limit who adds such a sentence reads it again, or names the noun of another one. Above the
limit all are shown; `sentences.py --loose` shows them at any time.
"""
import io
import pathlib
import re
import sys
import tokenize

sys.path.insert(0, str(pathlib.Path(__file__).resolve().parent.parent))
from checking import ROOT, Cases

MOST_WORDS = 25
# What a paragraph or a cell has at most, and the pieces of code in the first cell of a row.
MOST_IN_PARAGRAPH, MOST_SENTENCES, MOST_NAMES = 60, 5, 4
# The most words of each page. A page that isn't here has the last limit.
LIMITS = {
    "README.md": 850,
    "CHANGELOG.md": 1350,
    "CONTRIBUTING.md": 2360,
    "bindings/python/README.md": 300,
    "bindings/rust/README.md": 450,
    "docs/ARCHITECTURE.md": 850,
    "docs/C.md": 1670,
    "docs/CALLERS.md": 1210,
    "docs/CALLERS_REFERENCE.md": 3650,
    "docs/CPP.md": 1000,
    "docs/DECISIONS.md": 2250,
    "docs/DIFFERENCES.md": 1710,
    "docs/FRAMES.md": 3170,
    "docs/GLOSSARY.md": 1430,
    "docs/HIDE.md": 1040,
    "docs/maintainers/FORMS.md": 1360,
    "docs/maintainers/PERF.md": 1400,
    "docs/PERFORMANCE.md": 1600,
    "docs/PROMISES.md": 2740,
    "docs/PYTHON.md": 1880,
    "docs/RELEASE.md": 660,
    "docs/RUST.md": 1000,
    "docs/SCRIPT.md": 1530,
    "docs/WEB.md": 1310,
}
OTHER_PAGE = 600
MOST_IN_ALL = 36000
# The most lines of the pages that are mostly one table.
LINES = {"docs/CPP.md": 90, "docs/RUST.md": 90}
# A page with two walls and two rows of more than one thing.
TRIED = f"""{"It is one word more. " * 6}

- {"word " * 61}

| `a`, `b`, `c`, `d`, `e` | five |
|---|---|
| `f; g` | two; things |
| `a`, `b` | one |
"""
# How many sentences of the documents may be loose.
MOST_LOOSE = 10
# The pages that `make docs` writes, whose sentences are those of the code.
WRITTEN = {"API.md", "CRATES.md"}
# What is searched for odd words besides the documents: their comments and their texts within quotes.
SOURCES = ["Makefile", "crates/*/src/**/*.rt", "crates/*/specs/**/*.antt", "crates/*/proofs/**/*.antt", "tools/*.py", ".ci/**/*.py"]
SOURCES += ["programs/**/*.py", "programs/imgref-hide", ".ci/c/*.[ch]", "include/*.h", "bench/*.[cr]*", "examples/**/*.[chpr]*", "include/*.hpp", "bindings/**/*.[hpr]*", "man/*", "web/*.*"]
# Words and phrases that are hard to understand, each with what to say.
TICS = {
    r"want of memory": "out of memory",
    r"wrong bod(?:y|ies)": "planted bug",
    r"one further": "off by one",
    r"go(?:es)? round": "bypasses",
    r"the loan": "the borrow",
    r"cells end as": "final cells",
    r"no text belongs": "each line parses in at most one way",
    r"behind": "after",
    r"at rest": "idle",
    r"kept (?:work|proofs?)": "cached proofs",
    r"askew": "misaligned",
    r"turn(?:s|ed)? the meaning": "changes the behaviour",
    r"takes? turns": "interleaved",
    r"out of line": "not inlined",
    r"wants? (?:an?|no|the|its)": "needs",
    r"for who": "for those who",
    r"answered": "returned",
    r"(?:must|has to|have to|may|can) answer": "return",
    r"answers (?:an?|that (?!prove)|its|this|how|what|which|whether|when|where|nothing|none|no|only|exactly|as|with|code|the (?!questions?))": "returns",
    r"(?<!there )(?:is|are) none(?! of)": "isn't one, or: is ignored",
    r"there is neither": "at most one",
    r"can't be told from": "reveals nothing of",
    r"wraps?": "overflows",
    r"stands? on": "depends on",
    r"(?:stands?|stood) in": "is in, or: replaces",
    r"(?:stands?|stood)(?! (?:for|on|in)\b)": "is, comes or occurs",
    r"lies? (?:apart|beside)": "doesn't overlap, is next to",
    r"summed (?:place|corner)": "the sum of the corners",
    r"written apart from": "that shares nothing with",
    r"but for (?!\w+ing)": "except",
    r"how far the proofs are": "proof progress",
    r"is a case and no": "belongs in",
}
TIC = [(re.compile(rf"\b(?:{it})\b", re.IGNORECASE), better) for it, better in TICS.items()]
CODE = re.compile(r"``.+?``|`[^`]+`")
LINK = re.compile(r"!?\[([^\]]*)\]\([^)]*\)")
ENDS = re.compile(r"(?<=[.!?])[)*'\"]*\s+")
# The words that point to a noun before, and what comes with a noun.
POINTS = re.compile(r"(?:It|That|These|This|So|They)\b")
WITH_NOUN = re.compile(r"\b(?:code|(?:an?|the|each|every|no|its|their|both|all|two|three)\s+\w+)\b", re.IGNORECASE)
BEGINS = re.compile(r"\s*(?:[-*] |\d+\. |#+ |\|)")
# Comments and texts within quotes, by the ending of a file; those of Python are found by its own tokens.
SAID = {".antt": re.compile(r"--.*"), "": re.compile(r"#.*"), ".html": re.compile(r".+"), ".1": re.compile(r".+"), ".3": re.compile(r".+")}
DOCUMENTED = re.compile(r"(?:^ *//[/!].*\n)+", re.MULTILINE)
SAID_IN_CODE = re.compile(r'//.*|/\*.*|^ *\*.*|"(?:[^"\\]|\\.)*"')
OF_PYTHON = {tokenize.COMMENT, tokenize.STRING, getattr(tokenize, "FSTRING_MIDDLE", tokenize.STRING)}


def paragraphs(text):
    """The paragraphs, list items, headings and cells, each as one line."""
    kept, is_code = [], False
    for line in text.splitlines():
        if line.startswith("```"):
            is_code = not is_code
        elif is_code or line.startswith("    ") or not line.strip():
            kept.append("")
        elif line.startswith("|"):
            kept += ["", "\n\n".join(CODE.sub("`code`", line).strip("| ").split("|")), ""]
        elif BEGINS.match(line):
            kept += ["", line]
        else:
            kept.append(line)
    return [" ".join(it.split("\n")) for it in re.split(r"\n{2,}", "\n".join(kept)) if it.strip()]


def sentences_by_paragraph(text):
    """The sentences of each paragraph, with code and links as plain words."""
    for it in paragraphs(text):
        plain = CODE.sub("code", LINK.sub(r"\1", it))
        yield [it for it in ENDS.split(re.sub(r"^\s*(?:[-*]|\d+\.|#+) ", "", plain)) if it.strip()]


def walls(text):
    """Each paragraph, list item or cell with too many words or sentences."""
    for found in sentences_by_paragraph(text):
        count = sum(words(it) for it in found)
        if count > MOST_IN_PARAGRAPH or len(found) > MOST_SENTENCES:
            yield f"  {count} words, {len(found)} sentences: {' '.join(found)[:100]}"


def rows(text):
    """The rows of the tables of a page, without those of signs alone."""
    return [it for it in re.sub(r"(?ms)^```.*?^```$", "", text).splitlines() if it.startswith("|") and not re.fullmatch(r"[| :-]+", it)]


def crowded(text):
    """Each row of a table that is about more than one thing."""
    for row in rows(text):
        first = row.strip("| ").split(" | ")[0]
        if ";" in CODE.sub("code", row) or len(CODE.findall(first)) > MOST_NAMES:
            yield f"  more than one thing: {row[:100]}"


def sentences(text):
    for it in sentences_by_paragraph(text):
        yield from it


def loose(path):
    """Each loose sentence of a page, after the one before it."""
    for found in sentences_by_paragraph(path.read_text()):
        for before, it in zip(found, found[1:]):
            if POINTS.match(it) and len(WITH_NOUN.findall(before)) > 1:
                yield f"  {path.relative_to(ROOT)}: {before.strip()} / {it.strip()}"


def words(sentence):
    return sum(any(it.isalnum() for it in word) for word in sentence.split())


def said(path):
    """What a file says in words, with the number of its line: all but the code."""
    text = path.read_text()
    if path.suffix == ".py":
        for token in tokenize.generate_tokens(io.StringIO(text).readline):
            if token.type in OF_PYTHON:
                yield from enumerate(token.string.splitlines(), token.start[0])
    elif path.suffix == ".md":
        yield from ((at, line) for at, line in enumerate(text.splitlines(), 1) if not line.startswith("    "))
    else:
        pattern = SAID.get(path.suffix, SAID_IN_CODE)
        yield from ((at, it) for at, line in enumerate(text.splitlines(), 1) for it in pattern.findall(line))


def odd(path):
    """Each line with a tic, and the better word."""
    for at, line in said(path):
        plain = CODE.sub("code", line)
        for tic, better in TIC:
            yield from (f"  {path.relative_to(ROOT)}:{at}: '{it.group()}', say '{better}': {line.strip()}" for it in tic.finditer(plain))


def too_long(text, label=""):
    """Each sentence with too many words."""
    yield from (f"  {label}{words(it)} words: {it.strip()}" for it in sentences(text) if words(it) > MOST_WORDS)


def long_in_code(path):
    """Those of the doc lines of a file."""
    for block in DOCUMENTED.findall(path.read_text()):
        yield from too_long(re.sub(r"(?m)^ *//[/!] ?", "", block), f"{path.relative_to(ROOT)}: ")


def named(path):
    return str(path.relative_to(ROOT))


def documents():
    """The pages that people write."""
    found = [it for pattern in ("*.md", "docs/**/*.md", "bindings/*/README.md") for it in sorted(ROOT.glob(pattern))]
    return [it for it in found if it.name not in WRITTEN]


def limit(path):
    return LIMITS.get(named(path), OTHER_PAGE)


def table(paths):
    """The words of each page beside its limit, and how many walls and crowded rows it has."""
    yield f"{'page':30} {'words':>6} {'limit':>6} {'walls':>6} {'rows of two things':>19}"
    for it in paths:
        text = it.read_text()
        yield f"{named(it):30} {len(text.split()):6} {limit(it):6} {len([*walls(text)]):6} {len([*crowded(text)]):19}"
    yield f"{'all':30} {in_all(paths):6} {MOST_IN_ALL:6}"


def in_all(paths):
    """The words of all pages."""
    return sum(len(it.read_text().split()) for it in paths)


def sized(cases, path):
    """The words of a page, its paragraphs and its rows."""
    text = path.read_text()
    count, found = len(text.split()), [*walls(text), *crowded(text)]
    cases.count(f"{named(path)}: {count} words of at most {limit(path)}", count <= limit(path))
    if most := LINES.get(named(path)):
        lines = len(text.splitlines())
        cases.count(f"{named(path)}: {lines} lines of at most {most}", lines <= most)
    label = f"{named(path)}: no paragraph or cell of more than {MOST_IN_PARAGRAPH} words or {MOST_SENTENCES} sentences, no row of two things"
    cases.count(label, not found, "\n".join(found))


def main(words):
    cases = Cases()
    if "--loose" in words:
        print("\n".join(line for it in documents() for line in loose(it)))
        return 0
    if "--limits" in words:
        print("\n".join(table(documents())))
        return 0
    pages = [(ROOT / it).resolve() for it in words] or documents()
    cases.count("walls and rows of two things are found", (len([*walls(TRIED)]), len([*crowded(TRIED)])) == (2, 2))
    sources = [] if words else [it for pattern in SOURCES for it in sorted(ROOT.glob(pattern)) if it != pathlib.Path(__file__).resolve() and it.suffix != ".pyc"]
    for label, paths in (("the documents", pages), ("the sources", sources)):
        found = [line for it in paths for line in odd(it)]
        cases.count(f"no odd words in {label}", (paths or words) and not found, "\n".join(found))
    for path in pages:
        long = list(too_long(path.read_text()))
        cases.count(f"{named(path)}: no sentence of more than {MOST_WORDS} words", not long, "\n".join(long))
        sized(cases, path)
    found = [line for it in pages for line in loose(it)]
    cases.count(f"the documents: {len(found)} loose sentences of at most {MOST_LOOSE}", len(found) <= MOST_LOOSE, "\n".join(found))
    if words:
        return cases.end()
    cases.count(f"the documents: {in_all(pages)} words of at most {MOST_IN_ALL}", in_all(pages) <= MOST_IN_ALL)
    long = [line for it in sources if it.suffix == ".rt" for line in long_in_code(it)]
    cases.count(f"doc lines of the crates: no sentence of more than {MOST_WORDS} words", not long, "\n".join(long))
    return cases.end()


if __name__ == "__main__":
    sys.exit(main(sys.argv[1:]))
