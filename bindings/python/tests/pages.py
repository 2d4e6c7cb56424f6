"""The examples of a page, in one session. Those of a paragraph block that imports NumPy, and what
follows up to the next `import`, are skipped where it isn't installed. Prints 'N passed, N failed, N
skipped' last.

    pages.py FILE..
"""
import doctest
import pathlib
import sys

from counting import numpy_or_none


def run(page, has_numpy):
    """How many examples of a page fail, and how many were tried."""
    examples, is_run = doctest.DocTestParser().get_examples(page.read_text(encoding="utf-8")), True
    tried = []
    for it in examples:
        if it.source.startswith("import "):
            is_run = has_numpy or "numpy" not in it.source
        tried += [it] if is_run else []
    test = doctest.DocTest(tried, {}, page.name, str(page), 0, None)
    return doctest.DocTestRunner().run(test)


def main(pages):
    has_numpy = numpy_or_none() is not None
    results = [run(pathlib.Path(it), has_numpy) for it in pages]
    failed, tried = (sum(it) for it in zip(*results))
    print(f"{tried - failed} passed, {failed} failed, {int(not has_numpy)} skipped")
    sys.exit(failed > 0 or not tried)


main(sys.argv[1:])
