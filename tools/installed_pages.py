"""The pages of the programs as they are installed, where most of the sources aren't.

A link to another installed page stays, and a picture is installed beside its page. Any other link becomes its words, and the name of
its file in the sources.
"""
import posixpath
import re

from workspace import ROOT

PAGES = ("HIDE.md", "FRAMES.md", "SCRIPT.md")
FOLDER = "share/doc/imgref"
# A picture or a link to a file: the mark of a picture, the words, and the file.
LINK = re.compile(r"(!?)\[([^\]]*)\]\(([^)\s#:]+)(?:#[^)\s]*)?\)")


def sources():
    """The pages as they are in the sources, by their names."""
    return {it: (ROOT / "docs" / it).read_text() for it in PAGES}


def files():
    """The pages and the pictures that they show, by their paths below a prefix."""
    pictures = sorted({file for text in sources().values() for mark, _, file in LINK.findall(text) if mark})
    return {f"{FOLDER}/{it}": ROOT / "docs" / it for it in (*PAGES, *pictures)}


def as_installed(text):
    """The text of a page, whose links all lead to installed pages."""

    def written(link):
        is_picture, words, file = link.groups()
        if is_picture or file in PAGES:
            return link[0]
        name = f"{posixpath.normpath(f'docs/{file}')} of the sources"
        return name if words == posixpath.basename(file) else f"{words} ({name})"

    return LINK.sub(written, text)


def texts():
    """The pages as they are installed, by their paths below a prefix."""
    return {f"{FOLDER}/{name}": as_installed(text) for name, text in sources().items()}
