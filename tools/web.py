#!/usr/bin/env python3
"""The pages for a browser: out/web/ with index.html, layout.html, and the module that both hold.

    web.py build          proves imgref_c for WebAssembly where it has changed, and builds the page
    web.py serve [PORT]   the same, and serves it on this machine alone: http://127.0.0.1:8000/

The kind of a crate is in crates.txt, where imgref_c is a static library. So it is built as `wasm64`
in a room (workspace.py) that has another line for it. A page is one file, so that a browser asks
for nothing else: web/frame.html with a page of web/ in its frame, and in that its styles, its
modules, each after those that it imports, and the module for WebAssembly. Its policy allows these
scripts and styles alone, by their sums. Comments and indents are left out.
"""
import base64
import contextlib
import functools
import gzip
import hashlib
import html
import http.server
import re
import sys

from processes import end_on_signals, run_to_end
from program import built, say
from version import VERSION
from workspace import ROOT, crates, held, is_fresh, room

NAME, KIND = "imgref_c", "wasm64"
SOURCES, OUT = ROOT / "web", ROOT / "out/web"
MODULE = "imgref.wasm"
# Each page: its part in web/, the page that it leads to, and the words of that link.
PAGES = {
    "index.html": ("picture.html", "layout.html", "Layouts"),
    "layout.html": ("layout.html", "index.html", "Pictures"),
}
# The link from one page to the other.
LINK = re.compile(r"<nav>.*?</nav>\n")
CLAIM = "The page has no code that sends, and asks your browser to refuse it."
# What a page may do, besides the scripts and styles that it holds.
POLICY = (
    "default-src 'none'; script-src {scripts} 'wasm-unsafe-eval'; style-src {styles}; connect-src 'none'; "
    "worker-src blob:; img-src data:; frame-src 'none'; base-uri 'none'; form-action 'none'; webrtc 'block'"
)
SCRIPT = re.compile(r'<script type="module" src="([\w.]+)"></script>')
STYLE = re.compile(r'<link rel="stylesheet" href="([\w.]+)">')
# In a script, a call on cells, and the bits of an image's cells. In a file of the crate an export, with its doc lines.
CALLED = re.compile(r"imgref_u(\$\{image\.bits\}|\d+)_(\w+)")
BITS = re.compile(r"\bbits: (\d+)")
EXPORT = re.compile(
    r'(?:^///[^\n]*\n)+#\[unsafe\(no_mangle\)\]\npub extern "C" fn imgref_u(\d+_\w+)\(.*?^\}\n\n?',
    re.MULTILINE | re.DOTALL,
)
IMPORT = re.compile(r'^import \{[^}]*\} from "\./([\w.]+)";\n', re.MULTILINE)
PORT = 8000
# How a line begins that is only a comment.
COMMENTS = ("//", "/**", "/* ", "<!--")
# What a style sheet means is the same without white space at these marks.
SPACE = re.compile(r"\s*([{};,]|:(?=\s))\s*")


class Failure(Exception):
    """What can't be built, and why."""


def bundled(name, done, sources):
    """A module of web/ after those that it imports, without the words `import` and `export`."""
    if name in done:
        return ""
    done.add(name)
    if name == "module.js":
        return f'const MODULE = "{packed((OUT / MODULE).read_bytes())}";\n\n'
    text = (sources / name).read_text()
    before = "".join(bundled(it, done, sources) for it in IMPORT.findall(text))
    own = re.sub(r"(?m)^export ", "", IMPORT.sub("", text)).strip()
    return f"{before}{own}\n\n"


def packed(module):
    """The module as the pages hold it: compressed, and as letters."""
    return base64.b64encode(gzip.compress(module, 9, mtime=0)).decode()


def slim(text):
    """The text without lines that are only a comment, and without what lines are indented by."""
    return "".join(
        f"{it}\n" for it in map(str.strip, text.splitlines()) if it and not it.startswith(COMMENTS)
    )


def number_at(data, at):
    """A number of a WebAssembly file, seven bits in each byte, and where it ends."""
    value = shift = 0
    while data[at] & 128:
        value, shift, at = value | (data[at] & 127) << shift, shift + 7, at + 1
    return value | data[at] << shift, at + 1


def without_names(data):
    """A WebAssembly file without its custom sections: these hold names, no code and no data."""
    kept, at = data[:8], 8
    while at < len(data):
        size, begin = number_at(data, at + 1)
        kept += data[at:begin + size] if data[at] else b""
        at = begin + size
    return kept


def called():
    """The calls on cells that the pages make, such as `8_get`: for cells of each size that the pages have, or of one."""
    text = "".join(it.read_text() for it in SOURCES.glob("*.js"))
    return {f"{bits}_{name}" for size, name in CALLED.findall(text) for bits in (BITS.findall(text) if "$" in size else [size])}


def make_module():
    """Proves and builds the crate for WebAssembly, without the exports that no page calls."""
    below = crates()[NAME]
    if built(*below):
        raise Failure(f"what {NAME} depends on is not proved")
    say(f"{NAME} is proved and built for WebAssembly now, in about a minute.")
    with room(NAME) as folder:
        listed = folder.parent.parent / "crates.txt"
        text, count = re.subn(rf"(?m)^{NAME} staticlib:", f"{NAME} {KIND}:", listed.read_text())
        if count != 1:
            raise Failure(f"crates.txt has no line '{NAME} staticlib:'")
        listed.write_text(text)
        names = called()
        for path in (folder / "src").glob("u*_exports.rt"):
            path.write_text(EXPORT.sub(lambda it: it[0] if it[1] in names else "", path.read_text()))
        ran = run_to_end(["rt", "lib"], cwd=folder)
        if ran.returncode:
            raise Failure(f"{ran.stdout}{ran.stderr}\n{NAME} is not proved as {KIND}")
        (OUT / MODULE).write_bytes(without_names((folder / "out" / f"{NAME}.wasm").read_bytes()))


def sheet(name, sources):
    """A style sheet of web/."""
    return SPACE.sub(r"\1", slim((sources / name).read_text()))


def sum_of(text):
    """A script or a style as a policy names it."""
    return f"'sha256-{base64.b64encode(hashlib.sha256(text.encode()).digest()).decode()}'"


def inner(name, sources):
    """A page of web/ with its script and styles in it, and these texts."""
    text = slim((sources / name).read_text())
    script = slim(bundled(SCRIPT.search(text)[1], set(), sources))
    if re.search(r"</script|<!--", script):
        raise Failure(f"the script of {name} has a mark of HTML")
    styles = "".join(sheet(it, sources) for it in STYLE.findall(text))
    text = SCRIPT.sub(lambda _: f'<script type="module">{script}</script>', text)
    text = STYLE.sub("", text).replace("</title>", f"</title>\n<style>{styles}</style>", 1)
    return text, script, styles


def page(name, other, goes, sources=SOURCES):
    """A page as a browser loads it."""
    text, script, styles = inner(name, sources)
    frame, around = slim((sources / "frame.html").read_text()), sheet("frame.css", sources)
    own = re.search(r"<script>(.*)</script>", frame, re.DOTALL)[1]
    policy = POLICY.format(
        scripts=f"{sum_of(script)} {sum_of(own)}", styles=f"{sum_of(styles)} {sum_of(around)}"
    )
    values = {
        "VERSION": VERSION,
        "TITLE": re.search("<title>(.*)</title>", text)[1], "CLAIM": CLAIM, "POLICY": policy,
        "STYLE": around, "OTHER": other, "GOES": goes, "PAGE": html.escape(text).replace("&#x27;", "'"),
    }
    return re.sub(r"\b[A-Z]{4,}\b", lambda it: values.get(it[0], it[0]), frame)


def alone():
    """The page for pictures as a release has it, which has no other page."""
    return LINK.sub("", page(*PAGES["index.html"]))


def build():
    """Builds what has changed."""
    OUT.mkdir(parents=True, exist_ok=True)
    with held(OUT):
        if not is_fresh(OUT / MODULE, NAME) or any(f"imgref_u{it}".encode() not in (OUT / MODULE).read_bytes() for it in called()):
            make_module()
    for name, its in PAGES.items():
        (OUT / name).write_text(page(*its))
        say(f"{(OUT / name).relative_to(ROOT)}, {(OUT / name).stat().st_size // 1000} KB")


def serve(port):
    """Serves the page on this machine alone, until Ctrl-C."""
    handler = functools.partial(http.server.SimpleHTTPRequestHandler, directory=OUT)
    try:
        server = http.server.ThreadingHTTPServer(("127.0.0.1", port), handler)
    except (OSError, OverflowError) as why:
        raise Failure(f"port {port} can't be used: {why}. Try make web-serve PORT=9000") from None
    with server, contextlib.suppress(KeyboardInterrupt):
        say(f"http://127.0.0.1:{server.server_port}/ until Ctrl-C")
        server.serve_forever()


def main(words):
    if words == ["build"]:
        build()
    elif words[:1] == ["serve"] and len(words) <= 2 and all(it.isdecimal() for it in words[1:]):
        build()
        serve(int(words[1]) if words[1:] else PORT)
    else:
        sys.exit(__doc__)


if __name__ == "__main__":
    end_on_signals()
    try:
        main(sys.argv[1:])
    except Failure as why:
        sys.exit(str(why))
    except KeyboardInterrupt:
        sys.exit("interrupted: what is proved so far stays")
