#!/usr/bin/env python3
"""The page that covers parts of a picture (docs/WEB.md), in a browser.

It builds the page over what the proofs left (tools/web.py), serves it on this machine, and does
what a person does: opens pictures, covers, undoes and saves. Saved files are compared with a model
(.ci/frames.py) and with imgref_frames on the same picture. The layouts are compared with a model of
scripts (.ci/model.py). Strokes, losses, the preview, saving and the ways to send are tried in Firefox
too. The browsers run at the same time, and then one alone, for what is timed. A page with a wrong
rule has to be found out. Where Chromium, its driver or Firefox isn't on the machine, what needs it is
skipped. With the word --screenshots it writes those of the documents, and checks nothing.
"""
import base64
import contextlib
import gzip
import pathlib
import re
import signal
import shutil
import subprocess
import sys
import tempfile
import threading
import traceback
import urllib.request

sys.path.insert(0, str(pathlib.Path(__file__).resolve().parents[2]))
from browser import acts, covers, edges, files, hands, kept, layout, looks, losses, picture, seen, shots, strokes, turns, views
from browser.driver import browser, firefox, served
from checking import ROOT, Cases
import web

OUT = ROOT / "out/web"
PAGES = ("index.html", "layout.html")
# What is loaded of a page besides the module that it holds.
FILES = {*PAGES, "imgref.wasm"}
SUM = r"'sha256-[\w+/=]{44}'"
MOST_BYTES = 200_000
# The sections of a WebAssembly file with names of other modules, and those without code and data.
IMPORTS, CUSTOM = 2, 0
PROGRAM = ROOT / "crates/imgref_frames/out/imgref_frames"


def made(cases, *words):
    """Whether a command of the Makefile ends well."""
    ran = subprocess.run(
        ["make", "-s", *words], cwd=ROOT, stdin=subprocess.DEVNULL, capture_output=True, text=True,
        errors="replace"
    )
    cases.count(f"make {' '.join(words)}", ran.returncode == 0, ran.stdout + ran.stderr)
    return ran.returncode == 0


def number_at(data, at):
    value = shift = 0
    while True:
        byte, at = data[at], at + 1
        value, shift = value | (byte & 127) << shift, shift + 7
        if byte < 128:
            return value, at


def sections(data):
    """The kinds of the sections of a WebAssembly file."""
    at = 8
    while at < len(data):
        size, begin = number_at(data, at + 1)
        yield data[at]
        at = begin + size


def check_files(cases):
    """Each page is one file, which names no other server, and holds a module that needs nothing."""
    found = {it.name: it.read_bytes() for it in OUT.iterdir()}
    cases.count("the pages are one file each", FILES <= set(found), sorted(found))
    module = found["imgref.wasm"]
    cases.count(
        "the module imports nothing",
        module[:4] == b"\0asm" and IMPORTS not in sections(module) and CUSTOM not in sections(
            module
        )
    )
    for name in PAGES:
        check_text(cases, name, found[name].decode(), base64.b64encode(gzip.compress(module, 9, mtime=0)).decode())


def check_text(cases, name, text, module):
    """A page holds the module, and no code that sends. Its policy allows its own scripts and styles alone."""
    cases.count(f"{name} has at most {MOST_BYTES} bytes", len(text.encode()) <= MOST_BYTES, len(text))
    cases.count(f"{name} holds the module", text.count(module) == 1)
    # (the first is a name of SVG, and the second begins a part of a file)
    names = {"http://www.w3.org/2000/svg", "http://ns.adobe.com/"}
    addresses = set(re.findall(r"\w+://[^\s\"'`&]+", text.replace(module, "")))
    cases.count(f"{name} names no server", addresses <= names, addresses - names)
    policy = re.search(r'http-equiv="Content-Security-Policy" content="([^"]*)"', text)[1]
    wanted = (
        f"default-src 'none'; script-src {SUM} {SUM} 'wasm-unsafe-eval'; style-src {SUM} {SUM}; connect-src 'none'; "
        "worker-src blob:; img-src data:; frame-src 'none'; base-uri 'none'; form-action 'none'; webrtc 'block'"
    )
    cases.count(f"{name}: the policy allows its own parts alone", re.fullmatch(wanted, policy), policy)
    flags = re.findall(r'<iframe [^>]* sandbox="([^"]*)"', text)
    cases.count(f"{name}: its frame can't leave", flags == ["allow-scripts allow-modals"], flags)
    senders = re.findall(
        r"\bfetch\(|XMLHttpRequest|sendBeacon|WebSocket|EventSource|importScripts|import\(|new RTC", text
    )
    cases.count(f"{name} has no code that sends", not senders, senders)


def check_served(cases):
    """`make web-serve` serves the files until Ctrl-C, and says so where its port is taken."""
    command = [sys.executable, str(ROOT / "tools/web.py"), "serve"]
    how = {"cwd": ROOT, "stdin": subprocess.DEVNULL, "stderr": subprocess.PIPE, "text": True}
    server = subprocess.Popen([*command, "0"], **how)
    try:
        said = iter(server.stderr.readline, "")
        url = next((it.split()[0] for it in said if it.startswith("http://127.0.0.1:")), "")
        for name in sorted(FILES):
            with urllib.request.urlopen(f"{url}{name}") as answer:
                same = answer.read() == (OUT / name).read_bytes()
            cases.count(f"make web-serve serves {name}", same)
        port = url.split(":")[-1].strip("/")
        taken = subprocess.run([*command, port], timeout=60, **how)
        told = f"port {port} can't be used" in taken.stderr
        well = taken.returncode == 1 and told
        cases.count("make web-serve: a port that is taken", well, taken.stderr)
    finally:
        server.send_signal(signal.SIGINT)
        left = server.communicate(timeout=60)[1]
    cases.count("make web-serve ends by Ctrl-C", server.returncode == 0, left[-500:])


@contextlib.contextmanager
def opened(cases, label, browse=browser):
    """The page in a browser of its own, and what its server was asked for, until the end of the block. Without a browser it is nothing."""
    with served(OUT) as (url, asked), browse(cases, label) as found:
        own = Prefixed(cases, "Firefox") if browse is firefox else cases
        page = picture.Page(found, url, own) if found else None
        if page:
            page.start()
            cases.count(f"{label}: it starts", found.run("return document.documentElement.dataset.ready") == "yes", found.text("#problem"))
        yield page, asked


def check_edits(cases):
    """What edits do to a picture, by a list and by hand."""
    program = PROGRAM if made(cases, "frames") else None
    with opened(cases, "edits in Chromium") as (page, asked):
        if page:
            picture.check_lists(page, program)
            picture.check_lines(page, program)
            picture.check_bad_lists(page)
            picture.check_pointer(page)
            for check in (covers.check_next_tool, covers.check_tiles, covers.check_edges, covers.check_moves, covers.check_said):
                check(page)
            for check in (acts.check_keys, acts.check_undo, acts.check_taken_back, acts.check_hidden, acts.check_means):
                check(page)
            turns.check(page, program)
            looks.check_silence(page, asked)


def check_opened(cases):
    """What is opened and saved, the second page, and what the page says where it can't start."""
    with opened(cases, "files in Chromium") as (page, asked):
        if page:
            for check in (files.check_wrong_files, files.check_given, files.check_dropped, files.check_plain, files.check_small, files.check_clear):
                check(page)
            looks.check_names(page)
            layout.check_output(page)
            layout.check_steps(page)
            looks.check_phone(page)
            looks.check_silence(page, asked)
            looks.check_old(page)
            hands.check_disk(page, OUT)


def check_views(cases):
    """What a person sees, with fingers and with keys alone, and that nothing is sent."""
    with served(OUT) as (other, other_asked), opened(cases, "views in Chromium") as (page, asked):
        if page:
            for check in (views.check_sizes, views.check_zoom, views.check_brush, views.check_kept, views.check_copied,
                          views.check_shortcuts, hands.check_fingers, hands.check_keys_alone):
                check(page)
            for check in (seen.check, kept.check, edges.check, edges.check_small_windows, edges.check_swipe):
                check(page)
            looks.check_silence(page, asked)
            looks.check_sends(page, asked, other, other_asked)


def check_large(cases):
    """A large picture, whose opening, edits and saving are timed."""
    with opened(cases, "a large picture in Chromium") as (page, asked):
        if page:
            files.check_large(page)
            looks.check_silence(page, asked)


def check_strokes(cases):
    """What is lost and shown, and strokes of each form."""
    with opened(cases, "strokes in Chromium") as (page, _):
        if page:
            for check in (losses.check, strokes.check_form, strokes.check_crop):
                check(page)


def by_chance(label, browse, pictures):
    """The check of strokes by chance on some of the pictures, in a browser of its own."""

    def check_chance(cases):
        with opened(cases, label, browse) as (page, _):
            if page:
                strokes.check_random(page, pictures)

    return check_chance


# They take longest, so two browsers of a kind share the pictures.
BY_CHANCE = [
    by_chance(f"{part} of strokes by chance in {name}", browse, strokes.PICTURES[at::2])
    for name, browse in (("Chromium", browser), ("Firefox", firefox))
    for at, part in enumerate(("half", "the other half"))
]


def check_firefox(cases):
    """What is tried in Firefox: saving, what is lost and shown, and strokes of each form."""
    with opened(cases, "the page in Firefox", firefox) as (page, _):
        if page:
            for check in (hands.check_handed, files.check_plain, losses.check, strokes.check_form, strokes.check_crop):
                check(page)


def check_more_in_firefox(cases):
    """What a person sees in Firefox, and that nothing is sent."""
    with served(OUT) as (other, other_asked), opened(cases, "more of the page in Firefox", firefox) as (page, asked):
        if page:
            for check in (seen.check, kept.check, edges.check):
                check(page)
            looks.check_sends(page, asked, other, other_asked)
            hands.check_disk(page, OUT)


# A name of this machine that a browser takes for another one's, so that its address is plain http.
PLAIN = "plain.test"
# A setting of Firefox by which it gives noise for the pixels of a canvas, and a page that opens a picture all the same.
NOISE = {"privacy.resistFingerprinting": True}
BLIND = (("open.js", "if (!await givesPixels()) {", "if (false) {"),)


def check_kinds(cases):
    """Browsers of other kinds: a large picture in one of its own, plain http, and a browser that gives noise."""
    with served(OUT) as (url, _):
        with browser(cases, "a page at its edges in Chromium") as found:
            if found:
                page = picture.Page(found, url, cases)
                page.start()
                edges.check_memory(page)
        with browser(cases, "the page over plain http in Chromium", f"--host-resolver-rules=MAP {PLAIN} 127.0.0.1") as found:
            if found:
                edges.check_plain_http(picture.Page(found, url.replace("127.0.0.1", PLAIN), cases))
    with served(OUT) as (url, _), changed(cases, BLIND) as blind, firefox(cases, "a page whose pixels are noise in Firefox", NOISE) as found:
        if found:
            for address, check in ((url, edges.check_noise), (blind, edges.check_noise_saved)):
                page = picture.Page(found, address, Prefixed(cases, "Firefox"))
                page.start()
                check(page)


@contextlib.contextmanager
def changed(cases, changes):
    """The address of a page in whose sources these texts are others."""
    with tempfile.TemporaryDirectory(prefix="page-") as room:
        sources, out = (pathlib.Path(room) / it for it in ("web", "out"))
        shutil.copytree(ROOT / "web", sources)
        out.mkdir()
        for name, old, new in changes:
            text = (sources / name).read_text()
            cases.count(f"a change of {name} for a wrong page", text.count(old) == 1, old)
            (sources / name).write_text(text.replace(old, new))
        (out / "index.html").write_text(web.page(*web.PAGES["index.html"], sources))
        with served(out) as (url, _):
            yield url


class Prefixed:
    """Cases whose labels begin with the name of a browser."""

    def __init__(self, cases, name):
        self.cases, self.name = cases, name

    def count(self, label, is_well, said=""):
        self.cases.count(f"{self.name}: {label}", is_well, said)


class Faults:
    """Counts the cases that fail, and prints nothing: for a page that is wrong."""

    def __init__(self):
        self.failed = 0

    def count(self, _, is_well, said=""):
        self.failed += not is_well


# The old rule for corners: what was drawn stays selected, and a drag that begins there moves it or takes its corner.
OLD_RULE = (
    ("stage.js", 'if (this.drag.tool === "select" && index >= 0) {', "if (index >= 0 && index === this.selected) {"),
    ("picture.js", "    this.add(shape);\n    this.select(-1);", "    this.select(this.add(shape));"),
    ("picture.css", "#overlay.selecting .selected:not(.brush) .handle", "#overlay .selected:not(.brush) .handle"),
)


def check_wrong_page(cases):
    """A page with the old rule for corners fails the strokes."""
    with changed(cases, OLD_RULE) as url, browser(cases, "a page with a wrong rule in Chromium") as found:
        if found:
            faults = Faults()
            page = picture.Page(found, url, faults)
            page.start()
            strokes.check_form(page, ("mouse",))
            cases.count("a form that is covered on a page with the old rule is found out", faults.failed > 0, faults.failed)
            shown = [it for it, _ in strokes.run_random(page, strokes.PICTURES[:2])]
            cases.count("and so are strokes by chance", any(it[0] for it in shown), shown)


def beside(cases, check):
    """A check on a thread of its own. What stops it is a case that failed."""

    def run():
        try:
            check(cases)
        except Exception:
            cases.count(f"{check.__name__} comes to its end", False, traceback.format_exc())

    thread = threading.Thread(target=run)
    thread.start()
    return thread


def main(words):
    cases = Cases()
    if made(cases, "web"):
        if words == ["--screenshots"]:
            # (as where scroll bars are over the page)
            with served(OUT) as (url, _), browser(cases, "the screenshots", "--hide-scrollbars") as found:
                shots.take(picture.Page(found, url, cases), ROOT / "docs")
            return cases.end()
        check_files(cases)
        check_served(cases)
        for it in [beside(cases, it) for it in (*BY_CHANCE, check_firefox, check_more_in_firefox, check_edits, check_strokes, check_views, check_wrong_page, check_opened, check_kinds)]:
            it.join()
        # (with nothing beside it)
        beside(cases, check_large).join()
    return cases.end()


if __name__ == "__main__":
    sys.exit(main(sys.argv[1:]))
