"""The page as a person meets it: names, focus, contrast, a phone, and that nothing is sent."""
import time

from browser import png

# The phone, and what is done on it: the page, and the edits of a picture where there is one.
PHONE = {"width": 360, "height": 740, "deviceScaleFactor": 2, "mobile": True}
ON_PHONE = (
    ("at first", "index", None),
    ("with a picture", "index", ""),
    ("with edits", "index", "fill 100,100,80,80 1,200,3\nmosaic 0,0,300,900 16,16"),
    ("the layout", "layout", None),
)
TITLES = {"index": "Cover parts of a picture", "layout": "How pixels lie in memory"}
# What a browser or a server lacks: a script that makes it so, and what the page says then.
OLD = {
    "no 64-bit memories": (
        "WebAssembly.compile = () => Promise.reject(new WebAssembly.CompileError('memory'))",
        "no 64-bit WebAssembly memories. Safari and every browser on an iPhone have none.",
    ),
    "no module": (
        "WebAssembly.instantiate = () => Promise.reject(new Error('no module'))", "The page can't start. no module",
    ),
}
# What the console says of a part of the policy that this browser doesn't know yet, and of a page that the driver
# leaves although edits aren't saved.
EXPECTED = ("Unrecognized Content-Security-Policy directive 'webrtc'", "attempt to show a 'beforeunload'")
# Ways by which the browser connects to another server before it refuses, and then asks for nothing.
JOINS = ("preconnect", "a frame", "a link", "a link with download", "location", "a refresh")
# How long a request may take to arrive, in seconds.
SILENCE = 0.5
WIDE = "return [document.scrollingElement.scrollWidth, innerWidth]"


def check_names(page):
    """Each field and button has a name, and each page a language and a title."""
    for tab in ("index", "layout"):
        page.start(f"{tab}.html")
        if tab == "index":
            page.open()
            page.apply("fill 1,1,9,9 3\nmosaic 20,5,20,20 5,5")
            page.browser.click("#edits li:nth-child(2) button")
        nameless = page.browser.script("nameless")
        page.cases.count(f"{tab}: each field and button has a name", not nameless, nameless)
        tiny = page.browser.script("tiny")
        page.cases.count(f"{tab}: each can be hit by a finger", not tiny, tiny)
        for scheme in ("light", "dark"):
            page.browser.devtools(
                "Emulation.setEmulatedMedia",
                features=[{"name": "prefers-color-scheme", "value": scheme}]
            )
            faint = page.browser.script("faint")
            page.cases.count(f"{tab}: contrast of each text, {scheme}", not faint, faint)
            if tab == "index":
                page.preview()
                wrong = page.browser.script("faint"), page.browser.script("nameless"), page.browser.script("tiny")
                page.cases.count(f"the preview: contrast, names and sizes, {scheme}", wrong == ([], [], []), wrong)
                page.browser.press("Escape")
        page.browser.devtools("Emulation.setEmulatedMedia", features=[])
        page.browser.enter(None)
        named = page.browser.run("return [document.documentElement.lang, document.title]")
        page.cases.count("a language and a title", named == ["en", TITLES[tab]], named)
        faint = page.browser.script("faint")
        page.cases.count(f"{tab}: contrast round its frame", not faint, faint)
        page.browser.enter()
    page.start()


def check_phone(page):
    """On a phone's width nothing is cut off at the right, and a finger covers."""
    page.browser.devtools("Emulation.setDeviceMetricsOverride", **PHONE)
    page.browser.devtools("Emulation.setTouchEmulationEnabled", enabled=True)
    for label, tab, edits in ON_PHONE:
        page.start(f"{tab}.html")
        if edits is not None:
            page.open(png.by_chance(300, 900, "phone"), 300, 900)
            page.apply(edits)
        wide, inner = page.browser.run(WIDE)
        page.cases.count(
            f"a phone, {label}: nothing is wider than the screen", wide <= inner, (wide, inner)
        )
    page.start()
    page.open(png.by_chance(300, 900, "phone"), 300, 900)
    page.drag((20, 20), (60, 60), (120, 120), kind="touch")
    page.count(
        "a phone: a finger draws", page.list().startswith("fill ") and page.list().count("\n") == 1
    )
    page.browser.devtools("Emulation.clearDeviceMetricsOverride")
    page.browser.devtools("Emulation.setTouchEmulationEnabled", enabled=False)
    page.start()


def check_silence(page, asked):
    """The browser asked for the pages alone that were started."""
    found = {it for it in page.browser.requests() if not it.startswith(("data:", "blob:", "about:"))}
    own = {f"{page.url}{it}" for it in page.started}
    page.cases.count("the browser asked for the pages alone", found == own, sorted(found - own))
    wanted = {f"/{it}" for it in page.started}
    page.cases.count("the server was asked for these alone", set(asked) == wanted, sorted(set(asked)))
    faults = [it for it in page.browser.faults() if not any(known in it for known in EXPECTED)]
    page.cases.count("the browser's console has no error", not faults, "\n".join(faults[:5]))


def check_sends(page, asked, other, other_asked):
    """No script of the page sends anything, in any of these ways. Where the browser connects all the same, it
    asks for nothing, and the way is one of those that docs/WEB.md names."""
    names, joined = page.browser.wait_for("sends", None, other), []
    for name in names:
        page.start()
        before, before_joined = len(asked), other_asked.joined
        came = page.browser.wait_for("sends", name, f"{other}away")
        time.sleep(SILENCE)
        well = "LOADED" not in came and not other_asked and asked[before:] == []
        page.cases.count(f"sending by {name} is refused", well, (came, other_asked, asked[before:]))
        joined += [name] if other_asked.joined > before_joined else []
    page.start()
    page.browser.enter(None)
    inside = page.browser.run("return [document.querySelector('iframe').contentDocument, typeof RTCPeerConnection]")
    page.cases.count("the page round the frame can't read it", inside == [None, "undefined"], inside)
    page.browser.enter()
    print(f"  connections without a request: {', '.join(joined)}")
    page.cases.count("a connection is made by no other way", set(joined) <= set(JOINS), joined)


def check_old(page):
    """A browser without 64-bit memories, and a server without the module, are reported in words."""
    for label, (script, words) in OLD.items():
        made = page.browser.devtools("Page.addScriptToEvaluateOnNewDocument", source=script)
        page.start()
        problem = page.browser.run(
            "const it = document.getElementById('problem'); return it.hidden ? '' : it.textContent"
        )
        page.cases.count(f"{label}: the page says so", words in problem, problem)
        page.cases.count(
            f"{label}: nothing can be clicked",
            page.browser.run("return document.getElementById('picture').inert")
        )
        page.browser.devtools(
            "Page.removeScriptToEvaluateOnNewDocument", identifier=made["identifier"]
        )
    page.start()
    page.cases.count(
        "and then it starts",
        page.browser.run("return document.documentElement.dataset.ready") == "yes"
    )
