"""Browsers: Chromium by its driver, over the WebDriver protocol, and Firefox by its own protocol, Marionette. A server notes
each request.

It needs Chromium and its driver (Debian: chromium, chromium-driver), or Firefox (Debian: firefox-esr), and nothing else.
"""
import base64
import contextlib
import functools
import http.server
import json
import os
import pathlib
import shutil
import socket
import subprocess
import tempfile
import threading
import time
import urllib.error
import urllib.request

BROWSERS, DRIVERS = ("chromium", "chromium-browser", "google-chrome"), ("chromedriver",)
SCRIPTS = pathlib.Path(__file__).resolve().parent / "scripts"
CHANGE = """const it = document.getElementById(arguments[0]); it.value = arguments[1];
for (const kind of ["input", "change"]) { it.dispatchEvent(new Event(kind, { bubbles: true })); }"""
# How long something is waited for, in seconds: the machine may be busy.
PATIENCE = 60
# The least time between two saved files, in seconds: of more than ten in a second Chromium drops the rest, and says nothing.
PACE = 0.12
ELEMENT = "element-6066-11e4-a52e-4f735466cecf"
KEYS = {
    "Tab": "\ue004", "Backspace": "\ue003", "Shift": "\ue008", "Control": "\ue009", "Escape": "\ue00c", "Delete": "\ue017",
    "Left": "\ue012", "Up": "\ue013", "Right": "\ue014", "Down": "\ue015", "Enter": "\ue007",
}
FLAGS = (
    "--headless=new", "--no-sandbox", "--disable-gpu", "--window-size=1280,1200",
    "--force-device-scale-factor=1", "--disable-background-networking",
    # (the frame of the page in the process of its page, so that what the driver emulates holds in it)
    "--disable-features=IsolateSandboxedIframes",
)
FIREFOXES = ("firefox-esr", "firefox")
FIREFOX_FLAGS = ("--headless", "--no-remote", "--marionette", "--remote-allow-system-access")
# A free port, the folder for files, scroll bars that take room, and nothing that asks, looks for anything or takes the keys from the page.
FIREFOX_SETTINGS = {
    "widget.gtk.overlay-scrollbars.enabled": False,
    "marionette.port": 0, "browser.download.folderList": 2, "browser.download.useDownloadDir": True,
    "browser.download.always_ask_before_handling_new_types": False, "browser.download.alwaysOpenPanel": False, "browser.shell.checkDefaultBrowser": False,
    "datareporting.policy.dataSubmissionEnabled": False, "app.update.enabled": False, "app.normandy.enabled": False,
    "browser.newtabpage.enabled": False, "browser.aboutwelcome.enabled": False, "network.captive-portal-service.enabled": False,
    "network.connectivity-service.enabled": False, "browser.safebrowsing.downloads.enabled": False, "dom.disable_beforeunload": True,
    "browser.safebrowsing.malware.enabled": False, "browser.safebrowsing.phishing.enabled": False,
    "extensions.getAddons.cache.enabled": False, "services.settings.server": "data:,", "toolkit.telemetry.enabled": False,
}
# Paths of WebDriver, and the commands of Marionette that do the same.
FIREFOX_COMMANDS = {
    "/url": "Navigate", "/frame": "SwitchToFrame", "/execute/sync": "ExecuteScript", "/execute/async": "ExecuteAsyncScript",
    "/element": "FindElement", "/element/click": "ElementClick", "/element/value": "ElementSendKeys",
    "/actions": "PerformActions", "/screenshot": "TakeScreenshot", "/print": "Print",
}
DOWNLOADS = """const done = arguments[0], { Downloads } = ChromeUtils.importESModule("resource://gre/modules/Downloads.sys.mjs");
Downloads.getList(Downloads.ALL).then((it) => it.getAll()).then((all) => done(all.map((it) => [it.target.path, it.succeeded])));"""


# How long a finger holds still, in milliseconds.
HOLD = 400
# What a pointer does.
DOWN, UP = {"type": "pointerDown", "button": 0}, {"type": "pointerUp", "button": 0}


def move_to(place):
    return {"type": "pointerMove", "duration": 0, "x": place[0], "y": place[1]}


def found(names):
    """The first of these programs that is on this machine."""
    return next(filter(None, map(shutil.which, names)), None)


class Session:
    """What is done in a browser. Its `ask` carries out a command of WebDriver."""
    # (whether a test may read the clipboard)
    is_inside, next_save, folder, can_copy = False, 0, None, False

    def ask(self, method, path, body=None):
        raise NotImplementedError

    def open(self, url):
        self.ask("POST", "/url", {"url": url})
        self.is_inside = False

    def enter(self, number=0):
        """From here on scripts and places are those of a frame, or of the page with None."""
        self.ask("POST", "/frame", {"id": number})
        self.is_inside = number is not None

    def corner(self):
        """Where the frame begins in the window: places of the driver are in the window."""
        if not self.is_inside:
            return 0, 0
        self.enter(None)
        box = self.run("const it = document.querySelector('iframe').getBoundingClientRect(); return [it.left, it.top]")
        self.enter()
        return box

    def run(self, script, *values):
        """Runs a script in the page, and returns what it returns."""
        return self.ask("POST", "/execute/sync", {"script": script, "args": values})

    def script(self, name, *values):
        """Runs a script of the folder `scripts` in the page, and returns what it returns."""
        return self.run((SCRIPTS / f"{name}.js").read_text(), *values)

    def wait_for(self, name, *values):
        """The same of a script that calls its last argument with what it gives."""
        text = (SCRIPTS / f"{name}.js").read_text()
        return self.ask("POST", "/execute/async", {"script": text, "args": values})

    def change(self, name, value):
        """Gives a field another value, as a person does."""
        self.run(CHANGE, name, value)

    def element(self, selector):
        return self.ask("POST", "/element", {"using": "css selector", "value": selector})[ELEMENT]

    def click(self, selector):
        self.ask("POST", f"/element/{self.element(selector)}/click")

    def type(self, selector, text):
        self.ask("POST", f"/element/{self.element(selector)}/value", {"text": text})

    def press(self, *keys):
        """Presses one key with those before it held down."""
        held, key = [KEYS.get(it, it) for it in keys[:-1]], KEYS.get(keys[-1], keys[-1])
        acts = [{"type": "keyDown", "value": it} for it in (*held, key)]
        acts += [{"type": "keyUp", "value": it} for it in (key, *reversed(held))]
        self.ask("POST", "/actions", {"actions": [{"type": "key", "id": "keys", "actions": acts}]})

    def drag(self, *places, kind="mouse", ends=True):
        """Presses at the first place of the window, goes to the others, and lets go."""
        moves = [move_to(it) for it in places]
        # (a finger holds still before it draws)
        holds = [{"type": "pause", "duration": HOLD}] if kind == "touch" else []
        self.act([moves[0], DOWN, *holds, *moves[1:], *([UP] if ends else [])], kind)

    def act(self, acts, kind="mouse"):
        """What one pointer does."""
        self.act_all({kind: acts}, kind)

    def act_all(self, acts, kind):
        """What pointers of one kind do at the same time, by their names."""
        left, top = self.corner()
        place = lambda it: {"x": round(it["x"] + left), "y": round(it["y"] + top)}
        pointers = [{
            "type": "pointer", "id": name, "parameters": {"pointerType": kind},
            "actions": [it | place(it) if it["type"] == "pointerMove" else it for it in them]
        } for name, them in acts.items()]
        self.ask("POST", "/actions", {"actions": pointers})

    def text(self, selector):
        return self.run("return document.querySelector(arguments[0]).textContent", selector)

    def printed(self):
        """The page as it is printed to a file of PDF."""
        inside = self.is_inside
        self.enter(None)
        data = base64.b64decode(self.ask("POST", "/print", {"background": True}))
        if inside:
            self.enter()
        return data

    def screenshot(self):
        return base64.b64decode(self.ask("GET", "/screenshot"))

    def saved(self, name, selector):
        """The bytes of a file that the page saves after a click, and removes it."""
        time.sleep(max(0, self.next_save - time.monotonic()))
        self.next_save = time.monotonic() + PACE
        self.run("document.querySelector(arguments[0]).click()", selector)
        return self.handed(name)

    def handed(self, name):
        """The bytes of a file that the page handed to the browser, and removes it."""
        path, data = until(lambda: self.come(name), f"for {name}")
        path.unlink()
        return data

    def come(self, name):
        """A file of this name, and its bytes. While a browser ends an earlier one, it gives the next one a number too."""
        stem, _, kind = name.rpartition(".")
        paths = [self.folder / name, *self.folder.glob(f"{stem} (*).{kind}"), *self.folder.glob(f"{stem}(*).{kind}")]
        return next(((it, it.read_bytes()) for it in paths if it.exists() and it.stat().st_size > 0), None)

class Browser(Session):
    """A session of Chromium."""
    can_copy = True

    def hold_enter(self, count):
        """Enter is held: it comes so often again."""
        key = {"key": "Enter", "code": "Enter", "windowsVirtualKeyCode": 13, "text": "\r"}
        for at in range(count):
            self.devtools("Input.dispatchKeyEvent", type="keyDown", autoRepeat=at > 0, **key)
        self.devtools("Input.dispatchKeyEvent", type="keyUp", key="Enter", code="Enter", windowsVirtualKeyCode=13)

    def __init__(self, driver, program, folder, flags=()):
        self.port_file, self.folder = folder / "driver.log", folder
        self.log = open(self.port_file, "w", encoding="utf-8")
        self.process = subprocess.Popen(
            [driver, "--port=0"], stdin=subprocess.DEVNULL, stdout=self.log, stderr=self.log
        )
        try:
            self.base = f"http://127.0.0.1:{until(self.port)}"
            wanted = {"goog:loggingPrefs": {"performance": "ALL", "browser": "ALL"},
                      "goog:chromeOptions": {"binary": program, "args": [*FLAGS, *flags], "excludeSwitches": ["hide-scrollbars"]}}
            made = self.ask("POST", "/session", {"capabilities": {"alwaysMatch": wanted}})
            self.base += f"/session/{made['sessionId']}"
        except BaseException:
            self.process.kill()
            raise
        self.devtools("Browser.setDownloadBehavior", behavior="allow", downloadPath=str(folder))

    def port(self):
        """The port that the driver chose, which its log says."""
        words = self.port_file.read_text().split("successfully on port ")
        return words[1].split(".")[0] if len(words) > 1 else None

    def end(self):
        with contextlib.suppress(OSError):
            self.ask("DELETE", "")
        self.process.terminate()
        self.process.wait()
        self.log.close()

    def ask(self, method, path, body=None):
        data = None if method != "POST" else json.dumps(body or {}).encode()
        request = urllib.request.Request(
            f"{self.base}{path}", data, {"Content-Type": "application/json"}, method=method
        )
        try:
            with urllib.request.urlopen(request, timeout=180) as answer:
                return json.load(answer)["value"]
        except urllib.error.HTTPError as why:
            raise RuntimeError(json.load(why)["value"]["message"]) from None

    def devtools(self, command, **values):
        return self.ask("POST", "/goog/cdp/execute", {"cmd": command, "params": values})

    def requests(self):
        """The addresses that the page asked for since the last call, as the browser logged them."""
        said = [
            json.loads(it["message"])["message"] for it in self.ask(
                "POST", "/se/log", {"type": "performance"}
            )
        ]
        return [
            it["params"]["request"]["url"] for it in said if it[
                "method"
            ] == "Network.requestWillBeSent"
        ]

    def faults(self):
        """What the browser's console said of errors since the last call."""
        return [
            it["message"] for it in self.ask(
                "POST", "/se/log", {"type": "browser"}
            ) if it["level"] == "SEVERE"
        ]


def until(tells, what=""):
    """What a function gives as soon as it gives something."""
    ends = time.monotonic() + PATIENCE
    while time.monotonic() < ends:
        if value := tells():
            return value
        time.sleep(0.02)
    raise RuntimeError(f"waited in vain {what}".strip())


class Firefox(Session):
    """A session of Firefox, over its protocol: texts of JSON, each with its length before it, on a port of this machine."""

    def __init__(self, program, folder, more):
        self.folder, self.count, self.left, self.more_settings = folder / "saved", 0, b"", more
        room = folder / "profile"
        room.mkdir()
        self.folder.mkdir()
        (room / "user.js").write_text("".join(f"user_pref({json.dumps(it)}, {json.dumps(value)});\n" for it, value in self.settings().items()))
        self.log = open(folder / "firefox.log", "w", encoding="utf-8")
        command = [program, *FIREFOX_FLAGS, "--profile", str(room)]
        # (without a home of somebody else, in which it would look for other profiles)
        environment = {**os.environ, "HOME": str(folder), "MOZ_HEADLESS_WIDTH": "1280", "MOZ_HEADLESS_HEIGHT": "1200"}
        self.process = subprocess.Popen(command, stdin=subprocess.DEVNULL, stdout=self.log, stderr=self.log, env=environment)
        try:
            port = room / "MarionetteActivePort"
            self.link = socket.create_connection(("127.0.0.1", int(until(lambda: port.exists() and port.read_text(), "for Firefox"))), 180)
            self.receive()
            self.send("WebDriver:NewSession", {})
        except BaseException:
            self.process.kill()
            raise

    def settings(self):
        return {**FIREFOX_SETTINGS, "browser.download.dir": str(self.folder), **self.more_settings}

    def end(self):
        with contextlib.suppress(OSError, RuntimeError):
            self.send("Marionette:Quit", {"flags": ["eForceQuit"]})
        self.link.close()
        try:
            self.process.wait(20)
        except subprocess.TimeoutExpired:
            self.process.kill()
            self.process.wait()
        self.log.close()

    def receive(self):
        """The next text of the browser."""
        while b":" not in self.left:
            self.left += self.more()
        size, _, self.left = self.left.partition(b":")
        while len(self.left) < int(size):
            self.left += self.more()
        text, self.left = self.left[:int(size)], self.left[int(size):]
        return json.loads(text)

    def more(self):
        data = self.link.recv(1 << 16)
        if not data:
            raise RuntimeError("Firefox has ended")
        return data

    def send(self, command, values):
        """Carries out a command of the protocol, and returns what it gives."""
        self.count += 1
        text = json.dumps([0, self.count, command, values]).encode()
        self.link.sendall(b"%d:%b" % (len(text), text))
        _, _, fault, value = self.receive()
        if fault:
            raise RuntimeError(fault["message"])
        return value["value"] if isinstance(value, dict) and set(value) == {"value"} else value

    def ask(self, method, path, body=None):
        values, parts = dict(body or {}), path.strip("/").split("/")
        if "script" in values:
            # (as a script of the page, and not as one beside it)
            values["sandbox"] = None
        if parts[0] == "element" and len(parts) > 1:
            values["id"], path = parts[1], f"/element/{parts[2]}"
        return self.send(f"WebDriver:{FIREFOX_COMMANDS[path]}", values)

    def corner(self):
        # (its places are those in the frame)
        return 0, 0

    def hold_enter(self, count):
        """Enter is held: it comes so often again."""
        acts = [*[{"type": "keyDown", "value": KEYS["Enter"]}] * count, {"type": "keyUp", "value": KEYS["Enter"]}]
        self.ask("POST", "/actions", {"actions": [{"type": "key", "id": "keys", "actions": acts}]})

    def downloads(self):
        """The list of downloads that a person sees: each with its path, and whether it is complete."""
        self.send("Marionette:SetContext", {"value": "chrome"})
        try:
            return self.send("WebDriver:ExecuteAsyncScript", {"script": DOWNLOADS, "args": [], "sandbox": None})
        finally:
            self.send("Marionette:SetContext", {"value": "content"})


@contextlib.contextmanager
def firefox(cases, label, settings=None):
    """Firefox until the end of the block, with these settings besides its own, or None where this machine lacks it: then what needs it
    is skipped."""
    program = found(FIREFOXES)
    if not program:
        cases.skip(label, "firefox-esr")
        yield None
        return
    with tempfile.TemporaryDirectory(prefix="firefox-", ignore_cleanup_errors=True) as room:
        made = Firefox(program, pathlib.Path(room), settings or {})
        try:
            yield made
        finally:
            made.end()


@contextlib.contextmanager
def browser(cases, label, *flags):
    """A browser until the end of the block, with these flags besides its own, or None where this machine lacks one or its driver: then
    what needs it is skipped."""
    program, driver = found(BROWSERS), found(DRIVERS)
    if not program or not driver:
        cases.skip(label, *(name for name, it in (("chromium", program), ("chromium-driver", driver)) if not it))
        yield None
        return
    with tempfile.TemporaryDirectory(prefix="browser-", ignore_cleanup_errors=True) as room:
        made = Browser(driver, program, pathlib.Path(room), flags)
        try:
            yield made
        finally:
            made.end()


class Server(http.server.ThreadingHTTPServer):
    """A server that notes each connection, also one that asks for nothing."""

    def get_request(self):
        found = super().get_request()
        self.asked.joined += 1
        return found


class Asked(list):
    """The paths that were asked for, and how many connections there were."""
    joined = 0


@contextlib.contextmanager
def served(folder):
    """The address at which a folder is served, and the paths that were asked for."""
    asked = Asked()

    class Handler(http.server.SimpleHTTPRequestHandler):
        def log_message(self, *_):
            asked.append(self.path)

    handler = functools.partial(Handler, directory=os.fspath(folder))
    with Server(("127.0.0.1", 0), handler) as server:
        server.asked = asked
        thread = threading.Thread(target=server.serve_forever, daemon=True)
        thread.start()
        try:
            yield f"http://127.0.0.1:{server.server_port}/", asked
        finally:
            server.shutdown()
            thread.join()
