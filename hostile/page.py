"""Uses the page of examples/web as a person does, in Chromium without a window, by keys and the mouse. Where Chromium is missing or doesn't
start, or nobody has made the module, the step says so, and nothing is tested."""
import contextlib
import fcntl
import functools
import http.server
import itertools
import json
import os
import select
import shutil
import signal
import subprocess
import tempfile
import threading
import time
import urllib.parse

from running import PATIENCE, TOP, ran

WEB = f"{TOP}/examples/web"
BROWSERS = ("chromium", "chromium-browser", "google-chrome")
# Seconds: how long a browser may take to start, and between two looks at the page.
START = 30
LOOK = 0.02
# Seconds: the longest wait for a click while the page searches, on a machine that has other things to do.
HEARD = 5
# Its search takes minutes.
DEEP = "---OOO----OOOO--OOXOXX-OOOXXXXOOOOXXXX--OXXXX--X-OX--------O---- X"
NARROW = 320
CONTROLS = ("button", "combobox", "textbox", "spinbutton")
TEXTS = '[...document.querySelectorAll("#answers li")].map((item) => item.textContent)'
FAULTS = '[...document.querySelectorAll("#answers li.fault")].map((item) => item.textContent)'
STATUS = 'document.getElementById("status")?.textContent'


class Silent(http.server.SimpleHTTPRequestHandler):
    """Serves files, and prints nothing."""

    def log_message(self, *_words):
        pass


class Failed(Exception):
    """The browser didn't do what it was asked for, or not in time."""


class Browser:
    """Chromium with one page, driven through pipes."""

    def __init__(self, program, folder):
        heard, self.asks = high_pipe()
        self.told, tells = high_pipe()
        words = [program, "--headless", "--no-sandbox", "--disable-gpu", "--disable-dev-shm-usage", "--remote-debugging-pipe"]
        script = f'exec "$@" 3<&{heard} 4>&{tells}'
        words = ["bash", "-c", script, "bash", *words, f"--user-data-dir={folder}", "about:blank"]
        silent = {"stdin": subprocess.DEVNULL, "stdout": subprocess.DEVNULL, "stderr": subprocess.DEVNULL}
        self.process = subprocess.Popen(words, pass_fds=(heard, tells), start_new_session=True, **silent)
        os.close(heard)
        os.close(tells)
        self.numbers = itertools.count(1)
        self.rest, self.events, self.session = b"", [], {}

    def close(self):
        """Ends the browser, with all that it started."""
        with contextlib.suppress(OSError):
            os.killpg(self.process.pid, signal.SIGKILL)
        self.process.wait()
        os.close(self.asks)
        os.close(self.told)

    def message(self, until):
        """Returns what the browser says next."""
        while b"\0" not in self.rest:
            if not select.select([self.told], [], [], max(0, until - time.monotonic()))[0]:
                raise Failed("the browser says nothing")
            read = os.read(self.told, 1 << 16)
            if not read:
                raise Failed("the browser ended")
            self.rest += read
        message, self.rest = self.rest.split(b"\0", 1)
        return json.loads(message)

    def ask(self, method, patience=PATIENCE, **params):
        """Returns what the browser answers. Whatever else it says meanwhile is kept."""
        number = next(self.numbers)
        os.write(self.asks, json.dumps({"id": number, "method": method, "params": params, **self.session}).encode() + b"\0")
        until = time.monotonic() + patience
        while (message := self.message(until)).get("id") != number:
            self.events.append(message)
        if "error" in message:
            raise Failed(f"{method}: {message['error']}")
        return message["result"]

    def begin(self):
        """Opens the one page."""
        target = self.ask("Target.createTarget", START, url="about:blank")["targetId"]
        self.session = {"sessionId": self.ask("Target.attachToTarget", targetId=target, flatten=True)["sessionId"]}
        for domain in ("Page", "Runtime", "Network", "Log"):
            self.ask(f"{domain}.enable")

    def value(self, expression):
        """Returns the value of an expression of JavaScript in the page."""
        told = self.ask("Runtime.evaluate", expression=expression, returnByValue=True, awaitPromise=True)
        if "exceptionDetails" in told:
            raise Failed(f"{expression}: {told['exceptionDetails']}")
        return told["result"].get("value")

    def wait(self, expression, wanted, patience=PATIENCE):
        """Waits until the expression has this value. Returns what is wrong: nothing, or the value that it has instead."""
        until = time.monotonic() + patience
        while (value := self.value(expression)) != wanted:
            if time.monotonic() > until:
                return f"{expression} is {value!r}, wanted {wanted!r}"
            time.sleep(LOOK)
        return ""

    def open(self, address):
        """Loads the page, and waits until it says that it is ready. Returns what is wrong."""
        self.ask("Page.navigate", url="about:blank")
        self.ask("Page.navigate", url=address)
        return self.wait(STATUS, "Ready.")

    def press(self, key, text=""):
        """Presses a key."""
        codes = {"Tab": 9, "Enter": 13}
        words = {"key": key, "windowsVirtualKeyCode": codes[key], "text": text}
        self.ask("Input.dispatchKeyEvent", type="keyDown" if text else "rawKeyDown", **words)
        self.ask("Input.dispatchKeyEvent", type="keyUp", **words)

    def click(self, name):
        """Clicks the middle of an element, once it is in sight."""
        self.value(f"{named(name)}.scrollIntoView()")
        box = self.value(f"(({{ x, y, width, height }}) => [x + width / 2, y + height / 2])({named(name)}.getBoundingClientRect())")
        for kind in ("mousePressed", "mouseReleased"):
            self.ask("Input.dispatchMouseEvent", type=kind, x=box[0], y=box[1], button="left", clickCount=1)


def named(name):
    """Returns the element of this name, for JavaScript."""
    return f'document.getElementById("{name}")'


def high_pipe():
    """Returns the ends of a pipe, neither of which is 3 or 4, the numbers that the browser reads and writes."""
    ends = os.pipe()
    moved = [fcntl.fcntl(end, fcntl.F_DUPFD_CLOEXEC, 10) for end in ends]
    for end in ends:
        os.close(end)
    return moved


@contextlib.contextmanager
def served():
    """Gives the address of a server of the page's folder."""
    with http.server.ThreadingHTTPServer(("127.0.0.1", 0), functools.partial(Silent, directory=WEB)) as server:
        threading.Thread(target=server.serve_forever, daemon=True).start()
        yield f"http://127.0.0.1:{server.server_port}/"
        server.shutdown()


@contextlib.contextmanager
def begun():
    """Gives a browser with an empty page, or why there is none."""
    found = next(filter(None, map(shutil.which, BROWSERS)), None)
    if not found or not os.path.exists(f"{WEB}/othsolve.wasm"):
        yield "examples/web/build.py has not made the module" if found else "Chromium is missing"
        return
    with tempfile.TemporaryDirectory(ignore_cleanup_errors=True) as folder, contextlib.closing(Browser(found, folder)) as browser:
        try:
            browser.begin()
        except (Failed, OSError) as failed:
            yield f"Chromium doesn't start: {failed}"
        else:
            yield browser


def steps(program):
    """Yields a step for each thing that a person does on the page."""
    with begun() as browser, served() as address:
        if isinstance(browser, str):
            yield f"the page in a browser: left out, {browser}", ""
            return
        try:
            yield from page_steps(browser, address, program)
        except Failed as failed:
            yield "the page answers", str(failed)


def page_steps(browser, address, program):
    """Yields the steps, of which each begins where the one before it has left the page."""
    yield "the page is ready", browser.open(address)
    yield "each control has a name", nameless(browser)
    yield "the page has room on a narrow screen", too_wide(browser)
    with open(f"{TOP}/examples/boards.txt", encoding="ascii") as file:
        lines = [*file.read().splitlines(), "X"]
    yield "lines are answered by keys alone", wrong_by_keys(browser, program, lines)
    yield "faults are marked", browser.wait(FAULTS, [reply for reply in replies(program, ["solve"], lines) if reply.startswith("error")])
    yield "the answers are copied", wrong_copy(browser, address)
    yield "a link carries lines, command and scoring", wrong_by_link(browser, address, program, lines)
    yield "a click is heard during a search, and ends it", wrong_stop(browser, address)
    yield "nothing comes from elsewhere, and nothing fails", complaints(browser, address)


def nameless(browser):
    """Returns the controls that a screen reader has no name for."""
    nodes = browser.ask("Accessibility.getFullAXTree")["nodes"]
    controls = [node for node in nodes if not node["ignored"] and node["role"]["value"] in CONTROLS]
    wrong = [node["role"]["value"] for node in controls if not node.get("name", {}).get("value")]
    return "" if controls and not wrong else f"{wrong or 'no controls'}"


def too_wide(browser):
    """Returns by how much the page is wider than a narrow screen, if it is."""
    browser.ask("Emulation.setDeviceMetricsOverride", width=NARROW, height=600, deviceScaleFactor=1, mobile=False)
    wrong = browser.wait("document.documentElement.scrollWidth - document.documentElement.clientWidth", 0)
    browser.ask("Emulation.clearDeviceMetricsOverride")
    return wrong


def replies(program, words, lines):
    """Returns what the program writes of the lines."""
    return ran([program, *words], "".join(f"{line}\n" for line in lines).encode()).wrote.decode().splitlines()


def wrong_by_keys(browser, program, lines):
    """Goes to the field of lines, fills it and asks for the answers, by keys. Returns what is wrong with them."""
    for _ in range(3):
        browser.press("Tab")
    wrong = browser.wait("document.activeElement.id", "lines", HEARD)
    browser.ask("Input.insertText", text="\n".join(lines))
    browser.press("Tab")
    browser.press("Enter", "\r")
    return wrong or browser.wait(TEXTS, replies(program, ["solve"], lines))


def wrong_copy(browser, address):
    """Copies the answers. Returns what is wrong with the copy."""
    browser.ask("Browser.grantPermissions", permissions=["clipboardReadWrite", "clipboardSanitizedWrite"], origin=address)
    browser.click("copy")
    wrong = browser.wait(STATUS, "The answers are copied.")
    return wrong or browser.wait("navigator.clipboard.readText()", "".join(f"{text}\n" for text in browser.value(TEXTS)))


def wrong_by_link(browser, address, program, lines):
    """Opens a link, and asks for the answers by a click. Returns what is wrong with them."""
    asked = {"command": "scores", "scoring": "discs", "lines": "\n".join(lines)}
    wrong = browser.open(f"{address}#{urllib.parse.urlencode(asked)}")
    browser.click("go")
    return wrong or browser.wait(TEXTS, replies(program, ["scores", "--scoring", "discs"], lines))


def wrong_stop(browser, address):
    """Ends a search that takes minutes. Returns what is wrong."""
    wrong = browser.open(f"{address}#{urllib.parse.urlencode({'lines': DEEP})}")
    browser.value(f'{named("stop")}.addEventListener("click", (event) => {{ self.waited = performance.now() - event.timeStamp; }})')
    browser.click("go")
    wrong = wrong or browser.wait(STATUS, "0 of 1 answered.", HEARD)
    browser.click("stop")
    wrong = wrong or browser.wait(STATUS, "Stopped: 0 of 1 answered.", HEARD)
    return wrong or ("" if browser.value("self.waited") < 1000 * HEARD else f"heard after {browser.value('self.waited')} ms")


def complaints(browser, address):
    """Returns what was asked of another server, and each fault that the browser tells of."""
    wrong = []
    for event in browser.events:
        method, params = event.get("method"), event.get("params", {})
        if method == "Network.requestWillBeSent" and not params["request"]["url"].startswith((address, "about:")):
            wrong.append(params["request"]["url"])
        elif method == "Runtime.exceptionThrown" or (method == "Log.entryAdded" and params["entry"]["level"] == "error"):
            wrong.append(str(params))
    return ", ".join(wrong)
