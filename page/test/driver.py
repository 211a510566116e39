"""The page in Chromium, and what is counted of what it shows."""
import json
import os
import shutil
import socket
import subprocess
import time
import urllib.request

TOP = os.path.dirname(os.path.dirname(os.path.dirname(os.path.abspath(__file__))))
UP, DOWN, LEFT, RIGHT, END, HOME = "\ue013", "\ue015", "\ue012", "\ue014", "\ue010", "\ue011"
done, astray = 0, 0


def check(name, holds, said=""):
    global done, astray
    done += 1
    if not holds:
        astray += 1
        print(f"astray: {name} {said}")


def alike(name, found, wanted):
    check(name, found == wanted, f"\n  found  {found}\n  wanted {wanted}")


class Browser:
    """A session of chromedriver, with the scroll bars of a desktop where it is told so."""

    def __init__(self, *words, has_bars=False):
        with socket.socket() as free:
            free.bind(("127.0.0.1", 0))
            port = free.getsockname()[1]
        self.url = f"http://127.0.0.1:{port}"
        self.driver = subprocess.Popen(
            ["chromedriver", f"--port={port}"], stdout=subprocess.DEVNULL, stderr=subprocess.DEVNULL
        )
        self.wait_for_driver()
        words = [
            "--headless=new",
            "--no-sandbox",
            "--disable-gpu",
            *([] if has_bars else ["--hide-scrollbars"]),
            "--disable-dev-shm-usage",
            *words,
        ]
        options = {"args": words, "binary": shutil.which("chromium")}
        asked = {"capabilities": {"alwaysMatch": {"goog:chromeOptions": options}}}
        self.session = f"/session/{self.call('/session', asked)['sessionId']}"

    def wait_for_driver(self):
        for _ in range(100):
            try:
                return self.call("/status")
            except OSError:
                time.sleep(0.1)
        raise SystemExit("chromedriver does not answer")

    def call(self, path, body=None):
        data = None if body is None else json.dumps(body).encode()
        asked = urllib.request.Request(self.url + path, data, {"Content-Type": "application/json"})
        try:
            with urllib.request.urlopen(asked, timeout=120) as answer:
                return json.load(answer)["value"]
        except urllib.error.HTTPError as error:
            raise SystemExit(f"{path}: {error.read().decode()[:600]}")

    def post(self, path, **body):
        return self.call(self.session + path, body)

    def run(self, script, *arguments):
        return self.post("/execute/sync", script=script, args=list(arguments))

    def wait(self, script, *arguments):
        """Runs a script that calls its last argument when it is done."""
        return self.post("/execute/async", script=script, args=list(arguments))

    def tell(self, command, **words):
        return self.post("/goog/cdp/execute", cmd=command, params=words)

    def open(self, url):
        self.post("/url", url="about:blank")
        self.post("/url", url=url)

    def keys(self, *codes):
        acts = [{"type": way, "value": code} for code in codes for way in ("keyDown", "keyUp")]
        self.post("/actions", actions=[{"type": "key", "id": "keys", "actions": acts}])

    def give_file(self, path):
        found = self.post("/element", using="css selector", value="#file")
        self.post(f"/element/{next(iter(found.values()))}/value", text=path)

    def size(self, width, height, scale=1, mobile=False):
        """Has the page on a screen of so many pixels, until `any_size`."""
        self.tell(
            "Emulation.setDeviceMetricsOverride",
            width=width,
            height=height,
            deviceScaleFactor=scale,
            mobile=mobile,
        )

    def any_size(self):
        self.tell("Emulation.clearDeviceMetricsOverride")

    def show_as(self, scheme):
        """Has the page light or dark; with no scheme, as the system has it."""
        features = [{"name": "prefers-color-scheme", "value": scheme}] if scheme else []
        self.tell("Emulation.setEmulatedMedia", features=features)

    def quit(self):
        try:
            self.call_delete()
        finally:
            self.driver.terminate()

    def call_delete(self):
        asked = urllib.request.Request(self.url + self.session, method="DELETE")
        urllib.request.urlopen(asked, timeout=30).close()


SETTLE = """
const done = arguments[arguments.length - 1];
const was = document.body.dataset.run;
const look = () => (document.body.dataset.run !== was ? done(true) : setTimeout(look, 5));
"""
PUT = (
    """
const set = (name, value) => { document.getElementById(name).value = value; };
set('text', arguments[0]); set('kind', arguments[1]);
document.getElementById('log').checked = arguments[2];
['depth', 'records', 'payloads'].forEach((name, k) => set(name, arguments[3][k]));
document.getElementById('text').dispatchEvent(new Event('input'));
"""
    + SETTLE
    + "look();"
)
ROWS = """
const tree = document.getElementById('tree'), found = new Map();
const done = arguments[arguments.length - 1];
const note = (row) => found.set(Number(row.dataset.row), {
  kind: /k(\\d)/.exec(row.className)?.[1] ?? 'fault', label: row.getAttribute('aria-label'),
  level: Number(row.getAttribute('aria-level')), open: row.getAttribute('aria-expanded'),
  number: row.querySelector('b').textContent, way: row.querySelector('.value')?.className ?? '',
  also: row.querySelector(':scope > .also')?.textContent ?? '',
  value: row.querySelector('.value')?.firstChild?.textContent ?? '' });
const take = () => tree.querySelectorAll('.row').forEach(note);
tree.scrollTop = 0;
const step = () => { take(); const was = tree.scrollTop; tree.scrollTop += tree.clientHeight / 2;
  if (tree.scrollTop === was) done([...found].sort((a, b) => a[0] - b[0]).map((it) => it[1]));
  else requestAnimationFrame(() => requestAnimationFrame(step)); };
requestAnimationFrame(step);
"""


class Page:
    def __init__(self, browser):
        self.browser = browser

    def put(self, text, kind="guess", log=False, limits=("100", "", "")):
        return self.browser.wait(PUT, text, kind, log, list(limits))

    def rows(self):
        return self.browser.wait(ROWS)

    def text(self, name):
        return self.browser.run("return document.getElementById(arguments[0]).textContent", name)

    def is_shown(self, name):
        return self.browser.run("return !document.getElementById(arguments[0]).hidden", name)

    def click(self, selector):
        self.browser.run("document.querySelector(arguments[0]).click()", selector)

    def copied(self, selector):
        """What a button copies."""
        return self.browser.wait(
            """const done = arguments[1];
            Object.defineProperty(navigator, 'clipboard', { configurable: true,
              value: { writeText: async (text) => done(text) } });
            document.querySelector(arguments[0]).click();""",
            selector,
        )

    def settle(self, script):
        return self.browser.wait(SETTLE + script + "; look();")
