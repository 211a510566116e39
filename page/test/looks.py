"""How the page looks: on screens of several widths, light and dark, and as it is served."""
import functools
import http.server
import threading
import time

from driver import alike, check


def try_bars(page, room, url):
    """Beside a scroll bar each row of bytes is seen whole, however many digits its place has."""
    for size in (4096, 70_000):
        name = f"{room}/{size}.bin"
        with open(name, "wb") as out:
            out.write(b"\x08\x01" * (size // 2))
        for wide in (1300, 1100, 1000, 700, 600, 400):
            page.browser.size(wide, 900)
            page.browser.open(url)
            page.browser.give_file(name)
            time.sleep(0.4)
            bar, row, room_for_it = page.browser.run(
                """const pane = document.getElementById('hex'), row = pane.querySelector('.row');
                return [pane.offsetWidth - pane.clientWidth, row.offsetWidth, pane.clientWidth]"""
            )
            case = f"{size} bytes in {wide} px"
            check(f"a scroll bar stands there, {case}", bar > 8, str(bar))
            check(f"a row is seen whole, {case}", row <= room_for_it, f"{row} of {room_for_it}")
    page.browser.any_size()


def try_looks(page, url):
    back = "return getComputedStyle(document.documentElement).backgroundColor"
    seen = []
    for scheme in ("light", "dark"):
        page.browser.show_as(scheme)
        seen.append(page.browser.run(back))
    check("light and dark", seen[0] != seen[1], str(seen))
    page.browser.show_as("")
    page.browser.size(390, 844, scale=2, mobile=True)
    page.browser.open(url)
    page.put("0a 03 61 62 63 10 96 01 1b 1c", "hex")
    time.sleep(0.3)
    wide = page.browser.run("return [document.documentElement.scrollWidth, innerWidth]")
    check("nothing is wider than a phone", wide[0] <= 390, str(wide))
    alike(
        "rows of eight bytes",
        page.browser.run("return document.querySelectorAll('#hex .row').length"),
        2,
    )
    page.browser.any_size()
    made = page.browser.tell(
        "Page.addScriptToEvaluateOnNewDocument", source="WebAssembly.validate = () => false"
    )
    page.browser.open(url)
    check(
        "a lack is said",
        "lacks WebAssembly’s 64-bit memory" in page.text("lacking") and page.is_shown("lacking"),
    )
    page.browser.tell("Page.removeScriptToEvaluateOnNewDocument", identifier=made["identifier"])


def try_served(page, site):
    asked = []

    class Folder(http.server.SimpleHTTPRequestHandler):
        def log_message(self, *_):
            asked.append(self.path)

    made = http.server.ThreadingHTTPServer(
        ("127.0.0.1", 0), functools.partial(Folder, directory=site)
    )
    threading.Thread(target=made.serve_forever, daemon=True).start()
    page.browser.open(f"http://127.0.0.1:{made.server_port}/index.html")
    page.put("08 01", "hex")
    alike("from a server", [row["value"] for row in page.rows()], ["1"])
    alike(
        "what is asked of it",
        sorted(set(asked)),
        ["/index.html", "/page.css", "/page.js"],
    )
    made.shutdown()
