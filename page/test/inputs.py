"""Inputs of the page: links, files and logs, and the shortest encoding."""
import base64
import time

from driver import alike, check


def try_links(page, url):
    page.put("0a 03 61 62 63 1b 10 96", "hex", False, ("7", "50", ""))
    link = page.browser.run("return location.href")
    check("a link has the bytes", "#bytes=CgNhYmMbEJY" in link, link)
    rows = page.rows()
    page.browser.open(link)
    alike("a link opens", page.rows(), rows)
    alike(
        "a link has limits",
        page.browser.run(
            "return ['depth','records','payloads'].map((n) => document.getElementById(n).value)"
        ),
        ["7", "50", ""],
    )
    alike("a link copied", page.copied("#copy-link"), link)
    page.put("0a 80 80 02 " + "61" * 32768, "hex")
    check(
        "no link of much",
        "No link" in page.text("link") and "#" not in page.browser.run("return location.href"),
    )
    page.put("04 08 01 10 02", "hex", True)
    page.browser.open(page.browser.run("return location.href"))
    check("a link of a log", page.rows()[0]["label"].startswith("Message 1"))
    page.browser.open(f"{url}#bytes=CgNhYmM%25")
    check("a broken link", "link is cut" in page.text("trouble") or page.is_shown("empty"))
    page.browser.open(url)


def try_files(page, room):
    with open(f"{room}/message.bin", "wb") as out:
        out.write(b"\n\3abc\x10\x96\1")
    page.browser.give_file(f"{room}/message.bin")
    time.sleep(0.3)
    alike("a file", [r["number"] for r in page.rows()], ["1", "2"])
    check("its name", "message.bin, 8 bytes" in page.text("from-file"), page.text("from-file"))
    page.settle(
        """const dropped = new DataTransfer();
        dropped.items.add(new File([Uint8Array.of(8, 1, 8, 2, 8)], 'dropped.bin'));
        window.dispatchEvent(new DragEvent('drop', { dataTransfer: dropped }))"""
    )
    alike("a file that is dropped", page.text("fault-name"), "UnexpectedEof")
    page.click("#clear")
    time.sleep(0.2)
    check("nothing is left", page.is_shown("empty") and page.is_shown("text"))


def try_logs(page):
    page.put("02 08 01 00 07 08 02 12 03 61 62 63", "hex", True)
    alike(
        "a log",
        [r["number"] for r in page.rows() if r["label"].startswith("Message")],
        ["message 1", "message 2", "message 3"],
    )
    page.put("02 08 01 03 08 02", "hex", True)
    check(
        "a log that is cut",
        "Message 2 of the log is cut short" in page.text("fault-sentence"),
        page.text("fault-sentence"),
    )
    page.put("02 08 01 80", "hex", True)
    check("no length", "no length" in page.text("fault-sentence"), page.text("fault-sentence"))
    page.put("02 08 01 01 08 02 08 02", "hex", True)
    rows = page.rows()
    check("a broken message of a log", any("UnexpectedEof" in r["label"] for r in rows), str(rows))


def try_shortest(page):
    page.put("88 00 80 00 12 81 00 61 1b 9c 00", "hex")
    page.click("#shortest")
    alike(
        "shortest",
        page.text("shortest-said"),
        "The same records take 7 bytes: padding cost 4 bytes.",
    )
    alike("shortest, hexadecimal", page.copied("#copy-hex"), "08 00 12 01 61 1b 1c")
    alike(
        "shortest, base64",
        page.copied("#copy-base64"),
        base64.b64encode(b"\x08\0\x12\1a\x1b\x1c").decode(),
    )
    page.put("08 00", "hex")
    page.click("#shortest")
    check("no padding", "none is padding" in page.text("shortest-said"))
    page.put("08", "hex")
    check(
        "no shortest of broken bytes",
        page.browser.run("return document.getElementById('shortest').disabled"),
    )
