"""The pictures of the page in page/pictures."""
import base64
import tempfile
import time

from driver import TOP
from typed import choose, give, shop


def take(browser, name, height):
    browser.size(1280, height)
    time.sleep(0.4)
    shot = browser.tell("Page.captureScreenshot", format="png")
    with open(f"{TOP}/page/pictures/{name}.png", "wb") as out:
        out.write(base64.b64decode(shot["data"]))
    browser.any_size()


def take_pictures(page, url):
    page.browser.open(url)
    page.browser.show_as("light")
    for name, height, byte in (("message", 910, "#byte-38"), ("broken", 680, None)):
        page.browser.size(1280, height)
        page.settle(f"document.querySelector('[data-example={name}]').click()")
        time.sleep(0.3)
        if byte:
            page.click(byte)
        take(page.browser, name, height)
    take_typed(page, url)


def take_typed(page, url):
    page.browser.open(url)
    with tempfile.TemporaryDirectory() as room:
        give(page, shop(), room)
    choose(page, "shop.Order")
    page.put("08 11 12 07 0a 03 41 2d 37 10 03 12 05 0a 01 42 12 80 18 01 32 03 01 02 03", "hex")
    time.sleep(0.3)
    take(page.browser, "typed", 760)
