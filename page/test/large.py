"""An input of 10 MB in the page."""
import time

from driver import UP, alike, check

WATCH = """
window.gaps = [];
let last = performance.now();
const look = (now) => { window.gaps.push(now - last); last = now; requestAnimationFrame(look); };
requestAnimationFrame(look);
window.began = performance.now();
window.run_was = document.body.dataset.run;
"""
# What is said while it is read, with a pointer over the tree.
SAID = """
const done = arguments[0], tree = document.getElementById('tree');
const look = () => {
  const said = document.getElementById('summary').textContent;
  tree.dispatchEvent(new PointerEvent('pointermove', { bubbles: true }));
  if (/^Reading: [1-9]/.test(said) || document.body.dataset.run !== window.run_was) done(said);
  else setTimeout(look, 5);
};
look();
"""
READ = """
const done = arguments[0], look = () =>
  (document.body.dataset.run !== window.run_was ? done(1) : setTimeout(look, 10));
look();
"""
SCROLL = """
const began = performance.now();
document.getElementById('tree').scrollTop = 1e6;
document.getElementById('tree').getBoundingClientRect();
return performance.now() - began;
"""


def try_reading(page, room):
    name = f"{room}/large.bin"
    with open(name, "wb") as out:
        out.write(b"\x08\x01" * 5_000_000 + b"\x12\x03abc\x18")
    page.browser.run(WATCH)
    page.browser.give_file(name)
    said = page.browser.wait(SAID)
    check("it is said that it is read", said.startswith("Reading"), said)
    page.browser.wait(READ)
    took, worst = page.browser.run(
        "return [performance.now() - window.began, Math.max(...window.gaps.slice(1))]"
    )
    print(
        f"10 MB, 5,000,001 records: read in {took / 1000:.1f} s, the longest frame {worst:.0f} ms"
    )
    check("10 MB are read in 30 s", took < 30000)
    check("no frame takes two seconds", worst < 2000, f"{worst}")


def try_what_is_read(page):
    alike("the fault of 10 MB", page.text("fault-place"), "at byte 10,000,006, the end")
    summary = page.text("summary")
    check("records of 10 MB", "5,000,001 records before the fault" in summary, summary)
    last = page.browser.run("return document.querySelector('#tree .chosen').dataset.row")
    alike("the last row", last, "5000001")
    made = page.browser.run("return document.querySelectorAll('.row').length")
    check("few rows are made", made < 200, str(made))
    check("no link of 10 MB", "No link" in page.text("link"))


def try_moves(page):
    page.browser.run("document.getElementById('tree').focus()")
    page.browser.keys(UP)
    label = page.browser.run(
        "return document.querySelector('#tree .chosen').getAttribute('aria-label')"
    )
    check("keys at the end", "Field 2, bytes" in label, label)
    page.browser.run("document.getElementById('tree').scrollTop = 3e6")
    time.sleep(0.3)
    row = page.browser.run("return Number(document.querySelector('#tree .row').dataset.row)")
    check("the middle is reached", 2_400_000 < row < 2_600_000, str(row))
    spent = page.browser.run(SCROLL)
    check("a scroll is quick", spent < 200, f"{spent}")


def try_large(page, room):
    try_reading(page, room)
    try_what_is_read(page)
    try_moves(page)
