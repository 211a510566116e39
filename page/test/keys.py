"""What keys, pointers and names do in the page."""
from driver import DOWN, END, HOME, LEFT, RIGHT, UP, alike, check


def try_lights(page):
    page.put("0a 03 61 62 63 10 96 01", "hex")
    move = """const at = document.querySelector(arguments[0]);
        at.dispatchEvent(new PointerEvent('pointermove', { bubbles: true }));
        return [...document.querySelectorAll(arguments[1])].map(
          (it) => it.dataset.place ?? it.dataset.row)"""
    alike(
        "a record lights its bytes",
        page.browser.run(move, "#row-1 b", ".digits .pointed"),
        ["5", "6", "7"],
    )
    alike("a byte lights its record", page.browser.run(move, "#byte-3", "#tree .pointed"), ["0"])
    alike(
        "parts of bytes",
        page.browser.run(
            """return [...document.querySelectorAll('#hex .digits span')]
        .map((it) => /tag|length|value/.exec(it.className)[0]).join(' ')"""
        ),
        "tag length value value value tag value value",
    )
    page.click("#byte-6")
    alike(
        "a byte chooses its record",
        page.browser.run("return document.querySelector('#tree .chosen').id"),
        "row-1",
    )
    check(
        "its readings are shown",
        "150" in page.text("readings") and "zigzag" in page.text("readings"),
    )


CHOSEN = """
const name = document.getElementById('tree').getAttribute('aria-activedescendant');
const row = document.getElementById(name);
return row && row.classList.contains('chosen') ? row.getAttribute('aria-label') : 'none';
"""


def try_keys(page):
    page.put("0a 02 08 01 13 18 01 14 20 01", "hex")
    page.browser.run("document.getElementById('tree').focus()")
    for keys, wanted in [
        ((DOWN,), "Field 1, bytes"),
        ((DOWN,), "Field 1, varint"),
        ((LEFT,), "Field 1, bytes"),
        ((LEFT, DOWN), "Field 2, group"),
        ((UP, RIGHT, RIGHT), "Field 1, varint"),
        ((DOWN, DOWN), "Field 3, varint"),
        ((LEFT, LEFT, DOWN), "Field 4, varint"),
        ((HOME,), "Field 1, bytes"),
        ((END,), "Field 4, varint"),
    ]:
        page.browser.keys(*keys)
        at = page.browser.run(CHOSEN)
        check(f"keys to {wanted}", at.startswith(wanted), at)
    page.browser.run("document.getElementById('hex').focus()")
    page.browser.keys(HOME, RIGHT, RIGHT)
    alike(
        "keys among bytes",
        page.browser.run(
            "return document.getElementById('hex').getAttribute('aria-activedescendant')"
        ),
        "byte-2",
    )
    at = page.browser.run(CHOSEN)
    check("they choose the record", at.startswith("Field 1, "), at)


def try_tab(page):
    page.put("0a 02 08 01 13 18 01 14 20 01", "hex")
    page.browser.run("document.getElementById('text').focus()")
    reached = set()
    for _ in range(24):
        page.browser.keys("\ue004")
        reached.add(page.browser.run("return document.activeElement.id"))
    wanted = {"log", "open-all", "close-all", "copy-text", "shortest", "tree", "hex"}
    check("all is reached by Tab", wanted <= reached, str(wanted - reached))


def try_names(page):
    page.put("0a 02 08 01 13 18 01 14", "hex")
    found = page.browser.run(
        """return [...document.querySelectorAll(arguments[0])].filter((it) =>
          !(it.textContent.trim() || it.labels?.length || it.getAttribute('aria-label')
            || it.getAttribute('aria-labelledby'))).map((it) => it.outerHTML)""",
        "button, input, select, textarea, [role=tree], [role=grid]",
    )
    alike("each control has a name", found, [])
    nodes = page.browser.tell("Accessibility.getFullAXTree")["nodes"]
    items = [n for n in nodes if n.get("role", {}).get("value") == "treeitem"]
    check(
        "tree items have names",
        len(items) == 5 and all(n["name"]["value"] for n in items),
        str(len(items)),
    )
    levels = [row["level"] for row in page.rows()]
    alike("levels", levels, [1, 2, 1, 2, 1])
