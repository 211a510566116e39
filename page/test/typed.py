"""Messages in the page with the names of a schema."""
import subprocess
import time

from driver import alike, check


def varint(number):
    found = bytearray()
    while number > 127:
        found.append(number % 128 + 128)
        number //= 128
    return bytes([*found, number])


def held(number, payload):
    return varint(number * 8 + 2) + varint(len(payload)) + payload


def number(field, value):
    return varint(field * 8) + varint(value)


def field(name, at, kind, label=1, of="", options=b""):
    made = held(1, name.encode()) + number(3, at) + number(4, label) + number(5, kind)
    made += held(6, of.encode()) if of else b""
    return made + (held(8, options) if options else b"")


def shop():
    """A descriptor set: orders with lines, in proto3, and what stands in proto2."""
    line = held(1, b"Line") + held(2, field("article", 1, 9)) + held(2, field("quantity", 2, 13))
    state = held(1, b"State")
    for name, at in ((b"OPEN", 0), (b"PAID", 1)):
        state += held(2, held(1, name) + number(2, at))
    entry = held(1, b"FeesEntry") + held(2, field("key", 1, 9)) + held(2, field("value", 2, 17))
    entry += held(7, number(7, 1))
    order = held(1, b"Order")
    for it in (
        field("number", 1, 4),
        field("lines", 2, 11, 3, ".shop.Line"),
        field("state", 3, 14, 1, ".shop.State"),
        field("rate", 4, 1),
        field("part", 5, 2),
        field("numbers", 6, 5, 3),
        field("fees", 7, 11, 3, ".shop.Order.FeesEntry"),
        field("paid", 8, 8),
        field("states", 9, 14, 3, ".shop.State"),
    ):
        order += held(2, it)
    order += held(3, entry)
    new = held(1, b"shop.proto") + held(2, b"shop") + held(4, line) + held(4, order)
    new += held(5, state) + held(12, b"proto3")
    group = held(1, b"Part") + held(2, field("low", 1, 18))
    old = held(1, b"Old") + held(2, field("part", 1, 10, 3, ".Old.Part")) + held(3, group)
    old += held(2, field("word", 2, 9)) + held(5, number(1, 100) + number(2, 200))
    extension = field("more", 100, 15) + held(2, b".Old")
    file = held(1, b"old.proto") + held(4, old) + held(7, extension)
    return held(1, new) + held(1, file)


ORDER = "08 11 12 07 0a 03 41 2d 37 10 03 18 01"


def in_unknown_groups(count, lines):
    """A payload within so many groups that the schema lacks, and the lines of all."""
    digits = ["5b"] * count + ["0a 04 0a 02 08 01"] + ["5c"] * count
    starts = ["  " * k + "11 {" for k in range(count)]
    ends = ["  " * k + "}" for k in reversed(range(count))]
    return " ".join(digits), "shop.Order", starts + ["  " * count + it for it in lines] + ends, None


# A message, its type, what is copied of it, and what is said of a record that does not fit.
SAID = [
    in_unknown_groups(9, ["1 {", r'  1: "\010\001"', "}"]),
    in_unknown_groups(10, [r'1: "\n\002\010\001"']),
    (
        ORDER,
        "shop.Order",
        ["number: 17", "lines {", '  article: "A-7"', "  quantity: 3", "}", "state: PAID"],
        None,
    ),
    (
        "21 9a 99 99 99 99 99 b9 3f 2d cd cc cc 3d 2d 00 00 80 4b 21 00 00 00 00 00 00 f0 7f "
        "32 04 01 02 ff 01 40 01 18 07 4a 02 00 01",
        "shop.Order",
        ["rate: 0.1", "part: 0.1", "part: 16777216", "rate: inf", "numbers: 1", "numbers: 2",
         "numbers: 255", "paid: true", "state: 7", "states: OPEN", "states: PAID"],
        None,
    ),
    (
        "3a 06 0a 02 c3 a9 10 05",
        "shop.Order",
        ["fees {", r'  key: "\303\251"', "  value: -3", "}"],
        None,
    ),
    (
        "0b 08 05 0c a5 06 fe ff ff ff 12 01 ff 18 07",
        "Old",
        ["Part {", "  low: -3", "}", "[more]: -2", r'word: "\377"', "3: 7"],
        None,
    ),
    ("08 11 10 05", "shop.Order", ["number: 17", "2: 5"], ("lines[0]", "at byte 2", "varint")),
    (
        "12 03 0a 01 41 12 05 0a 01 42 10 80",
        "shop.Order",
        ["lines {", '  article: "A"', "}", r'2: "\n\001B\020\200"'],
        ("lines[1]", "at byte 11", "quantity"),
    ),
    (
        "12 03 0a 01 ff",
        "shop.Order",
        ["lines {", r'  1: "\377"', "}"],
        ("lines[0].article", "at byte 2", "UTF-8"),
    ),
]


def give(page, data, room, name="shop.pb"):
    path = f"{room}/{name}"
    with open(path, "wb") as out:
        out.write(data)
    found = page.browser.post("/element", using="css selector", value="#schema")
    page.browser.post(f"/element/{next(iter(found.values()))}/value", text=path)
    time.sleep(0.3)


def choose(page, name):
    page.settle(
        f"""const type = document.getElementById('type'); type.value = {name!r};
        type.dispatchEvent(new Event('change'))"""
    )


def try_typed(page, room):
    page.put("08 11", "hex")
    give(page, shop(), room)
    check("the file of a schema", "shop.pb, 4 types" in page.text("schema-file"))
    names = page.browser.run(
        "return [...document.querySelectorAll('#type option')].map((it) => it.value)"
    )
    alike("its types", names, ["", "Old", "Old.Part", "shop.Line", "shop.Order"])
    for digits, name, wanted, said in SAID:
        choose(page, name)
        page.put(digits, "hex")
        copied = page.copied("#copy-text").rstrip("\n").split("\n")
        alike(f"{digits}: copied", copied, wanted)
        if said is None:
            check(f"{digits}: all fits", not page.is_shown("fault"), page.text("fault-name"))
            continue
        path, place, why = said
        alike(f"{digits}: path", page.text("fault-name"), path)
        alike(f"{digits}: place", page.text("fault-place"), place)
        check(f"{digits}: why", why in page.text("fault-sentence"), page.text("fault-sentence"))
    try_names_of_rows(page)
    try_no_schema(page, room)


def try_names_of_rows(page):
    choose(page, "shop.Order")
    page.put(ORDER, "hex")
    alike(
        "names of rows",
        [row["number"] for row in page.rows()],
        ["number", "lines", "article", "quantity", "state"],
    )
    page.click("#row-2 b")
    check("the path of a record", "lines[0].article" in page.text("readings"))
    page.put("08 11 12 05 0a 01 41", "hex")
    check(
        "a field of a fault has a name",
        "2 (lines)" in page.text("fault-sentence"),
        page.text("fault-sentence"),
    )
    page.put("02 08 11 04 08 11 18 01", "hex", True)
    check("names in a log", "state" in [row["number"] for row in page.rows()])
    choose(page, "")
    page.put(ORDER, "hex")
    check("no type, no names", [row["number"] for row in page.rows()][0] == "1")


def try_no_schema(page, room):
    for name, data in (("records", b"\x0a\x05ab"), ("files", b""), ("names", b"\x0a\x02\x10\x01")):
        give(page, data, room, f"no_{name}.pb")
        said = page.text("schema-trouble")
        check(f"no {name}", "no descriptor set" in said, said)


def try_beside(page, program, room):
    """What wire_dump prints of the same messages with the same schema."""
    path = f"{room}/beside.pb"
    with open(path, "wb") as out:
        out.write(shop())
    give(page, shop(), room)
    for digits, name, _, said in SAID:
        if said:
            continue
        choose(page, name)
        page.put(digits, "hex")
        ran = subprocess.run(
            [program, f"--descriptor_set={path}", f"--type={name}"],
            input=bytes.fromhex(digits),
            capture_output=True,
        )
        alike(f"{digits}: as wire_dump", page.copied("#copy-text"), ran.stdout.decode())

