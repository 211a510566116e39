"""Rows of records in the page, beside rows/read.tsv and what wire_dump prints."""
import json
import re
import subprocess

from driver import END, RIGHT, TOP, alike, check

KINDS = {
    "varint": "varint",
    "fixed64": "8 bytes",
    "fixed32": "4 bytes",
    "bytes": "bytes",
    "start": "group",
    "end": "end of group",
}
NAMED = {"varint": 0, "8 bytes": 1, "bytes": 2, "group": 3, "end of group": 4, "4 bytes": 5}


def read_rows():
    for line in open(f"{TOP}/rows/read.tsv", encoding="utf-8"):
        if line.strip() and not line.startswith("#"):
            yield line.rstrip("\n").split("\t")


def without_guessed(rows):
    """The rows of a message itself, without those of messages that payloads are opened as."""
    kept, hidden = [], -1
    for row in rows:
        place = re.search(r"bytes (\d+) to (\d+)$", row["label"])
        if place and int(place[1]) < hidden:
            continue
        if place and row["kind"] == "2":
            hidden = int(place[2]) + 1
        kept.append(row)
    return kept


def sayings(kind, value):
    if kind in ("start", "end"):
        return ""
    if kind == "bytes":
        return None
    return value


def try_row(page, row):
    name, digits, depth, slots, payloads, wanted = row
    limits = (depth, slots, "" if len(payloads) > 15 else payloads)
    page.put(digits, "hex", False, limits)
    *events, end = wanted.split("; ")
    if not digits:
        check(f"{name}: nothing", page.is_shown("empty") and not page.is_shown("output"))
        return
    rows = without_guessed(page.rows())
    level, labels = 1, []
    for event in events:
        number, kind, *more = event.split(" ")
        start, _, behind = more[-3:]
        level -= kind == "end"
        labels.append(
            (level, f"Field {number}, {KINDS[kind]}", f"bytes {start} to {int(behind) - 1}")
        )
        level += kind == "start"
    found = [
        (r["level"], ", ".join(r["label"].split(", ")[:2]), r["label"].split(", ")[-1])
        for r in rows
        if r["kind"] != "fault"
    ]
    alike(f"{name}: records", found, labels)
    for event, got in zip(events, rows):
        kind, value = event.split(" ")[1:3]
        if kind in ("varint", "fixed64", "fixed32"):
            check(
                f"{name}: value",
                value == got["value"] or f"unsigned {value}" in got["also"],
                str(got),
            )
    if end == "end":
        check(f"{name}: no fault", not page.is_shown("fault"))
    else:
        try_fault(page, name, end)


def try_fault(page, name, end):
    record, part, place, groups, error = re.fullmatch(
        r"record (\d+) (\w+) (\d+) in \[(.*)\] (.+)", end
    ).groups()
    alike(f"{name}: error", page.text("fault-name"), error)
    check(
        f"{name}: place",
        page.text("fault-place").startswith(f"at byte {place}"),
        page.text("fault-place"),
    )
    sentence = page.text("fault-sentence")
    inside = f", in group{'s' if ',' in groups else ''} {groups}." if groups else "."
    check(f"{name}: record", sentence.endswith(f"begins at byte {record}{inside}"), sentence)
    check(f"{name}: a sentence", "undefined" not in sentence and "NaN" not in sentence, sentence)
    lit = page.browser.run(
        """const at = document.querySelector('#hex .digits .fault');
        return at && (at.dataset.place ?? 'end')"""
    )
    size = len(page.browser.run("return document.getElementById('text').value").split())
    alike(f"{name}: byte", lit, "end" if int(place) == size else place)


ESCAPES = {10: "\\n", 13: "\\r", 9: "\\t", 34: '\\"', 39: "\\'", 92: "\\\\"}


def escaped(data):
    return "".join(ESCAPES.get(b) or (chr(b) if 32 <= b < 127 else f"\\{b:03o}") for b in data)


def dumped(rows, data=b""):
    """The tree of these bytes as wire_dump prints records."""
    lines, ends = [], []
    for row in rows:
        while ends and ends[-1] >= row["level"]:
            lines.append("  " * (ends.pop() - 1) + "}")
        margin, kind = "  " * (row["level"] - 1), row["kind"]
        if kind == "0":
            lines.append(f"{margin}{row['number']}: {row['value']}")
        elif kind in "15":
            lines.append(f"{margin}{row['number']}: {row['also'].split('hexadecimal ')[1]}")
        elif kind == "3":
            lines.append(f"{margin}{row['number']} {{")
        elif kind == "4":
            lines.append(f"{margin}}}")
        elif row["open"] == "true":
            lines.append(f"{margin}{row['number']} {{")
            ends.append(row["level"])
        elif row["open"] == "false":
            end = int(re.search(r" to (\d+)$", row["label"])[1]) + 1
            length = int(re.match(r"message of (\d+)", row["value"])[1])
            lines.append(f"{margin}{row['number']}: \"{escaped(data[end - length:end])}\"")
        elif " text" in row["way"] or row["value"] == '""':
            lines.append(
                f"{margin}{row['number']}: \"{escaped(json.loads(row['value']).encode())}\""
            )
        else:
            lines.append(f"{margin}{row['number']}: \"{escaped(bytes.fromhex(row['value']))}\"")
    while ends:
        lines.append("  " * (ends.pop() - 1) + "}")
    return "".join(line + "\n" for line in lines)


def printed(text):
    """The bytes that printf writes of a text with escapes."""
    return subprocess.run(["bash", "-c", 'printf "%b" "$1"', "-", text], capture_output=True).stdout


def try_dumps(page):
    count = 0
    for line in open(f"{TOP}/rows/dump.tsv", encoding="utf-8"):
        fields = line.rstrip("\n").split("\t")
        if line.startswith("#") or len(fields) < 7 or fields[4] != "0" or fields[3] != "file":
            continue
        name, words, given, _, _, wanted = fields[:6]
        kind = {"-": "hex", "--hex": "hex", "--base64": "base64"}.get(words)
        if kind is None or wanted == "-" or "~" in wanted[:1]:
            continue
        data = printed("" if given == "-" else given)
        page.put(data.hex() if words == "-" else data.decode(), kind)
        text = printed(wanted).decode()
        rows = page.rows()
        if all("…" not in row["value"] for row in rows):
            alike(f"dump, {name}: tree", dumped(rows), text)
        alike(f"dump, {name}: copy as text", page.copied("#copy-text"), text)
        count += 1
    check("runs of wire_dump that are compared", count > 5, str(count))


def nested(levels):
    """A message in a message, so many of them."""
    data = b"\x08\x01"
    for _ in range(levels):
        data = b"\x0a" + bytes([len(data)]) + data
    return data


def try_program(page, program):
    given = [
        bytes.fromhex(digits)
        for _, digits, *_, wanted in read_rows()
        if digits and wanted.endswith("end")
    ]
    given += [nested(levels) for levels in (1, 2, 9, 10, 11, 12)]
    given += [b"\x0b" * 8 + nested(levels) + b"\x0c" * 8 for levels in (1, 2, 3)]
    for data in given:
        page.put(data.hex(" "), "hex")
        ran = subprocess.run([program], input=data, capture_output=True)
        alike(f"wire_dump, {data.hex(' ')}: status", ran.returncode, 0)
        rows = page.rows()
        alike(f"wire_dump, {data.hex(' ')}", dumped(rows, data), ran.stdout.decode())
        alike(f"wire_dump, {data.hex(' ')}: copied", page.copied("#copy-text"), ran.stdout.decode())


def try_levels(page):
    page.put(nested(12).hex(), "hex")
    rows = page.rows()
    alike("ten levels are opened", [row["open"] for row in rows], ["true"] * 10 + ["false"])
    page.browser.run("document.getElementById('tree').focus()")
    page.browser.keys(END, RIGHT)
    alike("one more by hand", len(page.rows()), 12)


def try_texts(page):
    wanted = [("1", "text", '"abc"'), ("2", "", "150")]
    same = [
        "0a03616263109601",
        "0A 03 61 62 63\n10 96 01",
        "0x0a, 0x03, 0x61, 0x62, 0x63, 0x10, 0x96, 0x01",
        r"\x0a\x03\x61\x62\x63\x10\x96\x01",
        r"\n\003abc\020\226\001",
        r'b"\n\x03abc\x10\x96\x01"',
        "CgNhYmMQlgE=",
        "CgNhYmMQlgE",
        "CgNh\nYmMQlgE=",
        "00000000: 0a03 6162 6310 9601                      ..abc...\n",
        "00000000: 0a 03 61 62  ..ab\n00000004: 63 10 96 01  c...\n",
        "0000fff8: 0A03 6162  .\\ab\r\n0000fffc: 6310 9601  c...",
    ]
    for text in same:
        page.put(text)
        found = [
            (r["number"], r["way"].removeprefix("value").strip(), r["value"]) for r in page.rows()
        ]
        alike(f"text {text!r}", found, wanted)
    page.put("EgP7-_8=", "base64")
    alike("the other alphabet", [r["value"] for r in page.rows()], ["fb fb ff"])
    page.put("EgP7+/8=", "base64")
    alike("the first alphabet", [r["value"] for r in page.rows()], ["fb fb ff"])


def try_troubles(page):
    for text, kind, said in [
        ("0a0", "hex", "Half a byte"),
        ("0g", "hex", "no hexadecimal"),
        ("EgP7+_8=", "base64", "both alphabets"),
        ("A", "base64", "cut short"),
        ("\\q", "escaped", "no escape"),
        ("00000000: 0a03  ..\n00000004: 6310  c.", "hex", "Lines are lacking"),
        ("00000000: 0a03 6  ..a", "hex", "Half a byte"),
    ]:
        page.put(text, kind)
        check(f"trouble of {text!r}", said in page.text("trouble"), page.text("trouble"))
    page.put("08 01", "hex", False, ("101", "", ""))
    check("a limit that is none", "A limit" in page.text("trouble"))


def try_readings(page):
    page.put(
        "08 ff ff ff ff ff ff ff ff ff 01 15 00 00 c8 42 21 18 2d 44 54 fb 21 09 40 28 01", "hex"
    )
    also = [row["value"] + " | " + row["also"] for row in page.rows()]
    alike(
        "readings",
        also,
        [
            "18446744073709551615 | signed -1 · zigzag -9223372036854775808",
            "100 | unsigned 1120403456 · hexadecimal 0x42c80000",
            "3.141592653589793 | unsigned 4614256656552045848 · hexadecimal 0x400921fb54442d18",
            "1 | zigzag -1 · bool true",
        ],
    )
