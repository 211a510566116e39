#!/usr/bin/python3
"""Writes the rows of extensions in crates/wire_rows/stdin: calls, and what protoc's Python makes of
them. Run it at the top of the repository:

    protoc --python_out=/tmp rows/extensions.proto
    PYTHONPATH=/tmp/rows /usr/bin/python3 rows/extensions.py

with protoc 3.21.12 and python3-protobuf 4.21.12. Python writes fields in the order of their
numbers, so a value is put where the message has none of a greater number.
"""
import pathlib
import random

import extensions_pb2 as pb

random.seed(7)
BY_NAME = {name: it for name, it in (
    (name, getattr(pb, name)) for name in (
        "priority", "title", "scores", "steps", "visits", "labels", "extra", "stamp", "flag",
        "counters", "picture"))}
TABLE = pathlib.Path("crates/wire_rows/stdin")
HEAD = "# ---- extensions: "
REPEATED = ("scores", "steps", "labels", "counters")
TOO_LARGE = "refused: message length exceeds the size limit (2 GiB protobuf maximum, or a " \
    "configured DecodeOptions limit)"


def varint(x):
    out = bytearray()
    while x > 127:
        out.append(x % 128 + 128)
        x //= 128
    return bytes(out + bytes([x]))


def record(n, wire, payload):
    return varint(8 * n + wire) + payload


def some_number():
    return random.choice([0, 1, 2, 5, 127, 128, 300, 2**31 - 1, 2**32, 2**63, 2**64 - 1])


def counter():
    """A counter that is not left out, with an unknown field now and then."""
    parts = [record(1, 0, varint(random.choice([1, 7, 300, 2**64 - 1])))]
    if random.random() < 0.3:
        parts.append(record(9, 0, varint(4)))
    return b"".join(parts)


def delimited(n, payload):
    return record(n, 2, varint(len(payload)) + payload)


def own(name):
    """A record of this extension."""
    n = BY_NAME[name].number
    if name in ("priority", "flag"):
        return record(n, 0, varint(some_number()))
    if name in ("scores", "steps"):
        if random.random() < 0.5:
            return record(n, 0, varint(some_number()))
        return delimited(n, b"".join(varint(some_number()) for _ in range(random.randrange(4))))
    if name in ("title", "labels"):
        return delimited(n, random.choice(["", "a", "héllo", "two words"]).encode())
    if name == "picture":
        return delimited(n, random.choice([b"", b"\0", b"\xff\xfe"]))
    if name in ("visits", "counters"):
        return delimited(n, counter())
    if name == "extra":
        return record(n, 3, counter()) + record(n, 4, b"")
    return record(n, 1, random.randbytes(8))


def foreign(name):
    """A record of this number with a wire type that the extension does not have."""
    n = BY_NAME[name].number
    return record(n, 5, random.randbytes(4))


def parsed(data):
    return pb.Extended.FromString(data)


def written(message):
    return message.SerializeToString(deterministic=True).hex() or "-"


def value_of(message, name):
    """A message that has this extension alone."""
    alone = pb.Extended()
    put(alone, message, name)
    return alone


def put(message, source, name):
    it = BY_NAME[name]
    message.ClearExtension(it)
    add(message, source, name)


def add(message, source, name):
    it = BY_NAME[name]
    if name in REPEATED:
        message.Extensions[it].MergeFrom(source.Extensions[it])
    elif source.HasExtension(it):
        if it.message_type:
            message.Extensions[it].MergeFrom(source.Extensions[it])
        else:
            message.Extensions[it] = source.Extensions[it]


def shuffled(names):
    return [own(name) for name in names]


def canonical(below):
    """Records of other extensions of smaller numbers, as Python writes them."""
    names = [it for it in BY_NAME if BY_NAME[it].number < below]
    message = parsed(b"".join(shuffled(random.sample(names, min(len(names), 3)))))
    return message.SerializeToString(deterministic=True)


def records_of(data):
    """The records of a message, each with its text."""
    out, at = [], 0
    while at < len(data):
        start = at
        tag, at = read_varint(data, at)
        at = skipped(data, at, tag)
        out.append(data[start:at])
    return out


def read_varint(data, at):
    value, shift = 0, 0
    while True:
        byte = data[at]
        value, at, shift = value | (byte & 127) << shift, at + 1, shift + 7
        if byte < 128:
            return value, at


def skipped(data, at, tag):
    wire = tag % 8
    if wire == 0:
        return read_varint(data, at)[1]
    if wire == 1:
        return at + 8
    if wire == 5:
        return at + 4
    if wire == 2:
        length, at = read_varint(data, at)
        return at + length
    while True:
        inner, at = read_varint(data, at)
        if inner % 8 == 4:
            return at
        at = skipped(data, at, inner)


def row(call, name, *parts, times=None):
    """A call with the records of a message, and with those of another one where there are two."""
    words = f"Extension.{call} of={name}" + (f" times={times}" if times is not None else "")
    spans = " / ".join(it.hex(" ").upper() for it in parts).strip()
    return f"{words} | {spans} |" if spans else f"{words} | |"


def rows():
    for name in BY_NAME:
        for _ in range(12):
            names = random.choices(list(BY_NAME), k=3) + [name] * random.randrange(4)
            parts = shuffled(names) + [foreign(name)] * random.randrange(2)
            random.shuffle(parts)
            data = b"".join(parts)
            message = parsed(data)
            yield row("get", name, data), written(value_of(message, name))
            has = len(message.Extensions[BY_NAME[name]]) > 0 if name in REPEATED \
                else message.HasExtension(BY_NAME[name])
            if has or name not in ("scores", "steps"):
                yield row("has", name, data), "yes" if has else "no"
        for _ in range(8):
            # The other records are as Python writes them; those of the extension lie anywhere.
            others = canonical(BY_NAME[name].number)
            parts = records_of(others)
            for _ in range(random.randrange(4)):
                parts.insert(random.randrange(len(parts) + 1), own(name))
            data, source = b"".join(parts), b"".join(own(name) for _ in range(random.randrange(3)))
            message, given = parsed(data), parsed(source)
            message.ClearExtension(BY_NAME[name])
            yield row("clear", name, data), written(message)
            put(message, given, name)
            yield row("set", name, data, source), written(message)
            if name in ("labels", "counters", "scores"):
                message = parsed(others)
                put(message, given, name)
                before = message.SerializeToString(deterministic=True)
                add(message, given, name)
                yield row("add", name, before, source), written(message)
    yield row("get", "strict", own("priority") + foreign("priority")), \
        "refused: wire type mismatch on field 100: expected 0, got 5"
    yield from limits()


def limits():
    """What Python doesn't refuse: values past the greatest size, and past 100 levels."""
    one = bytes.fromhex("0801")
    for call in ("set", "add"):
        for times in (2**30, 2**30 - 3):
            yield row(call, "repeat", one, times=times), TOO_LARGE
        yield row(call, "repeat", one, times=2), "0801fa060408000800"
        inner = "4b" * 99 + "4c" * 99
        yield row(call, "deep", one, times=99), f"0801d306{inner}d406"
        for levels in (100, 300):
            yield row(call, "deep", one, times=levels), "refused: recursion limit exceeded"


def main():
    lines = [f"{row} {answer}" for row, answer in rows()]
    text = TABLE.read_text()
    begins = text.index("\n\n", text.index(HEAD)) + 2
    ends = text.index("\n\n# ----", begins)
    TABLE.write_text(text[:begins] + "\n".join(lines) + text[ends:])
    print(f"{len(lines)} rows")


main()
