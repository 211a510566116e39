"""Messages that are asked of the programs: whole ones, and broken ones."""
from wire import varint

FLOATS = (0.0, -0.0, 1.5, -2.25, float("inf"), float("-inf"), 3.0e38)


def value(field, rng):
    """A value of the field's type, often at an end of what it holds."""
    kind = field.type
    if kind in (1, 2):
        return rng.choice(FLOATS)
    if kind == 8:
        return rng.random() < 0.5
    if kind == 9:
        return "".join(rng.choice("az ä€😀\0") for _ in range(rng.randrange(12)))
    if kind == 12:
        return bytes(rng.randrange(256) for _ in range(rng.randrange(12)))
    width = 64 if kind in (3, 4, 6, 16, 18) else 32
    if kind in (4, 6, 7, 13):
        return rng.choice((0, 1, 127, 128, 2**width - 1, rng.randrange(2**width)))
    half = 2 ** (width - 1)
    return rng.choice((0, 1, -1, 63, half - 1, -half, rng.randrange(-half, half)))


def unknown(of, rng):
    """Records of numbers that the type lacks."""
    out = b""
    known = of.DESCRIPTOR.fields_by_number
    for _ in range(rng.randrange(3)):
        number = rng.choice([it for it in (22, 30, 90, 1000, 536870911) if it not in known])
        kind = rng.randrange(4)
        if kind == 0:
            out += varint(number << 3) + varint(rng.randrange(2**64))
        elif kind == 1:
            out += varint(number << 3 | 2) + b"\x03abc"
        elif kind == 2:
            out += varint(number << 3 | 5) + b"abcd"
        else:
            inner = varint(number << 3) + b"\x01"
            out += varint(number << 3 | 3) + inner + varint(number << 3 | 4)
    return out


def fill(message, rng):
    """Sets some of the fields of a message."""
    for field in message.DESCRIPTOR.fields:
        if rng.random() > 0.6:
            continue
        is_list = field.label == field.LABEL_REPEATED
        for _ in range(rng.randrange(4) if is_list else 1):
            held = getattr(message, field.name)
            if field.type == 11:
                inner = held.add() if is_list else held
                inner.SetInParent()
                fill(inner, rng)
            elif is_list:
                held.append(value(field, rng))
            else:
                setattr(message, field.name, value(field, rng))


def whole(of, rng):
    """The encoding of a message with some of the fields, and records that the type lacks; now and
    then of two, one behind the other, which are merged."""
    message = of()
    fill(message, rng)
    data = message.SerializePartialToString()
    if rng.random() < 0.2:
        data += whole(of, rng)
    return data + unknown(of, rng)


def broken(data, rng):
    """The same with a byte that is another, one more, or one that lacks; or cut short."""
    data = bytearray(data or b"\x00")
    at = rng.randrange(len(data))
    kind = rng.randrange(4)
    if kind == 0:
        data[at] = rng.randrange(256)
    elif kind == 1:
        data.insert(at, rng.randrange(256))
    elif kind == 2:
        del data[at]
    else:
        del data[at:]
    return bytes(data)
