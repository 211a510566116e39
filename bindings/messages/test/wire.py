"""Records of bytes, as far as the tests beside Google's library for Python ask for them."""

# The wire type of each type of field.
WIRE = {1: 1, 2: 5, 3: 0, 4: 0, 5: 0, 6: 1, 7: 5, 8: 0, 9: 2, 11: 2, 12: 2, 13: 0, 14: 0,
        15: 5, 16: 1, 17: 0, 18: 0}


def varint(number):
    out = bytearray()
    while number > 127:
        out.append(number & 127 | 128)
        number >>= 7
    out.append(number)
    return bytes(out)


def number_at(data, at):
    """The varint at a place, and the place behind it."""
    out, shift = 0, 0
    while data[at] >= 128:
        out |= (data[at] & 127) << shift
        at, shift = at + 1, shift + 7
    return out | data[at] << shift, at + 1


def behind_record(data, at):
    """The place behind the record, or the end tag, at a place."""
    tag, at = number_at(data, at)
    if tag & 7 == 0:
        return number_at(data, at)[1]
    if tag & 7 == 2:
        length, at = number_at(data, at)
        return at + length
    while tag & 7 == 3:
        inner, end = number_at(data, at)[0], behind_record(data, at)
        if inner & 7 == 4:
            return end
        at = end
    return at + {1: 8, 5: 4}.get(tag & 7, 0)


def first_length(data):
    """How many bytes the first record takes, or 0 where none is whole, and of a group."""
    try:
        if number_at(data, 0)[0] & 7 not in (0, 1, 2, 5):
            return 0
        at = behind_record(data, 0)
    except IndexError:
        return 0
    return at if at <= len(data) else 0


def unknown_records(of, data):
    """The records of a message that the type lacks, as they came; of what only Python takes those
    up to where no record stands."""
    found, at = [], 0
    try:
        while at < len(data):
            start, at = at, behind_record(data, at)
            if number_at(data, start)[0] >> 3 not in of.fields_by_number:
                found.append(data[start:at])
    except IndexError:
        pass
    return found


def least_limits(of, data):
    """The least limits within which a message is read, as text: unknown fields, those in groups
    counted; bytes of their payloads; and levels of messages and groups."""
    return ",".join(str(it) for it in limits_of(of, data, 0)[:3])


def limits_of(of, data, at):
    """The same of the records from a place on, up to the end or an end tag, and the place behind;
    without a type those of a group, whose fields are all unknown."""
    count = size = levels = 0
    while at < len(data):
        tag, begun = number_at(data, at)
        field = of.fields_by_number.get(tag >> 3) if of else None
        inner = None
        if tag & 7 == 4:
            return count, size, levels, begun
        if tag & 7 == 3:
            *inner, at = limits_of(None, data, begun)
        else:
            at = behind_record(data, at)
        if tag & 7 == 2:
            length, begun = number_at(data, begun)
            size += 0 if field else length
            if field and field.type == 11:
                inner = limits_of(field.message_type, data[begun:at], 0)
        count += 0 if field else 1
        if inner:
            count, size, levels = count + inner[0], size + inner[1], max(levels, inner[2] + 1)
    return count, size, levels, at


def in_order(of, data):
    """A shortest encoding with the field of a oneof that stands at the place of its lowest number,
    where the library writes it; Python writes it at that of its own."""
    known = {field.number: field for field in of.fields}
    found, at = [], 0
    while at < len(data):
        start = at
        tag, at = number_at(data, at)
        # (behind an unknown group there are unknown fields alone)
        at = len(data) if tag & 7 == 3 else behind_record(data, start)
        record, field = data[start:at], known.get(tag >> 3)
        place = tag >> 3 if field else 1 << 29
        if field and field.type == 11 and tag & 7 == 2:
            begun = number_at(data, number_at(data, start)[1])[1]
            record = data[start:begun] + in_order(field.message_type, data[begun:at])
        if field and field.containing_oneof and len(field.containing_oneof.fields) > 1:
            place = min(it.number for it in field.containing_oneof.fields)
        found.append((place, record))
    return b"".join(record for _, record in sorted(found, key=lambda it: it[0]))


def records(data):
    """Number, wire type and payload behind a length of each record; whether a tag or a length
    takes more than five bytes; and whether something stands there that Python may take and the
    library refuses: a tag above 2^32 - 1, one of number 0, a varint whose tenth byte is above 1, or
    a group, since Python looks at no end of one.
    """
    at = 0
    is_long = is_loose = False

    def number():
        nonlocal at, is_loose
        start, out = at, 0
        while at < len(data):
            byte = data[at]
            out |= (byte & 127) << 7 * (at - start)
            at += 1
            if byte < 128:
                break
        is_loose |= out >= 2**64
        return out, at - start

    found = []
    while at < len(data):
        tag, width = number()
        is_long |= width > 5
        is_loose |= tag >= 2**32 or tag < 8 or tag & 7 in (3, 4)
        tag %= 2**32
        begun = at
        if tag & 7 == 0:
            number()
        elif tag & 7 == 1:
            at += 8
        elif tag & 7 == 5:
            at += 4
        elif tag & 7 == 2:
            length, width = number()
            is_long |= width > 5
            begun = at
            at += length
        found.append((tag >> 3, tag & 7, data[begun:at]))
    return found, is_long, is_loose


def is_above(payload):
    """Whether a varint of a payload is above 2^64 - 1."""
    number = shift = 0
    for byte in payload:
        number, shift = number | (byte & 127) << shift, shift + 7
        if byte < 128:
            if number >= 2**64:
                return True
            number = shift = 0
    return False


def is_text(payload):
    """Whether bytes are UTF-8."""
    try:
        payload.decode()
    except UnicodeDecodeError:
        return False
    return True


def oddities(of, data):
    """Whether a varint of a tag or a length is long, and whether Python may take what is refused
    here, in the message or in one inside it: strings of proto2 that are no UTF-8 too."""
    found, is_long, is_loose = records(data)
    known = {field.number: field for field in of.fields}
    for number, wire, payload in found:
        field = known.get(number)
        if field is None:
            continue
        is_packed = wire == 2 and field.label == field.LABEL_REPEATED
        is_packed = is_packed and field.type not in (9, 11, 12)
        is_loose |= wire != WIRE[field.type] and not is_packed
        is_loose |= is_packed and is_above(payload)
        is_loose |= field.type == 9 and wire == 2 and not is_text(payload)
        if field.type == 11 and wire == 2:
            inner_long, inner_loose = oddities(field.message_type, payload)
            is_long, is_loose = is_long or inner_long, is_loose or inner_loose
    return is_long, is_loose
