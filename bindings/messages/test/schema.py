"""What is known of a schema and of the header of its structs: for programs that are made of both,
and for Google's library for Python beside them.
"""
import re

from google.protobuf import descriptor_pb2, descriptor_pool, message_factory

DOUBLE, FLOAT, INT32, BOOL, STRING, MESSAGE, BYTES, ENUM = 1, 2, 5, 8, 9, 11, 12, 14
TYPED = re.compile(r"/\* The (?:message|oneof) `([\w.]+)`[^*]*\*/\n(?:/\*(?:(?!\*/).)*\*/\n)?"
                   r"(?:enum \{[^}]*\};\n\n)?typedef struct (\w+) \{\n(.*?)\n\} \2;", re.S)
MEMBER = re.compile(r"^    ([\w ]+?) (\w+);$", re.M)
LISTED = re.compile(r"typedef struct (\w+)_lists \{\n(.*?)\n\} \1_lists;", re.S)
ELEMENTS = re.compile(r"^    const (\w+) \*(\w+);$", re.M)


def structs(header):
    """The name in C and the members of the struct of each message and oneof, by full names; a list
    is there by its own name too, with the type of its elements."""
    text = open(header).read()
    lists = {name: {it[1]: it[0] for it in ELEMENTS.findall(body)}
             for name, body in LISTED.findall(text)}
    return {full: (name, {it[1]: it[0] for it in MEMBER.findall(body)} | lists.get(name, {}))
            for full, name, body in TYPED.findall(text)}


def name_in_c(name, members):
    """What a field is called in C, of a struct of these members."""
    named = {name, f"{name}_count", f"has_{name}"} & set(members)
    return name if named or not members else f"{name}_"


def is_list(field):
    return field.label == field.LABEL_REPEATED


def oneof_of(field):
    """The oneof that a field is of, which does not stand for `optional`."""
    oneof = field.containing_oneof
    if oneof and (len(oneof.fields) > 1 or oneof.name != f"_{field.name}"):
        return oneof
    return None


def type_names(file):
    """The message types of a file by full names, and the numbers of the enums' names."""
    messages, numbers = {}, {}

    def add(held, outer):
        for enum in held.enum_type:
            numbers[f".{outer}{enum.name}"] = {it.name: it.number for it in enum.value}
        for message in held.message_type if held is file else held.nested_type:
            messages[f"{outer}{message.name}"] = message
            add(message, f"{outer}{message.name}.")

    add(file, f"{file.package}." if file.package else "")
    return messages, numbers


def members_around(full, message, field, named):
    """The members of the struct that has a field: that of its message, or of its oneof."""
    if field.HasField("oneof_index") and not field.proto3_optional:
        full = f"{full}.{message.oneof_decl[field.oneof_index].name}"
    return named.get(full, ("", {}))[1]


def as_struct(full, message, numbers, is_closed, named):
    """Has fields hold what the struct shows of them: a message that is held as bytes is bytes, and
    a closed enum is its number, also one that the enum lacks."""
    for field in message.field:
        members = members_around(full, message, field, named)
        if field.type == MESSAGE and members.get(name_in_c(field.name, members)) == "gtv_bytes":
            field.type = BYTES
            field.ClearField("type_name")
        elif field.type == ENUM and is_closed:
            if field.default_value:
                field.default_value = str(numbers[field.type_name][field.default_value])
            field.type = INT32
            field.ClearField("type_name")


def types(schema, named, has_maps):
    """The message types of a set of descriptors by full names, of which fields hold what the
    structs show, with maps or with lists of their entries."""
    files = descriptor_pb2.FileDescriptorSet.FromString(open(schema, "rb").read())
    pool = descriptor_pool.DescriptorPool()
    names = []
    for file in files.file:
        messages, numbers = type_names(file)
        names += messages
        for full, message in messages.items():
            message.options.map_entry &= has_maps
            as_struct(full, message, numbers, file.syntax != "proto3", named)
        pool.Add(file)
    of = message_factory.MessageFactory(pool)
    return {name: of.GetPrototype(pool.FindMessageTypeByName(name)) for name in names}


def in_order_of_use(of, named):
    """The types that have structs, each behind those that it holds."""
    done, left = [], [of[it].DESCRIPTOR for it in of if it in named]
    while left:
        ready = [it for it in left
                 if all(field.message_type.full_name in {had.full_name for had in done}
                        for field in it.fields if field.type == MESSAGE)]
        done += ready
        left = [it for it in left if it not in ready]
    return done
