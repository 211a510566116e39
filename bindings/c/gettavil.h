/* Records of the Protocol Buffers wire format, read and written in place.
 *
 * Each call is proved: for all bytes and whatever the fields of a struct are it ends, reads only
 * the bytes that it is handed, writes only the structs and the room that it is handed, and answers
 * as is said here. It asks for no memory and keeps no state, so calls on structs of their own may
 * run at once. What stands on trust: that this header is that of the library, which `make test`
 * looks at, the C compiler, and that a caller hands in what these conditions say:
 *
 * - a pointer to a struct, and `shortest`, is not null and is aligned, and what a call writes
 *   (structs, `*shortest` and the room) overlaps nothing else that it is handed;
 * - `bytes` points to `len` bytes, and `payload` to `payload_len`, that nothing writes during the
 *   call; where the length is 0 it may be any pointer, NULL too;
 * - `room` points to `room_len` bytes that nothing else reads or writes during the call; where
 *   `room_len` is 0 it may be any pointer, NULL too.
 *
 * A struct that a call only sets need not be set before. C99 and C++11. The format is told at
 * <https://protobuf.dev/programming-guides/encoding/>. */
#ifndef GETTAVIL_H
#define GETTAVIL_H

#include <stddef.h>
#include <stdint.h>

#ifdef __cplusplus
extern "C" {
#endif

/* The version that this header is for, which `gtv_version` answers. */
#define GTV_VERSION 1u

/* What a call answers. No number is ever given another meaning. */
enum {
    GTV_OK = 0,                       /* the call did what it is for */
    GTV_END = 1,                      /* all bytes are read, and no group is open */
    GTV_UNEXPECTED_EOF = 2,           /* the bytes end in a record, or in a group */
    GTV_VARINT_TOO_LONG = 3,          /* a varint goes on past ten bytes or 64 bits */
    GTV_INVALID_WIRE_TYPE = 4,        /* 6 or 7, or an end tag (4) outside of a group */
    GTV_INVALID_FIELD_NUMBER = 5,     /* 0, or above 536,870,911 */
    GTV_MESSAGE_TOO_LARGE = 6,        /* not answered by these calls, as 11, 14 and 15 */
    GTV_WIRE_TYPE_MISMATCH = 7,       /* of messages alone: a field in another wire type */
    GTV_INVALID_UTF8 = 8,             /* of messages alone: a string that is no UTF-8 */
    GTV_RECURSION_LIMIT_EXCEEDED = 9, /* more groups are open at once than the limit */
    GTV_INVALID_END_GROUP = 10,       /* an end tag of another number than its group's */
    GTV_INVALID_MESSAGE_SET = 11,
    GTV_UNKNOWN_FIELD_LIMIT_EXCEEDED = 12, /* more records or bytes of payloads than the limit */
    GTV_ELEMENT_MEMORY_LIMIT_EXCEEDED = 13, /* of messages alone: more in lists than the limit */
    GTV_CUSTOM = 14,
    GTV_OUT_OF_MEMORY = 15,
    GTV_NO_ROOM = 32,                 /* the room is too small; nothing is written */
    GTV_DEPTH_TOO_LARGE = 33,         /* more than 100 levels are asked for; nothing is done */
    GTV_NOT_FOUND = 34                /* no record has the number */
};

/* What an event is: a wire type. */
enum {
    GTV_VARINT = 0,
    GTV_FIXED64 = 1,
    GTV_BYTES = 2,
    GTV_GROUP_START = 3,
    GTV_GROUP_END = 4,
    GTV_FIXED32 = 5
};

/* The part of a record that is at fault. */
enum {
    GTV_PART_TAG = 0,     /* no tag, or no slot or no level for its record */
    GTV_PART_VALUE = 1,   /* no varint, or a fixed-width value that is cut short */
    GTV_PART_LENGTH = 2,  /* the length of a payload is no varint */
    GTV_PART_PAYLOAD = 3, /* a payload that is cut short, or that is more than the limit */
    GTV_PART_END_TAG = 4  /* an end tag of another number, or outside of a group */
};

/* What may be taken at most. SIZE_MAX of either count is no limit. */
typedef struct gtv_limits {
    size_t records;       /* records, groups and what stands in them counted */
    size_t payload_bytes; /* bytes of all length-delimited payloads together */
    uint32_t depth;       /* groups that are open at once: 0 to 100 */
} gtv_limits;

/* No limit but 100 levels. */
#define GTV_NO_LIMITS {SIZE_MAX, SIZE_MAX, 100}

/* Where a reader is. Set by `gtv_reader_init`; `place` is how many bytes were read, and the first
 * `group_count` of `groups` are the numbers of the open groups, the outermost first. */
typedef struct gtv_reader {
    size_t place;
    size_t records_left;
    size_t payload_bytes_left;
    uint32_t depth;
    uint32_t group_count;
    uint32_t groups[100];
} gtv_reader;

/* A record, or the start or the end of a group. Places are offsets in the bytes, and
 * start < behind_tag <= payload <= payload + length, which is the start of the next event. */
typedef struct gtv_event {
    uint32_t kind;     /* GTV_VARINT .. */
    uint32_t number;   /* the field number */
    uint64_t value;    /* the number on the wire; the length of a payload; 0 for a group */
    size_t start;      /* where the tag begins */
    size_t behind_tag; /* where what stands behind the tag begins: a value or a length */
    size_t payload;    /* where the value begins, or the payload behind its length */
    size_t length;     /* how many bytes the value or the payload has; 0 for a group */
} gtv_event;

/* Where and why bytes do not go on as records. */
typedef struct gtv_fault {
    uint32_t status;     /* the error, as the call answers it */
    uint32_t detail;     /* the wire type or the field number that the error names, or 0 */
    uint32_t part;       /* GTV_PART_TAG .. */
    size_t record_place; /* where the record, or the end tag, begins */
    size_t part_place;   /* where the part at fault begins */
} gtv_fault;

/* Where the next record is written, and how many bytes the record of the last call takes, where it
 * was refused for want of room; else 0. Set both to 0 before the first. */
typedef struct gtv_writer {
    size_t place;
    size_t wanted;
} gtv_writer;

/* ---- reading ---- */

/* Sets a reader before the first byte. GTV_OK or GTV_DEPTH_TOO_LARGE. */
uint32_t gtv_reader_init(gtv_reader *reader, const gtv_limits *limits);

/* The next event in the bytes, which are those of each call before. GTV_OK, and the event is set;
 * GTV_END; or the status of the fault that stands here, and the fault is set. At the end and at a
 * fault the reader does not change, so the next call answers the same. */
uint32_t gtv_next(gtv_reader *reader, const uint8_t *bytes, size_t len, gtv_event *event,
                  gtv_fault *fault);

/* Whether all of the bytes are records within the limits: GTV_OK, GTV_DEPTH_TOO_LARGE, or the
 * status of the fault, which is set. */
uint32_t gtv_validate(const uint8_t *bytes, size_t len, const gtv_limits *limits,
                      gtv_fault *fault);

/* Where a record stands: its tag is the bytes from `start` to `behind_tag`; from there to `end` is
 * what stands behind it, the length of a payload or the end tag of a group counted. A reader whose
 * `place` is set to `start` has its event next. */
typedef struct gtv_range {
    uint32_t wire_type;
    size_t start;
    size_t behind_tag;
    size_t end;
} gtv_range;

/* The last record of a field number, which is the one that counts where a field stands once; those
 * in groups are left out. All of the bytes are looked at, with so many levels of groups, at most
 * 100. GTV_OK, and the range is set; GTV_NOT_FOUND; GTV_DEPTH_TOO_LARGE; or the status of the
 * fault. */
uint32_t gtv_find(const uint8_t *bytes, size_t len, uint32_t number, uint32_t depth,
                  gtv_range *range);

/* ---- writing ---- */

/* Each writes a record at `writer->place` of the room and moves the place behind it. Its bytes are
 * the fewest that the record has. GTV_OK; GTV_INVALID_FIELD_NUMBER; or GTV_NO_ROOM, exactly where
 * the room behind the place is smaller than the record, and `wanted` says how much that takes. A
 * refusal writes nothing. So a put into room of 0 bytes says how long its record is. */
uint32_t gtv_put_varint(gtv_writer *writer, uint8_t *room, size_t room_len, uint32_t number,
                        uint64_t value);
/* As `sint64` and `sint32` are written. */
uint32_t gtv_put_sint(gtv_writer *writer, uint8_t *room, size_t room_len, uint32_t number,
                      int64_t value);
uint32_t gtv_put_fixed32(gtv_writer *writer, uint8_t *room, size_t room_len, uint32_t number,
                         uint32_t value);
uint32_t gtv_put_fixed64(gtv_writer *writer, uint8_t *room, size_t room_len, uint32_t number,
                         uint64_t value);
/* A string, bytes, an embedded message or a packed list: the payload behind its length. */
uint32_t gtv_put_bytes(gtv_writer *writer, uint8_t *room, size_t room_len, uint32_t number,
                       const uint8_t *payload, size_t payload_len);
uint32_t gtv_put_group_start(gtv_writer *writer, uint8_t *room, size_t room_len, uint32_t number);
uint32_t gtv_put_group_end(gtv_writer *writer, uint8_t *room, size_t room_len, uint32_t number);

/* ---- whole messages ---- */

/* How many bytes the shortest encoding of the same records has, in `*shortest`: tags, lengths and
 * numbers without padding, also in groups; payloads as they are. GTV_OK, GTV_DEPTH_TOO_LARGE, or
 * the status of the fault, which is set. `*shortest` is set with GTV_OK alone. */
uint32_t gtv_shortest_len(const uint8_t *bytes, size_t len, const gtv_limits *limits,
                          size_t *shortest, gtv_fault *fault);

/* Writes that encoding at the front of the room. GTV_OK, GTV_NO_ROOM, GTV_DEPTH_TOO_LARGE, or the
 * status of the fault, which is set. `*shortest` is its length, and set with the first two alone. A
 * refusal writes nothing into the room. */
uint32_t gtv_shortest(const uint8_t *bytes, size_t len, const gtv_limits *limits, uint8_t *room,
                      size_t room_len, size_t *shortest, gtv_fault *fault);

/* ---- numbers ---- */

/* How many bytes the shortest varint of a number has: 1 to 10. */
size_t gtv_varint_len(uint64_t value);

/* The number of a value of type `sint64`, and back. */
uint64_t gtv_zigzag(int64_t value);
int64_t gtv_unzigzag(uint64_t number);

/* GTV_VERSION of the library. */
uint32_t gtv_version(void);

/* The name of a status, and one line that says what it is; for a number that is none, "unknown". */
static inline const char *gtv_status_name(uint32_t status) {
    switch (status) {
    case GTV_OK: return "Ok";
    case GTV_END: return "End";
    case GTV_UNEXPECTED_EOF: return "UnexpectedEof";
    case GTV_VARINT_TOO_LONG: return "VarintTooLong";
    case GTV_INVALID_WIRE_TYPE: return "InvalidWireType";
    case GTV_INVALID_FIELD_NUMBER: return "InvalidFieldNumber";
    case GTV_MESSAGE_TOO_LARGE: return "MessageTooLarge";
    case GTV_WIRE_TYPE_MISMATCH: return "WireTypeMismatch";
    case GTV_INVALID_UTF8: return "InvalidUtf8";
    case GTV_RECURSION_LIMIT_EXCEEDED: return "RecursionLimitExceeded";
    case GTV_INVALID_END_GROUP: return "InvalidEndGroup";
    case GTV_INVALID_MESSAGE_SET: return "InvalidMessageSet";
    case GTV_UNKNOWN_FIELD_LIMIT_EXCEEDED: return "UnknownFieldLimitExceeded";
    case GTV_ELEMENT_MEMORY_LIMIT_EXCEEDED: return "ElementMemoryLimitExceeded";
    case GTV_CUSTOM: return "Custom";
    case GTV_OUT_OF_MEMORY: return "OutOfMemory";
    case GTV_NO_ROOM: return "NoRoom";
    case GTV_DEPTH_TOO_LARGE: return "DepthTooLarge";
    case GTV_NOT_FOUND: return "NotFound";
    default: return "unknown";
    }
}

static inline const char *gtv_status_text(uint32_t status) {
    switch (status) {
    case GTV_OK: return "done";
    case GTV_END: return "all bytes are read";
    case GTV_UNEXPECTED_EOF: return "unexpected end of buffer";
    case GTV_VARINT_TOO_LONG: return "varint exceeded maximum length of 10 bytes";
    case GTV_INVALID_WIRE_TYPE: return "invalid wire type";
    case GTV_INVALID_FIELD_NUMBER: return "invalid field number";
    case GTV_WIRE_TYPE_MISMATCH: return "a field in another wire type";
    case GTV_INVALID_UTF8: return "invalid UTF-8 in string field";
    case GTV_RECURSION_LIMIT_EXCEEDED: return "recursion limit exceeded";
    case GTV_INVALID_END_GROUP: return "invalid end-group tag";
    case GTV_UNKNOWN_FIELD_LIMIT_EXCEEDED: return "unknown field limit exceeded";
    case GTV_ELEMENT_MEMORY_LIMIT_EXCEEDED: return "element memory limit exceeded";
    case GTV_NO_ROOM: return "the room is too small";
    case GTV_DEPTH_TOO_LARGE: return "a depth above 100";
    case GTV_NOT_FOUND: return "no record has the number";
    default: return "unknown";
    }
}

static inline const char *gtv_part_name(uint32_t part) {
    switch (part) {
    case GTV_PART_TAG: return "Tag";
    case GTV_PART_VALUE: return "Value";
    case GTV_PART_LENGTH: return "Length";
    case GTV_PART_PAYLOAD: return "Payload";
    case GTV_PART_END_TAG: return "EndTag";
    default: return "unknown";
    }
}

#ifdef __cplusplus
}
#endif

/* The layout that the library was compiled for: 64 bits. */
#if defined(__cplusplus)
#define GTV_ASSERT(name, claim) static_assert(claim, #name)
#elif defined(__STDC_VERSION__) && __STDC_VERSION__ >= 201112L
#define GTV_ASSERT(name, claim) _Static_assert(claim, #name)
#else
#define GTV_ASSERT(name, claim) typedef char gtv_assert_##name[(claim) ? 1 : -1]
#endif

GTV_ASSERT(size_of_size, sizeof(size_t) == 8);
GTV_ASSERT(size_of_limits, sizeof(gtv_limits) == 24);
GTV_ASSERT(limits_payload_bytes, offsetof(gtv_limits, payload_bytes) == 8);
GTV_ASSERT(limits_depth, offsetof(gtv_limits, depth) == 16);
GTV_ASSERT(size_of_reader, sizeof(gtv_reader) == 432);
GTV_ASSERT(reader_records_left, offsetof(gtv_reader, records_left) == 8);
GTV_ASSERT(reader_payload_bytes_left, offsetof(gtv_reader, payload_bytes_left) == 16);
GTV_ASSERT(reader_depth, offsetof(gtv_reader, depth) == 24);
GTV_ASSERT(reader_group_count, offsetof(gtv_reader, group_count) == 28);
GTV_ASSERT(reader_groups, offsetof(gtv_reader, groups) == 32);
GTV_ASSERT(size_of_event, sizeof(gtv_event) == 48);
GTV_ASSERT(event_number, offsetof(gtv_event, number) == 4);
GTV_ASSERT(event_value, offsetof(gtv_event, value) == 8);
GTV_ASSERT(event_start, offsetof(gtv_event, start) == 16);
GTV_ASSERT(event_behind_tag, offsetof(gtv_event, behind_tag) == 24);
GTV_ASSERT(event_payload, offsetof(gtv_event, payload) == 32);
GTV_ASSERT(event_length, offsetof(gtv_event, length) == 40);
GTV_ASSERT(size_of_fault, sizeof(gtv_fault) == 32);
GTV_ASSERT(fault_detail, offsetof(gtv_fault, detail) == 4);
GTV_ASSERT(fault_part, offsetof(gtv_fault, part) == 8);
GTV_ASSERT(fault_record_place, offsetof(gtv_fault, record_place) == 16);
GTV_ASSERT(fault_part_place, offsetof(gtv_fault, part_place) == 24);
GTV_ASSERT(size_of_range, sizeof(gtv_range) == 32);
GTV_ASSERT(range_start, offsetof(gtv_range, start) == 8);
GTV_ASSERT(range_behind_tag, offsetof(gtv_range, behind_tag) == 16);
GTV_ASSERT(range_end, offsetof(gtv_range, end) == 24);
GTV_ASSERT(size_of_writer, sizeof(gtv_writer) == 16);
GTV_ASSERT(writer_wanted, offsetof(gtv_writer, wanted) == 8);

#undef GTV_ASSERT

#endif
