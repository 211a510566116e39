/* Tries the library on the rows of rows/read.tsv, with pages around input and output that no
 * program may touch: what is read, whole and cut at each place; what is written of it again, into
 * room that just suffices and into room that is a byte too small; and the layout of each struct.
 * Says how many rows stood, and ends in 1 where one does not. */
#include "gettavil.h"
#include "guarded.h"

#include <inttypes.h>
#include <stdarg.h>
#include <stdio.h>
#include <stdlib.h>
#include <string.h>

enum { MOST_BYTES = 4096, MOST_TEXT = 1 << 20 };

static Guarded input, output;

/* ---- a text that grows ---- */

typedef struct Text {
    char bytes[MOST_TEXT];
    size_t len;
} Text;

static Text said;

static void say(const char *form, ...) __attribute__((format(printf, 1, 2)));
static void say(const char *form, ...) {
    va_list more;
    va_start(more, form);
    said.len += (size_t)vsnprintf(said.bytes + said.len, MOST_TEXT - said.len, form, more);
    va_end(more);
}

/* ---- what a row says ---- */

typedef struct Row {
    char *name;
    uint8_t bytes[MOST_BYTES];
    size_t len;
    gtv_limits limits;
    char *wanted;
} Row;

static int fails;

static void astray(const Row *row, const char *what) {
    printf("%s: %s is astray\n", row->name, what);
    printf("  wanted %s\n  found  %s\n", row->wanted, said.bytes);
    fails++;
}

static void say_event(const gtv_event *event, const uint8_t *bytes) {
    static const char *kinds[] = {"varint", "fixed64", "bytes", "start", "end", "fixed32"};
    say("%" PRIu32 " %s", event->number, kinds[event->kind]);
    if (event->kind == GTV_BYTES) {
        say(event->length == 0 ? " -" : " ");
        for (size_t i = 0; i < event->length; i++) {
            say("%02x", bytes[event->payload + i]);
        }
    } else if (event->kind != GTV_GROUP_START && event->kind != GTV_GROUP_END) {
        say(" %" PRIu64, event->value);
    }
    say(" %zu %zu %zu; ", event->start, event->behind_tag, event->payload + event->length);
}

static void say_fault(const gtv_fault *fault, const gtv_reader *reader) {
    say("record %zu %s %zu in [", fault->record_place, gtv_part_name(fault->part),
        fault->part_place);
    for (uint32_t i = 0; i < reader->group_count; i++) {
        say(i == 0 ? "%" PRIu32 : ", %" PRIu32, reader->groups[i]);
    }
    say("] %s", gtv_status_name(fault->status));
    if (fault->status == GTV_INVALID_WIRE_TYPE || fault->status == GTV_INVALID_END_GROUP) {
        say("(%" PRIu32 ")", fault->detail);
    }
}

/* Says the events of the bytes, and at the end or the fault what stands there. */
static uint32_t say_all(const uint8_t *bytes, size_t len, const gtv_limits *limits) {
    gtv_reader reader;
    gtv_event event;
    gtv_fault fault;
    uint32_t status = gtv_reader_init(&reader, limits);
    said.len = 0;
    said.bytes[0] = 0;
    while (status == GTV_OK) {
        status = gtv_next(&reader, bytes, len, &event, &fault);
        if (status == GTV_OK) {
            say_event(&event, bytes);
        }
    }
    if (status == GTV_END) {
        say("end");
    } else {
        say_fault(&fault, &reader);
    }
    return status;
}

/* ---- what is asked of a row ---- */

static const uint8_t *placed(const Row *row, size_t len, int behind_a_page) {
    uint8_t *bytes = behind_a_page ? input.first : at_end(input, len);
    memcpy(bytes, row->bytes, len);
    return bytes;
}

static void read_whole(const Row *row, int behind_a_page) {
    const uint8_t *bytes = placed(row, row->len, behind_a_page);
    gtv_fault fault;
    uint32_t status = say_all(bytes, row->len, &row->limits);
    if (strcmp(said.bytes, row->wanted) != 0) {
        astray(row, "the reader");
    }
    uint32_t valid = gtv_validate(bytes, row->len, &row->limits, &fault);
    if (valid != (status == GTV_END ? (uint32_t)GTV_OK : status)) {
        astray(row, "gtv_validate");
    }
}

/* A front of the bytes has the events that end in it, which are the first of all. */
static void read_front(const Row *row, size_t len) {
    const uint8_t *bytes = placed(row, len, 0);
    say_all(bytes, len, &row->limits);
    char *last = strrchr(said.bytes, ';');
    size_t events = last == NULL ? 0 : (size_t)(last - said.bytes) + 2;
    if (strncmp(said.bytes, row->wanted, events) != 0) {
        astray(row, "a front");
    }
}

/* Writes the events again, into room of so many bytes that ends before a page. */
static uint32_t write_again(const uint8_t *bytes, const Row *row, size_t room_len,
                            gtv_writer *writer) {
    uint8_t *room = at_end(output, room_len);
    gtv_reader reader;
    gtv_event event;
    gtv_fault fault;
    uint32_t status = gtv_reader_init(&reader, &row->limits);
    *writer = (gtv_writer){0, 0};
    while (status == GTV_OK && gtv_next(&reader, bytes, row->len, &event, &fault) == GTV_OK) {
        uint32_t n = event.number;
        switch (event.kind) {
        case GTV_VARINT: status = gtv_put_varint(writer, room, room_len, n, event.value); break;
        case GTV_FIXED64: status = gtv_put_fixed64(writer, room, room_len, n, event.value); break;
        case GTV_FIXED32:
            status = gtv_put_fixed32(writer, room, room_len, n, (uint32_t)event.value);
            break;
        case GTV_BYTES:
            status = gtv_put_bytes(writer, room, room_len, n, bytes + event.payload, event.length);
            break;
        case GTV_GROUP_START: status = gtv_put_group_start(writer, room, room_len, n); break;
        default: status = gtv_put_group_end(writer, room, room_len, n);
        }
    }
    return status;
}

static void write_whole(const Row *row) {
    const uint8_t *bytes = placed(row, row->len, 0);
    size_t len = 0, written = 0;
    gtv_fault fault;
    gtv_writer writer;
    if (gtv_shortest_len(bytes, row->len, &row->limits, &len, &fault) != GTV_OK) {
        return;
    }
    uint8_t *room = at_end(output, len);
    uint8_t shortest[MOST_BYTES];
    if (gtv_shortest(bytes, row->len, &row->limits, room, len, &written, &fault) != GTV_OK
        || written != len || len > row->len) {
        astray(row, "gtv_shortest");
    }
    memcpy(shortest, room, len);
    memset(room, 0, len);
    if (write_again(bytes, row, len, &writer) != GTV_OK || writer.place != len
        || memcmp(room, shortest, len) != 0) {
        astray(row, "what is put");
    }
    if (len > 0) {
        memset(at_end(output, len), 0xAA, len);
        written = 0;
        if (gtv_shortest(bytes, row->len, &row->limits, room + 1, len - 1, &written, &fault)
                != GTV_NO_ROOM
            || written != len || room[0] != 0xAA || room[len - 1] != 0xAA) {
            astray(row, "gtv_shortest in too small a room");
        }
        if (write_again(bytes, row, len - 1, &writer) != GTV_NO_ROOM
            || writer.place + writer.wanted <= len - 1) {
            astray(row, "what is put in too small a room");
        }
    }
}

/* The last record of each number at the top is that of the last event that begins one there. */
static void find_each(const Row *row) {
    const uint8_t *bytes = placed(row, row->len, 0);
    gtv_reader reader;
    gtv_event event;
    gtv_fault fault;
    gtv_range range;
    size_t starts[32];
    memset(starts, 0xFF, sizeof starts);
    uint32_t status = gtv_reader_init(&reader, &row->limits);
    while (status == GTV_OK) {
        int at_top = reader.group_count == 0;
        status = gtv_next(&reader, bytes, row->len, &event, &fault);
        if (status == GTV_OK && at_top && event.number < 32) {
            starts[event.number] = event.start;
        }
    }
    for (uint32_t number = 1; status == GTV_END && number < 32; number++) {
        uint32_t found = gtv_find(bytes, row->len, number, row->limits.depth, &range);
        if (found != (starts[number] == SIZE_MAX ? GTV_NOT_FOUND : GTV_OK)
            || (found == GTV_OK && range.start != starts[number])) {
            astray(row, "gtv_find");
        }
    }
}

static void ask(const Row *row) {
    read_whole(row, 0);
    read_whole(row, 1);
    for (size_t len = 0; len < row->len; len++) {
        read_front(row, len);
    }
    write_whole(row);
    find_each(row);
}

/* ---- the layout of each struct, by values that differ ---- */

#define HAS(claim) \
    do { \
        if (!(claim)) { \
            printf("not so: %s\n", #claim); \
            fails++; \
        } \
    } while (0)

static void look_at_layout(void) {
    static const uint8_t bytes[] = {0x92, 0x80, 0x00, 0x83, 0x00, 'a', 'b', 'c', 0x1B, 0x23, 0x0E};
    const gtv_limits limits = {1000, 2000, 50};
    gtv_reader reader;
    gtv_event event;
    gtv_fault fault;
    gtv_writer writer = {1, 0};
    uint8_t room[2] = {0, 0};
    memset(&reader, 0xAA, sizeof reader);
    HAS(gtv_reader_init(&reader, &limits) == GTV_OK);
    HAS(gtv_next(&reader, bytes, sizeof bytes, &event, &fault) == GTV_OK);
    HAS(event.kind == GTV_BYTES && event.number == 2 && event.value == 3 && event.start == 0);
    HAS(event.behind_tag == 3 && event.payload == 5 && event.length == 3);
    HAS(gtv_next(&reader, bytes, sizeof bytes, &event, &fault) == GTV_OK && event.number == 3);
    HAS(gtv_next(&reader, bytes, sizeof bytes, &event, &fault) == GTV_OK && event.number == 4);
    HAS(event.kind == GTV_GROUP_START && event.start == 9 && event.payload == 10);
    HAS(reader.place == 10 && reader.records_left == 997 && reader.payload_bytes_left == 1997);
    HAS(reader.depth == 50 && reader.group_count == 2);
    HAS(reader.groups[0] == 3 && reader.groups[1] == 4);
    HAS(gtv_next(&reader, bytes, sizeof bytes, &event, &fault) == GTV_INVALID_WIRE_TYPE);
    HAS(fault.status == GTV_INVALID_WIRE_TYPE && fault.detail == 6 && fault.part == GTV_PART_TAG);
    HAS(fault.record_place == 10 && fault.part_place == 10);
    HAS(gtv_validate((const uint8_t *)"\x12\x85\x00", 3, &limits, &fault) == GTV_UNEXPECTED_EOF);
    HAS(fault.part == GTV_PART_PAYLOAD && fault.record_place == 0 && fault.part_place == 3);
    HAS(gtv_put_varint(&writer, room, sizeof room, 1, 300) == GTV_NO_ROOM);
    HAS(writer.place == 1 && writer.wanted == 3 && room[1] == 0);
    HAS(gtv_put_varint(&writer, room, sizeof room, 0, 1) == GTV_INVALID_FIELD_NUMBER);
    HAS(gtv_put_varint(&writer, room, sizeof room, UINT32_C(1) << 29, 1)
        == GTV_INVALID_FIELD_NUMBER);
    gtv_range range;
    HAS(gtv_find(bytes, 10, 2, 100, &range) == GTV_UNEXPECTED_EOF);
    HAS(gtv_find(bytes, 8, 2, 100, &range) == GTV_OK && range.wire_type == GTV_BYTES);
    HAS(range.start == 0 && range.behind_tag == 3 && range.end == 8);
    HAS(gtv_find(bytes, 8, 2, 101, &range) == GTV_DEPTH_TOO_LARGE);
    writer.place = SIZE_MAX;
    HAS(gtv_put_group_end(&writer, room, sizeof room, 1) == GTV_NO_ROOM && writer.wanted == 1);
}

/* Whatever the fields of a reader are, a call reads only the bytes that it is handed. */
static void look_at_any_reader(void) {
    static const uint8_t bytes[] = {0x0B, 0x0C, 0x08, 0x01};
    gtv_event event;
    gtv_fault fault;
    uint64_t seed = 1;
    for (int turn = 0; turn < 100000; turn++) {
        gtv_reader reader;
        for (size_t i = 0; i < sizeof reader; i++) {
            seed = seed * UINT64_C(6364136223846793005) + UINT64_C(1442695040888963407);
            ((uint8_t *)&reader)[i] = (uint8_t)(seed >> 56);
        }
        reader.place = seed % 3 == 0 ? reader.place : reader.place % 8;
        reader.group_count = seed % 5 == 0 ? reader.group_count : reader.group_count % 128;
        const uint8_t *end = memcpy(at_end(input, sizeof bytes), bytes, sizeof bytes);
        gtv_next(&reader, end, sizeof bytes, &event, &fault);
    }
}

/* An empty slice may come with a null pointer. */
static void look_at_null(void) {
    const gtv_limits limits = GTV_NO_LIMITS;
    gtv_reader reader;
    gtv_event event;
    gtv_fault fault;
    gtv_range range;
    gtv_writer writer = {0, 0};
    size_t len = 1;
    HAS(gtv_reader_init(&reader, &limits) == GTV_OK);
    HAS(gtv_next(&reader, NULL, 0, &event, &fault) == GTV_END);
    HAS(gtv_validate(NULL, 0, &limits, &fault) == GTV_OK);
    HAS(gtv_find(NULL, 0, 1, 100, &range) == GTV_NOT_FOUND);
    HAS(gtv_shortest(NULL, 0, &limits, NULL, 0, &len, &fault) == GTV_OK && len == 0);
    HAS(gtv_put_bytes(&writer, NULL, 0, 1, NULL, 0) == GTV_NO_ROOM && writer.wanted == 2);
}

static void look_at_numbers(void) {
    static const int64_t values[] = {0, -1, 1, -2, INT32_MAX, INT32_MIN, INT64_MAX, INT64_MIN};
    const gtv_limits deep = {SIZE_MAX, SIZE_MAX, 101};
    gtv_reader reader;
    HAS(gtv_version() == GTV_VERSION);
    HAS(gtv_zigzag(-1) == 1 && gtv_zigzag(1) == 2 && gtv_zigzag(INT64_MIN) == UINT64_MAX);
    HAS(gtv_varint_len(0) == 1 && gtv_varint_len(128) == 2 && gtv_varint_len(UINT64_MAX) == 10);
    for (size_t i = 0; i < sizeof values / sizeof *values; i++) {
        HAS(gtv_unzigzag(gtv_zigzag(values[i])) == values[i]);
    }
    HAS(gtv_reader_init(&reader, &deep) == GTV_DEPTH_TOO_LARGE);
}

/* ---- the rows ---- */

static size_t count_of(const char *text) {
    unsigned long long count = strtoull(text, NULL, 10);
    return count > SIZE_MAX ? SIZE_MAX : (size_t)count;
}

/* Reads a row from a line, whose tabs it replaces. */
static int read_row(char *line, Row *row) {
    char *parts[6];
    for (int i = 0; i < 6; i++) {
        parts[i] = line;
        line = i < 5 ? strchr(line, '\t') : strchr(line, '\n');
        if (line == NULL) {
            return 0;
        }
        *line++ = 0;
    }
    row->name = parts[0];
    row->len = 0;
    for (char *at = parts[1]; *at != 0 && row->len < MOST_BYTES; row->len++) {
        row->bytes[row->len] = (uint8_t)strtoul(at, &at, 16);
        at += *at == ' ';
    }
    size_t depth = count_of(parts[2]);
    row->limits.depth = depth > 100 ? 100 : (uint32_t)depth;
    row->limits.records = count_of(parts[3]);
    row->limits.payload_bytes = count_of(parts[4]);
    row->wanted = parts[5];
    return 1;
}

int main(int count, char **words) {
    static char line[MOST_TEXT];
    static Row row;
    FILE *rows = fopen(count > 1 ? words[1] : "../../rows/read.tsv", "r");
    int number = 0;
    if (rows == NULL) {
        perror("rows");
        return 2;
    }
    input = guarded(MOST_BYTES);
    output = guarded(MOST_BYTES);
    look_at_layout();
    look_at_numbers();
    look_at_null();
    look_at_any_reader();
    while (fgets(line, sizeof line, rows) != NULL) {
        if (line[0] != '#' && read_row(line, &row)) {
            ask(&row);
            number++;
        }
    }
    fclose(rows);
    printf("%d rows from C, %d astray\n", number, fails);
    return fails == 0 && number > 0 ? 0 : 1;
}
