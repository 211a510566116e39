/* Prints the records of a message from standard input, and where and why they do not go on.
 * Status 0, or 1 where the message is broken, or 2 where it can't be read. */
#include "gettavil.h"

#include <inttypes.h>
#include <stdio.h>
#include <stdlib.h>

/* The longest message that is read. */
#define MOST ((size_t)64 << 20)

static void print_text(const uint8_t *bytes, size_t len) {
    putchar('"');
    for (size_t i = 0; i < len; i++) {
        if (bytes[i] >= ' ' && bytes[i] < 127 && bytes[i] != '"' && bytes[i] != '\\') {
            putchar(bytes[i]);
        } else {
            printf("\\%03o", bytes[i]);
        }
    }
    puts("\"");
}

static void print_event(const gtv_event *event, const uint8_t *bytes, uint32_t depth) {
    printf("%6zu %*s", event->start, (int)(2 * depth), "");
    switch (event->kind) {
    case GTV_BYTES:
        printf("%" PRIu32 ": ", event->number);
        print_text(bytes + event->payload, event->length);
        break;
    case GTV_GROUP_START: printf("%" PRIu32 " {\n", event->number); break;
    case GTV_GROUP_END: puts("}"); break;
    default: printf("%" PRIu32 ": %" PRIu64 "\n", event->number, event->value);
    }
}

static int print_message(const uint8_t *bytes, size_t len) {
    const gtv_limits limits = GTV_NO_LIMITS;
    gtv_reader reader;
    gtv_event event;
    gtv_fault fault;
    uint32_t status = gtv_reader_init(&reader, &limits);
    while (status == GTV_OK) {
        uint32_t depth = reader.group_count;
        status = gtv_next(&reader, bytes, len, &event, &fault);
        if (status == GTV_OK) {
            print_event(&event, bytes, event.kind == GTV_GROUP_END ? depth - 1 : depth);
        }
    }
    if (status == GTV_END) {
        return 0;
    }
    fflush(stdout);
    fprintf(stderr, "record at byte %zu, %s at byte %zu: %s: %s\n", fault.record_place,
            gtv_part_name(fault.part), fault.part_place, gtv_status_name(status),
            gtv_status_text(status));
    return 1;
}

int main(void) {
    uint8_t *bytes = malloc(MOST + 1);
    if (bytes == NULL) {
        fputs("out of memory\n", stderr);
        return 2;
    }
    size_t len = fread(bytes, 1, MOST + 1, stdin);
    int answer = 2;
    if (ferror(stdin) || len > MOST) {
        fputs("the message can't be read, or is longer than 64 MiB\n", stderr);
    } else {
        answer = print_message(bytes, len);
    }
    free(bytes);
    return answer;
}
