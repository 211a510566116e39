/* What is written of a struct, as a text. */
#ifndef WRITES_H
#define WRITES_H

#include "shows.h"

enum { MOST_ELEMENTS = 64 };

static Guarded output;
static char written[MOST_TEXT]; /* in hexadecimal digits, or what is astray */
static char kept[MOST_TEXT];    /* the same with the unknown fields of the bytes */

/* A sample, where there is one, or else a station; and whether unknown fields are kept. */
typedef struct Written {
    const report_sample *sample;
    const station *it;
    const station_lists *lists;
    bool keeping;
} Written;

static uint32_t measure(Written w, size_t *len) {
    if (w.keeping) {
        return w.sample ? report_sample_size_keeping(w.sample, bytes, bytes_len, len)
                        : station_size_keeping(w.it, w.lists, bytes, bytes_len, len);
    }
    *len = w.sample ? report_sample_size(w.sample) : station_size(w.it, w.lists);
    return GTV_OK;
}

static uint32_t write_into(Written w, uint8_t *room, size_t room_len, size_t *len) {
    if (w.keeping) {
        return w.sample ? report_sample_write_keeping(w.sample, bytes, bytes_len, room, room_len,
                                                      len)
                        : station_write_keeping(w.it, w.lists, bytes, bytes_len, room, room_len,
                                                len);
    }
    return w.sample ? report_sample_write(w.sample, room, room_len, len)
                    : station_write(w.it, w.lists, room, room_len, len);
}

static int all_are(const uint8_t *room, size_t len, uint8_t byte) {
    size_t same = 0;
    while (same < len && room[same] == byte) {
        same++;
    }
    return same == len;
}

/* Writes into room of just its size, which ends before a page, and tells what it wrote; and into
 * all room that is smaller, and room that is a byte greater. */
static void write_to(Written w, char *told) {
    size_t size = 1 << 20;
    size_t len = 1 << 20;
    if (measure(w, &size) != GTV_OK || size > output.room) {
        strcpy(told, "no size");
        return;
    }
    uint8_t *room = at_end(output, size);
    memset(room, 0xA5, size);
    if (write_into(w, room, size, &len) != GTV_OK || len != size) {
        strcpy(told, "not written");
        return;
    }
    if (write_into(w, NULL, 0, &len) != (size ? GTV_NO_ROOM : GTV_OK) || len != size) {
        strcpy(told, "not measured");
        return;
    }
    strcpy(told, size == 0 ? "-" : "");
    for (size_t i = 0; i < size; i++) {
        sprintf(told + 2 * i, "%02X", room[i]);
    }
    for (size_t less = 1; less <= size; less++) {
        uint8_t *small = at_end(output, size - less);
        memset(small, 0xA5, size - less);
        if (write_into(w, small, size - less, &len) != GTV_NO_ROOM || len != size ||
            !all_are(small, size - less, 0xA5)) {
            strcpy(told, "written into less room");
        }
    }
    uint8_t *great = at_end(output, size + 1);
    great[size] = 0x5A;
    if (write_into(w, great, size + 1, &len) != GTV_OK || len != size || great[size] != 0x5A) {
        strcpy(told, "written behind the encoding");
    }
}

/* Writes it as it is, and with the unknown fields of the bytes. */
static void write_with(const report_sample *sample, const station *it,
                       const station_lists *lists) {
    Written w = {sample, it, lists, false};
    write_to(w, written);
    w.keeping = true;
    write_to(w, kept);
}

/* Writes a station with the lists that the bytes have. */
static void write_station(const station *it) {
    static gtv_bytes tags[MOST_ELEMENTS];
    static report_sample samples[MOST_ELEMENTS];
    station_lists lists = {tags, 0, samples, 0};
    gtv_bytes walk = {bytes, bytes_len}, sample;
    while (lists.tags_len < MOST_ELEMENTS &&
           station_next_tag(&walk, &tags[lists.tags_len]) == GTV_OK) {
        lists.tags_len++;
    }
    walk.data = bytes;
    walk.len = bytes_len;
    while (lists.samples_len < MOST_ELEMENTS &&
           station_next_sample(&walk, &sample) == GTV_OK) {
        report_sample_read(sample.data, sample.len, &samples[lists.samples_len++]);
    }
    write_with(NULL, it, &lists);
}

#endif
