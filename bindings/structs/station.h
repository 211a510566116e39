/* The messages of station.proto as structs, read in place and written. What a struct is and what is
 * asked of a caller is told in gettavil_structs.h. C99 and C++11. */
#ifndef STATION_H
#define STATION_H

#include "gettavil_structs.h"

#ifdef __cplusplus
extern "C" {
#endif

/* The enum `report.Report.Level`. */
enum {
    REPORT_LEVEL_LOW = 0,
    REPORT_LEVEL_HIGH = 1,
    REPORT_LEVEL_VERY_HIGH = 2 /* something is wrong */
};

/* `report.Report.Sample`: what was measured once. */
typedef struct report_sample {
    gtv_bytes name;
    double value;
    bool has_count;
    int64_t count;
} report_sample;

/* The oneof `power` of `station.Station`: what it runs on. */
enum {
    STATION_POWER_NONE = 0,
    STATION_POWER_VOLTS = 8,
    STATION_POWER_GRID = 9,
    STATION_POWER_BACKUP = 10
};

typedef struct station_power {
    uint32_t which;
    float volts;
    gtv_bytes grid;
    report_sample backup;
} station_power;

/* `station.Station`: what a measuring station tells of itself. */
typedef struct station {
    gtv_bytes name;
    int32_t level;
    bool has_height;
    int32_t height; /* in metres above the sea */
    bool has_note;
    gtv_bytes note;
    bool has_last;
    report_sample last;
    gtv_bytes key;
    bool staffed;
    station_power power;
    uint64_t tags_count;
    uint64_t samples_count;
} station;

/* The lists of a station that is written: pointers to the first element and how many there are.
 * All is zero where there are none. */
typedef struct station_lists {
    const gtv_bytes *tags;
    size_t tags_len;
    const report_sample *samples;
    size_t samples_len;
} station_lists;

/* Each sets the struct to what all of the bytes are: GTV_OK, exactly where they are such a message
 * within the limits. Any other status says that they are not, and then the struct is zero; it is
 * that of the error: GTV_UNEXPECTED_EOF, GTV_VARINT_TOO_LONG, GTV_INVALID_WIRE_TYPE,
 * GTV_INVALID_FIELD_NUMBER, GTV_MESSAGE_TOO_LARGE, GTV_WIRE_TYPE_MISMATCH, GTV_INVALID_UTF8,
 * GTV_RECURSION_LIMIT_EXCEEDED, GTV_INVALID_END_GROUP, GTV_UNKNOWN_FIELD_LIMIT_EXCEEDED or
 * GTV_ELEMENT_MEMORY_LIMIT_EXCEEDED.
 *
 * With no limits named these are 100 levels of messages and groups, 1,000,000 unknown fields, and
 * 33,554,432 bytes for the elements of lists, of which a tag takes 24 and a sample 80. Those of the
 * caller are `depth`, of which no more than 100 are given; `records`, unknown fields, those in
 * groups counted; and `payload_bytes`, bytes of their length-delimited payloads; lists have no
 * limit of their own there. */
uint32_t report_sample_read(const uint8_t *bytes, size_t len, report_sample *it);
uint32_t report_sample_read_within(const uint8_t *bytes, size_t len, const gtv_limits *limits,
                                   report_sample *it);
uint32_t station_read(const uint8_t *bytes, size_t len, station *it);
uint32_t station_read_within(const uint8_t *bytes, size_t len, const gtv_limits *limits,
                             station *it);

/* The next of the tags, one after another: set `walk` to the bytes that were read as a station, and
 * call until the answer is no GTV_OK. GTV_OK, and `tag` is the next of them, and `walk` what is
 * behind it; GTV_END, where none is left; or the status of an error, which bytes that were read as
 * a station never have. Without GTV_OK `walk` stays, and `tag` is of no bytes. So it gives as many
 * as `tags_count` says, in order. */
uint32_t station_next_tag(gtv_bytes *walk, gtv_bytes *tag);

/* The same of the samples, of which it gives the bytes: what report_sample_read reads. */
uint32_t station_next_sample(gtv_bytes *walk, gtv_bytes *sample);

/* How many bytes the shortest encoding of what a struct shows has, or SIZE_MAX where they are more.
 * It is that of a message with these fields and no others, in the order of their numbers. Of a
 * station the lists are those that are handed in beside it; what `tags_count` and `samples_count`
 * say is not looked at. */
size_t report_sample_size(const report_sample *it);
size_t station_size(const station *it, const station_lists *lists);

/* Each writes that encoding at the front of the room. GTV_OK; or GTV_NO_ROOM, exactly where the
 * room is smaller, and then it stays as it was. `*len` is how many bytes the encoding has, either
 * way, so a call with room of 0 bytes says how much it wants. Nothing behind the encoding is
 * written. */
uint32_t report_sample_write(const report_sample *it, uint8_t *room, size_t room_len, size_t *len);
uint32_t station_write(const station *it, const station_lists *lists, uint8_t *room,
                       size_t room_len, size_t *len);

/* The same with unknown fields behind what the struct shows: of the records that `bytes` are,
 * usually those that the struct was read from, those whose numbers the message lacks, in order,
 * each in its shortest form and groups whole. So nothing is lost of a message that is read, changed
 * and written, but the unknown fields of messages inside it. Each answers GTV_OK; of those that
 * write, GTV_NO_ROOM, exactly where the bytes are such records and the room is smaller; or, exactly
 * where they are no records, or these nest more than 100 groups, the status of the error:
 * GTV_UNEXPECTED_EOF, GTV_VARINT_TOO_LONG, GTV_INVALID_WIRE_TYPE, GTV_INVALID_FIELD_NUMBER,
 * GTV_RECURSION_LIMIT_EXCEEDED or GTV_INVALID_END_GROUP. Then `*len` is 0. Without GTV_OK the room
 * stays. Bytes that were read as the message are such records. */
uint32_t report_sample_size_keeping(const report_sample *it, const uint8_t *bytes,
                                    size_t bytes_len, size_t *len);
uint32_t report_sample_write_keeping(const report_sample *it, const uint8_t *bytes,
                                     size_t bytes_len, uint8_t *room, size_t room_len,
                                     size_t *len);
uint32_t station_size_keeping(const station *it, const station_lists *lists,
                              const uint8_t *bytes, size_t bytes_len, size_t *len);
uint32_t station_write_keeping(const station *it, const station_lists *lists,
                               const uint8_t *bytes, size_t bytes_len, uint8_t *room,
                               size_t room_len, size_t *len);

#ifdef __cplusplus
}
#endif

GTV_LAYOUT(size_of_report_sample, sizeof(report_sample) == 40);
GTV_LAYOUT(report_sample_value, offsetof(report_sample, value) == 16);
GTV_LAYOUT(report_sample_has_count, offsetof(report_sample, has_count) == 24);
GTV_LAYOUT(report_sample_count, offsetof(report_sample, count) == 32);
GTV_LAYOUT(size_of_station_power, sizeof(station_power) == 64);
GTV_LAYOUT(station_power_volts, offsetof(station_power, volts) == 4);
GTV_LAYOUT(station_power_grid, offsetof(station_power, grid) == 8);
GTV_LAYOUT(station_power_backup, offsetof(station_power, backup) == 24);
GTV_LAYOUT(size_of_station, sizeof(station) == 200);
GTV_LAYOUT(station_level, offsetof(station, level) == 16);
GTV_LAYOUT(station_has_height, offsetof(station, has_height) == 20);
GTV_LAYOUT(station_height, offsetof(station, height) == 24);
GTV_LAYOUT(station_has_note, offsetof(station, has_note) == 28);
GTV_LAYOUT(station_note, offsetof(station, note) == 32);
GTV_LAYOUT(station_has_last, offsetof(station, has_last) == 48);
GTV_LAYOUT(station_last, offsetof(station, last) == 56);
GTV_LAYOUT(station_key, offsetof(station, key) == 96);
GTV_LAYOUT(station_staffed, offsetof(station, staffed) == 112);
GTV_LAYOUT(station_power_of_station, offsetof(station, power) == 120);
GTV_LAYOUT(station_tags_count, offsetof(station, tags_count) == 184);
GTV_LAYOUT(station_samples_count, offsetof(station, samples_count) == 192);
GTV_LAYOUT(size_of_station_lists, sizeof(station_lists) == 32);
GTV_LAYOUT(station_lists_tags_len, offsetof(station_lists, tags_len) == 8);
GTV_LAYOUT(station_lists_samples, offsetof(station_lists, samples) == 16);
GTV_LAYOUT(station_lists_samples_len, offsetof(station_lists, samples_len) == 24);

#endif
