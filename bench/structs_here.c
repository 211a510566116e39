/* Work on messages as structs, by the library of crates/wire_station_c. */
#include "structs.h"

#include "station.h"

#include <string.h>

enum { MOST = 8 };

static report_sample sample;
static station it;
static gtv_bytes tags[MOST];
static report_sample samples[MOST];
static station_lists lists = {tags, 0, samples, 0};

static uint64_t sum_of(const report_sample *one) {
    return one->name.len + (uint64_t)one->count + (one->value != 0);
}

static uint64_t read_lists(const uint8_t *bytes, size_t len) {
    gtv_bytes walk = {bytes, len}, one;
    uint64_t sum = 0;
    lists.tags_len = lists.samples_len = 0;
    while (lists.tags_len < MOST && station_next_tag(&walk, &tags[lists.tags_len]) == GTV_OK) {
        sum += tags[lists.tags_len++].len;
    }
    walk.data = bytes;
    walk.len = len;
    while (lists.samples_len < MOST && station_next_sample(&walk, &one) == GTV_OK &&
           report_sample_read(one.data, one.len, &samples[lists.samples_len]) == GTV_OK) {
        sum += sum_of(&samples[lists.samples_len++]);
    }
    return sum;
}

uint64_t here_read(int is_station, const uint8_t *bytes, size_t len, int with_lists) {
    if (!is_station) {
        return report_sample_read(bytes, len, &sample) == GTV_OK ? sum_of(&sample) : 0;
    }
    if (station_read(bytes, len, &it) != GTV_OK) {
        return 0;
    }
    uint64_t sum = it.name.len + it.note.len + it.key.len + (uint64_t)it.level +
                   (uint64_t)it.height + it.staffed + sum_of(&it.last) + it.power.which;
    return with_lists ? sum + read_lists(bytes, len) : sum;
}

size_t here_write(int is_station, uint8_t *room, size_t room_len) {
    size_t len = 0;
    uint32_t status = is_station ? station_write(&it, &lists, room, room_len, &len)
                                 : report_sample_write(&sample, room, room_len, &len);
    return status == GTV_OK ? len : 0;
}

size_t here_keep(int is_station, const uint8_t *bytes, size_t bytes_len, uint8_t *room,
                 size_t room_len) {
    size_t len = 0;
    uint32_t status =
        is_station
            ? station_write_keeping(&it, &lists, bytes, bytes_len, room, room_len, &len)
            : report_sample_write_keeping(&sample, bytes, bytes_len, room, room_len, &len);
    return status == GTV_OK ? len : 0;
}
