/* The same work by nanopb. */
#include "structs.h"

#include "pb_decode.h"
#include "pb_encode.h"
#include "station.nanopb.h"

#include <string.h>

static report_Report_Sample sample;
static station_Station it;

static uint64_t sum_of(const report_Report_Sample *one) {
    return strlen(one->name) + (uint64_t)one->count + (one->value != 0);
}

uint64_t nanopb_read(int is_station, const uint8_t *bytes, size_t len) {
    pb_istream_t from = pb_istream_from_buffer(bytes, len);
    if (!is_station) {
        return pb_decode(&from, report_Report_Sample_fields, &sample) ? sum_of(&sample) : 0;
    }
    if (!pb_decode(&from, station_Station_fields, &it)) {
        return 0;
    }
    uint64_t sum = strlen(it.name) + strlen(it.note) + it.key.size + (uint64_t)it.level +
                   (uint64_t)it.height + it.staffed + sum_of(&it.last) + it.which_power;
    for (size_t i = 0; i < it.tags_count; i++) {
        sum += strlen(it.tags[i]);
    }
    for (size_t i = 0; i < it.samples_count; i++) {
        sum += sum_of(&it.samples[i]);
    }
    return sum;
}

size_t nanopb_write(int is_station, uint8_t *room, size_t room_len) {
    pb_ostream_t to = pb_ostream_from_buffer(room, room_len);
    int done = is_station ? pb_encode(&to, station_Station_fields, &it)
                          : pb_encode(&to, report_Report_Sample_fields, &sample);
    return done ? to.bytes_written : 0;
}
