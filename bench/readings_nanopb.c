/* The same work by nanopb. */
#include "pb_decode.h"
#include "pb_encode.h"
#include "readings.nanopb.h"
#include "readings_work.h"

static readings_Reading reading;
static readings_Settings settings;
static readings_Sensor sensor;
static readings_Visit visit;
static readings_Log whole_log;
static readings_Totals totals;

static uint64_t with_string(uint64_t sum, const char *text) {
    return with_text(sum, text, strlen(text));
}

static uint64_t with_point(uint64_t sum, const readings_Point *it) {
    return with_number(with_number(sum, it->x), it->y);
}

static uint64_t with_reading(uint64_t sum, const readings_Reading *it) {
    sum = with_string(sum, it->sensor);
    sum = with_double(sum, it->celsius);
    sum = with_number(with_number(sum, it->has_offset), it->offset);
    return with_number(sum, it->state);
}

static uint64_t with_settings(uint64_t sum, const readings_Settings *it) {
    sum = with_number(sum, it->least);
    sum = with_number(sum, it->since);
    sum = with_number(sum, it->each_seconds);
    sum = with_number(sum, it->serial);
    sum = with_number(sum, it->shift);
    sum = with_number(sum, it->address);
    sum = with_number(sum, it->key);
    sum = with_number(sum, it->low);
    sum = with_number(sum, it->high);
    sum = with_float(sum, it->factor);
    sum = with_number(sum, it->is_on);
    sum = with_text(sum, it->registered.bytes, it->registered.size);
    sum = with_string(with_number(sum, it->has_label), it->label);
    sum = with_text(with_number(sum, it->has_token), it->token.bytes, it->token.size);
    sum = with_double(with_number(sum, it->has_limit), it->limit);
    sum = with_float(with_number(sum, it->has_gain), it->gain);
    sum = with_number(with_number(sum, it->has_is_loud), it->is_loud);
    sum = with_number(with_number(sum, it->has_worst), it->worst);
    sum = with_number(with_number(sum, it->has_mask), it->mask);
    return with_number(with_number(sum, it->has_count), it->count);
}

static uint64_t with_sensor(uint64_t sum, const readings_Sensor *it) {
    sum = with_string(sum, it->name);
    sum = it->has_at ? with_point(sum, &it->at) : sum;
    sum = it->has_last ? with_reading(sum, &it->last) : sum;
    sum = with_number(with_number(sum, it->has_count), it->count);
    sum = it->has_settings ? with_settings(sum, &it->settings) : sum;
    sum = with_text(sum, it->key.bytes, it->key.size);
    sum = with_number(sum, it->turned);
    sum = with_number(sum, it->state);
    sum = with_double(sum, it->weight);
    return it->has_next ? with_point(sum, &it->next) : sum;
}

static uint64_t with_cause(uint64_t sum, const readings_Visit *it) {
    sum = with_number(sum, it->which_cause);
    switch (it->which_cause) {
    case readings_Visit_state_tag: return with_number(sum, it->cause.state);
    case readings_Visit_limit_tag: return with_double(sum, it->cause.limit);
    case readings_Visit_complaint_tag: return with_string(sum, it->cause.complaint);
    case readings_Visit_reading_tag: return with_reading(sum, &it->cause.reading);
    case readings_Visit_order_tag:
        return with_text(sum, it->cause.order.bytes, it->cause.order.size);
    case readings_Visit_shift_tag: return with_number(sum, it->cause.shift);
    default: return sum;
    }
}

static uint64_t with_visit(uint64_t sum, const readings_Visit *it) {
    sum = with_string(sum, it->by);
    sum = with_cause(sum, it);
    sum = with_number(with_number(sum, it->has_minutes), it->minutes);
    sum = with_number(with_number(sum, it->which_outcome), it->outcome.is_done);
    return it->has_at ? with_point(sum, &it->at) : sum;
}

static uint64_t with_log(uint64_t sum, const readings_Log *it) {
    sum = with_number(sum, it->since);
    sum = it->has_at ? with_point(sum, &it->at) : sum;
    sum = with_string(sum, it->by);
    sum = with_number(sum, it->is_whole);
    sum = with_number(sum, it->count);
    for (size_t i = 0; i < it->notes_count; i++) {
        sum = with_string(sum, it->notes[i]);
    }
    for (size_t i = 0; i < it->readings_count; i++) {
        sum = with_reading(sum, &it->readings[i]);
    }
    for (size_t i = 0; i < it->frames_count; i++) {
        sum = with_text(sum, it->frames[i].bytes, it->frames[i].size);
    }
    for (size_t i = 0; i < it->path_count; i++) {
        sum = with_point(sum, &it->path[i]);
    }
    for (size_t i = 0; i < it->more_count; i++) {
        sum = with_string(sum, it->more[i]);
    }
    return sum;
}

static uint64_t with_totals(uint64_t sum, const readings_Totals *it) {
    sum = with_string(sum, it->by);
    for (size_t i = 0; i < it->sums_count; i++) {
        sum += with_number(with_string(1, it->sums[i].key), it->sums[i].value);
    }
    for (size_t i = 0; i < it->last_count; i++) {
        sum += with_reading(with_number(1, it->last[i].key), &it->last[i].value);
    }
    for (size_t i = 0; i < it->states_count; i++) {
        sum += with_number(with_number(1, it->states[i].key), it->states[i].value);
    }
    return sum;
}

static int decode(const uint8_t *bytes, size_t len, const pb_msgdesc_t *fields, void *it) {
    pb_istream_t from = pb_istream_from_buffer(bytes, len);
    return pb_decode(&from, fields, it);
}

static size_t encode(uint8_t *room, size_t room_len, const pb_msgdesc_t *fields, const void *it) {
    pb_ostream_t to = pb_ostream_from_buffer(room, room_len);
    return pb_encode(&to, fields, it) ? to.bytes_written : 0;
}

static uint64_t read_reading(const uint8_t *bytes, size_t len) {
    return decode(bytes, len, readings_Reading_fields, &reading) ? with_reading(1, &reading) : 0;
}

static uint64_t read_settings(const uint8_t *bytes, size_t len) {
    return decode(bytes, len, readings_Settings_fields, &settings) ? with_settings(1, &settings)
                                                                   : 0;
}

static uint64_t read_sensor(const uint8_t *bytes, size_t len) {
    return decode(bytes, len, readings_Sensor_fields, &sensor) ? with_sensor(1, &sensor) : 0;
}

static uint64_t read_visit(const uint8_t *bytes, size_t len) {
    return decode(bytes, len, readings_Visit_fields, &visit) ? with_visit(1, &visit) : 0;
}

static uint64_t read_log(const uint8_t *bytes, size_t len) {
    return decode(bytes, len, readings_Log_fields, &whole_log) ? with_log(1, &whole_log) : 0;
}

static uint64_t read_totals(const uint8_t *bytes, size_t len) {
    return decode(bytes, len, readings_Totals_fields, &totals) ? with_totals(1, &totals) : 0;
}

static size_t write_reading(uint8_t *room, size_t room_len) {
    return encode(room, room_len, readings_Reading_fields, &reading);
}

static size_t write_settings(uint8_t *room, size_t room_len) {
    return encode(room, room_len, readings_Settings_fields, &settings);
}

static size_t write_sensor(uint8_t *room, size_t room_len) {
    return encode(room, room_len, readings_Sensor_fields, &sensor);
}

static size_t write_visit(uint8_t *room, size_t room_len) {
    return encode(room, room_len, readings_Visit_fields, &visit);
}

static size_t write_log(uint8_t *room, size_t room_len) {
    return encode(room, room_len, readings_Log_fields, &whole_log);
}

static size_t write_totals(uint8_t *room, size_t room_len) {
    return encode(room, room_len, readings_Totals_fields, &totals);
}

const message_work nanopb_work[] = {
    {"reading", read_reading, write_reading},
    {"settings", read_settings, write_settings},
    {"sensor", read_sensor, write_sensor},
    {"visit", read_visit, write_visit},
    {"log", read_log, write_log},
    {"totals", read_totals, write_totals},
    {NULL, NULL, NULL},
};
