/* Work on the messages of readings.proto as structs, by the library of crates/wire_readings_c. */
#include "readings.h"
#include "readings_work.h"

static readings_reading reading;
static readings_settings settings;
static readings_sensor sensor;
static readings_visit visit;
static readings_log whole_log;
static readings_totals totals;

static gtv_bytes notes[MOST_ELEMENTS], frames[MOST_ELEMENTS], more[MOST_ELEMENTS];
static readings_reading read_last[MOST_ELEMENTS];
static readings_point path[MOST_ELEMENTS];
static readings_log_lists lists = {notes, 0, read_last, 0, frames, 0, path, 0, more, 0};

static readings_totals_sums_entry sums[MOST_ELEMENTS];
static readings_totals_last_entry last[MOST_ELEMENTS];
static readings_totals_states_entry states[MOST_ELEMENTS];
static readings_totals_lists maps = {sums, 0, last, 0, states, 0};

static uint64_t with_bytes(uint64_t sum, gtv_bytes bytes) {
    return with_text(sum, bytes.data, bytes.len);
}

static uint64_t with_point(uint64_t sum, const readings_point *it) {
    return with_number(with_number(sum, it->x), it->y);
}

static uint64_t with_reading(uint64_t sum, const readings_reading *it) {
    sum = with_bytes(sum, it->sensor);
    sum = with_double(sum, it->celsius);
    sum = with_number(with_number(sum, it->has_offset), it->offset);
    return with_number(sum, it->state);
}

static uint64_t with_settings(uint64_t sum, const readings_settings *it) {
    sum = with_number(sum, it->least);
    sum = with_number(sum, it->since);
    sum = with_number(sum, it->each_seconds);
    sum = with_number(sum, it->serial);
    sum = with_number(sum, it->shift);
    sum = with_number(sum, it->address);
    sum = with_number(sum, it->key);
    sum = with_number(sum, it->low);
    sum = with_number(sum, it->high);
    sum = with_float(sum, it->factor);
    sum = with_number(sum, it->is_on);
    sum = with_bytes(sum, it->register_);
    sum = with_bytes(with_number(sum, it->has_label), it->label);
    sum = with_bytes(with_number(sum, it->has_token), it->token);
    sum = with_double(with_number(sum, it->has_limit), it->limit);
    sum = with_float(with_number(sum, it->has_gain), it->gain);
    sum = with_number(with_number(sum, it->has_is_loud), it->is_loud);
    sum = with_number(with_number(sum, it->has_worst), it->worst);
    sum = with_number(with_number(sum, it->has_mask), it->mask);
    return with_number(with_number(sum, it->has_count), it->count);
}

static uint64_t with_sensor(uint64_t sum, const readings_sensor *it) {
    sum = with_bytes(sum, it->name);
    sum = it->has_at ? with_point(sum, &it->at) : sum;
    sum = it->has_last ? with_reading(sum, &it->last) : sum;
    sum = with_number(with_number(sum, it->has_count), it->count);
    sum = it->has_settings ? with_settings(sum, &it->settings) : sum;
    sum = with_bytes(sum, it->key);
    sum = with_number(sum, it->turned);
    sum = with_number(sum, it->state);
    sum = with_double(sum, it->weight);
    return it->has_next ? with_point(sum, &it->next) : sum;
}

static uint64_t with_cause(uint64_t sum, const readings_visit_cause *it) {
    sum = with_number(sum, it->which);
    switch (it->which) {
    case READINGS_VISIT_CAUSE_STATE: return with_number(sum, it->state);
    case READINGS_VISIT_CAUSE_LIMIT: return with_double(sum, it->limit);
    case READINGS_VISIT_CAUSE_COMPLAINT: return with_bytes(sum, it->complaint);
    case READINGS_VISIT_CAUSE_READING: return with_reading(sum, &it->reading);
    case READINGS_VISIT_CAUSE_ORDER: return with_bytes(sum, it->order);
    case READINGS_VISIT_CAUSE_SHIFT: return with_number(sum, it->shift);
    default: return sum;
    }
}

static uint64_t with_visit(uint64_t sum, const readings_visit *it) {
    sum = with_bytes(sum, it->by);
    sum = with_cause(sum, &it->cause);
    sum = with_number(with_number(sum, it->has_minutes), it->minutes);
    sum = with_number(with_number(sum, it->outcome.which), it->outcome.is_done);
    return it->has_at ? with_point(sum, &it->at) : sum;
}

static uint64_t with_front(uint64_t sum, const readings_log *it) {
    sum = with_number(sum, it->since);
    sum = it->has_at ? with_point(sum, &it->at) : sum;
    sum = with_bytes(sum, it->by);
    sum = with_number(sum, it->is_whole);
    return with_number(sum, it->count);
}

/* Puts the elements of a list of strings or bytes into `texts`. */
static uint64_t with_texts(uint64_t sum, gtv_bytes walk, gtv_bytes *texts, size_t *found,
                           uint32_t (*next)(gtv_bytes *walk, gtv_bytes *element)) {
    for (*found = 0; *found < MOST_ELEMENTS && next(&walk, &texts[*found]) == GTV_OK; ++*found) {
        sum = with_bytes(sum, texts[*found]);
    }
    return sum;
}

static uint64_t with_readings(uint64_t sum, gtv_bytes walk) {
    gtv_bytes element;
    size_t found = 0;
    while (found < MOST_ELEMENTS && readings_log_next_readings(&walk, &element) == GTV_OK &&
           readings_reading_read(element.data, element.len, &read_last[found]) == GTV_OK) {
        sum = with_reading(sum, &read_last[found++]);
    }
    lists.readings_len = found;
    return sum;
}

static uint64_t with_path(uint64_t sum, gtv_bytes walk) {
    gtv_bytes element;
    size_t found = 0;
    while (found < MOST_ELEMENTS && readings_log_next_path(&walk, &element) == GTV_OK &&
           readings_point_read(element.data, element.len, &path[found]) == GTV_OK) {
        sum = with_point(sum, &path[found++]);
    }
    lists.path_len = found;
    return sum;
}

/* The sums of entries are added up, since C++ has them in no order. */
static uint64_t with_sums(uint64_t sum, gtv_bytes walk) {
    gtv_bytes element;
    readings_totals_sums_entry *it = sums;
    while (it < sums + MOST_ELEMENTS && readings_totals_next_sums(&walk, &element) == GTV_OK &&
           readings_totals_sums_entry_read(element.data, element.len, it) == GTV_OK) {
        sum += with_number(with_bytes(1, it->key), it->value);
        it++;
    }
    maps.sums_len = it - sums;
    return sum;
}

static uint64_t with_last(uint64_t sum, gtv_bytes walk) {
    gtv_bytes element;
    readings_totals_last_entry *it = last;
    while (it < last + MOST_ELEMENTS && readings_totals_next_last(&walk, &element) == GTV_OK &&
           readings_totals_last_entry_read(element.data, element.len, it) == GTV_OK) {
        sum += with_reading(with_number(1, it->key), &it->value);
        it++;
    }
    maps.last_len = it - last;
    return sum;
}

static uint64_t with_states(uint64_t sum, gtv_bytes walk) {
    gtv_bytes element;
    readings_totals_states_entry *it = states;
    while (it < states + MOST_ELEMENTS && readings_totals_next_states(&walk, &element) == GTV_OK &&
           readings_totals_states_entry_read(element.data, element.len, it) == GTV_OK) {
        sum += with_number(with_number(1, it->key), it->value);
        it++;
    }
    maps.states_len = it - states;
    return sum;
}

static uint64_t read_reading(const uint8_t *bytes, size_t len) {
    return readings_reading_read(bytes, len, &reading) == GTV_OK ? with_reading(1, &reading) : 0;
}

static uint64_t read_settings(const uint8_t *bytes, size_t len) {
    return readings_settings_read(bytes, len, &settings) == GTV_OK ? with_settings(1, &settings)
                                                                   : 0;
}

static uint64_t read_sensor(const uint8_t *bytes, size_t len) {
    return readings_sensor_read(bytes, len, &sensor) == GTV_OK ? with_sensor(1, &sensor) : 0;
}

static uint64_t read_visit(const uint8_t *bytes, size_t len) {
    return readings_visit_read(bytes, len, &visit) == GTV_OK ? with_visit(1, &visit) : 0;
}

static uint64_t read_front(const uint8_t *bytes, size_t len) {
    return readings_log_read(bytes, len, &whole_log) == GTV_OK ? with_front(1, &whole_log) : 0;
}

static uint64_t read_log(const uint8_t *bytes, size_t len) {
    gtv_bytes whole = {bytes, len};
    uint64_t sum = read_front(bytes, len);
    if (sum == 0) {
        return 0;
    }
    sum = with_texts(sum, whole, notes, &lists.notes_len, readings_log_next_notes);
    sum = with_readings(sum, whole);
    sum = with_texts(sum, whole, frames, &lists.frames_len, readings_log_next_frames);
    sum = with_path(sum, whole);
    return with_texts(sum, whole, more, &lists.more_len, readings_log_next_more);
}

static uint64_t read_totals(const uint8_t *bytes, size_t len) {
    gtv_bytes whole = {bytes, len};
    if (readings_totals_read(bytes, len, &totals) != GTV_OK) {
        return 0;
    }
    return with_states(with_last(with_sums(with_bytes(1, totals.by), whole), whole), whole);
}

static size_t write_reading(uint8_t *room, size_t room_len) {
    size_t len;
    return readings_reading_write(&reading, room, room_len, &len) == GTV_OK ? len : 0;
}

static size_t write_settings(uint8_t *room, size_t room_len) {
    size_t len;
    return readings_settings_write(&settings, room, room_len, &len) == GTV_OK ? len : 0;
}

static size_t write_sensor(uint8_t *room, size_t room_len) {
    size_t len;
    return readings_sensor_write(&sensor, room, room_len, &len) == GTV_OK ? len : 0;
}

static size_t write_visit(uint8_t *room, size_t room_len) {
    size_t len;
    return readings_visit_write(&visit, room, room_len, &len) == GTV_OK ? len : 0;
}

static size_t write_log(uint8_t *room, size_t room_len) {
    size_t len;
    return readings_log_write(&whole_log, &lists, room, room_len, &len) == GTV_OK ? len : 0;
}

static size_t write_totals(uint8_t *room, size_t room_len) {
    size_t len;
    return readings_totals_write(&totals, &maps, room, room_len, &len) == GTV_OK ? len : 0;
}

const message_work here_work[] = {
    {"reading", read_reading, write_reading},
    {"settings", read_settings, write_settings},
    {"sensor", read_sensor, write_sensor},
    {"visit", read_visit, write_visit},
    {"log", read_log, write_log},
    {"front", read_front, write_log},
    {"totals", read_totals, write_totals},
    {NULL, NULL, NULL},
};
