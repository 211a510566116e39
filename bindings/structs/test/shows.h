/* What a struct shows, as a text. */
#ifndef SHOWS_H
#define SHOWS_H

#include "guarded.h"
#include "station.h"

#include <inttypes.h>
#include <stdarg.h>
#include <string.h>

enum { MOST_BYTES = 4096, MOST_TEXT = 1 << 14 };

/* ---- a text that grows ---- */

static char said[MOST_TEXT];
static size_t said_len;

static void say(const char *form, ...) __attribute__((format(printf, 1, 2)));
static void say(const char *form, ...) {
    va_list more;
    va_start(more, form);
    said_len += (size_t)vsnprintf(said + said_len, MOST_TEXT - said_len, form, more);
    va_end(more);
}

/* ---- what a struct shows ---- */

static Guarded input;
static const uint8_t *bytes;
static size_t bytes_len;
static int fails;

static void say_bytes(gtv_bytes some) {
    if (some.len == 0) {
        say("-");
        return;
    }
    if (some.data < bytes || some.data + some.len > bytes + bytes_len) {
        say("outside");
        return;
    }
    for (size_t i = 0; i < some.len; i++) {
        say("%02x", some.data[i]);
    }
}

static void say_sample(const report_sample *it) {
    uint64_t bits;
    memcpy(&bits, &it->value, sizeof bits);
    say("name ");
    say_bytes(it->name);
    say(", value %016" PRIx64 ", count ", bits);
    if (it->has_count) {
        say("%" PRId64, it->count);
    } else {
        say(it->count == 0 ? "absent" : "hidden");
    }
}

static void say_inside(const report_sample *it) {
    say("{");
    say_sample(it);
    say("}");
}

/* Whether a struct is zero, by what it shows. */
static int is_no_sample(const report_sample *it) {
    size_t before = said_len;
    say_sample(it);
    int same = strcmp(said + before, "name -, value 0000000000000000, count absent") == 0;
    said_len = before;
    said[said_len] = 0;
    return same;
}

static void say_power(const station_power *it) {
    uint32_t bits;
    memcpy(&bits, &it->volts, sizeof bits);
    int others = (it->which != STATION_POWER_VOLTS && bits != 0) +
                 (it->which != STATION_POWER_GRID && it->grid.len != 0) +
                 (it->which != STATION_POWER_BACKUP && !is_no_sample(&it->backup));
    if (it->which == STATION_POWER_VOLTS) {
        say("8 %08" PRIx32, bits);
    } else if (it->which == STATION_POWER_GRID) {
        say("9 ");
        say_bytes(it->grid);
    } else if (it->which == STATION_POWER_BACKUP) {
        say("10 ");
        say_inside(&it->backup);
    } else {
        say(it->which == STATION_POWER_NONE ? "none" : "unknown");
    }
    say(others == 0 ? "" : " beside others");
}

static void say_station(const station *it) {
    say("name ");
    say_bytes(it->name);
    say(", level %" PRId32 ", height ", it->level);
    if (it->has_height) {
        say("%" PRId32, it->height);
    } else {
        say(it->height == 0 ? "absent" : "hidden");
    }
    say(", note ");
    if (it->has_note) {
        say_bytes(it->note);
    } else {
        say(it->note.len == 0 ? "absent" : "hidden");
    }
    say(", last ");
    if (it->has_last) {
        say_inside(&it->last);
    } else {
        say(is_no_sample(&it->last) ? "absent" : "hidden");
    }
    say(", key ");
    say_bytes(it->key);
    say(", staffed %d, power ", it->staffed);
    say_power(&it->power);
    say(", tags %" PRIu64 ", samples %" PRIu64, it->tags_count, it->samples_count);
}

/* Says the tags, as many as are given: at most as many as there are bytes. At the end, and at a
 * fault, the next call answers the same. */
static size_t say_tags(void) {
    gtv_bytes walk = {bytes, bytes_len};
    gtv_bytes tag;
    uint32_t status;
    size_t given = 0;
    while ((status = station_next_tag(&walk, &tag)) == GTV_OK && given++ < bytes_len) {
        say(given == 1 ? " tags " : " ");
        say_bytes(tag);
    }
    if (station_next_tag(&walk, &tag) != status || tag.len != 0) {
        say(" beside");
    }
    if (status != GTV_END) {
        say(" %s", gtv_status_name(status));
    }
    return given;
}

/* The same of the samples, each as it is read from what is given. */
static size_t say_samples(void) {
    gtv_bytes walk = {bytes, bytes_len};
    gtv_bytes one;
    uint32_t status;
    size_t given = 0;
    while ((status = station_next_sample(&walk, &one)) == GTV_OK && given++ < bytes_len) {
        report_sample sample;
        uint32_t read = report_sample_read(one.data, one.len, &sample);
        say(given == 1 ? " samples " : " ");
        if (read == GTV_OK) {
            say_inside(&sample);
        } else {
            say("%s", gtv_status_name(read));
        }
    }
    if (station_next_sample(&walk, &one) != status || one.len != 0) {
        say(" beside");
    }
    if (status != GTV_END) {
        say(" %s", gtv_status_name(status));
    }
    return given;
}

#endif
