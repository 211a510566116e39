/* A report as a struct, by the library of crates/wire_report_structs_c. */
#include "report_work.h"

#include "report.h"

static report_report_sample samples[MOST_ELEMENTS];
static report_report_labels_entry labels[MOST_ELEMENTS];
static report_report_last_entry last[MOST_ELEMENTS];
static int32_t offsets[MOST_ELEMENTS];
static uint32_t ports[MOST_ELEMENTS];
static gtv_bytes notes[MOST_ELEMENTS];

/* Reads the elements of a list of messages, and says whether there is room for all. */
#define READ_EACH(next, read, list)                                                                \
    do {                                                                                           \
        gtv_bytes walk = {bytes, len}, element;                                                    \
        while (next(&walk, &element) == GTV_OK) {                                                  \
            if (lists->list##_len == MOST_ELEMENTS ||                                              \
                read(element.data, element.len, &list[lists->list##_len++]) != GTV_OK) {           \
                return false;                                                                      \
            }                                                                                      \
        }                                                                                          \
    } while (0)

/* The same of numbers, and of strings. */
#define TAKE_EACH(walk, next, list)                                                                \
    while (lists->list##_len < MOST_ELEMENTS &&                                                    \
           next(&walk, &list[lists->list##_len]) == GTV_OK) {                                      \
        lists->list##_len++;                                                                       \
    }

static bool read_lists(const uint8_t *bytes, size_t len, report_report_lists *lists) {
    gtv_numbers of_offsets = {{bytes, len}, {NULL, 0}}, of_ports = of_offsets;
    gtv_bytes of_notes = {bytes, len};
    READ_EACH(report_report_next_samples, report_report_sample_read, samples);
    READ_EACH(report_report_next_labels, report_report_labels_entry_read, labels);
    READ_EACH(report_report_next_last, report_report_last_entry_read, last);
    TAKE_EACH(of_offsets, report_report_next_offsets, offsets);
    TAKE_EACH(of_ports, report_report_next_ports, ports);
    TAKE_EACH(of_notes, report_report_next_notes, notes);
    return true;
}

size_t report_again(const uint8_t *bytes, size_t len, uint8_t *room, size_t room_len) {
    report_report it;
    report_report_lists lists = {samples, 0, labels, 0, last, 0, offsets, 0, ports, 0, notes, 0};
    if (report_report_read(bytes, len, &it) != GTV_OK || !read_lists(bytes, len, &lists)) {
        return 0;
    }
    size_t written = 0;
    return report_report_write(&it, &lists, room, room_len, &written) == GTV_OK ? written : 0;
}
