/* Reads totals of a few bytes, and tells each of their sums; then writes others. */
#include "readings.h"

#include <inttypes.h>
#include <stdio.h>

static bool tell_sums(const uint8_t *bytes, size_t len) {
    readings_totals totals;
    if (readings_totals_read(bytes, len, &totals) != GTV_OK) {
        return false;
    }
    gtv_bytes walk = {bytes, len}, element;
    while (readings_totals_next_sums(&walk, &element) == GTV_OK) {
        readings_totals_sums_entry it;
        if (readings_totals_sums_entry_read(element.data, element.len, &it) != GTV_OK) {
            return false;
        }
        printf("%.*s: %" PRId32 "\n", (int)it.key.len, (const char *)it.key.data, it.value);
    }
    return true;
}

int main(void) {
    static const uint8_t bytes[] = {0x0A, 7, 0x0A, 3, 'r', 'o', 'f', 0x10, 5,
                                    0x0A, 6, 0x0A, 2, 'u', 'p', 0x10, 9};
    if (!tell_sums(bytes, sizeof bytes)) {
        return 1;
    }
    const readings_totals_sums_entry sums[] = {{{(const uint8_t *)"up", 2}, 10}};
    const readings_totals totals = {0};
    readings_totals_lists lists = {0};
    uint8_t room[64];
    size_t len;
    lists.sums = sums;
    lists.sums_len = 1;
    if (readings_totals_write(&totals, &lists, room, sizeof room, &len) != GTV_OK) {
        return 1;
    }
    return tell_sums(room, len) ? 0 : 1;
}
