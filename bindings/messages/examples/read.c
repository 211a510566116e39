/* Reads a reading of a few bytes, sets its offset, and writes it. */
#include "readings.h"

#include <stdio.h>

int main(void) {
    static const uint8_t bytes[] = {0x0A, 3, 'r', 'o', 'f', 0x18, 4, 0x20, 7};
    readings_reading it;
    uint8_t room[64];
    size_t len, place;
    uint32_t status = readings_reading_read(bytes, sizeof bytes, &it);
    if (status != GTV_OK) {
        readings_reading_fault(bytes, sizeof bytes, &place);
        fprintf(stderr, "no reading, at byte %zu: %s\n", place, gtv_status_text(status));
        return 1;
    }
    printf("%.*s: %s\n", (int)it.sensor.len, (const char *)it.sensor.data,
           it.state == READINGS_STATE_BROKEN ? "broken" : "not broken");
    it.has_offset = true;
    it.offset = -1;
    if (readings_reading_write(&it, room, sizeof room, &len) != GTV_OK) {
        return 1;
    }
    for (size_t i = 0; i < len; i++) {
        printf("%02X%c", room[i], i + 1 < len ? ' ' : '\n');
    }
    return 0;
}
