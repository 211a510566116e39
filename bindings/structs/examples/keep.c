/* Reads a sample, sets its count, and writes it with the field that its schema lacks. */
#include "station.h"

#include <stdio.h>

int main(void) {
    static const uint8_t bytes[] = {0x20, 1, 0x0A, 3, 'A', 'd', 'a', 0x18, 7};
    report_sample sample;
    uint8_t room[64];
    size_t len;
    if (report_sample_read(bytes, sizeof bytes, &sample) != GTV_OK) {
        return 1;
    }
    sample.has_count = true;
    sample.count = 8;
    if (report_sample_write_keeping(&sample, bytes, sizeof bytes, room, sizeof room, &len) !=
        GTV_OK) {
        return 1;
    }
    for (size_t i = 0; i < len; i++) {
        printf(i == 0 ? "%02X" : " %02X", room[i]);
    }
    putchar('\n');
    return 0;
}
