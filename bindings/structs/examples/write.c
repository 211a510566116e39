/* Writes a sample into room of its own, and shows the bytes. */
#include "station.h"

#include <stdio.h>

int main(void) {
    static const uint8_t name[] = {'A', 'd', 'a'};
    report_sample sample = {{name, sizeof name}, 0, true, 7};
    uint8_t room[64];
    size_t len;
    if (report_sample_write(&sample, room, sizeof room, &len) != GTV_OK) {
        fprintf(stderr, "%zu bytes want more room\n", len);
        return 1;
    }
    for (size_t i = 0; i < len; i++) {
        printf(i == 0 ? "%02X" : " %02X", room[i]);
    }
    putchar('\n');
    return 0;
}
