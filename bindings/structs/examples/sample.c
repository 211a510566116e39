/* Reads a sample from a few bytes, and tells of it. */
#include "station.h"

#include <stdio.h>

int main(void) {
    static const uint8_t bytes[] = {0x0A, 3, 'A', 'd', 'a', 0x18, 7};
    report_sample sample;
    uint32_t status = report_sample_read(bytes, sizeof bytes, &sample);
    if (status != GTV_OK) {
        fprintf(stderr, "no sample: %s\n", gtv_status_text(status));
        return 1;
    }
    printf("%.*s: %lld\n", (int)sample.name.len, (const char *)sample.name.data,
           (long long)sample.count);
    return 0;
}
