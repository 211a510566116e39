// Reads a reading of a few bytes, as C++ from 17 on sees it.
#include "readings.h"

#include <cstdio>
#include <optional>
#include <string_view>

int main() {
    static const uint8_t bytes[] = {0x0A, 3, 'r', 'o', 'f', 0x18, 4, 0x20, 7};
    readings_reading it;
    if (readings_reading_read(bytes, sizeof bytes, &it) != GTV_OK) {
        return 1;
    }
    std::string_view sensor = readings::sensor(it);
    std::optional<int64_t> offset = readings::offset(it);
    std::printf("%.*s: %d\n", static_cast<int>(sensor.size()), sensor.data(),
                static_cast<int>(offset.value_or(0)));
    return 0;
}
