/* No work: the bytes as they are, so that the size of the rest of the program is known. */
#include "report_work.h"

#include <string.h>

size_t report_again(const uint8_t *bytes, size_t len, uint8_t *room, size_t room_len) {
    if (len > room_len) {
        return 0;
    }
    memcpy(room, bytes, len);
    return len;
}
