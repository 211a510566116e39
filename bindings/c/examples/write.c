/* Writes a message with a name, a number and a group to standard output. */
#include "gettavil.h"

#include <stdio.h>
#include <string.h>

int main(void) {
    static const char name[] = "Ada";
    uint8_t room[64];
    gtv_writer writer = {0, 0};
    uint32_t status = gtv_put_bytes(&writer, room, sizeof room, 1, (const uint8_t *)name,
                                    strlen(name));
    if (status == GTV_OK) {
        status = gtv_put_varint(&writer, room, sizeof room, 2, 1815);
    }
    if (status == GTV_OK) {
        status = gtv_put_group_start(&writer, room, sizeof room, 3);
    }
    if (status == GTV_OK) {
        status = gtv_put_sint(&writer, room, sizeof room, 4, -42);
    }
    if (status == GTV_OK) {
        status = gtv_put_group_end(&writer, room, sizeof room, 3);
    }
    if (status != GTV_OK) {
        fprintf(stderr, "%s: %zu bytes wanted\n", gtv_status_name(status), writer.wanted);
        return 1;
    }
    return fwrite(room, 1, writer.place, stdout) == writer.place ? 0 : 1;
}
