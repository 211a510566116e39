/* Reads or writes a message so many times: readings WORK MESSAGE FILE WORKER ROUNDS. Says how many
 * bytes the message in the file has, and the sum of what was read or how many were written. */
#include "readings_work.h"

#include <stdio.h>
#include <stdlib.h>

static const struct {
    const char *name;
    const message_work *messages;
} workers[] = {{"here", here_work}, {"cpp", cpp_work}, {"nanopb", nanopb_work}};

static const message_work *work_on(const char *message, const char *worker) {
    for (size_t i = 0; i < sizeof workers / sizeof *workers; i++) {
        if (strcmp(workers[i].name, worker) == 0) {
            const message_work *work = workers[i].messages;
            while (work->message != NULL && strcmp(work->message, message) != 0) {
                work++;
            }
            return work->message != NULL ? work : NULL;
        }
    }
    return NULL;
}

int main(int count, char **words) {
    uint8_t bytes[1024], room[1024];
    const message_work *work = count == 6 ? work_on(words[2], words[4]) : NULL;
    FILE *file = work != NULL ? fopen(words[3], "rb") : NULL;
    if (file == NULL) {
        fprintf(stderr, "usage: readings WORK MESSAGE FILE WORKER ROUNDS\n");
        return 2;
    }
    const size_t len = fread(bytes, 1, sizeof bytes, file);
    fclose(file);
    const int writes = strcmp(words[1], "write") == 0;
    uint64_t result = work->read(bytes, len);
    for (int round = atoi(words[5]); round > 0; round--) {
        result = writes ? work->write(room, sizeof room) : work->read(bytes, len);
    }
    if (result == 0 || (writes && (result != len || memcmp(room, bytes, len) != 0))) {
        fprintf(stderr, "%s is refused, or written as other bytes\n", words[2]);
        return 1;
    }
    printf("%zu bytes: %llu\n", len, (unsigned long long)result);
    return 0;
}
