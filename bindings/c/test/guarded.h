/* Memory between pages that no program may touch. */
#include <stddef.h>
#include <stdint.h>
#include <stdio.h>
#include <stdlib.h>
#include <sys/mman.h>
#include <unistd.h>

typedef struct Guarded {
    uint8_t *first; /* the first byte that may be touched, behind a page */
    size_t room;    /* how many there are, before another */
} Guarded;

static Guarded guarded(size_t room) {
    size_t page = (size_t)sysconf(_SC_PAGESIZE);
    Guarded it = {NULL, (room + page - 1) / page * page};
    uint8_t *all = mmap(NULL, it.room + 2 * page, PROT_NONE, MAP_PRIVATE | MAP_ANONYMOUS, -1, 0);
    if (all == MAP_FAILED || mprotect(all + page, it.room, PROT_READ | PROT_WRITE) != 0) {
        perror("mmap");
        exit(2);
    }
    it.first = all + page;
    return it;
}

/* So many bytes that end before a page, or begin behind one. */
static uint8_t *at_end(Guarded it, size_t len) { return it.first + it.room - len; }
