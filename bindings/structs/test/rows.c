/* Tries the library on the rows of rows/structs.tsv: with a page behind the bytes that no
 * program may touch, and a struct that held something else before. Each message is cut at each
 * place besides, of which is asked that a refusal leaves zero, and that all that is shown lies
 * in the bytes. What was read is written too: into room of just its size, before a page that no
 * program may touch, into all room that is smaller, and into room that is a byte greater; once
 * as it is, and once with the unknown fields of its bytes. So are structs of the program's own.
 * Says how many rows stood, and ends in 1 where one does not. */
#include "made.h"

/* ---- a call ---- */

typedef struct Row {
    char *name;
    int is_station;
    const gtv_limits *limits;
} Row;

/* How much of what is said is what the struct shows. */
static size_t zero_len;

/* Reads the bytes into a struct that held something else before, and says what it shows then, and
 * its tags; and writes it, where it was read. */
static uint32_t read_row(const Row *row) {
    station it;
    uint32_t status;
    memset(&it, 0xA5, sizeof it);
    report_sample *sample = &it.last;
    written[0] = 0;
    kept[0] = 0;
    said_len = 0;
    said[0] = 0;
    if (row->is_station) {
        status = row->limits ? station_read_within(bytes, bytes_len, row->limits, &it)
                             : station_read(bytes, bytes_len, &it);
        say_station(&it);
        zero_len = said_len;
        if ((say_tags() != it.tags_count || say_samples() != it.samples_count) &&
            status == GTV_OK) {
            say(" beside");
        }
        if (status == GTV_OK) {
            write_station(&it);
        }
    } else {
        status = row->limits ? report_sample_read_within(bytes, bytes_len, row->limits, sample)
                             : report_sample_read(bytes, bytes_len, sample);
        say_sample(sample);
        zero_len = said_len;
        if (status == GTV_OK) {
            write_with(sample, NULL, NULL);
        }
    }
    return status;
}

static const char *zero_of(const Row *row) {
    return row->is_station ? "name -, level 0, height absent, note absent, last absent, key -, "
                             "staffed 0, power none, tags 0, samples 0"
                           : "name -, value 0000000000000000, count absent";
}

static void astray(const Row *row, const char *what, const char *wanted) {
    printf("%s (%s): %s\n  wanted %s\n  found  %s\n", row->name,
           row->is_station ? "station" : "sample", what, wanted, said);
    fails++;
}

static void try_row(const Row *row, const uint8_t *message, size_t len, const char *wanted,
                    const char *encoding, const char *keeping) {
    for (size_t cut = 0; cut <= len; cut++) {
        bytes = memcpy(at_end(input, cut), message, cut);
        bytes_len = cut;
        uint32_t status = read_row(row);
        if (status != GTV_OK && strncmp(said, zero_of(row), zero_len) != 0) {
            astray(row, "a refusal leaves something", zero_of(row));
        }
        if (strstr(said, "outside") || strstr(said, "hidden") || strstr(said, "beside")) {
            astray(row, "it shows what is not there", "");
        }
        if (cut == len) {
            const char *answer = status == GTV_OK ? said : gtv_status_name(status);
            if (strcmp(answer, wanted) != 0) {
                astray(row, answer, wanted);
            }
            if (strcmp(written, encoding) != 0) {
                astray(row, written, encoding);
            }
            if (strcmp(kept, *keeping == 0 ? encoding : keeping) != 0) {
                astray(row, kept, keeping);
            }
        }
    }
}

/* ---- the rows ---- */

int main(int count, char **words) {
    FILE *file = count == 2 ? fopen(words[1], "r") : NULL;
    if (file == NULL) {
        fprintf(stderr, "usage: rows ROWS.tsv\n");
        return 2;
    }
    input = guarded(MOST_BYTES);
    output = guarded(MOST_BYTES);
    static char line[MOST_TEXT];
    int tried = 0;
    while (fgets(line, sizeof line, file) != NULL) {
        if (line[0] == '#') {
            continue;
        }
        char *parts[7];
        char *rest = line;
        line[strcspn(line, "\n")] = 0;
        for (int i = 0; i < 7; i++) {
            parts[i] = rest;
            rest += strcspn(rest, "\t");
            if (*rest != 0) {
                *rest++ = 0;
            }
        }
        gtv_limits limits;
        uint8_t message[MOST_BYTES];
        int named = sscanf(parts[3], "%" SCNu32 " %zu %zu", &limits.depth, &limits.records,
                           &limits.payload_bytes) == 3;
        Row row = {parts[0], strcmp(parts[1], "station") == 0, named ? &limits : NULL};
        try_row(&row, message, bytes_of(parts[2], message), parts[4], parts[5], parts[6]);
        tried++;
    }
    fclose(file);
    tried += try_made();
    tried += try_refused();
    printf("%d rows, %d astray\n", tried, fails);
    return fails == 0 ? 0 : 1;
}
