/* Reads a report of report.proto from standard input and writes it again, by the worker that it is
 * linked with: one of report_here.c, report_nanopb.c and report_none.c. */
#include "report_work.h"

#include <stdio.h>

int main(void) {
    static uint8_t bytes[4096], room[4096];
    const size_t len = fread(bytes, 1, sizeof bytes, stdin);
    const size_t written = report_again(bytes, len, room, sizeof room);
    return fwrite(room, 1, written, stdout) == written && written > 0 ? 0 : 1;
}
