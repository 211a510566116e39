/* A report as a struct of nanopb. */
#include "report_work.h"

#include "pb_decode.h"
#include "pb_encode.h"
#include "report.nanopb.h"

static report_Report report;

size_t report_again(const uint8_t *bytes, size_t len, uint8_t *room, size_t room_len) {
    pb_istream_t in = pb_istream_from_buffer(bytes, len);
    pb_ostream_t out = pb_ostream_from_buffer(room, room_len);
    if (!pb_decode(&in, report_Report_fields, &report)) {
        return 0;
    }
    return pb_encode(&out, report_Report_fields, &report) ? out.bytes_written : 0;
}
