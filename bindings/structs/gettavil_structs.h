/* What the headers of messages as structs share. The header of a schema includes it.
 *
 * A struct is of fixed size and owns nothing: strings and `bytes` are pointers into the bytes that
 * were read, so these have to live and stay as they are for as long as the struct is used. Each
 * call is proved: for all bytes, and whatever the struct held before, it ends, reads only what it
 * is handed, writes only the struct, or the place, or the room and the length, or the walk and the
 * element or number, that it is handed, asks for no memory and keeps no state, so calls on structs
 * of their own may run at once. What stands on trust: that a header is that of its library, the C
 * compiler, and that a caller hands in what these conditions say:
 *
 * - a pointer to a struct, to limits, to a length or a place, to a walk, to an element or to a
 *   number is not null and is aligned, and what a call sets overlaps nothing else that it is
 *   handed;
 * - `bytes` points to `len` bytes that nothing writes during the call; where `len` is 0 it may be
 *   any pointer, NULL too; so does each part of a walk;
 * - so does each string and `bytes` of a struct that is written, each list beside it to as many
 *   elements, aligned, and `room` to `room_len` bytes; and each `bool` of these is true or false.
 *
 * A struct that is to be written is one that was read, or one of the program's own, of which all
 * is zero that it does not set. It is written as it stands: of a field whose flag is false, and of
 * those of a oneof that do not stand, nothing; of a oneof whose number is that of no field of it,
 * nothing; and a string without a look whether it is UTF-8, which a reader then refuses. So do
 * others with a message of more than 2,147,483,647 bytes, and this one with such a message inside.
 *
 * How a field of a message stands in its struct:
 *
 * - a number as itself, an enum as its number, also one that the schema does not know;
 * - a string or `bytes` as `gtv_bytes`; a string is UTF-8, and no zero byte is put behind it;
 * - a message inside as its struct, with `has_NAME` before it: where that is false, it is zero;
 * - an optional number, string or `bytes` with `has_NAME` before it, as well;
 * - a oneof as a struct with `which`, the number of the field that stands, or 0, and all of its
 *   fields, of which the others are zero;
 * - of a list, how many there are, in `NAME_count`; `MESSAGE_next_NAME` gives them, from the same
 *   bytes;
 * - a map as a list of its entries, each a message with `key` and `value`, as they came: of several
 *   of one key the last stands for all;
 * - a message that the schema's parameters hold as bytes as those of its encoding, which are not
 *   looked at; the call of its own reads them, within limits of its own;
 * - where nothing of a message is read in place, a member `no_bytes`, which is of no bytes;
 * - fields that the schema lacks are passed over; `MESSAGE_write_keeping` takes them from the bytes
 *   that were read, but for those of messages inside, which are not kept.
 *
 * A struct is zero where each number in it is 0, each flag is false, and each string is of no
 * bytes; `data` of no bytes is some pointer, and is not to be followed. */
#ifndef GETTAVIL_STRUCTS_H
#define GETTAVIL_STRUCTS_H

#include "gettavil.h"

#include <stdbool.h>

#ifdef __cplusplus
extern "C" {
#endif

/* Some of the bytes that were read, or what is left of them. */
typedef struct gtv_bytes {
    const uint8_t *data;
    size_t len;
} gtv_bytes;

/* What is left of a list of numbers: of the bytes that were read, and in front of it what is left
 * of a payload that has many of them. A walk begins with the bytes and no payload. */
typedef struct gtv_numbers {
    gtv_bytes bytes;
    gtv_bytes payload;
} gtv_numbers;

#ifdef __cplusplus
}
#endif

/* The layout that the libraries were compiled for: 64 bits. */
#if defined(__cplusplus)
#define GTV_LAYOUT(name, claim) static_assert(claim, #name)
#elif defined(__STDC_VERSION__) && __STDC_VERSION__ >= 201112L
#define GTV_LAYOUT(name, claim) _Static_assert(claim, #name)
#else
#define GTV_LAYOUT(name, claim) typedef char gtv_layout_##name[(claim) ? 1 : -1]
#endif

GTV_LAYOUT(size_of_bool, sizeof(bool) == 1);
GTV_LAYOUT(size_of_double, sizeof(double) == 8);
GTV_LAYOUT(size_of_float, sizeof(float) == 4);
GTV_LAYOUT(size_of_bytes, sizeof(gtv_bytes) == 16);
GTV_LAYOUT(bytes_len, offsetof(gtv_bytes, len) == 8);
GTV_LAYOUT(size_of_numbers, sizeof(gtv_numbers) == 32);
GTV_LAYOUT(numbers_payload, offsetof(gtv_numbers, payload) == 16);

#if defined(__cplusplus) && __cplusplus >= 201703L
#include <string_view>

/* The same bytes as C++ has them. */
inline std::string_view gtv_view(gtv_bytes bytes) {
    return std::string_view(reinterpret_cast<const char *>(bytes.data), bytes.len);
}
#endif

#endif
