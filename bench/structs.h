/* Work on a sample or a station: each reads it and sums up what it shows, or writes what was read
 * last, and says how many bytes that took. 0 where it is refused. */
#ifndef STRUCTS_H
#define STRUCTS_H

#include <stddef.h>
#include <stdint.h>

#ifdef __cplusplus
extern "C" {
#endif

uint64_t here_read(int is_station, const uint8_t *bytes, size_t len, int with_lists);
size_t here_write(int is_station, uint8_t *room, size_t room_len);
/* Writes it with the unknown fields of these bytes. */
size_t here_keep(int is_station, const uint8_t *bytes, size_t bytes_len, uint8_t *room,
                 size_t room_len);
uint64_t nanopb_read(int is_station, const uint8_t *bytes, size_t len);
size_t nanopb_write(int is_station, uint8_t *room, size_t room_len);

#ifdef __cplusplus
}
#endif

#endif
