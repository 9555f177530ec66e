/* Clewcringle: a small 8-bit network over one picture, kept up to date row by row.
 *
 * Every call finishes on every input and checks network, sums, work area and state itself. It answers 0 (done) or a
 * refusal number. A refused call changes no lent byte, sum or state number, and its count or sizes are 0; a refused
 * load sets the all-stale state, which no other call takes.
 *
 *   1  a record is cut, its mark unknown, a spare not 0, or bytes follow the last layer
 *   2  a field or bias outside its range
 *   3  file too long, kernel too big, shapes of an add differ, tensor j not there yet, a tensor or all tensors too big
 *   4  sum store or area shorter than needed (longer is allowed; the rest stays)
 *   5  a band not 0,0 for a tensor that the network lacks; first > end; end > rows; empty but not 0,0
 *   6  a stored sum above 255N
 *   7  layer number not 1..n; no rows, or rows beyond the picture; rows or reading slice of the wrong length
 *   8  a reading while any band is not empty
 *   9  replacement differs in length, or in bytes 0-6 (convolution), 0-3 (full), 0-2 (add); or has a field, bias or
 *      spare out of range
 *
 * N is the number of terms of an output, which is the number of bytes in a window: kernel rows x kernel columns x input
 * channels for a convolution, all bytes of the input tensor for a full layer.
 *
 * Sizes gives 1 to 3, load 1 to 4, update 1 to 6, change rows 1 to 7, read 1 to 8, replace 1 to 7 and 9. Where several
 * are due, the first in this order is given. Only 1 to 3 go by the file's order: its length is tested first, then the
 * records in order, and the first fault met decides: mark and fixed part present, spare, fields in file order, shape,
 * biases and weights present, biases in order. Trailing bytes come last.
 *
 * Buffers, all the caller's:
 *   net    the network file, at most 65,536 bytes
 *   sums   a number for each filter and output of the network; sums_len counts numbers, not bytes
 *   area   the tensors one after another, the picture first
 *   state  first and end of the band of tensor 0, then of tensor 1, .. of tensor 16: 34 numbers
 * How large they must be clew_sizes says; 4,096 sums and 65,536 bytes of area are always enough. Pass the same buffers
 * and the latest state to each call, and change nothing else in between. (Only before the first update the picture may
 * also be written straight to the front of the area.) Then every reading is that of a fresh run.
 *
 * Lengths, row and layer numbers have 64 bits on every machine, so that this header serves all: a size_t is passed as it
 * is. A buffer of length 0 may be NULL, as the sums of a network of adds alone; state, count and sizes are never NULL.
 * sums, count and sizes are aligned as uint32_t, state as uint16_t; bytes may stand anywhere. A buffer that a call may
 * write (one without const) overlaps no other buffer of that call; those that it only reads may overlap.
 */
#ifndef CLEW_H
#define CLEW_H

#include <stdint.h>

#ifdef __cplusplus
extern "C" {
#endif

/* How large the network's buffers must be, and no larger: bytes of the picture, numbers in the sum store, bytes of the
 * area (the picture's among them), bytes of a reading. All four are 0 where it refuses. */
uint8_t clew_sizes(const uint8_t *net, uint64_t net_len, uint32_t sizes[4]);

/* Fills the sums and makes every row of every tensor stale. The area is only measured, and the state only written: it
 * may hold anything before. */
uint8_t clew_load(const uint8_t *net, uint64_t net_len, uint32_t *sums, uint64_t sums_len, const uint8_t *area,
                  uint64_t area_len, uint16_t state[34]);

/* Writes the picture's rows first up to first + count, of columns x channels bytes each. */
uint8_t clew_change_rows(const uint8_t *net, uint64_t net_len, const uint32_t *sums, uint64_t sums_len, uint8_t *area,
                         uint64_t area_len, uint16_t state[34], uint64_t first, uint64_t count, const uint8_t *rows,
                         uint64_t rows_len);

/* Writes a record over that of a layer, counted from 1, and its sums. */
uint8_t clew_replace_layer(uint8_t *net, uint64_t net_len, uint32_t *sums, uint64_t sums_len, const uint8_t *area,
                           uint64_t area_len, uint16_t state[34], uint64_t layer, const uint8_t *record,
                           uint64_t record_len);

/* Recomputes what the stale rows reach, and nothing else; *count is the number of bytes recomputed, 0 where it
 * refuses. */
uint8_t clew_update(const uint8_t *net, uint64_t net_len, const uint32_t *sums, uint64_t sums_len, uint8_t *area,
                    uint64_t area_len, uint16_t state[34], uint32_t *count);

/* Copies the last tensor; out_len must be its length. */
uint8_t clew_read(const uint8_t *net, uint64_t net_len, const uint32_t *sums, uint64_t sums_len, const uint8_t *area,
                  uint64_t area_len, const uint16_t state[34], uint8_t *out, uint64_t out_len);

#ifdef __cplusplus
}
#endif

#endif
