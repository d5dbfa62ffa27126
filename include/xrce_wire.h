/*
 * The C interface of the wire: a datagram and its strings read, a message written, fragments cut and put together.
 *
 * Every function answers for every argument, and keeps nothing between calls. What can't be done is refused with a number, and a refused
 * call changes nothing of what was lent to it:
 *
 *    1  bytes missing, no submessage         9  over 65,535 fragments
 *    2  id not listed (byte given)          10  fragment number not below total
 *    3  object kind (byte given)            11  fragments missing
 *    4  status code (byte given)            12  payload over 65,535 bytes
 *    5  payload under least length          13  lent output shorter than the result
 *    7  fragment size 0                     14  body over its slot
 *    8  payload to cut is empty             16  lent store or row under its need, or a number in it over its range
 *                                           18  ill-formed UTF-8
 *
 * A slice is a pointer and a number of elements. A pointer is never null, not even with 0 elements, and a slice that a function may
 * write shares no byte with another of the same call.
 */
#ifndef XRCE_WIRE_H
#define XRCE_WIRE_H

#include <stddef.h>
#include <stdint.h>

#ifdef __cplusplus
extern "C" {
#endif

/* Of an answer: the refusal (0: none), its byte (with 2, 3 and 4), and the number that comes with "none". (It is
 * taken modulo 2^48; what it counts lies in memory, where no machine has so many bytes.) */
static inline unsigned xrce_wire_refused(uint64_t answer) { return (unsigned)(answer % 256); }
static inline unsigned xrce_wire_byte(uint64_t answer) { return (unsigned)(answer / 256 % 256); }
static inline uint64_t xrce_wire_number(uint64_t answer) { return answer / 65536; }

/*
 * A submessage as eight numbers. A number that the kind has no field for is 0 when read, and not looked at when written.
 *
 *   kind           [0]   [1]     [2]         [3]     variable part: [4] its place in the datagram, [5] its length
 *   CREATE_CLIENT  0x00  key     properties          none: the place behind the payload, 0
 *   CREATE         0x01  object  kind        parent  the strings
 *   DELETE         0x02  object                      none
 *   STATUS         0x05  object  code                none
 *   WRITE_DATA     0x07  writer                      the data
 *   READ_DATA      0x08  reader  samples             none
 *   DATA           0x09  reader                      the data
 *   HEARTBEAT      0x0D          first       last    none
 *   ACKNACK        0x0E          first       bitmap  none
 *   FRAGMENT       0x0F          number      total   the body
 *
 * [6] is the place of the submessage's header in the datagram, and [7] is 0. The submessage ends at [4] + [5]. The key is one number of
 * four bytes, low byte first.
 */
enum { XRCE_WIRE_ROW = 8, XRCE_WIRE_STORE = 3 };
typedef uint64_t xrce_wire_row[XRCE_WIRE_ROW];

/* The header of a datagram: session + 256 * stream + 65536 * sequence is the answer's number. Refused: 1. */
uint64_t xrce_wire_header(const uint8_t *datagram, size_t datagram_len);

/* Checks the whole datagram and writes a row for each submessage, in order; the answer's number is how many. Rows behind them stay.
 * Refused: 1 to 5, then 13 if there are fewer rows than submessages. */
uint64_t xrce_wire_parse(const uint8_t *datagram, size_t datagram_len, xrce_wire_row *rows, size_t row_count);

/* The string at `at`, a length of two bytes and its bytes, which begin at `at` + 2: the answer's number is how many. So the name of a Topic is read
 * at the start of the variable part of its CREATE, and the type behind the name's bytes.
 * Refused: 1 where length or bytes are cut short, then 18 where the bytes are not well-formed UTF-8 (RFC 3629). */
uint64_t xrce_wire_string(const uint8_t *bytes, size_t bytes_len, size_t at);

/* Writes a message of a header and one submessage at the start of the output; the answer's number is its bytes. Of the row the first
 * four numbers are looked at; the body is the variable part, and a kind that has none carries nothing of it.
 * Refused: 16 (a row under eight numbers, an id over a byte), 2, 16 (a number over its field), 3 or 4, 12, 13. */
uint64_t xrce_wire_write(uint8_t *out, size_t room, uint8_t session, uint8_t stream, uint16_t sequence, const uint64_t *row,
                         size_t row_words, const uint8_t *body, size_t body_len);

/* How many fragments with bodies of up to `size` bytes a payload is cut into: the answer's number. Refused: 7, 8, 9. */
uint64_t xrce_wire_fragments(const uint8_t *payload, size_t payload_len, uint64_t size);

/* Writes the fragment of that number, from 0 on, at the start of the output; the answer's number is its bytes: number (2), total (2),
 * body. Refused: 7, 8, 9, 10, 13. */
uint64_t xrce_wire_fragment(const uint8_t *payload, size_t payload_len, uint64_t size, uint16_t number, uint8_t *out, size_t room);

/*
 * A store of fragments is three numbers (total, received, width), `total` slots of `width` bytes one behind the other, and an entry for
 * each slot, all lent with each call and kept by the host between calls. An entry is 0 while its slot is free, and 1 more than its body's
 * length while it holds one.
 */

/* An empty store over the slots and entries lent. Refused: 16. */
uint64_t xrce_wire_store(uint64_t *store, size_t store_words, uint16_t total, uint16_t width, const uint8_t *slots, size_t slot_bytes,
                         uint32_t *lengths, size_t length_count);

/* Keeps a fragment's body, in place of one of that number; the answer's number is 1 if every fragment is there then, else 0.
 * Refused: 16 (a number of the store over 65,535 too), 10, 14. */
uint64_t xrce_wire_insert(uint64_t *store, size_t store_words, uint8_t *slots, size_t slot_bytes, uint32_t *lengths, size_t length_count,
                          uint16_t number, const uint8_t *body, size_t body_len);

/* Writes the bodies in order at the start of the output; the answer's number is their bytes. Refused: 16, 11, 13. */
uint64_t xrce_wire_assemble(const uint64_t *store, size_t store_words, const uint8_t *slots, size_t slot_bytes, const uint32_t *lengths,
                            size_t length_count, uint8_t *out, size_t room);

#ifdef __cplusplus
}
#endif
#endif
