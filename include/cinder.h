/*
 * Packets, lists and the hub for firmware: the readers of the display, the calls of the
 * hub, the writers, lists as text, settings, and lines as they arrive. Link with libcinder.a.
 *
 * Every call answers for every content of its areas. The caller answers for one thing:
 * each area is there, is as long as its length says, and, if the call writes to it,
 * shares no byte with another area of the same call. A pointer with length 0 may be null.
 * No call keeps a pointer.
 *
 * Numbers in areas are low byte first. The calls use no heap and need nothing but
 * memcpy, memmove, memset and strlen.
 */
#ifndef CINDER_H
#define CINDER_H

#include <stddef.h>
#include <stdint.h>

#ifdef __cplusplus
extern "C" {
#endif

/* The least length of a packet area. */
#define CINDER_PACKET_ROOM 257

typedef struct {
    uint64_t error, consumed;
} cinder_packet_result;

/*
 * Reads the packet at the front of `bytes`; later bytes are ignored.
 *
 * On success error is 0 and consumed is the size of the packet (its length byte + 2).
 * The message (type, payload length, payload, checksum) stands at the front of
 * `message`: consumed - 3 bytes. Nothing behind it has changed.
 *
 * On an error consumed is 0, `message` is as it was, and error is the first of these,
 * in this order:
 *
 *   20  message_len is below CINDER_PACKET_ROOM
 *    1  no bytes
 *    2  the first byte is not 00
 *    1  one byte only
 *    3  the length byte is below 4
 *    4  a 00 among the encoded bytes present
 *    1  the packet is not all there yet
 *    5  a block passes the end
 *    6  the payload length differs from the message length less 3
 *    7  the checksum differs
 *    8  the type is unknown, or does not allow that payload length
 */
cinder_packet_result cinder_packet_decode(const uint8_t *bytes, size_t bytes_len, uint8_t *message, size_t message_len);

/* The least lengths of the areas that a list is read into. */
#define CINDER_ROWS_ROOM 12288
#define CINDER_STORE_ROOM 4096

typedef struct {
    uint64_t error, consumed, rows, offset, stored, depth;
} cinder_list_result;

/*
 * Reads the list at the front of `bytes`; later bytes are ignored.
 *
 * On success error, offset and depth are 0, consumed is the size of the list in bytes, rows
 * is the number of its rows and stored the number of store bytes in use. The rows stand at
 * the front of `rows`: 12 bytes each, three numbers of 32 bits, in the order of the list's
 * bytes, so a list before its elements and all of an element before the next:
 *
 *   list    256, number of elements, 0
 *   int       1, bits, 0
 *   vocab     9, bits, 0
 *   float    10, low half, high half
 *   string    4, offset in the store, length without the closing zero
 *   blob     12, offset in the store, length
 *
 * The strings and blobs stand at the front of `store`, back to back in row order: stored
 * bytes. Nothing behind the rows or behind the last byte stored has changed. The rows and
 * the store bytes in use are what cinder_list_encode asks to write the list again.
 *
 * On an error consumed, rows and stored are 0 and both areas are as they were. Error is
 * 20 at offset 0 or else the first fault from the front, offset is where the item at fault
 * begins, and depth is the number of lists that are open at the fault:
 *
 *   20  rows_len is below CINDER_ROWS_ROOM, or store_len is below CINDER_STORE_ROOM
 *
 * Items are codes, counts, fixed elements, lengths, and the bytes of a string or a blob.
 * Every item is judged for these, in this order, and then for its own fault:
 *
 *   28  the item would end beyond 4,096 bytes of the list
 *   21  the bytes end inside the item
 *
 *   22  the code of the outermost list is not a list code
 *   26  the code of an element is unknown
 *   27  the code of a list that is nested deeper than 8
 *   23  a count below 0
 *   25  a string length below 1, a blob length below 0, or string bytes whose last is
 *       not 0 or that have a 0 before it
 *   24  a typed list of 0 elements, judged at its count, or a 256 list of at least one
 *       element, all of one kind other than list, judged after the last; the offset is
 *       that of the list's code
 *
 * A list is open from its count to the end of its last element. So depth is 0 for 20 and at
 * the outermost code, 1 at the outermost count, and 8 for 27. For 24 it is the depth of the
 * list at fault, 1 for the outermost, whenever that is judged.
 */
cinder_list_result cinder_list_decode(const uint8_t *bytes, size_t bytes_len, uint8_t *rows, size_t rows_len, uint8_t *store, size_t store_len);

/*
 * Reads the list that begins at `offset` of `bytes`, a stream of lists end to end. A first
 * call has offset 0; each later one adds what the last consumed.
 *
 * On success the answer and both areas are as cinder_list_decode has them for the bytes
 * from `offset` on.
 *
 * At the end of the stream, where offset is bytes_len, all six numbers are 0 and both
 * areas are as they were. No other answer has error 0 and consumed 0. Only error 20 is
 * judged before the end.
 *
 * On an error consumed, rows and stored are 0 and both areas are as they were. Error is
 * the first of these, in this order:
 *
 *   20  rows_len is below CINDER_ROWS_ROOM, or store_len is below CINDER_STORE_ROOM; its
 *       offset and depth are 0
 *   21  offset is above bytes_len; its offset is that offset, and its depth is 0
 *
 * or the error and the depth of cinder_list_decode for the bytes from `offset` on, its offset
 * counted from the front of `bytes`.
 */
cinder_list_result cinder_stream_next(const uint8_t *bytes, size_t bytes_len, uint64_t offset, uint8_t *rows, size_t rows_len, uint8_t *store, size_t store_len);

/* The length of a table area: no other is a table. */
#define CINDER_TABLE_ROOM 688

/*
 * The hub's table is an area of the caller's, which the calls below read and change. It
 * has four rows of 172 bytes back to back, one for each device that is seated:
 *
 *     0        1 if the row is taken, 0 if it is empty
 *     1        socket, 0 to 7
 *     2        device type
 *     3        year
 *     4 to 11  UID
 *    12 to 43  for each of 32 parameters, 1 if a value is held, else 0
 *    44 to 171 for each of 32 parameters, the 4 bytes of its value; a flag is 0 or 1,
 *             and an INT that came as two bytes is the same signed number in four
 *
 * All zeros is an empty row, and CINDER_TABLE_ROOM zeros are an empty table. A table is
 * lawful if it has that length, bytes that say yes or no are 0 or 1, empty rows and
 * values that are not held are zeros, sockets are 0 to 7, no two taken rows have the same
 * socket or the same UID, each device type is in the catalogue, and each held value is of
 * a readable parameter of that type, and 0 or 1 if it is a flag.
 *
 * The catalogue is an area that the calls only read: a count of device types, 0 to 32;
 * for each its number and its number of parameters, 0 to 32, the type numbers strictly
 * rising; the sum of the numbers of parameters in two bytes, low byte first; and a byte
 * for each parameter: 0 INT, 1 FLOAT or 2 BOOL, 4 added if it is readable and 8 if it is
 * writable. Nothing follows.
 *
 * Sockets and indices are whole numbers of 64 bits: 259 is socket 259, not socket 3.
 */

/*
 * Receives the packet at the front of `bytes` from a socket; later bytes are ignored.
 *
 * On success error is 0 and consumed is the size of the packet. An ACK has seated the
 * device with no values held, in the row of its socket or else in the first empty one.
 * DEVICE_DATA has replaced the values that its map names and no others. A LOG changes
 * nothing. No byte outside the row of the socket has changed.
 *
 * The payload of DEVICE_DATA is a map of 32 bits, low byte first, bit i for parameter i,
 * and behind it the values of the set bits, rising, with nothing between. An INT is a
 * signed number, low byte first, of two bytes if the year in the row of the socket is
 * below 6 and of four if it is not; a FLOAT has four bytes in every year, a BOOL one.
 * A second ACK with another year so changes what the packets behind it carry.
 *
 * On an error consumed is 0, `table` is as it was, and error is the first of these, in
 * this order:
 *
 *   11  the catalogue is not as above
 *    9  the table is not lawful
 *   10  socket is above 7
 *    1 to 8  as cinder_packet_decode gives them
 *   19  the packet is a PING or a DEVICE_WRITE
 *
 * for an ACK then
 *
 *   12  its device type is not in the catalogue
 *   14  its UID is seated at another socket
 *   13  the socket has no row, and all four are taken
 *
 * and for DEVICE_DATA
 *
 *   15  no device is seated at the socket
 *   16  a bit of the map has no readable parameter
 *   17  the values are longer or shorter than the map asks of a device of that year
 *   18  a flag is neither 0 nor 1
 */
cinder_packet_result cinder_hub_receive(const uint8_t *catalogue, size_t catalogue_len, uint8_t *table, size_t table_len, uint64_t socket, const uint8_t *bytes, size_t bytes_len);

/*
 * The device at a socket leaves: its row becomes zeros, and nothing else changes.
 *
 * Answers 0, or the error. On an error `table` is as it was; the error is the first of
 * these, in this order:
 *
 *   11  the catalogue is not as above
 *    9  the table is not lawful
 *   10  socket is above 7
 *   15  no device is seated at the socket
 */
uint64_t cinder_hub_detach(const uint8_t *catalogue, size_t catalogue_len, uint8_t *table, size_t table_len, uint64_t socket);

/* The least length of an area that a list is written to. */
#define CINDER_LIST_ROOM 4096

typedef struct {
    uint64_t error, written;
} cinder_write_result;

/*
 * Writes the table as one list to the front of `list`: an element for each seated socket,
 * in rising order, which is a list of the socket and the device type (ints), the UID
 * (blob), and for each held value in rising order a list of its index (int) and the value.
 * INT and BOOL are ints; FLOAT is the float of exactly the same value, and infinities and
 * NaNs keep their sign, their fraction moved 29 bits up.
 *
 * On success error is 0 and written is the size of the list in bytes, at most 3,752.
 * Nothing behind them has changed.
 *
 * On an error written is 0, `list` is as it was, and error is the first of these, in this
 * order:
 *
 *   11  the catalogue is not as above
 *    9  the table is not lawful
 *   20  list_len is below CINDER_LIST_ROOM
 */
cinder_write_result cinder_hub_publish(const uint8_t *catalogue, size_t catalogue_len, const uint8_t *table, size_t table_len, uint8_t *list, size_t list_len);

typedef struct {
    uint64_t error, kind, bits;
} cinder_value_result;

/*
 * Reads one parameter of the device at a socket.
 *
 * On success error is 0, kind says what is held, and bits is the value:
 *
 *    0  absent; bits is 0. So is every index above 31
 *    1  int; the 32 bits of the number
 *    2  float; the 32 bits of the single, NaNs as they were sent
 *    3  flag; 0 or 1
 *
 * On an error kind and bits are 0, and error is the first of these, in this order:
 *
 *   11  the catalogue is not as above
 *    9  the table is not lawful
 *   10  socket is above 7
 *   15  no device is seated at the socket
 */
cinder_value_result cinder_hub_read(const uint8_t *catalogue, size_t catalogue_len, const uint8_t *table, size_t table_len, uint64_t socket, uint64_t index);

/*
 * Writes the packet of a type and a payload to the front of `packet`. What the payload
 * says is not judged. The bytes go straight there: the call makes no array, and on x86-64
 * it takes less than 100 bytes of stack.
 *
 * On success error is 0 and written is the size of the packet: payload_len + 6 bytes.
 * Nothing behind them has changed.
 *
 * On an error written is 0, `packet` is as it was, and error is the first of these, in
 * this order:
 *
 *   20  packet_len is below CINDER_PACKET_ROOM
 *    8  the type is unknown, or does not allow that payload length: 1 PING 0 bytes, 2 ACK
 *       10, 3 DEVICE_WRITE and 4 DEVICE_DATA 4 to 132, 5 LOG 0 to 251. 257 is type 257
 */
cinder_write_result cinder_packet_encode(uint64_t type, const uint8_t *payload, size_t payload_len, uint8_t *packet, size_t packet_len);

/*
 * Writes the list that `rows` and `store` describe to the front of `list`. Both are just
 * what is in use: rows as cinder_list_decode has them, 12 bytes each, and the bytes of
 * their strings and blobs back to back in row order. What decoding gave is written as the
 * bytes that were decoded.
 *
 * On success error is 0 and written is the size of the list in bytes. Nothing behind them
 * has changed.
 *
 * On an error written is 0, `list` is as it was, and error is the first of these, in this
 * order:
 *
 *   20  list_len is below CINDER_LIST_ROOM
 *   30  rows and store do not describe exactly one list; so it is where rows_len is no
 *       multiple of 12
 *   27  a list is nested deeper than 8
 *   28  the list would have more than 4,096 bytes
 */
cinder_write_result cinder_list_encode(const uint8_t *rows, size_t rows_len, const uint8_t *store, size_t store_len, uint8_t *list, size_t list_len);

/* The least length of an area that a text is written to; no text that is written has more characters. */
#define CINDER_TEXT_ROOM 16384

/*
 * A list as text, for people to read: its elements with one space between them.
 *
 *   list    its elements between ( and ); the outermost list has no brackets
 *   int     decimal, - before it if it is below 0, no leading zeros
 *   string  between " and "; a backslash before quote and backslash, and bytes below 32 or
 *           above 126 as a backslash and three octal digits
 *   blob    its bytes between { and }, decimal without leading zeros, one space between
 *   vocab   one to four bytes between [ and ], the lowest first; each is 33 to 126 and
 *           neither [ nor ], and the bytes above them are 0
 *   float   as C prints it with %.13a: 0x1.8000000000000p-1; zero is 0x0.0000000000000p+0,
 *           a subnormal has 0x0. and p-1022; - before it if its sign bit is set, also for
 *           zero
 *
 * So an empty list is the empty text, and () within another. Infinities, NaNs and other
 * vocabs have no text form. A text is read only as it is written, character for character,
 * and two different lists never have equal text. No zero stands behind a text.
 */

/*
 * Writes the text of the list that `rows` and `store` describe to the front of `text`. Both
 * are as cinder_list_encode asks them.
 *
 * On success error is 0 and written is the number of characters. Nothing behind them has
 * changed.
 *
 * On an error written is 0, `text` is as it was, and error is the first of these, in this
 * order:
 *
 *   20  text_len is below CINDER_TEXT_ROOM
 *   30  rows and store do not describe exactly one list; so it is where rows_len is no
 *       multiple of 12
 *   27  a list is nested deeper than 8
 *   28  the list would have more than 4,096 bytes
 *   31  an element has no text form
 */
cinder_write_result cinder_text_encode(const uint8_t *rows, size_t rows_len, const uint8_t *store, size_t store_len, uint8_t *text, size_t text_len);

typedef struct {
    uint64_t error, rows, stored;
} cinder_text_result;

/*
 * Reads the list whose text is the whole of `text`.
 *
 * On success error is 0, rows is the number of its rows and stored the number of store
 * bytes in use. Both areas are as cinder_list_decode has them for that list: the rows at
 * the front of `rows`, the strings and blobs at the front of `store`, and nothing behind
 * them has changed. cinder_text_encode writes them as the text that was read.
 *
 * On an error rows and stored are 0, both areas are as they were, and error is the first of
 * these, in this order:
 *
 *   20  rows_len is below CINDER_ROWS_ROOM, or store_len is below CINDER_STORE_ROOM
 *   32  the text is not the text of a list, however deep and long that would be
 *   27  a list is nested deeper than 8
 *   28  the list would have more than 4,096 bytes
 */
cinder_text_result cinder_text_decode(const uint8_t *text, size_t text_len, uint8_t *rows, size_t rows_len, uint8_t *store, size_t store_len);

typedef struct {
    uint64_t error, list, offset, length, depth;
} cinder_setting_result;

/*
 * Finds the value of a setting: that of the first entry with the key in the guest's list,
 * or else that of the first one in the house list. `guest` and `house` are each to be one
 * whole list. An entry is an element of the outermost list that is a list of exactly two
 * strings, the key and the value; all other elements are passed over. The key may be any
 * bytes, also none; one with a zero in it is in no list.
 *
 * On success error and depth are 0, list is 1 for the guest's list and 2 for the house list,
 * and offset and length say where the value's bytes stand in that area, without the closing
 * zero. They are not copied, and no area is written.
 *
 * On an error length is 0, and error is the first of these, in this order:
 *
 *   21 to 28  the guest's list, as cinder_list_decode gives them; no bytes are 21
 *   29  bytes are left behind the guest's list; the offset is that of the first
 *   21 to 29  the house list, in the same way, also where the guest's list has the key
 *   33  neither list has an entry with the key
 *
 * For 21 to 29 list says which list it is, offset counts from the front of that area, and
 * depth is as cinder_list_decode gives it, 0 for 29. For 33 list, offset and depth are 0.
 */
cinder_setting_result cinder_setting_find(const uint8_t *guest, size_t guest_len, const uint8_t *house, size_t house_len, const uint8_t *key, size_t key_len);

/* The length of a line area: no other is a line state. */
#define CINDER_LINE_ROOM 259

/*
 * The line state of a socket is an area of the caller's, which cinder_line_push reads and
 * changes. It says what has come on that line and is not decided yet:
 *
 *     0        phase: 0 fresh, 1 skipping to the next 00, 2 behind a 00 whose length byte
 *              has not come, 3 inside an encoded part
 *     1        number of encoded bytes held
 *     2        00
 *     3        length byte L
 *     4 to 258 the encoded bytes held, zeros behind them
 *
 * CINDER_LINE_ROOM zeros are a fresh line. An area is a line state if it has that length
 * and, in phases 0 to 2, zeros in all other bytes; in phase 3, L from 4 up, fewer than L
 * bytes held, none of them 00, and zeros in all other bytes. Each of these is the
 * state of some line, and no other is.
 */

typedef struct {
    uint64_t found, error, consumed;
} cinder_line_result;

/*
 * Takes a scrap of a socket's line: `bytes` as they arrived, any number, also none. Bytes
 * are taken up to the one that decides a finding, and consumed counts them. The rest is
 * handed in again with the next call. However a line is cut into scraps, the findings and
 * the line state at its end are the same.
 *
 * found says what was found:
 *
 *    0  nothing: more is wanted. The whole scrap is taken, and error is 0
 *    1  a good packet, at its last byte; error is 0. Its L + 2 bytes (00, L, encoded part)
 *       stand at the front of `packet`, ready for cinder_hub_receive. Nothing behind them
 *       has changed
 *    2  a refusal: error is its number
 *
 * Unless found is 1, `packet` is as it was. `line` follows the bytes taken, so that it
 * is a line state again. Bytes are refused as follows; behind the number stands what the
 * line then does:
 *
 *    2  a byte that is not 00, on a fresh line: skips. So one stretch of such bytes, at the
 *       start of a line or behind a good packet, is refused once
 *    3  a length byte that is 00: this 00 starts a packet
 *    3  a length byte of 1 to 3: skips
 *    4  a 00 inside an encoded part: this 00 starts a packet
 *    5 to 8  the last encoded byte, as cinder_packet_decode gives them: skips
 *
 * A line that skips takes bytes that are not 00 without a finding. Behind a good packet it
 * is fresh. Error 1 is not given here: it is "more is wanted".
 *
 * Before any byte is taken, these are judged in this order, and for an empty scrap too:
 *
 *   20  packet_len is below CINDER_PACKET_ROOM
 *    9  `line` is not a line state
 *
 * For both found is 2, consumed is 0, and all areas are as they were.
 */
cinder_line_result cinder_line_push(uint8_t *line, size_t line_len, const uint8_t *bytes, size_t bytes_len, uint8_t *packet, size_t packet_len);

#ifdef __cplusplus
}
#endif

#endif
