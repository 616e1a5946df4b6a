/* The C interface of the box: PENKO TP and PDI over serial and UDP, and Buslink over CAN, from a tree and cells that the caller
 * lends. The static library is built for x86-64. Of the C library it needs memcpy and memset.
 *
 * tree    read only, may lie in flash; its form is in docs/FORMATS.md. Every call that gets a tree checks it.
 * cells   one cell of PQ_CELL_SIZE bytes for each property, in the order of the tree. pq_begin_cells makes them; saved ones go
 *         through pq_restore_cells at start. From then on only pq_post, pq_read_sheet and accepted writes change them, and
 *         pq_reading is the way to a word.
 * state   PQ_STATE_SIZE bytes for each stream. pq_begin_stream makes it, and only pq_feed changes it.
 * records PQ_BUSLINK_SIZE bytes for each Buslink station that is received. pq_begin_buslink makes them, only pq_buslink_receive
 *         changes them, and pq_buslink_indicator is the way to what they hold.
 * place   a property is named by its place in the tree's list of properties, from 0 on.
 *
 * What holds of every call:
 *
 * - It returns, for all bytes, and trusts no earlier check: nothing needs to be tested first. It keeps no pointer, allocates
 *   nothing and touches nothing but what it is lent. Outputs need not be cleared; bytes behind what is put there stay.
 * - Slices. A slice is a pointer and its length in bytes (x, x_len). With length 0 the pointer is not looked at and may be
 *   NULL. No other pointer may be NULL: each number handed back has a place, and path has its 16 bytes.
 * - Overlap. What a call writes (cells, state, records, out, the numbers handed back) must not overlap anything else that it is
 *   lent. So a request is not answered in place: out is never the buffer of the request, string, datagram or bytes. And no number
 *   handed back lies in a buffer, or where another one lies.
 * - Interleaving. Until a call returns, nothing else may write what it is lent or read what it writes. So an interrupt must not
 *   feed while the main loop is in a call on the same state, nor post while it is in one on the same cells: mask it, or queue
 *   bytes and readings and call from one context, as example/main.c does. Calls on different buffers may run at once, over one
 *   tree too: the library has no data of its own.
 * - Refusals. Every number but 0 and 255 is one. It leaves cells, state, records and outputs as they were; lengths, offsets and
 *   counts that are handed back are 0, and so are an identifier and a mask of usable indicators; the action is PQ_NO_ACTION; what
 *   is read out of something (a word, the fields of a request, an indicator) is left as it was. Four exceptions: the serving calls
 *   write a reply with 9 to 13, 15 and 16, and tell with 15 which part of the path no node has; pq_feed takes the bytes of a frame
 *   that it refuses; and pq_list and pq_write_sheet tell with 8 how much room they need.
 * - Numbers. Those that a call may return stand with it, in the order in which they are tested.
 */
#ifndef PUALIRQIQ_H
#define PUALIRQIQ_H

#include <stddef.h>
#include <stdint.h>

/* Grows when the interface changes. 1: with pq_word and pq_is_ready. 2: pq_reading and pq_restore_cells in their place.
 * 3: pq_list. 4: pq_feed passes over stray 10h. 5: pq_write_sheet and pq_read_sheet. 6: Buslink. 7: steps; a tree with a step code
 * of 12 to 15 in type 1 is no longer sound. 8: 15 and 16 in place of 11 where there is no such node or property, in the serving calls
 * and pq_reading; the serving calls have *missing. */
#define PQ_VERSION 8

/* In C, an array of at least so many elements: compilers warn of a shorter one. */
#if defined(__STDC_VERSION__) && __STDC_VERSION__ >= 199901L && !defined(__cplusplus)
#define PQ_STATIC static
#else
#define PQ_STATIC
#endif

#ifdef __cplusplus
extern "C" {
#endif

/* Sizes, in bytes. */
enum {
    PQ_STATE_SIZE = 261,  /* a stream state */
    PQ_CELL_SIZE = 5,     /* a cell */
    PQ_PATH_SIZE = 16,    /* the longest path */
    PQ_BUSLINK_SIZE = 60, /* the records of a Buslink station */
    PQ_ROOM_DATA = 256,   /* the least room of an output for data */
    PQ_ROOM_UDP = 260,    /* .. for a datagram */
    PQ_ROOM_SERIAL = 520, /* .. for a serial string */
    PQ_ROOM_LIST = 17664, /* room for every listing: none is longer */
    PQ_ROOM_SHEET = 4608, /* room for every sheet: none is longer */
    PQ_ROOM_BUSLINK = 8   /* the data of a Buslink frame, and the least room for it */
};

/* Numbers returned (document 01; 15 and 16: document 02, section 7; 17 and 18: section 3; 19 and 20: section 5). Steps: section 6. */
enum {
    PQ_DONE = 0,
    PQ_UNSOUND = 1,           /* tree, cells, state or records have no sound form, or do not fit each other */
    PQ_NO_PREAMBLE = 2,       /* a string does not begin with 10 02, or a datagram not with four zeros */
    PQ_BAD_PAIR = 3,          /* a wrong byte behind a 10h, or a string does not end with its first 10 03 */
    PQ_TOO_SHORT = 4,         /* no data */
    PQ_TOO_LONG = 5,          /* more than 256 bytes of data */
    PQ_BAD_CHECKSUM = 6,
    PQ_OTHER_ADDRESS = 7,
    PQ_NO_ROOM = 8,           /* the output is shorter than its least room, whatever would be put there; pq_list and pq_write_sheet:
                                 than the listing or sheet */
    PQ_DISABLED = 9,          /* host functions are off */
    PQ_UNKNOWN_COMMAND = 10,  /* not B4, or an op above 5 */
    PQ_BAD_PARAMETER = 11,    /* not of the shape that the op asks for */
    PQ_NO_READING = 12,       /* no read attribute, or live and not ready */
    PQ_NOT_SAVED = 13,        /* a write without write attribute, out of range, or off its step */
    PQ_NOT_LIVE = 14,         /* a posting to a property that does not exist or is not live */
    PQ_NO_SUCH_NODE = 15,     /* no node has the path */
    PQ_NO_SUCH_PROPERTY = 16, /* a node has the path, and no property with the index; no property at a place */
    PQ_BAD_SHEET = 17,        /* no sheet of this tree, or labels of settings that cannot be written */
    PQ_NOT_IN_RANGE = 18,     /* a number on a sheet, or a word to be written there, is out of range or of 32 bits, or off its
                                 step */
    PQ_BAD_IDENTIFIER = 19,   /* Buslink: no such station, type or indicator; received, not the station's identifier */
    PQ_BAD_LENGTH = 20,       /* Buslink: a frame of the station with not 8 bytes of data */
    PQ_NO_FRAME = 255         /* pq_feed: all bytes were taken and no frame ended; no refusal */
};

/* In *action: no action is to be taken. */
enum { PQ_NO_ACTION = 255 };

/* ---- The stream of a serial line ---- */

/* How long a state is: PQ_STATE_SIZE. */
size_t pq_state_size(void);

/* The state in which a stream begins.
 * 1: state_len is not PQ_STATE_SIZE. 0. */
uint8_t pq_begin_stream(uint8_t *state, size_t state_len);

/* Feeds bytes of the line, any number of them or none, to the reader for the box's address. It stops behind the byte that
 * closes or drops a frame: feed the rest again, from bytes + *taken on. Outside a frame, any number of stray 10h just before a
 * 10 02 is passed over, as a line driver leaves them when it turns on; a whole string that begins so is refused with 2 by the
 * calls that read one.
 *
 *   number                                    *taken             *len         out             state
 *   1        the state is not sound           0                  0            as it was       as it was
 *   8        out_len is under PQ_ROOM_DATA    0                  0            as it was       as it was
 *   0        a good frame was closed          up to its end      its data's   its data        goes on
 *   3, 5     a frame was dropped              up to that byte    0            as it was       goes on
 *   4, 6, 7  a closed frame is not good       up to its end      0            as it was       goes on
 *   255      no frame ended                   bytes_len          0            as it was       goes on
 *
 * Data stands at the front of out. A loop over bytes ends at 1 and 8, which take none. out must not be the buffer of the bytes,
 * nor lie in the state. */
uint8_t pq_feed(uint8_t *state, size_t state_len, uint8_t address, const uint8_t *bytes, size_t bytes_len,
    uint8_t *out, size_t out_len, size_t *taken, size_t *len);

/* ---- Tree and cells ---- */

/* The check of a tree alone.
 * 1: the bytes stand for no sound tree. 0. */
uint8_t pq_check_tree(const uint8_t *tree, size_t tree_len);

/* The check of a tree and its cells. Every call that gets both begins with it, but for pq_begin_cells.
 * 1: the bytes stand for no sound tree, there is not one cell for each property, or a mark is neither 0 nor 1. 0. */
uint8_t pq_check(const uint8_t *tree, size_t tree_len, const uint8_t *cells, size_t cells_len);

/* The listing of a tree, to be printed at the bench: for each node its path, its name and how many children and properties it has,
 * then its properties, then its children's subtrees in number order. Lines of key=value, each ended by 0Ah, numbers in decimal,
 * paths dotted. Of a node: path, name, children, properties; of a property: path (its node's), index, label, type. No word is
 * shown, and no cells are lent. A setting's or probe's path and index in a listing are those of a request.
 *
 *   number                                                *len                     out
 *   1        the bytes stand for no sound tree            0                        as it was
 *   8        out_len is shorter than the listing          the listing's length     as it was
 *   0                                                     the listing's length     the listing, with no zero behind it
 *
 * So a first call with out_len 0 tells the room that is needed; with PQ_ROOM_LIST there is always enough, and the tree is then
 * walked once and not twice. */
uint8_t pq_list(const uint8_t *tree, size_t tree_len, uint8_t *out, size_t out_len, size_t *len);

/* How many bytes the cells of a tree take. 0 where it is not sound, and where it has no properties. */
size_t pq_cells_size(const uint8_t *tree, size_t tree_len);

/* Cells that begin: no probe ready, and every word 0, also where that is outside a setting's range or off its step.
 * 1: the tree is not sound, or cells_len is not its pq_cells_size. 0. */
uint8_t pq_begin_cells(const uint8_t *tree, size_t tree_len, uint8_t *cells, size_t cells_len);

/* Cells that were saved (their bytes copied, between two calls), made fit for use after a start: every live property is marked
 * not ready until it is posted again, so that no old reading is answered as a new one. All else stays, words and settings.
 * 1: as pq_check; begin with pq_begin_cells then. 0. */
uint8_t pq_restore_cells(const uint8_t *tree, size_t tree_len, uint8_t *cells, size_t cells_len);

/* Posts a reading to the live property at a place. With ready 0 it is marked not ready and its word stays; with any other ready
 * its word becomes this one and it is ready. Nothing ages: it stays ready until ready 0 is posted. No other cell changes.
 * 1: as pq_check. 14: no property at that place, or one that is not live. 0. */
uint8_t pq_post(const uint8_t *tree, size_t tree_len, uint8_t *cells, size_t cells_len, size_t place, uint32_t word,
    uint8_t ready);

/* The word of the property at a place, for the firmware's own use: the one that a host would read.
 * 1: as pq_check. 16: no property at that place. 12: it has no read attribute, or is live and not ready. 0: *word is its word.
 * With any other number *word is left as it was. */
uint8_t pq_reading(const uint8_t *tree, size_t tree_len, const uint8_t *cells, size_t cells_len, size_t place,
    uint32_t *word);

/* ---- Settings on a sheet ----
 * A sheet has a line for each setting, a property with read and write, in the order of the tree's list: its label, "=", its number
 * in decimal, 0Ah. A number has no leading zero; where the range is signed (type 1, format bit 15) one below zero has a minus
 * before it. "Average=4" and "Rate=0" are the lines of the bench tree. A tree without settings has the empty sheet. Actions and
 * live words are on none.
 *
 * A line has at most 13 bytes beside its label (12 where the range is not signed), so a sheet has at most 36 for each setting, and
 * none has more than PQ_ROOM_SHEET. */

/* The sheet of the settings that the cells hold.
 *
 *   number                                                *len                     out
 *   1        as pq_check                                  0                        as it was
 *   17       a setting's label has a "=" in it, or is     0                        as it was
 *            that of another setting too
 *   18       a setting holds a word out of its range,     0                        as it was
 *            or off its step
 *   8        out_len is shorter than the sheet            the sheet's length       as it was
 *   0                                                     the sheet's length       the sheet, with no zero behind it
 *
 * With PQ_ROOM_SHEET there is always enough room, and nothing is counted first. 18 is met after pq_begin_cells where 0 is out of a
 * range or off a step: read a sheet of factory settings first, as example/main.c does. It is met, too, with cells that were saved
 * before their tree had steps. */
uint8_t pq_write_sheet(const uint8_t *tree, size_t tree_len, const uint8_t *cells, size_t cells_len, uint8_t *out,
    size_t out_len, size_t *len);

/* The settings of a sheet stored in the cells, all of them or none. Just the sheets that pq_write_sheet writes for this tree are
 * taken, from any box with the same tree: each line in its place, written as it would write it, and nothing before, between or
 * behind. 1: as pq_check. 17: a label that cannot be written (as above), or not such a sheet, whatever its numbers. 18: a number is
 * out of its setting's range, or of 32 bits, or off its step. 0: each setting holds its number; marks and every other word are as
 * they were. */
uint8_t pq_read_sheet(const uint8_t *tree, size_t tree_len, uint8_t *cells, size_t cells_len, const uint8_t *sheet,
    size_t sheet_len);

/* ---- Requests answered ----
 * host is 0 where host functions are off, and any other number where they are on. *len is the length of the reply at the front
 * of out: a reply is to be sent exactly where it is not 0.
 *
 *   1 to 8           *len is 0; nothing is written
 *   9, 10, 12        the reply is the one byte 57, 59, 58 (hex); no cell is changed
 *   11, 15, 16       the reply is the one byte 54; no cell is changed. A host is not told which of the three it was
 *   13               the reply to a write, with save 00 and for op 5 the reason, "Read only", "Range" or "Step", tested in that
 *                    order; no cell is changed
 *   0                the reply; an accepted write is in the cells
 *
 * *action is PQ_NO_ACTION, but for 0 with a write to an action: then it is that property's place, and no cell is changed. An
 * action takes any value.
 *
 * *missing is for a message to an installer who sees 54. With 15 it is the length of the shortest front part of the path that no node
 * has, 1 to 16: where the box has 1.2 and not 1.2.7, it is 3 for 1.2.7.1, and it is 1 for every path that does not begin with 1. The
 * path begins with the third byte of the request's data; pq_read_serial and pq_read_udp read it out of a string or datagram. With
 * every other number *missing is 0.
 *
 * Steps. Format bits 11 to 8 of a property of type 1 are its step code: 0 to 11 for 1, 2, 5, 10, 20, 50, 100, 200, 500, 1000,
 * 2000 and 5000. A value in range is saved in a setting where its distance from min (from 0 where min and max are both 0) is a
 * multiple of the step; both are signed where format bit 15 is set. Max itself need not be on the step. A word that is posted is
 * not held to it, nor one that a setting holds already. A step above 1 costs a division of 32 bits for each value that is
 * written, and for each number on a sheet. */

/* Request data, as pq_feed hands it up. The reply is data too, for pq_frame. out must not be the request's buffer.
 * 1: as pq_check. 8: out_len is under PQ_ROOM_DATA. 4: no data. 5: more than 256 bytes. 9, 10, 11, 15, 16, 12, 13. 0. */
uint8_t pq_serve_data(const uint8_t *tree, size_t tree_len, uint8_t *cells, size_t cells_len, uint8_t host,
    const uint8_t *request, size_t request_len, uint8_t *out, size_t out_len, size_t *len, uint8_t *action, uint8_t *missing);

/* A whole serial string for the box's address, which the reply, a frame, carries too. out must not be the string's buffer.
 * 1: as pq_check. 8: out_len is under PQ_ROOM_SERIAL. 2, 3, 4, 5, 6, 7. 9, 10, 11, 15, 16, 12, 13. 0. */
uint8_t pq_serve_serial(const uint8_t *tree, size_t tree_len, uint8_t *cells, size_t cells_len, uint8_t host, uint8_t address,
    const uint8_t *string, size_t string_len, uint8_t *out, size_t out_len, size_t *len, uint8_t *action, uint8_t *missing);

/* A datagram; the reply is a datagram. out must not be the datagram's buffer.
 * 1: as pq_check. 8: out_len is under PQ_ROOM_UDP. 2, 4, 5. 9, 10, 11, 15, 16, 12, 13. 0. */
uint8_t pq_serve_udp(const uint8_t *tree, size_t tree_len, uint8_t *cells, size_t cells_len, uint8_t host,
    const uint8_t *datagram, size_t datagram_len, uint8_t *out, size_t out_len, size_t *len, uint8_t *action, uint8_t *missing);

/* ---- Buslink over CAN ----
 * A station is a base address of 1 to 8 and a sub address of 1 to 5. Its indicators 1 to 15 are the first 15 live properties of the
 * tree, in the order of its list. A frame of type 2 to 8 carries two of them, 2 * type - 3 and the next; type 9 carries indicator
 * 15. Its identifier has 29 bits (an extended CAN frame): 15550000h, the type in bits 8 to 11, and 5 * (base - 1) + sub.
 *
 * An indicator is a value of 24 bits, signed, a format and a status. The format is the decimals code of the probe (bits 2 to 0 of
 * its format); the value is ten times its word, or the word itself where the code is 7, raw data. The status:
 *
 *   a ready probe, its value fits      PQ_BUSLINK_AVAILABLE
 *   a ready probe, beyond 24 bits      PQ_BUSLINK_AVAILABLE and PQ_BUSLINK_ERROR, and the value is 0
 *   a probe that is not ready          0, and the value is 0
 *   no probe                           0; value and format are 0 too
 *
 * A value counts only where PQ_BUSLINK_IS_USABLE(status). */

enum {
    PQ_BUSLINK_AVAILABLE = 0x80,
    PQ_BUSLINK_ERROR = 0x40,
    PQ_BUSLINK_ZERO = 0x20,   /* these three are never sent here, and are kept where they are received */
    PQ_BUSLINK_STABLE = 0x10,
    PQ_BUSLINK_TARE = 0x08
};

#define PQ_BUSLINK_IS_USABLE(status) (((status) & (PQ_BUSLINK_AVAILABLE | PQ_BUSLINK_ERROR)) == PQ_BUSLINK_AVAILABLE)

/* A station's frame of a type, from a tree and its cells: with 0 its 8 bytes of data stand at the front of out, and *identifier is
 * its identifier; else *identifier is 0. Send types 2 to 9 in turn; a frame that carries no probe is all zero.
 * 1: as pq_check. 8: out_len is under PQ_ROOM_BUSLINK. 19: base, sub or type out of bounds. 0. */
uint8_t pq_buslink_send(const uint8_t *tree, size_t tree_len, const uint8_t *cells, size_t cells_len, uint8_t base, uint8_t sub,
    uint8_t type, uint8_t *out, size_t out_len, uint32_t *identifier);

/* The records of a station that is to be received, before any frame: nothing is available.
 * 1: records_len is not PQ_BUSLINK_SIZE. 0. */
uint8_t pq_begin_buslink(uint8_t *records, size_t records_len);

/* A frame received for the station base-sub: the indicators that it carries are stored, usable or not, and no other. In *usable bit
 * n - 1 is set for each indicator n that it carried and that is usable. Whether a frame is an extended one, and how many
 * bytes it has, is for the CAN driver to tell; identifier is the 29 bits alone, without a driver's flags above them (SocketCAN's
 * CAN_EFF_FLAG is one).
 * 1: records_len is not PQ_BUSLINK_SIZE. 19: base or sub out of bounds, or not the identifier of this station and a type 2 to 9: on
 * a bus with others this is met all the time, and the frame is theirs. 20: data_len is not 8. *usable is 0 then. 0. */
uint8_t pq_buslink_receive(uint8_t *records, size_t records_len, uint8_t base, uint8_t sub, uint32_t identifier,
    const uint8_t *data, size_t data_len, uint16_t *usable);

/* What was received last of an indicator. Nothing ages: a station that fell silent shows in no frames, not here.
 * 1: records_len is not PQ_BUSLINK_SIZE. 19: indicator is not 1 to 15. *value, *status and *format are left as they were.
 * 0: they are the indicator's; *status has the five bits as they stand in its fourth byte, of which F8h is the mask. */
uint8_t pq_buslink_indicator(const uint8_t *records, size_t records_len, uint8_t indicator, int32_t *value, uint8_t *status,
    uint8_t *format);

/* ---- Frames and datagrams ----
 * With 0, *len is the length of what stands at the front of out; else it is 0. */

/* Data in a frame for an address. out must not be the data's buffer.
 * 8: out_len is under PQ_ROOM_SERIAL. 4: no data. 5: more than 256 bytes. 0. */
uint8_t pq_frame(uint8_t address, const uint8_t *data, size_t data_len, uint8_t *out, size_t out_len, size_t *len);

/* Data in a datagram. out must not be the data's buffer, also where the data stands four bytes on.
 * 8: out_len is under PQ_ROOM_UDP. 4: no data. 5: more than 256 bytes. 0. */
uint8_t pq_datagram(const uint8_t *data, size_t data_len, uint8_t *out, size_t out_len, size_t *len);

/* The data of a whole serial string for an address, copied. out must not be the string's buffer.
 * 8: out_len is under PQ_ROOM_DATA. 2, 3, 4, 5, 6, 7. 0. */
uint8_t pq_read_frame(uint8_t address, const uint8_t *string, size_t string_len, uint8_t *out, size_t out_len, size_t *len);

/* Where a datagram's data stands in the datagram itself; nothing is copied.
 * 2, 4, 5: *offset and *len are 0. 0: *offset is 4 and *len the data's length. */
uint8_t pq_datagram_data(const uint8_t *datagram, size_t datagram_len, size_t *offset, size_t *len);

/* ---- Requests read and written, for hosts and tests ----
 * A request is an op of 0 to 5, a path of 1 to 16 node numbers, an index and a value; what its op does not ask for is empty or
 * 0. No tree is looked at, and 10 and 11 write no reply here. */

/* A whole serial string for an address, read as a request. path has PQ_PATH_SIZE bytes.
 * 2, 3, 4, 5, 6, 7, 10, 11: *op, path, *path_len, *index and *value are left as they were. 0: they are the request's; the bytes
 * of path from *path_len on are 0. */
uint8_t pq_read_serial(uint8_t address, const uint8_t *string, size_t string_len, uint8_t *op,
    uint8_t path[PQ_STATIC PQ_PATH_SIZE], size_t *path_len, uint8_t *index, uint32_t *value);

/* The same of a datagram: 2, 4, 5, 10, 11. 0. */
uint8_t pq_read_udp(const uint8_t *datagram, size_t datagram_len, uint8_t *op, uint8_t path[PQ_STATIC PQ_PATH_SIZE],
    size_t *path_len, uint8_t *index, uint32_t *value);

/* A request written out in a frame for an address.
 * 8: out_len is under PQ_ROOM_SERIAL. 10: an op above 5. 11: path, index or value is not as the op asks for it.
 * *len is 0 then. 0: *len is the length of the string at the front of out. */
uint8_t pq_write_serial(uint8_t address, uint8_t op, const uint8_t *path, size_t path_len, uint8_t index, uint32_t value,
    uint8_t *out, size_t out_len, size_t *len);

/* The same in a datagram, with 8 where out_len is under PQ_ROOM_UDP. */
uint8_t pq_write_udp(uint8_t op, const uint8_t *path, size_t path_len, uint8_t index, uint32_t value, uint8_t *out,
    size_t out_len, size_t *len);

/* ---- Stack ----
 * The most that a call needs, in bytes, on x86-64 (python3 tests/stack.py target/staticlib/libpualirqiq.a): with its return
 * address, and without its arguments, which are the caller's, and without what memcpy and memset take themselves.
 *
 *   pq_begin_buslink         8      pq_datagram_data         8      pq_restore_cells       264
 *   pq_begin_cells         216      pq_feed                 73      pq_serve_data          424
 *   pq_begin_stream         24      pq_frame                32      pq_serve_serial        808
 *   pq_buslink_indicator     8      pq_list               3712      pq_serve_udp           456
 *   pq_buslink_receive      40      pq_post                248      pq_state_size            8
 *   pq_buslink_send        408      pq_read_frame           80      pq_write_serial        104
 *   pq_cells_size          184      pq_read_serial         344      pq_write_sheet         672
 *   pq_check               216      pq_read_sheet          328      pq_write_udp           104
 *   pq_check_tree          168      pq_read_udp            312
 *   pq_datagram             40      pq_reading             248
 *
 * Only pq_list and pq_write_sheet recurse: a frame for each digit of a number, and pq_list one for each level of the tree, of
 * which there are at most 16. What stands here is for 16 levels and 10 digits. No call takes stack by the length of what it is
 * lent. Another part or build differs: fill the stack with a pattern, make the calls, and see how far down it was overwritten. */

#ifdef __cplusplus
}
#endif

#undef PQ_STATIC

#endif
