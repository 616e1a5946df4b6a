/* Slices of length 0: every export with NULL for each of its slices, and again with another pointer. The numbers are those of
 * documents 01 and 02, and neither memcpy nor memset is handed NULL: link with --wrap=memcpy and --wrap=memset. */
#include <stdio.h>
#include <stdlib.h>
#include "pualirqiq.h"

/* One node "B" without properties, so that no cells are sound ones. */
static const uint8_t tree[] = {1, 0, 0, 0, 5, 'B', 0};
/* One property, which needs a cell. */
static const uint8_t wide[] = {1, 1, 0, 0, 21, 0, 1, 0, 0, 0, 0, 0, 0, 0, 0, 0x20, 0x01, 0, 0, 0, 23, 'B', 0, 'P', 0, 'C', 0};
/* The same property as a setting. */
static const uint8_t set[] = {1, 1, 0, 0, 21, 0, 1, 0, 0, 0, 0, 0, 0, 0, 0, 0, 0x03, 0, 0, 0, 23, 'B', 0, 'P', 0, 'C', 0};

static uint8_t state[PQ_STATE_SIZE], cell[PQ_CELL_SIZE], out[PQ_ROOM_SERIAL], path[PQ_PATH_SIZE], op, index, action, missing;
static uint8_t records[PQ_BUSLINK_SIZE], status, format;
static size_t len, taken, offset;
static uint32_t word, identifier;
static uint16_t usable;
static int32_t value;
static unsigned calls, failed;

void *__real_memcpy(void *to, const void *from, size_t n);
void *__real_memset(void *to, int byte, size_t n);
void *__wrap_memcpy(void *to, const void *from, size_t n);
void *__wrap_memset(void *to, int byte, size_t n);

static void refuse(const char *what)
{
    printf("null: %s is handed NULL\n", what);
    exit(1);
}

void *__wrap_memcpy(void *to, const void *from, size_t n)
{
    if (to == NULL || from == NULL)
        refuse("memcpy");
    return __real_memcpy(to, from, n);
}

void *__wrap_memset(void *to, int byte, size_t n)
{
    if (to == NULL)
        refuse("memset");
    return __real_memset(to, byte, n);
}

static void expect(int line, unsigned long number, unsigned long wanted)
{
    calls++;
    if (number == wanted)
        return;
    printf("null: line %d gives %lu for %lu\n", line, number, wanted);
    failed++;
}

#define EXPECT(wanted, call) expect(__LINE__, call, wanted)

static void on_streams(uint8_t *none)
{
    static const uint8_t opened[] = {0x10, 0x02, 0x00, 0xB4, 0x10};

    EXPECT(1, pq_begin_stream(none, 0));
    EXPECT(0, pq_begin_stream(state, sizeof state));
    EXPECT(1, pq_feed(none, 0, 0, opened, sizeof opened, out, sizeof out, &taken, &len));
    EXPECT(8, pq_feed(state, sizeof state, 0, opened, sizeof opened, none, 0, &taken, &len));
    /* outside, inside, and with a 10h waiting */
    for (size_t n = 0; n <= sizeof opened; n++) {
        pq_begin_stream(state, sizeof state);
        EXPECT(255, pq_feed(state, sizeof state, 0, opened, n, out, sizeof out, &taken, &len));
        EXPECT(255, pq_feed(state, sizeof state, 0, none, 0, out, sizeof out, &taken, &len));
        EXPECT(0, taken);
    }
}

static void on_cells(uint8_t *none)
{
    EXPECT(1, pq_check_tree(none, 0));
    EXPECT(1, pq_check(none, 0, none, 0));
    EXPECT(0, pq_check(tree, sizeof tree, none, 0));
    EXPECT(0, pq_check(wide, sizeof wide, cell, sizeof cell));
    EXPECT(1, pq_check(wide, sizeof wide, none, 0));
    EXPECT(0, pq_cells_size(none, 0));
    EXPECT(1, pq_begin_cells(none, 0, none, 0));
    EXPECT(0, pq_begin_cells(tree, sizeof tree, none, 0));
    EXPECT(1, pq_begin_cells(wide, sizeof wide, none, 0));
    EXPECT(1, pq_restore_cells(none, 0, none, 0));
    EXPECT(0, pq_restore_cells(tree, sizeof tree, none, 0));
    EXPECT(1, pq_restore_cells(wide, sizeof wide, none, 0));
    EXPECT(1, pq_post(none, 0, none, 0, 0, 1, 1));
    EXPECT(14, pq_post(tree, sizeof tree, none, 0, 0, 1, 1));
    EXPECT(1, pq_post(wide, sizeof wide, none, 0, 0, 1, 1));
    EXPECT(1, pq_reading(none, 0, none, 0, 0, &word));
    EXPECT(16, pq_reading(tree, sizeof tree, none, 0, 0, &word));
    EXPECT(1, pq_reading(wide, sizeof wide, none, 0, 0, &word));
}

static void on_listings(uint8_t *none)
{
    /* The lines of the node alone: path=1, name=B, children=0, properties=0. */
    const size_t lines = 7 + 7 + 11 + 13;

    EXPECT(8, pq_list(tree, sizeof tree, none, 0, &len));
    EXPECT(lines, len);
    EXPECT(1, pq_list(none, 0, none, 0, &len));
    EXPECT(0, len);
    EXPECT(0, pq_list(tree, sizeof tree, out, lines, &len));
    EXPECT(lines, len);
    EXPECT(1, pq_list(none, 0, out, sizeof out, &len));
    EXPECT(0, len);
}

static void on_sheets(uint8_t *none)
{
    static const uint8_t sheet[] = {'P', '=', '7', '\n'}, kept[] = {'P', '=', '0', '\n'};

    EXPECT(1, pq_write_sheet(none, 0, none, 0, none, 0, &len));
    EXPECT(0, len);
    EXPECT(1, pq_write_sheet(set, sizeof set, none, 0, out, sizeof out, &len));
    EXPECT(8, pq_write_sheet(set, sizeof set, cell, sizeof cell, none, 0, &len));
    EXPECT(sizeof kept, len);
    /* No settings: the sheet is empty. */
    EXPECT(0, pq_write_sheet(tree, sizeof tree, none, 0, none, 0, &len));
    EXPECT(0, len);
    EXPECT(0, pq_write_sheet(wide, sizeof wide, cell, sizeof cell, none, 0, &len));
    EXPECT(0, len);
    EXPECT(1, pq_read_sheet(none, 0, none, 0, none, 0));
    EXPECT(1, pq_read_sheet(set, sizeof set, none, 0, sheet, sizeof sheet));
    EXPECT(17, pq_read_sheet(set, sizeof set, cell, sizeof cell, none, 0));
    EXPECT(17, pq_read_sheet(tree, sizeof tree, none, 0, sheet, sizeof sheet));
    EXPECT(0, pq_read_sheet(tree, sizeof tree, none, 0, none, 0));
    EXPECT(0, pq_read_sheet(wide, sizeof wide, cell, sizeof cell, none, 0));
    EXPECT(0, pq_read_sheet(set, sizeof set, cell, sizeof cell, sheet, sizeof sheet));
    EXPECT(7, cell[3]);
    EXPECT(0, pq_read_sheet(set, sizeof set, cell, sizeof cell, kept, sizeof kept));
    EXPECT(0, cell[3]);
}

static void on_buslink(uint8_t *none)
{
    EXPECT(1, pq_buslink_send(none, 0, none, 0, 1, 2, 2, none, 0, &identifier));
    EXPECT(1, pq_buslink_send(wide, sizeof wide, none, 0, 1, 2, 2, out, sizeof out, &identifier));
    EXPECT(8, pq_buslink_send(tree, sizeof tree, none, 0, 1, 2, 2, none, 0, &identifier));
    EXPECT(0, identifier);
    /* No probes: the frame is there all the same. */
    EXPECT(0, pq_buslink_send(tree, sizeof tree, none, 0, 1, 2, 2, out, sizeof out, &identifier));
    EXPECT(0x15550202, identifier);
    EXPECT(1, pq_begin_buslink(none, 0));
    EXPECT(0, pq_begin_buslink(records, sizeof records));
    EXPECT(1, pq_buslink_receive(none, 0, 1, 2, 0x15550202, none, 0, &usable));
    EXPECT(19, pq_buslink_receive(records, sizeof records, 1, 2, 0x15550203, none, 0, &usable));
    EXPECT(20, pq_buslink_receive(records, sizeof records, 1, 2, 0x15550202, none, 0, &usable));
    EXPECT(0, usable);
    EXPECT(1, pq_buslink_indicator(none, 0, 1, &value, &status, &format));
}

/* What was told before a call must not be told after it. */
static uint8_t *anew(void)
{
    missing = 0xEE;
    return &missing;
}

static void on_serving(uint8_t *none)
{
    static const uint8_t detect[] = {0xB4, 0}, node[] = {0xB4, 1, 1}, other[] = {0xB4, 1, 1, 7, 1}, read[] = {0xB4, 3, 1, 1};

    EXPECT(1, pq_serve_data(none, 0, none, 0, 1, none, 0, none, 0, &len, &action, anew()));
    EXPECT(0, missing);
    EXPECT(8, pq_serve_data(tree, sizeof tree, none, 0, 1, none, 0, none, 0, &len, &action, anew()));
    EXPECT(0, missing);
    EXPECT(4, pq_serve_data(tree, sizeof tree, none, 0, 1, none, 0, out, sizeof out, &len, &action, anew()));
    EXPECT(0, missing);
    EXPECT(0, pq_serve_data(tree, sizeof tree, none, 0, 1, detect, sizeof detect, out, sizeof out, &len, &action, anew()));
    EXPECT(0, missing);
    EXPECT(0, pq_serve_data(tree, sizeof tree, none, 0, 1, node, sizeof node, out, sizeof out, &len, &action, anew()));
    EXPECT(0, missing);
    EXPECT(15, pq_serve_data(tree, sizeof tree, none, 0, 1, other, sizeof other, out, sizeof out, &len, &action, anew()));
    EXPECT(2, missing);
    EXPECT(16, pq_serve_data(tree, sizeof tree, none, 0, 1, read, sizeof read, out, sizeof out, &len, &action, anew()));
    EXPECT(0, missing);
}

static void on_transports(uint8_t *none)
{
    static const uint8_t string[] = {0x10, 0x02, 0x00, 0xB4, 0x00, 0x4B, 0x10, 0x03}, datagram[] = {0, 0, 0, 0, 0xB4, 0};
    /* the nodes 2 and 1.2 */
    static const uint8_t far_one[] = {0x10, 0x02, 0x00, 0xB4, 0x01, 0x02, 0x48, 0x10, 0x03}, far_two[] = {0, 0, 0, 0, 0xB4, 1, 1, 2};

    EXPECT(1, pq_serve_serial(none, 0, none, 0, 1, 0, none, 0, none, 0, &len, &action, anew()));
    EXPECT(0, missing);
    EXPECT(8, pq_serve_serial(tree, sizeof tree, none, 0, 1, 0, none, 0, none, 0, &len, &action, anew()));
    EXPECT(0, missing);
    EXPECT(2, pq_serve_serial(tree, sizeof tree, none, 0, 1, 0, none, 0, out, sizeof out, &len, &action, anew()));
    EXPECT(0, missing);
    EXPECT(0,
        pq_serve_serial(tree, sizeof tree, none, 0, 1, 0, string, sizeof string, out, sizeof out, &len, &action, anew()));
    EXPECT(0, missing);
    EXPECT(15,
        pq_serve_serial(tree, sizeof tree, none, 0, 1, 0, far_one, sizeof far_one, out, sizeof out, &len, &action, anew()));
    EXPECT(1, missing);
    EXPECT(1, pq_serve_udp(none, 0, none, 0, 1, none, 0, none, 0, &len, &action, anew()));
    EXPECT(0, missing);
    EXPECT(8, pq_serve_udp(tree, sizeof tree, none, 0, 1, none, 0, none, 0, &len, &action, anew()));
    EXPECT(0, missing);
    EXPECT(2, pq_serve_udp(tree, sizeof tree, none, 0, 1, none, 0, out, sizeof out, &len, &action, anew()));
    EXPECT(0, missing);
    EXPECT(0,
        pq_serve_udp(tree, sizeof tree, none, 0, 1, datagram, sizeof datagram, out, sizeof out, &len, &action, anew()));
    EXPECT(0, missing);
    EXPECT(15, pq_serve_udp(tree, sizeof tree, none, 0, 1, far_two, sizeof far_two, out, sizeof out, &len, &action, anew()));
    EXPECT(2, missing);
}

static void on_frames(uint8_t *none)
{
    EXPECT(8, pq_frame(0, none, 0, none, 0, &len));
    EXPECT(4, pq_frame(0, none, 0, out, sizeof out, &len));
    EXPECT(8, pq_datagram(none, 0, none, 0, &len));
    EXPECT(4, pq_datagram(none, 0, out, sizeof out, &len));
    EXPECT(8, pq_read_frame(0, none, 0, none, 0, &len));
    EXPECT(2, pq_read_frame(0, none, 0, out, sizeof out, &len));
    EXPECT(2, pq_datagram_data(none, 0, &offset, &len));
}

static void on_requests(uint8_t *none)
{
    EXPECT(2, pq_read_serial(0, none, 0, &op, path, &len, &index, &word));
    EXPECT(2, pq_read_udp(none, 0, &op, path, &len, &index, &word));
    EXPECT(8, pq_write_serial(0, 0, none, 0, 0, 0, none, 0, &len));
    EXPECT(0, pq_write_serial(0, 0, none, 0, 0, 0, out, sizeof out, &len));
    EXPECT(11, pq_write_serial(0, 1, none, 0, 0, 0, out, sizeof out, &len));
    EXPECT(8, pq_write_udp(0, none, 0, 0, 0, none, 0, &len));
    EXPECT(0, pq_write_udp(0, none, 0, 0, 0, out, sizeof out, &len));
    EXPECT(11, pq_write_udp(1, none, 0, 0, 0, out, sizeof out, &len));
}

int main(void)
{
    static uint8_t some[1];
    uint8_t *pointers[] = {NULL, some};

    for (size_t i = 0; i < 2; i++) {
        on_streams(pointers[i]);
        on_cells(pointers[i]);
        on_listings(pointers[i]);
        on_sheets(pointers[i]);
        on_buslink(pointers[i]);
        on_serving(pointers[i]);
        on_transports(pointers[i]);
        on_frames(pointers[i]);
        on_requests(pointers[i]);
    }
    printf("null: %u calls, %u failed\n", calls, failed);
    return failed != 0;
}
