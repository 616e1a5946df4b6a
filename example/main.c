/* A firmware to start from: one box at one address, two probes, its serial line on standard input and output.
 *
 * Usage: main [FILE]. The file stands for the EEPROM: cells that were saved before the restart. Where there are none, or they are
 * spoilt, the box begins with its factory sheet.
 *
 * One context, the main loop, calls the library. The UART's interrupt puts each byte into a queue and calls nothing. Nothing here
 * looks into a lent form. */
#include <stdio.h>
#include "pualirqiq.h"

enum { ADDRESS = 0, HOST_ON = 1 };

/* The bench tree (docs/FORMATS.md, Tree, has it byte by byte). It stays in flash. */
static const uint8_t tree[] = {
    /* 3 nodes, 5 properties */
    3, 5,
    /* nodes: parent, place of the name */
    0, 0, 91, 0, 0, 95, 0, 0, 100,
    /* properties: node, type, min, max, attribute, format, place of the label */
    1, 1, 0, 0, 0, 0, 0, 0, 0, 0, 0x20, 0x01, 0x80, 0x02, 0, 106,
    1, 1, 0, 0, 0, 0, 0, 0, 0, 0, 0x20, 0x01, 0x80, 0x02, 0, 116,
    2, 1, 0, 0, 0, 1, 0, 0, 0, 64, 0x00, 0x03, 0x00, 0x00, 0, 126,
    2, 2, 0, 0, 0, 0, 0, 0, 0, 1, 0x00, 0x03, 0x10, 0x80, 0, 135,
    2, 1, 0, 0, 0, 0, 0, 0, 0, 0, 0x00, 0x02, 0x00, 0x00, 0, 150,
    /* names, then labels each with its unit or options */
    'B', 'o', 'x', 0, 'L', 'i', 'v', 'e', 0, 'S', 'e', 't', 'u', 'p', 0,
    'P', 'r', 'o', 'b', 'e', ' ', '1', 0, 'C', 0,
    'P', 'r', 'o', 'b', 'e', ' ', '2', 0, 'C', 0,
    'A', 'v', 'e', 'r', 'a', 'g', 'e', 0, 0,
    'R', 'a', 't', 'e', 0, 'S', 'l', 'o', 'w', 0, 'F', 'a', 's', 't', 0,
    'R', 'e', 's', 't', 'a', 'r', 't', 0, 0};

/* The places of the properties in the tree's list. */
enum { PROBE_1, PROBE_2, AVERAGE, RATE, RESTART, PROPERTIES };

/* The settings that a box leaves the works with. */
static const uint8_t factory[] = "Average=4\nRate=0\n";

static uint8_t cells[PROPERTIES * PQ_CELL_SIZE];
static uint8_t state[PQ_STATE_SIZE];

/* ---- The line ---- */

/* Bytes on their way from the interrupt to the main loop: the one moves `head` alone, the other `tail`. */
static volatile uint8_t queue[64];
static volatile uint8_t head, tail;

/* On a part, the UART's interrupt. A byte that finds the queue full is lost, and its frame is dropped or fails its checksum. */
static void on_byte(uint8_t byte)
{
    uint8_t next = (uint8_t)((head + 1u) % sizeof queue);

    if (next == tail)
        return;
    queue[head] = byte;
    head = next;
}

static size_t take_bytes(uint8_t *bytes, size_t room)
{
    size_t len = 0;

    while (tail != head && len < room) {
        bytes[len++] = queue[tail];
        tail = (uint8_t)((tail + 1u) % sizeof queue);
    }
    return len;
}

static void send(const uint8_t *bytes, size_t len)
{
    fwrite(bytes, 1, len, stdout);
}

static void act(uint8_t place)
{
    if (place == RESTART)
        fprintf(stderr, "restart\n");
}

/* A message with some numbers of a request's path, dotted. */
static void tell(const char *what, const uint8_t *path, size_t len)
{
    fprintf(stderr, "%s", what);
    for (size_t i = 0; i < len; i++)
        fprintf(stderr, "%c%u", i == 0 ? ' ' : '.', (unsigned)path[i]);
    fprintf(stderr, "\n");
}

/* Why a host got 54, for the installer beside the box. Request data is B4, the op, the path and the index; ops 4 and 5 have a zero
 * and four bytes of value behind it. */
static void explain(uint8_t number, const uint8_t *data, size_t data_len, uint8_t missing)
{
    size_t behind = data_len > 1 && data[1] > 3 ? 5 : 0;

    if (number == PQ_BAD_PARAMETER)
        tell("not a request", data, 0);
    if (number == PQ_NO_SUCH_NODE)
        tell("no node", data + 2, missing);
    if (number == PQ_NO_SUCH_PROPERTY)
        tell("no property", data + 2, data_len - 2 - behind);
}

/* The data of a good frame: answered, and the reply framed. Each step has its own buffer. */
static void answer(const uint8_t *data, size_t data_len)
{
    static uint8_t reply[PQ_ROOM_DATA], string[PQ_ROOM_SERIAL];
    size_t reply_len, string_len;
    uint8_t action, missing;
    uint8_t number = pq_serve_data(tree, sizeof tree, cells, sizeof cells, HOST_ON, data, data_len, reply, sizeof reply, &reply_len,
        &action, &missing);

    if (reply_len > 0 && pq_frame(ADDRESS, reply, reply_len, string, sizeof string, &string_len) == PQ_DONE)
        send(string, string_len);
    if (action != PQ_NO_ACTION)
        act(action);
    explain(number, data, data_len, missing);
}

static void serve_line(void)
{
    static uint8_t bytes[sizeof queue], data[PQ_ROOM_DATA];
    size_t len = take_bytes(bytes, sizeof bytes);
    size_t at = 0, taken, data_len;

    while (at < len) {
        uint8_t number = pq_feed(state, sizeof state, ADDRESS, bytes + at, len - at, data, sizeof data, &taken, &data_len);
        if (number == PQ_DONE)
            answer(data, data_len);
        if (number == PQ_UNSOUND || number == PQ_NO_ROOM)
            return;
        at += taken;
    }
}

/* ---- The probes ---- */

/* A probe: its place, what the converter shows for it in hundredths of a degree, whether its crimp holds, and the samples since
 * the last posting. A converter that lost its probe still shows a number; `connected` says that it is none. */
struct probe {
    size_t place;
    int32_t hundredths;
    uint8_t connected;
    int32_t sum;
    uint32_t samples;
};

static struct probe probes[] = {{PROBE_1, 2100, 1, 0, 0}, {PROBE_2, 8500, 0, 0, 0}};

/* How many samples make a reading: the setting Average. */
static uint32_t average(void)
{
    uint32_t word;

    if (pq_reading(tree, sizeof tree, cells, sizeof cells, AVERAGE, &word) != PQ_DONE)
        return 1;
    return word;
}

static void post(const struct probe *p, int32_t hundredths, uint8_t ready)
{
    uint8_t number = pq_post(tree, sizeof tree, cells, sizeof cells, p->place, (uint32_t)hundredths, ready);

    if (number != PQ_DONE)
        fprintf(stderr, "place %u: %u\n", (unsigned)p->place, (unsigned)number);
}

/* One sample of a probe. A lost one is posted at once, a reading when it has all its samples. */
static void convert(struct probe *p)
{
    p->sum += p->hundredths;
    p->samples++;
    if (p->connected && p->samples < average())
        return;
    post(p, p->sum / (int32_t)p->samples, p->connected);
    p->sum = 0;
    p->samples = 0;
}

/* ---- The start, and the main loop ---- */

/* Saved cells, if there are any. What they have of the probes is from before the restart: pq_restore_cells marks it so. */
static int load_cells(const char *name)
{
    FILE *file = name != NULL ? fopen(name, "rb") : NULL;
    size_t len;

    if (file == NULL)
        return 0;
    len = fread(cells, 1, sizeof cells, file);
    fclose(file);
    return len == sizeof cells && pq_restore_cells(tree, sizeof tree, cells, sizeof cells) == PQ_DONE;
}

/* Cells that begin, with the factory's settings. The status to end with, not 0, where the build is at fault. */
static int begin_cells(void)
{
    uint8_t number;

    if (pq_begin_cells(tree, sizeof tree, cells, sizeof cells) != PQ_DONE) {
        fprintf(stderr, "the tree is not sound, or the cells are not its\n");
        return 1;
    }
    /* without the zero that ends a string */
    number = pq_read_sheet(tree, sizeof tree, cells, sizeof cells, factory, sizeof factory - 1);
    if (number != PQ_DONE) {
        fprintf(stderr, "factory sheet: %u\n", (unsigned)number);
        return 2;
    }
    return 0;
}

int main(int argc, char **argv)
{
    int c, status = load_cells(argc > 1 ? argv[1] : NULL) ? 0 : begin_cells();

    if (status != 0)
        return status;
    pq_begin_stream(state, sizeof state);
    /* The line is the clock here: the converter has a sample of each probe ready with every byte. */
    while ((c = getchar()) != EOF) {
        on_byte((uint8_t)c);
        serve_line();
        for (size_t i = 0; i < sizeof probes / sizeof probes[0]; i++)
            convert(&probes[i]);
    }
    return 0;
}
