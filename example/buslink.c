/* Buslink at the bench: the frames that a box sends, and what a station makes of frames, as lines of text.
 *
 * Usage: buslink TREE BASE SUB READING...    prints the frames of types 2 to 9 that a box at BASE-SUB sends
 *        buslink receive BASE SUB            reads frames from standard input, and prints the usable indicators of BASE-SUB
 *
 * TREE is a file with a tree's bytes (docs/FORMATS.md). Each READING goes to the next live property: a number in the smallest unit
 * that the probe shows (2100 for 21.00), or - for an open probe. Probes without a reading are open.
 *
 * A frame is a word as candump -L writes it, 15550202#0852008200000002: printed alone on a line, and read as the last word of one.
 * Lines of other stations, and such as end in no frame, are passed over. So on a bus:
 *
 *   candump -L can0 | buslink receive 1 2
 *
 * The program ends with 2 where the library refuses, and tells the number; with 1 where the command line makes no sense. */
#include <inttypes.h>
#include <stdio.h>
#include <stdlib.h>
#include <string.h>
#include "pualirqiq.h"

enum { FIRST_TYPE = 2, LAST_TYPE = 9, INDICATORS = 15 };
/* No tree has more properties, or more bytes. */
enum { PROPERTIES = 128, LONGEST_TREE = 27330 };

struct station {
    uint8_t base, sub;
};

/* One byte more than a tree may have: a longer file is then a broken tree. */
static uint8_t tree[LONGEST_TREE + 1];
static size_t tree_len;
static uint8_t cells[PROPERTIES * PQ_CELL_SIZE];
static size_t cells_len;
static uint8_t records[PQ_BUSLINK_SIZE];

static int refused(uint8_t number)
{
    fprintf(stderr, "refused=%u\n", (unsigned)number);
    return 2;
}

static int misused(void)
{
    fprintf(stderr, "usage: buslink TREE BASE SUB READING... | buslink receive BASE SUB\n");
    return 1;
}

/* ---- The command line ---- */

/* A decimal number within bounds, with nothing before or behind it. */
static int read_number(const char *text, long long least, long long most, long long *number)
{
    const char *digits = text + (*text == '-');
    char *end;

    if (*digits < '0' || *digits > '9')
        return 0;
    *number = strtoll(text, &end, 10);
    return *end == '\0' && least <= *number && *number <= most;
}

/* Any two bytes: whether there is such a station is the library's to say. */
static int read_station(char **words, struct station *station)
{
    long long base, sub;

    if (!read_number(words[0], 0, UINT8_MAX, &base) || !read_number(words[1], 0, UINT8_MAX, &sub))
        return 0;
    station->base = (uint8_t)base;
    station->sub = (uint8_t)sub;
    return 1;
}

/* A reading, signed or not, as the word that is posted. */
static int read_reading(const char *text, uint32_t *word, uint8_t *ready)
{
    long long number = 0;

    *ready = strcmp(text, "-") != 0;
    if (*ready && !read_number(text, INT32_MIN, UINT32_MAX, &number))
        return 0;
    *word = (uint32_t)number;
    return 1;
}

/* ---- Sending ---- */

static int load_tree(const char *name)
{
    FILE *file = fopen(name, "rb");

    if (file == NULL) {
        perror(name);
        return 1;
    }
    tree_len = fread(tree, 1, sizeof tree, file);
    fclose(file);
    return 0;
}

/* Cells that begin: every probe is open. */
static int begin_cells(void)
{
    uint8_t number;

    cells_len = pq_cells_size(tree, tree_len);
    number = pq_begin_cells(tree, tree_len, cells, cells_len);
    return number == PQ_DONE ? 0 : refused(number);
}

/* Each reading is posted to the next live property. Which these are is told by pq_post: nothing here looks into the tree. */
static int post_all(char **readings)
{
    for (size_t place = 0; place < PROPERTIES && *readings != NULL; place++) {
        uint32_t word;
        uint8_t ready, number;

        if (!read_reading(*readings, &word, &ready))
            return misused();
        number = pq_post(tree, tree_len, cells, cells_len, place, word, ready);
        if (number == PQ_DONE)
            readings++;
        else if (number != PQ_NOT_LIVE)
            return refused(number);
    }
    if (*readings == NULL)
        return 0;
    fprintf(stderr, "more readings than live properties\n");
    return 1;
}

static void print_frame(uint32_t identifier, const uint8_t *data)
{
    printf("%08" PRIX32 "#", identifier);
    for (size_t i = 0; i < PQ_ROOM_BUSLINK; i++)
        printf("%02X", (unsigned)data[i]);
    putchar('\n');
}

static int send_all(struct station from)
{
    uint8_t data[PQ_ROOM_BUSLINK];
    uint32_t identifier;

    for (uint8_t type = FIRST_TYPE; type <= LAST_TYPE; type++) {
        uint8_t number = pq_buslink_send(tree, tree_len, cells, cells_len, from.base, from.sub, type, data, sizeof data,
            &identifier);
        if (number != PQ_DONE)
            return refused(number);
        print_frame(identifier, data);
    }
    return 0;
}

/* ---- Receiving ---- */

/* As much data as a frame of any kind has on such a bus. */
struct frame {
    uint32_t identifier;
    uint8_t data[64];
    size_t len;
};

/* The last word of the next line, and whether there was one more line. A word that is too long is left out. */
static int next_word(char *word, size_t room)
{
    size_t len = 0;
    int c, ended = 0;

    while ((c = getchar()) != EOF && c != '\n') {
        if (c == ' ' || c == '\t' || c == '\r') {
            ended = 1;
            continue;
        }
        if (ended)
            len = 0;
        ended = 0;
        if (len < room)
            word[len++] = (char)c;
    }
    word[len < room ? len : 0] = '\0';
    return c != EOF || len > 0;
}

static int hex_digit(char c)
{
    if (c >= '0' && c <= '9')
        return c - '0';
    if (c >= 'A' && c <= 'F')
        return c - 'A' + 10;
    if (c >= 'a' && c <= 'f')
        return c - 'a' + 10;
    return -1;
}

/* A pair of hex digits, or -1. */
static int hex_byte(const char *text)
{
    int high = hex_digit(text[0]), low = high < 0 ? -1 : hex_digit(text[1]);

    return low < 0 ? -1 : 16 * high + low;
}

/* An identifier of eight digits, '#', and data in pairs. Short identifiers and remote frames are not of this kind. */
static int read_frame(const char *word, struct frame *frame)
{
    frame->identifier = 0;
    frame->len = 0;
    for (int i = 0; i < 4; i++, word += 2) {
        int byte = hex_byte(word);
        if (byte < 0)
            return 0;
        frame->identifier = frame->identifier << 8 | (uint32_t)byte;
    }
    if (*word++ != '#')
        return 0;
    for (; *word != '\0'; word += 2) {
        int byte = hex_byte(word);
        if (byte < 0 || frame->len == sizeof frame->data)
            return 0;
        frame->data[frame->len++] = (uint8_t)byte;
    }
    return 1;
}

/* The indicators of a mask, which is 0 where no frame was received. */
static void print_usable(uint16_t usable)
{
    for (uint8_t indicator = 1; indicator <= INDICATORS; indicator++) {
        int32_t value;
        uint8_t status, format;

        if ((usable >> (indicator - 1) & 1) == 0)
            continue;
        if (pq_buslink_indicator(records, sizeof records, indicator, &value, &status, &format) == PQ_DONE)
            printf("indicator=%u value=%" PRId32 " format=%u\n", (unsigned)indicator, value, (unsigned)format);
    }
    fflush(stdout);
}

/* For such an address every frame would be passed over without a word. */
static int is_out_of_bounds(struct station at)
{
    return at.base < 1 || at.base > 8 || at.sub < 1 || at.sub > 5;
}

static int receive_all(struct station at)
{
    char word[256];
    struct frame frame;
    uint16_t usable;

    if (is_out_of_bounds(at))
        return refused(PQ_BAD_IDENTIFIER);
    pq_begin_buslink(records, sizeof records);
    while (next_word(word, sizeof word)) {
        uint8_t number;

        if (!read_frame(word, &frame))
            continue;
        number = pq_buslink_receive(records, sizeof records, at.base, at.sub, frame.identifier, frame.data, frame.len, &usable);
        if (number != PQ_DONE && number != PQ_BAD_IDENTIFIER)
            return refused(number);
        print_usable(usable);
    }
    return 0;
}

int main(int argc, char **argv)
{
    struct station station;
    int status;

    if (argc < 4 || !read_station(argv + 2, &station))
        return misused();
    if (strcmp(argv[1], "receive") == 0)
        return argc == 4 ? receive_all(station) : misused();
    if ((status = load_tree(argv[1])) != 0 || (status = begin_cells()) != 0 || (status = post_all(argv + 4)) != 0)
        return status;
    return send_all(station);
}
