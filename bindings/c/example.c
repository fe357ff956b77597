/*
 * A caller of the desk that is both C and C++: pages are written for one
 * class, and read back for another that starts from the same fresh table. It
 * writes each code as the cases of document 01 are written, and how much a page
 * has taught its class. In the end it reads what is not a code of ours.
 */

#include "siftpebble.h"

#include <stdio.h>
#include <stdlib.h>
#include <string.h>

enum { SCHOOL = 1, WRITER = 5, READER = 6, ROOM = 16 };

static void require(struct siftpebble_answer answer, const char *call)
{
    if (answer.number != SIFTPEBBLE_ACCEPTED) {
        fprintf(stderr, "%s: refused %u\n", call, (unsigned)answer.number);
        exit(EXIT_FAILURE);
    }
}

/* Opens a page of this width for the writer, and one for the reader. */
static void open_both(struct siftpebble_desk *desk, uint64_t width)
{
    require(siftpebble_open_write(desk, SCHOOL, WRITER, width), "open write");
    require(siftpebble_open_read(desk, SCHOOL, READER, width), "open read");
}

/*
 * Writes a band of one row, reads it back, and prints its code and S. Returns
 * the pels revisited.
 */
static uint64_t send_band(struct siftpebble_desk *desk, const char *name,
                          const uint8_t *pels, size_t bytes)
{
    uint8_t code[ROOM], rows[ROOM];
    struct siftpebble_answer written, read;
    written = siftpebble_write(desk, SCHOOL, WRITER, 1, pels, bytes, code, sizeof code);
    require(written, "write");
    size_t length = (size_t)written.length;
    printf("%s:", name);
    for (size_t i = 0; i < length; i++)
        printf(" %02X", code[i]);
    printf(" S=%u\n", (unsigned)written.shifts);

    read = siftpebble_read(desk, SCHOOL, READER, 1, code, length, rows, sizeof rows);
    require(read, "read");
    if (read.length != bytes || memcmp(rows, pels, bytes) != 0) {
        fprintf(stderr, "%s: other pels\n", name);
        exit(EXIT_FAILURE);
    }
    if (read.shifts != written.shifts || read.revisits != written.revisits) {
        fprintf(stderr, "%s: other counts\n", name);
        exit(EXIT_FAILURE);
    }
    return written.revisits;
}

/* Reads the first bytes of another kind of file, which have a marker. */
static void send_other_file(struct siftpebble_desk *desk)
{
    const uint8_t file[] = {0xFF, 0xD8};
    uint8_t rows[ROOM];
    struct siftpebble_answer answer =
        siftpebble_read(desk, SCHOOL, READER, 1, file, sizeof file, rows, sizeof rows);
    if (answer.number != SIFTPEBBLE_MARKER) {
        fprintf(stderr, "marker: answered %u\n", (unsigned)answer.number);
        exit(EXIT_FAILURE);
    }
    printf("marker: refused %u\n", (unsigned)answer.number);
}

int main(void)
{
    struct siftpebble_desk *desk =
        (struct siftpebble_desk *)malloc(siftpebble_desk_bytes());
    const uint8_t white[] = {0x00}, thirteen[] = {0xE6, 0x60};
    uint8_t table[SIFTPEBBLE_TABLE_BYTES];
    uint64_t revisits;
    if (desk == NULL)
        return EXIT_FAILURE;
    siftpebble_empty(desk);
    open_both(desk, 1);
    revisits = send_band(desk, "P1", white, sizeof white);
    revisits += send_band(desk, "P7", white, sizeof white);
    printf("revisited: %u pels\n", (unsigned)revisits);
    require(siftpebble_close(desk, SCHOOL, WRITER), "close");
    require(siftpebble_abandon(desk, SCHOOL, READER), "abandon");
    require(siftpebble_look(desk, SCHOOL, WRITER, table, sizeof table), "look");
    printf("learned: %02X at context 0\n", table[0]);
    require(siftpebble_drop(desk, SCHOOL, WRITER), "drop");
    open_both(desk, 13);
    send_band(desk, "last FF", thirteen, sizeof thirteen);
    send_other_file(desk);
    free(desk);
    return EXIT_SUCCESS;
}
