/*
 * Siftpebble: bilevel pages for many classes over one desk.
 *
 * A page belongs to a key: a school number and a class number, each 1 to
 * 65,535. At most one page is open for a key. A page is written or read in
 * bands of 1 to 64 rows; each band is one code. When a page is closed, what
 * was learned from it becomes its class's learned table, from which the
 * class's next page starts. A desk holds at most 4 open pages and 8 class
 * places; a place is taken by a class with a learned table, or reserved by an
 * open page whose class has none.
 *
 * Rows are packed: the leftmost pel in the top bit, 1 is black, each row
 * padded to a whole byte with zero bits. A page of width w has row bytes
 * (w + 7) / 8, rounded down.
 *
 * Any numbers, bytes and lengths may come in: no caller has to check first.
 * Every call ends with its result or with a refusal. Only these are the
 * caller's duty:
 *
 *   - a desk is siftpebble_desk_bytes() bytes, aligned to 8; before the first
 *     call it is made empty, or filled with any other bytes;
 *   - no pointer is null, not even one with length 0, and each has as many
 *     bytes behind it as its length says;
 *   - the desk, the lent output and the input do not overlap;
 *   - one desk serves one call at a time. Different desks share nothing.
 *
 * A desk is plain memory. It holds no pointers, so its bytes may be copied,
 * kept and put back. Their order is the library's own.
 *
 * The class number is called cls, since class is a word of C++.
 */

#ifndef SIFTPEBBLE_H
#define SIFTPEBBLE_H

#include <stddef.h>
#include <stdint.h>

#ifdef __cplusplus
extern "C" {
#endif

/* The limits. */

/* A school number and a class number are 1 to this. */
#define SIFTPEBBLE_MAX_KEY 65535
/* The open pages that a desk has room for. */
#define SIFTPEBBLE_PAGES 4
/* The class places of a desk. */
#define SIFTPEBBLE_PLACES 8
/* A page is 1 to this many pels wide. */
#define SIFTPEBBLE_MAX_WIDTH 2048
/* A band has 1 to this many rows. */
#define SIFTPEBBLE_MAX_ROWS 64
/* The most bytes of a band's code. */
#define SIFTPEBBLE_MAX_CODE 32768
/* The contexts of a table. */
#define SIFTPEBBLE_CONTEXTS 128
/* The bytes of a learned table: one for each context. */
#define SIFTPEBBLE_TABLE_BYTES SIFTPEBBLE_CONTEXTS
/* The bytes of the widest row. */
#define SIFTPEBBLE_MAX_ROW_BYTES ((SIFTPEBBLE_MAX_WIDTH + 7) / 8)
/* The bytes of all rows of the largest band. */
#define SIFTPEBBLE_MAX_BAND_BYTES \
    (SIFTPEBBLE_MAX_ROWS * SIFTPEBBLE_MAX_ROW_BYTES)

/* Memory of siftpebble_desk_bytes() bytes, aligned to 8. */
struct siftpebble_desk;

/*
 * What every call on a key answers.
 *
 * An accepted call has number 0. Its length is the bytes of the code for a
 * write, the bytes of all rows for a read, 128 for a look, and 0 for the
 * others. Its shifts are S, the band's shifts, for a write or a read, and 0
 * for the others.
 *
 * Its revisits are how many of the band's pels had their context's estimate
 * revisited, that is, made at least one shift: at most shifts, and at most the
 * band's pels. They are the same for a write and for the read of its code, and
 * 0 for the calls that are no band.
 *
 * A refused call has one of the numbers below, length 0, shifts 0 and
 * revisits 0. It changes nothing in the desk.
 */
struct siftpebble_answer {
    uint64_t number;
    uint64_t length;
    uint64_t shifts;
    uint64_t revisits;
};

/*
 * The numbers. More than one may fit a call: the first that fits, in the
 * order of this list, is the one answered. Behind each stands what a refused
 * call does to the lent output.
 */
enum siftpebble_number {
    /* The call was accepted. */
    SIFTPEBBLE_ACCEPTED = 0,
    /* The desk is not lawful: its bytes are no desk's. Output unchanged. */
    SIFTPEBBLE_UNLAWFUL_DESK = 12,
    /* The school or class number is 0 or above 65,535. Output unchanged. */
    SIFTPEBBLE_BAD_KEY = 1,
    /*
     * A size: width not 1 to 2,048, rows not 1 to 64, a code of more than
     * 32,768 bytes; and, tested only after 7, pels that are not exactly
     * rows x row bytes. Output unchanged.
     */
    SIFTPEBBLE_BAD_SIZE = 6,
    /* Open or drop: the key's page is open. Output unchanged. */
    SIFTPEBBLE_PAGE_OPEN = 3,
    /* Band, close or abandon: the key has no page open. Output unchanged. */
    SIFTPEBBLE_NO_PAGE = 2,
    /* Band: the page is open in the other direction. Output unchanged. */
    SIFTPEBBLE_OTHER_DIRECTION = 7,
    /* Drop or look: the class has no learned table. Output unchanged. */
    SIFTPEBBLE_NO_TABLE = 11,
    /* Open: 4 pages are open. Output unchanged. */
    SIFTPEBBLE_PAGES_FULL = 4,
    /* Open: the class has no table and 8 places are taken. Unchanged. */
    SIFTPEBBLE_PLACES_FULL = 5,
    /* Write: a padding bit is 1. Output unchanged. */
    SIFTPEBBLE_PADDING_BIT = 8,
    /*
     * No room: the code is longer than the output or than 32,768 bytes; the
     * rows are longer than the output; or a look has fewer than 128 bytes.
     * All of the output is set to zero.
     */
    SIFTPEBBLE_NO_ROOM = 9,
    /*
     * Read: a marker: not a code of ours. Somewhere in the code a byte of 90
     * (hexadecimal) or more stands just after an FF; no band is written so.
     * All of the output is set to zero. The page stays open, and the band may
     * be sent again.
     */
    SIFTPEBBLE_MARKER = 15,
    /*
     * Read: the code has no marker, but no band of that width and height
     * would, from the page's working table and last row, have been written as
     * those bytes. All of the output is set to zero. The page stays open, and
     * the band may be sent again.
     */
    SIFTPEBBLE_DAMAGED = 10
};

/* The size of a desk in bytes: the same at every call. */
size_t siftpebble_desk_bytes(void);

/* Makes a desk empty, whatever its bytes were: no pages and no tables. */
void siftpebble_empty(struct siftpebble_desk *desk);

/*
 * Opens the key's page to be written, or to be read, with a width of 1 to
 * 2,048 pels. The page starts with a copy of the class's learned table, or a
 * fresh table if it has none, and with a white row above.
 * Refusals: 12, 1, 6, 3, 4, 5.
 */
struct siftpebble_answer siftpebble_open_write(struct siftpebble_desk *desk,
                                               uint64_t school, uint64_t cls,
                                               uint64_t width);
struct siftpebble_answer siftpebble_open_read(struct siftpebble_desk *desk,
                                              uint64_t school, uint64_t cls,
                                              uint64_t width);

/*
 * Writes a band of 1 to 64 rows: its code comes into the front of the lent
 * output, whose other bytes are kept. The pels are exactly rows x row bytes.
 * Where the last byte that the band's bits make is FF, one more byte 00
 * follows; it is part of the code. So no code ends in FF.
 * Answers the code's length, that byte included, and S and the revisits.
 * Refusals: 12, 1, 6 (rows), 2, 7, 6 (pels), 8, 9.
 */
struct siftpebble_answer siftpebble_write(struct siftpebble_desk *desk,
                                          uint64_t school, uint64_t cls,
                                          uint64_t rows, const uint8_t *pels,
                                          size_t pels_len, uint8_t *out,
                                          size_t out_len);

/*
 * Reads the code of a band of 1 to 64 rows: the rows come into the front of
 * the lent output, whose other bytes are kept. Answers the bytes of all rows,
 * and S and the revisits, which are those that the write answered. A code that
 * ends in FF is not read, since no band is written so: it is damaged, unless
 * it has a marker.
 * Refusals: 12, 1, 6, 2, 7, 9, 15, 10.
 */
struct siftpebble_answer siftpebble_read(struct siftpebble_desk *desk,
                                         uint64_t school, uint64_t cls,
                                         uint64_t rows, const uint8_t *code,
                                         size_t code_len, uint8_t *out,
                                         size_t out_len);

/*
 * Closes the key's page. Its working table becomes the class's learned table,
 * even when no band was served.
 * Refusals: 12, 1, 2.
 */
struct siftpebble_answer siftpebble_close(struct siftpebble_desk *desk,
                                          uint64_t school, uint64_t cls);

/*
 * Abandons the key's page. The class's learned table is as it was before the
 * page; a place that was only reserved is free again.
 * Refusals: 12, 1, 2.
 */
struct siftpebble_answer siftpebble_abandon(struct siftpebble_desk *desk,
                                            uint64_t school, uint64_t cls);

/*
 * Forgets the class's learned table, and frees its place.
 * Refusals: 12, 1, 3, 11.
 */
struct siftpebble_answer siftpebble_drop(struct siftpebble_desk *desk,
                                         uint64_t school, uint64_t cls);

/*
 * Shows the class's learned table: 128 bytes in the front of the lent output,
 * whose other bytes are kept. Each byte is one context's 2 x index + sense.
 * While a page of the class is open this is still the old table.
 * Nothing in the desk changes, but it is lent as for every call.
 * Refusals: 12, 1, 11, 9.
 */
struct siftpebble_answer siftpebble_look(struct siftpebble_desk *desk,
                                         uint64_t school, uint64_t cls,
                                         uint8_t *out, size_t out_len);

#ifdef __cplusplus
}
#endif

#endif /* SIFTPEBBLE_H */
