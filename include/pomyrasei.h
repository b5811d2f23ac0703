/*
 * Square roots of the marks of a track, with the plan that a book holds.
 *
 * A book names a modulus q, perhaps a fourth root i of 1, and up to eight
 * factors of q - 1. A track is a list of marks. Both are plain bytes, all
 * words four bytes long with the low byte first:
 *
 *   book   1, modulus, fourth root (0 for none), count n;
 *          n offsets, offset k being 16 + 4n + 8k;
 *          n records of eight bytes: r in two, f in two, zeta in four.
 *   track  count, offset (always 8), then the marks.
 *
 * Rules for both calls:
 *
 * - A pointer may not be NULL, also where its length is 0; for length 0
 *   any valid pointer will do. No alignment is asked for.
 * - book and track are only read, and line may not overlap them.
 * - A line is text that ends with byte 10; no byte 0 is put behind it.
 *   Bytes of line behind the byte 10 stay as found.
 * - A call that answers other than 0 writes nothing.
 * - A refused mark is no failure of the call: its line says so.
 */
#ifndef POMYRASEI_H
#define POMYRASEI_H

#include <stddef.h>
#include <stdint.h>

#ifdef __cplusplus
extern "C" {
#endif

/* A line buffer of this many bytes or more is never refused. */
#define POMYRASEI_LINE 96

/* The numbers of the refusals. Where several hold, the call states which
 * is looked at first. */
enum pomyrasei_refusal {
    /* in the head line, and answered by pomyrasei_mark_line */
    POMYRASEI_MODULUS = 1,    /* the modulus is outside 2 to 2147483647 */
    POMYRASEI_SIZE = 2,       /* it does not leave 1 on division by 8 */
    POMYRASEI_FULL = 3,       /* eight factors are held; no book gets here */
    POMYRASEI_BASE = 4,       /* an r is even, below 3 or above 4095 */
    POMYRASEI_POWER = 5,      /* an f is 0, or r^f does not divide the rest */
    POMYRASEI_SHARED = 6,     /* an r shares a divisor with an earlier r */
    POMYRASEI_ROOT = 7,       /* a zeta or i is too large, or lacks its order */

    /* of the library's own searches; the two calls never seek */
    POMYRASEI_UNFOUND = 8,    /* no root of 1 was found */

    /* in mark lines only, never answered */
    POMYRASEI_NO_FOURTH = 9,  /* the book has no fourth root */
    POMYRASEI_REST = 10,      /* the rest is above 1024 */
    POMYRASEI_MARK = 11,      /* the mark is not below the modulus */
    POMYRASEI_ZERO = 12,      /* the mark is 0 */
    POMYRASEI_NO_SQUARE = 13, /* the mark fails the test for a square */
    POMYRASEI_UNLAWFUL = 14,  /* the modulus has shown that it is not prime */

    /* of the bytes handed over */
    POMYRASEI_ROOM = 15,      /* line_len is below POMYRASEI_LINE */
    POMYRASEI_FORMAT = 16,    /* the book is below 16 bytes or not format 1 */
    POMYRASEI_LAYOUT = 17,    /* the book's count, length or offset is wrong */
    POMYRASEI_TRACK = 18,     /* the track's count, length or offset is wrong */
    POMYRASEI_NO_LINE = 19    /* the track has no mark of that number */
};

/*
 * Writes the head line of a list:
 *
 *   modulus 97 rest 1 factors 1
 *   book refused N       the book does not load; N is 16, 17, 1, 2 or 4 to 7
 *   track refused 18     the book loads, and the track is refused
 *
 * Answers 15 where line_len is below POMYRASEI_LINE, and 0 otherwise: a
 * refused book or track is told by the line.
 */
uint32_t pomyrasei_head_line(const uint8_t *book, size_t book_len,
                             const uint8_t *track, size_t track_len,
                             uint8_t *line, size_t line_len);

/*
 * Writes the line of the mark with the given number, from 0. For mark 94 as
 * number 1 it is one of
 *
 *   1 94 place 26 other 71 joinings 16 tests 1
 *   1 94 refused N             N is 9 to 13
 *   1 94 refused 14 step S     S is 2 to 6
 *
 * where place is the smaller of the two roots.
 *
 * Answers 0 where it wrote the line. Otherwise it answers the first of these
 * that holds: 15 for a short line, then the book's refusal (16, 17, 1, 2 or
 * 4 to 7), 18 for the track, 19 where the number is not below the track's
 * count. So numbers from 0 up to the first answer other than 0 give all the
 * lines; for a good book and track that answer is 19.
 */
uint32_t pomyrasei_mark_line(const uint8_t *book, size_t book_len,
                             const uint8_t *track, size_t track_len,
                             uint64_t number,
                             uint8_t *line, size_t line_len);

#ifdef __cplusplus
}
#endif

#endif
