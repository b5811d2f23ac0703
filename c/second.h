/*
 * The list of a book and a track, worked out a second time in the plainest
 * way, to compare the library with. Both calls answer and write what the
 * calls of pomyrasei.h with the like names must answer and write.
 */
#ifndef SECOND_H
#define SECOND_H

#include <stddef.h>
#include <stdint.h>

uint32_t second_head(const uint8_t *book, size_t book_len,
                     const uint8_t *track, size_t track_len,
                     uint8_t *line, size_t line_len);

uint32_t second_line(const uint8_t *book, size_t book_len,
                     const uint8_t *track, size_t track_len,
                     uint64_t number,
                     uint8_t *line, size_t line_len);

#endif
