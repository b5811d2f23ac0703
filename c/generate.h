/*
 * Inputs to try the library with: books and tracks, roughly half of them
 * good and the others damaged. The same seed and number always give the
 * same input.
 */
#ifndef GENERATE_H
#define GENERATE_H

#include <stdbool.h>
#include <stddef.h>
#include <stdint.h>

#define BOOK_ROOM 256
#define TRACK_ROOM 2304

struct input {
    uint8_t book[BOOK_ROOM];
    size_t book_len;
    uint8_t track[TRACK_ROOM];
    size_t track_len;
};

void generate_input(uint64_t seed, uint64_t number, struct input *input);

/* A decimal number of a command line, and nothing else. */
bool read_number(const char *text, uint64_t *number);

#endif
