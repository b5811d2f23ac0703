/*
 * second: reads a book followed at once by a track from standard input and
 * prints their list: the head line, and where both are good the line of
 * each mark. The status is 0 whatever the input; 1 is for the machine
 * (no memory, standard input or output failing).
 */
#include "second.h"

#include <stdio.h>
#include <stdlib.h>
#include <string.h>

#define LINE 96

/* All of standard input, never NULL. */
static uint8_t *read_input(size_t *len)
{
    size_t room = 4096;
    uint8_t *bytes = malloc(room);

    *len = 0;
    while (bytes != NULL) {
        *len += fread(bytes + *len, 1, room - *len, stdin);
        if (*len < room)
            break;
        room *= 2;
        uint8_t *more = realloc(bytes, room);
        if (more == NULL)
            free(bytes);
        bytes = more;
    }
    if (bytes == NULL || ferror(stdin)) {
        fprintf(stderr, "second: cannot read standard input\n");
        exit(1);
    }
    return bytes;
}

/* How many bytes of the input are the book. */
static size_t book_length(const uint8_t *input, size_t len)
{
    if (len < 16)
        return len;
    if (input[12] > 8 || input[13] != 0 || input[14] != 0 || input[15] != 0)
        return len;
    size_t book_len = 16 + 12 * (size_t)input[12];
    return book_len < len ? book_len : len;
}

static void print_line(const uint8_t *line)
{
    const uint8_t *end = memchr(line, 10, LINE);

    fwrite(line, 1, (size_t)(end - line) + 1, stdout);
}

int main(void)
{
    uint8_t line[LINE];
    size_t len;
    uint8_t *input = read_input(&len);
    size_t book_len = book_length(input, len);
    const uint8_t *track = input + book_len;
    size_t track_len = len - book_len;

    second_head(input, book_len, track, track_len, line, sizeof line);
    print_line(line);
    for (uint64_t k = 0; second_line(input, book_len, track, track_len, k,
                                     line, sizeof line) == 0; k++)
        print_line(line);
    free(input);
    return fflush(stdout) == 0 ? 0 : 1;
}
