/*
 * list BOOKFILE TRACKFILE: prints the list of a book and a track, the head
 * line first and then a line for each mark.
 *
 * A refused book, track or mark is an answer and stands in the list; the
 * status is 1 only for bad usage and for files that cannot be read or
 * written.
 */
#include "pomyrasei.h"

#include <stdbool.h>
#include <stdio.h>
#include <stdlib.h>
#include <string.h>

struct bytes {
    uint8_t *start; /* never NULL once read, also for an empty file */
    size_t len;
};

static bool read_rest(FILE *file, struct bytes *bytes)
{
    size_t room = 4096;

    bytes->len = 0;
    bytes->start = malloc(room);
    while (bytes->start != NULL) {
        bytes->len += fread(bytes->start + bytes->len, 1, room - bytes->len,
                            file);
        if (bytes->len < room)
            return !ferror(file);
        room *= 2;
        uint8_t *more = realloc(bytes->start, room);
        if (more == NULL)
            free(bytes->start);
        bytes->start = more;
    }
    return false;
}

static bool read_file(const char *path, struct bytes *bytes)
{
    FILE *file = fopen(path, "rb");
    bool read = false;

    if (file != NULL) {
        read = read_rest(file, bytes);
        fclose(file);
    }
    if (!read)
        fprintf(stderr, "list: cannot read %s\n", path);
    return read;
}

static void print_line(const uint8_t line[POMYRASEI_LINE])
{
    const uint8_t *end = memchr(line, 10, POMYRASEI_LINE);

    if (end != NULL)
        fwrite(line, 1, (size_t)(end - line) + 1, stdout);
}

static void print_list(const struct bytes *book, const struct bytes *track)
{
    uint8_t line[POMYRASEI_LINE];

    pomyrasei_head_line(book->start, book->len, track->start, track->len,
                        line, sizeof line);
    print_line(line);
    /* 19 is the end; a refused book or track was told by the head line */
    for (uint64_t k = 0;
         pomyrasei_mark_line(book->start, book->len, track->start, track->len,
                             k, line, sizeof line) == 0;
         k++)
        print_line(line);
}

int main(int argc, char **argv)
{
    struct bytes book = { NULL, 0 }, track = { NULL, 0 };
    int status = 1;

    if (argc != 3) {
        fprintf(stderr, "usage: list BOOKFILE TRACKFILE\n");
        return 1;
    }
    if (read_file(argv[1], &book) && read_file(argv[2], &track)) {
        print_list(&book, &track);
        if (fflush(stdout) == 0 && !ferror(stdout))
            status = 0;
        else
            fprintf(stderr, "list: cannot write the list\n");
    }
    free(book.start);
    free(track.start);
    return status;
}
