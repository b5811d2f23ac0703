/*
 * generate SEED NUMBER           writes one input to standard output
 * generate SEED COUNT DIRECTORY  writes the inputs 0 up to COUNT less one
 *                                as DIRECTORY/0.input and so on
 *
 * An input is a book followed at once by a track.
 */
#include "generate.h"

#include <inttypes.h>
#include <stdbool.h>
#include <stdio.h>
#include <stdlib.h>

static bool write_input(uint64_t seed, uint64_t number, FILE *file)
{
    struct input input;

    generate_input(seed, number, &input);
    return fwrite(input.book, 1, input.book_len, file) == input.book_len &&
           fwrite(input.track, 1, input.track_len, file) == input.track_len;
}

static bool write_file(uint64_t seed, uint64_t number, const char *directory)
{
    char path[4096];
    int length = snprintf(path, sizeof path, "%s/%" PRIu64 ".input",
                          directory, number);
    if (length < 0 || (size_t)length >= sizeof path)
        return false;
    FILE *file = fopen(path, "wb");
    if (file == NULL)
        return false;
    bool written = write_input(seed, number, file);
    return fclose(file) == 0 && written;
}

int main(int argc, char **argv)
{
    uint64_t seed, number;

    if ((argc != 3 && argc != 4) || !read_number(argv[1], &seed) ||
        !read_number(argv[2], &number)) {
        fprintf(stderr, "usage: generate SEED NUMBER\n"
                        "       generate SEED COUNT DIRECTORY\n");
        return 1;
    }
    if (argc == 3) {
        if (write_input(seed, number, stdout) && fflush(stdout) == 0)
            return 0;
        fprintf(stderr, "generate: cannot write to standard output\n");
        return 1;
    }
    for (uint64_t k = 0; k < number; k++)
        if (!write_file(seed, k, argv[3])) {
            fprintf(stderr, "generate: cannot write input %" PRIu64
                            " into %s\n", k, argv[3]);
            return 1;
        }
    return 0;
}
