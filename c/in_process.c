/*
 * in_process COUNT [SEED]: calls the library and the second program's core
 * on COUNT generated inputs and compares the number answered and every byte
 * of the line, those behind it among them. All buffers are just as long as
 * said, so that a checker of memory sees a step beyond.
 *
 * It is linked from this file, generate_draft.c, generate_damage.c,
 * second_core.c and the library.
 */
#include "generate.h"
#include "pomyrasei.h"
#include "second.h"

#include <inttypes.h>
#include <stdbool.h>
#include <stdio.h>
#include <stdlib.h>
#include <string.h>

#define LONGEST 200

/* The input at hand, and the calls compared so far. */
struct trial {
    uint64_t seed, input_number;
    const uint8_t *book, *track;
    size_t book_len, track_len;
    uint64_t calls;
};

static void *claim(size_t len)
{
    void *memory = malloc(len);

    if (memory == NULL) {
        fprintf(stderr, "in_process: no memory\n");
        exit(1);
    }
    return memory;
}

/* A copy that ends where its memory ends, and starts one behind its start:
 * so nothing rests on alignment, and length 0 has a valid pointer too. */
static uint8_t *copy_of(const uint8_t *bytes, size_t len)
{
    uint8_t *memory = claim(len + 1);

    memcpy(memory + 1, bytes, len);
    return memory + 1;
}

static void release(const uint8_t *copy)
{
    free((void *)(copy - 1));
}

/* No byte of the pattern is text, and neighbours differ. */
static uint8_t pattern(size_t k)
{
    return (uint8_t)(0x80 | (k & 0x7f));
}

static uint8_t *patterned(size_t len)
{
    uint8_t bytes[LONGEST];

    for (size_t k = 0; k < LONGEST; k++)
        bytes[k] = pattern(k);
    return copy_of(bytes, len);
}

/* Whether all behind byte 10 is as found; where the call was refused and
 * must not have written, all there is. */
static bool kept_behind_line(const uint8_t *line, size_t len, uint32_t answer)
{
    size_t k = 0;

    if (answer == 0) {
        while (k < len && line[k] != 10)
            k++;
        if (k++ == len)
            return false;
    }
    for (; k < len; k++)
        if (line[k] != pattern(k))
            return false;
    return true;
}

static void fail(const struct trial *trial, const char *call, uint64_t number,
                 size_t line_len, uint32_t answer, uint32_t expected)
{
    fprintf(stderr,
            "in_process: seed %" PRIu64 " input %" PRIu64 ": %s number %" PRIu64
            " with %zu bytes for the line answers %" PRIu32 ", expected %"
            PRIu32 "%s\n",
            trial->seed, trial->input_number, call, number, line_len, answer,
            expected, answer == expected ? "; the lines differ" : "");
    exit(1);
}

static void try_head(struct trial *trial, size_t line_len)
{
    uint8_t *line = patterned(line_len), *expected_line = patterned(line_len);
    uint32_t answer = pomyrasei_head_line(trial->book, trial->book_len,
                                          trial->track, trial->track_len,
                                          line, line_len);
    uint32_t expected = second_head(trial->book, trial->book_len,
                                    trial->track, trial->track_len,
                                    expected_line, line_len);

    if (answer != expected || memcmp(line, expected_line, line_len) != 0 ||
        !kept_behind_line(line, line_len, answer))
        fail(trial, "head", 0, line_len, answer, expected);
    trial->calls++;
    release(line);
    release(expected_line);
}

static uint32_t try_mark(struct trial *trial, uint64_t number, size_t line_len)
{
    uint8_t *line = patterned(line_len), *expected_line = patterned(line_len);
    uint32_t answer = pomyrasei_mark_line(trial->book, trial->book_len,
                                          trial->track, trial->track_len,
                                          number, line, line_len);
    uint32_t expected = second_line(trial->book, trial->book_len,
                                    trial->track, trial->track_len,
                                    number, expected_line, line_len);

    if (answer != expected || memcmp(line, expected_line, line_len) != 0 ||
        !kept_behind_line(line, line_len, answer))
        fail(trial, "mark", number, line_len, answer, expected);
    trial->calls++;
    release(line);
    release(expected_line);
    return answer;
}

/* Every mark, and numbers that would be marks if their upper half or the
 * count were overlooked. */
static void try_numbers(struct trial *trial)
{
    uint64_t count = 0;

    while (try_mark(trial, count, POMYRASEI_LINE) == 0)
        count++;
    const uint64_t numbers[] = {
        count - 1, count, count + 1, UINT32_MAX, (uint64_t)UINT32_MAX + 1,
        (uint64_t)1 << 62, UINT64_MAX - 1, UINT64_MAX
    };
    for (size_t k = 0; k < sizeof numbers / sizeof numbers[0]; k++)
        try_mark(trial, numbers[k], POMYRASEI_LINE);
}

static void try_input(struct trial *trial)
{
    static const size_t line_lens[] = { 0, 1, POMYRASEI_LINE - 1,
                                        POMYRASEI_LINE, POMYRASEI_LINE + 1,
                                        LONGEST };
    struct input input;

    generate_input(trial->seed, trial->input_number, &input);
    trial->book = copy_of(input.book, input.book_len);
    trial->book_len = input.book_len;
    trial->track = copy_of(input.track, input.track_len);
    trial->track_len = input.track_len;

    for (size_t k = 0; k < sizeof line_lens / sizeof line_lens[0]; k++) {
        try_head(trial, line_lens[k]);
        try_mark(trial, 0, line_lens[k]);
        try_mark(trial, UINT64_MAX, line_lens[k]);
    }
    try_numbers(trial);
    if (memcmp(trial->book, input.book, input.book_len) != 0 ||
        memcmp(trial->track, input.track, input.track_len) != 0) {
        fprintf(stderr, "in_process: seed %" PRIu64 " input %" PRIu64
                        ": the input was written to\n",
                trial->seed, trial->input_number);
        exit(1);
    }
    release(trial->book);
    release(trial->track);
}

int main(int argc, char **argv)
{
    struct trial trial = { .seed = 1 };
    uint64_t count;

    if ((argc != 2 && argc != 3) || !read_number(argv[1], &count) ||
        (argc == 3 && !read_number(argv[2], &trial.seed))) {
        fprintf(stderr, "usage: in_process COUNT [SEED]\n");
        return 1;
    }
    for (; trial.input_number < count; trial.input_number++)
        try_input(&trial);
    printf("%" PRIu64 " inputs: %" PRIu64 " calls, all equal\n", count,
           trial.calls);
    return 0;
}
