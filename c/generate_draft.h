/*
 * Inside the generator: where its choices come from, and the draft of an
 * input before it is written as bytes.
 */
#ifndef GENERATE_DRAFT_H
#define GENERATE_DRAFT_H

#include <stdbool.h>
#include <stddef.h>
#include <stdint.h>

#define RECORDS 9 /* one more than a book may hold */
#define MARKS 513 /* one more than a track may hold */

/* Picks one of the values listed, all of type uint32_t. None of them may
 * draw: which of two draws comes first is not fixed in here. */
#define PICK(source, ...)                                              \
    (((const uint32_t[]){ __VA_ARGS__ })[below(                        \
        (source), sizeof((const uint32_t[]){ __VA_ARGS__ }) /          \
                      sizeof(uint32_t))])

struct source {
    uint64_t state; /* never 0 */
};

struct record {
    uint32_t r, f, zeta;
};

struct draft {
    uint32_t format, modulus, fourth;
    uint32_t rest; /* what the records leave of the odd part of q - 1 */
    uint32_t records;
    struct record record[RECORDS];
    uint32_t marks;
    uint32_t mark[MARKS];
};

struct source source_of(uint64_t seed, uint64_t number);
uint64_t draw(struct source *source);
uint64_t below(struct source *source, uint64_t bound);
bool one_in(struct source *source, uint64_t n);

/* A number of order r modulo q, or 0 where none was come upon. */
uint32_t number_of_order(struct source *source, uint32_t q, uint32_t r);

/* A modulus of the tables that leaves 1 on division by 8. */
uint32_t any_modulus(struct source *source);

/* Drafts a book that loads and a track for it. */
void draft_good(struct source *source, struct draft *draft);

/* A book over the modulus q with as many factors as come to hand. */
void draft_book(struct source *source, struct draft *draft, uint32_t q);

#endif
