/*
 * Good books and their marks. The marks are rigged where chance alone would
 * hardly ever reach the late steps of rooting.
 */
#include "generate_draft.h"

#define TRIES 64
#define SCAN 20000

#define COUNT(table) (sizeof(table) / sizeof((table)[0]))
#define ONE_OF(source, table) ((table)[below((source), COUNT(table))])

static const uint32_t SMALL_PRIMES[] = {
    17, 41, 73, 89, 97, 113, 193, 241, 257, 337, 401, 433, 449, 457, 577,
    641, 673, 769, 929, 977, 1297, 3889, 4001
};

static const uint32_t LARGE_PRIMES[] = {
    65521, 65537, 114689, 52489, 746497, 9834497, 59969537, 104857601,
    469762049, 892371481, 892371481, 1088391169, 2013265921, 2013265921,
    2147483137, 2147481337, 2147480641, 2147479097, 2147478481, 2147483249,
    2147483353, 2147483489, 2147483497
};

/* The odd part of q - 1 is 1001, 1009, 1023, 1025, 1027, 1037 and 1041. */
static const uint32_t PRIMES_AT_THE_BOUND[] = {
    8009, 64577, 16369, 32801, 16433, 8297, 8329
};

/* No primes, but with fourth roots, so that rooting goes on until it shows. */
static const uint32_t RINGS[] = {
    25, 65, 145, 1105, 2465, 4033, 8321, 10585, 11041, 15457, 18721, 19345,
    31417, 46657, 115921, 162401, 252601, 294409, 410041, 5148001, 413138881,
    1198650961, 1507746241, 2080995841
};

static const uint32_t RINGS_WITHOUT_FOURTH[] = {
    9, 33, 49, 105, 561, 1729, 6601, 2147483641
};

/* Where a factor finds no inverse, or serves and does not match; the same
 * one with a second factor that does; ladders without rank; and marks for
 * which nine and ten g are tried. */
static const struct draft RIGGED_BOOKS[] = {
    { 1, 10585, 1433, 9, 2, { { 3, 1, 1451 }, { 7, 2, 1096 } }, 1, { 82 } },
    { 1, 11041, 8307, 115, 1, { { 3, 1, 5659 } }, 1, { 9715 } },
    { 1, 11041, 8307, 23, 2, { { 3, 1, 5659 }, { 5, 1, 4584 } }, 1, { 9715 } },
    { 1, 145, 12, 9, 0, { { 0, 0, 0 } }, 2, { 28, 57 } },
    { 1, 25, 7, 3, 0, { { 0, 0, 0 } }, 2, { 7, 24 } },
    { 1, 65, 8, 1, 0, { { 0, 0, 0 } }, 2, { 4, 14 } },
    { 1, 1993, 834, 249, 0, { { 0, 0, 0 } }, 1, { 52 } },
    { 1, 3001, 1353, 375, 0, { { 0, 0, 0 } }, 1, { 31 } }
};

/* ---- choices ---- */

struct source source_of(uint64_t seed, uint64_t number)
{
    struct source source = { (seed + 1) * 0x9e3779b97f4a7c15u ^
                             (number + 1) * 0xbf58476d1ce4e5b9u };
    if (source.state == 0)
        source.state = 1;
    for (int k = 0; k < 8; k++) /* near seeds are to part soon */
        draw(&source);
    return source;
}

/* xorshift, with a product at the end for the low bits */
uint64_t draw(struct source *source)
{
    source->state ^= source->state >> 12;
    source->state ^= source->state << 25;
    source->state ^= source->state >> 27;
    return source->state * 0x2545f4914f6cdd1du;
}

uint64_t below(struct source *source, uint64_t bound)
{
    return (draw(source) >> 16) % bound;
}

bool one_in(struct source *source, uint64_t n)
{
    return below(source, n) == 0;
}

/* ---- numbers modulo q ---- */

static uint64_t power(uint64_t a, uint64_t k, uint64_t q)
{
    uint64_t result = 1 % q;

    for (a %= q; k > 0; k /= 2) {
        if (k % 2 == 1)
            result = result * a % q;
        a = a * a % q;
    }
    return result;
}

static uint64_t odd_part(uint64_t n)
{
    while (n % 2 == 0)
        n /= 2;
    return n;
}

static bool has_order(uint64_t z, uint64_t r, uint64_t q)
{
    uint64_t p = z, k = 1;

    while (p != 1 && k < r) {
        p = p * z % q;
        k++;
    }
    return p == 1 && k == r;
}

uint32_t number_of_order(struct source *source, uint32_t q, uint32_t r)
{
    for (int k = 0; k < TRIES; k++) {
        uint64_t z = power(1 + below(source, q - 1), (q - 1) / r, q);
        if (has_order(z, r, q))
            return (uint32_t)z;
    }
    for (uint64_t k = 0, z = below(source, q); q < SCAN && k < q; k++) {
        z = (z + 1) % q;
        if (power(z, r, q) == 1 && has_order(z, r, q))
            return (uint32_t)z;
    }
    return 0;
}

static uint32_t fourth_root(struct source *source, uint64_t q)
{
    for (int k = 0; k < TRIES; k++) {
        uint64_t z = power(1 + below(source, q - 1), odd_part(q - 1), q);
        for (int n = 0; n < 32; n++, z = z * z % q)
            if (z * z % q == q - 1)
                return (uint32_t)z;
    }
    for (uint64_t k = 0, z = below(source, q); q < SCAN && k < q; k++) {
        z = (z + 1) % q;
        if (z * z % q == q - 1)
            return (uint32_t)z;
    }
    return 0;
}

uint32_t any_modulus(struct source *source)
{
    switch (below(source, 16)) {
    case 0: case 1: case 2: case 3:
        return ONE_OF(source, SMALL_PRIMES);
    case 4: case 5: case 6: case 7: case 8:
        return ONE_OF(source, LARGE_PRIMES);
    case 9: case 10:
        return ONE_OF(source, PRIMES_AT_THE_BOUND);
    case 11:
        return ONE_OF(source, RINGS_WITHOUT_FOURTH);
    default:
        return ONE_OF(source, RINGS);
    }
}

/* ---- books ---- */

/* The primes up to 4095 of n, each with its power as f. */
static uint32_t primes_of(uint32_t n, struct record prime[RECORDS])
{
    uint32_t found = 0;

    for (uint32_t p = 3; p <= 4095 && p <= n; p += 2) {
        if (n % p != 0)
            continue;
        prime[found] = (struct record){ p, 0, 0 };
        for (; n % p == 0; n /= p)
            prime[found].f++;
        found++;
    }
    return found;
}

static void shuffle(struct source *source, struct record *list, uint32_t n)
{
    for (uint32_t k = n; k > 1; k--) {
        uint32_t other = (uint32_t)below(source, k);
        struct record moved = list[k - 1];
        list[k - 1] = list[other];
        list[other] = moved;
    }
}

/* Now and then two primes as one r, the square of a prime as r, or an f
 * below the greatest. */
static void vary(struct source *source, struct record *list, uint32_t *n)
{
    for (uint32_t k = 0; k < *n; k++) {
        if (list[k].f >= 2 && list[k].r <= 63 && one_in(source, 6)) {
            list[k].r *= list[k].r;
            list[k].f /= 2;
        } else if (list[k].f >= 2 && one_in(source, 3)) {
            list[k].f = 1 + (uint32_t)below(source, list[k].f);
        }
    }
    if (*n >= 2 && list[*n - 1].r <= 4095 / list[*n - 2].r &&
        one_in(source, 4)) {
        list[*n - 2].r *= list[*n - 1].r;
        if (list[*n - 2].f > list[*n - 1].f)
            list[*n - 2].f = list[*n - 1].f;
        --*n;
    }
}

static void hold(struct source *source, struct draft *draft,
                 struct record factor)
{
    factor.zeta = number_of_order(source, draft->modulus, factor.r);
    if (factor.zeta == 0)
        return;
    for (uint32_t k = 0; k < factor.f; k++)
        draft->rest /= factor.r;
    draft->record[draft->records++] = factor;
}

void draft_book(struct source *source, struct draft *draft, uint32_t q)
{
    struct record list[RECORDS];
    bool all = !one_in(source, 4);

    *draft = (struct draft){ .format = 1, .modulus = q,
                             .rest = (uint32_t)odd_part(q - 1) };
    uint32_t n = primes_of(draft->rest, list);
    shuffle(source, list, n);
    if (!all)
        vary(source, list, &n);
    for (uint32_t k = 0; k < n; k++)
        if (all || !one_in(source, 4))
            hold(source, draft, list[k]);
    draft->fourth = fourth_root(source, q);
}

/* ---- marks ---- */

/* A part of q - 1, so that powers to it are of low order. */
static uint64_t some_part(struct source *source, const struct draft *draft)
{
    uint64_t q = draft->modulus, part = (q - 1) / odd_part(q - 1);

    part /= PICK(source, 1, 2, 2, 4, 8);
    if (one_in(source, 2))
        part *= draft->rest;
    for (uint32_t k = 0; k < draft->records; k++) {
        uint64_t away = below(source, draft->record[k].f + 1);
        for (uint64_t n = 0; n < away; n++)
            part *= draft->record[k].r;
    }
    return part;
}

/*
 * A square for which h = (1 + root) / (1 - root) is of low order. So the
 * first g may be spent, the ladder by 2 tell nothing, or a factor not serve.
 * The power q - 2 is the inverse where it matters.
 */
static uint64_t rigged_square(struct source *source, const struct draft *draft)
{
    uint64_t q = draft->modulus, root = 0;

    for (int k = 0; k < 8 && root == 0; k++) {
        uint64_t sample = 1 + below(source, q - 1);
        uint64_t h = power(sample, some_part(source, draft), q);
        root = (h + q - 1) % q * power(h + 1, q - 2, q) % q;
    }
    root = root * PICK(source, 1, 1, 1, 2, 3) % q;
    return root * root % q;
}

/* A mark that passes the test for a square, most times. */
static uint64_t passing_mark(struct source *source, uint64_t q)
{
    uint64_t mark = 0;

    for (int k = 0; k < 4 * TRIES; k++) {
        mark = 1 + below(source, q - 1);
        if (power(mark, (q - 1) / 2, q) == 1)
            break;
    }
    return mark;
}

static uint32_t one_mark(struct source *source, const struct draft *draft)
{
    uint32_t q = draft->modulus;
    uint64_t sample = below(source, q);

    switch (below(source, 16)) {
    case 0: case 1: case 2:
        return (uint32_t)(sample * sample % q);
    case 3: case 4: case 5: case 6: case 7:
        return (uint32_t)rigged_square(source, draft);
    case 8: case 9: case 10:
        return (uint32_t)passing_mark(source, q);
    case 11:
        return (uint32_t)sample;
    case 12:
        return (uint32_t)draw(source);
    case 13:
        return 1 + (uint32_t)below(source, 100);
    default:
        return PICK(source, 0, 1, 4, q - 1, q, q + 1, 2 * q, 0x7fffffff,
                    0x80000000, 0x80000001, 0xffffffff);
    }
}

static void draft_marks(struct source *source, struct draft *draft)
{
    uint32_t more = (uint32_t)below(source, 24);

    if (one_in(source, 100))
        more = 512 - draft->marks;
    else if (one_in(source, 50))
        more = 0;
    for (uint32_t k = 0; k < more; k++)
        draft->mark[draft->marks++] = one_mark(source, draft);
}

void draft_good(struct source *source, struct draft *draft)
{
    if (one_in(source, 25))
        *draft = ONE_OF(source, RIGGED_BOOKS);
    else
        draft_book(source, draft, any_modulus(source));
    if (one_in(source, 20))
        draft->fourth = 0;
    if (one_in(source, 16)) {
        draft->records = 0;
        draft->rest = (uint32_t)odd_part(draft->modulus - 1);
    }
    draft_marks(source, draft);
}
