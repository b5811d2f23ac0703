/*
 * The rules written out as they stand, with no eye on speed: orders by
 * multiplying up, common divisors by trial, every joining counted where it
 * is made. Below CHECKED each answer is also checked by trying all numbers.
 */
#include "second.h"

#include <inttypes.h>
#include <stdbool.h>
#include <stdio.h>
#include <stdlib.h>
#include <string.h>

#define LINE 96
#define FACTORS 8
#define RUNGS 32 /* q - 1 is below 2^31, so no ladder has more than 31 */
#define NO_RANK (-1)
#define CHECKED 2000

struct factor {
    uint64_t r, f, zeta;
};

struct plan {
    uint64_t q;      /* the modulus, which is also the size */
    uint64_t fourth; /* 0 for none */
    uint64_t rest;
    unsigned held;
    struct factor factors[FACTORS];
};

/* x : y */
struct ratio {
    uint64_t x, y;
};

/* One mark being rooted: what is known of it, and the answer so far. */
struct rooting {
    const struct plan *plan;
    uint64_t beta;
    uint64_t g;
    uint64_t joinings, tests;
    uint64_t top, bottom; /* the root is top / bottom */
    uint64_t root;
    uint32_t refusal;
    unsigned step; /* the step that showed refusal 14 */
};

/* ---- bytes ---- */

static uint64_t half_at(const uint8_t *bytes)
{
    return bytes[0] + 256u * bytes[1];
}

static uint64_t word_at(const uint8_t *bytes)
{
    return half_at(bytes) + 65536u * half_at(bytes + 2);
}

static uint32_t check_layout(const uint8_t *book, size_t len)
{
    if (len < 16 || word_at(book) != 1)
        return 16;
    uint64_t count = word_at(book + 12);
    if (count > FACTORS || len != 16 + 12 * count)
        return 17;
    for (uint64_t k = 0; k < count; k++)
        if (word_at(book + 16 + 4 * k) != 16 + 4 * count + 8 * k)
            return 17;
    return 0;
}

static uint32_t check_track(const uint8_t *track, size_t len)
{
    if (len < 8)
        return 18;
    uint64_t count = word_at(track);
    if (count > 512 || word_at(track + 4) != 8 || len != 8 + 4 * count)
        return 18;
    return 0;
}

/* ---- the plan ---- */

static bool share_divisor(uint64_t a, uint64_t b)
{
    for (uint64_t d = 2; d <= a; d++)
        if (a % d == 0 && b % d == 0)
            return true;
    return false;
}

/* Whether z^r is 1 and no lower power is. */
static bool has_order(uint64_t z, uint64_t r, uint64_t q)
{
    uint64_t power = z;
    for (uint64_t k = 1; k < r; k++) {
        if (power == 1)
            return false;
        power = power * z % q;
    }
    return power == 1;
}

static uint32_t adopt(struct plan *plan, struct factor factor)
{
    uint64_t rest = plan->rest;

    if (plan->held == FACTORS)
        return 3;
    if (factor.r % 2 == 0 || factor.r < 3 || factor.r > 4095)
        return 4;
    if (factor.f == 0)
        return 5;
    for (uint64_t k = 0; k < factor.f; k++) {
        if (rest % factor.r != 0)
            return 5;
        rest /= factor.r;
    }
    for (unsigned k = 0; k < plan->held; k++)
        if (share_divisor(factor.r, plan->factors[k].r))
            return 6;
    if (factor.zeta >= plan->q || !has_order(factor.zeta, factor.r, plan->q))
        return 7;
    plan->rest = rest;
    plan->factors[plan->held++] = factor;
    return 0;
}

static uint32_t give(struct plan *plan, uint64_t fourth)
{
    if (fourth >= plan->q || fourth * fourth % plan->q != plan->q - 1)
        return 7;
    plan->fourth = fourth;
    return 0;
}

static uint32_t load(const uint8_t *book, size_t len, struct plan *plan)
{
    uint32_t refusal = check_layout(book, len);
    if (refusal != 0)
        return refusal;

    *plan = (struct plan){ .q = word_at(book + 4) };
    if (plan->q < 2 || plan->q > 2147483647)
        return 1;
    if (plan->q % 8 != 1)
        return 2;
    plan->rest = plan->q - 1;
    while (plan->rest % 2 == 0)
        plan->rest /= 2;

    uint64_t count = word_at(book + 12);
    for (uint64_t k = 0; k < count; k++) {
        const uint8_t *record = book + word_at(book + 16 + 4 * k);
        refusal = adopt(plan, (struct factor){ half_at(record),
                                               half_at(record + 2),
                                               word_at(record + 4) });
        if (refusal != 0)
            return refusal;
    }
    uint64_t fourth = word_at(book + 8);
    return fourth == 0 ? 0 : give(plan, fourth);
}

/* ---- joinings ---- */

static uint64_t joined_numbers(struct rooting *now, uint64_t a, uint64_t b)
{
    now->joinings++;
    return a * b % now->plan->q;
}

static struct ratio joined(struct rooting *now, struct ratio a, struct ratio b)
{
    uint64_t q = now->plan->q;

    now->joinings++;
    return (struct ratio){
        (a.x * b.x % q + a.y * b.y % q * now->beta % q) % q,
        (a.x * b.y % q + a.y * b.x % q) % q
    };
}

static bool is_spent(struct ratio a)
{
    return a.y == 0;
}

/* The powers, k from 1: the digits above the last one come first. */
static uint64_t power_of_number(struct rooting *now, uint64_t a, uint64_t k)
{
    if (k == 1)
        return a;
    uint64_t upper = power_of_number(now, a, k / 2);
    upper = joined_numbers(now, upper, upper);
    return k % 2 == 1 ? joined_numbers(now, upper, a) : upper;
}

static struct ratio power(struct rooting *now, struct ratio a, uint64_t k)
{
    if (k == 1)
        return a;
    struct ratio upper = power(now, a, k / 2);
    upper = joined(now, upper, upper);
    return k % 2 == 1 ? joined(now, upper, a) : upper;
}

/* Fills the rungs up to the first spent one and answers its place. */
static int rank_of_ladder(struct rooting *now, struct ratio start, uint64_t r,
                          uint64_t length, struct ratio rungs[RUNGS])
{
    rungs[0] = start;
    for (uint64_t k = 0;; k++) {
        if (is_spent(rungs[k]))
            return (int)k;
        if (k == length)
            return NO_RANK;
        rungs[k + 1] = power(now, rungs[k], r);
    }
}

/* ---- the steps; each answers whether the root (or top / bottom) is found,
 *      and sets the refusal where rooting is over without one ---- */

static bool unlawful(struct rooting *now, unsigned step)
{
    now->refusal = 14;
    now->step = step;
    return false;
}

static bool find_g(struct rooting *now)
{
    uint64_t q = now->plan->q, t = now->plan->rest;

    for (uint64_t g = 1; g <= 2 * t - 1; g++) {
        now->g = g;
        if (g * g % q == now->beta) {
            now->root = g;
            return true;
        }
        if (!is_spent(power(now, (struct ratio){ g, 1 }, 2 * t)))
            return false;
    }
    return unlawful(now, 2);
}

static bool try_fourth(struct rooting *now)
{
    const struct plan *plan = now->plan;
    struct ratio rungs[RUNGS];
    uint64_t m = plan->q - 1, e = 0;

    while (m % 2 == 0) {
        m /= 2;
        e++;
    }
    int rank = rank_of_ladder(now, power(now, (struct ratio){ now->g, 1 }, m),
                              2, e, rungs);
    if (rank == NO_RANK)
        return unlawful(now, 3);
    if (rank < 2)
        return false;
    now->top = rungs[rank - 2].x * plan->fourth % plan->q;
    now->bottom = rungs[rank - 2].y;
    return true;
}

static bool try_matches(struct rooting *now, const struct factor *factor,
                        struct ratio rung)
{
    uint64_t q = now->plan->q, z = 1;

    for (uint64_t j = 1; j <= (factor->r - 1) / 2; j++) {
        z = z * factor->zeta % q;
        now->tests++;
        uint64_t top = rung.x * ((z + q - 1) % q) % q;
        uint64_t bottom = rung.y * ((z + 1) % q) % q;
        if (top * top % q == bottom * bottom % q * now->beta % q) {
            now->top = top;
            now->bottom = bottom;
            return true;
        }
    }
    return false;
}

static bool try_factors(struct rooting *now)
{
    const struct plan *plan = now->plan;
    struct ratio rungs[RUNGS];
    bool served = false;

    for (unsigned k = 0; k < plan->held; k++) {
        const struct factor *factor = &plan->factors[k];
        uint64_t others = plan->q - 1;
        for (uint64_t n = 0; n < factor->f; n++)
            others /= factor->r;

        int rank = rank_of_ladder(
            now, power(now, (struct ratio){ now->g, 1 }, others),
            factor->r, factor->f, rungs);
        if (rank == NO_RANK)
            return unlawful(now, 4);
        if (rank == 0)
            continue;
        served = true;
        if (try_matches(now, factor, rungs[rank - 1]))
            return true;
    }
    return unlawful(now, served ? 5 : 4);
}

/* The b with a b = 1 modulo q, or 0 where there is none. */
static uint64_t inverse(uint64_t a, uint64_t q)
{
    /* modulo q: high = a * of_high and low = a * of_low, all the while */
    int64_t high = (int64_t)q, low = (int64_t)a, of_high = 0, of_low = 1;

    while (low != 0) {
        int64_t times = high / low;
        int64_t next = high - times * low, of_next = of_high - times * of_low;
        high = low;
        of_high = of_low;
        low = next;
        of_low = of_next;
    }
    if (high != 1)
        return 0;
    return (uint64_t)(of_high < 0 ? of_high + (int64_t)q : of_high);
}

static void divide(struct rooting *now)
{
    uint64_t q = now->plan->q;
    uint64_t over = inverse(now->bottom, q);

    now->root = now->top * over % q;
    if (over == 0 || now->root * now->root % q != now->beta)
        unlawful(now, 6);
}

static uint32_t refusal_before_steps(const struct plan *plan, uint64_t beta)
{
    if (plan->fourth == 0)
        return 9;
    if (plan->rest > 1024)
        return 10;
    if (beta >= plan->q)
        return 11;
    return beta == 0 ? 12 : 0;
}

static void run_steps(struct rooting *now)
{
    now->refusal = refusal_before_steps(now->plan, now->beta);
    if (now->refusal != 0)
        return;
    if (power_of_number(now, now->beta, (now->plan->q - 1) / 2) != 1) {
        now->refusal = 13;
        return;
    }
    if (find_g(now) || now->refusal != 0)
        return;
    if (try_fourth(now)) {
        divide(now);
        return;
    }
    if (now->refusal == 0 && try_factors(now))
        divide(now);
}

/* ---- the check by trying all numbers ---- */

static bool is_prime(uint64_t q)
{
    for (uint64_t d = 2; d * d <= q; d++)
        if (q % d == 0)
            return false;
    return q > 1;
}

static void demand(bool holds, const struct rooting *now, const char *what)
{
    if (holds)
        return;
    fprintf(stderr, "second: modulus %" PRIu64 " mark %" PRIu64 ": %s\n",
            now->plan->q, now->beta, what);
    abort();
}

/* An accepted root must be one in any case. Modulo a prime there are just
 * two, and a mark that reached step 1 is refused only for want of them. */
static void check_by_search(const struct rooting *now)
{
    uint64_t q = now->plan->q, roots = 0;
    bool among = false;

    if (q >= CHECKED || (now->refusal != 0 && now->refusal < 13))
        return;
    for (uint64_t a = 0; a < q; a++) {
        if (a * a % q != now->beta)
            continue;
        roots++;
        among = among || a == now->root;
    }
    if (now->refusal == 0) {
        demand(among, now, "the answer is no root");
        demand(now->root != q - now->root, now, "the roots are one");
    }
    if (is_prime(q)) {
        demand(roots == (now->refusal == 0 ? 2 : 0), now,
               "refused and yet a square, or the other way round");
        demand(now->refusal != 14, now, "a prime shown not to be one");
    }
}

/* ---- the lines ---- */

static void write_line(const char *text, uint8_t *line)
{
    memcpy(line, text, strlen(text));
}

static void write_mark(const struct rooting *now, uint64_t number,
                       uint8_t *line)
{
    char text[LINE + 1], told[LINE + 1];
    uint64_t one = now->root, other = now->plan->q - now->root;

    if (now->refusal == 14)
        snprintf(told, sizeof told, "refused 14 step %u", now->step);
    else if (now->refusal != 0)
        snprintf(told, sizeof told, "refused %" PRIu32, now->refusal);
    else
        snprintf(told, sizeof told,
                 "place %" PRIu64 " other %" PRIu64 " joinings %" PRIu64
                 " tests %" PRIu64,
                 one < other ? one : other, one < other ? other : one,
                 now->joinings, now->tests);
    int length = snprintf(text, sizeof text, "%" PRIu64 " %" PRIu64 " %s\n",
                          number, now->beta, told);
    demand(length <= LINE, now, "the line is longer than its room");
    write_line(text, line);
}

uint32_t second_head(const uint8_t *book, size_t book_len,
                     const uint8_t *track, size_t track_len,
                     uint8_t *line, size_t line_len)
{
    char text[LINE + 1];
    struct plan plan;

    if (line_len < LINE)
        return 15;
    uint32_t refusal = load(book, book_len, &plan);
    if (refusal != 0)
        snprintf(text, sizeof text, "book refused %" PRIu32 "\n", refusal);
    else if (check_track(track, track_len) != 0)
        snprintf(text, sizeof text, "track refused 18\n");
    else
        snprintf(text, sizeof text,
                 "modulus %" PRIu64 " rest %" PRIu64 " factors %u\n",
                 plan.q, plan.rest, plan.held);
    write_line(text, line);
    return 0;
}

uint32_t second_line(const uint8_t *book, size_t book_len,
                     const uint8_t *track, size_t track_len,
                     uint64_t number,
                     uint8_t *line, size_t line_len)
{
    struct plan plan;

    if (line_len < LINE)
        return 15;
    uint32_t refusal = load(book, book_len, &plan);
    if (refusal == 0)
        refusal = check_track(track, track_len);
    if (refusal != 0)
        return refusal;
    if (number >= word_at(track))
        return 19;

    struct rooting now = { .plan = &plan,
                           .beta = word_at(track + 8 + 4 * number) };
    run_steps(&now);
    check_by_search(&now);
    write_mark(&now, number, line);
    return 0;
}
