/*
 * Writes drafts as bytes, and damages half of them: first what the draft
 * says, then the bytes. Now and then two damages meet, to see which of two
 * refusals comes first.
 */
#include "generate.h"
#include "generate_draft.h"

#include <stdlib.h>
#include <string.h>

/* ---- writing ---- */

static void put_half(uint8_t *bytes, uint32_t value)
{
    bytes[0] = (uint8_t)value;
    bytes[1] = (uint8_t)(value >> 8);
}

static void put_word(uint8_t *bytes, uint32_t value)
{
    put_half(bytes, value);
    put_half(bytes + 2, value >> 16);
}

static uint32_t word_at(const uint8_t *bytes)
{
    return bytes[0] | (uint32_t)bytes[1] << 8 | (uint32_t)bytes[2] << 16 |
           (uint32_t)bytes[3] << 24;
}

static void write_book(const struct draft *draft, struct input *input)
{
    uint8_t *book = input->book;
    uint32_t n = draft->records;

    put_word(book, draft->format);
    put_word(book + 4, draft->modulus);
    put_word(book + 8, draft->fourth);
    put_word(book + 12, n);
    for (uint32_t k = 0; k < n; k++) {
        uint32_t offset = 16 + 4 * n + 8 * k;
        put_word(book + 16 + 4 * k, offset);
        put_half(book + offset, draft->record[k].r);
        put_half(book + offset + 2, draft->record[k].f);
        put_word(book + offset + 4, draft->record[k].zeta);
    }
    input->book_len = 16 + 12 * (size_t)n;
}

static void write_track(const struct draft *draft, struct input *input)
{
    put_word(input->track, draft->marks);
    put_word(input->track + 4, 8);
    for (uint32_t k = 0; k < draft->marks; k++)
        put_word(input->track + 8 + 4 * k, draft->mark[k]);
    input->track_len = 8 + 4 * (size_t)draft->marks;
}

/* ---- damage to what the draft says ---- */

/* Some record of the draft, a made up one if there is none. */
static struct record *some_record(struct source *source, struct draft *draft)
{
    if (draft->records == 0)
        draft->record[draft->records++] = (struct record){ 3, 1, 2 };
    return &draft->record[below(source, draft->records)];
}

static void damage_format(struct source *source, struct draft *draft)
{
    draft->format = PICK(source, 0, 2, 0x101, 0x10001, 0x1000001, 0xffffffff);
}

static void damage_modulus(struct source *source, struct draft *draft)
{
    uint32_t q = draft->modulus, other = any_modulus(source);

    draft->modulus = PICK(source, 0, 1, 2, 3, 7, 8, 0x7fffffff, 0x80000000,
                          0x80000001, 0xfffffff9, 0xffffffff, q + 2, q - 1,
                          q + 8, q | 0x80000000, other, other);
}

static void damage_base(struct source *source, struct draft *draft)
{
    struct record *record = some_record(source, draft);

    record->r = PICK(source, 0, 1, 2, 4, record->r + 1, 2 * record->r, 4093,
                     4095, 4096, 4097, 0x8003, 0xffff);
}

static void damage_power(struct source *source, struct draft *draft)
{
    struct record *record = some_record(source, draft);

    record->f = PICK(source, 0, 0, record->f + 1, record->f + 2, 20, 32, 64,
                     0x100, 0x100 + record->f, 0xffff);
}

static void damage_zeta(struct source *source, struct draft *draft)
{
    struct record *record = some_record(source, draft);
    uint32_t q = draft->modulus, zeta = record->zeta;
    uint32_t sample = (uint32_t)below(source, q);

    record->zeta = PICK(source, 0, 1, q - 1, q - zeta, q, q + 1, q + zeta,
                        zeta + 1, zeta | 0x80000000, 0xffffffff, sample);
}

/* One r of two, with the number of the first: its order is too low. */
static void damage_order(struct source *source, struct draft *draft)
{
    if (draft->records < 2) {
        damage_zeta(source, draft);
        return;
    }
    struct record last = draft->record[--draft->records];
    struct record *record = some_record(source, draft);
    record->r *= last.r;
    record->f = 1;
}

static void damage_fourth(struct source *source, struct draft *draft)
{
    uint32_t q = draft->modulus, fourth = draft->fourth;
    uint32_t sample = (uint32_t)below(source, q);

    draft->fourth = PICK(source, 1, q - 1, q, q + 1, q + fourth, fourth + 1,
                         fourth | 0x80000000, 0xffffffff, sample);
}

/* A book over a modulus that can divide its least r out more than twice,
 * and that r once more, by itself or within another. */
static void damage_sharing(struct source *source, struct draft *draft)
{
    uint32_t q = PICK(source, 433, 1297, 3889, 52489, 746497, 1088391169,
                      2147480641, 2147478481, 46657, 10585);
    uint32_t second = PICK(source, 3, 3, 9, 9, 15, 21);

    draft_book(source, draft, q);
    draft->record[0] = (struct record){ 3, 1, number_of_order(source, q, 3) };
    draft->record[1] = (struct record){ second, 1,
                                        number_of_order(source, q, second) };
    if (one_in(source, 3)) {
        struct record moved = draft->record[0];
        draft->record[0] = draft->record[1];
        draft->record[1] = moved;
    }
    draft->records = 2;
}

/* Eight or nine records, the last ones repeated. */
static void damage_filling(struct source *source, struct draft *draft)
{
    uint32_t full = PICK(source, 8, 9);

    some_record(source, draft);
    for (; draft->records < full; draft->records++)
        draft->record[draft->records] = draft->record[draft->records - 1];
}

static void damage_marks(struct source *source, struct draft *draft)
{
    while (draft->marks < MARKS)
        draft->mark[draft->marks++] = (uint32_t)draw(source);
}

static void damage_draft(struct source *source, struct draft *draft)
{
    static void (*const damages[])(struct source *, struct draft *) = {
        damage_format, damage_modulus, damage_modulus, damage_base,
        damage_power, damage_zeta, damage_order, damage_fourth,
        damage_sharing, damage_filling, damage_marks
    };

    damages[below(source, sizeof damages / sizeof damages[0])](source, draft);
}

/* ---- damage to the bytes ---- */

static void extend(struct source *source, uint8_t *bytes, size_t *len)
{
    uint32_t any = 1 + (uint32_t)below(source, 40);
    size_t more = PICK(source, 1, 4, 8, 12, any);

    for (size_t k = 0; k < more; k++)
        bytes[(*len)++] = (uint8_t)(one_in(source, 2) ? 0 : draw(source));
}

static void change_byte(struct source *source, uint8_t *bytes, size_t len)
{
    uint8_t change = one_in(source, 2) ? (uint8_t)(1u << below(source, 8))
                                       : (uint8_t)(1 + below(source, 255));

    if (len > 0)
        bytes[below(source, len)] ^= change;
}

/* A count whose product by 4 or 12 overflows a word is among them. */
static void damage_book_count(struct source *source, struct input *input)
{
    uint32_t n = word_at(input->book + 12);

    put_word(input->book + 12,
             PICK(source, n + 1, n - 1, 0, 8, 9, 512, 513, n + 0x40000000,
                  n + 0x100, 0x80000000, 0xffffffff));
}

static void damage_book_offset(struct source *source, struct input *input)
{
    size_t n = (input->book_len - 16) / 12;

    if (n == 0) {
        extend(source, input->book, &input->book_len);
        return;
    }
    uint8_t *place = input->book + 16 + 4 * below(source, n);
    uint32_t offset = word_at(place);
    put_word(place, PICK(source, 0, 8, 16, offset + 1, offset - 1, offset + 8,
                         offset - 8, offset + 0x100, offset + 0x80000000,
                         0xffffffff));
}

static void damage_book_length(struct source *source, struct input *input)
{
    if (one_in(source, 3))
        extend(source, input->book, &input->book_len);
    else
        input->book_len = below(source, input->book_len);
    if (one_in(source, 2))
        input->track_len = 0;
}

static void damage_byte(struct source *source, struct input *input)
{
    if (one_in(source, 3))
        change_byte(source, input->track, input->track_len);
    else
        change_byte(source, input->book, input->book_len);
}

static void damage_track_head(struct source *source, struct input *input)
{
    uint32_t n = word_at(input->track);

    if (one_in(source, 2))
        put_word(input->track, PICK(source, n + 1, n - 1, n + 0x40000000,
                                    n + 0x80000000, n + 0x100, 512, 513,
                                    0xffffffff));
    else
        put_word(input->track + 4, PICK(source, 0, 4, 7, 9, 12, 0x108,
                                        0x80000008, 0xffffffff));
}

static void damage_track_length(struct source *source, struct input *input)
{
    switch (below(source, 4)) {
    case 0:
        extend(source, input->track, &input->track_len);
        break;
    case 1:
        input->track_len = below(source, 9);
        break;
    default:
        input->track_len = below(source, input->track_len);
    }
}

/* Nothing at all, or a few bytes by chance. */
static void damage_all(struct source *source, struct input *input)
{
    input->book_len = 0;
    input->track_len = 0;
    if (one_in(source, 2))
        extend(source, input->book, &input->book_len);
}

static void damage_bytes(struct source *source, struct input *input)
{
    static void (*const damages[])(struct source *, struct input *) = {
        damage_book_count, damage_book_offset, damage_book_length,
        damage_byte, damage_byte, damage_byte, damage_track_head,
        damage_track_length, damage_all
    };

    damages[below(source, sizeof damages / sizeof damages[0])](source, input);
}

void generate_input(uint64_t seed, uint64_t number, struct input *input)
{
    struct source source = source_of(seed, number);
    struct draft draft;
    bool damaged = one_in(&source, 2);
    uint64_t kind = below(&source, 16);

    draft_good(&source, &draft);
    if (damaged && kind < 8)
        damage_draft(&source, &draft);
    memset(input, 0, sizeof *input);
    write_book(&draft, input);
    write_track(&draft, input);
    if (damaged && kind > 5)
        damage_bytes(&source, input);
}

/* ---- command lines ---- */

bool read_number(const char *text, uint64_t *number)
{
    char *end;

    if (*text < '0' || *text > '9')
        return false;
    *number = strtoull(text, &end, 10);
    return *end == '\0';
}
