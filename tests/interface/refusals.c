/* The calls from C: each refusal number at every call that gives it, NULL for every buffer of length 0, a morning over two small
 * networks, and guard bytes before and after each buffer. After a call every byte lent has to be as expected.
 *
 *   refusals          the buffers stand between guard bytes
 *   refusals exact    each buffer is a block of its own with nothing around it, for a tool that watches where blocks end
 *
 * What is expected comes from document 01, and never from the library. */
#include "clew.h"

#include <stdio.h>
#include <stdlib.h>
#include <string.h>

enum call { SIZES, LOAD, CHANGE_ROWS, REPLACE_LAYER, UPDATE, READ, CALLS };
enum buffer { NET, SUMS, AREA, STATE, OWN, ANSWER, BUFFERS };

static const char *const calls[CALLS] = {"sizes", "load", "change rows", "replace layer", "update", "read"};
static const char *const buffers[BUFFERS] = {"network", "sums", "area", "state", "rows, record or reading", "count or sizes"};

/* A buffer as it is lent: NULL where it has no bytes. */
static struct lent {
    size_t bytes;
    void *at;
    unsigned char *block, *expected;
} lent[BUFFERS];

static size_t guard = 64;
static unsigned made;

static void fail(enum call which, const char *what, const char *why, const char *where)
{
    printf("refusals: %s, %s: %s%s\n", calls[which], what, why, where);
    exit(1);
}

static unsigned char *block(size_t n)
{
    unsigned char *b = malloc(n > 0 ? n : 1);
    if (b == NULL) {
        printf("refusals: no memory\n");
        exit(1);
    }
    return b;
}

/* Lends a copy of n bytes, which are expected to stay; with no bytes given they are left unset. */
static void lend(enum buffer which, const void *bytes, size_t n)
{
    struct lent *b = &lent[which];
    free(b->block);
    free(b->expected);
    b->bytes = n;
    b->block = block(n + 2 * guard);
    b->expected = block(n);
    b->at = n > 0 ? b->block + guard : NULL;
    memset(b->block, 0xA5, guard);
    memset(b->block + guard + n, 0xA5, guard);
    if (n > 0 && bytes != NULL) {
        memcpy(b->at, bytes, n);
        memcpy(b->expected, bytes, n);
    }
}

static void expect(enum buffer which, const void *bytes)
{
    memcpy(lent[which].expected, bytes, lent[which].bytes);
}

/* The state in which tensors 0 and 1 have these bands, and the others none. */
static void expect_bands(uint16_t first, uint16_t end, uint16_t first_1, uint16_t end_1)
{
    const uint16_t state[34] = {first, end, first_1, end_1};
    expect(STATE, state);
}

/* Band 1,0 everywhere. */
static void set_all_stale(uint16_t state[34])
{
    for (int i = 0; i < 34; i++)
        state[i] = i % 2 == 0;
}

static uint8_t answer(enum call which, size_t first, size_t count)
{
    uint8_t *net = lent[NET].at, *area = lent[AREA].at, *own = lent[OWN].at;
    uint32_t *sums = lent[SUMS].at, *answers = lent[ANSWER].at;
    uint16_t *state = lent[STATE].at;
    size_t n = lent[NET].bytes, s = lent[SUMS].bytes / sizeof *sums, a = lent[AREA].bytes, o = lent[OWN].bytes;
    switch (which) {
    case SIZES:
        return clew_sizes(net, n, answers);
    case LOAD:
        return clew_load(net, n, sums, s, area, a, state);
    case CHANGE_ROWS:
        return clew_change_rows(net, n, sums, s, area, a, state, first, count, own, o);
    case REPLACE_LAYER:
        return clew_replace_layer(net, n, sums, s, area, a, state, first, own, o);
    case UPDATE:
        return clew_update(net, n, sums, s, area, a, state, answers);
    default:
        return clew_read(net, n, sums, s, area, a, state, own, o);
    }
}

/* The bytes of a block from a place on: all guard bytes? */
static int guarded(const unsigned char *from)
{
    size_t i = 0;
    while (i < guard && from[i] == 0xA5)
        i++;
    return i == guard;
}

/* Makes a call, and holds its number and every byte to what is expected. */
static void check(enum call which, size_t first, size_t count, uint8_t number, const char *what)
{
    uint8_t given = answer(which, first, count);
    made++;
    if (given != number) {
        char why[64];
        sprintf(why, "answers %d, and %d is expected", given, number);
        fail(which, what, why, "");
    }
    for (int i = 0; i < BUFFERS; i++) {
        const struct lent *b = &lent[i];
        if (!guarded(b->block))
            fail(which, what, "it wrote before the ", buffers[i]);
        if (!guarded(b->block + guard + b->bytes))
            fail(which, what, "it wrote past the ", buffers[i]);
        if (b->bytes > 0 && memcmp(b->at, b->expected, b->bytes) != 0)
            fail(which, what, "other bytes are expected in the ", buffers[i]);
    }
}

/* What a call is given, to be spoilt. */
struct given {
    uint8_t net[39], area[6], own[30];
    uint32_t sums[1];
    uint16_t state[34];
    size_t net_len, sums_len, area_len, own_len, first, count;
};

/* Network K of document 01, and its record of layer 1. */
static const uint8_t k[39] = {0x4E, 0x48, 3, 0, 1, 0, 1, 10, 1, 0, /* the record */
                              0x43, 0x56, 1, 3, 3, 1, 1, 0, 0, 0, 255, 0, 0, 0, 0, 0x40, 0, 0, 0, 0, 1, 1, 1, 1, 1, 1, 1, 1, 1};
static const uint8_t *const k_record = k + 10;
enum { K_RECORD = 29 };

/* A call that is taken: over K, its sum, the picture and bytes of P2, and no stale row. */
static struct given good(enum call which)
{
    struct given g = {.area = {20, 30, 40, 15, 30, 25}, .own = {22}, .sums = {9}, .net_len = 39, .sums_len = 1, .area_len = 6};
    const size_t lengths[CALLS] = {[CHANGE_ROWS] = 1, [REPLACE_LAYER] = K_RECORD, [READ] = 3};
    memcpy(g.net, k, sizeof k);
    if (which == REPLACE_LAYER)
        memcpy(g.own, k_record, K_RECORD);
    g.own_len = lengths[which];
    g.first = which == REPLACE_LAYER;
    g.count = 1;
    return g;
}

static void lend_answer(enum call which)
{
    const uint32_t before[4] = {77, 77, 77, 77}, none[4] = {0};
    lend(ANSWER, before, which == SIZES ? 16 : which == UPDATE ? 4 : 0);
    expect(ANSWER, none);
}

/* Lends what is given; all of it is to stay, and what is answered is 0: a refusal. */
static void lend_all(enum call which, const struct given *g)
{
    lend(NET, g->net, g->net_len);
    lend(SUMS, g->sums, g->sums_len * sizeof g->sums[0]);
    lend(AREA, g->area, g->area_len);
    lend(STATE, g->state, sizeof g->state);
    lend(OWN, g->own, g->own_len);
    lend_answer(which);
    if (which == LOAD) {
        uint16_t stale[34];
        set_all_stale(stale);
        expect(STATE, stale);
    }
}

static void no_network(struct given *g)
{
    g->net_len = 0;
}

static void cut(struct given *g)
{
    g->net_len--;
}

static void large_bias(struct given *g)
{
    g->net[26] = 1;
    g->net[29] = 0x40;
}

static void large_picture(struct given *g)
{
    g->net[2] = g->net[4] = 0;
    g->net[3] = g->net[5] = 1;
}

static void no_sums(struct given *g)
{
    g->sums_len = 0;
}

static void no_area(struct given *g)
{
    g->area_len = 0;
}

static void short_area(struct given *g)
{
    g->area_len--;
}

static void all_stale(struct given *g)
{
    set_all_stale(g->state);
}

static void large_sum(struct given *g)
{
    g->sums[0] = 2296;
}

static void no_rows(struct given *g)
{
    g->count = g->own_len = 0;
}

static void rows_beyond(struct given *g)
{
    g->first = 3;
}

static void rows_around(struct given *g)
{
    g->first = SIZE_MAX;
}

static void nothing(struct given *g)
{
    g->own_len = 0;
}

static void a_byte_more(struct given *g)
{
    g->own_len++;
}

static void layer_0(struct given *g)
{
    g->first = 0;
}

static void layer_2(struct given *g)
{
    g->first = 2;
}

static void stale_row(struct given *g)
{
    g->state[1] = 1;
}

static void other_padding(struct given *g)
{
    g->own[6] = 0;
}

static void other_bias(struct given *g)
{
    g->own[16] = 1;
    g->own[19] = 0x40;
}

enum { ALL = (1 << CALLS) - 1, LENT = ALL - (1 << SIZES), LATER = LENT - (1 << LOAD) };

static const struct fault {
    uint8_t number;
    unsigned calls;
    const char *what;
    void (*spoil)(struct given *);
} faults[] = {
    {1, ALL, "an empty network (NULL)", no_network},
    {1, ALL, "a record that is cut", cut},
    {2, ALL, "bias 2^30 + 1", large_bias},
    {3, ALL, "a picture of 256 x 256 bytes", large_picture},
    {4, LENT, "no sum store (NULL)", no_sums},
    {4, LENT, "no area (NULL)", no_area},
    {4, LENT, "an area that is a byte short", short_area},
    {5, LATER, "the all-stale state", all_stale},
    {6, LATER, "sum 2296, and N is 9", large_sum},
    {7, 1 << CHANGE_ROWS, "no rows (NULL)", no_rows},
    {7, 1 << CHANGE_ROWS, "a row and no bytes (NULL)", nothing},
    {7, 1 << CHANGE_ROWS, "a byte more than the row has", a_byte_more},
    {7, 1 << CHANGE_ROWS, "a row beyond the picture", rows_beyond},
    {7, 1 << CHANGE_ROWS, "a row as far beyond as can be", rows_around},
    {7, 1 << REPLACE_LAYER, "layer 0", layer_0},
    {7, 1 << REPLACE_LAYER, "layer 2 of 1", layer_2},
    {7, 1 << READ, "no room (NULL)", nothing},
    {7, 1 << READ, "a byte more than the last tensor has", a_byte_more},
    {8, 1 << READ, "a stale row", stale_row},
    {9, 1 << REPLACE_LAYER, "no record (NULL)", nothing},
    {9, 1 << REPLACE_LAYER, "a record with a byte more", a_byte_more},
    {9, 1 << REPLACE_LAYER, "a record with another padding", other_padding},
    {9, 1 << REPLACE_LAYER, "a record with bias 2^30 + 1", other_bias},
};

/* A fault at each call that has to find it. */
static void try_fault(const struct fault *f)
{
    for (int which = 0; which < CALLS; which++) {
        if (f->calls & 1u << which) {
            struct given g = good(which);
            f->spoil(&g);
            lend_all(which, &g);
            check(which, g.first, g.count, f->number, f->what);
        }
    }
}

static void check_sizes(const uint32_t sizes[4], const char *what)
{
    lend_answer(SIZES);
    expect(ANSWER, sizes);
    check(SIZES, 0, 0, 0, what);
}

/* After an update no row is stale. */
static void check_update(uint32_t count, const uint8_t *area, const char *what)
{
    lend_answer(UPDATE);
    expect(ANSWER, &count);
    expect(AREA, area);
    expect_bands(0, 0, 0, 0);
    check(UPDATE, 0, 0, 0, what);
    lend_answer(LOAD);
}

static void check_read(const uint8_t *reading, size_t n, const char *what)
{
    lend(OWN, NULL, n);
    expect(OWN, reading);
    check(READ, 0, 0, 0, what);
    lend(OWN, NULL, 0);
}

/* P1 to P3 of document 01, and K's record for itself. The state is unset before the load. */
static void play_k(void)
{
    const uint8_t p2[6] = {20, 30, 40, 15, 30, 25}, changed[6] = {22, 30, 40, 15, 30, 25}, p3[6] = {22, 30, 40, 16, 31, 25};
    const uint32_t sums[1] = {77}, filled[1] = {9}, sizes[4] = {3, 1, 6, 3};
    lend(NET, k, sizeof k);
    lend(SUMS, sums, sizeof sums);
    lend(AREA, (const uint8_t[6]){20, 30, 40}, 6);
    lend(STATE, NULL, 68);
    lend(OWN, NULL, 0);
    expect_bands(0, 3, 0, 3);
    lend_answer(LOAD);
    expect(SUMS, filled);
    check(LOAD, 0, 0, 0, "K");
    check_sizes(sizes, "K");
    check_update(3, p2, "K, P2");
    lend(OWN, &changed[0], 1);
    expect(AREA, changed);
    expect_bands(0, 1, 0, 0);
    check(CHANGE_ROWS, 0, 1, 0, "K");
    check_update(2, p3, "K, P3");
    check_read(p3 + 3, 3, "K");
    lend(OWN, k_record, K_RECORD);
    expect_bands(0, 0, 0, 3);
    check(REPLACE_LAYER, 1, 0, 0, "K");
    check_update(3, p3, "K, its record anew");
}

/* A picture of two bytes, zero-point 10, added to itself by P9's numbers: 20 gives 10 / 2 + 10 / 2 = 10, of which a half times
 * 2^20 / 2^18 is 20, and with output zero-point 5 it is 25; so 30 gives 45 and 40 gives 65. No layer has sums: NULL at every call. */
static void play_adds(void)
{
    const uint8_t net[32] = {0x4E, 0x48, 2, 0, 1, 0, 1, 10, 1, 0, /* the record */
                             0x41, 0x44, 0, 5, 0, 255, 0, 0, 0, 0x40, 0, 0, 0, 0x40, 0, 0, 0, 0x40, 0, 0, 18, 0};
    const uint8_t area[4] = {20, 30}, first[4] = {20, 30, 25, 45};
    const uint8_t changed[4] = {20, 40, 25, 45}, second[4] = {20, 40, 25, 65};
    const uint32_t sizes[4] = {2, 0, 4, 2};
    lend(NET, net, sizeof net);
    lend(SUMS, NULL, 0);
    lend(AREA, area, 4);
    lend(STATE, NULL, 68);
    expect_bands(0, 2, 0, 2);
    lend(OWN, NULL, 0);
    lend_answer(LOAD);
    check(LOAD, 0, 0, 0, "adds alone");
    check_sizes(sizes, "adds alone");
    check_update(2, first, "adds alone");
    check_read(first + 2, 2, "adds alone");
    lend(OWN, &changed[1], 1);
    expect(AREA, changed);
    expect_bands(1, 2, 0, 0);
    check(CHANGE_ROWS, 1, 1, 0, "adds alone");
    lend(OWN, net + 10, 22);
    expect_bands(1, 2, 0, 2);
    check(REPLACE_LAYER, 1, 0, 0, "adds alone");
    check_update(2, second, "adds alone");
}

int main(int argc, char **argv)
{
    if (argc > 1 && strcmp(argv[1], "exact") == 0)
        guard = 0;
    for (size_t i = 0; i < sizeof faults / sizeof faults[0]; i++)
        try_fault(&faults[i]);
    play_k();
    play_adds();
    printf("refusals: %u calls answer and leave what document 01 says\n", made);
    return 0;
}
