/* A first use from C: load a network, write the picture, update; COUNT camera rows from row FIRST on change, update; read.
 *
 *   cc -Iinclude examples/c/first.c "$(tools/archive native)/libclew_c.a" -o first
 *   ./first samples/centre.net samples/picture.bytes 15 3 samples/rows-15-to-17.bytes
 *
 * What is wrong with a word, a file or a call is said on standard error, and the exit status is 1. */
#include "clew.h"

#include <inttypes.h>
#include <stdio.h>
#include <stdlib.h>
#include <string.h>

/* One byte more than a network may have, so that a longer file is seen and not cut. */
enum { FILE_MOST = 65537 };

struct file {
    uint8_t *bytes;
    size_t len;
};

static struct file net;
static uint32_t sizes[4], *sums;
static uint8_t *area, *out;
static uint16_t state[34];

static const char *const words[10] = {
    "done",
    "a record is cut, its mark unknown, a spare not 0, or bytes follow the last layer",
    "a field or bias outside its range",
    "file too long, kernel too big, shapes of an add differ, tensor j not there yet, a tensor or all tensors too big",
    "sum store or area shorter than needed (longer is allowed; the rest stays)",
    "a band not 0,0 for a tensor that the network lacks; first > end; end > rows; empty but not 0,0",
    "a stored sum above 255N",
    "layer number not 1..n; no rows, or rows beyond the picture; rows or reading slice of the wrong length",
    "a reading while any band is not empty",
    "replacement differs in length, or in bytes 0-6 (convolution), 0-3 (full), 0-2 (add); or has a field, bias or spare out of range",
};

static void done(const char *call, uint8_t number)
{
    if (number != 0) {
        fprintf(stderr, "%s: refused %d: %s\n", call, number, words[number]);
        exit(1);
    }
}

/* A block of n bytes; of none it may be NULL. */
static void *room(size_t n)
{
    void *block = calloc(n, 1);
    if (block == NULL && n > 0) {
        perror("first");
        exit(1);
    }
    return block;
}

static struct file read_file(const char *name)
{
    struct file f = {room(FILE_MOST), 0};
    FILE *from = fopen(name, "rb");
    if (from != NULL)
        f.len = fread(f.bytes, 1, FILE_MOST, from);
    if (from == NULL || ferror(from)) {
        perror(name);
        exit(1);
    }
    fclose(from);
    return f;
}

/* Digits alone, and at most nine that count. */
static size_t number(const char *word)
{
    size_t value = 0;
    const char *c = word;
    for (; *c >= '0' && *c <= '9' && value < 100000000; c++)
        value = 10 * value + (size_t)(*c - '0');
    if (c == word || *c != '\0') {
        fprintf(stderr, "'%s' is not a number below 1000000000\n", word);
        exit(1);
    }
    return value;
}

/* Loads the network with buffers of just the sizes that it needs, and writes the picture to the front of the area. */
static void begin(const char *network, const char *picture)
{
    net = read_file(network);
    done("sizes", clew_sizes(net.bytes, net.len, sizes));
    struct file p = read_file(picture);
    if (p.len != sizes[0]) {
        const char *how = p.len < sizes[0] ? "fewer" : "more";
        fprintf(stderr, "%s: %s bytes than the network's picture, which has %" PRIu32 "\n", picture, how, sizes[0]);
        exit(1);
    }
    sums = room(sizes[1] * sizeof *sums);
    area = room(sizes[2]);
    out = room(sizes[3]);
    done("load", clew_load(net.bytes, net.len, sums, sizes[1], area, sizes[2], state));
    memcpy(area, p.bytes, p.len);
}

static void update(void)
{
    uint32_t count;
    done("update", clew_update(net.bytes, net.len, sums, sizes[1], area, sizes[2], state, &count));
    printf("%" PRIu32 " bytes recomputed\n", count);
}

int main(int argc, char **argv)
{
    if (argc != 6) {
        fprintf(stderr, "usage: first NETWORK PICTURE FIRST COUNT ROWS\n");
        return 1;
    }
    size_t first = number(argv[3]), count = number(argv[4]);
    begin(argv[1], argv[2]);
    struct file rows = read_file(argv[5]);
    update();
    done("change rows",
         clew_change_rows(net.bytes, net.len, sums, sizes[1], area, sizes[2], state, first, count, rows.bytes, rows.len));
    update();
    done("read", clew_read(net.bytes, net.len, sums, sizes[1], area, sizes[2], state, out, sizes[3]));
    for (size_t i = 0; i < sizes[3]; i++)
        printf(" %d", out[i]);
    printf("\n");
    return 0;
}
