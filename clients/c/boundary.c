/* Tries the boundary of the library, to be run under valgrind: every buffer is a block of exactly its length, so that a byte read or
 * written past it is seen. Arguments: a case, a proposal that is taken, and its listing. Prints what fails. */
#include "foldureem.h"
#include <stdio.h>
#include <stdlib.h>
#include <string.h>

static int failed = 0;

static void check(int ok, const char *what, size_t at) {
    if (!ok) {
        printf("boundary: %s, at %zu\n", what, at);
        failed = 1;
    }
}

/* A block of exactly this length, NULL where it is 0. */
static uint8_t *block(const uint8_t *bytes, size_t length) {
    uint8_t *copy = length == 0 ? NULL : malloc(length);
    if (length != 0)
        memcpy(copy, bytes, length);
    return copy;
}

static uint8_t *read_file(const char *path, size_t *length) {
    static uint8_t bytes[1 << 20];
    FILE *in = fopen(path, "rb");
    if (in == NULL) {
        perror(path);
        exit(2);
    }
    *length = fread(bytes, 1, sizeof bytes, in);
    fclose(in);
    return block(bytes, *length);
}

/* The verdict on the first bytes of each, with an output buffer of this length, which must keep what lies behind the listing. */
static foldureem_verdict judge(const uint8_t *given, size_t a, const uint8_t *proposed, size_t b, size_t room, const uint8_t *listing) {
    foldureem_verdict verdict = {77, 77, 77, 77};
    uint8_t *first = block(given, a), *second = block(proposed, b), *out = room == 0 ? NULL : malloc(room);
    if (room != 0)
        memset(out, 0xA5, room);
    foldureem_verify(first, a, second, b, out, room, &verdict);
    size_t written = verdict.number == 0 ? verdict.length : 0;
    check(written <= room && verdict.length == written, "length of the listing", written);
    check(written == 0 || memcmp(out, listing, written) == 0, "listing", written);
    for (size_t i = written; i < room; i++)
        check(out[i] == 0xA5, "a byte behind the listing changed", i);
    free(first);
    free(second);
    free(out);
    return verdict;
}

static int is(foldureem_verdict v, uint32_t number, uint32_t layer, uint64_t place) {
    return v.number == number && v.layer == layer && v.place == place;
}

int main(int argc, char **argv) {
    if (argc != 4)
        return 2;
    size_t a, b, n;
    uint8_t *given = read_file(argv[1], &a), *proposed = read_file(argv[2], &b), *listing = read_file(argv[3], &n);

    /* nothing at all, and a whole file with nothing */
    check(is(judge(NULL, 0, NULL, 0, 0, NULL), 1, 1, 0), "no files", 0);
    check(is(judge(NULL, 0, proposed, b, n, NULL), 1, 1, 0), "no case", 0);
    check(is(judge(given, a, NULL, 0, n, NULL), 1, 1, 0), "no proposal", 0);

    /* every length of the case and of the proposal, up to a few hundred and then in steps, and one byte too many */
    for (size_t k = 0; k < a; k += k < 300 ? 1 : 97)
        check(judge(given, k, proposed, b, n, NULL).layer == 1, "a case cut short", k);
    for (size_t k = 0; k < b; k += k < 300 ? 1 : 97)
        check(judge(given, a, proposed, k, n, NULL).layer == 1, "a proposal cut short", k);
    uint8_t *longer = malloc(a + b + 1);
    memcpy(longer, given, a);
    longer[a] = 0;
    check(is(judge(longer, a + 1, proposed, b, n, NULL), 4, 1, 7), "a case with a byte more", a);
    memcpy(longer, proposed, b);
    longer[b] = 0;
    check(is(judge(given, a, longer, b + 1, n, NULL), 4, 1, 9), "a proposal with a byte more", b);

    /* output buffers: none, a byte short, just right, a byte longer, and the length that always is enough */
    check(is(judge(given, a, proposed, b, 0, listing), 20, 5, n), "no output buffer", 0);
    check(is(judge(given, a, proposed, b, 1, listing), 20, 5, n), "one byte of output buffer", 1);
    check(is(judge(given, a, proposed, b, n - 1, listing), 20, 5, n), "an output buffer a byte short", n - 1);
    check(is(judge(given, a, proposed, b, n, listing), 0, 0, 0), "an output buffer just right", n);
    check(is(judge(given, a, proposed, b, n + 1, listing), 0, 0, 0), "an output buffer a byte longer", n + 1);
    check(is(judge(given, a, proposed, b, FOLDUREEM_LISTING, listing), 0, 0, 0), "the longest output buffer", FOLDUREEM_LISTING);
    check(judge(given, a, proposed, b, n, listing).length == n, "the length of the listing", n);

    /* many pairs: none, two, an odd number of ends, ends past the files, ends that fall */
    memcpy(longer, given, a);
    memcpy(longer + a, proposed, b);
    uint8_t *files = block(longer, a + b);
    size_t *ends = malloc(4 * sizeof *ends);
    check(foldureem_count(NULL, 0, NULL, 0) == 0, "no pairs", 0);
    ends[0] = a, ends[1] = a + b, ends[2] = a + b, ends[3] = a + b;
    check(foldureem_count(files, a + b, ends, 2) == 1, "one pair", 2);
    check(foldureem_count(files, a + b, ends, 3) == 1, "one pair and a case", 3);
    check(foldureem_count(files, a + b, ends, 4) == 1, "one pair and an empty one", 4);
    ends[1] = a + b + 1;
    check(foldureem_count(files, a + b, ends, 2) == 0, "an end past the files", 2);
    ends[0] = a + b, ends[1] = a;
    check(foldureem_count(files, a + b, ends, 2) == 0, "ends that fall", 2);
    ends[0] = SIZE_MAX, ends[1] = SIZE_MAX;
    check(foldureem_count(files, a + b, ends, 2) == 0, "the largest ends", 2);
    free(ends);
    free(files);
    free(longer);
    free(given);
    free(proposed);
    free(listing);
    return failed;
}
