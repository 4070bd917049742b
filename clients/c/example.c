/* Judges two files, as `verify CASE PROPOSAL` does: the listing, or one line that says which question got a no.
 *     cc example.c $(PKG_CONFIG_PATH=target pkg-config --cflags --libs foldureem) */
#include "foldureem.h"
#include <stdio.h>
#include <stdlib.h>

typedef struct {
    uint8_t *bytes;
    size_t length;
} file;

static file read_file(const char *path) {
    file f = {NULL, 0};
    FILE *in = fopen(path, "rb");
    if (in == NULL || fseek(in, 0, SEEK_END) != 0 || (f.length = (size_t)ftell(in), f.bytes = malloc(f.length + 1)) == NULL) {
        perror(path);
        exit(2);
    }
    rewind(in);
    f.length = fread(f.bytes, 1, f.length, in);
    fclose(in);
    return f;
}

int main(int argc, char **argv) {
    static uint8_t listing[FOLDUREEM_LISTING];
    foldureem_verdict verdict;
    if (argc != 3) {
        fputs("usage: example CASE PROPOSAL\n", stderr);
        return 2;
    }
    file proposed = read_file(argv[2]), given = read_file(argv[1]);
    foldureem_verify(given.bytes, given.length, proposed.bytes, proposed.length, listing, sizeof listing, &verdict);
    if (verdict.number == 0)
        fwrite(listing, 1, verdict.length, stdout);
    else if (verdict.number == FOLDUREEM_NO_MEMORY)
        fputs("no memory\n", stderr);
    else
        printf("refused %u %u %llu\n", verdict.number, verdict.layer, (unsigned long long)verdict.place);
    return verdict.number != 0;
}
