/*
 * Judges the product on standard input, of any size, and says how many records it has, and of the last one where it starts, its class and its size.
 *
 *     tools/archive
 *     cc -Iinclude samples/records.c target/libwarpladle.a -o target/records
 *     target/records < samples/rich.eps
 */
#include <stdio.h>
#include <stdlib.h>
#include "warpladle.h"

int main(void)
{
    size_t len = 0, room = 1 << 20, got;
    uint8_t *product = malloc(room);
    while (product != NULL && (got = fread(product + len, 1, room - len, stdin)) > 0) {
        len += got;
        if (len == room)
            product = realloc(product, room *= 2);
    }
    uint32_t(*rows)[WL_ROW] = calloc(len / 20 + 1, sizeof *rows); /* a record has 20 bytes or more */
    if (product == NULL || rows == NULL || ferror(stdin))
        return perror("standard input"), 2;

    uint64_t answer[WL_ANSWER];
    wl_rows(product, len, rows, len / 20 + 1, answer);
    if (answer[0] != WL_ACCEPTED)
        return printf("refused %llu %llu\n", (unsigned long long)answer[0], (unsigned long long)answer[1]), 1;
    const uint32_t *last = rows[answer[2] - 1];
    printf("%llu records, the last at byte %u, of class %u and %u bytes\n", (unsigned long long)answer[2], last[WL_START], last[WL_CLASS], last[WL_SIZE]);
    return 0;
}
