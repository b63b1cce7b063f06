/*
 * The blocks of the humidity file on standard input, of any size: line, column, UTH and CSR of each, or a dash for what is missing.
 *
 *     tools/archive
 *     cc -Iinclude samples/humidity.c target/libwarpladle.a -o target/humidity
 *     target/humidity < samples/humidity.uth
 */
#include <stdio.h>
#include <stdlib.h>
#include "warpladle.h"

static void show(uint32_t there, float value)
{
    if (there)
        printf(" %.2f", value);
    else
        printf(" -");
}

int main(void)
{
    size_t len = 0, room = 1 << 20, got;
    uint8_t *file = malloc(room);
    while (file != NULL && (got = fread(file + len, 1, room - len, stdin)) > 0) {
        len += got;
        if (len == room)
            file = realloc(file, room *= 2);
    }
    size_t places = len / 72 + 1; /* a block has 72 bytes */
    uint32_t (*blocks)[4] = calloc(places, sizeof *blocks);
    float (*values)[2] = calloc(places, sizeof *values);
    if (file == NULL || blocks == NULL || values == NULL || ferror(stdin))
        return perror("standard input"), 2;

    uint64_t answer[WL_ANSWER];
    wl_uth(file, len, blocks, places, values, places, answer);
    if (answer[0] != WL_ACCEPTED)
        return printf("refused %llu %llu\n", (unsigned long long)answer[0], (unsigned long long)answer[1]), 1;
    for (size_t k = 0; k < answer[2]; k++) {
        printf("%u %u", (unsigned)blocks[k][0], (unsigned)blocks[k][1]);
        show(blocks[k][2], values[k][0]);
        show(blocks[k][3], values[k][1]);
        puts("");
    }
    return 0;
}
