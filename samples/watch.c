/*
 * Watches a product that arrives on standard input, in parts of 512 bytes that are not kept, and says at the end, or as soon as it is refused, what came.
 *
 *     tools/archive
 *     cc -Iinclude samples/watch.c target/libwarpladle.a -o target/watch
 *     target/watch < samples/rich.eps
 */
#include <stdio.h>
#include <string.h>
#include "warpladle.h"

#define MAIN_HEADER 3307 /* its bytes: they alone are kept, since they say how long the product is */

/* Keeps of a part what belongs to the main header, of which `have` bytes came before. */
static void keep(uint8_t *head, size_t have, const uint8_t *part, size_t len)
{
    if (have < MAIN_HEADER)
        memcpy(head + have, part, len < MAIN_HEADER - have ? len : MAIN_HEADER - have);
}

/* All of a product has come where a watch that waits has come to the declared size. */
static int is_whole(const uint8_t *head, size_t have, uint64_t end)
{
    wl_number_answer declared;
    return have >= MAIN_HEADER && !wl_ask_number_field(head, MAIN_HEADER, WL_FIELD_ACTUAL_PRODUCT_SIZE, &declared) && end == (uint64_t)declared.value;
}

int main(void)
{
    static wl_watch watch;
    static uint8_t head[MAIN_HEADER];
    wl_arrival_answer came = {0, 0, 0, 0};
    uint8_t part[512];
    size_t have = 0, got;
    wl_watch_new(&watch);
    while ((got = fread(part, 1, sizeof part, stdin)) > 0) {
        if (wl_ask_watch_feed(&watch, part, got, &came)) /* final: every longer arrival is refused so too */
            return printf("refused %d %d: %s\n", (int)came.refusal, (int)came.place, wl_refusal_text(came.refusal)), 1;
        keep(head, have, part, got);
        have += got;
    }
    if (ferror(stdin))
        return perror("standard input"), 2;
    int whole = is_whole(head, have, came.place);
    printf("%s: %d records, %d of %d bytes\n", whole ? "whole" : "waiting", (int)came.records, (int)came.place, (int)have);
    return whole ? 0 : 3;
}
