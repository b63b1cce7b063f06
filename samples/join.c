/*
 * Joins two granules of a pass that follow each other and writes them as one product to standard output.
 *
 *     tools/archive
 *     cc -Iinclude samples/join.c target/libwarpladle.a -o target/join
 *     target/join FIRST SECOND > target/pass.eps
 */
#include "bytes.h"

typedef struct product {
    uint8_t *bytes;
    size_t len;
} product;

/* Asks with no room how much is needed, and then with that much. */
static int write_join(product first, product second)
{
    uint8_t none[1];
    wl_written_answer written;
    if (wl_ask_join_pass(first.bytes, first.len, second.bytes, second.len, none, 0, &written) != WL_ROOM)
        return tell(written.refusal, written.place), 1;
    size_t room_len = (size_t)written.place;
    uint8_t *room = malloc(room_len);
    if (room == NULL)
        return perror("the join"), 2;
    int refusal = wl_ask_join_pass(first.bytes, first.len, second.bytes, second.len, room, room_len, &written);
    int done = !refusal && fwrite(room, 1, (size_t)written.bytes, stdout) == written.bytes && fflush(stdout) == 0;
    free(room);
    return done ? 0 : 2;
}

int main(int count, char **words)
{
    if (count != 3)
        return fprintf(stderr, "usage: join FIRST SECOND\n"), 2;
    product first, second;
    first.bytes = bytes_of_file(words[1], &first.len);
    second.bytes = bytes_of_file(words[2], &second.len);
    int status = first.bytes == NULL || second.bytes == NULL ? 2 : write_join(first, second);
    free(first.bytes);
    free(second.bytes);
    return status;
}
