/*
 * Cuts a window of time out of the product on standard input and writes it as a product to standard output. The ends of the window, which both belong to it,
 * are written YYYYMMDDHHMMSSmmmZ.
 *
 *     tools/archive
 *     cc -Iinclude samples/cut.c target/libwarpladle.a -o target/cut
 *     target/cut 20160605000008000Z 20160605000020000Z < samples/rich.eps > target/town.eps
 */
#include <string.h>
#include "bytes.h"

/* The cut into a room of this size; where the size is too small, `written.place` says which is needed. */
static int cut(const uint8_t *product, size_t len, const wl_time *from, const wl_time *to, uint8_t *room, size_t room_len, wl_written_answer *written)
{
    return wl_ask_cut(product, len, from->defined != 0, (uint16_t)from->day, (uint32_t)from->milli, to->defined != 0, (uint16_t)to->day,
                      (uint32_t)to->milli, room, room_len, written);
}

/* Asks with no room how much is needed, and then with that much. */
static int write_cut(const uint8_t *product, size_t len, const wl_time *from, const wl_time *to)
{
    uint8_t none[1];
    wl_written_answer written;
    if (cut(product, len, from, to, none, 0, &written) != WL_ROOM)
        return tell(written.refusal, written.place), 1;
    size_t room_len = (size_t)written.place;
    uint8_t *room = malloc(room_len);
    if (room == NULL)
        return perror("the cut"), 2;
    int refusal = cut(product, len, from, to, room, room_len, &written);
    int done = !refusal && fwrite(room, 1, (size_t)written.bytes, stdout) == written.bytes && fflush(stdout) == 0;
    free(room);
    return done ? 0 : 2;
}

static int is_time(const char *text, wl_time_answer *time)
{
    return strlen(text) == 18 && !wl_ask_text_time((const uint8_t *)text, 18, 0, time);
}

int main(int count, char **words)
{
    wl_time_answer from, to;
    if (count != 3 || !is_time(words[1], &from) || !is_time(words[2], &to))
        return fprintf(stderr, "usage: cut FROM TO, each YYYYMMDDHHMMSSmmmZ\n"), 2;
    size_t len;
    uint8_t *product = bytes_of(stdin, &len);
    if (product == NULL)
        return perror("standard input"), 2;
    int status = write_cut(product, len, &from.time, &to.time);
    free(product);
    return status;
}
