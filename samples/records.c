/*
 * Judges the product on standard input, of any size, and says how many records it has, and of the last one where it starts, its class and its size.
 *
 *     tools/archive
 *     cc -Iinclude samples/records.c target/libwarpladle.a -o target/records
 *     target/records < samples/rich.eps
 */
#include "bytes.h"

static int show(const uint8_t *product, size_t len, wl_record_row *rows, size_t rows_len)
{
    wl_verdict_answer verdict;
    if (wl_ask_rows(product, len, rows, rows_len, &verdict))
        return tell(verdict.refusal, verdict.place), 1;
    const wl_record_row *last = &rows[verdict.records - 1];
    printf("%llu records, the last at byte %u, %s of %s, %u bytes\n", (unsigned long long)verdict.records, last->start, wl_class_text(last->class_),
           wl_group_text(last->group), last->size);
    return 0;
}

int main(void)
{
    size_t len;
    uint8_t *product = bytes_of(stdin, &len);
    if (product == NULL)
        return perror("standard input"), 2;
    size_t most = len / 20 + 1; /* a record has 20 bytes or more */
    wl_record_row *rows = calloc(most, sizeof *rows);
    int status = rows == NULL ? 2 : show(product, len, rows, most);
    free(rows);
    free(product);
    return status;
}
