/*
 * The blocks of the humidity file on standard input, of any size: line, column, UTH and CSR of each, or a dash for what is missing.
 *
 *     tools/archive
 *     cc -Iinclude samples/humidity.c target/libwarpladle.a -o target/humidity
 *     target/humidity < samples/humidity.uth
 */
#include "bytes.h"

static void show_value(uint32_t there, float value)
{
    if (there)
        printf(" %.2f", (double)value);
    else
        printf(" -");
}

static int show(const uint8_t *file, size_t len, wl_block *blocks, wl_block_values *values, size_t places)
{
    wl_blocks_answer answer;
    if (wl_ask_uth(file, len, blocks, places, values, places, &answer))
        return tell(answer.refusal, answer.place), 1;
    for (size_t k = 0; k < answer.blocks; k++) {
        printf("%u %u", blocks[k].line, blocks[k].column);
        show_value(blocks[k].has_uth, values[k].uth);
        show_value(blocks[k].has_csr, values[k].csr);
        puts("");
    }
    return 0;
}

int main(void)
{
    size_t len;
    uint8_t *file = bytes_of(stdin, &len);
    if (file == NULL)
        return perror("standard input"), 2;
    size_t places = len / 72 + 1; /* a block has 72 bytes */
    wl_block *blocks = calloc(places, sizeof *blocks);
    wl_block_values *values = calloc(places, sizeof *values);
    int status = blocks == NULL || values == NULL ? 2 : show(file, len, blocks, values, places);
    free(values);
    free(blocks);
    free(file);
    return status;
}
