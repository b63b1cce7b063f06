/*
 * The report of a list of products: how many there are, how many are refused and why, their MDRs, and the gaps and overlaps between these.
 *
 *     tools/archive
 *     cc -Iinclude samples/report.c target/libwarpladle.a -o target/report
 *     target/report samples/rich.eps samples/example.eps
 */
#include <string.h>
#include "bytes.h"

/* Adds the product of a file; a product that is refused is counted, and told by its name. */
static int add(wl_report *report, const char *name)
{
    size_t len;
    uint8_t *product = bytes_of_file(name, &len);
    if (product == NULL)
        return 2;
    wl_report_answer answer;
    int refusal = wl_ask_report_add(report, product, len, &answer);
    free(product);
    if (refusal)
        return tell(answer.refusal, answer.place), 2; /* full: 4,096 products */
    if (answer.product_refusal)
        printf("%s: refused %llu %llu\n", name, (unsigned long long)answer.product_refusal, (unsigned long long)answer.product_place);
    return 0;
}

static void show(const wl_report *report)
{
    printf("products %llu, accepted %llu\n", (unsigned long long)report->products, (unsigned long long)report->accepted);
    for (int n = WL_FIRST_HEADER; n <= WL_UNFINISHED; n++)
        if (report->refused[n - 1])
            printf("refused with %d, %s: %llu\n", n, wl_refusal_text((uint64_t)n), (unsigned long long)report->refused[n - 1]);
    printf("MDRs %llu, %llu bytes, gaps %llu ms, overlaps %llu ms\n", (unsigned long long)report->records[WL_MDR - 1],
           (unsigned long long)report->bytes[WL_MDR - 1], (unsigned long long)report->gap_ms, (unsigned long long)report->overlap_ms);
}

int main(int count, char **words)
{
    wl_report report;
    int status = 0;
    memset(&report, 0, sizeof report); /* a new report is all zeros */
    for (int k = 1; k < count && !status; k++)
        status = add(&report, words[k]);
    show(&report);
    return status;
}
