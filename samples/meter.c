/*
 * What a handheld meter shows of a scaled number. The number's bytes stand on the command line, in hex: the scale, then a signed integer of 2, 4 or
 * 8 bytes, big-endian, as a product has them. It links the meters' archive alone:
 *
 *     tools/archive
 *     cc -Iinclude samples/meter.c target/libhandheld.a -o target/meter
 *     target/meter 01 02 8f            65.5, which is between two whole numbers
 *     target/meter 01 ff ff            -0.1, whose sign stands in no digit before the point
 *     target/meter 02 19 64            65, a whole number
 *     target/meter fe 00 03            300, since the scale is -2
 *     target/meter 01 80 00            missing: the lowest integer says that there is none
 */
#include <stdio.h>
#include <stdlib.h>
#include "warpladle.h"

int main(int count, char **words)
{
    uint8_t bytes[9];
    size_t len = 0;
    for (int i = 1; i < count && len < sizeof bytes; i++)
        bytes[len++] = (uint8_t)strtoul(words[i], NULL, 16);

    wl_scaled_answer number;
    if (wl_ask_read_scaled(bytes, len, 0, len - 1, 1, &number))
        return printf("refused %d %d\n", (int)number.refusal, (int)number.place), 1;

    double value;
    wl_value_answer shown;
    if (wl_ask_reading(number.defined != 0, number.integer, (int8_t)number.scale, &value, &shown))
        return printf("refused %d %d\n", (int)shown.refusal, (int)shown.place), 1;
    if (shown.value == WL_MISSING)
        puts("missing");
    else if (shown.value == WL_WHOLE)
        printf("%.0f\n", value);
    else
        printf("%.*f\n", (int)number.scale, value);
    return 0;
}
