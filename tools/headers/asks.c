/*
 * What the structs and the functions of the header alone say, against the arrays: for the product on standard input each wl_ask_ function that reads it is
 * asked beside its own, and named parts are held against their places. It is C99 and C++ too. Prints how many comparisons held; ends with 1 at the first
 * that does not.
 */
#include <stdio.h>
#include <stdlib.h>
#include <string.h>
#include "warpladle.h"

static int held = 0;
static uint64_t numbers[WL_LEN_REPORT];
static uint8_t product[1 << 16];
static size_t len;

#define HOLD(what)                                                       \
    do {                                                                 \
        if (!(what)) {                                                   \
            printf("line %d does not hold: %s\n", __LINE__, #what);      \
            exit(1);                                                     \
        }                                                                \
        held++;                                                          \
    } while (0)
/* the struct has the bytes of the array that the function itself fills */
#define ALIKE(answer) HOLD(memcmp(&(answer), numbers, sizeof(answer)) == 0)

static void judges(void)
{
    wl_arrival_answer arrival;
    wl_extent_answer extent;
    wl_verdict_answer verdict;
    HOLD(wl_ask_arrival(product, len, &arrival) == WL_ACCEPTED);
    wl_arrival(product, len, numbers);
    ALIKE(arrival);
    HOLD(arrival.place == len);
    HOLD(wl_ask_extent(product, len, &extent) == WL_ACCEPTED && extent.whole == 1 && extent.records == arrival.records);
    wl_extent(product, len, numbers);
    ALIKE(extent);
    HOLD(wl_ask_verdict(product, len, &verdict) == WL_ACCEPTED && verdict.records == arrival.records);
    HOLD(wl_ask_verdict(product, len - 1, &verdict) == WL_UNFINISHED && verdict.place == len - 1);
    wl_verdict(product, len - 1, numbers);
    ALIKE(verdict);
    HOLD(strcmp(wl_refusal_text(verdict.refusal), "the product is finished short of its main header or of its declared size") == 0);
}

static void records(void)
{
    static wl_record_row named[4096];
    static uint32_t rows[4096][WL_LEN_ROW];
    wl_verdict_answer counted;
    wl_record_answer record;
    HOLD(wl_ask_rows(product, len, named, 4096, &counted) == WL_ACCEPTED);
    wl_rows(product, len, rows, 4096, numbers);
    ALIKE(counted);
    HOLD(memcmp(named, rows, sizeof named[0] * (size_t)counted.records) == 0);
    for (size_t k = 0; k < counted.records; k++) {
        HOLD(named[k].start == rows[k][WL_ROW_START] && named[k].size == rows[k][WL_ROW_SIZE]);
        HOLD(named[k].class_ == rows[k][WL_ROW_CLASS] && named[k].group == rows[k][WL_ROW_GROUP]);
        HOLD(named[k].subclass == rows[k][WL_ROW_SUBCLASS] && named[k].version == rows[k][WL_ROW_VERSION]);
        HOLD(named[k].ordinal == rows[k][WL_ROW_ORDINAL]);
        HOLD(wl_ask_record(product, len, k, &record) == WL_ACCEPTED);
        wl_record(product, len, k, numbers);
        ALIKE(record);
        HOLD(record.start == named[k].start && record.class_ == named[k].class_ && record.size == named[k].size);
        HOLD(record.start_time.day == numbers[9] && record.stop_time.milli == numbers[13]);
    }
    HOLD(wl_ask_record(product, len, (size_t)counted.records, &record) == WL_NO_RECORD && record.place == counted.records);
}

static void fields(void)
{
    uint8_t name[30];
    wl_field_answer field;
    wl_value_answer found;
    wl_number_answer number;
    wl_moment_answer moment;
    wl_text_answer text;
    for (size_t k = 0; k <= WL_FIELD_SUBSETTED_PRODUCT; k++) {
        HOLD(wl_ask_field(k, name, sizeof name, &field) == WL_ACCEPTED);
        HOLD(strlen(wl_field_text(k)) == field.name_len && memcmp(wl_field_text(k), name, (size_t)field.name_len) == 0);
        HOLD(wl_ask_field_named(name, (size_t)field.name_len, &found) == WL_ACCEPTED && found.value == k);
    }
    HOLD(wl_ask_field(72, name, sizeof name, &field) == WL_NO_FIELD && strcmp(wl_field_text(72), "unknown field") == 0);
    HOLD(wl_ask_number_field(product, len, WL_FIELD_ACTUAL_PRODUCT_SIZE, &number) == WL_ACCEPTED && number.value == (int64_t)len);
    HOLD(wl_ask_number_field(product, len, WL_FIELD_SUBSAT_LONGITUDE_START, &number) == WL_ACCEPTED && number.value == -122401);
    HOLD(wl_ask_time_field(product, len, WL_FIELD_SENSING_END, &moment) == WL_ACCEPTED && moment.year == 2016 && moment.second == 25);
    HOLD(wl_ask_text_field(product, len, WL_FIELD_SPACECRAFT_ID, &text) == WL_ACCEPTED && memcmp(product + text.start, "M02", 3) == 0);
}

static void reports(void)
{
    wl_report report;
    wl_report_answer answer;
    wl_point point;
    wl_point_answer there;
    memset(&report, 0, sizeof report);
    HOLD(wl_ask_report_add(&report, product, len, &answer) == WL_ACCEPTED && answer.product_refusal == WL_ACCEPTED);
    HOLD(wl_ask_report_add(&report, product, 4000, &answer) == WL_ACCEPTED && answer.product_refusal == WL_UNFINISHED);
    HOLD(answer.product_place == 4000 && report.products == 2 && report.accepted == 1 && report.refused[WL_UNFINISHED - 1] == 1);
    memset(numbers, 0, sizeof numbers);
    uint64_t said[WL_LEN_ANSWER];
    wl_report_add(numbers, product, len, said);
    wl_report_add(numbers, product, 4000, said);
    ALIKE(report);
    HOLD(report.records[WL_MDR - 1] == numbers[WL_MDR] && report.bytes[WL_MDR - 1] == numbers[8 + WL_MDR] && report.gap_ms == numbers[17]);
    HOLD(report.overlap_ms == numbers[18] && report.undefined_pairs == numbers[19] && report.accepted == numbers[20]);
    HOLD(wl_ask_ground_point(product, len, WL_AT_START, &point, &there) == WL_ACCEPTED && there.defined == 1);
    HOLD(point.latitude == 47.623 && point.longitude == -122.401);
    HOLD(wl_ask_ground_point(product, len, WL_AT_END, &point, &there) == WL_ACCEPTED && point.latitude == 46.18);
}

/* A cut of the product, its join with the rest, whether it is a cut, and a recorded arrival: what one wrote another reads. */
static void products(void)
{
    static uint8_t first[1 << 16], second[1 << 16], pass[1 << 17], recorded[1 << 10];
    wl_written_answer one, two, both, record;
    wl_check_answer check;
    wl_verdict_answer verdict;
    wl_replay_answer replay;
    HOLD(wl_ask_cut(product, len, 1, 6000, 0, 1, 6000, 12000, first, sizeof first, &one) == WL_ACCEPTED);
    HOLD(wl_ask_cut(product, len, 1, 6000, 12001, 1, 6000, 30000, second, sizeof second, &two) == WL_ACCEPTED);
    HOLD(wl_ask_join_pass(first, (size_t)one.bytes, second, (size_t)two.bytes, pass, sizeof pass, &both) == WL_ACCEPTED);
    HOLD(wl_ask_verdict(pass, (size_t)both.bytes, &verdict) == WL_ACCEPTED && verdict.records == 18);
    HOLD(wl_ask_join(second, (size_t)two.bytes, first, (size_t)one.bytes, pass, sizeof pass, &both) == WL_OUT_OF_TIME);
    HOLD(wl_ask_check_cut(product, len, first, (size_t)one.bytes, &check) == WL_ACCEPTED && check.is_cut == 1);
    HOLD(wl_ask_check_cut(first, (size_t)one.bytes, product, len, &check) == WL_ACCEPTED && check.is_cut == 0 && check.at == 4015);
    uint32_t lengths[2] = {4000, (uint32_t)len - 4000};
    HOLD(wl_ask_record_arrival(lengths, 2, product, len, recorded, sizeof recorded, &record) == WL_ACCEPTED && record.bytes == 40);
    HOLD(wl_ask_replay(recorded, (size_t)record.bytes, product, len, &replay) == WL_ACCEPTED && replay.differs == 0);
    recorded[39] ^= 1; /* the count of the second answer */
    HOLD(wl_ask_replay(recorded, (size_t)record.bytes, product, len, &replay) == WL_ACCEPTED && replay.differs == 1 && replay.part == 1);
}

static void leaves(void)
{
    static const uint8_t scaled[3] = {0x01, 0xff, 0xff};
    wl_scaled_answer number;
    wl_number_answer rounded;
    wl_date_answer date;
    wl_value_answer day;
    uint8_t room[18];
    wl_written_answer written;
    wl_time_answer time;
    HOLD(wl_ask_read_scaled(scaled, 3, 0, 2, 1, &number) == WL_ACCEPTED && number.integer == -1 && number.scale == 1);
    HOLD(wl_ask_round(1, number.integer, (int8_t)number.scale, 1, &rounded) == WL_ACCEPTED && rounded.value == -1);
    HOLD(wl_ask_date_of(6000, &date) == WL_ACCEPTED);
    HOLD(wl_ask_day_number((uint16_t)date.year, (uint8_t)date.month, (uint8_t)date.day, &day) == WL_ACCEPTED && day.value == 6000);
    HOLD(wl_ask_time_text(room, sizeof room, 1, 6000, 7, &written) == WL_ACCEPTED && written.bytes == sizeof room);
    HOLD(wl_ask_text_time(room, sizeof room, 0, &time) == WL_ACCEPTED && time.time.day == 6000 && time.time.milli == 7);
    HOLD(wl_ask_time_text(room, 17, 1, 6000, 7, &written) == WL_ROOM && written.place == sizeof room);
}

static void words(void)
{
    HOLD(strcmp(wl_refusal_text(WL_ACCEPTED), "accepted") == 0 && strcmp(wl_refusal_text(40), "unknown refusal") == 0);
    HOLD(strcmp(wl_refusal_text(WL_UNLIKE), "the two products are unlike in instrument, type, level, spacecraft, SPHR or global records") == 0);
    HOLD(strcmp(wl_class_text(WL_MPHR), "MPHR") == 0 && strcmp(wl_class_text(WL_MDR), "MDR") == 0);
    HOLD(strcmp(wl_class_text(0), "unknown class") == 0 && strcmp(wl_class_text(9), "unknown class") == 0);
    HOLD(strcmp(wl_group_text(WL_AVHRR_3), "AVHRR/3") == 0 && strcmp(wl_group_text(WL_ARCHIVE), "archive") == 0);
    HOLD(strcmp(wl_group_text(14), "unknown group") == 0);
}

int main(void)
{
    len = fread(product, 1, sizeof product, stdin);
    judges();
    records();
    fields();
    reports();
    products();
    leaves();
    words();
    printf("%d held\n", held);
    return 0;
}
