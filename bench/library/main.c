/* The time of the library's calls from C: a line for each, its name and nanoseconds, the least of seven rounds.
   Usage: main DOMAIN FILE */
#define _POSIX_C_SOURCE 199309L
#include "gtd.h"

#include <inttypes.h>
#include <stdio.h>
#include <stdlib.h>
#include <string.h>
#include <time.h>

enum { ROUNDS = 7, CALLS = 1000000, DAY = 19793 }; /* 2024-03-11, a Monday */
static const int64_t base = (int64_t)DAY * 86400;

static uint8_t bytes[1 << 24];
static size_t length;
static uint64_t elements[1 << 16];
static size_t count;
static gtd_handle domain = GTD_NONE, records = GTD_NONE, spans = GTD_NONE;
static uint64_t sum; /* of what the calls answer, so that none is left out */

static double now(void) {
    struct timespec time;
    clock_gettime(CLOCK_MONOTONIC, &time);
    return (double)time.tv_sec * 1e9 + (double)time.tv_nsec;
}

static void holds(void) {
    for (int64_t at = 0; at < CALLS; at++) sum += gtd_domain_holds(&domain, base + at * 61 % 31536000);
}

static void holds_many(void) {
    static int64_t seconds[CALLS];
    static uint8_t answers[CALLS];
    size_t done = 0;
    for (int64_t at = 0; at < CALLS; at++) seconds[at] = base + at * 61 % 31536000;
    sum += gtd_domain_holds_many(&domain, seconds, CALLS, answers, CALLS, &done) + answers[CALLS - 1];
}

static void closed_at(void) {
    for (uint64_t at = 0; at < CALLS; at++) {
        const int64_t second = base + (int64_t)(at * 61 % 31536000);
        sum += gtd_records_closed_at(&records, elements[at * 7919 % count], at & 1, (uint8_t)(1 + at % 12), second);
    }
}

static void closed_many(void) {
    static gtd_question questions[CALLS];
    static uint8_t answers[CALLS];
    size_t done = 0;
    for (uint64_t at = 0; at < CALLS; at++) {
        const int64_t second = base + (int64_t)(at * 61 % 31536000);
        questions[at] = (gtd_question){elements[at * 7919 % count], second, (uint8_t)(1 + at % 12), at & 1};
    }
    sum += gtd_records_closed_many(&records, questions, CALLS, answers, CALLS, &done) + answers[CALLS - 1];
}

static void open_records(void) {
    gtd_record_fault fault;
    sum += gtd_records_open(&records, bytes, length, &fault);
}

static void week(void) {
    int64_t from, until;
    for (size_t at = 0; at < count; at++)
        for (int negative = 0; negative < 2; negative++) {
            gtd_records_spans(&records, elements[at], negative, 11, DAY, DAY + 7, &spans);
            while (gtd_spans_next(&spans, &from, &until) == GTD_YES) sum += (uint64_t)(until - from);
        }
}

static void measure(const char *name, void (*calls)(void), double number) {
    double least = 1e30;
    for (int at = 0; at < ROUNDS; at++) {
        const double start = now();
        calls();
        const double took = now() - start;
        if (took < least) least = took;
    }
    printf("%s %.1f\n", name, least / number);
}

int main(int words_count, char **words) {
    gtd_fault fault;
    if (words_count != 3) return 2;
    FILE *file = fopen(words[2], "rb");
    if (!file) return 3;
    length = fread(bytes, 1, sizeof bytes, file);
    fclose(file);
    if (gtd_domain_open(&domain, (const uint8_t *)words[1], strlen(words[1]), &fault) != GTD_YES) return 1;
    open_records();
    const size_t room = sizeof elements / sizeof *elements;
    while (count < room && gtd_records_element(&records, count, &elements[count]) == GTD_YES) count++;
    if (!count) return 1;
    measure("holds", holds, CALLS);
    measure("holds_many", holds_many, CALLS);
    measure("closed_at", closed_at, CALLS);
    measure("closed_many", closed_many, CALLS);
    measure("open", open_records, 1);
    measure("week", week, 1);
    gtd_close(&spans);
    gtd_close(&records);
    gtd_close(&domain);
    fprintf(stderr, "sum %" PRIu64 "\n", sum);
    return 0;
}
