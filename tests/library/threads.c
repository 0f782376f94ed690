/* Four threads ask one record file at once, each by its own handle of the same records; all must answer what one alone answers.
   Usage: threads FILE ROUNDS */
#include "gtd.h"

#include <pthread.h>
#include <stdio.h>
#include <stdlib.h>

enum { THREADS = 4 };
static long rounds;

/* The answers of all questions, as one number. */
static uint64_t ask(gtd_handle *records) {
    uint64_t sum = 14695981039346656037u;
    gtd_handle spans = GTD_NONE;
    for (long at = 0; at < rounds; at++) {
        uint64_t element = 0;
        size_t count = 0;
        int64_t from, until;
        gtd_records_count(records, &count);
        gtd_records_element(records, (size_t)(at * 7919) % (count ? count : 1), &element);
        const bool negative = at & 1;
        const uint8_t vehicle = (uint8_t)(1 + at % 12);
        const int64_t second = 1711929600 + at * 6151;
        sum = (sum ^ gtd_records_closed_at(records, element, negative, vehicle, second)) * 1099511628211u;
        if (at % 8) continue;
        const int64_t day = second / 86400;
        if (gtd_records_spans(records, element, negative, vehicle, day, day + 7, &spans) != GTD_YES) continue;
        while (gtd_spans_next(&spans, &from, &until) == GTD_YES) sum = (sum ^ (uint64_t)(from + 3 * until)) * 1099511628211u;
    }
    gtd_close(&spans);
    return sum;
}

struct work { pthread_t thread; gtd_handle records; uint64_t sum; };

static void *run(void *given) {
    struct work *work = given;
    work->sum = ask(&work->records);
    gtd_close(&work->records); /* the last of the threads ends the records */
    return NULL;
}

int main(int count, char **words) {
    static uint8_t bytes[1 << 24];
    static struct work works[THREADS]; /* of zeros, which are empty handles */
    gtd_handle records = GTD_NONE;
    gtd_record_fault fault;
    if (count != 3) return 2;
    rounds = atol(words[2]);
    FILE *file = fopen(words[1], "rb");
    if (!file) return 3;
    const size_t length = fread(bytes, 1, sizeof bytes, file);
    fclose(file);
    if (gtd_records_open(&records, bytes, length, &fault) != GTD_YES) return 3;
    const uint64_t alone = ask(&records);
    for (int at = 0; at < THREADS; at++)
        if (gtd_share(&records, &works[at].records) != GTD_YES) return 3;
    gtd_close(&records);
    for (int at = 0; at < THREADS; at++)
        if (pthread_create(&works[at].thread, NULL, run, &works[at])) return 3;
    int wrong = 0;
    for (int at = 0; at < THREADS; at++) {
        pthread_join(works[at].thread, NULL);
        wrong += works[at].sum != alone;
    }
    printf("%d of %d threads answer otherwise\n", wrong, THREADS);
    return wrong != 0;
}
