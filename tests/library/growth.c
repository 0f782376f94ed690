/* Two million spans, one by one, while every growth of memory is refused: `gtd_spans_next` takes none. tests/refuse_growth.c,
   loaded by LD_PRELOAD, refuses those between two requests for so many bytes as the variable REFUSE_BETWEEN gives, and tells each
   on standard error: there must be one, which is the first of these requests. The spans must be those that come with ample
   memory. Prints its counts.
   Usage: growth BYTES */
#include "gtd.h"

#include <stdio.h>
#include <stdlib.h>
#include <string.h>

enum { FIRST = 19723, DAYS = 146098, SPANS = 250000 }; /* from 2024-01-01 on */

/* Spans that repeat each minute, and each week; of a tree whose parts repeat after different times; and of a given year. */
static const char *const texts[] = {
    "[(s7){s1}]+[(s30){s10}]",
    "[(t2t3h7){m30}]+[(m5){m1}]-[(t1){d1}]",
    "[(M4d1){M3}]*[(m1){s7}]+[(M10f11h3){s5}]+[(m3s2){s1}]",
    "[(y2024){y90}]*[(m0){s1}]",
};
enum { TEXTS = sizeof texts / sizeof *texts };
static int passed = 0, failed = 0;

static void expect(bool holds, const char *what, const char *text) {
    if (holds) {
        passed++;
    } else {
        failed++;
        printf("FAILED %s: %s\n", what, text);
    }
}

/* The next spans, as one number. */
static uint64_t sum_of(gtd_handle *spans) {
    uint64_t sum = 14695981039346656037u;
    int64_t from, until;
    for (int at = 0; at < SPANS && gtd_spans_next(spans, &from, &until) == GTD_YES; at++)
        sum = (sum ^ (uint64_t)(from + 3 * until)) * 1099511628211u;
    return sum;
}

/* Opens the spans of a domain, or the open ones of an element that it closes. */
static void open_spans(const char *text, bool of_records, gtd_handle *spans) {
    gtd_handle made = GTD_NONE;
    uint32_t answer;
    if (of_records) {
        char file[200];
        gtd_record_fault fault;
        const int length = snprintf(file, sizeof file, "element,direction,vehicle,domain\n1,both,0,%s\n", text);
        gtd_records_open(&made, (const uint8_t *)file, (size_t)length, &fault);
        answer = gtd_records_spans(&made, 1, false, 1, FIRST, FIRST + DAYS, spans);
    } else {
        gtd_fault fault;
        gtd_domain_open(&made, (const uint8_t *)text, strlen(text), &fault);
        answer = gtd_domain_spans(&made, FIRST, FIRST + DAYS, spans);
    }
    expect(answer == GTD_YES, "spans are opened", text);
    gtd_close(&made);
}

int main(int words_count, char **words) {
    if (words_count != 2) return 2;
    const size_t border = (size_t)atol(words[1]);
    gtd_handle ample[2 * TEXTS], spans[2 * TEXTS];
    uint64_t sums[2 * TEXTS];
    for (int at = 0; at < 2 * TEXTS; at++) {
        ample[at] = spans[at] = (gtd_handle)GTD_NONE;
        open_spans(texts[at / 2], at % 2, &ample[at]);
        open_spans(texts[at / 2], at % 2, &spans[at]);
        sums[at] = sum_of(&ample[at]);
    }
    void *volatile first = malloc(border);
    expect(!first, "from here on memory is refused", "the first border");
    bool are_same = true;
    for (int at = 0; at < 2 * TEXTS; at++) are_same &= sum_of(&spans[at]) == sums[at];
    void *volatile last = malloc(border);
    expect(last, "memory is granted again", "the last border");
    free(first);
    free(last);
    expect(are_same, "the spans without memory are those with it", "all texts");
    for (int at = 0; at < 2 * TEXTS; at++) {
        int64_t from, until;
        expect(gtd_spans_next(&spans[at], &from, &until) == GTD_YES, "spans are left", texts[at / 2]);
        gtd_close(&ample[at]);
        gtd_close(&spans[at]);
    }
    printf("growth: %d passed, %d failed\n", passed, failed);
    return failed != 0;
}
