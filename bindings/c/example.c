/* What a planner does with a record file: reads it once, then asks. Usage: example FILE ELEMENT VEHICLE */
#include "gtd.h"

#include <errno.h>
#include <inttypes.h>
#include <stdio.h>
#include <stdlib.h>

/* The bytes of a file, which the caller frees; NULL if it cannot be read. */
static uint8_t *read_file(const char *name, size_t *length) {
    FILE *file = fopen(name, "rb");
    if (!file) return NULL;
    uint8_t *bytes = NULL;
    long size = -1;
    if (fseek(file, 0, SEEK_END) == 0) size = ftell(file);
    if (size >= 0 && fseek(file, 0, SEEK_SET) == 0) bytes = malloc((size_t)size + 1);
    if (bytes) *length = fread(bytes, 1, (size_t)size, file);
    fclose(file);
    return bytes;
}

/* The number of a word that has digits alone; false for another word, and for a number above the largest. */
static bool number_of(const char *word, uint64_t largest, uint64_t *number) {
    char *end = NULL;
    errno = 0;
    *number = strtoull(word, &end, 10);
    return *word >= '0' && *word <= '9' && *end == '\0' && errno == 0 && *number <= largest;
}

/* Says why a file is refused, as gtd does. */
static void tell(const gtd_record_fault *fault) {
    uint8_t name[32];
    size_t length = 0;
    fputs("fault ", stderr);
    if (fault->row) fprintf(stderr, "row %" PRIu32 " ", fault->row);
    if (gtd_record_fault_name(fault->kind, name, sizeof name, &length) == GTD_YES) fwrite(name, 1, length, stderr);
    if (fault->text.kind && gtd_fault_name(fault->text.kind, name, sizeof name, &length) == GTD_YES)
        fprintf(stderr, " %.*s at %zu", (int)length, (const char *)name, fault->text.place);
    fputc('\n', stderr);
}

static void print_second(const char *word, int64_t second) {
    uint8_t stamp[19];
    if (gtd_stamp(second, stamp, sizeof stamp) == GTD_YES) printf("%s %.19s", word, (const char *)stamp);
}

/* Whether a lorry may enter now, the next change, and the open spans of the week. */
static uint32_t ask(gtd_handle *records, uint64_t element, uint8_t vehicle, int64_t now) {
    gtd_handle spans = GTD_NONE;
    int64_t today = now / 86400, change, from, until;
    uint32_t answer = gtd_records_closed_at(records, element, false, vehicle, now);
    if (answer > GTD_YES) return answer;
    print_second(answer == GTD_YES ? "closed at" : "open at", now);
    answer = gtd_records_next(records, element, false, vehicle, now, today + 7, &change);
    if (answer == GTD_YES) print_second(", which changes at", change);
    putchar('\n');
    answer = gtd_records_spans(records, element, false, vehicle, today, today + 7, &spans);
    while (answer == GTD_YES && (answer = gtd_spans_next(&spans, &from, &until)) == GTD_YES) {
        print_second("open from", from);
        print_second(" until", until);
        putchar('\n');
    }
    gtd_close(&spans);
    return answer; /* GTD_NO: there are no more spans */
}

int main(int count, char **words) {
    gtd_handle records = GTD_NONE;
    gtd_record_fault fault;
    size_t length = 0;
    uint64_t element, vehicle;
    int64_t now;
    if (count != 4 || !number_of(words[2], 9999999999, &element) || !number_of(words[3], 99, &vehicle))
        return fputs("usage: example FILE ELEMENT VEHICLE, of 1 to 10 digits and from 1 to 99\n", stderr), 2;
    uint8_t *bytes = read_file(words[1], &length);
    if (!bytes) return fprintf(stderr, "cannot read %s\n", words[1]), 3;
    uint32_t answer = gtd_records_open(&records, bytes, length, &fault);
    free(bytes); /* the records keep what they need */
    if (answer == GTD_NO) return tell(&fault), 1;
    if (answer == GTD_YES && (answer = gtd_second(2024, 3, 15, 6, 50, 0, &now)) == GTD_YES)
        answer = ask(&records, element, (uint8_t)vehicle, now);
    gtd_close(&records);
    if (answer > GTD_YES) return fprintf(stderr, "answer %" PRIu32 "\n", answer), 3;
    return 0;
}
