/* Puts the questions on standard input to the library, one a line, and prints the answer of each (tests/library/questions.py
   writes both, and says what they look like). A call that is refused memory is told on standard error and put again. It takes no
   memory of its own, so that every growth is one of the library. */
#include "gtd.h"

#include <inttypes.h>
#include <stdio.h>
#include <stdlib.h>
#include <string.h>

enum { LINE = 1 << 21, BYTES = 1 << 22, MANY = 4096, REFUSALS = 1000 };
static char line[LINE];
static uint8_t bytes[BYTES];
static gtd_handle domain = GTD_NONE, other = GTD_NONE, records = GTD_NONE, made = GTD_NONE;

static void fail(const char *what) {
    fprintf(stderr, "ask: %s\n", what);
    exit(99);
}

static char *word(void) {
    char *found = strtok(NULL, " \n");
    if (!found) fail("a word is missing");
    return found;
}

static int64_t number(void) { return strtoll(word(), NULL, 10); }

static uint64_t element(void) { return strtoull(word(), NULL, 10); }

/* The bytes of a word of hexadecimal digits after an x. */
static size_t hex(void) {
    size_t length = 0;
    for (const char *at = word() + 1; at[0] && at[1]; at += 2) {
        const char digits[3] = {at[0], at[1], 0};
        bytes[length++] = (uint8_t)strtoul(digits, NULL, 16);
    }
    return length;
}

static void print_text(size_t length) {
    fputs(" x", stdout);
    for (size_t at = 0; at < length; at++) printf("%02x", bytes[at]);
}

/* Puts a question, and prints its answer and what it has found. */
typedef void question(void);

static bool is_refused(const gtd_handle *handle) {
    static int refusals = 0;
    if (handle && handle->full) fail("the handle of a refused call is not empty");
    fputs("refused\n", stderr);
    if (++refusals > REFUSALS) exit(3);
    return true;
}

static uint32_t say(uint32_t answer) {
    static const char *const names[] = {"no", "yes", "range", "kind", "memory", "year", "short"};
    if (answer > GTD_SHORT) fail("no such answer");
    fputs(names[answer], stdout);
    return answer;
}

/* `call` put again while memory is refused; `opened` must be empty then. */
#define PUT(opened, call) \
    uint32_t answer; \
    do answer = (call); \
    while (answer == GTD_MEMORY && is_refused(opened)); \
    say(answer)

static void print_number(uint32_t answer, int64_t found) {
    if (answer == GTD_YES) printf(" %" PRId64, found);
}

/* The text of `made`, in two steps: its length, then its bytes. */
static void print_made(uint32_t answer) {
    size_t length = 0;
    if (answer != GTD_YES) return;
    uint32_t none = gtd_text_bytes(&made, bytes, 0, &length);
    if (length > BYTES) fail("a text is too long");
    if (none != (length ? GTD_SHORT : GTD_YES)) fail("the length of a text is not told");
    if (length && gtd_text_bytes(&made, bytes, length - 1, &length) != GTD_SHORT) fail("a text fits into one byte less");
    if (gtd_text_bytes(&made, bytes, length, &length) != GTD_YES) fail("a text is not given");
    print_text(length);
}

static void print_spans(uint32_t answer) {
    int64_t from, until;
    if (answer != GTD_YES) return;
    while (gtd_spans_next(&made, &from, &until) == GTD_YES) printf(" %" PRId64 " %" PRId64, from, until);
    if (gtd_spans_next(&made, &from, &until) != GTD_NO) fail("the end of the spans is not their end");
}

static void print_answers(uint32_t answer, const uint8_t *answers, size_t done) {
    if (answer != GTD_YES && answer != GTD_RANGE) return;
    putchar(' ');
    for (size_t at = 0; at < done; at++) printf("%u", answers[at]);
}

static void open_text(gtd_handle *opened) {
    gtd_fault fault = {0, 0};
    const size_t length = hex();
    PUT(opened, gtd_domain_open(opened, bytes, length, &fault));
    if (answer == GTD_NO) printf(" %" PRIu32 " %zu", fault.kind, fault.place);
}

static void open_domain(void) { open_text(&domain); }

/* The second of the domains that `same` compares. */
static void open_other(void) { open_text(&other); }

static void open_hours(void) {
    gtd_hours_fault fault = {0, 0};
    const size_t length = hex();
    PUT(&domain, gtd_domain_from_hours(&domain, bytes, length, &fault));
    if (answer == GTD_NO) printf(" %" PRIu32 " %zu", fault.kind, fault.place);
}

static void same(void) {
    const int64_t from = number();
    gtd_apart apart = {0, 0};
    PUT(NULL, gtd_same(&domain, &other, from, &apart));
    if (answer == GTD_NO) printf(" %" PRId64 " %" PRIu32, apart.second, apart.domain);
}

static void holds(void) { say(gtd_domain_holds(&domain, number())); }

static void holds_many(void) {
    static int64_t seconds[MANY];
    static uint8_t answers[MANY];
    const size_t count = (size_t)number();
    size_t done = 0;
    for (size_t at = 0; at < count; at++) seconds[at] = number();
    if (count && gtd_domain_holds_many(&domain, seconds, count, answers, count - 1, &done) == GTD_YES)
        fail("the answers fit into one less");
    PUT(NULL, gtd_domain_holds_many(&domain, seconds, count, answers, count, &done));
    print_answers(answer, answers, done);
}

static void next(void) {
    const int64_t second = number(), day = number();
    int64_t change = 0;
    PUT(NULL, gtd_domain_next(&domain, second, day, &change));
    print_number(answer, change);
}

static void ever(void) {
    const int64_t second = number();
    int64_t change = 0;
    PUT(NULL, gtd_domain_ever(&domain, second, &change));
    print_number(answer, change);
}

static void spans(void) {
    const int64_t from = number(), until = number();
    PUT(&made, gtd_domain_spans(&domain, from, until, &made));
    print_spans(answer);
}

static void canon(void) {
    PUT(&made, gtd_domain_canon(&domain, &made));
    print_made(answer);
}

static void words(void) {
    PUT(&made, gtd_domain_words(&domain, &made));
    print_made(answer);
}

static void picture(void) {
    const uint32_t year = (uint32_t)number();
    PUT(&made, gtd_domain_picture(&domain, year, &made));
    print_made(answer);
}

static void open_records(void) {
    gtd_record_fault fault = {0, 0, {0, 0}};
    const size_t length = hex();
    PUT(&records, gtd_records_open(&records, bytes, length, &fault));
    if (answer == GTD_NO)
        printf(" %" PRIu32 " %" PRIu32 " %" PRIu32 " %zu", fault.kind, fault.row, fault.text.kind, fault.text.place);
}

static void count(void) {
    size_t elements = 0;
    PUT(NULL, gtd_records_count(&records, &elements));
    print_number(answer, (int64_t)elements);
}

static void element_at(void) {
    const size_t place = (size_t)number();
    uint64_t found = 0;
    PUT(NULL, gtd_records_element(&records, place, &found));
    print_number(answer, (int64_t)found);
}

static void closed(void) {
    const uint64_t asked = element();
    const bool negative = number() != 0;
    const uint8_t vehicle = (uint8_t)number();
    say(gtd_records_closed_at(&records, asked, negative, vehicle, number()));
}

static void closed_many(void) {
    static gtd_question questions[MANY];
    static uint8_t answers[MANY];
    const size_t count = (size_t)number();
    size_t done = 0;
    for (size_t at = 0; at < count; at++) {
        questions[at].element = element();
        questions[at].negative = number() != 0;
        questions[at].vehicle = (uint8_t)number();
        questions[at].second = number();
    }
    PUT(NULL, gtd_records_closed_many(&records, questions, count, answers, count, &done));
    print_answers(answer, answers, done);
}

static void records_next(void) {
    const uint64_t asked = element();
    const bool negative = number() != 0;
    const uint8_t vehicle = (uint8_t)number();
    const int64_t second = number(), day = number();
    int64_t change = 0;
    PUT(NULL, gtd_records_next(&records, asked, negative, vehicle, second, day, &change));
    print_number(answer, change);
}

static void closers(void) {
    static uint32_t rows[MANY];
    const uint64_t asked = element();
    const bool negative = number() != 0;
    const uint8_t vehicle = (uint8_t)number();
    const int64_t second = number();
    size_t found = 0;
    PUT(NULL, gtd_records_closers(&records, asked, negative, vehicle, second, rows, MANY, &found));
    if (answer != GTD_YES) return;
    for (size_t at = 0; at < found; at++) printf(" %" PRIu32, rows[at]);
    size_t again = 0;
    if (found && gtd_records_closers(&records, asked, negative, vehicle, second, rows, found - 1, &again) == GTD_YES)
        fail("the rows fit into one less");
}

static void records_spans(void) {
    const uint64_t asked = element();
    const bool negative = number() != 0;
    const uint8_t vehicle = (uint8_t)number();
    const int64_t from = number(), until = number();
    PUT(&made, gtd_records_spans(&records, asked, negative, vehicle, from, until, &made));
    print_spans(answer);
}

static void schedule(void) {
    const int64_t from = number(), until = number();
    const uint8_t vehicle = (uint8_t)number();
    PUT(&made, gtd_records_schedule(&records, from, until, vehicle, &made));
    print_made(answer);
}

/* From here on the second handle is asked, and the first is closed. */
static void share(void) {
    gtd_handle shared = GTD_NONE;
    PUT(&shared, gtd_share(&records, &shared));
    if (answer != GTD_YES) return;
    gtd_close(&records);
    records = shared;
}

static void second(void) {
    int64_t given[6], found = 0;
    for (size_t at = 0; at < 6; at++) given[at] = number();
    const uint32_t month = (uint32_t)given[1], day = (uint32_t)given[2];
    const uint32_t answer =
        gtd_second(given[0], month, day, (uint32_t)given[3], (uint32_t)given[4], (uint32_t)given[5], &found);
    print_number(say(answer), found);
}

static void stamp(void) {
    const int64_t asked = number();
    const uint32_t answer = say(gtd_stamp(asked, bytes, 19));
    if (answer == GTD_YES) print_text(19);
    if (answer == GTD_YES && gtd_stamp(asked, bytes, 18) != GTD_SHORT) fail("a stamp fits into 18 bytes");
}

static void print_name(uint32_t answer, size_t length) {
    if (answer == GTD_YES) print_text(length);
}

static void fault_name(void) {
    size_t length = 0;
    const uint32_t answer = say(gtd_fault_name((uint32_t)number(), bytes, 32, &length));
    print_name(answer, length);
}

static void record_fault_name(void) {
    size_t length = 0;
    const uint32_t answer = say(gtd_record_fault_name((uint32_t)number(), bytes, 32, &length));
    print_name(answer, length);
}

static void hours_fault_name(void) {
    size_t length = 0;
    const uint32_t answer = say(gtd_hours_fault_name((uint32_t)number(), bytes, 32, &length));
    print_name(answer, length);
}

static void version(void) {
    size_t length = 0;
    const uint32_t answer = say(gtd_version(bytes, 32, &length));
    print_name(answer, length);
}

static void close_all(void) {
    gtd_close(&domain);
    gtd_close(&other);
    gtd_close(&records);
    gtd_close(&made);
    say(GTD_YES);
}

static const struct { const char *name; question *put; } known[] = {
    {"domain", open_domain}, {"holds", holds}, {"holds_many", holds_many}, {"next", next}, {"ever", ever}, {"spans", spans},
    {"canon", canon}, {"words", words}, {"picture", picture}, {"hours", open_hours}, {"other", open_other}, {"same", same},
    {"records", open_records}, {"count", count}, {"element", element_at}, {"closed", closed}, {"closed_many", closed_many},
    {"records_next", records_next}, {"closers", closers}, {"records_spans", records_spans}, {"schedule", schedule},
    {"share", share}, {"second", second}, {"stamp", stamp}, {"fault_name", fault_name},
    {"record_fault_name", record_fault_name}, {"hours_fault_name", hours_fault_name}, {"version", version},
    {"close", close_all},
};

int main(void) {
    static char in[1 << 16], out[1 << 16];
    setvbuf(stdin, in, _IOFBF, sizeof in);
    setvbuf(stdout, out, _IOFBF, sizeof out);
    while (fgets(line, LINE, stdin)) {
        const char *name = strtok(line, " \n");
        if (!name) continue;
        size_t at = 0;
        while (at < sizeof known / sizeof *known && strcmp(known[at].name, name)) at++;
        if (at == sizeof known / sizeof *known) fail("no such question");
        known[at].put();
        putchar('\n');
    }
    gtd_close(&domain);
    gtd_close(&other);
    gtd_close(&records);
    gtd_close(&made);
    return fflush(stdout) ? 99 : 0;
}
