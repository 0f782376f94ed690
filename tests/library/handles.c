/* Handles used rightly and wrongly: every call with a handle of every kind, opened over another, closed twice, shared. Answers
   that give nothing must leave everything as it was. Prints what is wrong, and then its counts. */
#include "gtd.h"

#include <stdio.h>
#include <string.h>

static int passed = 0, failed = 0;

static void expect(bool holds, const char *what, const char *call, const char *kind) {
    if (holds) {
        passed++;
    } else {
        failed++;
        printf("FAILED %s: %s with %s\n", what, call, kind);
    }
}

static const char text[] = "[(M4d1){M3}]*[(h10){h4}]";
static const char file[] = "element,direction,vehicle,domain\n17,both,0,(h10){h4}\n9,positive,11,\n17,both,11,\n";
enum { NOON = 43200, UNTOUCHED = 0x5a };

/* All that a call may write, filled with the byte UNTOUCHED before each. */
static struct {
    int64_t change, until;
    gtd_apart apart;
    size_t number;
    uint64_t element;
    uint32_t rows[4];
    uint8_t bytes[64];
    gtd_handle made;
} out;

static bool is_untouched(void) {
    const uint8_t *at = (const uint8_t *)&out.change, *end = (const uint8_t *)&out.made;
    for (; at < end; at++)
        if (*at != UNTOUCHED) return false;
    return !out.made.full && !out.made.at;
}

static const gtd_handle empty = GTD_NONE;

static void refresh(void) {
    gtd_close(&out.made);
    memset(&out, UNTOUCHED, sizeof out);
    out.made = empty;
}

/* The domain that others are compared with. */
static gtd_handle another = GTD_NONE;

static const int64_t seconds[2] = {NOON, 2 * NOON};
static const gtd_question questions[2] = {{17, NOON, 11, false}, {17, 0, 12, true}};

static uint32_t holds(gtd_handle *h) { return gtd_domain_holds(h, 90 * 86400 + NOON); }
static uint32_t next(gtd_handle *h) { return gtd_domain_next(h, 0, 100, &out.change); }
static uint32_t ever(gtd_handle *h) { return gtd_domain_ever(h, 0, &out.change); }
static uint32_t spans(gtd_handle *h) { return gtd_domain_spans(h, 0, 100, &out.made); }
static uint32_t canon(gtd_handle *h) { return gtd_domain_canon(h, &out.made); }
static uint32_t words(gtd_handle *h) { return gtd_domain_words(h, &out.made); }
static uint32_t picture(gtd_handle *h) { return gtd_domain_picture(h, 2024, &out.made); }
static uint32_t holds_many(gtd_handle *h) { return gtd_domain_holds_many(h, seconds, 2, out.bytes, 2, &out.number); }
static uint32_t same(gtd_handle *h) { return gtd_same(h, &another, 0, &out.apart); }
static uint32_t same_turned(gtd_handle *h) { return gtd_same(&another, h, 0, &out.apart); }
static uint32_t count(gtd_handle *h) { return gtd_records_count(h, &out.number); }
static uint32_t element(gtd_handle *h) { return gtd_records_element(h, 0, &out.element); }
static uint32_t closed_at(gtd_handle *h) { return gtd_records_closed_at(h, 17, true, 1, NOON); }
static uint32_t records_next(gtd_handle *h) { return gtd_records_next(h, 17, true, 1, NOON, 2, &out.change); }
static uint32_t closers(gtd_handle *h) { return gtd_records_closers(h, 17, true, 11, NOON, out.rows, 4, &out.number); }
static uint32_t records_spans(gtd_handle *h) { return gtd_records_spans(h, 17, true, 1, 0, 2, &out.made); }
static uint32_t schedule(gtd_handle *h) { return gtd_records_schedule(h, 0, 2, 1, &out.made); }
static uint32_t closed_many(gtd_handle *h) { return gtd_records_closed_many(h, questions, 2, out.bytes, 2, &out.number); }
static uint32_t share(gtd_handle *h) { return gtd_share(h, &out.made); }
static uint32_t spans_next(gtd_handle *h) { return gtd_spans_next(h, &out.change, &out.until); }
static uint32_t text_bytes(gtd_handle *h) { return gtd_text_bytes(h, out.bytes, sizeof out.bytes, &out.number); }

enum kind { EMPTY, DOMAIN, RECORDS, SPANS, TEXT, KINDS };
static const char *const kind_names[KINDS] = {"nothing", "a domain", "records", "spans", "a text"};

static const struct { const char *name; uint32_t (*put)(gtd_handle *); enum kind kind; } calls[] = {
    {"domain_holds", holds, DOMAIN}, {"domain_next", next, DOMAIN}, {"domain_ever", ever, DOMAIN},
    {"domain_spans", spans, DOMAIN}, {"domain_canon", canon, DOMAIN}, {"domain_words", words, DOMAIN},
    {"domain_picture", picture, DOMAIN}, {"domain_holds_many", holds_many, DOMAIN},
    {"same", same, DOMAIN}, {"same, the other way", same_turned, DOMAIN},
    {"records_count", count, RECORDS}, {"records_element", element, RECORDS}, {"records_closed_at", closed_at, RECORDS},
    {"records_next", records_next, RECORDS}, {"records_closers", closers, RECORDS}, {"records_spans", records_spans, RECORDS},
    {"records_schedule", schedule, RECORDS}, {"records_closed_many", closed_many, RECORDS}, {"share", share, RECORDS},
    {"spans_next", spans_next, SPANS}, {"text_bytes", text_bytes, TEXT},
};
enum { CALLS = sizeof calls / sizeof *calls };

static uint32_t open_domain(gtd_handle *h) {
    gtd_fault fault;
    return gtd_domain_open(h, (const uint8_t *)text, sizeof text - 1, &fault);
}

static uint32_t open_records(gtd_handle *h) {
    gtd_record_fault fault;
    return gtd_records_open(h, (const uint8_t *)file, sizeof file - 1, &fault);
}

/* Opens what is of this kind, in the place of what there was. */
static uint32_t open_kind(gtd_handle *h, enum kind kind) {
    gtd_handle domain = GTD_NONE;
    uint32_t answer = GTD_YES;
    switch (kind) {
    case DOMAIN: return open_domain(h);
    case RECORDS: return open_records(h);
    case SPANS:
    case TEXT:
        answer = open_domain(&domain);
        if (answer == GTD_YES) answer = kind == SPANS ? gtd_domain_spans(&domain, 0, 365, h) : gtd_domain_canon(&domain, h);
        gtd_close(&domain); /* spans and texts outlive their domain */
        return answer;
    default: gtd_close(h); return answer;
    }
}

/* Every call with a handle of every kind: only those of its own kind are answered, and any handle stays as it was. */
static void try_kinds(void) {
    for (int kind = EMPTY; kind < KINDS; kind++) {
        gtd_handle handle = GTD_NONE;
        expect(open_kind(&handle, (enum kind)kind) == GTD_YES, "it is opened", "open", kind_names[kind]);
        for (int at = 0; at < CALLS; at++) {
            refresh();
            const bool is_own = calls[at].kind == (enum kind)kind;
            const uint32_t answer = calls[at].put(&handle);
            expect(answer == (is_own ? GTD_YES : GTD_KIND), "the answer", calls[at].name, kind_names[kind]);
            expect(is_own || is_untouched(), "nothing else is written", calls[at].name, kind_names[kind]);
        }
        gtd_close(&handle);
        gtd_close(&handle);
        expect(!handle.full, "closed twice", "close", kind_names[kind]);
    }
    refresh();
}

/* A handle that is opened again stands for the new thing alone. */
static void try_reopening(void) {
    gtd_handle handle = GTD_NONE;
    for (int before = EMPTY; before < KINDS; before++) {
        for (int kind = DOMAIN; kind < KINDS; kind++) {
            expect(open_kind(&handle, (enum kind)before) == GTD_YES, "it is opened", "open", kind_names[before]);
            expect(open_kind(&handle, (enum kind)kind) == GTD_YES, "it is opened again", "open", kind_names[kind]);
            for (int at = 0; at < CALLS; at++) {
                if (calls[at].kind != (enum kind)kind) continue;
                refresh();
                expect(calls[at].put(&handle) == GTD_YES, "it is the new one", calls[at].name, kind_names[kind]);
            }
        }
    }
    gtd_close(&handle);
    refresh();
}

/* A text or a file at fault leaves the handle as it was. */
static void try_faults(void) {
    gtd_handle handle = GTD_NONE;
    gtd_fault fault = {0, 0};
    gtd_record_fault record_fault = {0, 0, {0, 0}};
    const char wrong_text[] = "[(h25){h1}]+(h99)";
    const char wrong_file[] = "element,direction,vehicle,domain\n1,both,0,\n1,both,0,(h1){x\n1,,,\n";
    expect(open_domain(&handle) == GTD_YES, "it is opened", "open", "a domain");
    uint32_t answer = gtd_domain_open(&handle, (const uint8_t *)wrong_text, sizeof wrong_text - 1, &fault);
    expect(answer == GTD_NO && fault.kind == 6 && fault.place == 2, "the first fault", "domain_open", "a domain");
    answer = gtd_records_open(&handle, (const uint8_t *)wrong_file, sizeof wrong_file - 1, &record_fault);
    expect(answer == GTD_NO && record_fault.kind == 8 && record_fault.row == 2, "the first fault", "records_open", "a domain");
    expect(record_fault.text.kind == 1 && record_fault.text.place == 5, "the fault of its text", "records_open", "a domain");
    expect(holds(&handle) == GTD_YES, "it is as it was", "domain_holds", "a domain");
    gtd_close(&handle);
}

/* Domains that differ: the first second that one has alone, and which; both stay as they were. Opening hours at fault leave a
   handle as it was. */
static void try_two_domains(void) {
    static const char hours[] = "10:00-14:00", wrong_hours[] = "Mo-Fr 10:00-25:99; PH";
    gtd_handle handle = GTD_NONE, none = GTD_NONE;
    gtd_hours_fault fault = {0, 0};
    gtd_apart apart = {0, 0};
    const uint32_t opened = gtd_domain_from_hours(&handle, (const uint8_t *)hours, sizeof hours - 1, &fault);
    expect(opened == GTD_YES && fault.kind == 0, "it is opened", "domain_from_hours", "nothing");
    uint32_t answer = gtd_same(&handle, &another, 0, &apart);
    expect(answer == GTD_NO && apart.second == 10 * 3600 && apart.domain == 1, "the first has it", "same", "a domain");
    answer = gtd_same(&another, &handle, 0, &apart);
    expect(answer == GTD_NO && apart.second == 10 * 3600 && apart.domain == 2, "the second has it", "same", "a domain");
    apart = (gtd_apart){-1, 9};
    answer = gtd_same(&another, &handle, 90 * 86400, &apart);
    expect(answer == GTD_NO && apart.second == 181 * 86400 + 10 * 3600, "the first such second", "same", "a domain");
    apart = (gtd_apart){-1, 9};
    expect(gtd_same(&handle, &none, 0, &apart) == GTD_KIND && gtd_same(&none, &handle, 0, &apart) == GTD_KIND,
           "nothing is compared", "same", "nothing");
    expect(gtd_same(&handle, &another, INT64_MAX, &apart) == GTD_RANGE, "its range", "same", "a domain");
    expect(apart.second == -1 && apart.domain == 9, "nothing is written", "same", "nothing");
    answer = gtd_domain_from_hours(&handle, (const uint8_t *)wrong_hours, sizeof wrong_hours - 1, &fault);
    expect(answer == GTD_NO && fault.kind == 3 && fault.place == 12, "the first fault", "domain_from_hours", "a domain");
    expect(holds(&handle) == GTD_YES, "it is as it was", "domain_holds", "a domain");
    gtd_close(&handle);
}

/* Answers of calls that have too little room leave it as it was. */
static void try_room(void) {
    gtd_handle records = GTD_NONE, canonical = GTD_NONE;
    const size_t length = sizeof "[[(M4d1){M3}]*[(h10){h4}]]" - 1;
    expect(open_kind(&canonical, TEXT) == GTD_YES && open_records(&records) == GTD_YES, "they are opened", "open", "both");
    for (size_t room = 0; room <= length; room++) {
        refresh();
        const uint32_t answer = gtd_text_bytes(&canonical, out.bytes, room, &out.number);
        bool is_right = answer == (room < length ? GTD_SHORT : GTD_YES) && out.number == length;
        for (size_t at = room < length ? 0 : length; at < sizeof out.bytes; at++)
            is_right = is_right && out.bytes[at] == UNTOUCHED;
        expect(is_right, "its room", "text_bytes", "a text");
    }
    for (size_t room = 0; room <= 2; room++) {
        refresh();
        const uint32_t answer = gtd_records_closers(&records, 17, true, 11, NOON, out.rows, room, &out.number);
        const bool is_whole = answer == GTD_YES && out.rows[0] == 1 && out.rows[1] == 3 && out.rows[2] == 0x5a5a5a5a;
        const bool is_short = answer == GTD_SHORT && out.rows[0] == 0x5a5a5a5a && out.rows[1] == 0x5a5a5a5a;
        expect(out.number == 2 && (room < 2 ? is_short : is_whole), "its room", "records_closers", "records");
    }
    refresh();
    expect(gtd_records_closed_many(&records, questions, 2, out.bytes, 1, &out.number) == GTD_SHORT && out.bytes[0] == UNTOUCHED,
           "its room", "records_closed_many", "records");
    gtd_close(&records);
    gtd_close(&canonical);
    refresh();
}

/* Shared records live as long as one handle of them, whichever is closed first. */
static void try_sharing(void) {
    enum { MANY = 9 };
    gtd_handle handles[MANY] = {GTD_NONE};
    expect(open_records(&handles[0]) == GTD_YES, "it is opened", "open", "records");
    for (int at = 1; at < MANY; at++)
        expect(gtd_share(&handles[at / 2], &handles[at]) == GTD_YES, "it is shared", "share", "records");
    for (int at = 0; at < MANY; at++) {
        const int place = at * 5 % MANY;
        expect(closed_at(&handles[place]) == GTD_YES, "it answers", "records_closed_at", "shared records");
        gtd_close(&handles[place]);
        gtd_close(&handles[place]);
        expect(closed_at(&handles[place]) == GTD_KIND, "it is closed", "records_closed_at", "shared records");
    }
}

/* The end of the spans is their end from then on. */
static void try_spans(void) {
    gtd_handle domain = GTD_NONE, days = GTD_NONE;
    int64_t from = 0, until = 0, found = 0;
    const bool is_open = open_domain(&domain) == GTD_YES && gtd_domain_spans(&domain, 0, 365, &days) == GTD_YES;
    expect(is_open, "they are opened", "open", "spans");
    while (gtd_spans_next(&days, &from, &until) == GTD_YES) {
        expect(until - from == 4 * 3600 && from % 86400 == 10 * 3600, "a span", "spans_next", "spans");
        found++;
    }
    expect(found == 91, "their number", "spans_next", "spans"); /* April, May and June */
    from = until = -1;
    for (int at = 0; at < 3; at++)
        expect(gtd_spans_next(&days, &from, &until) == GTD_NO && from == -1 && until == -1, "their end", "spans_next", "spans");
    gtd_close(&days);
    gtd_close(&domain);
}

int main(void) {
    refresh();
    expect(open_domain(&another) == GTD_YES, "it is opened", "open", "a domain");
    try_kinds();
    try_reopening();
    try_faults();
    try_two_domains();
    try_room();
    try_sharing();
    try_spans();
    gtd_close(&another);
    printf("handles: %d passed, %d failed\n", passed, failed);
    return failed != 0;
}
