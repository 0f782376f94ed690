/* Long questions in windows of days, so that a database can stop a call between two of them: what the extensions of both
   databases need beside texts.h. A window has as many days as the library goes over in some ten milliseconds. */
#ifndef GTD_SQL_WINDOWS_H
#define GTD_SQL_WINDOWS_H

#include <time.h>

#include "texts.h"

/* The days of 400 years, after which domains without years repeat, and one more; those of a week, and one more. */
enum { MOST_DAYS = 146098, WEEKLY_DAYS = 8 };

/* What the first window and any window cost at most, as starts times basic domains: some milliseconds, and a second. Windows grow
   while they are quick, since each has to be opened. */
enum { FIRST_COST = 1000000, MOST_COST = 256000000, QUICK = CLOCKS_PER_SEC / 20, SLOW = CLOCKS_PER_SEC / 5 };

/* How the starts of a domain recur. */
typedef struct {
    uint32_t basics;                 /* its basic domains */
    uint32_t daily, monthly, yearly; /* the starts in a day of those for any day, for a day of a month, for a day of the year */
    bool has_year;                   /* a start gives a year */
    bool has_date;                   /* one gives more than weekdays and clock times, or a duration has months or years */
} recurrence;

/* Which fields a start gives: a month; a day of the month, or a place of a weekday in it; and those of the clock. */
typedef struct { bool month, day, hour, minute, second; } start_fields;

/* How many starts a day has. Where a coarser field of the clock is missing, a finer one stands for every value of it. */
static inline uint32_t starts_of_day(start_fields given)
{
    uint32_t hours = given.hour || !(given.minute || given.second) ? 1 : 24;
    return hours * (given.second && !given.minute ? 60 : 1);
}

/* Adds a basic domain. */
static inline void add_basic(recurrence *to, start_fields given)
{
    uint32_t starts = starts_of_day(given);
    to->basics++;
    if (!given.day) to->daily += starts;
    else if (given.month) to->yearly += starts;
    else to->monthly += starts;
}

/* How a domain recurs, by its text, which is one of a domain: parentheses hold starts, and braces durations. */
static inline recurrence recurrence_of(part text)
{
    recurrence out = { 0 };
    bool in_start = false;
    start_fields given = { 0 };
    for (size_t at = 0; at < text.length; at++) {
        switch (text.bytes[at]) {
        case '(':
            in_start = true;
            given = (start_fields){ 0 };
            break;
        case ')':
            in_start = false;
            add_basic(&out, given);
            break;
        case 'h': given.hour = true; break;
        case 'm': given.minute = true; break;
        case 's': given.second = true; break;
        case 'y': out.has_year |= in_start; out.has_date = true; break;
        case 'M': given.month = out.has_date = true; break;
        case 'w': out.has_date |= in_start; break;
        case 'd': case 'f': case 'l': given.day = true; out.has_date |= in_start; break;
        default: break;
        }
    }
    return out;
}

static inline recurrence joined_recurrence(recurrence one, recurrence other)
{
    return (recurrence){ one.basics + other.basics, one.daily + other.daily, one.monthly + other.monthly,
                         one.yearly + other.yearly, one.has_year || other.has_year, one.has_date || other.has_date };
}

/* The days of a window that costs at most so much, or one day. */
static inline int64_t days_for(recurrence recurs, int64_t cost)
{
    int64_t days = MOST_DAYS, starts;
    do {
        starts = recurs.daily * days + recurs.monthly * (days / 28 + 1) + recurs.yearly * (days / 365 + 1);
    } while (starts * recurs.basics > cost && (days /= 2) > 1);
    return days;
}

/* A domain that is asked. */
typedef struct { gtd_handle *handle; recurrence recurs; } asked_domain;

/* Whether a database wants a call to stop; it may also leave the call. */
typedef struct { bool (*wants)(void *); void *of; } stopping;

/* What a call answers that was stopped, beside the answers of gtd.h. */
enum { STOPPED = 100 };

/* Days that are gone over window by window. */
typedef struct {
    int64_t day, end;          /* the first day still to come, and the day up to which they go */
    int64_t days, least, most; /* of the next window, of the first one, and of any */
    clock_t begun;             /* when the last one began */
} windows;

static inline windows windows_of(int64_t day, int64_t end, recurrence recurs)
{
    int64_t days = days_for(recurs, FIRST_COST);
    return (windows){ day, end, days, days, days_for(recurs, MOST_COST), 0 };
}

/* The days of the next window, or false if there is none. */
static inline bool next_window(windows *on, int64_t *from, int64_t *until)
{
    if (on->day >= on->end) return false;
    if (on->end - on->day > on->days) {
        clock_t now = clock();
        if (on->begun && now - on->begun > SLOW) on->days = on->least;
        if (on->begun && now - on->begun < QUICK) on->days = on->days > on->most / 2 ? on->most : on->days * 2;
        on->begun = now;
    }
    *from = on->day;
    *until = on->end - on->day > on->days ? on->day + on->days : on->end;
    on->day = *until;
    return true;
}

/* The windows of the days that hold the seconds from one up to another; false if these are no horizon. */
static inline bool windows_between(int64_t from, int64_t until, recurrence recurs, windows *out)
{
    if (from >= until || day_from(until) - day_of(from) > MOST_DAYS) return false;
    *out = windows_of(day_of(from), day_from(until), recurs);
    return true;
}

/* The days from one on that decide all time, or those up to 2700-01-01 if a start gives a year. */
static inline int64_t deciding_end(int64_t day, recurrence recurs)
{
    if (recurs.has_year) return END_SECOND / DAY;
    return day + (recurs.has_date ? MOST_DAYS : WEEKLY_DAYS);
}

/* The first later second in days at which membership changes, as gtd_domain_next answers. */
static inline uint32_t next_in(windows *on, asked_domain domain, int64_t second, stopping stop, int64_t *change)
{
    int64_t from_day, until_day;
    uint32_t answer = GTD_NO;
    while (answer == GTD_NO && next_window(on, &from_day, &until_day)) {
        if (stop.wants(stop.of)) return STOPPED;
        answer = gtd_domain_next(domain.handle, second, until_day, change);
        second = until_day * DAY - 1;
    }
    return answer;
}

/* The same before another second. */
static inline uint32_t next_change(asked_domain domain, int64_t second, int64_t until, stopping stop, int64_t *change)
{
    windows on;
    if (!windows_between(second, until, domain.recurs, &on)) return GTD_RANGE;
    uint32_t answer = next_in(&on, domain, second, stop, change);
    return answer == GTD_YES && *change >= until ? GTD_NO : answer;
}

/* The same however late, as gtd_domain_ever answers. */
static inline uint32_t next_ever(asked_domain domain, int64_t second, stopping stop, int64_t *change)
{
    if (second < FIRST_SECOND || END_OF_COMPARED <= second) return GTD_RANGE;
    if (domain.recurs.has_year) return GTD_YEAR;
    windows on = windows_of(day_of(second), deciding_end(day_of(second), domain.recurs), domain.recurs);
    return next_in(&on, domain, second, stop, change);
}

/* The spans of a domain between two seconds, opened window by window; spans that touch where windows meet are joined. */
typedef struct {
    asked_domain domain;
    gtd_handle *spans;
    windows on;
    bool is_open, is_held; /* whether a window is open, and whether a span was taken that may go on */
    int64_t since, until, begins, ends;
} span_walk;

/* False if the seconds are no horizon. The spans of the windows are opened in the given handle. */
static inline bool open_walk(asked_domain domain, int64_t since, int64_t until, gtd_handle *spans, span_walk *out)
{
    *out = (span_walk){ .domain = domain, .spans = spans, .since = since, .until = until };
    return windows_between(since, until, domain.recurs, &out->on);
}

/* The next span of any of the windows, which may go on in the next one. */
static inline uint32_t next_of_windows(span_walk *walk, stopping stop, int64_t *begins, int64_t *ends)
{
    int64_t from_day, until_day;
    for (;;) {
        if (walk->is_open) {
            uint32_t answer = gtd_spans_next(walk->spans, begins, ends);
            if (answer != GTD_NO) return answer;
        }
        if (!next_window(&walk->on, &from_day, &until_day)) return GTD_NO;
        if (stop.wants(stop.of)) return STOPPED;
        uint32_t answer = gtd_domain_spans(walk->domain.handle, from_day, until_day, walk->spans);
        if (answer != GTD_YES) return answer;
        walk->is_open = true;
    }
}

/* The next whole span, cut to what lies between the two seconds: GTD_YES, or GTD_NO at the end. */
static inline uint32_t next_span_of(span_walk *walk, stopping stop, int64_t *begins, int64_t *ends)
{
    int64_t from, until;
    for (;;) {
        uint32_t answer = next_of_windows(walk, stop, &from, &until);
        bool is_over = answer == GTD_NO;
        if (answer != GTD_YES && !is_over) return answer;
        if (!is_over && walk->is_held && walk->ends == from) {
            walk->ends = until;
            continue;
        }
        *begins = walk->begins > walk->since ? walk->begins : walk->since;
        *ends = walk->ends < walk->until ? walk->ends : walk->until;
        bool is_found = walk->is_held && *begins < *ends;
        walk->is_held = !is_over;
        if (!is_over) walk->begins = from, walk->ends = until;
        if (is_found) return GTD_YES;
        if (is_over || from >= walk->until) return GTD_NO;
    }
}

/* The next span of opened spans, from a second on. */
static inline uint32_t next_from(gtd_handle *spans, int64_t second, int64_t *begins, int64_t *ends)
{
    uint32_t answer;
    do answer = gtd_spans_next(spans, begins, ends);
    while (answer == GTD_YES && *ends <= second);
    if (answer == GTD_YES && *begins < second) *begins = second;
    return answer;
}

/* Whether opened spans of the same days have the same seconds from one on: GTD_YES, or GTD_NO and the first that differs. */
static inline uint32_t compare_spans(gtd_handle spans[2], int64_t second, int64_t *apart)
{
    for (;;) {
        int64_t begins[2] = { INT64_MAX, INT64_MAX }, ends[2] = { INT64_MAX, INT64_MAX };
        for (int at = 0; at < 2; at++) {
            uint32_t answer = next_from(&spans[at], second, &begins[at], &ends[at]);
            if (answer != GTD_YES && answer != GTD_NO) return answer;
            if (answer == GTD_NO) begins[at] = ends[at] = INT64_MAX;
        }
        *apart = begins[0] < begins[1] ? begins[0] : begins[1];
        if (begins[0] != begins[1]) return GTD_NO;
        if (*apart == INT64_MAX) return GTD_YES;
        *apart = ends[0] < ends[1] ? ends[0] : ends[1];
        if (ends[0] != ends[1]) return GTD_NO;
    }
}

/* Whether two domains have the same seconds from one on, as gtd_same answers: GTD_YES, or GTD_NO and the first that differs. That
   one of them gives a year makes no difference: what is compared are the moments that SQL may ask about. The spans of both are
   opened in the given handles. */
static inline uint32_t compare(const asked_domain domains[2], int64_t second, stopping stop, gtd_handle spans[2], int64_t *apart)
{
    recurrence recurs = joined_recurrence(domains[0].recurs, domains[1].recurs);
    int64_t from_day, until_day, day = day_of(second);
    uint32_t answer = GTD_YES;
    if (second < FIRST_SECOND || END_OF_COMPARED <= second) return GTD_RANGE;
    if (domains[0].handle == domains[1].handle) return GTD_YES;
    windows on = windows_of(day, deciding_end(day, recurs), recurs);
    while (answer == GTD_YES && next_window(&on, &from_day, &until_day)) {
        if (stop.wants(stop.of)) return STOPPED;
        for (int at = 0; at < 2 && answer == GTD_YES; at++)
            answer = gtd_domain_spans(domains[at].handle, from_day, until_day, &spans[at]);
        if (answer == GTD_YES) answer = compare_spans(spans, second, apart);
    }
    return answer;
}

#endif
