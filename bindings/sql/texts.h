/* What the extensions of both databases need: moments, places of faults and rows of records, as texts. Dates and clock times are
   read and written by the library's calls. */
#ifndef GTD_SQL_TEXTS_H
#define GTD_SQL_TEXTS_H

#include <stdbool.h>
#include <stddef.h>
#include <stdint.h>
#include <stdio.h>
#include <string.h>

#include "gtd.h"

enum { DAY = 86400, STAMP = 19, SHOWN = 100, SHOWN_ROOM = 2 * SHOWN + 16, NAME_ROOM = 32 };

/* Most bytes of a domain and of opening hours: reading them is never stopped, so that it has to end soon. */
enum { MOST_TEXT = 1048576 };

/* 1901-01-01 and 2700-01-01: the first moment, and the end of the last days that may be asked about. */
#define FIRST_SECOND INT64_C(-2177452800)
#define END_SECOND INT64_C(23036572800)
#define END_STAMP "2700-01-01T00:00:00"

/* 2200-01-01: the end of the moments from which domains are compared. */
#define END_OF_COMPARED INT64_C(7258118400)

#define RANGE "from 1901-01-01 up to 2700-01-01"
#define MOMENTS "YYYY-MM-DDThh:mm:ss, or a space in place of the T, or whole seconds since 1970-01-01T00:00:00; " RANGE
#define BOUNDS "YYYY-MM-DD, " MOMENTS
#define HORIZON "the second moment must come after the first, by 146,098 days at most"
#define EVER "moments of gtd_ever lie from 1901 to 2199"
#define APART "moments of gtd_apart lie from 1901 to 2199"
#define TOO_MANY "the opening hours would need more than 128 basic domains"
#define TOO_LONG "the text has more than 1,048,576 bytes"
#define YEAR "the domain gives a year, and gtd_ever asks about all years: gtd_next asks up to a moment"

#define DIRECTIONS "positive, negative or both"
#define ASKED_DIRECTIONS "positive or negative"
#define VEHICLES "0, or codes 1 to 99 joined by ;, or ! and such codes"
#define ASKED_VEHICLES "the vehicle type that is asked about must be a number from 1 to 99"

/* Kinds of gtd_record_fault, and the one of gtd_hours_fault that has no place. */
enum { FAULT_DIRECTION = 6, FAULT_VEHICLE = 7, FAULT_DOMAIN = 8, HOURS_TOO_MANY = 6 };

/* How a moment was given; what answers it is given likewise, and to a date as to a text with T. */
typedef enum { FORM_SECONDS, FORM_T, FORM_SPACE } form;
typedef struct { int64_t second; form form; } moment;

/* A text; without bytes where it is missing. */
typedef struct { const uint8_t *bytes; size_t length; } part;

/* The number that some digits are, or -1. */
static inline int digits(const char *text, int count)
{
    int number = 0;
    for (int at = 0; at < count; at++) {
        if (text[at] < '0' || text[at] > '9') return -1;
        number = 10 * number + (text[at] - '0');
    }
    return number;
}

/* Reads a moment; with is_bound also a date, which is its midnight, and the end of the last day. */
static inline bool read_moment(const char *text, size_t length, bool is_bound, moment *out)
{
    char given[STAMP + 1] = "YYYY-MM-DDT00:00:00";
    if (length != STAMP && !(is_bound && length == 10)) return false;
    memcpy(given, text, length);
    if (given[10] != 'T' && given[10] != ' ') return false;
    out->form = given[10] == 'T' ? FORM_T : FORM_SPACE;
    given[10] = 'T';
    out->second = END_SECOND;
    if (is_bound && !memcmp(given, END_STAMP, STAMP)) return true;
    int year = digits(given, 4), month = digits(given + 5, 2), day = digits(given + 8, 2);
    int hour = digits(given + 11, 2), minute = digits(given + 14, 2), second = digits(given + 17, 2);
    if (given[4] != '-' || given[7] != '-' || given[13] != ':' || given[16] != ':') return false;
    if (year < 0 || month < 0 || day < 0 || hour < 0 || minute < 0 || second < 0) return false;
    return gtd_second(year, (uint32_t)month, (uint32_t)day, (uint32_t)hour, (uint32_t)minute, (uint32_t)second, &out->second)
           == GTD_YES;
}

/* A number of seconds as a moment. */
static inline bool read_seconds(int64_t second, bool is_bound, moment *out)
{
    out->second = second;
    out->form = FORM_SECONDS;
    return FIRST_SECOND <= second && (second < END_SECOND || (is_bound && second == END_SECOND));
}

/* The text of a second from 1901-01-01 up to 2700-01-01, that day included. */
static inline void write_moment(int64_t second, form as, char out[STAMP])
{
    if (gtd_stamp(second, (uint8_t *)out, STAMP) != GTD_YES) memcpy(out, END_STAMP, STAMP);
    if (as == FORM_SPACE) out[10] = ' ';
}

static inline int64_t day_of(int64_t second)
{
    return (second - FIRST_SECOND) / DAY + FIRST_SECOND / DAY;
}

/* The first day that begins at the second or after it. */
static inline int64_t day_from(int64_t second)
{
    return day_of(second + DAY - 1);
}

/* The name of a fault's kind. */
static inline void fault_name(uint32_t kind, char out[NAME_ROOM])
{
    size_t length = 0;
    if (gtd_fault_name(kind, (uint8_t *)out, NAME_ROOM - 1, &length) != GTD_YES) length = 0;
    out[length] = 0;
}

/* The name of a kind of fault of opening hours. */
static inline void hours_fault_name(uint32_t kind, char out[NAME_ROOM])
{
    size_t length = 0;
    if (gtd_hours_fault_name(kind, (uint8_t *)out, NAME_ROOM - 1, &length) != GTD_YES) length = 0;
    out[length] = 0;
}

static inline char shown(uint8_t byte)
{
    return byte < ' ' || byte > '~' ? '?' : (char)byte;
}

/* A text, or what is around the place in a long one, and a caret below the place. */
static inline void show_place(const uint8_t *text, size_t length, size_t place, char out[SHOWN_ROOM])
{
    size_t from = length > SHOWN && place > SHOWN / 2 ? place - SHOWN / 2 : 0;
    size_t until = length - from > SHOWN ? from + SHOWN : length;
    const char *front = from ? "..." : "";
    char *end = out + sprintf(out, "%s", front);
    for (size_t at = from; at < until; at++) *end++ = shown(text[at]);
    sprintf(end, "%s\n%*s^", until < length ? "..." : "", (int)(strlen(front) + place - from), "");
}

/* The first bytes of a text, as a message shows them. */
static inline void show_start(const uint8_t *text, size_t length, char out[SHOWN_ROOM])
{
    size_t end = length > SHOWN / 2 ? SHOWN / 2 : length;
    for (size_t at = 0; at < end; at++) out[at] = shown(text[at]);
    strcpy(out + end, end < length ? "..." : "");
}

/* Whether a text is a direction that may be asked about. */
static inline bool read_direction(part text, bool *is_negative)
{
    *is_negative = text.length == 8 && text.bytes && !memcmp(text.bytes, "negative", 8);
    return *is_negative || (text.length == 8 && text.bytes && !memcmp(text.bytes, "positive", 8));
}

#define ROW_HEADER "element,direction,vehicles,domain\n1"

/* Most bytes of a record file with one row, whose fields may have to be quoted. */
static inline size_t row_room(const part fields[3])
{
    return sizeof ROW_HEADER + 2 * (fields[0].length + fields[1].length + fields[2].length) + 10;
}

/* That file, of element 1: its direction, vehicles and domain. Returns its length. */
static inline size_t write_row(const part fields[3], uint8_t *out)
{
    size_t length = sizeof ROW_HEADER - 1;
    memcpy(out, ROW_HEADER, length);
    for (int field = 0; field < 3; field++) {
        out[length++] = ',';
        out[length++] = '"';
        for (size_t at = 0; at < fields[field].length; at++) {
            if (fields[field].bytes[at] == '"') out[length++] = '"';
            out[length++] = fields[field].bytes[at];
        }
        out[length++] = '"';
    }
    out[length++] = '\n';
    return length;
}

/* A number for a text, to find it again by (FNV-1a). */
static inline uint32_t hash_of(const uint8_t *text, size_t length)
{
    uint32_t hash = 2166136261u;
    for (size_t at = 0; at < length; at++) hash = (hash ^ text[at]) * 16777619u;
    return hash ^ hash >> 15;
}

#endif
