/* gtd.h: GDF time domains and timed road restrictions, in process.

   Link with -lgtd (pkg-config gtd). docs/LIBRARY.md begins with a first program.

   Handles. A handle begins as GTD_NONE. A call that opens one puts there what it made, and ends what was there before;
   gtd_close ends it. A handle is used by one call at a time, and never copied while it is in use; the handles and buffers of
   one call do not overlap. A call that is given an empty handle, or one of another kind, answers GTD_KIND, and nothing
   happens. A program that keeps to this shares no state between threads but the records behind gtd_share.

   Numbers. Seconds are of the local civil clock: 86,400 times the day number (1970-01-01 is day 0) plus the second of the
   day. Days and seconds that are asked about lie from 1901-01-01 up to 2700-01-01, and horizons have at least one day and
   at most 146,098. Vehicle types are 1 to 99. For any other number the answer is GTD_RANGE.

   Texts are bytes with a length, without a zero at their end. */
#ifndef GTD_H
#define GTD_H

#include <stdbool.h>
#include <stddef.h>
#include <stdint.h>

#ifdef __cplusplus
extern "C" {
#endif

/* What a call has made. Its fields are the library's own. */
typedef struct { bool full; void *at; } gtd_handle;
#define GTD_NONE { false, NULL }

/* Answers of all calls. What a call says of *change, *fault and the like holds only after the answer named there; after any
   other answer they are left as they were. */
enum {
    GTD_NO = 0,     /* no, none, or at fault */
    GTD_YES = 1,    /* yes, found, or done */
    GTD_RANGE = 2,  /* a number is out of its range */
    GTD_KIND = 3,   /* the handle is empty, or of another kind */
    GTD_MEMORY = 4, /* no memory; the handle to be opened is empty */
    GTD_YEAR = 5,   /* a start of the domain gives a year */
    GTD_SHORT = 6   /* there is too little room; nothing was written but the length that is needed */
};

/* The first fault of a text. kind: 1 BadToken, 2 Fuzzy, 3 TooDeep, 4 TooMany, 5 Repeated, 6 FieldRange, 7 Negative,
   8 Unexpected, 9 Incomplete, 10 TooLongDuration. place: the number of bytes before it. */
typedef struct { uint32_t kind; size_t place; } gtd_fault;

/* The first fault of a record file. kind: 2 TooLarge, 3 Header, 4 FieldCount, 5 Element, 6 Direction, 7 Vehicle, 8 Domain,
   9 TooManyRows. row: its number, from 1, where a row is at fault, else 0. text: of Domain, the fault of the row's text,
   else zeros. */
typedef struct { uint32_t kind; uint32_t row; gtd_fault text; } gtd_record_fault;

/* The first fault of a text of opening hours. kind: 1 BadToken, 2 Unsupported, 3 Range, 4 Unexpected, 5 Incomplete, 7 Years, or
   6 TooMany: they would need more than 128 basic domains. place: the number of bytes before it; 0 of TooMany. */
typedef struct { uint32_t kind; size_t place; } gtd_hours_fault;

/* Domains. */

/* The domain of a text: GTD_YES, or GTD_NO and *fault. */
uint32_t gtd_domain_open(gtd_handle *domain, const uint8_t *text, size_t length, gtd_fault *fault);

/* The domain with exactly the seconds at which opening hours of OpenStreetMap are open: GTD_YES, or GTD_NO and *fault. */
uint32_t gtd_domain_from_hours(gtd_handle *domain, const uint8_t *text, size_t length, gtd_hours_fault *fault);

/* Whether the domain contains the second. */
uint32_t gtd_domain_holds(gtd_handle *domain, int64_t second);

/* The first later second before the day at which membership changes: GTD_YES and *change, or GTD_NO. */
uint32_t gtd_domain_next(gtd_handle *domain, int64_t second, int64_t until_day, int64_t *change);

/* The same over all later seconds, for a second from 1901 to 2199; GTD_YEAR if a start gives a year. */
uint32_t gtd_domain_ever(gtd_handle *domain, int64_t second, int64_t *change);

/* The spans of the domain's seconds from one day up to another, which is not included: GTD_YES and *spans. */
uint32_t gtd_domain_spans(gtd_handle *domain, int64_t from_day, int64_t until_day, gtd_handle *spans);

/* The canonical text of the domain, its words in plain English (lines, each with a line end), and the picture of a year from
   1901 to 2199 as SVG: GTD_YES and *text. */
uint32_t gtd_domain_canon(gtd_handle *domain, gtd_handle *text);
uint32_t gtd_domain_words(gtd_handle *domain, gtd_handle *text);
uint32_t gtd_domain_picture(gtd_handle *domain, uint32_t year, gtd_handle *text);

/* One answer, 0 or 1, for each second, in order; GTD_RANGE at the first that is out of range. *done: how many were
   answered, after either. GTD_SHORT: there is room for fewer answers than seconds, and none is written. */
uint32_t gtd_domain_holds_many(gtd_handle *domain, const int64_t *seconds, size_t count, uint8_t *answers, size_t room,
                               size_t *done);

/* A second that one of two domains has alone. domain: 1 for the first, 2 for the second. */
typedef struct { int64_t second; uint32_t domain; } gtd_apart;

/* Whether two domains have the same seconds, for a second from 1901 to 2199.
   GTD_YES: each second of all time is in both or in neither, and no start gives a year.
   GTD_YEAR: a start of one of them gives a year, and each second from the given one on and before 2700-01-01 is in both or in
   neither.
   GTD_NO and *apart: the first second from the given one on that one of them has alone, which is before 2700-01-01. */
uint32_t gtd_same(gtd_handle *first, gtd_handle *second, int64_t from, gtd_apart *apart);

/* Records. An element that no record names is open. */

/* The records of a whole file of either version: GTD_YES, or GTD_NO and *fault. */
uint32_t gtd_records_open(gtd_handle *records, const uint8_t *bytes, size_t length, gtd_record_fault *fault);

/* How many elements the records name. */
uint32_t gtd_records_count(gtd_handle *records, size_t *elements);

/* The element at a place, from 0, in ascending order; GTD_NO past the last. */
uint32_t gtd_records_element(gtd_handle *records, size_t place, uint64_t *element);

/* Whether some record closes the element in the direction for the vehicle type at the second. */
uint32_t gtd_records_closed_at(gtd_handle *records, uint64_t element, bool negative, uint8_t vehicle, int64_t second);

/* The first later second before the day at which the element closes or opens: GTD_YES and *change, or GTD_NO. */
uint32_t gtd_records_next(gtd_handle *records, uint64_t element, bool negative, uint8_t vehicle, int64_t second,
                          int64_t until_day, int64_t *change);

/* The numbers of the rows that close, ascending, from 1: GTD_YES and *count (0: open), or GTD_SHORT and *count. */
uint32_t gtd_records_closers(gtd_handle *records, uint64_t element, bool negative, uint8_t vehicle, int64_t second,
                             uint32_t *rows, size_t room, size_t *count);

/* The spans in which the element is open, from one day up to another, which is not included: GTD_YES and *spans. */
uint32_t gtd_records_spans(gtd_handle *records, uint64_t element, bool negative, uint8_t vehicle, int64_t from_day,
                           int64_t until_day, gtd_handle *spans);

/* The whole schedule, as `gtd schedule` prints it: GTD_YES and *text. */
uint32_t gtd_records_schedule(gtd_handle *records, int64_t from_day, int64_t until_day, uint8_t vehicle, gtd_handle *text);

/* One answer, 1 closed or 0 open, for each question, in order, as of gtd_domain_holds_many. */
typedef struct { uint64_t element; int64_t second; uint8_t vehicle; bool negative; } gtd_question;
uint32_t gtd_records_closed_many(gtd_handle *records, const gtd_question *questions, size_t count, uint8_t *answers,
                                 size_t room, size_t *done);

/* A second handle of the same records, which another thread may use at the same time. */
uint32_t gtd_share(gtd_handle *records, gtd_handle *other);

/* Spans, texts, and the end of any handle. */

/* The next span, its first second and the first second after it: GTD_YES, or GTD_NO at the end and from then on. Takes no
   memory. */
uint32_t gtd_spans_next(gtd_handle *spans, int64_t *from, int64_t *until);

/* The bytes of a text: GTD_YES and *length, or GTD_SHORT and *length. */
uint32_t gtd_text_bytes(gtd_handle *text, uint8_t *out, size_t room, size_t *length);

/* Ends what the handle stands for, and leaves it empty. An empty handle stays as it is. */
void gtd_close(gtd_handle *handle);

/* Seconds and names. */

/* The second of a date and a clock time. GTD_RANGE: there is no such date or time, or it is not from 1901 to 2699. */
uint32_t gtd_second(int64_t year, uint32_t month, uint32_t day, uint32_t hour, uint32_t minute, uint32_t second, int64_t *out);

/* The second as YYYY-MM-DDThh:mm:ss, 19 bytes. */
uint32_t gtd_stamp(int64_t second, uint8_t *out, size_t room);

/* The names of the kinds of gtd_fault, gtd_record_fault and gtd_hours_fault, as the programs print them; GTD_RANGE for another
   number. */
uint32_t gtd_fault_name(uint32_t kind, uint8_t *out, size_t room, size_t *length);
uint32_t gtd_record_fault_name(uint32_t kind, uint8_t *out, size_t room, size_t *length);
uint32_t gtd_hours_fault_name(uint32_t kind, uint8_t *out, size_t room, size_t *length);

/* The version of the library. */
uint32_t gtd_version(uint8_t *out, size_t room, size_t *length);

#ifdef __cplusplus
}
#endif

#endif
