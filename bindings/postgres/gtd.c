/* gtd in SQL of PostgreSQL: docs/LIBRARY.md describes the functions, gtd--0.1.sql declares them. */
#include "postgres.h"

#include "fmgr.h"
#include "funcapi.h"
#include "miscadmin.h"
#include "utils/builtins.h"
#include "utils/memutils.h"
#include "utils/timestamp.h"

#include "texts.h"
#include "windows.h"

PG_MODULE_MAGIC;

/* What a text stands for: a domain, with how it recurs, or the records of one row. Without a text, the handle stands for nothing
   that is asked. */
typedef struct {
    uint8_t *text;
    uint32_t hash;
    size_t length;
    gtd_handle handle;
    recurrence recurs;
} kept;

/* What a call in a query keeps in fn_extra. Of each argument that is a domain: for each remainder of a hash the text that was
   read last, and the one of these that was asked last. Also what a call opens for itself, so that an error that leaves the call
   leaks nothing. */
enum { SLOTS = 64, DOMAINS = 2 };
typedef struct {
    kept *last;
    kept slots[SLOTS];
} shelf;
typedef struct {
    MemoryContextCallback end;
    gtd_handle made, opened, spans[DOMAINS];
    shelf shelves[DOMAINS];
} site;

static void end_site(void *given)
{
    site *it = given;
    gtd_close(&it->made);
    gtd_close(&it->opened);
    for (int at = 0; at < DOMAINS; at++) gtd_close(&it->spans[at]);
    for (int at = 0; at < DOMAINS; at++)
        for (int slot = 0; slot < SLOTS; slot++) gtd_close(&it->shelves[at].slots[slot].handle);
}

static site *site_of(FunctionCallInfo fcinfo)
{
    FmgrInfo *info = fcinfo->flinfo;
    if (info->fn_extra) return info->fn_extra;
    site *it = MemoryContextAllocZero(info->fn_mcxt, sizeof *it);
    it->end.func = end_site;
    it->end.arg = it;
    MemoryContextRegisterResetCallback(info->fn_mcxt, &it->end);
    return info->fn_extra = it;
}

static bool is_of(const kept *it, part text)
{
    return it && it->text && it->length == text.length && !memcmp(it->text, text.bytes, text.length);
}

/* Errors. */

static void memory_error(void)
{
    ereport(ERROR, (errcode(ERRCODE_OUT_OF_MEMORY), errmsg("out of memory")));
}

static void domain_error(const gtd_fault *fault, part domain)
{
    char name[NAME_ROOM], text[SHOWN_ROOM];
    fault_name(fault->kind, name);
    show_place(domain.bytes, domain.length, fault->place, text);
    ereport(ERROR, (errcode(ERRCODE_INVALID_TEXT_REPRESENTATION), errmsg("invalid time domain: %s at %zu", name, fault->place),
                    errdetail("The caret shows the place:\n%s", text)));
}

static void hours_error(const gtd_hours_fault *fault, part hours)
{
    char name[NAME_ROOM], text[SHOWN_ROOM];
    if (fault->kind == HOURS_TOO_MANY) ereport(ERROR, (errcode(ERRCODE_PROGRAM_LIMIT_EXCEEDED), errmsg(TOO_MANY)));
    hours_fault_name(fault->kind, name);
    show_place(hours.bytes, hours.length, fault->place, text);
    ereport(ERROR, (errcode(ERRCODE_INVALID_TEXT_REPRESENTATION), errmsg("invalid opening hours: %s at %zu", name, fault->place),
                    errdetail("The caret shows the place:\n%s", text)));
}

static void text_error(int code, const char *what, part given, const char *accepted)
{
    char text[SHOWN_ROOM];
    show_start(given.bytes, given.length, text);
    ereport(ERROR, (errcode(code), errmsg("invalid %s: \"%s\"", what, text),
                    errhint("It must be %s.", accepted)));
}

static void range_error(const char *what, const char *why)
{
    ereport(ERROR, (errcode(ERRCODE_DATETIME_VALUE_OUT_OF_RANGE), errmsg("%s out of range", what),
                    errdetail("%c%s.", pg_toupper((unsigned char)why[0]), why + 1)));
}

/* For any answer of a call but the two that it is asked for. */
static void answer_error(uint32_t answer, const char *what, const char *why)
{
    if (answer == GTD_RANGE) range_error(what, why);
    if (answer == GTD_YEAR)
        ereport(ERROR, (errcode(ERRCODE_INVALID_PARAMETER_VALUE), errmsg("the domain gives a year"),
                        errhint("gtd_next asks up to a moment, gtd_ever about all years.")));
    if (answer == GTD_MEMORY) memory_error();
    elog(ERROR, "the library answered %u", answer);
}

/* Domains. */

static part part_of(text *given)
{
    return (part){ (const uint8_t *)VARDATA_ANY(given), VARSIZE_ANY_EXHDR(given) };
}

/* A domain or opening hours that are given as an argument. */
static part argument_text(FunctionCallInfo fcinfo, int argument)
{
    part given = part_of(PG_GETARG_TEXT_PP(argument));
    if (given.length > MOST_TEXT) ereport(ERROR, (errcode(ERRCODE_PROGRAM_LIMIT_EXCEEDED), errmsg(TOO_LONG)));
    return given;
}

/* Reads a text, which a shelf of the site keeps if it stands for something. */
static kept *keep(FunctionCallInfo fcinfo, shelf *at, part text, bool is_row, uint32_t *answer, gtd_record_fault *fault)
{
    *answer = GTD_YES;
    if (is_of(at->last, text)) return at->last;
    uint32_t hash = hash_of(text.bytes, text.length);
    kept *it = at->last = &at->slots[hash % SLOTS];
    if (it->hash == hash && is_of(it, text)) return it;
    if (it->text) pfree(it->text);
    it->text = NULL;
    uint8_t *own = MemoryContextAlloc(fcinfo->flinfo->fn_mcxt, text.length + 1);
    memcpy(own, text.bytes, text.length);
    *answer = is_row ? gtd_records_open(&it->handle, own, text.length, fault)
                     : gtd_domain_open(&it->handle, own, text.length, &fault->text);
    if (*answer != GTD_YES) {
        pfree(own);
        return NULL;
    }
    it->text = own;
    it->hash = hash;
    it->length = text.length;
    if (!is_row) it->recurs = recurrence_of(text);
    return it;
}

/* The domain of an argument, the first or the second. */
static asked_domain domain_at(FunctionCallInfo fcinfo, int argument)
{
    part given = argument_text(fcinfo, argument);
    uint32_t answer;
    gtd_record_fault fault;
    kept *it = keep(fcinfo, &site_of(fcinfo)->shelves[argument], given, false, &answer, &fault);
    if (!it && answer == GTD_NO) domain_error(&fault.text, given);
    if (!it) answer_error(answer, "domain", "");
    return (asked_domain){ &it->handle, it->recurs };
}

static gtd_handle *domain_of(FunctionCallInfo fcinfo)
{
    return domain_at(fcinfo, 0).handle;
}

/* The domain of the second argument: that of the first one, if the texts are equal. */
static asked_domain second_domain(FunctionCallInfo fcinfo, asked_domain first)
{
    part one = part_of(PG_GETARG_TEXT_PP(0)), other = part_of(PG_GETARG_TEXT_PP(1));
    bool are_equal = one.length == other.length && !memcmp(one.bytes, other.bytes, one.length);
    return are_equal ? first : domain_at(fcinfo, 1);
}

/* Between two windows the server ends a call that is cancelled, or whose time is over. */
static bool stops(void *unused)
{
    (void)unused;
    CHECK_FOR_INTERRUPTS();
    return false;
}

static const stopping by_server = { stops, NULL };

/* Moments. */

typedef enum { AS_TIMESTAMP, AS_SECONDS, AS_TEXT } type;

#define MICROSECONDS INT64CONST(1000000)
#define EPOCH_OF_TIMESTAMPS ((int64)(POSTGRES_EPOCH_JDATE - UNIX_EPOCH_JDATE) * DAY)

/* A moment that is given as an argument. Fractions of a second are dropped. */
static moment moment_of(Datum datum, type as, bool is_bound)
{
    moment out = { 0 };
    if (as == AS_TEXT) {
        part given = part_of(DatumGetTextPP(datum));
        if (!read_moment((const char *)given.bytes, given.length, is_bound, &out))
            text_error(ERRCODE_INVALID_DATETIME_FORMAT, "moment", given, is_bound ? BOUNDS : MOMENTS);
        return out;
    }
    int64 second = DatumGetInt64(datum);
    if (as == AS_TIMESTAMP && !TIMESTAMP_NOT_FINITE(second))
        second = second / MICROSECONDS - (second % MICROSECONDS < 0) + EPOCH_OF_TIMESTAMPS;
    if (!read_seconds(second, is_bound, &out)) range_error("moment", "Moments lie " RANGE);
    return out;
}

/* A moment as an answer. */
static Datum moment_datum(int64_t second, type as, form written)
{
    char text[STAMP];
    if (as == AS_SECONDS) return Int64GetDatum(second);
    if (as == AS_TIMESTAMP) return TimestampGetDatum((second - EPOCH_OF_TIMESTAMPS) * MICROSECONDS);
    write_moment(second, written, text);
    return PointerGetDatum(cstring_to_text_with_len(text, STAMP));
}

/* Functions. Those of moments are exported for each type of a moment. */

#define FOR_EACH_TYPE(name)                                                               \
    PG_FUNCTION_INFO_V1(name##_timestamp);                                                \
    Datum name##_timestamp(PG_FUNCTION_ARGS) { return name(fcinfo, AS_TIMESTAMP); }       \
    PG_FUNCTION_INFO_V1(name##_seconds);                                                  \
    Datum name##_seconds(PG_FUNCTION_ARGS) { return name(fcinfo, AS_SECONDS); }           \
    PG_FUNCTION_INFO_V1(name##_text);                                                     \
    Datum name##_text(PG_FUNCTION_ARGS) { return name(fcinfo, AS_TEXT); }                 \
    extern int no_such_variable

PG_FUNCTION_INFO_V1(gtd_pg_check);
Datum gtd_pg_check(PG_FUNCTION_ARGS)
{
    char name[NAME_ROOM];
    uint32_t answer;
    gtd_record_fault fault;
    shelf *at = &site_of(fcinfo)->shelves[0];
    if (keep(fcinfo, at, argument_text(fcinfo, 0), false, &answer, &fault)) PG_RETURN_NULL();
    if (answer != GTD_NO) answer_error(answer, "domain", "");
    fault_name(fault.text.kind, name);
    PG_RETURN_TEXT_P(cstring_to_text(psprintf("%s at %zu", name, fault.text.place)));
}

/* A text that the library writes of a domain; of words, lines, the last line end is left out. */
static Datum text_datum(FunctionCallInfo fcinfo, gtd_handle *domain, uint32_t (*write)(gtd_handle *, gtd_handle *))
{
    gtd_handle *made = &site_of(fcinfo)->made;
    size_t length = 0;
    uint32_t answer = write(domain, made);
    if (answer != GTD_YES) answer_error(answer, "domain", "");
    gtd_text_bytes(made, NULL, 0, &length);
    text *out = palloc(VARHDRSZ + length);
    answer = gtd_text_bytes(made, (uint8_t *)VARDATA(out), length, &length);
    gtd_close(made);
    if (answer != GTD_YES) answer_error(answer, "domain", "");
    if (length && VARDATA(out)[length - 1] == '\n') length--;
    SET_VARSIZE(out, VARHDRSZ + length);
    PG_RETURN_TEXT_P(out);
}

PG_FUNCTION_INFO_V1(gtd_pg_canon);
Datum gtd_pg_canon(PG_FUNCTION_ARGS)
{
    return text_datum(fcinfo, domain_of(fcinfo), gtd_domain_canon);
}

PG_FUNCTION_INFO_V1(gtd_pg_words);
Datum gtd_pg_words(PG_FUNCTION_ARGS)
{
    return text_datum(fcinfo, domain_of(fcinfo), gtd_domain_words);
}

PG_FUNCTION_INFO_V1(gtd_pg_hours);
Datum gtd_pg_hours(PG_FUNCTION_ARGS)
{
    part given = argument_text(fcinfo, 0);
    gtd_handle *opened = &site_of(fcinfo)->opened;
    gtd_hours_fault fault;
    uint32_t answer = gtd_domain_from_hours(opened, given.bytes, given.length, &fault);
    if (answer == GTD_NO) hours_error(&fault, given);
    if (answer != GTD_YES) answer_error(answer, "opening hours", "");
    Datum canonical = text_datum(fcinfo, opened, gtd_domain_canon);
    gtd_close(opened);
    return canonical;
}

/* How the domains of the first two arguments compare from a second on. */
static uint32_t compared(FunctionCallInfo fcinfo, int64_t from, int64_t *apart)
{
    gtd_handle *spans = site_of(fcinfo)->spans;
    asked_domain first = domain_at(fcinfo, 0), domains[DOMAINS] = { first, second_domain(fcinfo, first) };
    uint32_t answer = compare(domains, from, by_server, spans, apart);
    for (int at = 0; at < DOMAINS; at++) gtd_close(&spans[at]);
    return answer;
}

PG_FUNCTION_INFO_V1(gtd_pg_same);
Datum gtd_pg_same(PG_FUNCTION_ARGS)
{
    int64_t apart;
    uint32_t answer = compared(fcinfo, FIRST_SECOND, &apart);
    if (answer != GTD_YES && answer != GTD_NO) answer_error(answer, "moment", APART);
    PG_RETURN_BOOL(answer == GTD_YES);
}

static Datum gtd_pg_holds(FunctionCallInfo fcinfo, type as)
{
    gtd_handle *domain = domain_of(fcinfo);
    uint32_t answer = gtd_domain_holds(domain, moment_of(PG_GETARG_DATUM(1), as, false).second);
    if (answer != GTD_YES && answer != GTD_NO) answer_error(answer, "moment", "Moments lie " RANGE);
    PG_RETURN_BOOL(answer == GTD_YES);
}
FOR_EACH_TYPE(gtd_pg_holds);

static Datum gtd_pg_next(FunctionCallInfo fcinfo, type as)
{
    asked_domain domain = domain_at(fcinfo, 0);
    moment from = moment_of(PG_GETARG_DATUM(1), as, false), until = moment_of(PG_GETARG_DATUM(2), as, true);
    int64_t change = 0;
    uint32_t answer = next_change(domain, from.second, until.second, by_server, &change);
    if (answer == GTD_NO) PG_RETURN_NULL();
    if (answer != GTD_YES) answer_error(answer, "second moment", HORIZON);
    return moment_datum(change, as, from.form);
}
FOR_EACH_TYPE(gtd_pg_next);

static Datum gtd_pg_ever(FunctionCallInfo fcinfo, type as)
{
    asked_domain domain = domain_at(fcinfo, 0);
    moment from = moment_of(PG_GETARG_DATUM(1), as, false);
    int64_t change = 0;
    uint32_t answer = next_ever(domain, from.second, by_server, &change);
    if (answer == GTD_NO) PG_RETURN_NULL();
    if (answer != GTD_YES) answer_error(answer, "moment", EVER);
    return moment_datum(change, as, from.form);
}
FOR_EACH_TYPE(gtd_pg_ever);

static Datum gtd_pg_apart(FunctionCallInfo fcinfo, type as)
{
    moment from = moment_of(PG_GETARG_DATUM(2), as, false);
    int64_t apart = 0;
    uint32_t answer = compared(fcinfo, from.second, &apart);
    if (answer == GTD_YES) PG_RETURN_NULL();
    if (answer != GTD_NO) answer_error(answer, "moment", APART);
    return moment_datum(apart, as, from.form);
}
FOR_EACH_TYPE(gtd_pg_apart);

/* Puts a span as a row of the result; what the row takes in memory ends with it. */
static void put_span(ReturnSetInfo *result, MemoryContext row_memory, Datum row[2])
{
    bool nulls[] = { false, false };
    tuplestore_putvalues(result->setResult, result->setDesc, row, nulls);
    MemoryContextReset(row_memory);
}

static Datum gtd_pg_spans(FunctionCallInfo fcinfo, type as)
{
    asked_domain domain = domain_at(fcinfo, 0);
    gtd_handle *made = &site_of(fcinfo)->made;
    moment since = moment_of(PG_GETARG_DATUM(1), as, true), until = moment_of(PG_GETARG_DATUM(2), as, true);
    ReturnSetInfo *result = (ReturnSetInfo *)fcinfo->resultinfo;
    span_walk walk;
    int64_t begins, ends;
    uint32_t answer;
    InitMaterializedSRF(fcinfo, 0);
    if (!open_walk(domain, since.second, until.second, made, &walk)) answer_error(GTD_RANGE, "second moment", HORIZON);
    MemoryContext row_memory = AllocSetContextCreate(CurrentMemoryContext, "row of gtd_spans", ALLOCSET_SMALL_SIZES);
    MemoryContext outside = MemoryContextSwitchTo(row_memory);
    while ((answer = next_span_of(&walk, by_server, &begins, &ends)) == GTD_YES) {
        CHECK_FOR_INTERRUPTS();
        put_span(result, row_memory, (Datum[]){ moment_datum(begins, as, since.form), moment_datum(ends, as, since.form) });
    }
    MemoryContextSwitchTo(outside);
    MemoryContextDelete(row_memory);
    gtd_close(made);
    if (answer != GTD_NO) answer_error(answer, "second moment", HORIZON);
    PG_RETURN_NULL();
}
FOR_EACH_TYPE(gtd_pg_spans);

/* The aggregate gtd_closed: whether one of the rows closes. Its state is joined by OR, in which NULL is neither. */

PG_FUNCTION_INFO_V1(gtd_pg_closed_or);
Datum gtd_pg_closed_or(PG_FUNCTION_ARGS)
{
    bool left = !PG_ARGISNULL(0) && PG_GETARG_BOOL(0), right = !PG_ARGISNULL(1) && PG_GETARG_BOOL(1);
    if (!left && !right && (PG_ARGISNULL(0) || PG_ARGISNULL(1))) PG_RETURN_NULL();
    PG_RETURN_BOOL(left || right);
}

/* What a row stands for: its direction, vehicle types and domain. A domain that is NULL is always. */
static gtd_handle *row_of(FunctionCallInfo fcinfo, bool is_number)
{
    part fields[3] = { 0 };
    char number[16];
    for (int field = 0; field < 3; field++) {
        fields[field] = (part){ (const uint8_t *)"", 0 };
        if (PG_ARGISNULL(field + 1)) continue;
        if (is_number && field == 1) fields[1] = (part){ (const uint8_t *)number, (size_t)pg_ltoa(PG_GETARG_INT32(2), number) };
        else fields[field] = part_of(PG_GETARG_TEXT_PP(field + 1));
    }
    uint8_t *file = palloc(row_room(fields));
    uint32_t answer;
    gtd_record_fault fault;
    part row = { file, write_row(fields, file) };
    kept *it = keep(fcinfo, &site_of(fcinfo)->shelves[0], row, true, &answer, &fault);
    pfree(file);
    if (it) return &it->handle;
    if (answer != GTD_NO) answer_error(answer, "row", "");
    if (fault.kind == FAULT_DOMAIN) domain_error(&fault.text, fields[2]);
    if (fault.kind == FAULT_DIRECTION) text_error(ERRCODE_INVALID_TEXT_REPRESENTATION, "direction", fields[0], DIRECTIONS);
    if (fault.kind == FAULT_VEHICLE) text_error(ERRCODE_INVALID_TEXT_REPRESENTATION, "vehicle types", fields[1], VEHICLES);
    ereport(ERROR, (errcode(ERRCODE_PROGRAM_LIMIT_EXCEEDED), errmsg("the row is too long")));
    return NULL;
}

/* The state after a row; its arguments are numbered after the state. */
static Datum closed_step(FunctionCallInfo fcinfo, bool is_number, type as)
{
    bool is_null = PG_ARGISNULL(0), is_closed = !is_null && PG_GETARG_BOOL(0), is_negative;
    if (!PG_ARGISNULL(1) || !PG_ARGISNULL(2) || !PG_ARGISNULL(3)) { /* else, an outer join found no row */
        gtd_handle *row = row_of(fcinfo, is_number);
        if (PG_ARGISNULL(4) || PG_ARGISNULL(5) || PG_ARGISNULL(6)) {
            is_null = !is_closed;
        } else {
            part direction = part_of(PG_GETARG_TEXT_PP(4));
            int32 vehicle = PG_GETARG_INT32(5);
            if (!read_direction(direction, &is_negative))
                text_error(ERRCODE_INVALID_TEXT_REPRESENTATION, "direction", direction, ASKED_DIRECTIONS);
            if (vehicle < 1 || vehicle > 99)
                ereport(ERROR, (errcode(ERRCODE_INVALID_PARAMETER_VALUE), errmsg("vehicle type out of range: %d", vehicle),
                                errdetail("%c%s.", pg_toupper((unsigned char)ASKED_VEHICLES[0]), &ASKED_VEHICLES[1])));
            int64_t second = moment_of(PG_GETARG_DATUM(6), as, false).second;
            uint32_t answer = gtd_records_closed_at(row, 1, is_negative, (uint8_t)vehicle, second);
            if (answer != GTD_YES && answer != GTD_NO) answer_error(answer, "moment", "Moments lie " RANGE);
            is_closed |= answer == GTD_YES;
        }
    }
    if (is_null && !is_closed) PG_RETURN_NULL();
    PG_RETURN_BOOL(is_closed);
}

static Datum gtd_pg_closed_number(FunctionCallInfo fcinfo, type as)
{
    return closed_step(fcinfo, true, as);
}
FOR_EACH_TYPE(gtd_pg_closed_number);

static Datum gtd_pg_closed_list(FunctionCallInfo fcinfo, type as)
{
    return closed_step(fcinfo, false, as);
}
FOR_EACH_TYPE(gtd_pg_closed_list);
