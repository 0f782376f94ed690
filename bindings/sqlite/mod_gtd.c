/* gtd in SQL of SQLite: docs/LIBRARY.md describes the functions. `make` builds it; .load ./mod_gtd or load_extension('./mod_gtd')
   loads it. */
#include <sqlite3ext.h>
SQLITE_EXTENSION_INIT1

#include "texts.h"
#include "windows.h"

/* What a text stands for: a domain, with how it recurs, or the records of one row. Whoever keeps it counts among its holders. */
typedef struct {
    unsigned holders;
    bool is_row;
    uint32_t hash;
    size_t length;
    gtd_handle handle;
    recurrence recurs;
    uint8_t text[];
} kept;

/* What a connection keeps: for each remainder of a hash the text that was read last, and the one of these that was asked last.
   Where a text is a constant of the query, SQLite keeps it as auxiliary data; this is for texts that vary and come again. */
enum { SLOTS = 256 };
typedef struct {
    unsigned holders;
    kept *last;
    kept *slots[SLOTS];
} shelf;

/* What a call for a text answered, and the fault; of a domain fault.text alone. */
typedef struct {
    uint32_t answer;
    gtd_record_fault fault;
} reading;

static void release_kept(void *given)
{
    kept *it = given;
    if (--it->holders) return;
    gtd_close(&it->handle);
    sqlite3_free(it);
}

static void release_shelf(void *given)
{
    shelf *it = given;
    if (--it->holders) return;
    for (int slot = 0; slot < SLOTS; slot++)
        if (it->slots[slot]) release_kept(it->slots[slot]);
    sqlite3_free(it);
}

static bool is_of(const kept *it, part text, bool is_row)
{
    return it && it->is_row == is_row && it->length == text.length && !memcmp(it->text, text.bytes, text.length);
}

/* What a text stands for if the shelf has it; otherwise NULL and the text's hash. */
static kept *find(shelf *on, part text, bool is_row, uint32_t *hash)
{
    if (is_of(on->last, text, is_row)) return on->last;
    *hash = hash_of(text.bytes, text.length);
    kept *it = on->slots[*hash % SLOTS];
    return it && it->hash == *hash && is_of(it, text, is_row) ? on->last = it : NULL;
}

/* Reads a text, which the shelf keeps until another one takes its slot; or NULL and why. */
static kept *read_text(shelf *on, part text, bool is_row, uint32_t hash, reading *why)
{
    kept *it = sqlite3_malloc64(sizeof *it + text.length), **slot = &on->slots[hash % SLOTS];
    *why = (reading){ .answer = GTD_MEMORY };
    if (!it) return NULL;
    *it = (kept){ .holders = 1, .is_row = is_row, .hash = hash, .length = text.length, .handle = GTD_NONE };
    memcpy(it->text, text.bytes, text.length);
    why->answer = is_row ? gtd_records_open(&it->handle, it->text, text.length, &why->fault)
                         : gtd_domain_open(&it->handle, it->text, text.length, &why->fault.text);
    if (why->answer != GTD_YES) {
        release_kept(it);
        return NULL;
    }
    if (!is_row) it->recurs = recurrence_of(text);
    if (*slot) release_kept(*slot);
    return on->last = *slot = it;
}

/* The same for a text that the shelf may have; one without bytes is one for which SQLite refused memory. */
static kept *keep(shelf *on, part text, bool is_row, reading *why)
{
    uint32_t hash;
    *why = (reading){ .answer = GTD_MEMORY };
    if (!text.bytes) return NULL;
    kept *it = find(on, text, is_row, &hash);
    return it ? it : read_text(on, text, is_row, hash, why);
}

/* Messages are taken from SQLite's memory; where it gives none, they are NULL. */

static char *domain_error(const gtd_fault *fault, part domain)
{
    char name[NAME_ROOM], text[SHOWN_ROOM];
    fault_name(fault->kind, name);
    show_place(domain.bytes, domain.length, fault->place, text);
    return sqlite3_mprintf("not a time domain: %s at %llu\n%s", name, (unsigned long long)fault->place, text);
}

static char *hours_error(const gtd_hours_fault *fault, part hours)
{
    char name[NAME_ROOM], text[SHOWN_ROOM];
    if (fault->kind == HOURS_TOO_MANY) return sqlite3_mprintf(TOO_MANY);
    hours_fault_name(fault->kind, name);
    show_place(hours.bytes, hours.length, fault->place, text);
    return sqlite3_mprintf("not opening hours: %s at %llu\n%s", name, (unsigned long long)fault->place, text);
}

static char *text_error(const char *what, part given, const char *accepted)
{
    char text[SHOWN_ROOM];
    show_start(given.bytes, given.length, text);
    return sqlite3_mprintf("%s: '%s' (%s)", what, text, accepted);
}

/* The text of a value; without bytes where SQLite refuses memory for it. */
static part text_of(sqlite3_value *value)
{
    const uint8_t *bytes = sqlite3_value_text(value);
    return (part){ bytes, bytes ? (size_t)sqlite3_value_bytes(value) : 0 };
}

static bool is_null(sqlite3_value *value)
{
    return sqlite3_value_type(value) == SQLITE_NULL;
}

/* Reads a moment, or says why it is none. */
static bool moment_of(sqlite3_value *value, bool is_bound, moment *out, char **error)
{
    int type = sqlite3_value_type(value);
    if (type == SQLITE_INTEGER && read_seconds(sqlite3_value_int64(value), is_bound, out)) return true;
    part text = text_of(value);
    if (type == SQLITE_TEXT && text.bytes && read_moment((const char *)text.bytes, text.length, is_bound, out)) return true;
    *error = text.bytes ? text_error("not a moment", text, is_bound ? BOUNDS : MOMENTS) : NULL;
    return false;
}

/* How a long call is stopped. SQLite looks whether it was interrupted, and asks its progress handler, within statements alone, so
   that a short one is run between two windows, at most 50 times a second. It has a thousand rows, so that a handler that is asked
   seldom is asked soon. It is prepared when it is first needed, and ends with the call. */
enum { CHECKED_AFTER = CLOCKS_PER_SEC / 50 };
#define CHECKING "WITH RECURSIVE n(i) AS (SELECT 1 UNION ALL SELECT i + 1 FROM n WHERE i < 1000) SELECT max(i) FROM n"

typedef struct {
    sqlite3 *db;
    sqlite3_stmt *checking;
    clock_t checked;
} connection;

/* Whether the statement was stopped. One that cannot be prepared, as where an authorizer refuses it, stops nothing. */
static bool is_stopped(connection *on)
{
    int status = SQLITE_OK;
    if (!on->checking) status = sqlite3_prepare_v2(on->db, CHECKING, -1, &on->checking, NULL);
    if (on->checking) {
        status = sqlite3_step(on->checking);
        sqlite3_reset(on->checking);
    }
    return status == SQLITE_INTERRUPT;
}

static bool stops(void *given)
{
    connection *on = given;
    clock_t now = clock();
    if (on->checked && now - on->checked < CHECKED_AFTER) return false;
    bool is_first = !on->checked;
    on->checked = now;
    return !is_first && is_stopped(on);
}

static void end_checks(connection *on)
{
    sqlite3_finalize(on->checking);
    on->checking = NULL;
    on->checked = 0;
}

/* Ends a call with an error; a message that is NULL stands for refused memory. */
static void refuse(sqlite3_context *context, char *error)
{
    if (!error) {
        sqlite3_result_error_nomem(context);
        return;
    }
    sqlite3_result_error(context, error, -1);
    sqlite3_free(error);
}

/* The same for an answer of the library, with what it says of numbers out of range. */
static void refuse_answer(sqlite3_context *context, uint32_t answer, const char *range)
{
    if (answer == GTD_MEMORY) sqlite3_result_error_nomem(context);
    else if (answer == STOPPED) sqlite3_result_error_code(context, SQLITE_INTERRUPT);
    else sqlite3_result_error(context, answer == GTD_YEAR ? YEAR : answer == GTD_RANGE ? range : "a wrong handle", -1);
}

/* Whether a text is too long; then the call has ended with an error. */
static bool is_too_long(sqlite3_context *context, part text)
{
    if (text.length <= MOST_TEXT) return false;
    sqlite3_result_error(context, TOO_LONG, -1);
    return true;
}

/* What the domain of an argument stands for, or NULL where the call has ended with an error. */
static kept *kept_of(sqlite3_context *context, sqlite3_value **values, int argument)
{
    kept *it = sqlite3_get_auxdata(context, argument);
    if (it) return it;
    shelf *on = sqlite3_user_data(context);
    part text = text_of(values[argument]);
    reading why = { .answer = GTD_MEMORY };
    uint32_t hash;
    if (is_too_long(context, text)) return NULL;
    if (text.bytes && (it = find(on, text, false, &hash))) return it;
    if (text.bytes) it = read_text(on, text, false, hash, &why);
    if (!it) {
        refuse(context, why.answer == GTD_NO ? domain_error(&why.fault.text, text) : NULL);
        return NULL;
    }
    it->holders++;
    sqlite3_set_auxdata(context, argument, it, release_kept);
    return it; /* the shelf holds it, even if SQLite has let it go at once, since the text is no constant */
}

/* The domain of the first argument, or NULL where the call has ended with an error. */
static gtd_handle *domain_of(sqlite3_context *context, sqlite3_value **values)
{
    kept *it = kept_of(context, values, 0);
    return it ? &it->handle : NULL;
}

static void result_moment(sqlite3_context *context, int64_t second, form as)
{
    char text[STAMP];
    if (as == FORM_SECONDS) {
        sqlite3_result_int64(context, second);
        return;
    }
    write_moment(second, as, text);
    sqlite3_result_text(context, text, STAMP, SQLITE_TRANSIENT);
}

static bool any_null(int count, sqlite3_value **values)
{
    for (int at = 0; at < count; at++)
        if (is_null(values[at])) return true;
    return false;
}

/* Functions. */

static void sql_check(sqlite3_context *context, int count, sqlite3_value **values)
{
    if (any_null(count, values)) return;
    part text = text_of(values[0]);
    reading why;
    char name[NAME_ROOM];
    if (is_too_long(context, text)) return;
    if (keep(sqlite3_user_data(context), text, false, &why)) return;
    if (why.answer != GTD_NO) {
        sqlite3_result_error_nomem(context);
        return;
    }
    fault_name(why.fault.text.kind, name);
    char *found = sqlite3_mprintf("%s at %llu", name, (unsigned long long)why.fault.text.place);
    if (found) sqlite3_result_text(context, found, -1, sqlite3_free);
    else sqlite3_result_error_nomem(context);
}

/* A text that the library writes of a domain; of words, lines, the last line end is left out. */
static void result_text(sqlite3_context *context, gtd_handle *domain, uint32_t (*write)(gtd_handle *, gtd_handle *))
{
    gtd_handle text = GTD_NONE;
    if (!domain) return;
    uint32_t answer = write(domain, &text);
    size_t length = 0;
    if (answer == GTD_YES) answer = gtd_text_bytes(&text, NULL, 0, &length);
    uint8_t *bytes = sqlite3_malloc64(length + 1);
    if (bytes) answer = gtd_text_bytes(&text, bytes, length, &length);
    gtd_close(&text);
    if (!bytes || answer != GTD_YES) {
        sqlite3_free(bytes);
        refuse_answer(context, bytes ? answer : GTD_MEMORY, "");
        return;
    }
    if (length && bytes[length - 1] == '\n') length--;
    sqlite3_result_text64(context, (char *)bytes, length, sqlite3_free, SQLITE_UTF8);
}

static void sql_canon(sqlite3_context *context, int count, sqlite3_value **values)
{
    if (!any_null(count, values)) result_text(context, domain_of(context, values), gtd_domain_canon);
}

static void sql_words(sqlite3_context *context, int count, sqlite3_value **values)
{
    if (!any_null(count, values)) result_text(context, domain_of(context, values), gtd_domain_words);
}

static void sql_hours(sqlite3_context *context, int count, sqlite3_value **values)
{
    gtd_handle domain = GTD_NONE;
    gtd_hours_fault fault;
    if (any_null(count, values)) return;
    part text = text_of(values[0]);
    if (is_too_long(context, text)) return;
    uint32_t answer = text.bytes ? gtd_domain_from_hours(&domain, text.bytes, text.length, &fault) : GTD_MEMORY;
    if (answer == GTD_YES) result_text(context, &domain, gtd_domain_canon);
    else refuse(context, answer == GTD_NO ? hours_error(&fault, text) : NULL);
    gtd_close(&domain);
}

static void sql_holds(sqlite3_context *context, int count, sqlite3_value **values)
{
    gtd_handle *domain;
    moment at;
    char *error;
    if (any_null(count, values) || !(domain = domain_of(context, values))) return;
    if (!moment_of(values[1], false, &at, &error)) {
        refuse(context, error);
        return;
    }
    uint32_t answer = gtd_domain_holds(domain, at.second);
    if (answer == GTD_YES || answer == GTD_NO) sqlite3_result_int(context, answer == GTD_YES);
    else refuse_answer(context, answer, RANGE);
}

/* How the domains of the first two arguments compare from a second on; GTD_KIND where the call has ended with an error. */
static uint32_t compared(sqlite3_context *context, sqlite3_value **values, int64_t from, int64_t *apart)
{
    kept *first = kept_of(context, values, 0);
    if (!first) return GTD_KIND;
    first->holders++; /* the second text may take its slot of the shelf */
    kept *second = kept_of(context, values, 1);
    uint32_t answer = GTD_KIND;
    if (second) {
        connection on = { .db = sqlite3_context_db_handle(context) };
        asked_domain domains[] = { { &first->handle, first->recurs }, { &second->handle, second->recurs } };
        gtd_handle spans[] = { GTD_NONE, GTD_NONE };
        answer = compare(domains, from, (stopping){ stops, &on }, spans, apart);
        for (int at = 0; at < 2; at++) gtd_close(&spans[at]);
        end_checks(&on);
    }
    release_kept(first);
    return answer;
}

static void sql_same(sqlite3_context *context, int count, sqlite3_value **values)
{
    int64_t apart;
    if (any_null(count, values)) return;
    uint32_t answer = compared(context, values, FIRST_SECOND, &apart);
    if (answer == GTD_YES || answer == GTD_NO) sqlite3_result_int(context, answer == GTD_YES);
    else if (answer != GTD_KIND) refuse_answer(context, answer, APART);
}

static void sql_apart(sqlite3_context *context, int count, sqlite3_value **values)
{
    moment from;
    int64_t apart;
    char *error;
    if (any_null(count, values)) return;
    if (!moment_of(values[2], false, &from, &error)) {
        refuse(context, error);
        return;
    }
    uint32_t answer = compared(context, values, from.second, &apart);
    if (answer == GTD_NO) result_moment(context, apart, from.form);
    else if (answer != GTD_YES && answer != GTD_KIND) refuse_answer(context, answer, APART);
}

static void result_change(sqlite3_context *context, uint32_t answer, int64_t change, form as, const char *range)
{
    if (answer == GTD_YES) result_moment(context, change, as);
    else if (answer != GTD_NO) refuse_answer(context, answer, range);
}

static void sql_next(sqlite3_context *context, int count, sqlite3_value **values)
{
    kept *it;
    moment from, until;
    int64_t change;
    char *error;
    if (any_null(count, values) || !(it = kept_of(context, values, 0))) return;
    if (!moment_of(values[1], false, &from, &error) || !moment_of(values[2], true, &until, &error)) {
        refuse(context, error);
        return;
    }
    connection on = { .db = sqlite3_context_db_handle(context) };
    asked_domain domain = { &it->handle, it->recurs };
    uint32_t answer = next_change(domain, from.second, until.second, (stopping){ stops, &on }, &change);
    end_checks(&on);
    result_change(context, answer, change, from.form, HORIZON);
}

static void sql_ever(sqlite3_context *context, int count, sqlite3_value **values)
{
    kept *it;
    moment from;
    int64_t change;
    char *error;
    if (any_null(count, values) || !(it = kept_of(context, values, 0))) return;
    if (!moment_of(values[1], false, &from, &error)) {
        refuse(context, error);
        return;
    }
    connection on = { .db = sqlite3_context_db_handle(context) };
    asked_domain domain = { &it->handle, it->recurs };
    uint32_t answer = next_ever(domain, from.second, (stopping){ stops, &on }, &change);
    end_checks(&on);
    result_change(context, answer, change, from.form, EVER);
}

/* gtd_closed(direction, vehicles, domain, asked direction, asked vehicle, moment): whether one of the rows closes. */

enum { OPEN, CLOSED, UNKNOWN };

/* What a row's three columns stand for, or NULL where the call has ended with an error. */
static kept *row_of(sqlite3_context *context, sqlite3_value **values)
{
    part fields[3];
    reading why = { .answer = GTD_MEMORY };
    for (int field = 0; field < 3; field++) {
        fields[field] = is_null(values[field]) ? (part){ (const uint8_t *)"", 0 } : text_of(values[field]);
        if (!fields[field].bytes) {
            refuse(context, NULL);
            return NULL;
        }
    }
    uint8_t *file = sqlite3_malloc64(row_room(fields));
    kept *it = file ? keep(sqlite3_user_data(context), (part){ file, write_row(fields, file) }, true, &why) : NULL;
    sqlite3_free(file);
    if (it) return it;
    if (why.answer != GTD_NO) refuse(context, NULL);
    else if (why.fault.kind == FAULT_DOMAIN) refuse(context, domain_error(&why.fault.text, fields[2]));
    else if (why.fault.kind == FAULT_DIRECTION) refuse(context, text_error("not a direction", fields[0], DIRECTIONS));
    else if (why.fault.kind == FAULT_VEHICLE) refuse(context, text_error("not vehicle types", fields[1], VEHICLES));
    else sqlite3_result_error_toobig(context);
    return NULL;
}

static void step_closed(sqlite3_context *context, int count, sqlite3_value **values)
{
    (void)count;
    if (is_null(values[0]) && is_null(values[1]) && is_null(values[2])) return; /* an outer join found no row */
    int *state = sqlite3_aggregate_context(context, sizeof *state);
    if (!state) {
        refuse(context, NULL);
        return;
    }
    kept *row = row_of(context, values);
    if (!row) return;
    if (any_null(3, values + 3)) {
        if (*state == OPEN) *state = UNKNOWN;
        return;
    }
    moment at;
    char *error;
    bool is_negative;
    part direction = text_of(values[3]);
    if (!read_direction(direction, &is_negative)) {
        refuse(context, direction.bytes ? text_error("not a direction", direction, ASKED_DIRECTIONS) : NULL);
        return;
    }
    if (!moment_of(values[5], false, &at, &error)) {
        refuse(context, error);
        return;
    }
    int64_t vehicle = sqlite3_value_int64(values[4]);
    uint32_t answer = GTD_RANGE;
    if (0 <= vehicle && vehicle <= UINT8_MAX && sqlite3_value_numeric_type(values[4]) == SQLITE_INTEGER)
        answer = gtd_records_closed_at(&row->handle, 1, is_negative, (uint8_t)vehicle, at.second);
    if (answer == GTD_YES) *state = CLOSED;
    else if (answer != GTD_NO) refuse_answer(context, answer, ASKED_VEHICLES);
}

static void end_closed(sqlite3_context *context)
{
    int *state = sqlite3_aggregate_context(context, 0);
    if (!state || *state != UNKNOWN) sqlite3_result_int(context, state && *state == CLOSED);
}

/* gtd_spans(domain, since, until): a row for each span. */

enum { BEGINS, ENDS, ARGUMENT, ARGUMENTS = 3 };

typedef struct {
    sqlite3_vtab base;
    shelf *shelf;
    sqlite3 *db;
} spans_table;

typedef struct {
    sqlite3_vtab_cursor base;
    kept *domain;
    span_walk walk;
    gtd_handle spans;
    sqlite3_value *given[ARGUMENTS];
    form form;
    int64_t begins, ends, row;
    bool is_over;
} spans_cursor;

static int connect_spans(sqlite3 *db, void *on, int count, const char *const *words, sqlite3_vtab **out, char **error)
{
    (void)count, (void)words, (void)error;
    /* Names that a table of domains will hardly have, since they would hide its columns in the arguments. */
    int status = sqlite3_declare_vtab(
        db, "CREATE TABLE x(begins, ends, of_domain HIDDEN, since_moment HIDDEN, until_moment HIDDEN)");
    if (status != SQLITE_OK) return status;
    spans_table *table = sqlite3_malloc64(sizeof *table);
    if (!table) return SQLITE_NOMEM;
    *table = (spans_table){ .shelf = on, .db = db };
    *out = &table->base;
    return sqlite3_vtab_config(db, SQLITE_VTAB_INNOCUOUS);
}

static int disconnect_spans(sqlite3_vtab *table)
{
    sqlite3_free(table);
    return SQLITE_OK;
}

/* The three arguments must be given, and are handed on in order. */
static int plan_spans(sqlite3_vtab *table, sqlite3_index_info *plan)
{
    unsigned found = 0;
    bool is_unusable = false;
    for (int at = 0; at < plan->nConstraint; at++) {
        int argument = plan->aConstraint[at].iColumn - ARGUMENT;
        if (argument < 0 || plan->aConstraint[at].op != SQLITE_INDEX_CONSTRAINT_EQ) continue;
        if (!plan->aConstraint[at].usable) {
            is_unusable = true;
        } else if (!(found & 1u << argument)) {
            found |= 1u << argument;
            plan->aConstraintUsage[at].argvIndex = argument + 1;
            plan->aConstraintUsage[at].omit = 1;
        }
    }
    if (found != 7) {
        if (is_unusable) return SQLITE_CONSTRAINT;
        sqlite3_free(table->zErrMsg);
        table->zErrMsg = sqlite3_mprintf("gtd_spans takes a domain and two moments");
        return SQLITE_ERROR;
    }
    plan->orderByConsumed = plan->nOrderBy == 1 && plan->aOrderBy[0].iColumn == BEGINS && !plan->aOrderBy[0].desc;
    plan->estimatedCost = 1000;
    plan->estimatedRows = 100;
    return SQLITE_OK;
}

static int open_spans(sqlite3_vtab *table, sqlite3_vtab_cursor **out)
{
    (void)table;
    spans_cursor *cursor = sqlite3_malloc64(sizeof *cursor);
    if (!cursor) return SQLITE_NOMEM;
    *cursor = (spans_cursor){ .spans = GTD_NONE, .is_over = true };
    *out = &cursor->base;
    return SQLITE_OK;
}

static void reset_spans(spans_cursor *cursor)
{
    for (int at = 0; at < ARGUMENTS; at++) {
        sqlite3_value_free(cursor->given[at]);
        cursor->given[at] = NULL;
    }
    gtd_close(&cursor->spans);
    if (cursor->domain) release_kept(cursor->domain);
    cursor->domain = NULL;
    cursor->is_over = true;
    cursor->row = 0;
}

static int close_spans(sqlite3_vtab_cursor *given)
{
    reset_spans((spans_cursor *)given);
    sqlite3_free(given);
    return SQLITE_OK;
}

static int fail_spans(spans_cursor *cursor, char *error)
{
    if (!error) return SQLITE_NOMEM;
    sqlite3_free(cursor->base.pVtab->zErrMsg);
    cursor->base.pVtab->zErrMsg = error;
    return SQLITE_ERROR;
}

static int next_span(sqlite3_vtab_cursor *given)
{
    spans_cursor *cursor = (spans_cursor *)given;
    connection on = { .db = ((spans_table *)given->pVtab)->db };
    uint32_t answer = next_span_of(&cursor->walk, (stopping){ stops, &on }, &cursor->begins, &cursor->ends);
    end_checks(&on);
    cursor->is_over = answer != GTD_YES;
    cursor->row++;
    if (answer == STOPPED) return SQLITE_INTERRUPT;
    return answer == GTD_YES || answer == GTD_NO ? SQLITE_OK : fail_spans(cursor, NULL);
}

static int filter_spans(sqlite3_vtab_cursor *given, int number, const char *text, int count, sqlite3_value **values)
{
    spans_cursor *cursor = (spans_cursor *)given;
    (void)number, (void)text;
    reset_spans(cursor);
    for (int at = 0; at < count; at++)
        if (!(cursor->given[at] = sqlite3_value_dup(values[at]))) return SQLITE_NOMEM;
    if (any_null(count, values)) return SQLITE_OK;
    part domain = text_of(values[0]);
    reading why;
    if (domain.length > MOST_TEXT) return fail_spans(cursor, sqlite3_mprintf(TOO_LONG));
    kept *it = keep(((spans_table *)given->pVtab)->shelf, domain, false, &why);
    if (!it) return fail_spans(cursor, why.answer == GTD_NO ? domain_error(&why.fault.text, domain) : NULL);
    moment since, until;
    char *error;
    if (!moment_of(values[1], true, &since, &error) || !moment_of(values[2], true, &until, &error))
        return fail_spans(cursor, error);
    if (!open_walk((asked_domain){ &it->handle, it->recurs }, since.second, until.second, &cursor->spans, &cursor->walk))
        return fail_spans(cursor, sqlite3_mprintf(HORIZON));
    it->holders++; /* the windows to come need it, whatever the shelf keeps then */
    cursor->domain = it;
    cursor->form = since.form;
    return next_span(given);
}

static int is_spans_over(sqlite3_vtab_cursor *given)
{
    return ((spans_cursor *)given)->is_over;
}

static int spans_column(sqlite3_vtab_cursor *given, sqlite3_context *context, int column)
{
    spans_cursor *cursor = (spans_cursor *)given;
    if (column >= ARGUMENT) sqlite3_result_value(context, cursor->given[column - ARGUMENT]);
    else result_moment(context, column == BEGINS ? cursor->begins : cursor->ends, cursor->form);
    return SQLITE_OK;
}

static int spans_row(sqlite3_vtab_cursor *given, sqlite3_int64 *row)
{
    *row = ((spans_cursor *)given)->row;
    return SQLITE_OK;
}

/* Without xCreate, the table is there in every database, and none can be made. */
static sqlite3_module spans_module = {
    .xConnect = connect_spans,
    .xBestIndex = plan_spans,
    .xDisconnect = disconnect_spans,
    .xOpen = open_spans,
    .xClose = close_spans,
    .xFilter = filter_spans,
    .xNext = next_span,
    .xEof = is_spans_over,
    .xColumn = spans_column,
    .xRowid = spans_row,
};

enum { FLAGS = SQLITE_UTF8 | SQLITE_DETERMINISTIC | SQLITE_INNOCUOUS };
static const struct {
    const char *name;
    int arguments;
    void (*call)(sqlite3_context *, int, sqlite3_value **);
    void (*step)(sqlite3_context *, int, sqlite3_value **);
    void (*end)(sqlite3_context *);
} functions[] = {
    { "gtd_check", 1, sql_check, NULL, NULL },
    { "gtd_canon", 1, sql_canon, NULL, NULL },
    { "gtd_words", 1, sql_words, NULL, NULL },
    { "gtd_holds", 2, sql_holds, NULL, NULL },
    { "gtd_next", 3, sql_next, NULL, NULL },
    { "gtd_ever", 2, sql_ever, NULL, NULL },
    { "gtd_same", 2, sql_same, NULL, NULL },
    { "gtd_apart", 3, sql_apart, NULL, NULL },
    { "gtd_hours", 1, sql_hours, NULL, NULL },
    { "gtd_closed", 6, NULL, step_closed, end_closed },
};

/* The name that SQLite looks for in a file mod_gtd.so. */
__attribute__((visibility("default"))) int sqlite3_modgtd_init(sqlite3 *db, char **error, const sqlite3_api_routines *api);
int sqlite3_modgtd_init(sqlite3 *db, char **error, const sqlite3_api_routines *api)
{
    SQLITE_EXTENSION_INIT2(api);
    (void)error;
    shelf *on = sqlite3_malloc64(sizeof *on);
    if (!on) return SQLITE_NOMEM;
    *on = (shelf){ .holders = 1 };
    int status = SQLITE_OK;
    size_t count = sizeof functions / sizeof *functions, made = 0;
    while (made < count && status == SQLITE_OK) {
        on->holders++; /* SQLite releases it, even where it refuses the function */
        status = sqlite3_create_function_v2(db, functions[made].name, functions[made].arguments, FLAGS, on, functions[made].call,
                                            functions[made].step, functions[made].end, release_shelf);
        made += status == SQLITE_OK;
    }
    if (status == SQLITE_OK) {
        on->holders++;
        status = sqlite3_create_module_v2(db, "gtd_spans", &spans_module, on, release_shelf);
    }
    /* An extension that fails is unloaded, so no function of it may stay. */
    while (status != SQLITE_OK && made--)
        sqlite3_create_function_v2(db, functions[made].name, functions[made].arguments, FLAGS, NULL, NULL, NULL, NULL, NULL);
    release_shelf(on);
    return status;
}
