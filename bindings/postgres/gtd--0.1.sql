\echo Use "CREATE EXTENSION gtd" to load this file. \quit

-- A moment is a second of the road's local civil clock: a timestamp without time zone, a number of seconds since
-- 1970-01-01 00:00:00, or a text.

CREATE FUNCTION gtd_check(domain text) RETURNS text
AS 'MODULE_PATHNAME', 'gtd_pg_check'
LANGUAGE C IMMUTABLE STRICT PARALLEL SAFE COST 50;
COMMENT ON FUNCTION gtd_check(text) IS 'NULL, or the fault of a text that is no time domain, and how many bytes come before it';

CREATE FUNCTION gtd_canon(domain text) RETURNS text
AS 'MODULE_PATHNAME', 'gtd_pg_canon'
LANGUAGE C IMMUTABLE STRICT PARALLEL SAFE COST 50;
COMMENT ON FUNCTION gtd_canon(text) IS 'canonical text of a time domain';

CREATE FUNCTION gtd_words(domain text) RETURNS text
AS 'MODULE_PATHNAME', 'gtd_pg_words'
LANGUAGE C IMMUTABLE STRICT PARALLEL SAFE COST 100;
COMMENT ON FUNCTION gtd_words(text) IS 'what a time domain says, in plain English';

-- The CHECK raises the error of gtd_canon, which shows the fault.
CREATE DOMAIN gtd_domain AS text CHECK (gtd_canon(VALUE) <> '');
COMMENT ON DOMAIN gtd_domain IS 'text that is a time domain';

CREATE FUNCTION gtd_holds(domain text, moment timestamp) RETURNS boolean
AS 'MODULE_PATHNAME', 'gtd_pg_holds_timestamp'
LANGUAGE C IMMUTABLE STRICT PARALLEL SAFE COST 10;
COMMENT ON FUNCTION gtd_holds(text, timestamp) IS 'whether a time domain contains a moment';

CREATE FUNCTION gtd_holds(domain text, moment bigint) RETURNS boolean
AS 'MODULE_PATHNAME', 'gtd_pg_holds_seconds'
LANGUAGE C IMMUTABLE STRICT PARALLEL SAFE COST 10;
COMMENT ON FUNCTION gtd_holds(text, bigint) IS 'whether a time domain contains a moment';

CREATE FUNCTION gtd_holds(domain text, moment text) RETURNS boolean
AS 'MODULE_PATHNAME', 'gtd_pg_holds_text'
LANGUAGE C IMMUTABLE STRICT PARALLEL SAFE COST 10;
COMMENT ON FUNCTION gtd_holds(text, text) IS 'whether a time domain contains a moment';

CREATE FUNCTION gtd_next(domain text, moment timestamp, until timestamp) RETURNS timestamp
AS 'MODULE_PATHNAME', 'gtd_pg_next_timestamp'
LANGUAGE C IMMUTABLE STRICT PARALLEL SAFE COST 100;
COMMENT ON FUNCTION gtd_next(text, timestamp, timestamp) IS
'first later moment before another one at which a time domain begins or ends, or NULL';

CREATE FUNCTION gtd_next(domain text, moment bigint, until bigint) RETURNS bigint
AS 'MODULE_PATHNAME', 'gtd_pg_next_seconds'
LANGUAGE C IMMUTABLE STRICT PARALLEL SAFE COST 100;
COMMENT ON FUNCTION gtd_next(text, bigint, bigint) IS
'first later moment before another one at which a time domain begins or ends, or NULL';

CREATE FUNCTION gtd_next(domain text, moment text, until text) RETURNS text
AS 'MODULE_PATHNAME', 'gtd_pg_next_text'
LANGUAGE C IMMUTABLE STRICT PARALLEL SAFE COST 100;
COMMENT ON FUNCTION gtd_next(text, text, text) IS
'first later moment before another one at which a time domain begins or ends, or NULL';

CREATE FUNCTION gtd_ever(domain text, moment timestamp) RETURNS timestamp
AS 'MODULE_PATHNAME', 'gtd_pg_ever_timestamp'
LANGUAGE C IMMUTABLE STRICT PARALLEL SAFE COST 100;
COMMENT ON FUNCTION gtd_ever(text, timestamp) IS 'first later moment at which a time domain begins or ends, or NULL';

CREATE FUNCTION gtd_ever(domain text, moment bigint) RETURNS bigint
AS 'MODULE_PATHNAME', 'gtd_pg_ever_seconds'
LANGUAGE C IMMUTABLE STRICT PARALLEL SAFE COST 100;
COMMENT ON FUNCTION gtd_ever(text, bigint) IS 'first later moment at which a time domain begins or ends, or NULL';

CREATE FUNCTION gtd_ever(domain text, moment text) RETURNS text
AS 'MODULE_PATHNAME', 'gtd_pg_ever_text'
LANGUAGE C IMMUTABLE STRICT PARALLEL SAFE COST 100;
COMMENT ON FUNCTION gtd_ever(text, text) IS 'first later moment at which a time domain begins or ends, or NULL';

CREATE FUNCTION gtd_same(one text, other text) RETURNS boolean
AS 'MODULE_PATHNAME', 'gtd_pg_same'
LANGUAGE C IMMUTABLE STRICT PARALLEL SAFE COST 10000;
COMMENT ON FUNCTION gtd_same(text, text) IS 'whether two time domains contain the same moments';

CREATE FUNCTION gtd_apart(one text, other text, moment timestamp) RETURNS timestamp
AS 'MODULE_PATHNAME', 'gtd_pg_apart_timestamp'
LANGUAGE C IMMUTABLE STRICT PARALLEL SAFE COST 10000;
COMMENT ON FUNCTION gtd_apart(text, text, timestamp) IS
'first moment, from the given one on, that one of two time domains contains and the other does not, or NULL';

CREATE FUNCTION gtd_apart(one text, other text, moment bigint) RETURNS bigint
AS 'MODULE_PATHNAME', 'gtd_pg_apart_seconds'
LANGUAGE C IMMUTABLE STRICT PARALLEL SAFE COST 10000;
COMMENT ON FUNCTION gtd_apart(text, text, bigint) IS
'first moment, from the given one on, that one of two time domains contains and the other does not, or NULL';

CREATE FUNCTION gtd_apart(one text, other text, moment text) RETURNS text
AS 'MODULE_PATHNAME', 'gtd_pg_apart_text'
LANGUAGE C IMMUTABLE STRICT PARALLEL SAFE COST 10000;
COMMENT ON FUNCTION gtd_apart(text, text, text) IS
'first moment, from the given one on, that one of two time domains contains and the other does not, or NULL';

CREATE FUNCTION gtd_hours(hours text) RETURNS text
AS 'MODULE_PATHNAME', 'gtd_pg_hours'
LANGUAGE C IMMUTABLE STRICT PARALLEL SAFE COST 100;
COMMENT ON FUNCTION gtd_hours(text) IS 'time domain, in its canonical text, of opening hours as OpenStreetMap writes them';

CREATE FUNCTION gtd_spans(domain text, since timestamp, until timestamp) RETURNS TABLE (begins timestamp, ends timestamp)
AS 'MODULE_PATHNAME', 'gtd_pg_spans_timestamp'
LANGUAGE C IMMUTABLE STRICT PARALLEL SAFE COST 1000 ROWS 100;
COMMENT ON FUNCTION gtd_spans(text, timestamp, timestamp) IS 'spans of a time domain from one moment up to another';

CREATE FUNCTION gtd_spans(domain text, since bigint, until bigint) RETURNS TABLE (begins bigint, ends bigint)
AS 'MODULE_PATHNAME', 'gtd_pg_spans_seconds'
LANGUAGE C IMMUTABLE STRICT PARALLEL SAFE COST 1000 ROWS 100;
COMMENT ON FUNCTION gtd_spans(text, bigint, bigint) IS 'spans of a time domain from one moment up to another';

CREATE FUNCTION gtd_spans(domain text, since text, until text) RETURNS TABLE (begins text, ends text)
AS 'MODULE_PATHNAME', 'gtd_pg_spans_text'
LANGUAGE C IMMUTABLE STRICT PARALLEL SAFE COST 1000 ROWS 100;
COMMENT ON FUNCTION gtd_spans(text, text, text) IS 'spans of a time domain from one moment up to another';

-- gtd_closed: the columns of a row, which may be NULL, and the question. Vehicle types are a number, or a text as in files.

CREATE FUNCTION gtd_closed_or(boolean, boolean) RETURNS boolean
AS 'MODULE_PATHNAME', 'gtd_pg_closed_or'
LANGUAGE C IMMUTABLE PARALLEL SAFE;
COMMENT ON FUNCTION gtd_closed_or(boolean, boolean) IS 'combine function of gtd_closed';

CREATE FUNCTION gtd_closed_step(boolean, text, integer, text, text, integer, timestamp) RETURNS boolean
AS 'MODULE_PATHNAME', 'gtd_pg_closed_number_timestamp'
LANGUAGE C IMMUTABLE PARALLEL SAFE COST 20;
COMMENT ON FUNCTION gtd_closed_step(boolean, text, integer, text, text, integer, timestamp) IS
'transition function of gtd_closed';
CREATE AGGREGATE gtd_closed(direction text, vehicle integer, domain text, asked_direction text,
                            asked_vehicle integer, moment timestamp) (
    SFUNC = gtd_closed_step, STYPE = boolean, INITCOND = 'false', COMBINEFUNC = gtd_closed_or, PARALLEL = SAFE
);
COMMENT ON AGGREGATE gtd_closed(text, integer, text, text, integer, timestamp) IS 'whether one of the rows closes';

CREATE FUNCTION gtd_closed_step(boolean, text, integer, text, text, integer, bigint) RETURNS boolean
AS 'MODULE_PATHNAME', 'gtd_pg_closed_number_seconds'
LANGUAGE C IMMUTABLE PARALLEL SAFE COST 20;
COMMENT ON FUNCTION gtd_closed_step(boolean, text, integer, text, text, integer, bigint) IS
'transition function of gtd_closed';
CREATE AGGREGATE gtd_closed(direction text, vehicle integer, domain text, asked_direction text,
                            asked_vehicle integer, moment bigint) (
    SFUNC = gtd_closed_step, STYPE = boolean, INITCOND = 'false', COMBINEFUNC = gtd_closed_or, PARALLEL = SAFE
);
COMMENT ON AGGREGATE gtd_closed(text, integer, text, text, integer, bigint) IS 'whether one of the rows closes';

CREATE FUNCTION gtd_closed_step(boolean, text, integer, text, text, integer, text) RETURNS boolean
AS 'MODULE_PATHNAME', 'gtd_pg_closed_number_text'
LANGUAGE C IMMUTABLE PARALLEL SAFE COST 20;
COMMENT ON FUNCTION gtd_closed_step(boolean, text, integer, text, text, integer, text) IS
'transition function of gtd_closed';
CREATE AGGREGATE gtd_closed(direction text, vehicle integer, domain text, asked_direction text,
                            asked_vehicle integer, moment text) (
    SFUNC = gtd_closed_step, STYPE = boolean, INITCOND = 'false', COMBINEFUNC = gtd_closed_or, PARALLEL = SAFE
);
COMMENT ON AGGREGATE gtd_closed(text, integer, text, text, integer, text) IS 'whether one of the rows closes';

CREATE FUNCTION gtd_closed_step(boolean, text, text, text, text, integer, timestamp) RETURNS boolean
AS 'MODULE_PATHNAME', 'gtd_pg_closed_list_timestamp'
LANGUAGE C IMMUTABLE PARALLEL SAFE COST 20;
COMMENT ON FUNCTION gtd_closed_step(boolean, text, text, text, text, integer, timestamp) IS
'transition function of gtd_closed';
CREATE AGGREGATE gtd_closed(direction text, vehicles text, domain text, asked_direction text,
                            asked_vehicle integer, moment timestamp) (
    SFUNC = gtd_closed_step, STYPE = boolean, INITCOND = 'false', COMBINEFUNC = gtd_closed_or, PARALLEL = SAFE
);
COMMENT ON AGGREGATE gtd_closed(text, text, text, text, integer, timestamp) IS 'whether one of the rows closes';

CREATE FUNCTION gtd_closed_step(boolean, text, text, text, text, integer, bigint) RETURNS boolean
AS 'MODULE_PATHNAME', 'gtd_pg_closed_list_seconds'
LANGUAGE C IMMUTABLE PARALLEL SAFE COST 20;
COMMENT ON FUNCTION gtd_closed_step(boolean, text, text, text, text, integer, bigint) IS
'transition function of gtd_closed';
CREATE AGGREGATE gtd_closed(direction text, vehicles text, domain text, asked_direction text,
                            asked_vehicle integer, moment bigint) (
    SFUNC = gtd_closed_step, STYPE = boolean, INITCOND = 'false', COMBINEFUNC = gtd_closed_or, PARALLEL = SAFE
);
COMMENT ON AGGREGATE gtd_closed(text, text, text, text, integer, bigint) IS 'whether one of the rows closes';

CREATE FUNCTION gtd_closed_step(boolean, text, text, text, text, integer, text) RETURNS boolean
AS 'MODULE_PATHNAME', 'gtd_pg_closed_list_text'
LANGUAGE C IMMUTABLE PARALLEL SAFE COST 20;
COMMENT ON FUNCTION gtd_closed_step(boolean, text, text, text, text, integer, text) IS
'transition function of gtd_closed';
CREATE AGGREGATE gtd_closed(direction text, vehicles text, domain text, asked_direction text,
                            asked_vehicle integer, moment text) (
    SFUNC = gtd_closed_step, STYPE = boolean, INITCOND = 'false', COMBINEFUNC = gtd_closed_or, PARALLEL = SAFE
);
COMMENT ON AGGREGATE gtd_closed(text, text, text, text, integer, text) IS 'whether one of the rows closes';
