-- The types offset_timestamp and exact_duration. Load this file by CREATE EXTENSION muxandu.
\echo Use CREATE EXTENSION muxandu to load this file. \quit

-- The types
CREATE TYPE offset_timestamp;
CREATE TYPE exact_duration;
C: offset_timestamp_in(cstring, oid, integer) RETURNS offset_timestamp
C: offset_timestamp_out(offset_timestamp) RETURNS cstring
C: offset_timestamp_recv(internal, oid, integer) RETURNS offset_timestamp
C: offset_timestamp_send(offset_timestamp) RETURNS bytea
C: offset_timestamp_typmod_in(cstring[]) RETURNS integer
C: offset_timestamp_typmod_out(integer) RETURNS cstring
C: exact_duration_in(cstring) RETURNS exact_duration
C: exact_duration_out(exact_duration) RETURNS cstring
C: exact_duration_recv(internal) RETURNS exact_duration
C: exact_duration_send(exact_duration) RETURNS bytea
CREATE TYPE offset_timestamp (
    INPUT = offset_timestamp_in, OUTPUT = offset_timestamp_out, RECEIVE = offset_timestamp_recv, SEND = offset_timestamp_send,
    TYPMOD_IN = offset_timestamp_typmod_in, TYPMOD_OUT = offset_timestamp_typmod_out,
    INTERNALLENGTH = 16, ALIGNMENT = double, STORAGE = plain, CATEGORY = 'D'
);
CREATE TYPE exact_duration (
    INPUT = exact_duration_in, OUTPUT = exact_duration_out, RECEIVE = exact_duration_recv, SEND = exact_duration_send,
    INTERNALLENGTH = 12, ALIGNMENT = double, STORAGE = plain, CATEGORY = 'T'
);
COMMENT ON TYPE offset_timestamp IS 'an instant to the nanosecond, and the offset of the clocks that showed it';
COMMENT ON TYPE exact_duration IS 'a duration of seconds and nanoseconds';

-- How many rows lie within bounds
SELECTIVITIES: offset_timestamp

-- The order of offset_timestamp
ORDER: offset_timestamp
C: offset_timestamp_hash(offset_timestamp) RETURNS integer
C: offset_timestamp_hash_extended(offset_timestamp, bigint) RETURNS bigint
C: offset_timestamp_larger(offset_timestamp, offset_timestamp) RETURNS offset_timestamp
C: offset_timestamp_smaller(offset_timestamp, offset_timestamp) RETURNS offset_timestamp
C: offset_timestamp_sortsupport(internal) RETURNS void
C: offset_timestamp_same(offset_timestamp, offset_timestamp) RETURNS boolean
CREATE OPERATOR === (
    LEFTARG = offset_timestamp, RIGHTARG = offset_timestamp, FUNCTION = offset_timestamp_same,
    COMMUTATOR = ===, RESTRICT = eqsel, JOIN = eqjoinsel
);

-- The order of exact_duration
ORDER: exact_duration
C: exact_duration_hash(exact_duration) RETURNS integer
C: exact_duration_hash_extended(exact_duration, bigint) RETURNS bigint
C: exact_duration_larger(exact_duration, exact_duration) RETURNS exact_duration
C: exact_duration_smaller(exact_duration, exact_duration) RETURNS exact_duration

-- The order of offset_timestamp and timestamptz
ORDER: offset_timestamp timestamptz

-- The order of two timestamptz by other names, which makes a family whole. PostgreSQL would plan the queries of others by
-- a family that has its own names.
CREATE OPERATOR #< (
    LEFTARG = timestamptz, RIGHTARG = timestamptz, FUNCTION = timestamptz_lt, COMMUTATOR = #>, NEGATOR = #>=,
    RESTRICT = scalarltsel, JOIN = scalarltjoinsel
);
CREATE OPERATOR #<= (
    LEFTARG = timestamptz, RIGHTARG = timestamptz, FUNCTION = timestamptz_le, COMMUTATOR = #>=, NEGATOR = #>,
    RESTRICT = scalarlesel, JOIN = scalarlejoinsel
);
CREATE OPERATOR #= (
    LEFTARG = timestamptz, RIGHTARG = timestamptz, FUNCTION = timestamptz_eq, COMMUTATOR = #=,
    RESTRICT = eqsel, JOIN = eqjoinsel, HASHES
);
CREATE OPERATOR #>= (
    LEFTARG = timestamptz, RIGHTARG = timestamptz, FUNCTION = timestamptz_ge, COMMUTATOR = #<=, NEGATOR = #<,
    RESTRICT = scalargesel, JOIN = scalargejoinsel
);
CREATE OPERATOR #> (
    LEFTARG = timestamptz, RIGHTARG = timestamptz, FUNCTION = timestamptz_gt, COMMUTATOR = #<, NEGATOR = #<=,
    RESTRICT = scalargtsel, JOIN = scalargtjoinsel
);

-- Sums and differences
C: offset_timestamp_plus(offset_timestamp, exact_duration) RETURNS offset_timestamp
C: offset_timestamp_minus(offset_timestamp, exact_duration) RETURNS offset_timestamp
C: offset_timestamp_difference(offset_timestamp, offset_timestamp) RETURNS exact_duration
C: exact_duration_plus(exact_duration, exact_duration) RETURNS exact_duration
C: exact_duration_minus(exact_duration, exact_duration) RETURNS exact_duration
C: exact_duration_negative(exact_duration) RETURNS exact_duration
C: magnitude(exact_duration) RETURNS exact_duration AS exact_duration_magnitude
C: exact_duration_plus_timestamp(exact_duration, offset_timestamp) RETURNS offset_timestamp
C: exact_duration_times(exact_duration, numeric) RETURNS exact_duration
C: exact_duration_of_times(numeric, exact_duration) RETURNS exact_duration
C: exact_duration_quotient(exact_duration, numeric) RETURNS exact_duration
CREATE OPERATOR + (
    LEFTARG = offset_timestamp, RIGHTARG = exact_duration, FUNCTION = offset_timestamp_plus, COMMUTATOR = +
);
CREATE OPERATOR + (
    LEFTARG = exact_duration, RIGHTARG = offset_timestamp, FUNCTION = exact_duration_plus_timestamp, COMMUTATOR = +
);
CREATE OPERATOR - (
    LEFTARG = offset_timestamp, RIGHTARG = exact_duration, FUNCTION = offset_timestamp_minus
);
CREATE OPERATOR - (
    LEFTARG = offset_timestamp, RIGHTARG = offset_timestamp, FUNCTION = offset_timestamp_difference
);
CREATE OPERATOR + (
    LEFTARG = exact_duration, RIGHTARG = exact_duration, FUNCTION = exact_duration_plus, COMMUTATOR = +
);
CREATE OPERATOR - (
    LEFTARG = exact_duration, RIGHTARG = exact_duration, FUNCTION = exact_duration_minus
);
CREATE OPERATOR - (
    RIGHTARG = exact_duration, FUNCTION = exact_duration_negative
);
CREATE OPERATOR * (
    LEFTARG = exact_duration, RIGHTARG = numeric, FUNCTION = exact_duration_times, COMMUTATOR = *
);
CREATE OPERATOR * (
    LEFTARG = numeric, RIGHTARG = exact_duration, FUNCTION = exact_duration_of_times, COMMUTATOR = *
);
CREATE OPERATOR / (
    LEFTARG = exact_duration, RIGHTARG = numeric, FUNCTION = exact_duration_quotient
);
C: add_months(offset_timestamp, integer) RETURNS offset_timestamp AS offset_timestamp_add_months
C: whole_units(exact_duration, text) RETURNS bigint AS exact_duration_count
C: offset_timestamp_series_support(internal) RETURNS internal
CREATE FUNCTION generate_series(offset_timestamp, offset_timestamp, exact_duration) RETURNS SETOF offset_timestamp
    LANGUAGE C IMMUTABLE STRICT PARALLEL SAFE ROWS 1000 SUPPORT offset_timestamp_series_support
    AS 'MODULE_PATHNAME', 'offset_timestamp_series';
C: date_bin(exact_duration, offset_timestamp, offset_timestamp) RETURNS offset_timestamp AS offset_timestamp_bin
C: in_range(offset_timestamp, offset_timestamp, exact_duration, boolean, boolean) RETURNS boolean AS offset_timestamp_in_range

-- Indexes
-- Values that are equal may have two offsets, so no equalimage lets an index keep one of them alone.
CREATE OPERATOR FAMILY offset_timestamp_ops USING btree;
CREATE OPERATOR CLASS offset_timestamp_ops DEFAULT FOR TYPE offset_timestamp USING btree FAMILY offset_timestamp_ops AS
    OPERATOR 1 <, OPERATOR 2 <=, OPERATOR 3 =, OPERATOR 4 >=, OPERATOR 5 >,
    FUNCTION 1 offset_timestamp_cmp(offset_timestamp, offset_timestamp),
    FUNCTION 2 offset_timestamp_sortsupport(internal),
    FUNCTION 3 (offset_timestamp, exact_duration) in_range(offset_timestamp, offset_timestamp, exact_duration, boolean, boolean);
ALTER OPERATOR FAMILY offset_timestamp_ops USING btree ADD
    OPERATOR 1 < (offset_timestamp, timestamptz),
    OPERATOR 2 <= (offset_timestamp, timestamptz),
    OPERATOR 3 = (offset_timestamp, timestamptz),
    OPERATOR 4 >= (offset_timestamp, timestamptz),
    OPERATOR 5 > (offset_timestamp, timestamptz),
    FUNCTION 1 (offset_timestamp, timestamptz) offset_timestamp_cmp_timestamptz(offset_timestamp, timestamptz),
    OPERATOR 1 < (timestamptz, offset_timestamp),
    OPERATOR 2 <= (timestamptz, offset_timestamp),
    OPERATOR 3 = (timestamptz, offset_timestamp),
    OPERATOR 4 >= (timestamptz, offset_timestamp),
    OPERATOR 5 > (timestamptz, offset_timestamp),
    FUNCTION 1 (timestamptz, offset_timestamp) offset_timestamp_timestamptz_cmp(timestamptz, offset_timestamp),
    OPERATOR 1 #< (timestamptz, timestamptz),
    OPERATOR 2 #<= (timestamptz, timestamptz),
    OPERATOR 3 #= (timestamptz, timestamptz),
    OPERATOR 4 #>= (timestamptz, timestamptz),
    OPERATOR 5 #> (timestamptz, timestamptz),
    FUNCTION 1 (timestamptz, timestamptz) timestamptz_cmp(timestamptz, timestamptz);
CREATE OPERATOR CLASS exact_duration_ops DEFAULT FOR TYPE exact_duration USING btree AS
    OPERATOR 1 <, OPERATOR 2 <=, OPERATOR 3 =, OPERATOR 4 >=, OPERATOR 5 >,
    FUNCTION 1 exact_duration_cmp(exact_duration, exact_duration);
HASH: offset_timestamp
C: offset_timestamp_hash_timestamptz(timestamptz) RETURNS integer
C: offset_timestamp_hash_timestamptz_extended(timestamptz, bigint) RETURNS bigint
ALTER OPERATOR FAMILY offset_timestamp_hash_ops USING hash ADD
    OPERATOR 1 = (offset_timestamp, timestamptz),
    OPERATOR 1 = (timestamptz, offset_timestamp),
    OPERATOR 1 #= (timestamptz, timestamptz),
    FUNCTION 1 (timestamptz, timestamptz) offset_timestamp_hash_timestamptz(timestamptz),
    FUNCTION 2 (timestamptz, timestamptz) offset_timestamp_hash_timestamptz_extended(timestamptz, bigint);
MINMAX: offset_timestamp
ALTER OPERATOR FAMILY offset_timestamp_minmax_ops USING brin ADD
    OPERATOR 1 < (offset_timestamp, timestamptz),
    OPERATOR 2 <= (offset_timestamp, timestamptz),
    OPERATOR 3 = (offset_timestamp, timestamptz),
    OPERATOR 4 >= (offset_timestamp, timestamptz),
    OPERATOR 5 > (offset_timestamp, timestamptz);
HASH: exact_duration
MINMAX: exact_duration
C: offset_timestamp_subtype_diff(offset_timestamp, offset_timestamp) RETURNS double precision
CREATE TYPE offset_timestamp_range AS RANGE (SUBTYPE = offset_timestamp, SUBTYPE_DIFF = offset_timestamp_subtype_diff);
C: offset_timestamp_gist_compress(internal) RETURNS internal
C: offset_timestamp_gist_fetch(internal) RETURNS internal
CREATE FUNCTION offset_timestamp_gist_union(internal, internal) RETURNS offset_timestamp_range
    LANGUAGE internal IMMUTABLE STRICT PARALLEL SAFE AS 'range_gist_union';
C: offset_timestamp_gist_consistent(internal, offset_timestamp, smallint, oid, internal) RETURNS boolean
CREATE OPERATOR CLASS offset_timestamp_gist_ops DEFAULT FOR TYPE offset_timestamp USING gist AS
    OPERATOR 1 <, OPERATOR 2 <=, OPERATOR 3 =, OPERATOR 4 >=, OPERATOR 5 >, OPERATOR 6 <>,
    FUNCTION 1 offset_timestamp_gist_consistent(internal, offset_timestamp, smallint, oid, internal),
    FUNCTION 2 offset_timestamp_gist_union(internal, internal),
    FUNCTION 3 offset_timestamp_gist_compress(internal),
    FUNCTION 5 range_gist_penalty(internal, internal, internal),
    FUNCTION 6 range_gist_picksplit(internal, internal),
    FUNCTION 7 range_gist_same(anyrange, anyrange, internal),
    FUNCTION 9 offset_timestamp_gist_fetch(internal),
    STORAGE offset_timestamp_range;
C: offset_timestamp_distance(offset_timestamp, offset_timestamp) RETURNS double precision
-- PostgreSQL 13 has neither of these classes.
DO $$ BEGIN
    IF current_setting('server_version_num')::integer < 140000 THEN
        RETURN;
    END IF;
    CREATE OPERATOR CLASS offset_timestamp_minmax_multi_ops FOR TYPE offset_timestamp USING brin AS
        OPERATOR 1 <, OPERATOR 2 <=, OPERATOR 3 =, OPERATOR 4 >=, OPERATOR 5 >,
        FUNCTION 1 brin_minmax_multi_opcinfo(internal),
        FUNCTION 2 brin_minmax_multi_add_value(internal, internal, internal, internal),
        FUNCTION 3 brin_minmax_multi_consistent(internal, internal, internal, integer),
        FUNCTION 4 brin_minmax_multi_union(internal, internal, internal),
        FUNCTION 5 brin_minmax_multi_options(internal),
        FUNCTION 11 offset_timestamp_distance(offset_timestamp, offset_timestamp);
    ALTER OPERATOR FAMILY offset_timestamp_minmax_multi_ops USING brin ADD
        OPERATOR 1 < (offset_timestamp, timestamptz),
        OPERATOR 2 <= (offset_timestamp, timestamptz),
        OPERATOR 3 = (offset_timestamp, timestamptz),
        OPERATOR 4 >= (offset_timestamp, timestamptz),
        OPERATOR 5 > (offset_timestamp, timestamptz);
    CREATE OPERATOR CLASS offset_timestamp_bloom_ops FOR TYPE offset_timestamp USING brin AS
        OPERATOR 1 =,
        FUNCTION 1 brin_bloom_opcinfo(internal),
        FUNCTION 2 brin_bloom_add_value(internal, internal, internal, internal),
        FUNCTION 3 brin_bloom_consistent(internal, internal, internal, integer),
        FUNCTION 4 brin_bloom_union(internal, internal, internal),
        FUNCTION 5 brin_bloom_options(internal),
        FUNCTION 11 offset_timestamp_hash(offset_timestamp);
END $$;

-- Aggregates
ENDS: offset_timestamp
ENDS: exact_duration
CREATE AGGREGATE sum(exact_duration) (
    SFUNC = exact_duration_plus, STYPE = exact_duration, COMBINEFUNC = exact_duration_plus, PARALLEL = SAFE,
    MSFUNC = exact_duration_plus, MINVFUNC = exact_duration_minus, MSTYPE = exact_duration
);
C: exact_duration_enter(exact_duration[], exact_duration) RETURNS exact_duration[]
C: exact_duration_leave(exact_duration[], exact_duration) RETURNS exact_duration[]
C: exact_duration_combine(exact_duration[], exact_duration[]) RETURNS exact_duration[]
C: exact_duration_mean(exact_duration[]) RETURNS exact_duration
CREATE AGGREGATE avg(exact_duration) (
    SFUNC = exact_duration_enter, STYPE = exact_duration[], INITCOND = '{0,0}', FINALFUNC = exact_duration_mean,
    COMBINEFUNC = exact_duration_combine, PARALLEL = SAFE,
    MSFUNC = exact_duration_enter, MINVFUNC = exact_duration_leave, MSTYPE = exact_duration[], MINITCOND = '{0,0}',
    MFINALFUNC = exact_duration_mean
);

-- Casts: each call takes a timestamptz, at the offset 0
C: offset_timestamp(timestamptz) RETURNS offset_timestamp AS offset_timestamp_from_timestamptz
C: offset_timestamp(timestamptz, integer) RETURNS offset_timestamp AS offset_timestamp_from_timestamptz
C: offset_timestamp_digits_support(internal) RETURNS internal
CREATE FUNCTION offset_timestamp_digits(offset_timestamp, integer) RETURNS offset_timestamp
    LANGUAGE C IMMUTABLE STRICT PARALLEL SAFE SUPPORT offset_timestamp_digits_support AS 'MODULE_PATHNAME', 'offset_timestamp_digits';
C: timestamptz(offset_timestamp) RETURNS timestamptz AS offset_timestamp_to_timestamptz
C: rounded_down(offset_timestamp) RETURNS timestamptz AS offset_timestamp_rounded_down
C: exact_duration(interval) RETURNS exact_duration AS exact_duration_from_interval
C: "interval"(exact_duration) RETURNS interval AS exact_duration_to_interval
C: exact_duration(numeric) RETURNS exact_duration AS exact_duration_from_numeric
C: seconds(exact_duration) RETURNS numeric AS exact_duration_seconds
CREATE CAST (offset_timestamp AS offset_timestamp) WITH FUNCTION offset_timestamp_digits(offset_timestamp, integer) AS IMPLICIT;
CREATE CAST (timestamptz AS offset_timestamp) WITH FUNCTION offset_timestamp(timestamptz) AS IMPLICIT;
CREATE CAST (offset_timestamp AS timestamptz) WITH FUNCTION timestamptz(offset_timestamp);
CREATE CAST (interval AS exact_duration) WITH FUNCTION exact_duration(interval) AS IMPLICIT;
CREATE CAST (exact_duration AS interval) WITH FUNCTION "interval"(exact_duration);
CREATE CAST (numeric AS exact_duration) WITH FUNCTION exact_duration(numeric);
CREATE CAST (integer AS exact_duration) WITH INOUT;
CREATE CAST (bigint AS exact_duration) WITH INOUT;
CREATE CAST (exact_duration AS numeric) WITH FUNCTION seconds(exact_duration);

-- Parts, offsets and texts
C: at_offset(offset_timestamp, integer) RETURNS offset_timestamp AS offset_timestamp_at_offset
C: at_offset(offset_timestamp, text) RETURNS offset_timestamp AS offset_timestamp_at_offset_text
C: make_offset_timestamp(integer, integer, integer, integer, integer, numeric, integer) RETURNS offset_timestamp AS offset_timestamp_make
C: make_offset_timestamp(integer, integer, integer, integer, integer, numeric, text) RETURNS offset_timestamp AS offset_timestamp_make_text
CREATE FUNCTION clock_offset_timestamp() RETURNS offset_timestamp
    LANGUAGE C VOLATILE STRICT PARALLEL SAFE AS 'MODULE_PATHNAME', 'offset_timestamp_clock';
C: local_date(offset_timestamp) RETURNS date AS offset_timestamp_local_date
C: date_trunc(text, offset_timestamp) RETURNS offset_timestamp AS offset_timestamp_truncate
C: date_part(text, offset_timestamp) RETURNS bigint AS offset_timestamp_part
C: date_part(text, exact_duration) RETURNS numeric AS exact_duration_part
-- EXTRACT calls the function of this name in pg_catalog, from PostgreSQL 14 on.
C: pg_catalog.extract(text, exact_duration) RETURNS numeric AS exact_duration_part
C: offset_timestamp_refused(text) RETURNS text
C: offset_timestamp_or_null(text) RETURNS offset_timestamp

-- Time zones, by the files of the server, which an upgrade of the machine may change
CREATE FUNCTION at_zone(offset_timestamp, text) RETURNS offset_timestamp
    LANGUAGE C STABLE STRICT PARALLEL SAFE AS 'MODULE_PATHNAME', 'offset_timestamp_at_zone';
CREATE FUNCTION from_local(timestamp, text) RETURNS offset_timestamp
    LANGUAGE C STABLE STRICT PARALLEL SAFE AS 'MODULE_PATHNAME', 'offset_timestamp_from_local';
CREATE FUNCTION from_local(timestamp, text, text) RETURNS offset_timestamp
    LANGUAGE C STABLE STRICT PARALLEL SAFE AS 'MODULE_PATHNAME', 'offset_timestamp_from_local';

-- Texts of another form, by format descriptions
C: offset_timestamp_format(offset_timestamp, text) RETURNS text
C: offset_timestamp_parse(text, text) RETURNS offset_timestamp
C: offset_timestamp_parse(text, text, text) RETURNS offset_timestamp
C: offset_timestamp_parse_or_null(text, text) RETURNS offset_timestamp
C: offset_timestamp_parse_or_null(text, text, text) RETURNS offset_timestamp
