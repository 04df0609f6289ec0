-- The types offset_timestamp and exact_duration. Load this file by CREATE EXTENSION muxandu.
-- Made by make/postgres_script from make/page_sources/muxandu.sql. Do not edit.
\echo Use CREATE EXTENSION muxandu to load this file. \quit

-- The types
CREATE TYPE offset_timestamp;
CREATE TYPE exact_duration;
CREATE FUNCTION offset_timestamp_in(cstring, oid, integer) RETURNS offset_timestamp
    LANGUAGE C IMMUTABLE STRICT PARALLEL SAFE AS 'MODULE_PATHNAME', 'offset_timestamp_in';
CREATE FUNCTION offset_timestamp_out(offset_timestamp) RETURNS cstring
    LANGUAGE C IMMUTABLE STRICT PARALLEL SAFE AS 'MODULE_PATHNAME', 'offset_timestamp_out';
CREATE FUNCTION offset_timestamp_recv(internal, oid, integer) RETURNS offset_timestamp
    LANGUAGE C IMMUTABLE STRICT PARALLEL SAFE AS 'MODULE_PATHNAME', 'offset_timestamp_recv';
CREATE FUNCTION offset_timestamp_send(offset_timestamp) RETURNS bytea
    LANGUAGE C IMMUTABLE STRICT PARALLEL SAFE AS 'MODULE_PATHNAME', 'offset_timestamp_send';
CREATE FUNCTION offset_timestamp_typmod_in(cstring[]) RETURNS integer
    LANGUAGE C IMMUTABLE STRICT PARALLEL SAFE AS 'MODULE_PATHNAME', 'offset_timestamp_typmod_in';
CREATE FUNCTION offset_timestamp_typmod_out(integer) RETURNS cstring
    LANGUAGE C IMMUTABLE STRICT PARALLEL SAFE AS 'MODULE_PATHNAME', 'offset_timestamp_typmod_out';
CREATE FUNCTION exact_duration_in(cstring) RETURNS exact_duration
    LANGUAGE C IMMUTABLE STRICT PARALLEL SAFE AS 'MODULE_PATHNAME', 'exact_duration_in';
CREATE FUNCTION exact_duration_out(exact_duration) RETURNS cstring
    LANGUAGE C IMMUTABLE STRICT PARALLEL SAFE AS 'MODULE_PATHNAME', 'exact_duration_out';
CREATE FUNCTION exact_duration_recv(internal) RETURNS exact_duration
    LANGUAGE C IMMUTABLE STRICT PARALLEL SAFE AS 'MODULE_PATHNAME', 'exact_duration_recv';
CREATE FUNCTION exact_duration_send(exact_duration) RETURNS bytea
    LANGUAGE C IMMUTABLE STRICT PARALLEL SAFE AS 'MODULE_PATHNAME', 'exact_duration_send';
CREATE TYPE offset_timestamp (
    INPUT = offset_timestamp_in, OUTPUT = offset_timestamp_out, RECEIVE = offset_timestamp_recv, SEND = offset_timestamp_send,
    TYPMOD_IN = offset_timestamp_typmod_in, TYPMOD_OUT = offset_timestamp_typmod_out,
    INTERNALLENGTH = 16, ALIGNMENT = double, STORAGE = plain, CATEGORY = 'D'
);
CREATE TYPE exact_duration (
    INPUT = exact_duration_in, OUTPUT = exact_duration_out, RECEIVE = exact_duration_recv, SEND = exact_duration_send,
    INTERNALLENGTH = 12, ALIGNMENT = double, STORAGE = plain, CATEGORY = 'T'
);
COMMENT ON TYPE offset_timestamp IS 'an instant to the nanosecond, and the offset of the clocks that showed it';
COMMENT ON TYPE exact_duration IS 'a duration of seconds and nanoseconds';

-- How many rows lie within bounds
CREATE FUNCTION offset_timestamp_ltsel(internal, oid, internal, integer) RETURNS double precision
    LANGUAGE C STABLE STRICT PARALLEL SAFE AS 'MODULE_PATHNAME', 'offset_timestamp_ltsel';
CREATE FUNCTION offset_timestamp_ltjoinsel(internal, oid, internal, smallint, internal) RETURNS double precision
    LANGUAGE C STABLE STRICT PARALLEL SAFE AS 'MODULE_PATHNAME', 'offset_timestamp_ltjoinsel';
CREATE FUNCTION offset_timestamp_lesel(internal, oid, internal, integer) RETURNS double precision
    LANGUAGE C STABLE STRICT PARALLEL SAFE AS 'MODULE_PATHNAME', 'offset_timestamp_lesel';
CREATE FUNCTION offset_timestamp_lejoinsel(internal, oid, internal, smallint, internal) RETURNS double precision
    LANGUAGE C STABLE STRICT PARALLEL SAFE AS 'MODULE_PATHNAME', 'offset_timestamp_lejoinsel';
CREATE FUNCTION offset_timestamp_gesel(internal, oid, internal, integer) RETURNS double precision
    LANGUAGE C STABLE STRICT PARALLEL SAFE AS 'MODULE_PATHNAME', 'offset_timestamp_gesel';
CREATE FUNCTION offset_timestamp_gejoinsel(internal, oid, internal, smallint, internal) RETURNS double precision
    LANGUAGE C STABLE STRICT PARALLEL SAFE AS 'MODULE_PATHNAME', 'offset_timestamp_gejoinsel';
CREATE FUNCTION offset_timestamp_gtsel(internal, oid, internal, integer) RETURNS double precision
    LANGUAGE C STABLE STRICT PARALLEL SAFE AS 'MODULE_PATHNAME', 'offset_timestamp_gtsel';
CREATE FUNCTION offset_timestamp_gtjoinsel(internal, oid, internal, smallint, internal) RETURNS double precision
    LANGUAGE C STABLE STRICT PARALLEL SAFE AS 'MODULE_PATHNAME', 'offset_timestamp_gtjoinsel';

-- The order of offset_timestamp
CREATE FUNCTION offset_timestamp_lt(offset_timestamp, offset_timestamp) RETURNS boolean
    LANGUAGE C IMMUTABLE STRICT LEAKPROOF PARALLEL SAFE AS 'MODULE_PATHNAME', 'offset_timestamp_lt';
CREATE OPERATOR < (
    LEFTARG = offset_timestamp, RIGHTARG = offset_timestamp, FUNCTION = offset_timestamp_lt, COMMUTATOR = >, NEGATOR = >=,
    RESTRICT = offset_timestamp_ltsel, JOIN = offset_timestamp_ltjoinsel
);
CREATE FUNCTION offset_timestamp_le(offset_timestamp, offset_timestamp) RETURNS boolean
    LANGUAGE C IMMUTABLE STRICT LEAKPROOF PARALLEL SAFE AS 'MODULE_PATHNAME', 'offset_timestamp_le';
CREATE OPERATOR <= (
    LEFTARG = offset_timestamp, RIGHTARG = offset_timestamp, FUNCTION = offset_timestamp_le, COMMUTATOR = >=, NEGATOR = >,
    RESTRICT = offset_timestamp_lesel, JOIN = offset_timestamp_lejoinsel
);
CREATE FUNCTION offset_timestamp_eq(offset_timestamp, offset_timestamp) RETURNS boolean
    LANGUAGE C IMMUTABLE STRICT LEAKPROOF PARALLEL SAFE AS 'MODULE_PATHNAME', 'offset_timestamp_eq';
CREATE OPERATOR = (
    LEFTARG = offset_timestamp, RIGHTARG = offset_timestamp, FUNCTION = offset_timestamp_eq, COMMUTATOR = =, NEGATOR = <>,
    RESTRICT = eqsel, JOIN = eqjoinsel, HASHES, MERGES
);
CREATE FUNCTION offset_timestamp_ne(offset_timestamp, offset_timestamp) RETURNS boolean
    LANGUAGE C IMMUTABLE STRICT LEAKPROOF PARALLEL SAFE AS 'MODULE_PATHNAME', 'offset_timestamp_ne';
CREATE OPERATOR <> (
    LEFTARG = offset_timestamp, RIGHTARG = offset_timestamp, FUNCTION = offset_timestamp_ne, COMMUTATOR = <>, NEGATOR = =,
    RESTRICT = neqsel, JOIN = neqjoinsel
);
CREATE FUNCTION offset_timestamp_ge(offset_timestamp, offset_timestamp) RETURNS boolean
    LANGUAGE C IMMUTABLE STRICT LEAKPROOF PARALLEL SAFE AS 'MODULE_PATHNAME', 'offset_timestamp_ge';
CREATE OPERATOR >= (
    LEFTARG = offset_timestamp, RIGHTARG = offset_timestamp, FUNCTION = offset_timestamp_ge, COMMUTATOR = <=, NEGATOR = <,
    RESTRICT = offset_timestamp_gesel, JOIN = offset_timestamp_gejoinsel
);
CREATE FUNCTION offset_timestamp_gt(offset_timestamp, offset_timestamp) RETURNS boolean
    LANGUAGE C IMMUTABLE STRICT LEAKPROOF PARALLEL SAFE AS 'MODULE_PATHNAME', 'offset_timestamp_gt';
CREATE OPERATOR > (
    LEFTARG = offset_timestamp, RIGHTARG = offset_timestamp, FUNCTION = offset_timestamp_gt, COMMUTATOR = <, NEGATOR = <=,
    RESTRICT = offset_timestamp_gtsel, JOIN = offset_timestamp_gtjoinsel
);
CREATE FUNCTION offset_timestamp_cmp(offset_timestamp, offset_timestamp) RETURNS integer
    LANGUAGE C IMMUTABLE STRICT LEAKPROOF PARALLEL SAFE AS 'MODULE_PATHNAME', 'offset_timestamp_cmp';
CREATE FUNCTION offset_timestamp_hash(offset_timestamp) RETURNS integer
    LANGUAGE C IMMUTABLE STRICT PARALLEL SAFE AS 'MODULE_PATHNAME', 'offset_timestamp_hash';
CREATE FUNCTION offset_timestamp_hash_extended(offset_timestamp, bigint) RETURNS bigint
    LANGUAGE C IMMUTABLE STRICT PARALLEL SAFE AS 'MODULE_PATHNAME', 'offset_timestamp_hash_extended';
CREATE FUNCTION offset_timestamp_larger(offset_timestamp, offset_timestamp) RETURNS offset_timestamp
    LANGUAGE C IMMUTABLE STRICT PARALLEL SAFE AS 'MODULE_PATHNAME', 'offset_timestamp_larger';
CREATE FUNCTION offset_timestamp_smaller(offset_timestamp, offset_timestamp) RETURNS offset_timestamp
    LANGUAGE C IMMUTABLE STRICT PARALLEL SAFE AS 'MODULE_PATHNAME', 'offset_timestamp_smaller';
CREATE FUNCTION offset_timestamp_sortsupport(internal) RETURNS void
    LANGUAGE C IMMUTABLE STRICT PARALLEL SAFE AS 'MODULE_PATHNAME', 'offset_timestamp_sortsupport';
CREATE FUNCTION offset_timestamp_same(offset_timestamp, offset_timestamp) RETURNS boolean
    LANGUAGE C IMMUTABLE STRICT PARALLEL SAFE AS 'MODULE_PATHNAME', 'offset_timestamp_same';
CREATE OPERATOR === (
    LEFTARG = offset_timestamp, RIGHTARG = offset_timestamp, FUNCTION = offset_timestamp_same,
    COMMUTATOR = ===, RESTRICT = eqsel, JOIN = eqjoinsel
);

-- The order of exact_duration
CREATE FUNCTION exact_duration_lt(exact_duration, exact_duration) RETURNS boolean
    LANGUAGE C IMMUTABLE STRICT LEAKPROOF PARALLEL SAFE AS 'MODULE_PATHNAME', 'exact_duration_lt';
CREATE OPERATOR < (
    LEFTARG = exact_duration, RIGHTARG = exact_duration, FUNCTION = exact_duration_lt, COMMUTATOR = >, NEGATOR = >=,
    RESTRICT = offset_timestamp_ltsel, JOIN = offset_timestamp_ltjoinsel
);
CREATE FUNCTION exact_duration_le(exact_duration, exact_duration) RETURNS boolean
    LANGUAGE C IMMUTABLE STRICT LEAKPROOF PARALLEL SAFE AS 'MODULE_PATHNAME', 'exact_duration_le';
CREATE OPERATOR <= (
    LEFTARG = exact_duration, RIGHTARG = exact_duration, FUNCTION = exact_duration_le, COMMUTATOR = >=, NEGATOR = >,
    RESTRICT = offset_timestamp_lesel, JOIN = offset_timestamp_lejoinsel
);
CREATE FUNCTION exact_duration_eq(exact_duration, exact_duration) RETURNS boolean
    LANGUAGE C IMMUTABLE STRICT LEAKPROOF PARALLEL SAFE AS 'MODULE_PATHNAME', 'exact_duration_eq';
CREATE OPERATOR = (
    LEFTARG = exact_duration, RIGHTARG = exact_duration, FUNCTION = exact_duration_eq, COMMUTATOR = =, NEGATOR = <>,
    RESTRICT = eqsel, JOIN = eqjoinsel, HASHES, MERGES
);
CREATE FUNCTION exact_duration_ne(exact_duration, exact_duration) RETURNS boolean
    LANGUAGE C IMMUTABLE STRICT LEAKPROOF PARALLEL SAFE AS 'MODULE_PATHNAME', 'exact_duration_ne';
CREATE OPERATOR <> (
    LEFTARG = exact_duration, RIGHTARG = exact_duration, FUNCTION = exact_duration_ne, COMMUTATOR = <>, NEGATOR = =,
    RESTRICT = neqsel, JOIN = neqjoinsel
);
CREATE FUNCTION exact_duration_ge(exact_duration, exact_duration) RETURNS boolean
    LANGUAGE C IMMUTABLE STRICT LEAKPROOF PARALLEL SAFE AS 'MODULE_PATHNAME', 'exact_duration_ge';
CREATE OPERATOR >= (
    LEFTARG = exact_duration, RIGHTARG = exact_duration, FUNCTION = exact_duration_ge, COMMUTATOR = <=, NEGATOR = <,
    RESTRICT = offset_timestamp_gesel, JOIN = offset_timestamp_gejoinsel
);
CREATE FUNCTION exact_duration_gt(exact_duration, exact_duration) RETURNS boolean
    LANGUAGE C IMMUTABLE STRICT LEAKPROOF PARALLEL SAFE AS 'MODULE_PATHNAME', 'exact_duration_gt';
CREATE OPERATOR > (
    LEFTARG = exact_duration, RIGHTARG = exact_duration, FUNCTION = exact_duration_gt, COMMUTATOR = <, NEGATOR = <=,
    RESTRICT = offset_timestamp_gtsel, JOIN = offset_timestamp_gtjoinsel
);
CREATE FUNCTION exact_duration_cmp(exact_duration, exact_duration) RETURNS integer
    LANGUAGE C IMMUTABLE STRICT LEAKPROOF PARALLEL SAFE AS 'MODULE_PATHNAME', 'exact_duration_cmp';
CREATE FUNCTION exact_duration_hash(exact_duration) RETURNS integer
    LANGUAGE C IMMUTABLE STRICT PARALLEL SAFE AS 'MODULE_PATHNAME', 'exact_duration_hash';
CREATE FUNCTION exact_duration_hash_extended(exact_duration, bigint) RETURNS bigint
    LANGUAGE C IMMUTABLE STRICT PARALLEL SAFE AS 'MODULE_PATHNAME', 'exact_duration_hash_extended';
CREATE FUNCTION exact_duration_larger(exact_duration, exact_duration) RETURNS exact_duration
    LANGUAGE C IMMUTABLE STRICT PARALLEL SAFE AS 'MODULE_PATHNAME', 'exact_duration_larger';
CREATE FUNCTION exact_duration_smaller(exact_duration, exact_duration) RETURNS exact_duration
    LANGUAGE C IMMUTABLE STRICT PARALLEL SAFE AS 'MODULE_PATHNAME', 'exact_duration_smaller';

-- The order of offset_timestamp and timestamptz
CREATE FUNCTION offset_timestamp_lt_timestamptz(offset_timestamp, timestamptz) RETURNS boolean
    LANGUAGE C IMMUTABLE STRICT LEAKPROOF PARALLEL SAFE AS 'MODULE_PATHNAME', 'offset_timestamp_lt_timestamptz';
CREATE OPERATOR < (
    LEFTARG = offset_timestamp, RIGHTARG = timestamptz, FUNCTION = offset_timestamp_lt_timestamptz, COMMUTATOR = >, NEGATOR = >=,
    RESTRICT = offset_timestamp_ltsel, JOIN = offset_timestamp_ltjoinsel
);
CREATE FUNCTION offset_timestamp_timestamptz_lt(timestamptz, offset_timestamp) RETURNS boolean
    LANGUAGE C IMMUTABLE STRICT LEAKPROOF PARALLEL SAFE AS 'MODULE_PATHNAME', 'offset_timestamp_timestamptz_lt';
CREATE OPERATOR < (
    LEFTARG = timestamptz, RIGHTARG = offset_timestamp, FUNCTION = offset_timestamp_timestamptz_lt, COMMUTATOR = >, NEGATOR = >=,
    RESTRICT = offset_timestamp_ltsel, JOIN = offset_timestamp_ltjoinsel
);
CREATE FUNCTION offset_timestamp_le_timestamptz(offset_timestamp, timestamptz) RETURNS boolean
    LANGUAGE C IMMUTABLE STRICT LEAKPROOF PARALLEL SAFE AS 'MODULE_PATHNAME', 'offset_timestamp_le_timestamptz';
CREATE OPERATOR <= (
    LEFTARG = offset_timestamp, RIGHTARG = timestamptz, FUNCTION = offset_timestamp_le_timestamptz, COMMUTATOR = >=, NEGATOR = >,
    RESTRICT = offset_timestamp_lesel, JOIN = offset_timestamp_lejoinsel
);
CREATE FUNCTION offset_timestamp_timestamptz_le(timestamptz, offset_timestamp) RETURNS boolean
    LANGUAGE C IMMUTABLE STRICT LEAKPROOF PARALLEL SAFE AS 'MODULE_PATHNAME', 'offset_timestamp_timestamptz_le';
CREATE OPERATOR <= (
    LEFTARG = timestamptz, RIGHTARG = offset_timestamp, FUNCTION = offset_timestamp_timestamptz_le, COMMUTATOR = >=, NEGATOR = >,
    RESTRICT = offset_timestamp_lesel, JOIN = offset_timestamp_lejoinsel
);
CREATE FUNCTION offset_timestamp_eq_timestamptz(offset_timestamp, timestamptz) RETURNS boolean
    LANGUAGE C IMMUTABLE STRICT LEAKPROOF PARALLEL SAFE AS 'MODULE_PATHNAME', 'offset_timestamp_eq_timestamptz';
CREATE OPERATOR = (
    LEFTARG = offset_timestamp, RIGHTARG = timestamptz, FUNCTION = offset_timestamp_eq_timestamptz, COMMUTATOR = =, NEGATOR = <>,
    RESTRICT = eqsel, JOIN = eqjoinsel, HASHES
);
CREATE FUNCTION offset_timestamp_timestamptz_eq(timestamptz, offset_timestamp) RETURNS boolean
    LANGUAGE C IMMUTABLE STRICT LEAKPROOF PARALLEL SAFE AS 'MODULE_PATHNAME', 'offset_timestamp_timestamptz_eq';
CREATE OPERATOR = (
    LEFTARG = timestamptz, RIGHTARG = offset_timestamp, FUNCTION = offset_timestamp_timestamptz_eq, COMMUTATOR = =, NEGATOR = <>,
    RESTRICT = eqsel, JOIN = eqjoinsel, HASHES
);
CREATE FUNCTION offset_timestamp_ne_timestamptz(offset_timestamp, timestamptz) RETURNS boolean
    LANGUAGE C IMMUTABLE STRICT LEAKPROOF PARALLEL SAFE AS 'MODULE_PATHNAME', 'offset_timestamp_ne_timestamptz';
CREATE OPERATOR <> (
    LEFTARG = offset_timestamp, RIGHTARG = timestamptz, FUNCTION = offset_timestamp_ne_timestamptz, COMMUTATOR = <>, NEGATOR = =,
    RESTRICT = neqsel, JOIN = neqjoinsel
);
CREATE FUNCTION offset_timestamp_timestamptz_ne(timestamptz, offset_timestamp) RETURNS boolean
    LANGUAGE C IMMUTABLE STRICT LEAKPROOF PARALLEL SAFE AS 'MODULE_PATHNAME', 'offset_timestamp_timestamptz_ne';
CREATE OPERATOR <> (
    LEFTARG = timestamptz, RIGHTARG = offset_timestamp, FUNCTION = offset_timestamp_timestamptz_ne, COMMUTATOR = <>, NEGATOR = =,
    RESTRICT = neqsel, JOIN = neqjoinsel
);
CREATE FUNCTION offset_timestamp_ge_timestamptz(offset_timestamp, timestamptz) RETURNS boolean
    LANGUAGE C IMMUTABLE STRICT LEAKPROOF PARALLEL SAFE AS 'MODULE_PATHNAME', 'offset_timestamp_ge_timestamptz';
CREATE OPERATOR >= (
    LEFTARG = offset_timestamp, RIGHTARG = timestamptz, FUNCTION = offset_timestamp_ge_timestamptz, COMMUTATOR = <=, NEGATOR = <,
    RESTRICT = offset_timestamp_gesel, JOIN = offset_timestamp_gejoinsel
);
CREATE FUNCTION offset_timestamp_timestamptz_ge(timestamptz, offset_timestamp) RETURNS boolean
    LANGUAGE C IMMUTABLE STRICT LEAKPROOF PARALLEL SAFE AS 'MODULE_PATHNAME', 'offset_timestamp_timestamptz_ge';
CREATE OPERATOR >= (
    LEFTARG = timestamptz, RIGHTARG = offset_timestamp, FUNCTION = offset_timestamp_timestamptz_ge, COMMUTATOR = <=, NEGATOR = <,
    RESTRICT = offset_timestamp_gesel, JOIN = offset_timestamp_gejoinsel
);
CREATE FUNCTION offset_timestamp_gt_timestamptz(offset_timestamp, timestamptz) RETURNS boolean
    LANGUAGE C IMMUTABLE STRICT LEAKPROOF PARALLEL SAFE AS 'MODULE_PATHNAME', 'offset_timestamp_gt_timestamptz';
CREATE OPERATOR > (
    LEFTARG = offset_timestamp, RIGHTARG = timestamptz, FUNCTION = offset_timestamp_gt_timestamptz, COMMUTATOR = <, NEGATOR = <=,
    RESTRICT = offset_timestamp_gtsel, JOIN = offset_timestamp_gtjoinsel
);
CREATE FUNCTION offset_timestamp_timestamptz_gt(timestamptz, offset_timestamp) RETURNS boolean
    LANGUAGE C IMMUTABLE STRICT LEAKPROOF PARALLEL SAFE AS 'MODULE_PATHNAME', 'offset_timestamp_timestamptz_gt';
CREATE OPERATOR > (
    LEFTARG = timestamptz, RIGHTARG = offset_timestamp, FUNCTION = offset_timestamp_timestamptz_gt, COMMUTATOR = <, NEGATOR = <=,
    RESTRICT = offset_timestamp_gtsel, JOIN = offset_timestamp_gtjoinsel
);
CREATE FUNCTION offset_timestamp_cmp_timestamptz(offset_timestamp, timestamptz) RETURNS integer
    LANGUAGE C IMMUTABLE STRICT LEAKPROOF PARALLEL SAFE AS 'MODULE_PATHNAME', 'offset_timestamp_cmp_timestamptz';
CREATE FUNCTION offset_timestamp_timestamptz_cmp(timestamptz, offset_timestamp) RETURNS integer
    LANGUAGE C IMMUTABLE STRICT LEAKPROOF PARALLEL SAFE AS 'MODULE_PATHNAME', 'offset_timestamp_timestamptz_cmp';

-- The order of two timestamptz by other names, which makes a family whole. PostgreSQL would plan the queries of others by
-- a family that has its own names.
CREATE OPERATOR #< (
    LEFTARG = timestamptz, RIGHTARG = timestamptz, FUNCTION = timestamptz_lt, COMMUTATOR = #>, NEGATOR = #>=,
    RESTRICT = scalarltsel, JOIN = scalarltjoinsel
);
CREATE OPERATOR #<= (
    LEFTARG = timestamptz, RIGHTARG = timestamptz, FUNCTION = timestamptz_le, COMMUTATOR = #>=, NEGATOR = #>,
    RESTRICT = scalarlesel, JOIN = scalarlejoinsel
);
CREATE OPERATOR #= (
    LEFTARG = timestamptz, RIGHTARG = timestamptz, FUNCTION = timestamptz_eq, COMMUTATOR = #=,
    RESTRICT = eqsel, JOIN = eqjoinsel, HASHES
);
CREATE OPERATOR #>= (
    LEFTARG = timestamptz, RIGHTARG = timestamptz, FUNCTION = timestamptz_ge, COMMUTATOR = #<=, NEGATOR = #<,
    RESTRICT = scalargesel, JOIN = scalargejoinsel
);
CREATE OPERATOR #> (
    LEFTARG = timestamptz, RIGHTARG = timestamptz, FUNCTION = timestamptz_gt, COMMUTATOR = #<, NEGATOR = #<=,
    RESTRICT = scalargtsel, JOIN = scalargtjoinsel
);

-- Sums and differences
CREATE FUNCTION offset_timestamp_plus(offset_timestamp, exact_duration) RETURNS offset_timestamp
    LANGUAGE C IMMUTABLE STRICT PARALLEL SAFE AS 'MODULE_PATHNAME', 'offset_timestamp_plus';
CREATE FUNCTION offset_timestamp_minus(offset_timestamp, exact_duration) RETURNS offset_timestamp
    LANGUAGE C IMMUTABLE STRICT PARALLEL SAFE AS 'MODULE_PATHNAME', 'offset_timestamp_minus';
CREATE FUNCTION offset_timestamp_difference(offset_timestamp, offset_timestamp) RETURNS exact_duration
    LANGUAGE C IMMUTABLE STRICT PARALLEL SAFE AS 'MODULE_PATHNAME', 'offset_timestamp_difference';
CREATE FUNCTION exact_duration_plus(exact_duration, exact_duration) RETURNS exact_duration
    LANGUAGE C IMMUTABLE STRICT PARALLEL SAFE AS 'MODULE_PATHNAME', 'exact_duration_plus';
CREATE FUNCTION exact_duration_minus(exact_duration, exact_duration) RETURNS exact_duration
    LANGUAGE C IMMUTABLE STRICT PARALLEL SAFE AS 'MODULE_PATHNAME', 'exact_duration_minus';
CREATE FUNCTION exact_duration_negative(exact_duration) RETURNS exact_duration
    LANGUAGE C IMMUTABLE STRICT PARALLEL SAFE AS 'MODULE_PATHNAME', 'exact_duration_negative';
CREATE FUNCTION magnitude(exact_duration) RETURNS exact_duration
    LANGUAGE C IMMUTABLE STRICT PARALLEL SAFE AS 'MODULE_PATHNAME', 'exact_duration_magnitude';
CREATE FUNCTION exact_duration_plus_timestamp(exact_duration, offset_timestamp) RETURNS offset_timestamp
    LANGUAGE C IMMUTABLE STRICT PARALLEL SAFE AS 'MODULE_PATHNAME', 'exact_duration_plus_timestamp';
CREATE FUNCTION exact_duration_times(exact_duration, numeric) RETURNS exact_duration
    LANGUAGE C IMMUTABLE STRICT PARALLEL SAFE AS 'MODULE_PATHNAME', 'exact_duration_times';
CREATE FUNCTION exact_duration_of_times(numeric, exact_duration) RETURNS exact_duration
    LANGUAGE C IMMUTABLE STRICT PARALLEL SAFE AS 'MODULE_PATHNAME', 'exact_duration_of_times';
CREATE FUNCTION exact_duration_quotient(exact_duration, numeric) RETURNS exact_duration
    LANGUAGE C IMMUTABLE STRICT PARALLEL SAFE AS 'MODULE_PATHNAME', 'exact_duration_quotient';
CREATE OPERATOR + (
    LEFTARG = offset_timestamp, RIGHTARG = exact_duration, FUNCTION = offset_timestamp_plus, COMMUTATOR = +
);
CREATE OPERATOR + (
    LEFTARG = exact_duration, RIGHTARG = offset_timestamp, FUNCTION = exact_duration_plus_timestamp, COMMUTATOR = +
);
CREATE OPERATOR - (
    LEFTARG = offset_timestamp, RIGHTARG = exact_duration, FUNCTION = offset_timestamp_minus
);
CREATE OPERATOR - (
    LEFTARG = offset_timestamp, RIGHTARG = offset_timestamp, FUNCTION = offset_timestamp_difference
);
CREATE OPERATOR + (
    LEFTARG = exact_duration, RIGHTARG = exact_duration, FUNCTION = exact_duration_plus, COMMUTATOR = +
);
CREATE OPERATOR - (
    LEFTARG = exact_duration, RIGHTARG = exact_duration, FUNCTION = exact_duration_minus
);
CREATE OPERATOR - (
    RIGHTARG = exact_duration, FUNCTION = exact_duration_negative
);
CREATE OPERATOR * (
    LEFTARG = exact_duration, RIGHTARG = numeric, FUNCTION = exact_duration_times, COMMUTATOR = *
);
CREATE OPERATOR * (
    LEFTARG = numeric, RIGHTARG = exact_duration, FUNCTION = exact_duration_of_times, COMMUTATOR = *
);
CREATE OPERATOR / (
    LEFTARG = exact_duration, RIGHTARG = numeric, FUNCTION = exact_duration_quotient
);
CREATE FUNCTION add_months(offset_timestamp, integer) RETURNS offset_timestamp
    LANGUAGE C IMMUTABLE STRICT PARALLEL SAFE AS 'MODULE_PATHNAME', 'offset_timestamp_add_months';
CREATE FUNCTION whole_units(exact_duration, text) RETURNS bigint
    LANGUAGE C IMMUTABLE STRICT PARALLEL SAFE AS 'MODULE_PATHNAME', 'exact_duration_count';
CREATE FUNCTION offset_timestamp_series_support(internal) RETURNS internal
    LANGUAGE C IMMUTABLE STRICT PARALLEL SAFE AS 'MODULE_PATHNAME', 'offset_timestamp_series_support';
CREATE FUNCTION generate_series(offset_timestamp, offset_timestamp, exact_duration) RETURNS SETOF offset_timestamp
    LANGUAGE C IMMUTABLE STRICT PARALLEL SAFE ROWS 1000 SUPPORT offset_timestamp_series_support
    AS 'MODULE_PATHNAME', 'offset_timestamp_series';
CREATE FUNCTION date_bin(exact_duration, offset_timestamp, offset_timestamp) RETURNS offset_timestamp
    LANGUAGE C IMMUTABLE STRICT PARALLEL SAFE AS 'MODULE_PATHNAME', 'offset_timestamp_bin';
CREATE FUNCTION in_range(offset_timestamp, offset_timestamp, exact_duration, boolean, boolean) RETURNS boolean
    LANGUAGE C IMMUTABLE STRICT PARALLEL SAFE AS 'MODULE_PATHNAME', 'offset_timestamp_in_range';

-- Indexes
-- Values that are equal may have two offsets, so no equalimage lets an index keep one of them alone.
CREATE OPERATOR FAMILY offset_timestamp_ops USING btree;
CREATE OPERATOR CLASS offset_timestamp_ops DEFAULT FOR TYPE offset_timestamp USING btree FAMILY offset_timestamp_ops AS
    OPERATOR 1 <, OPERATOR 2 <=, OPERATOR 3 =, OPERATOR 4 >=, OPERATOR 5 >,
    FUNCTION 1 offset_timestamp_cmp(offset_timestamp, offset_timestamp),
    FUNCTION 2 offset_timestamp_sortsupport(internal),
    FUNCTION 3 (offset_timestamp, exact_duration) in_range(offset_timestamp, offset_timestamp, exact_duration, boolean, boolean);
ALTER OPERATOR FAMILY offset_timestamp_ops USING btree ADD
    OPERATOR 1 < (offset_timestamp, timestamptz),
    OPERATOR 2 <= (offset_timestamp, timestamptz),
    OPERATOR 3 = (offset_timestamp, timestamptz),
    OPERATOR 4 >= (offset_timestamp, timestamptz),
    OPERATOR 5 > (offset_timestamp, timestamptz),
    FUNCTION 1 (offset_timestamp, timestamptz) offset_timestamp_cmp_timestamptz(offset_timestamp, timestamptz),
    OPERATOR 1 < (timestamptz, offset_timestamp),
    OPERATOR 2 <= (timestamptz, offset_timestamp),
    OPERATOR 3 = (timestamptz, offset_timestamp),
    OPERATOR 4 >= (timestamptz, offset_timestamp),
    OPERATOR 5 > (timestamptz, offset_timestamp),
    FUNCTION 1 (timestamptz, offset_timestamp) offset_timestamp_timestamptz_cmp(timestamptz, offset_timestamp),
    OPERATOR 1 #< (timestamptz, timestamptz),
    OPERATOR 2 #<= (timestamptz, timestamptz),
    OPERATOR 3 #= (timestamptz, timestamptz),
    OPERATOR 4 #>= (timestamptz, timestamptz),
    OPERATOR 5 #> (timestamptz, timestamptz),
    FUNCTION 1 (timestamptz, timestamptz) timestamptz_cmp(timestamptz, timestamptz);
CREATE OPERATOR CLASS exact_duration_ops DEFAULT FOR TYPE exact_duration USING btree AS
    OPERATOR 1 <, OPERATOR 2 <=, OPERATOR 3 =, OPERATOR 4 >=, OPERATOR 5 >,
    FUNCTION 1 exact_duration_cmp(exact_duration, exact_duration);
CREATE OPERATOR CLASS offset_timestamp_hash_ops DEFAULT FOR TYPE offset_timestamp USING hash AS
    OPERATOR 1 =,
    FUNCTION 1 offset_timestamp_hash(offset_timestamp),
    FUNCTION 2 offset_timestamp_hash_extended(offset_timestamp, bigint);
CREATE FUNCTION offset_timestamp_hash_timestamptz(timestamptz) RETURNS integer
    LANGUAGE C IMMUTABLE STRICT PARALLEL SAFE AS 'MODULE_PATHNAME', 'offset_timestamp_hash_timestamptz';
CREATE FUNCTION offset_timestamp_hash_timestamptz_extended(timestamptz, bigint) RETURNS bigint
    LANGUAGE C IMMUTABLE STRICT PARALLEL SAFE AS 'MODULE_PATHNAME', 'offset_timestamp_hash_timestamptz_extended';
ALTER OPERATOR FAMILY offset_timestamp_hash_ops USING hash ADD
    OPERATOR 1 = (offset_timestamp, timestamptz),
    OPERATOR 1 = (timestamptz, offset_timestamp),
    OPERATOR 1 #= (timestamptz, timestamptz),
    FUNCTION 1 (timestamptz, timestamptz) offset_timestamp_hash_timestamptz(timestamptz),
    FUNCTION 2 (timestamptz, timestamptz) offset_timestamp_hash_timestamptz_extended(timestamptz, bigint);
CREATE OPERATOR CLASS offset_timestamp_minmax_ops DEFAULT FOR TYPE offset_timestamp USING brin AS
    OPERATOR 1 <, OPERATOR 2 <=, OPERATOR 3 =, OPERATOR 4 >=, OPERATOR 5 >,
    FUNCTION 1 brin_minmax_opcinfo(internal),
    FUNCTION 2 brin_minmax_add_value(internal, internal, internal, internal),
    FUNCTION 3 brin_minmax_consistent(internal, internal, internal),
    FUNCTION 4 brin_minmax_union(internal, internal, internal);
ALTER OPERATOR FAMILY offset_timestamp_minmax_ops USING brin ADD
    OPERATOR 1 < (offset_timestamp, timestamptz),
    OPERATOR 2 <= (offset_timestamp, timestamptz),
    OPERATOR 3 = (offset_timestamp, timestamptz),
    OPERATOR 4 >= (offset_timestamp, timestamptz),
    OPERATOR 5 > (offset_timestamp, timestamptz);
CREATE OPERATOR CLASS exact_duration_hash_ops DEFAULT FOR TYPE exact_duration USING hash AS
    OPERATOR 1 =,
    FUNCTION 1 exact_duration_hash(exact_duration),
    FUNCTION 2 exact_duration_hash_extended(exact_duration, bigint);
CREATE OPERATOR CLASS exact_duration_minmax_ops DEFAULT FOR TYPE exact_duration USING brin AS
    OPERATOR 1 <, OPERATOR 2 <=, OPERATOR 3 =, OPERATOR 4 >=, OPERATOR 5 >,
    FUNCTION 1 brin_minmax_opcinfo(internal),
    FUNCTION 2 brin_minmax_add_value(internal, internal, internal, internal),
    FUNCTION 3 brin_minmax_consistent(internal, internal, internal),
    FUNCTION 4 brin_minmax_union(internal, internal, internal);
CREATE FUNCTION offset_timestamp_subtype_diff(offset_timestamp, offset_timestamp) RETURNS double precision
    LANGUAGE C IMMUTABLE STRICT PARALLEL SAFE AS 'MODULE_PATHNAME', 'offset_timestamp_subtype_diff';
CREATE TYPE offset_timestamp_range AS RANGE (SUBTYPE = offset_timestamp, SUBTYPE_DIFF = offset_timestamp_subtype_diff);
CREATE FUNCTION offset_timestamp_gist_compress(internal) RETURNS internal
    LANGUAGE C IMMUTABLE STRICT PARALLEL SAFE AS 'MODULE_PATHNAME', 'offset_timestamp_gist_compress';
CREATE FUNCTION offset_timestamp_gist_fetch(internal) RETURNS internal
    LANGUAGE C IMMUTABLE STRICT PARALLEL SAFE AS 'MODULE_PATHNAME', 'offset_timestamp_gist_fetch';
CREATE FUNCTION offset_timestamp_gist_union(internal, internal) RETURNS offset_timestamp_range
    LANGUAGE internal IMMUTABLE STRICT PARALLEL SAFE AS 'range_gist_union';
CREATE FUNCTION offset_timestamp_gist_consistent(internal, offset_timestamp, smallint, oid, internal) RETURNS boolean
    LANGUAGE C IMMUTABLE STRICT PARALLEL SAFE AS 'MODULE_PATHNAME', 'offset_timestamp_gist_consistent';
CREATE OPERATOR CLASS offset_timestamp_gist_ops DEFAULT FOR TYPE offset_timestamp USING gist AS
    OPERATOR 1 <, OPERATOR 2 <=, OPERATOR 3 =, OPERATOR 4 >=, OPERATOR 5 >, OPERATOR 6 <>,
    FUNCTION 1 offset_timestamp_gist_consistent(internal, offset_timestamp, smallint, oid, internal),
    FUNCTION 2 offset_timestamp_gist_union(internal, internal),
    FUNCTION 3 offset_timestamp_gist_compress(internal),
    FUNCTION 5 range_gist_penalty(internal, internal, internal),
    FUNCTION 6 range_gist_picksplit(internal, internal),
    FUNCTION 7 range_gist_same(anyrange, anyrange, internal),
    FUNCTION 9 offset_timestamp_gist_fetch(internal),
    STORAGE offset_timestamp_range;
CREATE FUNCTION offset_timestamp_distance(offset_timestamp, offset_timestamp) RETURNS double precision
    LANGUAGE C IMMUTABLE STRICT PARALLEL SAFE AS 'MODULE_PATHNAME', 'offset_timestamp_distance';
-- PostgreSQL 13 has neither of these classes.
DO $$ BEGIN
    IF current_setting('server_version_num')::integer < 140000 THEN
        RETURN;
    END IF;
    CREATE OPERATOR CLASS offset_timestamp_minmax_multi_ops FOR TYPE offset_timestamp USING brin AS
        OPERATOR 1 <, OPERATOR 2 <=, OPERATOR 3 =, OPERATOR 4 >=, OPERATOR 5 >,
        FUNCTION 1 brin_minmax_multi_opcinfo(internal),
        FUNCTION 2 brin_minmax_multi_add_value(internal, internal, internal, internal),
        FUNCTION 3 brin_minmax_multi_consistent(internal, internal, internal, integer),
        FUNCTION 4 brin_minmax_multi_union(internal, internal, internal),
        FUNCTION 5 brin_minmax_multi_options(internal),
        FUNCTION 11 offset_timestamp_distance(offset_timestamp, offset_timestamp);
    ALTER OPERATOR FAMILY offset_timestamp_minmax_multi_ops USING brin ADD
        OPERATOR 1 < (offset_timestamp, timestamptz),
        OPERATOR 2 <= (offset_timestamp, timestamptz),
        OPERATOR 3 = (offset_timestamp, timestamptz),
        OPERATOR 4 >= (offset_timestamp, timestamptz),
        OPERATOR 5 > (offset_timestamp, timestamptz);
    CREATE OPERATOR CLASS offset_timestamp_bloom_ops FOR TYPE offset_timestamp USING brin AS
        OPERATOR 1 =,
        FUNCTION 1 brin_bloom_opcinfo(internal),
        FUNCTION 2 brin_bloom_add_value(internal, internal, internal, internal),
        FUNCTION 3 brin_bloom_consistent(internal, internal, internal, integer),
        FUNCTION 4 brin_bloom_union(internal, internal, internal),
        FUNCTION 5 brin_bloom_options(internal),
        FUNCTION 11 offset_timestamp_hash(offset_timestamp);
END $$;

-- Aggregates
CREATE AGGREGATE max(offset_timestamp) (
    SFUNC = offset_timestamp_larger, STYPE = offset_timestamp, SORTOP = >, COMBINEFUNC = offset_timestamp_larger, PARALLEL = SAFE
);
CREATE AGGREGATE min(offset_timestamp) (
    SFUNC = offset_timestamp_smaller, STYPE = offset_timestamp, SORTOP = <, COMBINEFUNC = offset_timestamp_smaller, PARALLEL = SAFE
);
CREATE AGGREGATE max(exact_duration) (
    SFUNC = exact_duration_larger, STYPE = exact_duration, SORTOP = >, COMBINEFUNC = exact_duration_larger, PARALLEL = SAFE
);
CREATE AGGREGATE min(exact_duration) (
    SFUNC = exact_duration_smaller, STYPE = exact_duration, SORTOP = <, COMBINEFUNC = exact_duration_smaller, PARALLEL = SAFE
);
CREATE AGGREGATE sum(exact_duration) (
    SFUNC = exact_duration_plus, STYPE = exact_duration, COMBINEFUNC = exact_duration_plus, PARALLEL = SAFE,
    MSFUNC = exact_duration_plus, MINVFUNC = exact_duration_minus, MSTYPE = exact_duration
);
CREATE FUNCTION exact_duration_enter(exact_duration[], exact_duration) RETURNS exact_duration[]
    LANGUAGE C IMMUTABLE STRICT PARALLEL SAFE AS 'MODULE_PATHNAME', 'exact_duration_enter';
CREATE FUNCTION exact_duration_leave(exact_duration[], exact_duration) RETURNS exact_duration[]
    LANGUAGE C IMMUTABLE STRICT PARALLEL SAFE AS 'MODULE_PATHNAME', 'exact_duration_leave';
CREATE FUNCTION exact_duration_combine(exact_duration[], exact_duration[]) RETURNS exact_duration[]
    LANGUAGE C IMMUTABLE STRICT PARALLEL SAFE AS 'MODULE_PATHNAME', 'exact_duration_combine';
CREATE FUNCTION exact_duration_mean(exact_duration[]) RETURNS exact_duration
    LANGUAGE C IMMUTABLE STRICT PARALLEL SAFE AS 'MODULE_PATHNAME', 'exact_duration_mean';
CREATE AGGREGATE avg(exact_duration) (
    SFUNC = exact_duration_enter, STYPE = exact_duration[], INITCOND = '{0,0}', FINALFUNC = exact_duration_mean,
    COMBINEFUNC = exact_duration_combine, PARALLEL = SAFE,
    MSFUNC = exact_duration_enter, MINVFUNC = exact_duration_leave, MSTYPE = exact_duration[], MINITCOND = '{0,0}',
    MFINALFUNC = exact_duration_mean
);

-- Casts: each call takes a timestamptz, at the offset 0
CREATE FUNCTION offset_timestamp(timestamptz) RETURNS offset_timestamp
    LANGUAGE C IMMUTABLE STRICT PARALLEL SAFE AS 'MODULE_PATHNAME', 'offset_timestamp_from_timestamptz';
CREATE FUNCTION offset_timestamp(timestamptz, integer) RETURNS offset_timestamp
    LANGUAGE C IMMUTABLE STRICT PARALLEL SAFE AS 'MODULE_PATHNAME', 'offset_timestamp_from_timestamptz';
CREATE FUNCTION offset_timestamp_digits_support(internal) RETURNS internal
    LANGUAGE C IMMUTABLE STRICT PARALLEL SAFE AS 'MODULE_PATHNAME', 'offset_timestamp_digits_support';
CREATE FUNCTION offset_timestamp_digits(offset_timestamp, integer) RETURNS offset_timestamp
    LANGUAGE C IMMUTABLE STRICT PARALLEL SAFE SUPPORT offset_timestamp_digits_support AS 'MODULE_PATHNAME', 'offset_timestamp_digits';
CREATE FUNCTION timestamptz(offset_timestamp) RETURNS timestamptz
    LANGUAGE C IMMUTABLE STRICT PARALLEL SAFE AS 'MODULE_PATHNAME', 'offset_timestamp_to_timestamptz';
CREATE FUNCTION rounded_down(offset_timestamp) RETURNS timestamptz
    LANGUAGE C IMMUTABLE STRICT PARALLEL SAFE AS 'MODULE_PATHNAME', 'offset_timestamp_rounded_down';
CREATE FUNCTION exact_duration(interval) RETURNS exact_duration
    LANGUAGE C IMMUTABLE STRICT PARALLEL SAFE AS 'MODULE_PATHNAME', 'exact_duration_from_interval';
CREATE FUNCTION "interval"(exact_duration) RETURNS interval
    LANGUAGE C IMMUTABLE STRICT PARALLEL SAFE AS 'MODULE_PATHNAME', 'exact_duration_to_interval';
CREATE FUNCTION exact_duration(numeric) RETURNS exact_duration
    LANGUAGE C IMMUTABLE STRICT PARALLEL SAFE AS 'MODULE_PATHNAME', 'exact_duration_from_numeric';
CREATE FUNCTION seconds(exact_duration) RETURNS numeric
    LANGUAGE C IMMUTABLE STRICT PARALLEL SAFE AS 'MODULE_PATHNAME', 'exact_duration_seconds';
CREATE CAST (offset_timestamp AS offset_timestamp) WITH FUNCTION offset_timestamp_digits(offset_timestamp, integer) AS IMPLICIT;
CREATE CAST (timestamptz AS offset_timestamp) WITH FUNCTION offset_timestamp(timestamptz) AS IMPLICIT;
CREATE CAST (offset_timestamp AS timestamptz) WITH FUNCTION timestamptz(offset_timestamp);
CREATE CAST (interval AS exact_duration) WITH FUNCTION exact_duration(interval) AS IMPLICIT;
CREATE CAST (exact_duration AS interval) WITH FUNCTION "interval"(exact_duration);
CREATE CAST (numeric AS exact_duration) WITH FUNCTION exact_duration(numeric);
CREATE CAST (integer AS exact_duration) WITH INOUT;
CREATE CAST (bigint AS exact_duration) WITH INOUT;
CREATE CAST (exact_duration AS numeric) WITH FUNCTION seconds(exact_duration);

-- Parts, offsets and texts
CREATE FUNCTION at_offset(offset_timestamp, integer) RETURNS offset_timestamp
    LANGUAGE C IMMUTABLE STRICT PARALLEL SAFE AS 'MODULE_PATHNAME', 'offset_timestamp_at_offset';
CREATE FUNCTION at_offset(offset_timestamp, text) RETURNS offset_timestamp
    LANGUAGE C IMMUTABLE STRICT PARALLEL SAFE AS 'MODULE_PATHNAME', 'offset_timestamp_at_offset_text';
CREATE FUNCTION make_offset_timestamp(integer, integer, integer, integer, integer, numeric, integer) RETURNS offset_timestamp
    LANGUAGE C IMMUTABLE STRICT PARALLEL SAFE AS 'MODULE_PATHNAME', 'offset_timestamp_make';
CREATE FUNCTION make_offset_timestamp(integer, integer, integer, integer, integer, numeric, text) RETURNS offset_timestamp
    LANGUAGE C IMMUTABLE STRICT PARALLEL SAFE AS 'MODULE_PATHNAME', 'offset_timestamp_make_text';
CREATE FUNCTION clock_offset_timestamp() RETURNS offset_timestamp
    LANGUAGE C VOLATILE STRICT PARALLEL SAFE AS 'MODULE_PATHNAME', 'offset_timestamp_clock';
CREATE FUNCTION local_date(offset_timestamp) RETURNS date
    LANGUAGE C IMMUTABLE STRICT PARALLEL SAFE AS 'MODULE_PATHNAME', 'offset_timestamp_local_date';
CREATE FUNCTION date_trunc(text, offset_timestamp) RETURNS offset_timestamp
    LANGUAGE C IMMUTABLE STRICT PARALLEL SAFE AS 'MODULE_PATHNAME', 'offset_timestamp_truncate';
CREATE FUNCTION date_part(text, offset_timestamp) RETURNS bigint
    LANGUAGE C IMMUTABLE STRICT PARALLEL SAFE AS 'MODULE_PATHNAME', 'offset_timestamp_part';
CREATE FUNCTION date_part(text, exact_duration) RETURNS numeric
    LANGUAGE C IMMUTABLE STRICT PARALLEL SAFE AS 'MODULE_PATHNAME', 'exact_duration_part';
-- EXTRACT calls the function of this name in pg_catalog, from PostgreSQL 14 on.
CREATE FUNCTION pg_catalog.extract(text, exact_duration) RETURNS numeric
    LANGUAGE C IMMUTABLE STRICT PARALLEL SAFE AS 'MODULE_PATHNAME', 'exact_duration_part';
CREATE FUNCTION offset_timestamp_refused(text) RETURNS text
    LANGUAGE C IMMUTABLE STRICT PARALLEL SAFE AS 'MODULE_PATHNAME', 'offset_timestamp_refused';
CREATE FUNCTION offset_timestamp_or_null(text) RETURNS offset_timestamp
    LANGUAGE C IMMUTABLE STRICT PARALLEL SAFE AS 'MODULE_PATHNAME', 'offset_timestamp_or_null';

-- Time zones, by the files of the server, which an upgrade of the machine may change
CREATE FUNCTION at_zone(offset_timestamp, text) RETURNS offset_timestamp
    LANGUAGE C STABLE STRICT PARALLEL SAFE AS 'MODULE_PATHNAME', 'offset_timestamp_at_zone';
CREATE FUNCTION from_local(timestamp, text) RETURNS offset_timestamp
    LANGUAGE C STABLE STRICT PARALLEL SAFE AS 'MODULE_PATHNAME', 'offset_timestamp_from_local';
CREATE FUNCTION from_local(timestamp, text, text) RETURNS offset_timestamp
    LANGUAGE C STABLE STRICT PARALLEL SAFE AS 'MODULE_PATHNAME', 'offset_timestamp_from_local';

-- Texts of another form, by format descriptions
CREATE FUNCTION offset_timestamp_format(offset_timestamp, text) RETURNS text
    LANGUAGE C IMMUTABLE STRICT PARALLEL SAFE AS 'MODULE_PATHNAME', 'offset_timestamp_format';
CREATE FUNCTION offset_timestamp_parse(text, text) RETURNS offset_timestamp
    LANGUAGE C IMMUTABLE STRICT PARALLEL SAFE AS 'MODULE_PATHNAME', 'offset_timestamp_parse';
CREATE FUNCTION offset_timestamp_parse(text, text, text) RETURNS offset_timestamp
    LANGUAGE C IMMUTABLE STRICT PARALLEL SAFE AS 'MODULE_PATHNAME', 'offset_timestamp_parse';
CREATE FUNCTION offset_timestamp_parse_or_null(text, text) RETURNS offset_timestamp
    LANGUAGE C IMMUTABLE STRICT PARALLEL SAFE AS 'MODULE_PATHNAME', 'offset_timestamp_parse_or_null';
CREATE FUNCTION offset_timestamp_parse_or_null(text, text, text) RETURNS offset_timestamp
    LANGUAGE C IMMUTABLE STRICT PARALLEL SAFE AS 'MODULE_PATHNAME', 'offset_timestamp_parse_or_null';
