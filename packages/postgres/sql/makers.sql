SET TimeZone = 'UTC'; SET DateStyle = 'ISO';
-- the duration first, and a timestamptz on either side
SELECT interval '1 day' + at, '90 minutes'::exact_duration + at, '-0.5' + at, now() - at = now()::offset_timestamp - at AS later, at - now() = -(now() - at) AS earlier
FROM (VALUES ('2024-02-28T23:30:00-01:00'::offset_timestamp)) v (at);
SELECT tz - '0.5'::exact_duration AS moved, '1 hour'::exact_duration + tz AS as_well FROM (VALUES ('2024-02-29 00:30:00+00'::timestamptz)) v (tz);
SELECT '1'::exact_duration + '9999-12-31T23:59:59Z'::offset_timestamp;
SELECT 'infinity'::timestamptz - '2024-02-28T23:30:00-01:00'::offset_timestamp;
SELECT interval '1 month' + '2024-02-28T23:30:00-01:00'::offset_timestamp;
-- both types in one expression are offset_timestamp, where that comes first, and ELSE comes before all WHEN
SELECT coalesce(at, tz) AS first, greatest(at, tz) AS later, least(at, tz) AS earlier, CASE WHEN at IS NULL THEN tz ELSE at END AS chosen, ARRAY[at, tz] AS both
FROM (VALUES (NULL::offset_timestamp, '2024-02-29 00:30:00+00'::timestamptz), ('2024-02-28T23:31:00-01:00', '2024-02-29 00:30:00+00')) v (at, tz);
SELECT '2024-02-28T23:30:00-01:00'::offset_timestamp AS at UNION ALL SELECT '2024-02-29 00:31:00+00'::timestamptz;
SELECT '2024-02-28T23:30:00-01:00'::offset_timestamp AS at UNION SELECT '2024-02-29 00:30:00+00'::timestamptz;
SELECT coalesce('2024-02-29 00:30:00+00'::timestamptz, '2024-02-28T23:30:00-01:00'::offset_timestamp);
SELECT '2024-02-29 00:30:00+00'::timestamptz UNION ALL SELECT '2024-02-28T23:30:00-01:00'::offset_timestamp;
SELECT CASE WHEN true THEN '2024-02-28T23:30:00-01:00'::offset_timestamp ELSE '2024-02-29 00:30:00+00'::timestamptz END;
SELECT coalesce('2024-02-28T23:30:00-01:00'::offset_timestamp, '2024-02-29 00:30:00'::timestamp);
SELECT coalesce(NULL::offset_timestamp, 'infinity'::timestamptz);
-- an offset as a text
SELECT o, at_offset('2024-02-28T23:30:00-01:00', o), at_offset('2024-02-29 00:30:00+00'::timestamptz, o) FROM (VALUES ('+02:00'), ('-23:59'), ('Z'), ('z'), ('+00:00'), ('-00:00')) v (o);
SELECT at_offset('2024-02-28T23:30:00-01:00', '7200');
SELECT at_offset('2024-02-28T23:30:00-01:00', '');
SELECT at_offset('2024-02-28T23:30:00-01:00', '+2');
SELECT at_offset('2024-02-28T23:30:00-01:00', 'Europe/Paris');
SELECT at_offset('2024-02-28T23:30:00-01:00', '+26:00');
SELECT at_offset('2024-02-28T23:30:00-01:00', '+02:60');
-- an offset with seconds, as the texts of the type have them
SELECT o, at_offset('1890-01-01T00:00:00Z', o), make_offset_timestamp(1890, 1, 1, 0, 0, 0, o) FROM (VALUES ('+01:19:32'), ('-25:59:59'), ('+00:00:01'), ('-00:00:00')) v (o);
SELECT at_offset('1890-01-01T00:00:00Z', '+01:19:3');
SELECT at_offset('1890-01-01T00:00:00Z', '+01:19:60');
SELECT at_offset('1890-01-01T00:00:00Z', '+26:00:00');
SELECT at_offset('1890-01-01T00:00:00Z', '.5Z');
SELECT at_offset('1890-01-01T00:00:00Z', ' +01:19:32');
SELECT at_offset('9999-12-31T23:59:59Z', '+00:01');
-- steps: the origin, instants before it, a step below a second, and the answers of timestamptz
SELECT t, date_bin(step, t::offset_timestamp, origin::offset_timestamp) AS bin, date_bin(step, t::offset_timestamp, origin::offset_timestamp)::timestamptz = date_bin(step::interval, t::timestamptz, origin::timestamptz) AS is_theirs
FROM (VALUES ('2024-02-29T00:37:00.5+01:00'), ('2001-01-01T00:00:00Z'), ('2000-12-31T23:59:59.999999Z'), ('2000-12-31T23:45:00Z'), ('1969-07-20T20:17:40-05:00')) v (t),
    (VALUES ('15 minutes'::exact_duration, '2001-01-01T00:00:00Z'), ('0.3', '2001-01-01T00:00:00Z'), ('7 days', '2024-01-01T01:00:00+01:00')) w (step, origin);
SELECT date_bin('0.000000007', '2024-02-29T00:00:00.000000020Z'::offset_timestamp, '2024-02-29T00:00:00Z');
SELECT date_bin('0', '2024-02-29T00:00:00Z'::offset_timestamp, '2024-02-29T00:00:00Z');
SELECT date_bin('-1', '2024-02-29T00:00:00Z'::offset_timestamp, '2024-02-29T00:00:00Z');
SELECT date_bin('400 days', '0000-01-01T00:00:00Z'::offset_timestamp, '2024-02-29T00:00:00Z');
SELECT date_bin('1 month', '2024-02-29T00:00:00Z'::offset_timestamp, '2024-02-29T00:00:00Z');
-- the day of the clocks, also before year 1, in an index, in a generated column, and in groups
SELECT local_date('2024-02-28T23:30:00-01:00'), local_date('2024-02-28T23:30:00Z'), local_date('0000-12-31T00:00:00Z') = '0001-12-31 BC'::date AS bc, local_date('9999-12-31T23:59:59.999999999-23:59');
CREATE TABLE days (at offset_timestamp, day date GENERATED ALWAYS AS (local_date(at)) STORED);
CREATE INDEX days_local ON days (local_date(at));
INSERT INTO days SELECT generate_series('2024-02-28T00:00:00+14:00'::offset_timestamp, '2024-03-01T00:00:00Z', '1 hour');
SET enable_seqscan = off;
EXPLAIN (COSTS OFF) SELECT count(*) FROM days WHERE local_date(at) = '2024-02-29';
SELECT local_date(at) AS day, count(*), bool_and(day = local_date(at)) AS is_stored FROM days GROUP BY 1 ORDER BY 1;
RESET enable_seqscan;
DROP TABLE days;
-- of numbers, beside make_timestamptz
SELECT make_offset_timestamp(2024, 2, 29, 23, 59, 59.999999999, '+05:30'), make_offset_timestamp(2024, 2, 29, 0, 0, 0, -3600), make_offset_timestamp(0, 1, 1, 0, 0, 0.50, 'Z');
SELECT make_offset_timestamp(y, m, d, h, mi, s, o)::timestamptz = make_timestamptz(y, m, d, h, mi, s, replace(o, 'Z', '+00')) AS is_theirs
FROM (VALUES (2024, 2, 29, 23, 59, 59.999999, '+05:30'), (1, 1, 1, 0, 0, 0.5, 'Z'), (1969, 12, 31, 23, 59, 59, '-08:00')) v (y, m, d, h, mi, s, o);
SELECT make_offset_timestamp(2023, 2, 29, 0, 0, 0, 'Z');
SELECT make_offset_timestamp(2024, 258, 29, 0, 0, 0, 'Z');
SELECT make_offset_timestamp(2024, 2, -1, 0, 0, 0, 'Z');
SELECT make_offset_timestamp(2024, 2, 29, 24, 0, 0, 'Z');
SELECT make_offset_timestamp(2024, 2, 29, 0, 316, 0, 'Z');
SELECT make_offset_timestamp(2024, 2, 29, 0, 0, 60, 'Z');
SELECT make_offset_timestamp(2024, 2, 29, 0, 0, -0.5, 'Z');
SELECT make_offset_timestamp(2024, 2, 29, 0, 0, 1.0000000001, 'Z');
SELECT make_offset_timestamp(2024, 2, 29, 0, 0, 'NaN', 'Z');
SELECT make_offset_timestamp(10000, 2, 29, 0, 0, 0, 'Z');
SELECT make_offset_timestamp(2024, 2, 29, 0, 0, 0, 'CET');
SELECT make_offset_timestamp(2024, 2, 29, 0, 0, 0, 3601);
-- the clock goes on within a transaction, and has the offset 0
BEGIN;
SELECT clock_offset_timestamp() - now() BETWEEN '0' AND '1 hour' AS is_now, date_part('timezone', clock_offset_timestamp());
SELECT bool_and(after >= before AND before >= t - '0.000001'::exact_duration) AS is_between
FROM (SELECT t, c AS before, clock_offset_timestamp() AS after FROM (SELECT clock_timestamp() AS t, clock_offset_timestamp() AS c FROM generate_series(1, 100) OFFSET 0) s OFFSET 0) s;
SELECT count(DISTINCT clock_offset_timestamp()) > 1 AS goes_on FROM generate_series(1, 1000);
COMMIT;
-- a hint names the call that works
SELECT '2024-02-28T23:30:00-01:00'::offset_timestamp + '1 month';
SELECT '2024-02-28T23:30:00-01:00'::offset_timestamp - '2 Years 1 day';
SELECT '2024-02-28T23:30:00-01:00'::offset_timestamp - '1 day';
SELECT 'Mon, 26 Feb 2024 12:00:00'::offset_timestamp;
SELECT '1 yearling'::exact_duration;
-- a foreign key from a timestamptz to an offset_timestamp, and none the other way
CREATE TABLE keys (at offset_timestamp PRIMARY KEY);
INSERT INTO keys VALUES ('2024-02-28T23:30:00-01:00'), ('2024-02-28T23:30:00.000000001-01:00');
CREATE TABLE references_keys (tz timestamptz REFERENCES keys ON DELETE CASCADE);
INSERT INTO references_keys VALUES ('2024-02-29 00:30:00+00'), (NULL);
INSERT INTO references_keys VALUES ('2024-02-29 00:31:00+00');
INSERT INTO references_keys VALUES ('infinity');
UPDATE keys SET at = at_offset(at, 'Z');
UPDATE keys SET at = at + '1 day' WHERE date_part('nanosecond', at) = 0;
UPDATE references_keys SET tz = tz + interval '1 second' WHERE tz IS NOT NULL;
DELETE FROM keys WHERE date_part('nanosecond', at) = 0;
SELECT * FROM references_keys;
CREATE TABLE keys_tz (tz timestamptz PRIMARY KEY);
CREATE TABLE references_tz (at offset_timestamp REFERENCES keys_tz);
DROP TABLE keys, references_keys, keys_tz;
-- what is out of range has the code 22008, and a text of another form 22007
CREATE FUNCTION code_of(expression text) RETURNS text LANGUAGE plpgsql AS
$$ BEGIN EXECUTE 'SELECT ' || expression; RETURN 'none'; EXCEPTION WHEN OTHERS THEN RETURN SQLSTATE; END $$;
SELECT code_of(e), e FROM (VALUES ('4611686018427387904::exact_duration * 2'), ('2 * (- ''9223372036854775807''::exact_duration)'), ('''1''::exact_duration / 1e-19'),
    ('''0.000000001''::exact_duration * 0.5'), ('1e-10::exact_duration'), ('''NaN''::numeric::exact_duration'), ('avg(d) FROM (VALUES (''9223372036854775807''::exact_duration), (''1'')) v (d)'),
    ('''1 day'' + ''9999-12-31T23:59:59Z''::offset_timestamp'), ('''infinity''::timestamptz - ''2024-02-29T00:00:00Z''::offset_timestamp'), ('interval ''1 year'' + ''2024-02-29T00:00:00Z''::offset_timestamp'),
    ('coalesce(NULL::offset_timestamp, ''-infinity''::timestamptz)'), ('date_bin(''0'', ''2024-02-29T00:00:00Z''::offset_timestamp, ''2024-02-29T00:00:00Z'')'),
    ('make_offset_timestamp(2023, 2, 29, 0, 0, 0, ''Z'')'), ('make_offset_timestamp(2024, 2, 29, 0, 0, 0.0000000001, ''Z'')'), ('make_offset_timestamp(2024, 2, 29, 0, 0, 0, ''+26:00'')'),
    ('make_offset_timestamp(2024, 2, 29, 0, 0, 0, ''+2'')'), ('at_offset(''2024-02-29T00:00:00Z'', ''7200'')'), ('''2024-02-29T00:00:00Z''::offset_timestamp - ''1 month'''),
    ('''1 month''::exact_duration'), ('date_part(''day'', ''1''::exact_duration)'), ('''1''::exact_duration / 0')) v (e);
DROP FUNCTION code_of;
