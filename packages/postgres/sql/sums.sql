SELECT '2024-02-28T23:30:00-01:00'::offset_timestamp + '90 minutes', '2024-02-28T23:30:00-01:00'::offset_timestamp - '1 nanosecond'::exact_duration,
    '2024-02-28T23:30:00-01:00'::offset_timestamp + interval '1 day 1 second';
SELECT '2024-02-28T23:30:00-01:00'::offset_timestamp + interval '1 month';
SELECT '9999-12-31T23:59:59Z'::offset_timestamp + '1';
SELECT '9999-12-31T23:59:59Z'::offset_timestamp + '1' > '9999-12-31T23:59:59Z' AS later;
SELECT '+999999-12-31T23:59:59+00:01'::offset_timestamp + '1' > '9999-12-31T23:59:59Z' AS later;
SELECT '2024-02-28T23:30:00-01:00'::offset_timestamp + '9223372036854775807';
SELECT '2024-03-01T00:00:00Z'::offset_timestamp - '2024-02-28T23:30:00-01:00', '9999-12-31T23:59:59Z'::offset_timestamp - '0000-01-01T00:00:00Z';
SELECT add_months('2024-01-31T23:30:00-01:00', 1), add_months('2024-02-29T00:00:00Z', -12), add_months('2024-02-29T00:00:00Z', 0);
SELECT add_months('9999-12-31T23:59:59Z', 1);
SELECT u, date_trunc(u, '2024-02-28T23:34:56.123456789-01:00'::offset_timestamp)
FROM unnest(ARRAY['year', 'quarter', 'month', 'week', 'day', 'hour', 'minute', 'second', 'milliseconds', 'microsecond', 'nanosecond']) u;
SELECT date_trunc('week', '2025-01-01T00:00:00+14:00'::offset_timestamp), date_trunc('quarter', '2024-12-31T23:59:59Z'::offset_timestamp);
SELECT date_trunc('week', '0000-01-01T00:00:00Z'::offset_timestamp);
SELECT date_trunc('fortnight', '2024-12-31T23:59:59Z'::offset_timestamp);
SELECT at_offset('2024-02-28T23:30:00-01:00', 7200), at_offset('9999-12-31T23:59:59Z', -60);
SELECT at_offset('9999-12-31T23:59:59Z', 60);
SELECT at_offset('2024-02-28T23:30:00-01:00', 7201);
SELECT at_offset('2024-02-28T23:30:00-01:00', 86400);
SELECT p, date_part(p, '2024-12-30T23:30:05.5-01:00'::offset_timestamp)
FROM unnest(ARRAY['year', 'quarter', 'month', 'day', 'hour', 'minute', 'second', 'nanosecond', 'timezone', 'epoch', 'doy', 'dow', 'isodow', 'isoyear', 'week', 'julian']) p;
SELECT date_part('quarter', '2024-01-15T00:00:00Z'::offset_timestamp), date_part('quarter', '2024-06-30T00:00:00Z'::offset_timestamp);
SELECT date_part('millennium', '2024-12-30T23:30:05.5-01:00'::offset_timestamp);
-- series, up and down, and at the end of the range
SELECT generate_series('2024-02-28T22:00:00-01:00'::offset_timestamp, '2024-02-29T01:00:00Z', '30 minutes');
SELECT generate_series('2024-02-29T00:00:00Z'::offset_timestamp, '2024-02-27T00:00:00Z', '-1 day');
SELECT generate_series('9999-12-31T22:30:00Z'::offset_timestamp, '9999-12-31T23:59:59Z', '1 hour') LIMIT 5;
SELECT generate_series('+999999-12-31T22:30:00Z'::offset_timestamp, '+999999-12-31T23:59:59Z', '1 hour') LIMIT 5;
SELECT generate_series('2024-02-29T00:00:00Z'::offset_timestamp, '2024-02-27T00:00:00Z', '0');
-- a window of a day
SELECT at, count(*) OVER (ORDER BY at RANGE BETWEEN '1 day' PRECEDING AND CURRENT ROW) AS day,
    count(*) OVER (ORDER BY at RANGE BETWEEN interval '12 hours' PRECEDING AND '12 hours' FOLLOWING) AS both_ways
FROM (VALUES ('2024-02-27T00:00:00Z'::offset_timestamp), ('2024-02-27T23:00:00Z'), ('2024-02-28T01:00:00+01:00'), ('2024-02-28T00:00:00.000000001Z')) v (at);
SELECT count(*) OVER (ORDER BY at RANGE BETWEEN '-1 day' PRECEDING AND CURRENT ROW) FROM (VALUES ('2024-02-27T00:00:00Z'::offset_timestamp)) v (at);
-- steps, windows and distances below a second are those of timestamptz
SELECT step, cardinality(ours) AS rows, ours = theirs AS are_equal
FROM (VALUES ('2024-02-29T00:00:00Z', '2024-02-29T00:00:02Z', '0.5'), ('2024-02-29T00:00:02Z', '2024-02-29T00:00:00Z', '-0.5'), ('2024-02-29T00:00:02Z', '2024-02-29T00:00:00Z', '-1.5'),
    ('2024-02-29T00:00:00Z', '2024-02-29T00:00:02Z', '-0.5'), ('2024-02-29T00:00:02Z', '2024-02-29T00:00:00Z', '0.5')) v (first, last, step),
    LATERAL (SELECT ARRAY(SELECT generate_series(first::offset_timestamp, last::offset_timestamp, step::exact_duration)),
        ARRAY(SELECT generate_series(first::timestamptz, last::timestamptz, step::interval)::offset_timestamp)) s (ours, theirs);
SELECT count(*) OVER (ORDER BY at RANGE BETWEEN '0.5' PRECEDING AND '0.25' FOLLOWING) AS rows,
    count(*) OVER (ORDER BY tz RANGE BETWEEN '0.5' PRECEDING AND '0.25' FOLLOWING) AS of_timestamptz
FROM (VALUES ('2024-02-29T00:00:00Z'), ('2024-02-29T01:00:00.25+01:00'), ('2024-02-29T00:00:00.5Z'), ('2024-02-29T00:00:00.75Z'), ('2024-02-29T00:00:02Z')) v (t), LATERAL (SELECT t::offset_timestamp, t::timestamptz) s (at, tz);
SELECT count(*) OVER (ORDER BY at RANGE BETWEEN '-0.5' PRECEDING AND CURRENT ROW) FROM (VALUES ('2024-02-27T00:00:00Z'::offset_timestamp)) v (at);
SELECT count(*) OVER (ORDER BY at RANGE BETWEEN CURRENT ROW AND '-0.5' FOLLOWING) FROM (VALUES ('2024-02-27T00:00:00Z'::offset_timestamp)) v (at);
SELECT count(*) OVER (ORDER BY tz RANGE BETWEEN '-0.5' PRECEDING AND CURRENT ROW) FROM (VALUES ('2024-02-27T00:00:00Z'::timestamptz)) v (tz);
SELECT offset_timestamp_subtype_diff(a, b) AS apart, tstzrange_subdiff(a::timestamptz, b::timestamptz) AS of_timestamptz
FROM (VALUES ('2024-02-29T00:00:00.75Z'::offset_timestamp, '2024-02-29T00:00:00Z'::offset_timestamp), ('2024-02-29T00:00:00Z', '2024-02-29T00:00:00.75Z'), ('2024-02-29T00:00:00.5Z', '2024-02-28T23:00:00-01:00'), ('1969-12-31T23:59:59.25Z', '1970-01-01T00:00:01Z')) v (a, b);
-- a sum over a frame that moves is the sum of its rows, and leaves those behind that it has passed
CREATE TABLE lengths AS SELECT id, CASE WHEN id % 7 < 2 THEN NULL ELSE (id * 37 % 101 - 50 || '.' || id * 7919 % 1000)::exact_duration END AS took FROM generate_series(1, 500) id;
SELECT count(*) AS rows, count(moved) AS sums, bool_and(moved IS NOT DISTINCT FROM summed) AS are_equal
FROM (SELECT sum(took) OVER (ORDER BY id ROWS BETWEEN 3 PRECEDING AND 1 FOLLOWING) AS moved,
    (SELECT sum(took) FROM lengths b WHERE b.id BETWEEN a.id - 3 AND a.id + 1) AS summed FROM lengths a) s;
SELECT aggmtransfn, aggminvtransfn FROM pg_aggregate WHERE aggfnoid = 'sum(exact_duration)'::regprocedure;
DROP TABLE lengths;
