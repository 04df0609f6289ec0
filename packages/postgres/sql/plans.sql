SET TimeZone = 'UTC'; SET DateStyle = 'ISO';
CREATE TABLE events (id int, at offset_timestamp NOT NULL, tz timestamptz);
INSERT INTO events SELECT i, offset_timestamp('2024-01-01 00:00:00+00'::timestamptz + i * interval '7 minutes', (i % 29 - 14) * 3600), '2024-01-01 00:00:00+00'::timestamptz + i * interval '7 minutes' FROM generate_series(1, 20000) i;
CREATE INDEX events_at ON events (at);
ANALYZE events;
SELECT count(*), bool_and(at = tz) FROM events;
EXPLAIN (COSTS OFF) SELECT * FROM events WHERE at >= '2024-03-01T00:00:00+14:00' AND at < '2024-03-01T01:00:00+14:00';
SELECT id, at FROM events WHERE at >= '2024-03-01T00:00:00+14:00' AND at < '2024-03-01T00:30:00+14:00' ORDER BY at;
EXPLAIN (COSTS OFF) SELECT * FROM events WHERE at < '2024-01-01 02:00:00+00'::timestamptz;
SELECT count(*) FROM events WHERE at < '2024-01-01 02:00:00+00'::timestamptz;
EXPLAIN (COSTS OFF) SELECT min(at), max(at) FROM events;
SELECT min(at), max(at) FROM events;
SET enable_mergejoin = off; SET enable_nestloop = off;
EXPLAIN (COSTS OFF) SELECT count(*) FROM events a JOIN events b USING (at);
SELECT count(*) FROM events a JOIN events b USING (at);
RESET enable_mergejoin; RESET enable_nestloop;
SET enable_hashjoin = off; SET enable_nestloop = off;
EXPLAIN (COSTS OFF) SELECT count(*) FROM events a JOIN events b USING (at);
SELECT count(*) FROM events a JOIN events b USING (at);
RESET enable_hashjoin; RESET enable_nestloop;
-- with a timestamptz joins go by hash, and infinities are there
INSERT INTO events VALUES (0, '9999-12-31T23:59:59Z', 'infinity'), (-1, '0000-01-01T00:00:00Z', '-infinity');
EXPLAIN (COSTS OFF) SELECT count(*) FROM events a JOIN events b ON a.at = b.tz;
SELECT count(*), bool_and(a.id = b.id) FROM events a JOIN events b ON a.at = b.tz;
EXPLAIN (COSTS OFF) SELECT count(*) FROM events a JOIN events b ON a.tz = b.at;
SELECT count(*), bool_and(a.id = b.id) FROM events a JOIN events b ON a.tz = b.at;
EXPLAIN (COSTS OFF) SELECT count(*) FROM events a FULL JOIN events b ON a.at = b.tz;
SELECT count(*) FROM events a FULL JOIN events b ON a.at = b.tz;
EXPLAIN (COSTS OFF) SELECT id FROM events WHERE at NOT IN (SELECT tz FROM events) ORDER BY id;
SELECT id FROM events WHERE at NOT IN (SELECT tz FROM events) ORDER BY id;
DELETE FROM events WHERE id < 1;
-- statistics go by the instant
SELECT most_common_vals IS NULL AS no_common, array_length(histogram_bounds::text::text[], 1) AS bounds, n_distinct FROM pg_stats WHERE tablename = 'events' AND attname = 'at';
-- BRIN
CREATE INDEX events_brin ON events USING brin (at) WITH (pages_per_range = 4);
DROP INDEX events_at;
SET enable_seqscan = off;
EXPLAIN (COSTS OFF) SELECT count(*) FROM events WHERE at < '2024-01-02T00:00:00Z';
SELECT count(*) FROM events WHERE at < '2024-01-02T00:00:00Z';
EXPLAIN (COSTS OFF) SELECT count(*) FROM events WHERE at < '2024-01-02 00:00:00+00'::timestamptz;
SELECT count(*) FILTER (WHERE at < t) AS lt, count(*) FILTER (WHERE at <= t) AS le, count(*) FILTER (WHERE at = t) AS eq, count(*) FILTER (WHERE at >= t) AS ge, count(*) FILTER (WHERE at > t) AS gt
FROM events, (VALUES ('2024-01-02 00:02:00+00'::timestamptz)) v (t);
SELECT (SELECT count(*) FROM events WHERE at < t) AS lt, (SELECT count(*) FROM events WHERE at <= t) AS le, (SELECT count(*) FROM events WHERE at = t) AS eq, (SELECT count(*) FROM events WHERE at >= t) AS ge, (SELECT count(*) FROM events WHERE at > t) AS gt
FROM (VALUES ('2024-01-02 00:02:00+00'::timestamptz)) v (t);
RESET enable_seqscan;
-- the rows of a series of known arguments, back and forth, of one without values, and of an unknown one
CREATE FUNCTION rows_of(query text) RETURNS text LANGUAGE plpgsql AS $$ DECLARE plan json; BEGIN EXECUTE 'EXPLAIN (FORMAT JSON) ' || query INTO plan; RETURN plan -> 0 -> 'Plan' ->> 'Plan Rows'; END $$;
SELECT step, rows_of(format('SELECT * FROM generate_series(%L::offset_timestamp, %L, %L)', first, last, step)) AS planned, (SELECT count(*) FROM generate_series(first::offset_timestamp, last::offset_timestamp, step::exact_duration)) AS there
FROM (VALUES ('2024-02-29T00:00:00+14:00', '2024-03-01T00:00:00Z', '1 minute'), ('2024-02-29T00:00:00Z', '2024-02-29T00:00:01Z', '0.1'), ('2024-03-01T00:00:00Z', '2024-02-29T00:00:00Z', '-1 hour'), ('2024-03-01T00:00:00Z', '2024-03-01T00:00:00Z', '1 day')) v (first, last, step);
SELECT rows_of('SELECT * FROM generate_series(now(), clock_offset_timestamp(), ''1 day'')') AS unknown, rows_of('SELECT * FROM generate_series(''2024-03-01T00:00:00Z''::offset_timestamp, ''2024-02-29T00:00:00Z'', ''1 day'')') AS none,
    rows_of('SELECT * FROM generate_series(''2024-03-01T00:00:00Z''::offset_timestamp, ''2024-03-02T00:00:00Z'', ''0'')') AS of_no_step;
DROP FUNCTION rows_of;
-- a parallel plan
SET parallel_setup_cost = 0; SET parallel_tuple_cost = 0; SET min_parallel_table_scan_size = 0;
EXPLAIN (COSTS OFF) SELECT max(at) FROM events;
SELECT max(at) FROM events;
DROP TABLE events;
