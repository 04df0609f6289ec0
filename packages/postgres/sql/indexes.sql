SET TimeZone = 'UTC'; SET DateStyle = 'ISO';
-- instants of many offsets, of which every tenth comes a month late
CREATE TABLE marks AS SELECT id, offset_timestamp(tz, (id % 29 - 14) * 3600) AS at, tz FROM (SELECT id,
    '2024-01-01 00:00:00+00'::timestamptz + id * interval '7 minutes' - (id % 10 = 0)::int * interval '30 days' AS tz FROM generate_series(1, 20000) id) s;
INSERT INTO marks SELECT -id, at + '0.000000001', tz FROM marks WHERE id % 500 = 0;
CREATE TABLE bounds (b offset_timestamp);
INSERT INTO bounds SELECT at FROM marks WHERE id % 3989 = 0;
INSERT INTO bounds SELECT at + '0.000000001' FROM marks WHERE id % 3989 = 7;
INSERT INTO bounds VALUES ('0000-01-01T00:00:00Z'), ('9999-12-31T23:59:59.999999999Z'), ('2024-02-29T00:00:00+14:00');
-- rows by each operator, with an index and without one
CREATE FUNCTION plans() RETURNS text LANGUAGE plpgsql AS $$
DECLARE line text; plan text := '';
BEGIN
    FOR line IN EXPLAIN (COSTS OFF) SELECT count(*) FROM marks WHERE at = '2024-02-29T00:00:00Z' LOOP
        plan := plan || line;
    END LOOP;
    RETURN plan;
END $$;
CREATE FUNCTION counts() RETURNS text LANGUAGE plpgsql AS $$
DECLARE sign text; b offset_timestamp; n bigint; total bigint; found text := '';
BEGIN
    FOREACH sign IN ARRAY ARRAY['<', '<=', '=', '>=', '>'] LOOP
        total := 0;
        FOR b IN SELECT bounds.b FROM bounds LOOP
            EXECUTE format('SELECT count(*) FROM marks WHERE at %s %L', sign, b) INTO n;
            total := total + n;
        END LOOP;
        found := found || ' ' || total;
    END LOOP;
    RETURN found;
END $$;
SELECT counts() AS of_scans \gset
SELECT :'of_scans' = (SELECT string_agg(' ' || n, '' ORDER BY place) FROM (
    SELECT 1 AS place, count(*) AS n FROM marks, bounds WHERE at < b UNION ALL SELECT 2, count(*) FROM marks, bounds WHERE at <= b UNION ALL SELECT 3, count(*) FROM marks, bounds WHERE at = b
    UNION ALL SELECT 4, count(*) FROM marks, bounds WHERE at >= b UNION ALL SELECT 5, count(*) FROM marks, bounds WHERE at > b) s) AS are_joins;
SET enable_seqscan = off;
CREATE INDEX marks_index ON marks USING gist (at);
VACUUM ANALYZE marks;
SELECT plans() ~ 'marks_index' AS has_index, counts() = :'of_scans' AS are_equal;
EXPLAIN (COSTS OFF) SELECT at FROM marks WHERE at >= '2024-02-29T00:00:00+14:00' AND at < '2024-02-29T00:30:00+14:00';
SELECT at FROM marks WHERE at >= '2024-02-29T00:00:00+14:00' AND at < '2024-02-29T00:30:00+14:00' ORDER BY at;
DROP INDEX marks_index;
CREATE INDEX marks_index ON marks USING brin (at offset_timestamp_minmax_multi_ops) WITH (pages_per_range = 2);
SELECT plans() ~ 'marks_index' AS has_index, counts() = :'of_scans' AS are_equal;
-- a late row widens no range: fewer pages are read than by minmax
CREATE INDEX marks_minmax ON marks USING brin (at) WITH (pages_per_range = 2);
CREATE FUNCTION pages() RETURNS bigint LANGUAGE plpgsql AS $$
DECLARE plan json;
BEGIN
    EXECUTE 'EXPLAIN (ANALYZE, COSTS OFF, TIMING OFF, FORMAT JSON) SELECT * FROM marks WHERE at = ''2024-02-29T00:00:00Z''' INTO plan;
    RETURN coalesce((plan->0->'Plan'->>'Lossy Heap Blocks')::bigint, 0);
END $$;
BEGIN; DROP INDEX marks_minmax; SELECT pages() AS of_multi \gset
ROLLBACK;
BEGIN; DROP INDEX marks_index; SELECT pages() AS of_minmax \gset
ROLLBACK;
SELECT :of_multi < :of_minmax AS is_less;
SELECT count(*) FILTER (WHERE at < t) AS lt, count(*) FILTER (WHERE at = t) AS eq FROM marks, (VALUES ('2024-02-28 08:07:00+00'::timestamptz)) v (t);
DROP INDEX marks_minmax;
SELECT (SELECT count(*) FROM marks WHERE at < t) AS lt, (SELECT count(*) FROM marks WHERE at = t) AS eq FROM (VALUES ('2024-02-28 08:07:00+00'::timestamptz)) v (t);
DROP INDEX marks_index;
CREATE INDEX marks_index ON marks USING brin (at offset_timestamp_bloom_ops) WITH (pages_per_range = 2);
SELECT plans() ~ 'marks_index' AS has_index, counts() = :'of_scans' AS are_equal;
EXPLAIN (COSTS OFF) SELECT * FROM marks WHERE at = '2024-02-29T00:00:00Z';
RESET enable_seqscan;
DROP FUNCTION counts; DROP FUNCTION plans; DROP FUNCTION pages; DROP TABLE marks, bounds;
-- conditions by <>, and rows that are added to an index that is there
CREATE TABLE few (at offset_timestamp);
CREATE INDEX few_index ON few USING gist (at);
INSERT INTO few SELECT generate_series('2024-02-29T00:00:00Z'::offset_timestamp, '2024-03-29T00:00:00Z', '7 minutes');
UPDATE few SET at = at_offset(at, '+01:00') WHERE date_part('minute', at) < 10;
SET enable_seqscan = off;
EXPLAIN (COSTS OFF) SELECT count(*) FROM few WHERE at <> '2024-03-01T01:02:00+01:00';
SELECT count(*) AS rows, (SELECT count(*) FROM few WHERE at <> '2024-03-01T01:02:00+01:00') AS others, (SELECT count(*) FROM few WHERE at = '2024-03-01T01:02:00+01:00') AS same FROM few;
RESET enable_seqscan;
DROP TABLE few;
-- no two of one instant, whatever the offsets
CREATE TABLE starts (at offset_timestamp, EXCLUDE USING gist (at WITH =));
INSERT INTO starts VALUES ('2024-02-29T00:00:00Z'), ('2024-02-29T00:00:00.000000001Z'), (NULL), (NULL);
INSERT INTO starts VALUES ('2024-02-29T01:00:00+01:00');
CREATE TABLE same_day (at offset_timestamp, EXCLUDE USING gist (at WITH <>));
INSERT INTO same_day VALUES ('2024-02-29T00:00:00Z'), ('2024-02-29T01:00:00+01:00');
INSERT INTO same_day VALUES ('2024-02-29T00:00:00.000000001Z');
-- with another column by btree_gist, as of a timestamptz
CREATE EXTENSION btree_gist;
CREATE TABLE rooms (room int, at offset_timestamp, EXCLUDE USING gist (room WITH =, at WITH =));
CREATE TABLE rooms_tz (room int, tz timestamptz, EXCLUDE USING gist (room WITH =, tz WITH =));
INSERT INTO rooms SELECT room, at FROM (VALUES (1, '2024-02-29T00:00:00Z'::offset_timestamp), (2, '2024-02-29T01:00:00+01:00'), (1, '2024-02-29T01:00:00+01:00'), (1, '2024-02-29T00:00:00.5Z')) v (room, at) ON CONFLICT DO NOTHING;
INSERT INTO rooms_tz SELECT room, tz FROM (VALUES (1, '2024-02-29 00:00:00Z'::timestamptz), (2, '2024-02-29 01:00:00+01:00'), (1, '2024-02-29 01:00:00+01:00'), (1, '2024-02-29 00:00:00.5Z')) v (room, tz) ON CONFLICT DO NOTHING;
SELECT r.room, at, tz IS NOT NULL AS as_of_timestamptz FROM rooms r FULL JOIN rooms_tz z ON r.room = z.room AND at = tz ORDER BY r.room, at;
DROP TABLE starts, same_day, rooms, rooms_tz;
DROP EXTENSION btree_gist;
