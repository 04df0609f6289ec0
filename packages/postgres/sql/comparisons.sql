SELECT a, b, a = b AS eq, a === b AS same, a < b AS lt, a <= b AS le, a > b AS gt, a >= b AS ge, a <> b AS ne
FROM (VALUES ('2024-02-28T23:30:00-01:00'::offset_timestamp, '2024-02-29T00:30:00Z'::offset_timestamp),
    ('2024-02-29T00:30:00.000000001Z', '2024-02-29T00:30:00Z'), ('2024-02-29T00:30:00Z', '2024-02-29T00:30:00Z')) v (a, b);
SELECT offset_timestamp_hash('2024-02-28T23:30:00-01:00') = offset_timestamp_hash('2024-02-29T00:30:00Z') AS hash,
    offset_timestamp_hash_extended('2024-02-28T23:30:00-01:00', 7) = offset_timestamp_hash_extended('2024-02-29T00:30:00Z', 7) AS extended;
-- operator classes are whole: each must be true
SELECT opcname, amname, amvalidate(pg_opclass.oid) FROM pg_opclass JOIN pg_am ON pg_am.oid = opcmethod
WHERE opcname LIKE 'offset_timestamp%' OR opcname LIKE 'exact_duration%' ORDER BY 1, 2;
-- a family has none of PostgreSQL's own operators, by which the queries of others would be planned
SELECT opfname, amopopr::regoperator FROM pg_amop JOIN pg_opfamily f ON f.oid = amopfamily JOIN pg_operator o ON o.oid = amopopr
WHERE opfname ~ '^(offset_timestamp|exact_duration)' AND oprnamespace = 'pg_catalog'::regnamespace;
-- what compares tells no value that it hides, so a policy of rows lets an index be used
SELECT count(*) FILTER (WHERE proleakproof) AS leakproof, count(*) AS comparisons FROM pg_proc
WHERE proname ~ '^(offset_timestamp|exact_duration)_(timestamptz_)?(lt|le|eq|ne|ge|gt|cmp)(_timestamptz)?$';
-- every function of values gives one answer for one value, and none for NULL, in each process
SELECT proname FROM pg_proc p JOIN pg_depend d ON d.objid = p.oid AND d.deptype = 'e' JOIN pg_extension e ON e.oid = d.refobjid
WHERE extname = 'muxandu' AND prokind = 'f' AND prolang = (SELECT oid FROM pg_language WHERE lanname = 'c')
AND NOT (provolatile = 'i' AND proisstrict AND proparallel = 's') AND NOT (provolatile = 's' AND proargtypes[0] = 'internal'::regtype)
AND proname NOT IN ('clock_offset_timestamp', 'at_zone', 'from_local');
-- a timestamptz has the hash of its instant
SELECT t, offset_timestamp_hash(t::offset_timestamp) = offset_timestamp_hash_timestamptz(t::timestamptz) AS hash,
    offset_timestamp_hash_extended(t::offset_timestamp, 7) = offset_timestamp_hash_timestamptz_extended(t::timestamptz, 7) AS extended
FROM (VALUES ('2024-02-28T23:30:00-01:00'), ('1969-12-31T23:59:59.999999Z'), ('0001-01-01T00:00:00Z'), ('9999-12-31T23:59:59.999999Z')) v (t);
CREATE TABLE orders (id int, at offset_timestamp);
INSERT INTO orders VALUES (1, '2024-02-29T00:30:00.000000032Z'), (2, '2024-02-29T00:30:00.000000031Z'), (3, '0000-01-01T00:00:00+23:59'),
    (4, '9999-12-31T23:59:59.999999999-23:59'), (5, NULL), (6, '1969-12-31T23:59:59.999999999Z'), (7, '1970-01-01T00:00:00Z'),
    (8, '2024-02-28T23:30:00.000000001-01:00');
SELECT id, at FROM orders ORDER BY at, id;
SELECT id FROM orders ORDER BY at DESC NULLS LAST, id;
SELECT min(at), max(at) FROM orders;
-- equal is not the same: one of the equals stands for the group
SELECT count(*), count(DISTINCT at) FROM (VALUES ('2024-02-28T23:30:00-01:00'::offset_timestamp), ('2024-02-29T00:30:00Z')) v (at);
DROP TABLE orders;
