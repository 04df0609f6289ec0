SET TimeZone = 'UTC'; SET DateStyle = 'ISO';
-- partitions, CHECK, generated columns
CREATE TABLE audit (at offset_timestamp PRIMARY KEY, day offset_timestamp GENERATED ALWAYS AS (date_trunc('day', at)) STORED, CHECK (date_part('timezone', at) % 900 = 0)) PARTITION BY RANGE (at);
CREATE TABLE audit_2023 PARTITION OF audit FOR VALUES FROM ('2023-01-01T00:00:00Z') TO ('2024-01-01T00:00:00Z');
CREATE TABLE audit_2024 PARTITION OF audit FOR VALUES FROM ('2024-01-01T00:00:00Z') TO ('2025-01-01T00:00:00Z');
INSERT INTO audit VALUES ('2024-01-01T00:30:00+01:00'), ('2024-01-01T00:30:00Z');
INSERT INTO audit VALUES ('2024-01-01T01:30:00+01:00');
INSERT INTO audit VALUES ('2024-01-01T01:30:00+01:01');
INSERT INTO audit VALUES ('2025-01-01T00:00:00Z');
SELECT tableoid::regclass, * FROM audit ORDER BY at;
EXPLAIN (COSTS OFF) SELECT * FROM audit WHERE at >= '2024-06-01T00:00:00Z';
CREATE TABLE by_hash (at offset_timestamp) PARTITION BY HASH (at);
CREATE TABLE by_hash_0 PARTITION OF by_hash FOR VALUES WITH (MODULUS 2, REMAINDER 0);
CREATE TABLE by_hash_1 PARTITION OF by_hash FOR VALUES WITH (MODULUS 2, REMAINDER 1);
INSERT INTO by_hash SELECT generate_series('2024-01-01T00:00:00Z'::offset_timestamp, '2024-12-31T00:00:00Z', '1 hour');
SELECT count(*), count(*) FILTER (WHERE tableoid = 'by_hash_0'::regclass) BETWEEN 4000 AND 4800 AS halved FROM by_hash;
-- ranges, and no two that overlap
CREATE TABLE booked (during offset_timestamp_range, EXCLUDE USING gist (during WITH &&));
INSERT INTO booked VALUES ('[2024-01-01T00:00:00Z,2024-01-01T01:00:00Z)'), ('[2024-01-01T02:00:00+01:00,2024-01-01T03:00:00+01:00)');
INSERT INTO booked VALUES ('[2024-01-01T01:59:59.999999999+01:00,2024-01-01T02:00:00+01:00)');
SELECT '[2024-01-01T00:00:00Z,2024-01-01T01:00:00Z)'::offset_timestamp_range @> '2024-01-01T01:59:59.999999999+01:00'::offset_timestamp;
SELECT upper(during) - lower(during) AS booked FROM booked;
-- durations as keys
CREATE TABLE lengths (d exact_duration PRIMARY KEY);
INSERT INTO lengths VALUES ('1 day'), ('0.5'), ('-1');
INSERT INTO lengths VALUES ('24 hours');
SELECT d FROM lengths ORDER BY d;
-- UNIQUE goes by instant, and a conflict keeps the row
INSERT INTO audit VALUES ('2023-12-31T23:30:00Z') ON CONFLICT (at) DO NOTHING;
SELECT count(*) FROM audit;
DROP TABLE audit, by_hash, booked, lengths;
-- more digits write no table again, and fewer do
CREATE TABLE digits (at offset_timestamp(3));
INSERT INTO digits VALUES ('2024-02-29T00:00:00.123456789+01:00');
SELECT pg_relation_filenode('digits') AS written \gset
ALTER TABLE digits ALTER at TYPE offset_timestamp(6);
SELECT pg_relation_filenode('digits') = :written AS is_kept;
ALTER TABLE digits ALTER at TYPE offset_timestamp;
SELECT pg_relation_filenode('digits') = :written AS is_kept;
INSERT INTO digits VALUES ('2024-02-29T00:00:00.123456789+01:00');
ALTER TABLE digits ALTER at TYPE offset_timestamp(9);
SELECT pg_relation_filenode('digits') = :written AS is_kept;
ALTER TABLE digits ALTER at TYPE offset_timestamp(2);
SELECT pg_relation_filenode('digits') = :written AS is_kept;
SELECT at, at::offset_timestamp(5)::offset_timestamp(1) AS one, '2024-02-29T00:00:00.123456789Z'::offset_timestamp::offset_timestamp(4) AS four FROM digits;
DROP TABLE digits;
