SET TimeZone = 'UTC'; SET DateStyle = 'ISO';
SELECT '2024-02-28T23:30:00.123456-01:00'::offset_timestamp::timestamptz;
SELECT '2024-02-28T23:30:00.123456789-01:00'::offset_timestamp::timestamptz;
SELECT rounded_down('1969-12-31T23:59:59.999999999Z'), rounded_down('0000-01-01T00:00:00Z'), rounded_down('9999-12-31T23:59:59.999999999Z');
SELECT '2024-02-28 23:30:00.123456-01'::timestamptz::offset_timestamp, offset_timestamp('2024-02-28 23:30:00-01'::timestamptz, 7200);
SELECT 'infinity'::timestamptz::offset_timestamp;
SELECT '-infinity'::timestamptz::offset_timestamp;
SELECT '0044-03-15 00:00:00+00 BC'::timestamptz::offset_timestamp;
SELECT '12024-01-01 00:00:00+00'::timestamptz::offset_timestamp;
SELECT offset_timestamp('2024-02-28 23:30:00-01'::timestamptz, 7201);
SELECT t, '2024-02-29T00:30:00Z'::offset_timestamp < t AS lt, '2024-02-29T00:30:00Z'::offset_timestamp <= t AS le, '2024-02-29T00:30:00Z'::offset_timestamp = t AS eq,
    '2024-02-29T00:30:00Z'::offset_timestamp >= t AS ge, '2024-02-29T00:30:00Z'::offset_timestamp > t AS gt, '2024-02-29T00:30:00Z'::offset_timestamp <> t AS ne
FROM (VALUES ('infinity'::timestamptz), ('-infinity'), ('2024-02-29 00:30:00+00'), ('294276-12-31 23:59:59.999999+00'), ('4714-11-24 00:00:00+00 BC')) v (t);
SELECT t, t < '2024-02-29T00:30:00Z'::offset_timestamp AS lt, t <= '2024-02-29T00:30:00Z'::offset_timestamp AS le, t = '2024-02-29T00:30:00Z'::offset_timestamp AS eq,
    t >= '2024-02-29T00:30:00Z'::offset_timestamp AS ge, t > '2024-02-29T00:30:00Z'::offset_timestamp AS gt, t <> '2024-02-29T00:30:00Z'::offset_timestamp AS ne
FROM (VALUES ('infinity'::timestamptz), ('-infinity'), ('2024-02-29 00:30:00+00')) v (t);
-- a column takes now(), which is at the offset 0
CREATE TABLE stamps (at offset_timestamp NOT NULL DEFAULT now());
INSERT INTO stamps DEFAULT VALUES RETURNING at = now() AS now, date_part('timezone', at);
DROP TABLE stamps;
-- an extension has no part in extract and AT TIME ZONE
SELECT extract(year FROM '2024-01-01T00:00:00Z'::offset_timestamp);
SELECT '2024-01-01T00:00:00Z'::offset_timestamp AT TIME ZONE 'UTC';
