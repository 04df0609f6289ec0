SET TimeZone = 'UTC'; SET DateStyle = 'ISO';
-- the years that have no four digits, and offsets with seconds
SELECT '-004712-11-24T12:00:00Z'::offset_timestamp, '+294276-12-31 23:59:59.999999z'::offset_timestamp, '+002024-02-29T12:34:56+01:19:32'::offset_timestamp;
SELECT '-999999-01-01T00:00:00Z'::offset_timestamp, '+999999-12-31T23:59:59.999999999Z'::offset_timestamp, '-000000-01-01T00:00:00-25:59:59'::offset_timestamp;
SELECT '4714-11-24 00:00:00+00 BC'::timestamptz::offset_timestamp, '0044-03-15 00:00:00+00 BC'::timestamptz::offset_timestamp, '294276-12-31 23:59:59.999999+00'::timestamptz::offset_timestamp;
-- the form, its byte, and the range
SELECT '-4712-11-24T12:00:00Z'::offset_timestamp;
SELECT '10000-01-01T00:00:00Z'::offset_timestamp;
SELECT '2024-02-29T12:34:56+01:19:60'::offset_timestamp;
SELECT '-000001-02-29T00:00:00Z'::offset_timestamp;
SELECT '+999999-12-31T23:59:59-00:00:01'::offset_timestamp;
-- types of PostgreSQL that have fewer years
SELECT '+294277-01-01T00:00:00Z'::offset_timestamp::timestamptz;
SELECT rounded_down('-004713-11-23T23:59:59Z');
SELECT '-004713-11-24T00:00:00Z'::offset_timestamp::timestamptz, local_date('-004713-11-24T00:00:00Z');
SELECT local_date('-004713-11-23T23:59:59Z');
-- each text of a timestamptz, by the parts that PostgreSQL has of it
CREATE TABLE years AS
SELECT n, '4714-11-24 00:00:00+00 BC'::timestamptz + n * interval '997 days 5 hours 7 minutes 11.000013 seconds' AS tz FROM generate_series(0, 109000) n;
CREATE TABLE texts AS
SELECT n, tz, tz::offset_timestamp AS at,
    CASE WHEN y BETWEEN 0 AND 9999 THEN lpad(y::text, 4, '0') WHEN y < 0 THEN '-' || lpad((-y)::text, 6, '0') ELSE '+' || lpad(y::text, 6, '0') END
    || to_char(tz, '-MM-DD"T"HH24:MI:SS') || rtrim(rtrim(to_char(tz, '.US'), '0'), '.') || 'Z' AS wanted
FROM (SELECT n, tz, CASE WHEN extract(year FROM tz) < 0 THEN extract(year FROM tz)::int + 1 ELSE extract(year FROM tz)::int END AS y FROM years) s;
SELECT count(*), count(*) FILTER (WHERE at::text = wanted) AS written, count(*) FILTER (WHERE wanted::offset_timestamp === at) AS read,
    count(*) FILTER (WHERE at::timestamptz = tz) AS back, min(at), max(at)
FROM texts;
-- each offset, read back
SELECT count(*), count(*) FILTER (WHERE at::text::offset_timestamp === at) AS read FROM
    (SELECT at_offset('+012024-02-29T12:34:56.5Z', o) AS at FROM generate_series(-93599, 93599) o) s;
-- an index over the whole range, a dump, and COPY
CREATE TABLE wide (at offset_timestamp PRIMARY KEY);
INSERT INTO wide SELECT at FROM texts;
INSERT INTO wide VALUES ('-999999-01-01T00:00:00Z'), ('+999999-12-31T23:59:59.999999999Z'), ('-999998-06-15T12:00:00+01:19:32');
SET enable_seqscan = off; SET enable_bitmapscan = off;
SELECT at FROM wide WHERE at < '-009999-01-01T00:00:00Z' OR at > '+300000-01-01T00:00:00Z' ORDER BY at;
SELECT count(*) FROM wide WHERE at >= '0000-01-01T00:00:00Z' AND at < '+010000-01-01T00:00:00Z';
SELECT count(*) FROM texts WHERE tz >= '0001-01-01 00:00:00+00 BC' AND tz < '10000-01-01 00:00:00+00';
SET enable_seqscan = on; SET enable_bitmapscan = on;
\copy (SELECT at FROM wide ORDER BY at) TO 'results/years.copy'
CREATE TABLE again (at offset_timestamp);
\copy again FROM 'results/years.copy'
-- the rows of the copy are sorted, and those of the index stand in order
SELECT (SELECT md5(string_agg(at::text, ' ' ORDER BY at)) FROM wide) = (SELECT md5(string_agg(at::text, ' ' ORDER BY at)) FROM again) AS same;
DROP TABLE again, wide, texts, years;
