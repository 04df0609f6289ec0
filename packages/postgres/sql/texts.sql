CREATE EXTENSION muxandu;
\set VERBOSITY verbose
-- texts in and out
SELECT '2024-02-28T23:30:00-01:00'::offset_timestamp, '2024-02-28t23:30:00.120z'::offset_timestamp, '1969-12-31 23:59:59.999999999+00:00'::offset_timestamp;
SELECT '0000-01-01T00:00:00+00:01'::offset_timestamp, '9999-12-31T23:59:59.999999999-23:59'::offset_timestamp;
\set VERBOSITY default
\set SHOW_CONTEXT never
-- each error has its name, and a SYNTAX its byte
SELECT '2023-02-29T00:00:00Z'::offset_timestamp;
SELECT '2024-13-01T00:00:00Z'::offset_timestamp;
SELECT '2024-02-29 12:00:00'::offset_timestamp;
SELECT '2016-12-31T23:59:60Z'::offset_timestamp;
SELECT '2024-02-29T24:00:00Z'::offset_timestamp;
SELECT '2024-02-29T12:00:00+24:00'::offset_timestamp;
SELECT '2024-02-29T12:00:00+23:60'::offset_timestamp;
SELECT 'now'::offset_timestamp;
SELECT ''::offset_timestamp;
-- the codes of PostgreSQL
DO $$
DECLARE word text; state text;
BEGIN
    FOREACH word IN ARRAY ARRAY['now', '2023-02-29T00:00:00Z'] LOOP
        BEGIN
            PERFORM word::offset_timestamp;
        EXCEPTION WHEN OTHERS THEN
            GET STACKED DIAGNOSTICS state = RETURNED_SQLSTATE;
            RAISE NOTICE '% %', state, word;
        END;
    END LOOP;
END $$;
SELECT t, offset_timestamp_refused(t), offset_timestamp_or_null(t)
FROM (VALUES ('2024-06-30T12:00:00Z'), ('2024-06-31T12:00:00Z'), ('yesterday'), (NULL)) AS v (t);
-- the digits of a column
CREATE TABLE digits (at offset_timestamp(3), whole offset_timestamp(0));
INSERT INTO digits VALUES ('2024-02-28T23:30:00.1239-01:00', '1969-12-31T23:59:59.9Z');
SELECT * FROM digits;
COPY digits FROM STDIN;
2024-02-28T23:30:00.9999Z	1969-12-31T23:59:59.9Z
\.
SELECT * FROM digits;
SELECT d, '1969-12-31T23:59:59.987654321Z'::offset_timestamp::text,
    CASE d WHEN 0 THEN '1969-12-31T23:59:59.987654321Z'::offset_timestamp(0) WHEN 1 THEN '1969-12-31T23:59:59.987654321Z'::offset_timestamp(1)
    WHEN 8 THEN '1969-12-31T23:59:59.987654321Z'::offset_timestamp(8) ELSE '1969-12-31T23:59:59.987654321Z'::offset_timestamp(9) END AS kept
FROM (VALUES (0), (1), (8), (9)) v (d);
SELECT format_type(atttypid, atttypmod) FROM pg_attribute WHERE attrelid = 'digits'::regclass AND attnum > 0 ORDER BY attnum;
CREATE TABLE more_digits (at offset_timestamp(10));
CREATE TABLE two_digits (at offset_timestamp(1, 2));
DROP TABLE digits;
-- the binary form
SELECT offset_timestamp_send('2024-02-28T23:30:00.5-01:00');
SELECT offset_timestamp_send('1969-12-31T23:59:59.000000001+00:01');
