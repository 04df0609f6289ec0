SET TimeZone = 'UTC'; SET DateStyle = 'ISO';
-- written as PostgreSQL's to_char writes the clocks
SELECT offset_timestamp_format(at, '[day].[month].[year] [hour]:[minute]:[second].[subsecond digits:9] [offset_hour sign:mandatory]:[offset_minute]') AS whole,
    offset_timestamp_format(at, '[weekday], [day padding:none] [month repr:long] [year]') = to_char(shown, 'FMDay, FMDD FMMonth YYYY') AS is_theirs
FROM (VALUES ('2024-02-09T23:30:00.000000001-01:00'::offset_timestamp, '2024-02-09'::timestamp), ('0001-01-01T00:00:00Z', '0001-01-01'), ('9999-12-31T23:59:59+23:59', '9999-12-31')) v (at, shown);
SELECT offset_timestamp_format('2024-02-29 12:00:00+00'::timestamptz, '[unix_timestamp precision:millisecond]'), offset_timestamp_format('2024-02-29T12:00:00Z', '') = '' AS is_empty, offset_timestamp_format('2024-02-29T12:00:00Z', NULL) IS NULL AS is_null;
SELECT offset_timestamp_format('2024-02-29T12:00:00Z', '\[[year]\]') AS escaped;
SELECT offset_timestamp_format('2024-02-29T12:00:00Z', '[day].[mont]');
SELECT offset_timestamp_format('2024-02-29T12:00:00Z', '[day');
SELECT offset_timestamp_format('2024-02-29T12:00:00Z', chr(228) || ' [day]');
SELECT offset_timestamp_format('2024-02-29T12:00:00Z', repeat('-', 62) || '[day]'), offset_timestamp_format('2024-02-29T12:00:00Z', repeat('-', 63) || '[day]');
SELECT offset_timestamp_format('2024-02-29T12:00:00Z', repeat('[day]', 129));
-- read, with an offset, at an offset, and of Unix time
SELECT offset_timestamp_parse('Thu, 29 Feb 2024 23:30:00 -0100', '[weekday repr:short], [day] [month repr:short] [year] [hour]:[minute]:[second] [offset_hour sign:mandatory][offset_minute]');
SELECT o, offset_timestamp_parse('29.02.2024 23:30', '[day].[month].[year] [hour]:[minute]', o) FROM (VALUES ('+02:00'), ('-23:59'), ('Z')) v (o);
SELECT offset_timestamp_parse('29.02.2024 23:30 -01:00', '[day].[month].[year] [hour]:[minute] [offset_hour sign:mandatory]:[offset_minute]', '+02:00') AS its_own,
    offset_timestamp_parse('1709193896', '[unix_timestamp]') AS unix, offset_timestamp_parse('1709193896', '[unix_timestamp]', '+02:00') AS also;
SELECT offset_timestamp_parse('29.02.2024 23:30', '[day].[month].[year] [hour]:[minute]');
SELECT offset_timestamp_parse('29.02.2024', '[day].[month].[year]', 'Z');
SELECT offset_timestamp_parse('29.02.2024 23-30', '[day].[month].[year] [hour]:[minute]', 'Z');
SELECT offset_timestamp_parse('29.02.2024 23:30 ', '[day].[month].[year] [hour]:[minute]', 'Z');
SELECT offset_timestamp_parse('29.02.2023 23:30', '[day].[month].[year] [hour]:[minute]', 'Z');
SELECT offset_timestamp_parse('29.02.2024 23:30', '[day].[mont]', 'Z');
SELECT offset_timestamp_parse('29.02.2024 23:30', '[day].[month].[year] [hour]:[minute]', '+26:00');
SELECT offset_timestamp_parse('29.02.2024 23:30', '[day].[month].[year] [hour]:[minute]', 'Europe/Paris');
SELECT offset_timestamp_parse('-253402300800', '[unix_timestamp]');
-- what is read back is what was written
SELECT bool_and(offset_timestamp_parse(offset_timestamp_format(at, form), form) === at) AS reads_back, count(*)
FROM generate_series('2023-12-30T00:00:00.000000001+05:30'::offset_timestamp, '2024-03-02T00:00:00Z', '7 hours 11 minutes') AS at,
    (VALUES ('[ordinal]/[year] [hour repr:12]:[minute]:[second].[subsecond] [period] [offset_hour sign:mandatory][offset_minute]'),
        ('[year base:iso_week]-W[week_number]-[weekday repr:monday]T[hour]:[minute]:[second].[subsecond digits:9][offset_hour sign:mandatory]:[offset_minute]')) v (form);
-- an import
SELECT word, offset_timestamp_parse_or_null(word, '[day].[month].[year] [hour]:[minute]', '+01:00') AS at, offset_timestamp_parse_or_null(word, '[day].[month].[year] [hour]:[minute]') AS without
FROM (VALUES ('29.02.2024 23:30'), ('29.02.2023 23:30'), ('yesterday'), (''), (NULL)) v (word);
SELECT offset_timestamp_parse_or_null('-99999999999999', '[unix_timestamp]') IS NULL AS out_of_range;
SELECT offset_timestamp_parse_or_null('+999999-12-31 23:59:59', '[year]-[month]-[day] [hour]:[minute]:[second]', '-00:01') IS NULL AS out_of_range, offset_timestamp_parse_or_null('+999999-12-31 23:59:59', '[year]-[month]-[day] [hour]:[minute]:[second]', 'Z') AS last;
SELECT offset_timestamp_parse_or_null('29.02.2024 23:30', '[dag]');
