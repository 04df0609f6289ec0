-- casts from and to numeric: all nanoseconds, or an error
SELECT d, d::numeric, seconds(d), date_part('epoch', d), d::numeric::exact_duration = d AS is_back
FROM (VALUES ('9223372036854775807.999999999'::exact_duration), ('-9223372036854775808.999999999'), ('-0.000000001'), ('0'), ('1 day')) v (d);
SELECT n, n::exact_duration FROM (VALUES (1.50), (1.500000000000000000000000000000000000000), (-0.000000001), (0.000000000000000)) v (n);
SELECT 3600::exact_duration AS hour, (-9223372036854775808)::bigint::exact_duration AS least, exact_duration(90) AS as_call;
SELECT 0.0000000001::exact_duration;
SELECT 'NaN'::numeric::exact_duration;
SELECT 'Infinity'::numeric::exact_duration;
SELECT 9223372036854775808::numeric::exact_duration;
SELECT 1e300::exact_duration;
SELECT date_part('EPOCH', '1.5'::exact_duration), date_part('epoch', '-1.5'::exact_duration);
SELECT extract(epoch FROM '-1.5'::exact_duration), extract(epoch FROM '0.000000001'::exact_duration), extract(epoch FROM '1 day'::exact_duration);
SELECT extract(day FROM '1 day'::exact_duration);
SELECT date_part('day', '1.5'::exact_duration);
-- products are exact or an error, and of numbers of any type that is a numeric
SELECT d * 2 AS twice, 2 * d AS as_well, d * 0 AS none, d * -1.5 AS back, d * 3::bigint AS of_bigint, 3::smallint * d AS of_smallint, d * '2' AS of_text
FROM (VALUES ('-0.000000002'::exact_duration), ('1 day')) v (d);
SELECT '0.000000001'::exact_duration * 0.5;
SELECT '9223372036854775807'::exact_duration * 1.0000000000000000001;
SELECT '4611686018427387904'::exact_duration * 2;
SELECT '-4611686018427387904.5'::exact_duration * 2;
SELECT '1'::exact_duration * 'NaN';
-- quotients drop what is below a nanosecond, of either sign
SELECT d / 2 AS half, d / -3 AS third_back, d / 0.5 AS twice, d / 1e30 AS none
FROM (VALUES ('0.000000003'::exact_duration), ('-0.000000003'), ('1 day')) v (d);
SELECT '9223372036854775807.999999999'::exact_duration / 2, '9223372036854775807.999999999'::exact_duration / 1000000000000000000000000000;
SELECT '1'::exact_duration / 0;
SELECT '1'::exact_duration / 'NaN';
SELECT '9223372036854775807'::exact_duration / 0.5;
-- beside what PostgreSQL says of intervals and of their seconds as numbers
SELECT span, n, seconds(d) = extract(epoch FROM span) AS seconds, (d * n)::interval = span * n AS product, (n * d)::interval = n * span AS as_well,
    seconds(d * n) = extract(epoch FROM span) * n AS seconds_of_product, seconds(d / n) = div(extract(epoch FROM span) * 1000000000, n) * 0.000000001 AS quotient
FROM (VALUES (interval '1 day 02:03:04.5'), ('-00:00:00.000008'), ('-1 day 1 second'), ('00:00:00')) v (span), (VALUES (3), (-7), (0.5), (-1.25)) w (n), LATERAL (SELECT span::exact_duration) s (d)
ORDER BY span, n;
-- avg, of no values, of NULL, rounded towards zero, in groups, over frames that move, and in parallel
SELECT avg(d), avg(d) FILTER (WHERE d > '1 day') AS of_none FROM (VALUES ('1'::exact_duration), (NULL), ('2')) v (d);
SELECT avg(d), avg(-d) AS back FROM (VALUES ('0.000000001'::exact_duration), ('0.000000001'), ('0')) v (d);
SELECT avg(d) FROM (VALUES ('9223372036854775807'::exact_duration), ('-9223372036854775808'), ('1')) v (d);
SELECT avg(d) FROM (VALUES ('9223372036854775807'::exact_duration), ('1')) v (d);
CREATE TABLE lengths AS SELECT id, ((id * 7919) % 1000003) * interval '1 microsecond' - interval '0.5 seconds' AS span, (((id * 7919) % 1000003) * interval '1 microsecond' - interval '0.5 seconds')::exact_duration AS took
FROM generate_series(1, 20000) id;
SELECT count(*) AS groups, bool_and(seconds(mean) = div(total * 1000000000, rows) * 0.000000001) AS are_means, bool_and(abs(seconds(mean) - extract(epoch FROM of_intervals)) < 0.000001) AS near_intervals
FROM (SELECT avg(took) AS mean, sum(extract(epoch FROM span)) AS total, count(*) AS rows, avg(span) AS of_intervals FROM lengths GROUP BY id % 97) s;
SELECT count(*) AS rows, bool_and(moved IS NOT DISTINCT FROM summed) AS are_equal
FROM (SELECT avg(took) OVER (ORDER BY id ROWS BETWEEN 3 PRECEDING AND 1 FOLLOWING) AS moved,
    (SELECT avg(took) FROM lengths b WHERE b.id BETWEEN a.id - 3 AND least(a.id + 1, 200)) AS summed FROM lengths a WHERE id <= 200) s;
SELECT bool_and(mean IS NULL = (id = 1)) AS none_before_the_first FROM (SELECT id, avg(took) OVER (ORDER BY id ROWS BETWEEN 2 PRECEDING AND 1 PRECEDING) AS mean FROM lengths WHERE id < 9) s;
SELECT seconds(avg(took)) = (SELECT div(sum(extract(epoch FROM span)) * 1000000000, count(*)) * 0.000000001 FROM lengths) AS is_mean FROM lengths;
SET parallel_setup_cost = 0; SET parallel_tuple_cost = 0; SET min_parallel_table_scan_size = 0;
EXPLAIN (COSTS OFF) SELECT avg(took) FROM lengths;
SELECT seconds(avg(took)) = (SELECT div(sum(extract(epoch FROM span)) * 1000000000, count(*)) * 0.000000001 FROM lengths) AS is_mean FROM lengths;
RESET parallel_setup_cost; RESET parallel_tuple_cost; RESET min_parallel_table_scan_size;
DROP TABLE lengths;
-- what avg has seen is two durations
SELECT exact_duration_mean('{3,2}'), exact_duration_enter('{3,2}', '1'), exact_duration_combine('{3,2}', '{4,5}');
SELECT exact_duration_mean('{3}');
SELECT exact_duration_mean('{3,NULL}');
SELECT exact_duration_combine('{3,2}', '{{3,2}}');
-- a duration without its sign; abs would make abs('1') an error of others
SELECT d, magnitude(d) FROM (VALUES ('-1.5'::exact_duration), ('1.5'), ('0'), ('-0.000000001'), ('9223372036854775807.999999999'), (NULL)) v (d);
SELECT magnitude('-9223372036854775808'), abs('-1');
SELECT avg(magnitude(d)), max(magnitude(d)) FROM (VALUES ('-1'::exact_duration), ('2')) v (d);
