SET TimeZone = 'UTC'; SET DateStyle = 'ISO';
-- the offset of the zone at the instant, by names in letters of any case
SELECT at_zone('2024-03-31T00:59:59.999999999Z', 'Europe/Berlin'), at_zone('2024-03-31T01:00:00Z', 'europe/BERLIN');
SELECT at_zone('2024-11-03T07:59:59+02:00', 'America/New_York'), at_zone('2024-11-03T08:00:00+02:00', 'America/New_York');
SELECT at_zone('2100-07-01T12:00:00Z', 'Australia/Lord_Howe'), at_zone('2024-02-29 12:00:00+00'::timestamptz, 'Asia/Kathmandu');
SELECT at_zone('1880-01-01T00:00:00Z', 'Europe/Berlin'), at_zone('-004712-01-01T12:00:00Z', 'Asia/Tokyo'), at_zone('+999999-07-01T12:00:00Z', 'Europe/Paris');
SELECT zone, at_zone('2024-02-29T12:00:00Z', zone) FROM (VALUES ('UTC'), ('Asia/Kathmandu'), ('UTC'), ('Europe/Berlin'), ('Asia/Kathmandu'), (NULL)) v (zone);
SELECT at_zone('+999999-12-31T23:00:00Z', 'Asia/Tokyo');
SELECT at_zone('-999999-01-01T00:00:00Z', 'America/New_York');
-- names of no zone
SELECT at_zone('2024-02-29T12:00:00Z', 'Europe/Berlinn');
SELECT at_zone('2024-02-29T12:00:00Z', 'Europe');
SELECT at_zone('2024-02-29T12:00:00Z', '../zoneinfo/UTC');
SELECT at_zone('2024-02-29T12:00:00Z', '/etc/localtime');
SELECT at_zone('2024-02-29T12:00:00Z', 'zone.tab');
SELECT at_zone('2024-02-29T12:00:00Z', 'CET-1CEST');
SELECT at_zone('2024-02-29T12:00:00Z', 'right/Europe/Berlin');
SELECT at_zone('2024-02-29T12:00:00Z', '');
SELECT length(at_zone('2024-02-29T12:00:00Z', repeat('Z', 256))::text);
-- the way back: a time that a zone skips, or shows twice, is an error unless a choice says which
SELECT from_local('2024-03-31 01:59:59.999999', 'Europe/Berlin'), from_local('2024-03-31 03:00', 'europe/berlin'), from_local('2024-07-01'::date, 'America/New_York');
SELECT from_local('2024-03-31 02:30', 'Europe/Berlin');
SELECT from_local('2024-10-27 02:30', 'Europe/Berlin');
SELECT from_local('2024-10-27 02:30', 'Europe/Berlin', 'reject');
SELECT c, from_local('2024-03-31 02:30', 'Europe/Berlin', c) AS gap, from_local('2024-10-27 02:30', 'Europe/Berlin', c) AS fold FROM (VALUES ('compatible'), ('EARLIER'), ('later'), (NULL)) v (c);
SELECT from_local('2024-10-27 02:30', 'Europe/Berlin', 'soon');
SELECT from_local('infinity', 'Europe/Berlin');
SELECT from_local('2024-10-27 02:30', 'nowhere');
SELECT from_local(now(), 'Europe/Berlin');
-- one answer in a statement, since the files may change later: no index holds the offset of a zone
SELECT proname, provolatile, proisstrict, proparallel FROM pg_proc WHERE proname IN ('at_zone', 'from_local');
SELECT at_zone('2024-07-01T12:00:00Z', 'EUROPE/Berlin');
CREATE TABLE zoned (at offset_timestamp);
CREATE INDEX zoned_by_day ON zoned (local_date(at_zone(at, 'Europe/Berlin')));
DROP TABLE zoned;
