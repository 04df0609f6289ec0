-- Each call where SQLite takes only what is deterministic, and in a schema that is not trusted only what is innocuous. What
-- sqlite3 prints of this file, once the extension is loaded, is schema.expected.
PRAGMA trusted_schema = OFF;

CREATE TABLE log (
    at TEXT NOT NULL CHECK (muxandu_unix(at) IS NOT NULL AND muxandu_refused(at) IS NULL),
    until TEXT DEFAULT (muxandu_text(0, 3600, 500000000)) CHECK (muxandu_compare(at, until) < 0),
    unix INTEGER GENERATED ALWAYS AS (muxandu_unix(at)) STORED,
    unix_or_null INTEGER GENERATED ALWAYS AS (muxandu_unix_or_null(until)) VIRTUAL,
    in_utc TEXT GENERATED ALWAYS AS (muxandu_text(muxandu_unix(at))) VIRTUAL,
    next_day TEXT GENERATED ALWAYS AS (muxandu_add(at, 1, 'day')) STORED,
    there TEXT GENERATED ALWAYS AS (muxandu_to_offset_or_null(at, 19800)) VIRTUAL,
    local_day TEXT GENERATED ALWAYS AS (muxandu_local_date(at)) STORED,
    quarter TEXT GENERATED ALWAYS AS (muxandu_bin(at, 15, 'minutes', '2000-01-01T00:00:00Z')) VIRTUAL,
    shown TEXT GENERATED ALWAYS AS (muxandu_format(at, '[day].[month].[year]')) VIRTUAL,
    read_back TEXT GENERATED ALWAYS AS (muxandu_parse(shown || ' 00:00', '[day].[month].[year] [hour]:[minute]', 0)) VIRTUAL,
    in_iso TEXT GENERATED ALWAYS AS (muxandu_to_iso(muxandu_from_iso(at))) VIRTUAL,
    hours INTEGER GENERATED ALWAYS AS (muxandu_difference_or_null(until, at, 'hours')) STORED
);
CREATE INDEX log_by_instant ON log (muxandu_sortable(at));
CREATE INDEX log_by_day ON log (local_day, muxandu_truncate(at, 'week'));
CREATE INDEX log_by_end ON log (muxandu_sortable_or_null(until)) WHERE muxandu_difference(until, at) > 3600;
CREATE UNIQUE INDEX log_by_text ON log (muxandu_to_offset(at, 0), muxandu_text_or_null(unix));
CREATE INDEX log_by_sum ON log (muxandu_add_or_null(at, 1), muxandu_compare_or_null(at, until));
CREATE VIEW days AS
    SELECT log.rowid AS line, year, month, day, iso_week FROM log, muxandu_parts(log.at)
    UNION ALL
    SELECT -log.rowid, year, month, day, iso_week FROM log, muxandu_parts_or_null(log.until, 19800);
CREATE TABLE seen (unix INTEGER, refused TEXT);
CREATE TRIGGER log_seen AFTER INSERT ON log BEGIN
    INSERT INTO seen VALUES (muxandu_unix_or_null(new.until), muxandu_refused(new.until));
END;

INSERT INTO log (at, until) VALUES ('2024-02-29T01:15:00.5+01:00', '2024-02-29T12:00:00Z');
INSERT INTO log (at, until) VALUES ('1969-12-31T23:59:59Z', NULL);
INSERT INTO log (at) VALUES ('1970-01-01T00:00:00Z');
.print what is refused
INSERT INTO log (at) VALUES ('2023-02-29T00:00:00Z');
INSERT INTO log (at, until) VALUES ('2024-01-01T00:00:00Z', '2024-01-01T01:00:00+02:00');
INSERT INTO log (at, until) VALUES ('2024-01-01T00:00:00Z', 'tomorrow');
INSERT INTO log (at, until) VALUES ('2024-02-29T00:15:00.5Z', '2025-01-01T00:00:00Z');
INSERT INTO log (at, until) VALUES ('9999-12-31T23:00:00Z', NULL);
.print what is not deterministic, and reads files
CREATE INDEX log_by_zone ON log (muxandu_at_zone(at, 'Europe/Berlin'));
CREATE VIEW berlin AS SELECT muxandu_at_zone(at, 'Europe/Berlin') AS there FROM log;
SELECT there FROM berlin;
PRAGMA trusted_schema = ON;
SELECT there FROM berlin;
PRAGMA trusted_schema = OFF;
.print what is held
SELECT * FROM log;
SELECT * FROM days;
SELECT * FROM seen;
SELECT p.day, q.hour FROM log
    JOIN muxandu_parts AS p ON p.of_text = log.at
    JOIN muxandu_parts AS q ON q.of_text = p.of_text AND q.at_offset = p.day * 600
    ORDER BY log.rowid;
EXPLAIN QUERY PLAN SELECT count(*) FROM log WHERE local_day = '2024-02-29';
.print parts before the rows of another table, which are many to one text
CREATE TABLE shifts (day TEXT, month INTEGER);
CREATE INDEX shifts_by_day ON shifts (day);
EXPLAIN QUERY PLAN SELECT count(*) FROM log, shifts, muxandu_parts(log.at) AS parts
    WHERE shifts.day = log.local_day AND parts.month = shifts.month AND parts.year = 2024;
EXPLAIN QUERY PLAN SELECT at FROM log WHERE muxandu_sortable(at) > '1970' ORDER BY muxandu_sortable(at);
EXPLAIN QUERY PLAN SELECT at FROM log WHERE muxandu_difference(until, at) > 3600 AND muxandu_sortable_or_null(until) > '2000';
PRAGMA integrity_check;
