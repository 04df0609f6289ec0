-- Prints each line of a log with its timestamp at the offset +02:00, or the name of the error in the timestamp.
CREATE TABLE log (line TEXT);
.separator "\t" "\n"
.import log.txt log

SELECT coalesce(muxandu_to_offset_or_null(stamp, 7200) || rest, muxandu_refused(stamp) || ': ' || line)
FROM (SELECT line, substr(line, 1, instr(line, ' ') - 1) AS stamp, substr(line, instr(line, ' ')) AS rest FROM log);
