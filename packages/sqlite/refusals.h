/* The refusals of muxandu.h, by their numbers.
 * Made by make/declarations from packages/c/interface.json. Do not edit. */
typedef struct Refusal {
    const char *name;
    const char *meaning;
} Refusal;

static const Refusal REFUSALS[] = {
    [MUXANDU_REFUSED_YEAR] =
        {"YEAR", "A year before -999999 or after 999999."},
    [MUXANDU_REFUSED_MONTH] =
        {"MONTH", "A month that is not 1 to 12."},
    [MUXANDU_REFUSED_DAY] =
        {"DAY", "A day that is not 1 to 31."},
    [MUXANDU_REFUSED_DAY_OF_MONTH] =
        {"DAY_OF_MONTH", "A day of 1 to 31 that its month does not have in its year."},
    [MUXANDU_REFUSED_ORDINAL] =
        {"ORDINAL", "A day of the year that is not 1 to 366."},
    [MUXANDU_REFUSED_ORDINAL_OF_YEAR] =
        {"ORDINAL_OF_YEAR", "Day 366 of a year that has 365."},
    [MUXANDU_REFUSED_WEEK] =
        {"WEEK", "An ISO week that is not 1 to 53."},
    [MUXANDU_REFUSED_WEEK_OF_YEAR] =
        {"WEEK_OF_YEAR", "Week 53 of an ISO year that has 52."},
    [MUXANDU_REFUSED_WEEKDAY] =
        {"WEEKDAY", "A number that is not a day of the week."},
    [MUXANDU_REFUSED_HOUR] =
        {"HOUR", "An hour that is not 0 to 23."},
    [MUXANDU_REFUSED_MINUTE] =
        {"MINUTE", "A minute that is not 0 to 59."},
    [MUXANDU_REFUSED_SECOND] =
        {"SECOND", "A second that is not 0 to 59."},
    [MUXANDU_REFUSED_NANOSECOND] =
        {"NANOSECOND", "A nanosecond that is not 0 to 999999999."},
    [MUXANDU_REFUSED_OFFSET_SECONDS] =
        {"OFFSET_SECONDS", "An offset that is not -93599 to 93599 seconds, or whose part in seconds is not -59 to 59."},
    [MUXANDU_REFUSED_TIMESTAMP] =
        {"TIMESTAMP", "A Unix second, or a count of another unit from 1970-01-01, outside the range of timestamps."},
    [MUXANDU_REFUSED_DAY_NUMBER] =
        {"DAY_NUMBER", "A day number that is not -365961662 to 364522971, or a Julian day outside the range of dates."},
    [MUXANDU_REFUSED_DURATION] =
        {"DURATION", "A duration whose whole seconds do not fit in 64 bits."},
    [MUXANDU_REFUSED_UNIT] =
        {"UNIT", "A number that is not a unit, not a part of a date-time, or not a kind, a version or an item of a format description."},
    [MUXANDU_REFUSED_RESULT] =
        {"RESULT", "A result that is outside the range, or that its type cannot hold."},
    [MUXANDU_REFUSED_BUFFER] =
        {"BUFFER", "A buffer that is too short for what the call writes."},
    [MUXANDU_REFUSED_SPAN] =
        {"SPAN", "A span that does not lie in the block of texts."},
    [MUXANDU_REFUSED_SYNTAX] =
        {"SYNTAX", "A text that does not have the form that the call reads, such as a date-time of RFC 3339."},
    [MUXANDU_REFUSED_OFFSET_HOUR] =
        {"OFFSET_HOUR", "Hours of an offset that are out of range: above 23 in a text of RFC 3339, not -25 to 25 elsewhere."},
    [MUXANDU_REFUSED_OFFSET_MINUTE] =
        {"OFFSET_MINUTE", "Minutes of an offset that are not -59 to 59."},
    [MUXANDU_REFUSED_NO_TEXT] =
        {"NO_TEXT", "A value that has no such text, as in RFC 3339 a year outside 0 to 9999, or an offset with seconds or beyond 23:59."},
    [MUXANDU_REFUSED_ZONE] =
        {"ZONE", "Numbers that are no time zone: a part is out of range, or a transition or the rule does not follow."},
    [MUXANDU_REFUSED_GAP] =
        {"GAP", "A wall clock that no instant has, since a time zone puts its clocks forward past it."},
    [MUXANDU_REFUSED_FOLD] =
        {"FOLD", "A wall clock that two instants have, since a time zone puts its clocks back over it."},
};
