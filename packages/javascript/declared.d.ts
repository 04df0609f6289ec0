// Made by make/declarations from packages/c/interface.json. Do not edit.

/** The name of what is refused. */
export type RefusalName =
    | "CHOICE"
    | "DATE"
    | "KIND"
    | "LENGTH"
    | "ZONE_NAME"
    /** A year before -999999 or after 999999. */
    | "YEAR"
    /** A month that is not 1 to 12. */
    | "MONTH"
    /** A day that is not 1 to 31. */
    | "DAY"
    /** A day of 1 to 31 that its month does not have in its year. */
    | "DAY_OF_MONTH"
    /** A day of the year that is not 1 to 366. */
    | "ORDINAL"
    /** Day 366 of a year that has 365. */
    | "ORDINAL_OF_YEAR"
    /** An ISO week that is not 1 to 53. */
    | "WEEK"
    /** Week 53 of an ISO year that has 52. */
    | "WEEK_OF_YEAR"
    /** A number that is not a day of the week. */
    | "WEEKDAY"
    /** An hour that is not 0 to 23. */
    | "HOUR"
    /** A minute that is not 0 to 59. */
    | "MINUTE"
    /** A second that is not 0 to 59. */
    | "SECOND"
    /** A nanosecond that is not 0 to 999999999. */
    | "NANOSECOND"
    /** An offset that is not -93599 to 93599 seconds, or whose part in seconds is not -59 to 59. */
    | "OFFSET_SECONDS"
    /**
     * A Unix second, or a count of another unit from 1970-01-01, outside the range of timestamps.
     */
    | "TIMESTAMP"
    /**
     * A day number that is not -365961662 to 364522971, or a Julian day outside the range of dates.
     */
    | "DAY_NUMBER"
    /** A duration whose whole seconds do not fit in 64 bits. */
    | "DURATION"
    /**
     * A number that is not a unit, not a part of a date-time, or not a kind, a version or an item
     * of a format description.
     */
    | "UNIT"
    /** A result that is outside the range, or that its type cannot hold. */
    | "RESULT"
    /** A buffer that is too short for what the call writes. */
    | "BUFFER"
    /** A span that does not lie in the block of texts. */
    | "SPAN"
    /** A text that does not have the form that the call reads, such as a date-time of RFC 3339. */
    | "SYNTAX"
    /**
     * Hours of an offset that are out of range: above 23 in a text of RFC 3339, not -25 to 25
     * elsewhere.
     */
    | "OFFSET_HOUR"
    /** Minutes of an offset that are not -59 to 59. */
    | "OFFSET_MINUTE"
    /**
     * A value that has no such text, as in RFC 3339 a year outside 0 to 9999, or an offset with
     * seconds or beyond 23:59.
     */
    | "NO_TEXT"
    /**
     * Numbers that are no time zone: a part is out of range, or a transition or the rule does not
     * follow.
     */
    | "ZONE"
    /** A wall clock that no instant has, since a time zone puts its clocks forward past it. */
    | "GAP"
    /** A wall clock that two instants have, since a time zone puts its clocks back over it. */
    | "FOLD";

/** A unit to round down to. */
export type Unit = "day" | "hour" | "minute" | "second" | "millisecond" | "microsecond" | "nanosecond";

/** The parts of a date-time that a description reads. */
export type Kind = "offsetDateTime" | "plainDateTime" | "date" | "time" | "utcOffset";

/** Which date-time of a time zone a wall clock names. */
export type Disambiguation = "compatible" | "earlier" | "later" | "reject";

/** The name of a reason of an error of a description or a time zone. */
export type ReasonName =
    /** A `[` without its `]`. */
    | "NO_END"
    /** A `[` that no name follows. */
    | "NO_NAME"
    /** A `[` inside the brackets of a component. */
    | "NESTED_BRACKET"
    /** A name of no component. */
    | "UNKNOWN_COMPONENT"
    /** A name that is no modifier of its component. */
    | "UNKNOWN_MODIFIER"
    /** A value that the modifier does not have. */
    | "WRONG_VALUE"
    /** A component without a modifier that it needs, such as the count of `ignore`. */
    | "MISSING_MODIFIER"
    /** A backslash before another byte than `[`, `]` and a backslash. */
    | "WRONG_ESCAPE"
    /** An `optional` or `first` without a description in brackets. */
    | "NO_GROUP"
    /** Something else than a description in brackets after `optional` or `first`. */
    | "WRONG_GROUP"
    /** More than 32 groups inside each other. */
    | "TOO_DEEP"
    /** An item, or its text, for which the caller has no room. */
    | "NO_ROOM"
    /** A component that has no name in the language of descriptions. */
    | "NO_TEXT"
    /** The count 0 of `ignore`. */
    | "NO_COUNT"
    /** A `]` in a group, for which version 1 has no text. */
    | "NO_ESCAPE"
    /** A group in place of another that is not there. */
    | "NO_FIRST"
    /** A group of more items than the description, or the group around it, has. */
    | "PAST_END"
    /** The year, -999999 to 999999. */
    | "YEAR"
    /** The year without its last two digits. */
    | "YEAR_CENTURY"
    /** The last two digits of the year. */
    | "YEAR_LAST_TWO"
    /** The year of the ISO week. */
    | "ISO_YEAR"
    /** The year of the ISO week without its last two digits. */
    | "ISO_YEAR_CENTURY"
    /** The last two digits of the year of the ISO week. */
    | "ISO_YEAR_LAST_TWO"
    /** The month, 1 to 12. */
    | "MONTH"
    /** The day of the month, 1 to 31. */
    | "DAY"
    /** The day of the year, 1 to 366. */
    | "ORDINAL"
    /** The day of the week. */
    | "WEEKDAY"
    /** The ISO week, 1 to 53. */
    | "ISO_WEEK"
    /** The week by the Sundays of the year, 0 to 53. */
    | "SUNDAY_WEEK"
    /** The week by the Mondays of the year, 0 to 53. */
    | "MONDAY_WEEK"
    /** The hour of the day, 0 to 23. */
    | "HOUR"
    /** The hour on a clock of 12 hours, 1 to 12. */
    | "HOUR12"
    /** The half of the day. */
    | "PERIOD"
    /** The minute, 0 to 59. */
    | "MINUTE"
    /** The second, 0 to 59. */
    | "SECOND"
    /** The fraction of the second. */
    | "SUBSECOND"
    /** The hours of the offset, -25 to 25. */
    | "OFFSET_HOUR"
    /** The minutes of the offset, 0 to 59. */
    | "OFFSET_MINUTE"
    /** The seconds of the offset, 0 to 59. */
    | "OFFSET_SECOND"
    /** The Unix time in seconds, -31619087596800 to 31494784780799. */
    | "UNIX_SECOND"
    /** The Unix time in milliseconds, -31619087596800000 to 31494784780799999. */
    | "UNIX_MILLISECOND"
    /** The Unix time in microseconds, -31619087596800000000 to 31494784780799999999. */
    | "UNIX_MICROSECOND"
    /** The Unix time in nanoseconds, -31619087596800000000000 to 31494784780799999999999. */
    | "UNIX_NANOSECOND"
    /** A file of a time zone that ends before the end of a header, of a block or of its rule. */
    | "FILE_LENGTH"
    /** A header of a file of a time zone that does not begin with `TZif`. */
    | "FILE_MAGIC"
    /**
     * A version of a file of a time zone that is none of 1 to 4, or another one in its second
     * header.
     */
    | "FILE_VERSION"
    /** A file of a time zone without a kind of local time, or without an abbreviation. */
    | "FILE_COUNT"
    /** An offset of a kind of local time that is out of range. */
    | "FILE_OFFSET"
    /** A mark of daylight saving time that is neither 0 nor 1. */
    | "FILE_DAYLIGHT"
    /** An abbreviation that begins past the end of their list. */
    | "FILE_DESIGNATION"
    /** A list of abbreviations that does not end with a zero byte. */
    | "FILE_NAMES"
    /** A transition to a kind of local time that the file does not have. */
    | "FILE_INDEX"
    /** A rule in a file that does not begin with a new line. */
    | "FILE_FOOTER"
    /** A text without a name where a rule has one. */
    | "RULE_NAME"
    /** A text without a digit where a rule has a number. */
    | "RULE_DIGIT"
    /** A number of a rule with too few digits or too many, or out of range. */
    | "RULE_RANGE"
    /** Another byte than the one that must follow in a rule, or a byte after it. */
    | "RULE_BYTE"
    /** A transition that is out of range, or does not follow the one before it. */
    | "ZONE_TRANSITION"
    /** A rule that overlaps itself in some year, or does not follow the last transition. */
    | "ZONE_RULE"
    /** More than 512 transitions of a time zone. */
    | "ZONE_SIZE"
    /** A header of a file of a time zone that counts leap seconds, which Unix time has not. */
    | "FILE_LEAP_SECONDS";
