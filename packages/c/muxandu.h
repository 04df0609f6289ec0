/* SPDX-License-Identifier: MIT OR Apache-2.0
 *
 * Dates and times, proved: the calls of the Rattle crate muxandu_c.
 * Made by make/bindings from crates/muxandu_c/src. Do not edit.
 *
 * Your duties, which nothing checks:
 * - no pointer is NULL, except one to items whose count is 0, and each is aligned for its type;
 * - a pointer to items has as many items as the count after it, of at most PTRDIFF_MAX bytes
 *   together;
 * - during the call nothing else reaches the memory of a pointer that is not const: no other
 *   pointer overlaps it, and no other thread reads or writes it. Nothing writes the memory of a
 *   const pointer during the call;
 * - the library is not older than these declarations: muxandu_version() is at least
 *   MUXANDU_VERSION.
 * A field may have any number: each call tests those that it reads. Structs go in by value, so the
 * result may replace one of them, as in muxandu_date_time_to_offset(at, 0, &at). A struct has
 * bytes between its fields, or after them: compare fields, not bytes.
 *
 * A call keeps nothing, shares nothing, takes no memory, waits for nothing and ends. You may call
 * it from any thread, at the same time as others, from a signal handler and after fork. It takes at
 * most MUXANDU_STACK bytes of stack.
 *
 * A call that returns a status returns 0, MUXANDU_OK, if it has written its result. Otherwise it
 * returns the number of an error, whose name begins with MUXANDU_REFUSED_, and leaves 'out' as it
 * was. A call that returns a MuxanduBatch has written as many items as it counts, and leaves the
 * rest of 'out' as it was.
 *
 * As long as the library is libmuxandu.so.0, these stay: names, numbers, structs, and the
 * parameters and results of calls. A later version adds calls, constants and statuses, with
 * numbers after those of this version. A name that will go first has the attribute 'deprecated',
 * for one year and one version at least. The attribute names its successor. The name goes only if
 * the number of the library goes up.
 */
#ifndef MUXANDU_H
#define MUXANDU_H

#include <stddef.h>
#include <stdint.h>

#ifdef __cplusplus
extern "C" {
#endif

#if !defined(__cplusplus) && defined(__STDC_VERSION__) && __STDC_VERSION__ >= 199901L
#define MUXANDU_RESTRICT restrict
#else
#define MUXANDU_RESTRICT __restrict
#endif
#if defined(__cplusplus) || (defined(__STDC_VERSION__) && __STDC_VERSION__ >= 199901L)
#define MUXANDU_INLINE static inline
#elif defined(__GNUC__)
#define MUXANDU_INLINE static __inline__
#else
#define MUXANDU_INLINE static
#endif
#ifdef __cplusplus
#define MUXANDU_CAST(type, value) static_cast<type>(value)
#else
#define MUXANDU_CAST(type, value) ((type)(value))
#endif
#if (defined(__cplusplus) && __cplusplus >= 201103L) || (defined(__STDC_VERSION__) && __STDC_VERSION__ >= 202311L)
#define MUXANDU_ENUM(name) enum name : uint32_t
#else
#define MUXANDU_ENUM(name) enum name
#endif
#if (defined(__cplusplus) && __cplusplus >= 201703L) || (defined(__STDC_VERSION__) && __STDC_VERSION__ >= 202311L)
#define MUXANDU_NODISCARD [[nodiscard]]
#elif defined(__clang__)
#define MUXANDU_NODISCARD __attribute__((warn_unused_result))
#elif defined(__GNUC__) && __GNUC__ >= 10 && !defined(__cplusplus) && !defined(__INTEL_COMPILER) && !defined(__TINYC__)
#define MUXANDU_NODISCARD __extension__ [[nodiscard]]
#else
#define MUXANDU_NODISCARD
#endif
#if defined(__GNUC__)
#define MUXANDU_NONNULL(places) __attribute__((nonnull places))
#else
#define MUXANDU_NONNULL(places)
#endif
#if defined(__cplusplus) && (__cplusplus >= 201103L || defined(_MSC_VER))
#define MUXANDU_NOEXCEPT noexcept
#elif defined(__cplusplus)
#define MUXANDU_NOEXCEPT throw()
#else
#define MUXANDU_NOEXCEPT
#endif
#if defined(_WIN32) && defined(MUXANDU_DLL) && defined(MUXANDU_BUILD)
#define MUXANDU_API __declspec(dllexport)
#elif defined(_WIN32) && defined(MUXANDU_DLL)
#define MUXANDU_API __declspec(dllimport)
#else
#define MUXANDU_API
#endif

/* The error of a call. Its status is this number, or 0 if it succeeds. The comment of each call
 * lists its errors in the order of its tests; it returns the first. */
typedef MUXANDU_ENUM(MuxanduStatusCode) {
    /* Nothing is refused. */
    MUXANDU_OK = 0,
    /* A year before -999999 or after 999999. */
    MUXANDU_REFUSED_YEAR = 1,
    /* A month that is not 1 to 12. */
    MUXANDU_REFUSED_MONTH = 2,
    /* A day that is not 1 to 31. */
    MUXANDU_REFUSED_DAY = 3,
    /* A day of 1 to 31 that its month does not have in its year. */
    MUXANDU_REFUSED_DAY_OF_MONTH = 4,
    /* A day of the year that is not 1 to 366. */
    MUXANDU_REFUSED_ORDINAL = 5,
    /* Day 366 of a year that has 365. */
    MUXANDU_REFUSED_ORDINAL_OF_YEAR = 6,
    /* An ISO week that is not 1 to 53. */
    MUXANDU_REFUSED_WEEK = 7,
    /* Week 53 of an ISO year that has 52. */
    MUXANDU_REFUSED_WEEK_OF_YEAR = 8,
    /* A number that is not a day of the week. */
    MUXANDU_REFUSED_WEEKDAY = 9,
    /* An hour that is not 0 to 23. */
    MUXANDU_REFUSED_HOUR = 10,
    /* A minute that is not 0 to 59. */
    MUXANDU_REFUSED_MINUTE = 11,
    /* A second that is not 0 to 59. */
    MUXANDU_REFUSED_SECOND = 12,
    /* A nanosecond that is not 0 to 999999999. */
    MUXANDU_REFUSED_NANOSECOND = 13,
    /* An offset that is not -93599 to 93599 seconds, or whose part in seconds is not -59 to 59. */
    MUXANDU_REFUSED_OFFSET_SECONDS = 14,
    /* A Unix second, or a count of another unit from 1970-01-01, outside the range of
     * timestamps. */
    MUXANDU_REFUSED_TIMESTAMP = 15,
    /* A day number that is not -365961662 to 364522971, or a Julian day outside the range of
     * dates. */
    MUXANDU_REFUSED_DAY_NUMBER = 16,
    /* A duration whose whole seconds do not fit in 64 bits. */
    MUXANDU_REFUSED_DURATION = 17,
    /* A number that is not a unit, not a part of a date-time, or not a kind, a version or an
     * item of a format description. */
    MUXANDU_REFUSED_UNIT = 18,
    /* A result that is outside the range, or that its type cannot hold. */
    MUXANDU_REFUSED_RESULT = 19,
    /* A buffer that is too short for what the call writes. */
    MUXANDU_REFUSED_BUFFER = 20,
    /* A span that does not lie in the block of texts. */
    MUXANDU_REFUSED_SPAN = 21,
    /* A text that does not have the form that the call reads, such as a date-time of RFC 3339. */
    MUXANDU_REFUSED_SYNTAX = 22,
    /* Hours of an offset that are out of range: above 23 in a text of RFC 3339, not -25 to 25
     * elsewhere. */
    MUXANDU_REFUSED_OFFSET_HOUR = 23,
    /* Minutes of an offset that are not -59 to 59. */
    MUXANDU_REFUSED_OFFSET_MINUTE = 24,
    /* A value that has no such text, as in RFC 3339 a year outside 0 to 9999, or an offset with
     * seconds or beyond 23:59. */
    MUXANDU_REFUSED_NO_TEXT = 25,
    /* Numbers that are no time zone: a part is out of range, or a transition or the rule does
     * not follow. */
    MUXANDU_REFUSED_ZONE = 26,
    /* A wall clock that no instant has, since a time zone puts its clocks forward past it. */
    MUXANDU_REFUSED_GAP = 27,
    /* A wall clock that two instants have, since a time zone puts its clocks back over it. */
    MUXANDU_REFUSED_FOLD = 28
} MuxanduStatusCode;

/* A status: 0, which is MUXANDU_OK, or the number of an error. Later versions may add errors. */
typedef uint32_t MuxanduStatus;

/* A unit of time. A call takes its number. */
typedef MUXANDU_ENUM(MuxanduUnitCode) {
    /* A day. */
    MUXANDU_UNIT_DAY = 1,
    /* An hour. */
    MUXANDU_UNIT_HOUR = 2,
    /* A minute. */
    MUXANDU_UNIT_MINUTE = 3,
    /* A second. */
    MUXANDU_UNIT_SECOND = 4,
    /* A millisecond. */
    MUXANDU_UNIT_MILLISECOND = 5,
    /* A microsecond. */
    MUXANDU_UNIT_MICROSECOND = 6,
    /* A nanosecond. */
    MUXANDU_UNIT_NANOSECOND = 7
} MuxanduUnitCode;

/* The number of a unit of time. */
typedef uint32_t MuxanduUnit;

/* The parts of a date-time that a description writes or reads. A call tests the other parts too,
 * and reads them as those of 1970-01-01 0:00 UTC. */
typedef MUXANDU_ENUM(MuxanduKindCode) {
    /* The date, the time of day and the offset. */
    MUXANDU_KIND_OFFSET_DATE_TIME = 1,
    /* The date and the time of day. */
    MUXANDU_KIND_PLAIN_DATE_TIME = 2,
    /* The date. */
    MUXANDU_KIND_DATE = 3,
    /* The time of day. */
    MUXANDU_KIND_TIME = 4,
    /* The offset. */
    MUXANDU_KIND_UTC_OFFSET = 5
} MuxanduKindCode;

/* The number of a kind of values. */
typedef uint32_t MuxanduKind;

/* The reason of an error of a description, or the part at fault of a text that it reads. Later
 * versions may add reasons. */
typedef MUXANDU_ENUM(MuxanduReasonCode) {
    /* A '[' without its ']'. */
    MUXANDU_REASON_NO_END = 1,
    /* A '[' that no name follows. */
    MUXANDU_REASON_NO_NAME = 2,
    /* A '[' inside the brackets of a component. */
    MUXANDU_REASON_NESTED_BRACKET = 3,
    /* A name of no component. */
    MUXANDU_REASON_UNKNOWN_COMPONENT = 4,
    /* A name that is no modifier of its component. */
    MUXANDU_REASON_UNKNOWN_MODIFIER = 5,
    /* A value that the modifier does not have. */
    MUXANDU_REASON_WRONG_VALUE = 6,
    /* A component without a modifier that it needs, such as the count of 'ignore'. */
    MUXANDU_REASON_MISSING_MODIFIER = 7,
    /* A backslash before another byte than '[', ']' and a backslash. */
    MUXANDU_REASON_WRONG_ESCAPE = 8,
    /* An 'optional' or 'first' without a description in brackets. */
    MUXANDU_REASON_NO_GROUP = 9,
    /* Something else than a description in brackets after 'optional' or 'first'. */
    MUXANDU_REASON_WRONG_GROUP = 10,
    /* More than 32 groups inside each other. */
    MUXANDU_REASON_TOO_DEEP = 11,
    /* An item, or its text, for which the caller has no room. */
    MUXANDU_REASON_NO_ROOM = 12,
    /* A component that has no name in the language of descriptions. */
    MUXANDU_REASON_NO_TEXT = 13,
    /* The count 0 of 'ignore'. */
    MUXANDU_REASON_NO_COUNT = 14,
    /* A ']' in a group, for which version 1 has no text. */
    MUXANDU_REASON_NO_ESCAPE = 15,
    /* A group in place of another that is not there. */
    MUXANDU_REASON_NO_FIRST = 16,
    /* A group of more items than the description, or the group around it, has. */
    MUXANDU_REASON_PAST_END = 17,
    /* The year, -999999 to 999999. */
    MUXANDU_REASON_YEAR = 18,
    /* The year without its last two digits. */
    MUXANDU_REASON_YEAR_CENTURY = 19,
    /* The last two digits of the year. */
    MUXANDU_REASON_YEAR_LAST_TWO = 20,
    /* The year of the ISO week. */
    MUXANDU_REASON_ISO_YEAR = 21,
    /* The year of the ISO week without its last two digits. */
    MUXANDU_REASON_ISO_YEAR_CENTURY = 22,
    /* The last two digits of the year of the ISO week. */
    MUXANDU_REASON_ISO_YEAR_LAST_TWO = 23,
    /* The month, 1 to 12. */
    MUXANDU_REASON_MONTH = 24,
    /* The day of the month, 1 to 31. */
    MUXANDU_REASON_DAY = 25,
    /* The day of the year, 1 to 366. */
    MUXANDU_REASON_ORDINAL = 26,
    /* The day of the week. */
    MUXANDU_REASON_WEEKDAY = 27,
    /* The ISO week, 1 to 53. */
    MUXANDU_REASON_ISO_WEEK = 28,
    /* The week by the Sundays of the year, 0 to 53. */
    MUXANDU_REASON_SUNDAY_WEEK = 29,
    /* The week by the Mondays of the year, 0 to 53. */
    MUXANDU_REASON_MONDAY_WEEK = 30,
    /* The hour of the day, 0 to 23. */
    MUXANDU_REASON_HOUR = 31,
    /* The hour on a clock of 12 hours, 1 to 12. */
    MUXANDU_REASON_HOUR12 = 32,
    /* The half of the day. */
    MUXANDU_REASON_PERIOD = 33,
    /* The minute, 0 to 59. */
    MUXANDU_REASON_MINUTE = 34,
    /* The second, 0 to 59. */
    MUXANDU_REASON_SECOND = 35,
    /* The fraction of the second. */
    MUXANDU_REASON_SUBSECOND = 36,
    /* The hours of the offset, -25 to 25. */
    MUXANDU_REASON_OFFSET_HOUR = 37,
    /* The minutes of the offset, 0 to 59. */
    MUXANDU_REASON_OFFSET_MINUTE = 38,
    /* The seconds of the offset, 0 to 59. */
    MUXANDU_REASON_OFFSET_SECOND = 39,
    /* The Unix time in seconds, -31619087596800 to 31494784780799. */
    MUXANDU_REASON_UNIX_SECOND = 40,
    /* The Unix time in milliseconds, -31619087596800000 to 31494784780799999. */
    MUXANDU_REASON_UNIX_MILLISECOND = 41,
    /* The Unix time in microseconds, -31619087596800000000 to 31494784780799999999. */
    MUXANDU_REASON_UNIX_MICROSECOND = 42,
    /* The Unix time in nanoseconds, -31619087596800000000000 to 31494784780799999999999. */
    MUXANDU_REASON_UNIX_NANOSECOND = 43,
    /* A file of a time zone that ends before the end of a header, of a block or of its rule. */
    MUXANDU_REASON_FILE_LENGTH = 44,
    /* A header of a file of a time zone that does not begin with 'TZif'. */
    MUXANDU_REASON_FILE_MAGIC = 45,
    /* A version of a file of a time zone that is none of 1 to 4, or another one in its second
     * header. */
    MUXANDU_REASON_FILE_VERSION = 46,
    /* A file of a time zone without a kind of local time, or without an abbreviation. */
    MUXANDU_REASON_FILE_COUNT = 47,
    /* An offset of a kind of local time that is out of range. */
    MUXANDU_REASON_FILE_OFFSET = 48,
    /* A mark of daylight saving time that is neither 0 nor 1. */
    MUXANDU_REASON_FILE_DAYLIGHT = 49,
    /* An abbreviation that begins past the end of their list. */
    MUXANDU_REASON_FILE_DESIGNATION = 50,
    /* A list of abbreviations that does not end with a zero byte. */
    MUXANDU_REASON_FILE_NAMES = 51,
    /* A transition to a kind of local time that the file does not have. */
    MUXANDU_REASON_FILE_INDEX = 52,
    /* A rule in a file that does not begin with a new line. */
    MUXANDU_REASON_FILE_FOOTER = 53,
    /* A text without a name where a rule has one. */
    MUXANDU_REASON_RULE_NAME = 54,
    /* A text without a digit where a rule has a number. */
    MUXANDU_REASON_RULE_DIGIT = 55,
    /* A number of a rule with too few digits or too many, or out of range. */
    MUXANDU_REASON_RULE_RANGE = 56,
    /* Another byte than the one that must follow in a rule, or a byte after it. */
    MUXANDU_REASON_RULE_BYTE = 57,
    /* A transition that is out of range, or does not follow the one before it. */
    MUXANDU_REASON_ZONE_TRANSITION = 58,
    /* A rule that overlaps itself in some year, or does not follow the last transition. */
    MUXANDU_REASON_ZONE_RULE = 59,
    /* More than 512 transitions of a time zone. */
    MUXANDU_REASON_ZONE_SIZE = 60,
    /* A header of a file of a time zone that counts leap seconds, which Unix time has not. */
    MUXANDU_REASON_FILE_LEAP_SECONDS = 61
} MuxanduReasonCode;

/* The number of a reason, or 0 for none. */
typedef uint32_t MuxanduReason;

/* A part of a date-time. A call takes its number. */
typedef MUXANDU_ENUM(MuxanduPartCode) {
    /* The year, -999999 to 999999. */
    MUXANDU_PART_YEAR = 1,
    /* The month, 1 to 12. */
    MUXANDU_PART_MONTH = 2,
    /* The day of the month, 1 to 31. */
    MUXANDU_PART_DAY = 3,
    /* The day of the year, 1 to 366. */
    MUXANDU_PART_ORDINAL = 4,
    /* The hour, 0 to 23. */
    MUXANDU_PART_HOUR = 5,
    /* The minute, 0 to 59. */
    MUXANDU_PART_MINUTE = 6,
    /* The second, 0 to 59. */
    MUXANDU_PART_SECOND = 7,
    /* The nanosecond of the second, 0 to 999999999. */
    MUXANDU_PART_NANOSECOND = 8
} MuxanduPartCode;

/* The number of a part of a date-time. */
typedef uint32_t MuxanduPart;

/* A choice for a wall clock that a time zone shows twice, in a fold, or skips, in a gap. A call
 * takes its number. */
typedef MUXANDU_ENUM(MuxanduChoiceCode) {
    /* The earlier date-time in a fold and the later one in a gap, as RFC 5545 reads a wall
     * clock. */
    MUXANDU_CHOICE_COMPATIBLE = 1,
    /* The earlier date-time, which in a gap is earlier than the wall clock by the length of the
     * gap. */
    MUXANDU_CHOICE_EARLIER = 2,
    /* The later date-time, which in a gap is later than the wall clock by the length of the gap. */
    MUXANDU_CHOICE_LATER = 3,
    /* The only date-time, or the errors GAP and FOLD. */
    MUXANDU_CHOICE_REJECT = 4
} MuxanduChoiceCode;

/* The number of a choice. */
typedef uint32_t MuxanduChoice;

/* The version of these declarations: ten thousand times the first number, plus a hundred times
 * the second, plus the third. */
#define MUXANDU_VERSION 100

/* The same as a text. */
#define MUXANDU_VERSION_TEXT "0.1.0"

/* The first year. */
#define MUXANDU_YEAR_MIN (-999999)

/* The last year. */
#define MUXANDU_YEAR_MAX 999999

/* The first day number, of 1 January of the first year. */
#define MUXANDU_DAY_MIN (-365961662)

/* The last day number, of 31 December of the last year. */
#define MUXANDU_DAY_MAX 364522971

/* The first Unix second of a timestamp, of the first day at 0:00:00. */
#define MUXANDU_SECONDS_MIN (-INT64_C(31619087596800))

/* The last Unix second of a timestamp, of the last day at 23:59:59. */
#define MUXANDU_SECONDS_MAX INT64_C(31494784780799)

/* The first millisecond of a timestamp. */
#define MUXANDU_MILLISECONDS_MIN (-INT64_C(31619087596800000))

/* The last millisecond of a timestamp. */
#define MUXANDU_MILLISECONDS_MAX INT64_C(31494784780799999)

/* The last nanosecond of a second. */
#define MUXANDU_NANOSECOND_MAX 999999999

/* The lowest offset, in seconds. */
#define MUXANDU_OFFSET_MIN (-93599)

/* The highest offset, in seconds. */
#define MUXANDU_OFFSET_MAX 93599

/* The bytes of the longest text of a value that a call writes. Use it as the size of a buffer. */
#define MUXANDU_TEXT_ROOM 42

/* The bytes of the longest text that muxandu_status_text writes. Use it as the size of a buffer. */
#define MUXANDU_STATUS_ROOM 128

/* The most items of a description. */
#define MUXANDU_DESCRIPTION_ROOM 128

/* The most transitions of a zone. */
#define MUXANDU_ZONE_ROOM 512

/* The most bytes of stack that a call takes. */
#define MUXANDU_STACK 24576

/* The most bytes of stack that a call takes, but for those with a description or a time zone. */
#define MUXANDU_STACK_WITHOUT_DESCRIPTION 4096

/* An instant: a Unix second and a nanosecond of that second, before 1970 too. */
typedef struct MuxanduTimestamp {
    /* The seconds from 1970-01-01 0:00 UTC, rounded down: -31619087596800 to 31494784780799. */
    int64_t seconds;
    /* The nanoseconds past that second, 0 to 999999999. */
    uint32_t nanoseconds;
} MuxanduTimestamp;

/* A duration: the sum of its seconds and its nanoseconds. A call writes both with one sign, and
 * less than a second of nanoseconds. It takes any whose sum is at least -2^63 seconds -
 * 999999999 ns and at most 2^63 - 1 seconds + 999999999 ns. */
typedef struct MuxanduDuration {
    /* The seconds. */
    int64_t seconds;
    /* The nanoseconds to add to the seconds. */
    int32_t nanoseconds;
} MuxanduDuration;

/* A date and a time of day in the proleptic Gregorian calendar, and their offset from UTC. */
typedef struct MuxanduDateTime {
    /* The year, -999999 to 999999; year 0 comes before year 1. */
    int32_t year;
    /* The month, 1 to 12. */
    uint8_t month;
    /* The day of the month, 1 to 31 and no more than the month has. */
    uint8_t day;
    /* The hour, 0 to 23. */
    uint8_t hour;
    /* The minute, 0 to 59. */
    uint8_t minute;
    /* The second, 0 to 59: there are no leap seconds. */
    uint8_t second;
    /* The nanosecond of the second, 0 to 999999999. */
    uint32_t nanosecond;
    /* The offset: the seconds by which local clocks are ahead of UTC, -93599 to 93599. */
    int32_t offset_seconds;
} MuxanduDateTime;

/* A date: a year, a month and a day of the month. */
typedef struct MuxanduDate {
    /* The year, -999999 to 999999. */
    int32_t year;
    /* The month, 1 to 12. */
    uint8_t month;
    /* The day of the month, 1 to 31 and no more than the month has. */
    uint8_t day;
} MuxanduDate;

/* A date as a year and a day of the year. */
typedef struct MuxanduOrdinalDate {
    /* The year, -999999 to 999999. */
    int32_t year;
    /* The day of the year, 1 to 365, or 366 in a leap year. */
    uint16_t ordinal;
} MuxanduOrdinalDate;

/* A date as an ISO year, an ISO week and a day of the week (ISO 8601). The week belongs to the
 * year of its Thursday. */
typedef struct MuxanduWeekDate {
    /* The ISO year, -999999 to 999999. */
    int32_t year;
    /* The ISO week, 1 to 52, or 53 in a year of 53 weeks. */
    uint8_t week;
    /* The day of the week, 0 for Monday to 6 for Sunday. */
    uint8_t weekday;
} MuxanduWeekDate;

/* The place of a text in a block of texts. */
typedef struct MuxanduSpan {
    /* The index of its first byte in the block. */
    size_t start;
    /* The number of its bytes. */
    size_t length;
} MuxanduSpan;

/* The result of a call with many items. It converts them in their order, up to the first that it
 * rejects. */
typedef struct MuxanduBatch {
    /* The number of items that it converted and wrote. */
    size_t count;
    /* 0 if these are all items, else the error of the next. */
    MuxanduStatus status;
} MuxanduBatch;

/* An item of a compiled description, as muxandu_description_parse writes it. Keep it as it is:
 * its numbers can be others in a later version. */
typedef struct MuxanduItem {
    /* The kind of the item. */
    uint8_t kind;
    /* The first modifier of a component. */
    uint8_t first;
    /* The second modifier. */
    uint8_t second;
    /* The third modifier. */
    uint8_t third;
    /* The fourth modifier. */
    uint8_t fourth;
    /* The byte, the size of a group, or the number of a component. */
    size_t number;
} MuxanduItem;

/* A time of day. */
typedef struct MuxanduTime {
    /* The hour, 0 to 23. */
    uint8_t hour;
    /* The minute, 0 to 59. */
    uint8_t minute;
    /* The second, 0 to 59: there are no leap seconds. */
    uint8_t second;
    /* The nanosecond of the second, 0 to 999999999. */
    uint32_t nanosecond;
} MuxanduTime;

/* A moment: an instant, and the offset of the clocks that show it. It is a row of a column: 16
 * bytes with no padding. */
typedef struct MuxanduMoment {
    /* The seconds from 1970-01-01 0:00 UTC, rounded down: -31619087596800 to 31494784780799. */
    int64_t seconds;
    /* The nanoseconds past that second, 0 to 999999999. */
    uint32_t nanoseconds;
    /* The offset: the seconds by which local clocks are ahead of UTC, -93599 to 93599. */
    int32_t offset_seconds;
} MuxanduMoment;

/* An offset from UTC as hours, minutes and seconds, all of one sign. */
typedef struct MuxanduOffset {
    /* The hours, -25 to 25. */
    int8_t hours;
    /* The minutes, -59 to 59. */
    int8_t minutes;
    /* The seconds, -59 to 59. */
    int8_t seconds;
} MuxanduOffset;

/* The result of a call with a description. */
typedef struct MuxanduOutcome {
    /* The number of items or of bytes that the call wrote or, with BUFFER, has to write. After
     * another error it is the index of the byte or of the item with the fault, or 0. */
    size_t size;
    /* 0, or the error. */
    MuxanduStatus status;
    /* The reason of the error, the part that is at fault, or 0. */
    MuxanduReason reason;
} MuxanduOutcome;

/* Every reading of a date: its day numbers, its day of the year and of the week, and its weeks. */
typedef struct MuxanduDateReads {
    /* The day number, 0 on 1970-01-01. */
    int32_t day;
    /* The Julian day, 2440588 on 1970-01-01. */
    int32_t julian_day;
    /* The year of the ISO week, which is the year of its Thursday. */
    int32_t iso_year;
    /* The day of the year, 1 to 366. */
    uint16_t ordinal;
    /* The ISO week, 1 to 53. */
    uint8_t iso_week;
    /* The day of the week, 0 for Monday to 6 for Sunday. */
    uint8_t weekday;
    /* The number of Sundays in the year up to and including the date, 0 to 53. */
    uint8_t sunday_based_week;
    /* The number of Mondays in the year up to and including the date, 0 to 53. */
    uint8_t monday_based_week;
} MuxanduDateReads;

/* The instants at which the clocks of a time zone show a wall clock. There is one, or there are
 * two in a fold, where clocks are put back over it. There is none in a gap, where clocks are put
 * forward past it. Their Unix seconds may lie outside the range of timestamps by 93599. */
typedef struct MuxanduZoneInstants {
    /* The Unix second of the earlier instant, or of the only one. In a gap it is that of the
     * instant that the offset after the gap makes of the wall clock. */
    int64_t earlier_seconds;
    /* The Unix second of the later instant, or of the only one. In a gap it is that of the
     * instant that the offset before the gap makes of the wall clock. */
    int64_t later_seconds;
    /* The Unix second at which clocks are put forward in a gap, else 0. */
    int64_t gap_second;
    /* The nanosecond of both instants, 0 to 999999999: that of the wall clock. */
    uint32_t nanoseconds;
    /* The offset of the earlier instant in seconds, in a gap that after it: -93599 to 93599. */
    int32_t earlier_offset_seconds;
    /* The offset of the later instant, in a gap that before it. */
    int32_t later_offset_seconds;
    /* The number of instants: 1, 2 in a fold, 0 in a gap. */
    uint32_t count;
} MuxanduZoneInstants;

/* A transition of a time zone: its clocks go from one kind of local time to another. */
typedef struct MuxanduTransition {
    /* The Unix second from which on the kind after it holds. */
    int64_t second;
    /* The offset until then, in seconds: -93599 to 93599. */
    int32_t before_offset_seconds;
    /* The offset from then on. */
    int32_t after_offset_seconds;
    /* The number of the abbreviation until then. */
    uint16_t before_designation;
    /* The number of the abbreviation from then on. */
    uint16_t after_designation;
    /* 1 for daylight saving time until then, else 0. */
    uint8_t before_is_daylight;
    /* 1 for daylight saving time from then on, else 0. */
    uint8_t after_is_daylight;
} MuxanduTransition;

/* A time zone, but for its transitions, which the caller keeps in an array of its own. Keep both
 * as a call wrote them. */
typedef struct MuxanduZone {
    /* The offset before the first transition, in seconds: -93599 to 93599. */
    int32_t offset_seconds;
    /* Seconds after the midnight of the first day of the rule, -604799 to 604799. */
    int32_t first_time;
    /* The offset after the first moment of the rule. */
    int32_t first_offset_seconds;
    /* Seconds after the midnight of the second day of the rule. */
    int32_t second_time;
    /* The offset after the second moment of the rule. */
    int32_t second_offset_seconds;
    /* The number of the abbreviation before the first transition. */
    uint16_t designation;
    /* The first day of the rule, for the kinds 2 and 3. */
    uint16_t first_day;
    /* The number of the abbreviation after the first moment of the rule. */
    uint16_t first_designation;
    /* The second day of the rule, for the kinds 2 and 3. */
    uint16_t second_day;
    /* The number of the abbreviation after the second moment of the rule. */
    uint16_t second_designation;
    /* 1 for daylight saving time before the first transition, else 0. */
    uint8_t is_daylight;
    /* 1 if a rule of each year follows the transitions, else 0. */
    uint8_t has_rule;
    /* The kind of the first day: 1 for a weekday of a month, 2 for 'Jn', 3 for 'n'. */
    uint8_t first_kind;
    /* Its month, for kind 1. */
    uint8_t first_month;
    /* Its week of the month, 1 to 5, for kind 1. */
    uint8_t first_week;
    /* Its weekday, 0 for Sunday, for kind 1. */
    uint8_t first_weekday;
    /* 1 for daylight saving time after the first moment, else 0. */
    uint8_t first_is_daylight;
    /* The kind of the second day. */
    uint8_t second_kind;
    /* Its month, for kind 1. */
    uint8_t second_month;
    /* Its week of the month, for kind 1. */
    uint8_t second_week;
    /* Its weekday, for kind 1. */
    uint8_t second_weekday;
    /* 1 for daylight saving time after the second moment, else 0. */
    uint8_t second_is_daylight;
} MuxanduZone;

/* A kind of local time of a time zone. */
typedef struct MuxanduTimeType {
    /* The offset in seconds: -93599 to 93599. */
    int32_t offset_seconds;
    /* The number of the abbreviation. */
    uint16_t designation;
    /* 1 for daylight saving time, else 0. */
    uint8_t is_daylight;
} MuxanduTimeType;

#if defined(__cplusplus) && __cplusplus >= 201103L
#define MUXANDU_LAYOUT(name, holds) static_assert(sizeof(void *) != 8 || (holds), #name)
#elif defined(__STDC_VERSION__) && __STDC_VERSION__ >= 201112L
#define MUXANDU_LAYOUT(name, holds) _Static_assert(sizeof(void *) != 8 || (holds), #name)
#else
#define MUXANDU_LAYOUT(name, holds) typedef char muxandu_layout_##name[sizeof(void *) != 8 || (holds) ? 1 : -1]
#endif
MUXANDU_LAYOUT(MuxanduTimestamp, sizeof(MuxanduTimestamp) == 16);
MUXANDU_LAYOUT(MuxanduTimestamp_seconds, offsetof(MuxanduTimestamp, seconds) == 0);
MUXANDU_LAYOUT(MuxanduTimestamp_nanoseconds, offsetof(MuxanduTimestamp, nanoseconds) == 8);
MUXANDU_LAYOUT(MuxanduDuration, sizeof(MuxanduDuration) == 16);
MUXANDU_LAYOUT(MuxanduDuration_seconds, offsetof(MuxanduDuration, seconds) == 0);
MUXANDU_LAYOUT(MuxanduDuration_nanoseconds, offsetof(MuxanduDuration, nanoseconds) == 8);
MUXANDU_LAYOUT(MuxanduDateTime, sizeof(MuxanduDateTime) == 20);
MUXANDU_LAYOUT(MuxanduDateTime_year, offsetof(MuxanduDateTime, year) == 0);
MUXANDU_LAYOUT(MuxanduDateTime_month, offsetof(MuxanduDateTime, month) == 4);
MUXANDU_LAYOUT(MuxanduDateTime_day, offsetof(MuxanduDateTime, day) == 5);
MUXANDU_LAYOUT(MuxanduDateTime_hour, offsetof(MuxanduDateTime, hour) == 6);
MUXANDU_LAYOUT(MuxanduDateTime_minute, offsetof(MuxanduDateTime, minute) == 7);
MUXANDU_LAYOUT(MuxanduDateTime_second, offsetof(MuxanduDateTime, second) == 8);
MUXANDU_LAYOUT(MuxanduDateTime_nanosecond, offsetof(MuxanduDateTime, nanosecond) == 12);
MUXANDU_LAYOUT(MuxanduDateTime_offset_seconds, offsetof(MuxanduDateTime, offset_seconds) == 16);
MUXANDU_LAYOUT(MuxanduDate, sizeof(MuxanduDate) == 8);
MUXANDU_LAYOUT(MuxanduDate_year, offsetof(MuxanduDate, year) == 0);
MUXANDU_LAYOUT(MuxanduDate_month, offsetof(MuxanduDate, month) == 4);
MUXANDU_LAYOUT(MuxanduDate_day, offsetof(MuxanduDate, day) == 5);
MUXANDU_LAYOUT(MuxanduOrdinalDate, sizeof(MuxanduOrdinalDate) == 8);
MUXANDU_LAYOUT(MuxanduOrdinalDate_year, offsetof(MuxanduOrdinalDate, year) == 0);
MUXANDU_LAYOUT(MuxanduOrdinalDate_ordinal, offsetof(MuxanduOrdinalDate, ordinal) == 4);
MUXANDU_LAYOUT(MuxanduWeekDate, sizeof(MuxanduWeekDate) == 8);
MUXANDU_LAYOUT(MuxanduWeekDate_year, offsetof(MuxanduWeekDate, year) == 0);
MUXANDU_LAYOUT(MuxanduWeekDate_week, offsetof(MuxanduWeekDate, week) == 4);
MUXANDU_LAYOUT(MuxanduWeekDate_weekday, offsetof(MuxanduWeekDate, weekday) == 5);
MUXANDU_LAYOUT(MuxanduSpan, sizeof(MuxanduSpan) == 16);
MUXANDU_LAYOUT(MuxanduSpan_start, offsetof(MuxanduSpan, start) == 0);
MUXANDU_LAYOUT(MuxanduSpan_length, offsetof(MuxanduSpan, length) == 8);
MUXANDU_LAYOUT(MuxanduBatch, sizeof(MuxanduBatch) == 16);
MUXANDU_LAYOUT(MuxanduBatch_count, offsetof(MuxanduBatch, count) == 0);
MUXANDU_LAYOUT(MuxanduBatch_status, offsetof(MuxanduBatch, status) == 8);
MUXANDU_LAYOUT(MuxanduItem, sizeof(MuxanduItem) == 16);
MUXANDU_LAYOUT(MuxanduItem_kind, offsetof(MuxanduItem, kind) == 0);
MUXANDU_LAYOUT(MuxanduItem_first, offsetof(MuxanduItem, first) == 1);
MUXANDU_LAYOUT(MuxanduItem_second, offsetof(MuxanduItem, second) == 2);
MUXANDU_LAYOUT(MuxanduItem_third, offsetof(MuxanduItem, third) == 3);
MUXANDU_LAYOUT(MuxanduItem_fourth, offsetof(MuxanduItem, fourth) == 4);
MUXANDU_LAYOUT(MuxanduItem_number, offsetof(MuxanduItem, number) == 8);
MUXANDU_LAYOUT(MuxanduTime, sizeof(MuxanduTime) == 8);
MUXANDU_LAYOUT(MuxanduTime_hour, offsetof(MuxanduTime, hour) == 0);
MUXANDU_LAYOUT(MuxanduTime_minute, offsetof(MuxanduTime, minute) == 1);
MUXANDU_LAYOUT(MuxanduTime_second, offsetof(MuxanduTime, second) == 2);
MUXANDU_LAYOUT(MuxanduTime_nanosecond, offsetof(MuxanduTime, nanosecond) == 4);
MUXANDU_LAYOUT(MuxanduMoment, sizeof(MuxanduMoment) == 16);
MUXANDU_LAYOUT(MuxanduMoment_seconds, offsetof(MuxanduMoment, seconds) == 0);
MUXANDU_LAYOUT(MuxanduMoment_nanoseconds, offsetof(MuxanduMoment, nanoseconds) == 8);
MUXANDU_LAYOUT(MuxanduMoment_offset_seconds, offsetof(MuxanduMoment, offset_seconds) == 12);
MUXANDU_LAYOUT(MuxanduOffset, sizeof(MuxanduOffset) == 3);
MUXANDU_LAYOUT(MuxanduOffset_hours, offsetof(MuxanduOffset, hours) == 0);
MUXANDU_LAYOUT(MuxanduOffset_minutes, offsetof(MuxanduOffset, minutes) == 1);
MUXANDU_LAYOUT(MuxanduOffset_seconds, offsetof(MuxanduOffset, seconds) == 2);
MUXANDU_LAYOUT(MuxanduOutcome, sizeof(MuxanduOutcome) == 16);
MUXANDU_LAYOUT(MuxanduOutcome_size, offsetof(MuxanduOutcome, size) == 0);
MUXANDU_LAYOUT(MuxanduOutcome_status, offsetof(MuxanduOutcome, status) == 8);
MUXANDU_LAYOUT(MuxanduOutcome_reason, offsetof(MuxanduOutcome, reason) == 12);
MUXANDU_LAYOUT(MuxanduDateReads, sizeof(MuxanduDateReads) == 20);
MUXANDU_LAYOUT(MuxanduDateReads_day, offsetof(MuxanduDateReads, day) == 0);
MUXANDU_LAYOUT(MuxanduDateReads_julian_day, offsetof(MuxanduDateReads, julian_day) == 4);
MUXANDU_LAYOUT(MuxanduDateReads_iso_year, offsetof(MuxanduDateReads, iso_year) == 8);
MUXANDU_LAYOUT(MuxanduDateReads_ordinal, offsetof(MuxanduDateReads, ordinal) == 12);
MUXANDU_LAYOUT(MuxanduDateReads_iso_week, offsetof(MuxanduDateReads, iso_week) == 14);
MUXANDU_LAYOUT(MuxanduDateReads_weekday, offsetof(MuxanduDateReads, weekday) == 15);
MUXANDU_LAYOUT(MuxanduDateReads_sunday_based_week, offsetof(MuxanduDateReads, sunday_based_week) == 16);
MUXANDU_LAYOUT(MuxanduDateReads_monday_based_week, offsetof(MuxanduDateReads, monday_based_week) == 17);
MUXANDU_LAYOUT(MuxanduZoneInstants, sizeof(MuxanduZoneInstants) == 40);
MUXANDU_LAYOUT(MuxanduZoneInstants_earlier_seconds, offsetof(MuxanduZoneInstants, earlier_seconds) == 0);
MUXANDU_LAYOUT(MuxanduZoneInstants_later_seconds, offsetof(MuxanduZoneInstants, later_seconds) == 8);
MUXANDU_LAYOUT(MuxanduZoneInstants_gap_second, offsetof(MuxanduZoneInstants, gap_second) == 16);
MUXANDU_LAYOUT(MuxanduZoneInstants_nanoseconds, offsetof(MuxanduZoneInstants, nanoseconds) == 24);
MUXANDU_LAYOUT(MuxanduZoneInstants_earlier_offset_seconds, offsetof(MuxanduZoneInstants, earlier_offset_seconds) == 28);
MUXANDU_LAYOUT(MuxanduZoneInstants_later_offset_seconds, offsetof(MuxanduZoneInstants, later_offset_seconds) == 32);
MUXANDU_LAYOUT(MuxanduZoneInstants_count, offsetof(MuxanduZoneInstants, count) == 36);
MUXANDU_LAYOUT(MuxanduTransition, sizeof(MuxanduTransition) == 24);
MUXANDU_LAYOUT(MuxanduTransition_second, offsetof(MuxanduTransition, second) == 0);
MUXANDU_LAYOUT(MuxanduTransition_before_offset_seconds, offsetof(MuxanduTransition, before_offset_seconds) == 8);
MUXANDU_LAYOUT(MuxanduTransition_after_offset_seconds, offsetof(MuxanduTransition, after_offset_seconds) == 12);
MUXANDU_LAYOUT(MuxanduTransition_before_designation, offsetof(MuxanduTransition, before_designation) == 16);
MUXANDU_LAYOUT(MuxanduTransition_after_designation, offsetof(MuxanduTransition, after_designation) == 18);
MUXANDU_LAYOUT(MuxanduTransition_before_is_daylight, offsetof(MuxanduTransition, before_is_daylight) == 20);
MUXANDU_LAYOUT(MuxanduTransition_after_is_daylight, offsetof(MuxanduTransition, after_is_daylight) == 21);
MUXANDU_LAYOUT(MuxanduZone, sizeof(MuxanduZone) == 44);
MUXANDU_LAYOUT(MuxanduZone_offset_seconds, offsetof(MuxanduZone, offset_seconds) == 0);
MUXANDU_LAYOUT(MuxanduZone_first_time, offsetof(MuxanduZone, first_time) == 4);
MUXANDU_LAYOUT(MuxanduZone_first_offset_seconds, offsetof(MuxanduZone, first_offset_seconds) == 8);
MUXANDU_LAYOUT(MuxanduZone_second_time, offsetof(MuxanduZone, second_time) == 12);
MUXANDU_LAYOUT(MuxanduZone_second_offset_seconds, offsetof(MuxanduZone, second_offset_seconds) == 16);
MUXANDU_LAYOUT(MuxanduZone_designation, offsetof(MuxanduZone, designation) == 20);
MUXANDU_LAYOUT(MuxanduZone_first_day, offsetof(MuxanduZone, first_day) == 22);
MUXANDU_LAYOUT(MuxanduZone_first_designation, offsetof(MuxanduZone, first_designation) == 24);
MUXANDU_LAYOUT(MuxanduZone_second_day, offsetof(MuxanduZone, second_day) == 26);
MUXANDU_LAYOUT(MuxanduZone_second_designation, offsetof(MuxanduZone, second_designation) == 28);
MUXANDU_LAYOUT(MuxanduZone_is_daylight, offsetof(MuxanduZone, is_daylight) == 30);
MUXANDU_LAYOUT(MuxanduZone_has_rule, offsetof(MuxanduZone, has_rule) == 31);
MUXANDU_LAYOUT(MuxanduZone_first_kind, offsetof(MuxanduZone, first_kind) == 32);
MUXANDU_LAYOUT(MuxanduZone_first_month, offsetof(MuxanduZone, first_month) == 33);
MUXANDU_LAYOUT(MuxanduZone_first_week, offsetof(MuxanduZone, first_week) == 34);
MUXANDU_LAYOUT(MuxanduZone_first_weekday, offsetof(MuxanduZone, first_weekday) == 35);
MUXANDU_LAYOUT(MuxanduZone_first_is_daylight, offsetof(MuxanduZone, first_is_daylight) == 36);
MUXANDU_LAYOUT(MuxanduZone_second_kind, offsetof(MuxanduZone, second_kind) == 37);
MUXANDU_LAYOUT(MuxanduZone_second_month, offsetof(MuxanduZone, second_month) == 38);
MUXANDU_LAYOUT(MuxanduZone_second_week, offsetof(MuxanduZone, second_week) == 39);
MUXANDU_LAYOUT(MuxanduZone_second_weekday, offsetof(MuxanduZone, second_weekday) == 40);
MUXANDU_LAYOUT(MuxanduZone_second_is_daylight, offsetof(MuxanduZone, second_is_daylight) == 41);
MUXANDU_LAYOUT(MuxanduTimeType, sizeof(MuxanduTimeType) == 8);
MUXANDU_LAYOUT(MuxanduTimeType_offset_seconds, offsetof(MuxanduTimeType, offset_seconds) == 0);
MUXANDU_LAYOUT(MuxanduTimeType_designation, offsetof(MuxanduTimeType, designation) == 4);
MUXANDU_LAYOUT(MuxanduTimeType_is_daylight, offsetof(MuxanduTimeType, is_daylight) == 6);
#undef MUXANDU_LAYOUT

/* The version of the library, a number like MUXANDU_VERSION. A library with a lower number lacks
 * some of these declarations. */
MUXANDU_API
uint32_t muxandu_version(void) MUXANDU_NOEXCEPT;

/* Writes the name of a status, such as 'OK' or 'DAY_OF_MONTH', to the front of 'buffer', and its
 * length to 'size'. The name has at most 15 bytes, all ASCII and none 0. A number that is no
 * status of this version has the name 'UNKNOWN'. Errors: BUFFER if the name is longer than
 * 'buffer'; 'size' is then the length of the name, and 'buffer' is unchanged. */
MUXANDU_NODISCARD MUXANDU_API MUXANDU_NONNULL((4))
MuxanduStatus muxandu_status_name(MuxanduStatus status, char *MUXANDU_RESTRICT buffer,
                                  size_t buffer_count,
                                  size_t *MUXANDU_RESTRICT size) MUXANDU_NOEXCEPT;

/* Writes the meaning of a status, a sentence of at most 128 bytes, as muxandu_status_name does. */
MUXANDU_NODISCARD MUXANDU_API MUXANDU_NONNULL((4))
MuxanduStatus muxandu_status_text(MuxanduStatus status, char *MUXANDU_RESTRICT buffer,
                                  size_t buffer_count,
                                  size_t *MUXANDU_RESTRICT size) MUXANDU_NOEXCEPT;

/* Checks that the parts make a timestamp. Errors, in this order: TIMESTAMP, NANOSECOND. */
MUXANDU_NODISCARD MUXANDU_API
MuxanduStatus muxandu_timestamp_check(MuxanduTimestamp at) MUXANDU_NOEXCEPT;

/* The order of two timestamps: -1 if 'first' comes first, 0 if both are one instant, 1 if
 * 'second' comes first. It compares seconds and nanoseconds together, and takes any parts, also
 * invalid ones, so you can sort with it. */
MUXANDU_API
int32_t muxandu_timestamp_compare(MuxanduTimestamp first, MuxanduTimestamp second) MUXANDU_NOEXCEPT;

/* The instant plus a duration. Errors, in this order: those of the timestamp, DURATION, RESULT
 * if out of range. */
MUXANDU_NODISCARD MUXANDU_API MUXANDU_NONNULL((3))
MuxanduStatus muxandu_timestamp_add(MuxanduTimestamp at, MuxanduDuration duration,
                                    MuxanduTimestamp *out) MUXANDU_NOEXCEPT;

/* The instant minus a duration. Errors, in this order: those of the timestamp, DURATION, RESULT
 * if out of range. */
MUXANDU_NODISCARD MUXANDU_API MUXANDU_NONNULL((3))
MuxanduStatus muxandu_timestamp_subtract(MuxanduTimestamp at, MuxanduDuration duration,
                                         MuxanduTimestamp *out) MUXANDU_NOEXCEPT;

/* The instant plus a duration, or the nearer end of the range. Errors, in this order: those of
 * the timestamp, DURATION. */
MUXANDU_NODISCARD MUXANDU_API MUXANDU_NONNULL((3))
MuxanduStatus muxandu_timestamp_saturating_add(MuxanduTimestamp at, MuxanduDuration duration,
                                               MuxanduTimestamp *out) MUXANDU_NOEXCEPT;

/* The instant minus a duration, or the nearer end of the range. Errors, in this order: those of
 * the timestamp, DURATION. */
MUXANDU_NODISCARD MUXANDU_API MUXANDU_NONNULL((3))
MuxanduStatus muxandu_timestamp_saturating_subtract(MuxanduTimestamp at, MuxanduDuration duration,
                                                    MuxanduTimestamp *out) MUXANDU_NOEXCEPT;

/* The duration from 'earlier' to 'later', negative if 'later' comes first. Errors, in this
 * order: those of 'later', those of 'earlier'. */
MUXANDU_NODISCARD MUXANDU_API MUXANDU_NONNULL((3))
MuxanduStatus muxandu_timestamp_difference(MuxanduTimestamp later, MuxanduTimestamp earlier,
                                           MuxanduDuration *out) MUXANDU_NOEXCEPT;

/* The instant, rounded down to a unit in UTC, also before 1970. Errors, in this order: those of
 * the timestamp, UNIT. */
MUXANDU_NODISCARD MUXANDU_API MUXANDU_NONNULL((3))
MuxanduStatus muxandu_timestamp_truncate(MuxanduTimestamp at, MuxanduUnit unit,
                                         MuxanduTimestamp *out) MUXANDU_NOEXCEPT;

/* The instant of a number of milliseconds from 1970-01-01 0:00 UTC. Errors: TIMESTAMP if out of
 * range. */
MUXANDU_NODISCARD MUXANDU_API MUXANDU_NONNULL((2))
MuxanduStatus muxandu_timestamp_from_milliseconds(int64_t milliseconds,
                                                  MuxanduTimestamp *out) MUXANDU_NOEXCEPT;

/* The whole milliseconds from 1970-01-01 0:00 UTC, rounded down. Errors: those of the timestamp. */
MUXANDU_NODISCARD MUXANDU_API MUXANDU_NONNULL((2))
MuxanduStatus muxandu_timestamp_to_milliseconds(MuxanduTimestamp at, int64_t *out) MUXANDU_NOEXCEPT;

/* The instant of a number of microseconds from 1970-01-01 0:00 UTC. It is always in range. */
MUXANDU_API
MuxanduTimestamp muxandu_timestamp_from_microseconds(int64_t microseconds) MUXANDU_NOEXCEPT;

/* The whole microseconds from 1970-01-01 0:00 UTC, rounded down. They fit in 64 bits from
 * -290308-12-21 to 294247-01-10. Errors, in this order: those of the timestamp, RESULT if they
 * do not fit. */
MUXANDU_NODISCARD MUXANDU_API MUXANDU_NONNULL((2))
MuxanduStatus muxandu_timestamp_to_microseconds(MuxanduTimestamp at, int64_t *out) MUXANDU_NOEXCEPT;

/* The instant of a number of nanoseconds from 1970-01-01 0:00 UTC. It is always in range. */
MUXANDU_API
MuxanduTimestamp muxandu_timestamp_from_nanoseconds(int64_t nanoseconds) MUXANDU_NOEXCEPT;

/* The nanoseconds from 1970-01-01 0:00 UTC. They fit in 64 bits from 1677-09-21 to 2262-04-11.
 * Errors, in this order: those of the timestamp, RESULT if they do not fit. */
MUXANDU_NODISCARD MUXANDU_API MUXANDU_NONNULL((2))
MuxanduStatus muxandu_timestamp_to_nanoseconds(MuxanduTimestamp at, int64_t *out) MUXANDU_NOEXCEPT;

/* Checks that the parts make a date-time. To replace a part yourself, write it and then make
 * this call. Each call that takes a date-time has these errors, in this order: MONTH, YEAR, DAY,
 * DAY_OF_MONTH, HOUR, MINUTE, SECOND, NANOSECOND, OFFSET_SECONDS. */
MUXANDU_NODISCARD MUXANDU_API
MuxanduStatus muxandu_date_time_check(MuxanduDateTime date_time) MUXANDU_NOEXCEPT;

/* The date-time of an instant at an offset in seconds. Errors, in this order: those of the
 * timestamp, OFFSET_SECONDS, RESULT if the year at that offset is out of range. */
MUXANDU_NODISCARD MUXANDU_API MUXANDU_NONNULL((3))
MuxanduStatus muxandu_date_time_from_timestamp(MuxanduTimestamp at, int32_t offset_seconds,
                                               MuxanduDateTime *out) MUXANDU_NOEXCEPT;

/* The instant of a date-time. Errors, in this order: those of the date-time, RESULT outside the
 * range of timestamps. */
MUXANDU_NODISCARD MUXANDU_API MUXANDU_NONNULL((2))
MuxanduStatus muxandu_timestamp_from_date_time(MuxanduDateTime date_time,
                                               MuxanduTimestamp *out) MUXANDU_NOEXCEPT;

/* The same instant at another offset in seconds. Errors, in this order: those of the date-time,
 * OFFSET_SECONDS, RESULT if the year at that offset is out of range. */
MUXANDU_NODISCARD MUXANDU_API MUXANDU_NONNULL((3))
MuxanduStatus muxandu_date_time_to_offset(MuxanduDateTime date_time, int32_t offset_seconds,
                                          MuxanduDateTime *out) MUXANDU_NOEXCEPT;

/* The date-time plus a duration, at the same offset. Errors, in this order: those of the
 * date-time, DURATION, RESULT if the year is out of range. */
MUXANDU_NODISCARD MUXANDU_API MUXANDU_NONNULL((3))
MuxanduStatus muxandu_date_time_add(MuxanduDateTime date_time, MuxanduDuration duration,
                                    MuxanduDateTime *out) MUXANDU_NOEXCEPT;

/* The date-time minus a duration, at the same offset. Errors, in this order: those of the
 * date-time, DURATION, RESULT if the year is out of range. */
MUXANDU_NODISCARD MUXANDU_API MUXANDU_NONNULL((3))
MuxanduStatus muxandu_date_time_subtract(MuxanduDateTime date_time, MuxanduDuration duration,
                                         MuxanduDateTime *out) MUXANDU_NOEXCEPT;

/* The date-time plus a duration, at the same offset, or the nearer end of the range. Errors, in
 * this order: those of the date-time, DURATION. */
MUXANDU_NODISCARD MUXANDU_API MUXANDU_NONNULL((3))
MuxanduStatus muxandu_date_time_saturating_add(MuxanduDateTime date_time, MuxanduDuration duration,
                                               MuxanduDateTime *out) MUXANDU_NOEXCEPT;

/* The date-time minus a duration, at the same offset, or the nearer end of the range. Errors, in
 * this order: those of the date-time, DURATION. */
MUXANDU_NODISCARD MUXANDU_API MUXANDU_NONNULL((3))
MuxanduStatus muxandu_date_time_saturating_subtract(MuxanduDateTime date_time,
                                                    MuxanduDuration duration,
                                                    MuxanduDateTime *out) MUXANDU_NOEXCEPT;

/* The duration from the instant of 'earlier' to that of 'later', negative if 'later' comes
 * first. Errors, in this order: those of 'later', those of 'earlier'. */
MUXANDU_NODISCARD MUXANDU_API MUXANDU_NONNULL((3))
MuxanduStatus muxandu_date_time_difference(MuxanduDateTime later, MuxanduDateTime earlier,
                                           MuxanduDuration *out) MUXANDU_NOEXCEPT;

/* The date-time, rounded down to a unit at its own offset. Errors, in this order: those of the
 * date-time, UNIT. */
MUXANDU_NODISCARD MUXANDU_API MUXANDU_NONNULL((3))
MuxanduStatus muxandu_date_time_truncate(MuxanduDateTime date_time, MuxanduUnit unit,
                                         MuxanduDateTime *out) MUXANDU_NOEXCEPT;

/* The order of two instants: -1 if 'first' comes first, 0 if both are one instant, 1 if 'second'
 * comes first. Errors, in this order: those of 'first', those of 'second'. */
MUXANDU_NODISCARD MUXANDU_API MUXANDU_NONNULL((3))
MuxanduStatus muxandu_date_time_compare(MuxanduDateTime first, MuxanduDateTime second,
                                        int32_t *out) MUXANDU_NOEXCEPT;

/* The day number of the local date, 0 on 1970-01-01. Errors: those of the date-time. */
MUXANDU_NODISCARD MUXANDU_API MUXANDU_NONNULL((2))
MuxanduStatus muxandu_date_time_day(MuxanduDateTime date_time, int32_t *out) MUXANDU_NOEXCEPT;

/* The date of a day number. Errors: DAY_NUMBER. */
MUXANDU_NODISCARD MUXANDU_API MUXANDU_NONNULL((2))
MuxanduStatus muxandu_date_from_day(int32_t day, MuxanduDate *out) MUXANDU_NOEXCEPT;

/* The day number of a date. Errors, in this order: MONTH, YEAR, DAY, DAY_OF_MONTH. */
MUXANDU_NODISCARD MUXANDU_API MUXANDU_NONNULL((2))
MuxanduStatus muxandu_day_from_date(MuxanduDate date, int32_t *out) MUXANDU_NOEXCEPT;

/* The year and the day of the year of a day number. Errors: DAY_NUMBER. */
MUXANDU_NODISCARD MUXANDU_API MUXANDU_NONNULL((2))
MuxanduStatus muxandu_ordinal_date_from_day(int32_t day, MuxanduOrdinalDate *out) MUXANDU_NOEXCEPT;

/* The day number of a day of a year. Errors, in this order: YEAR, ORDINAL, ORDINAL_OF_YEAR. */
MUXANDU_NODISCARD MUXANDU_API MUXANDU_NONNULL((2))
MuxanduStatus muxandu_day_from_ordinal_date(MuxanduOrdinalDate date, int32_t *out) MUXANDU_NOEXCEPT;

/* The ISO year, the ISO week and the day of the week of a day number. muxandu_day_from_week_date
 * is the inverse. Errors: DAY_NUMBER. */
MUXANDU_NODISCARD MUXANDU_API MUXANDU_NONNULL((2))
MuxanduStatus muxandu_week_date_from_day(int32_t day, MuxanduWeekDate *out) MUXANDU_NOEXCEPT;

/* The day number of an ISO week date. Errors, in this order: YEAR, WEEK, WEEKDAY, WEEK_OF_YEAR,
 * RESULT for the two days of the last week past the range. */
MUXANDU_NODISCARD MUXANDU_API MUXANDU_NONNULL((2))
MuxanduStatus muxandu_day_from_week_date(MuxanduWeekDate date, int32_t *out) MUXANDU_NOEXCEPT;

/* The day of the week of a day number, 0 for Monday to 6 for Sunday. Errors: DAY_NUMBER. */
MUXANDU_NODISCARD MUXANDU_API MUXANDU_NONNULL((2))
MuxanduStatus muxandu_weekday_from_day(int32_t day, uint8_t *out) MUXANDU_NOEXCEPT;

/* The number of days in a month of a year, 28 to 31. Errors, in this order: MONTH, YEAR. */
MUXANDU_NODISCARD MUXANDU_API MUXANDU_NONNULL((3))
MuxanduStatus muxandu_days_in_month(int32_t year, uint32_t month, uint8_t *out) MUXANDU_NOEXCEPT;

/* The date-time of each Unix second at an offset in seconds, up to the first that
 * muxandu_date_time_from_timestamp rejects. Errors: BUFFER if 'out' has fewer items than
 * 'seconds' (the call then writes nothing), else that of the first rejected item. */
MUXANDU_NODISCARD MUXANDU_API
MuxanduBatch muxandu_date_times_from_seconds(const int64_t *MUXANDU_RESTRICT seconds,
                                             size_t seconds_count, int32_t offset_seconds,
                                             MuxanduDateTime *MUXANDU_RESTRICT out,
                                             size_t out_count) MUXANDU_NOEXCEPT;

/* The Unix second of each date-time, rounded down, up to the first that
 * muxandu_timestamp_from_date_time rejects. Errors: BUFFER if 'out' has fewer items than
 * 'date_times' (the call then writes nothing), else that of the first rejected item. */
MUXANDU_NODISCARD MUXANDU_API
MuxanduBatch muxandu_seconds_from_date_times(const MuxanduDateTime *MUXANDU_RESTRICT date_times,
                                             size_t date_times_count, int64_t *MUXANDU_RESTRICT out,
                                             size_t out_count) MUXANDU_NOEXCEPT;

/* The date of each day number, up to the first that muxandu_date_from_day rejects. Errors:
 * BUFFER if 'out' has fewer items than 'days' (the call then writes nothing), else that of the
 * first rejected item. */
MUXANDU_NODISCARD MUXANDU_API
MuxanduBatch muxandu_dates_from_days(const int32_t *MUXANDU_RESTRICT days, size_t days_count,
                                     MuxanduDate *MUXANDU_RESTRICT out,
                                     size_t out_count) MUXANDU_NOEXCEPT;

/* The day number of each date, up to the first that muxandu_day_from_date rejects. Errors:
 * BUFFER if 'out' has fewer items than 'dates' (the call then writes nothing), else that of the
 * first rejected item. */
MUXANDU_NODISCARD MUXANDU_API
MuxanduBatch muxandu_days_from_dates(const MuxanduDate *MUXANDU_RESTRICT dates, size_t dates_count,
                                     int32_t *MUXANDU_RESTRICT out,
                                     size_t out_count) MUXANDU_NOEXCEPT;

/* The instant of each text of RFC 3339, up to the first that muxandu_timestamp_from_rfc3339
 * rejects. A span outside the block 'texts' fails with SPAN. Errors: BUFFER if 'out' has fewer
 * items than 'spans' (the call then writes nothing), else that of the first rejected item. */
MUXANDU_NODISCARD MUXANDU_API
MuxanduBatch muxandu_timestamps_from_rfc3339(const char *MUXANDU_RESTRICT texts, size_t texts_count,
                                             const MuxanduSpan *MUXANDU_RESTRICT spans,
                                             size_t spans_count,
                                             MuxanduTimestamp *MUXANDU_RESTRICT out,
                                             size_t out_count) MUXANDU_NOEXCEPT;

/* Checks that an hour, a minute, a second and a nanosecond make a time of day. Errors, in this
 * order: HOUR, MINUTE, SECOND, NANOSECOND. */
MUXANDU_NODISCARD MUXANDU_API
MuxanduStatus muxandu_time_check(uint32_t hour, uint32_t minute, uint32_t second,
                                 uint32_t nanosecond) MUXANDU_NOEXCEPT;

/* The date that is a number of days later, or earlier if it is negative. Errors, in this order:
 * those of the date, RESULT if out of range. */
MUXANDU_NODISCARD MUXANDU_API MUXANDU_NONNULL((3))
MuxanduStatus muxandu_date_add_days(MuxanduDate date, int32_t days,
                                    MuxanduDate *out) MUXANDU_NOEXCEPT;

/* The same day of the month a number of months later, or earlier if it is negative; in a shorter
 * month its last day. Errors, in this order: those of the date, RESULT if out of range. */
MUXANDU_NODISCARD MUXANDU_API MUXANDU_NONNULL((3))
MuxanduStatus muxandu_date_add_months(MuxanduDate date, int32_t months,
                                      MuxanduDate *out) MUXANDU_NOEXCEPT;

/* Writes the RFC 3339 text of a date, such as '1985-04-12', in 10 bytes, as
 * muxandu_date_time_text does. Errors, in this order: those of the date, NO_TEXT, BUFFER. */
MUXANDU_NODISCARD MUXANDU_API MUXANDU_NONNULL((4))
MuxanduStatus muxandu_date_to_rfc3339(MuxanduDate date, char *MUXANDU_RESTRICT buffer,
                                      size_t buffer_count,
                                      size_t *MUXANDU_RESTRICT size) MUXANDU_NOEXCEPT;

/* The date in an RFC 3339 text such as '1985-04-12', with nothing before or after it. Errors:
 * SYNTAX if the text has another form, else MONTH, DAY or DAY_OF_MONTH for the first part out of
 * range. */
MUXANDU_NODISCARD MUXANDU_API MUXANDU_NONNULL((3))
MuxanduStatus muxandu_date_from_rfc3339(const char *MUXANDU_RESTRICT text, size_t text_count,
                                        MuxanduDate *MUXANDU_RESTRICT out) MUXANDU_NOEXCEPT;

/* The items of a description, such as '[year]-[month]-[day]', in version 1 or 2 of its language:
 * docs/reference/FORMATS.md has both. Keep the items for the calls that take them. 'size' is
 * their number. Errors, in this order: UNIT if the version is neither 1 nor 2. SYNTAX if the
 * text is no description, with the place and the reason of its first fault: it has at most 128
 * items. BUFFER if 'items' has room for fewer. The call then writes nothing. */
MUXANDU_NODISCARD MUXANDU_API
MuxanduOutcome muxandu_description_parse(uint32_t version, const char *MUXANDU_RESTRICT text,
                                         size_t text_count, MuxanduItem *MUXANDU_RESTRICT items,
                                         size_t items_count) MUXANDU_NOEXCEPT;

/* Writes the text of items as a description in version 1 or 2 of its language to the front of
 * 'buffer'. 'size' is its length. muxandu_description_parse reads it back as the same items. It
 * has at most 10,241 bytes. Errors, in this order: UNIT if the version is neither 1 nor 2. UNIT
 * if a number is no item, or for more than 128 items. NO_TEXT or BUFFER, with the index of the
 * item and the reason. After an error 'buffer' is unchanged. */
MUXANDU_NODISCARD MUXANDU_API
MuxanduOutcome muxandu_description_text(uint32_t version, const MuxanduItem *MUXANDU_RESTRICT items,
                                        size_t items_count, char *MUXANDU_RESTRICT buffer,
                                        size_t buffer_count) MUXANDU_NOEXCEPT;

/* Writes the RFC 3339 text of a date-time with 'digits' digits of the fraction, in at most 35
 * bytes, as muxandu_date_time_text does. With three it is '1985-04-12T23:20:50.520Z'. The call
 * cuts further digits off, and takes a number above nine as nine. Errors, in this order: those
 * of the date-time, NO_TEXT, BUFFER. */
MUXANDU_NODISCARD MUXANDU_API MUXANDU_NONNULL((5))
MuxanduStatus muxandu_date_time_to_rfc3339_digits(MuxanduDateTime date_time, uint32_t digits,
                                                  char *MUXANDU_RESTRICT buffer,
                                                  size_t buffer_count,
                                                  size_t *MUXANDU_RESTRICT size) MUXANDU_NOEXCEPT;

/* The duration in a text such as '90 minutes', '1 day -0.5 seconds', '1h30m', 'PT36H' or '1.5'.
 * A term has an optional sign, a number and the name of a unit, in letters of any case: 'd',
 * 'h', 'm', 's', 'ms', 'us' or 'ns', or the word, such as 'day' or 'days'. The micro sign is
 * another 'u'. Blanks may precede and follow the name. A sign counts for all terms up to the
 * next sign or blank. A number alone is of seconds. The form of ISO 8601 has days, hours,
 * minutes and seconds. Each term is a whole number of nanoseconds. Errors, for the first part at
 * fault: SYNTAX, also for months and years, which have no fixed length; DURATION if a term, or
 * the sum with it, is out of range. */
MUXANDU_NODISCARD MUXANDU_API MUXANDU_NONNULL((3))
MuxanduStatus muxandu_duration_from_text(const char *MUXANDU_RESTRICT text, size_t text_count,
                                         MuxanduDuration *MUXANDU_RESTRICT out) MUXANDU_NOEXCEPT;

/* The index of the part at fault in a text that muxandu_duration_from_text rejects, or the
 * length of one that it reads: 4 for '2024-02-29', where a number without a unit ends, and 2 for
 * '1 month'. */
MUXANDU_API
size_t muxandu_duration_fault(const char *text, size_t text_count) MUXANDU_NOEXCEPT;

/* Writes the seconds of a duration as a signed decimal, such as '-0.5', in at most 31 bytes, as
 * muxandu_date_time_text does. The fraction has no zeros at its end, and a whole number has
 * none. muxandu_duration_from_text reads the text back. Errors, in this order: DURATION, BUFFER. */
MUXANDU_NODISCARD MUXANDU_API MUXANDU_NONNULL((4))
MuxanduStatus muxandu_duration_text(MuxanduDuration duration, char *MUXANDU_RESTRICT buffer,
                                    size_t buffer_count,
                                    size_t *MUXANDU_RESTRICT size) MUXANDU_NOEXCEPT;

/* The date-time of each Unix second at an offset in seconds, and the status of
 * muxandu_date_time_from_timestamp for it. If an item fails, its place in 'out' keeps its
 * contents, and the call continues with the next. 'count' is the number of converted items.
 * Errors: BUFFER if 'out' or 'statuses' has fewer items than 'seconds'; the call then writes
 * nothing. */
MUXANDU_NODISCARD MUXANDU_API
MuxanduBatch muxandu_date_times_from_each_second(const int64_t *MUXANDU_RESTRICT seconds,
                                                 size_t seconds_count, int32_t offset_seconds,
                                                 MuxanduDateTime *MUXANDU_RESTRICT out,
                                                 size_t out_count,
                                                 MuxanduStatus *MUXANDU_RESTRICT statuses,
                                                 size_t statuses_count) MUXANDU_NOEXCEPT;

/* The Unix second of each date-time, rounded down, and the status of
 * muxandu_timestamp_from_date_time for it. If an item fails, its place in 'out' keeps its
 * contents, and the call continues with the next. 'count' is the number of converted items.
 * Errors: BUFFER if 'out' or 'statuses' has fewer items than 'date_times'; the call then writes
 * nothing. */
MUXANDU_NODISCARD MUXANDU_API
MuxanduBatch muxandu_seconds_from_each_date_time(const MuxanduDateTime *MUXANDU_RESTRICT date_times,
                                                 size_t date_times_count,
                                                 int64_t *MUXANDU_RESTRICT out, size_t out_count,
                                                 MuxanduStatus *MUXANDU_RESTRICT statuses,
                                                 size_t statuses_count) MUXANDU_NOEXCEPT;

/* The date-time of each moment, at its own offset, and the status of
 * muxandu_date_time_from_timestamp for it. If an item fails, its place in 'out' keeps its
 * contents, and the call continues with the next. 'count' is the number of converted items.
 * Errors: BUFFER if 'out' or 'statuses' has fewer items than 'moments'; the call then writes
 * nothing. */
MUXANDU_NODISCARD MUXANDU_API
MuxanduBatch muxandu_date_times_from_each_moment(const MuxanduMoment *MUXANDU_RESTRICT moments,
                                                 size_t moments_count,
                                                 MuxanduDateTime *MUXANDU_RESTRICT out,
                                                 size_t out_count,
                                                 MuxanduStatus *MUXANDU_RESTRICT statuses,
                                                 size_t statuses_count) MUXANDU_NOEXCEPT;

/* The moment of each date-time, and the status of muxandu_timestamp_from_date_time for it. If an
 * item fails, its place in 'out' keeps its contents, and the call continues with the next.
 * 'count' is the number of converted items. Errors: BUFFER if 'out' or 'statuses' has fewer
 * items than 'date_times'; the call then writes nothing. */
MUXANDU_NODISCARD MUXANDU_API
MuxanduBatch muxandu_moments_from_each_date_time(const MuxanduDateTime *MUXANDU_RESTRICT date_times,
                                                 size_t date_times_count,
                                                 MuxanduMoment *MUXANDU_RESTRICT out,
                                                 size_t out_count,
                                                 MuxanduStatus *MUXANDU_RESTRICT statuses,
                                                 size_t statuses_count) MUXANDU_NOEXCEPT;

/* The same instant of each moment at another offset in seconds, and the status of
 * muxandu_date_time_to_offset for it. If an item fails, its place in 'out' keeps its contents,
 * and the call continues with the next. 'count' is the number of converted items. Errors: BUFFER
 * if 'out' or 'statuses' has fewer items than 'moments'; the call then writes nothing. */
MUXANDU_NODISCARD MUXANDU_API
MuxanduBatch muxandu_each_moment_to_offset(const MuxanduMoment *MUXANDU_RESTRICT moments,
                                           size_t moments_count, int32_t offset_seconds,
                                           MuxanduMoment *MUXANDU_RESTRICT out, size_t out_count,
                                           MuxanduStatus *MUXANDU_RESTRICT statuses,
                                           size_t statuses_count) MUXANDU_NOEXCEPT;

/* Each moment, rounded down to a unit by its own clocks, and the status of
 * muxandu_date_time_truncate for it. If an item fails, its place in 'out' keeps its contents,
 * and the call continues with the next. 'count' is the number of converted items. Errors: BUFFER
 * if 'out' or 'statuses' has fewer items than 'moments'; the call then writes nothing. */
MUXANDU_NODISCARD MUXANDU_API
MuxanduBatch muxandu_each_moment_truncate(const MuxanduMoment *MUXANDU_RESTRICT moments,
                                          size_t moments_count, MuxanduUnit unit,
                                          MuxanduMoment *MUXANDU_RESTRICT out, size_t out_count,
                                          MuxanduStatus *MUXANDU_RESTRICT statuses,
                                          size_t statuses_count) MUXANDU_NOEXCEPT;

/* Each moment a number of months later, or earlier if it is negative, at the same local time and
 * offset; in a shorter month on its last day, and the status of muxandu_date_add_months for it.
 * If an item fails, its place in 'out' keeps its contents, and the call continues with the next.
 * 'count' is the number of converted items. Errors: BUFFER if 'out' or 'statuses' has fewer
 * items than 'moments'; the call then writes nothing. */
MUXANDU_NODISCARD MUXANDU_API
MuxanduBatch muxandu_each_moment_add_months(const MuxanduMoment *MUXANDU_RESTRICT moments,
                                            size_t moments_count, int32_t months,
                                            MuxanduMoment *MUXANDU_RESTRICT out, size_t out_count,
                                            MuxanduStatus *MUXANDU_RESTRICT statuses,
                                            size_t statuses_count) MUXANDU_NOEXCEPT;

/* The instant and the offset in each text of RFC 3339, and the status of
 * muxandu_date_time_from_rfc3339 for it. The status is SPAN for a span outside the block
 * 'texts'. If an item fails, its place in 'out' keeps its contents, and the call continues with
 * the next. 'count' is the number of converted items. Errors: BUFFER if 'out' or 'statuses' has
 * fewer items than 'spans'; the call then writes nothing. */
MUXANDU_NODISCARD MUXANDU_API
MuxanduBatch muxandu_moments_from_each_rfc3339(const char *MUXANDU_RESTRICT texts,
                                               size_t texts_count,
                                               const MuxanduSpan *MUXANDU_RESTRICT spans,
                                               size_t spans_count,
                                               MuxanduMoment *MUXANDU_RESTRICT out,
                                               size_t out_count,
                                               MuxanduStatus *MUXANDU_RESTRICT statuses,
                                               size_t statuses_count) MUXANDU_NOEXCEPT;

/* Writes the text of each date-time into the block 'texts', one after the other with nothing
 * between, its place to 'spans', and the status of muxandu_date_time_to_rfc3339 for it. The
 * status is BUFFER if the rest of 'texts' is too short. If an item fails, its span is empty, and
 * the call continues with the next. 'count' is the number of written texts. Errors: BUFFER if
 * 'spans' or 'statuses' has fewer items than 'date_times'; the call then writes nothing. */
MUXANDU_NODISCARD MUXANDU_API
MuxanduBatch muxandu_each_date_time_to_rfc3339(const MuxanduDateTime *MUXANDU_RESTRICT date_times,
                                               size_t date_times_count,
                                               char *MUXANDU_RESTRICT texts, size_t texts_count,
                                               MuxanduSpan *MUXANDU_RESTRICT spans,
                                               size_t spans_count,
                                               MuxanduStatus *MUXANDU_RESTRICT statuses,
                                               size_t statuses_count) MUXANDU_NOEXCEPT;

/* Writes the shortest RFC 3339 text of a date-time, in at most 35 bytes, as
 * muxandu_date_time_text does. Examples are '1985-04-12T23:20:50.52Z' and
 * '1996-12-19T16:39:57-08:00'. Errors, in this order: those of the date-time, NO_TEXT, BUFFER. */
MUXANDU_NODISCARD MUXANDU_API MUXANDU_NONNULL((4))
MuxanduStatus muxandu_date_time_to_rfc3339(MuxanduDateTime date_time, char *MUXANDU_RESTRICT buffer,
                                           size_t buffer_count,
                                           size_t *MUXANDU_RESTRICT size) MUXANDU_NOEXCEPT;

/* Writes the shortest RFC 3339 text of an instant in UTC, such as '1985-04-12T23:20:50.52Z', in
 * at most 30 bytes, as muxandu_date_time_text does. Errors, in this order: those of the
 * timestamp, NO_TEXT, BUFFER. */
MUXANDU_NODISCARD MUXANDU_API MUXANDU_NONNULL((4))
MuxanduStatus muxandu_timestamp_to_rfc3339(MuxanduTimestamp at, char *MUXANDU_RESTRICT buffer,
                                           size_t buffer_count,
                                           size_t *MUXANDU_RESTRICT size) MUXANDU_NOEXCEPT;

/* Writes the RFC 3339 text of an instant in UTC with nine digits of the fraction, such as
 * '1985-04-12T23:20:50.520000000Z', in 30 bytes, as muxandu_date_time_text does. Such texts
 * compare byte by byte as their instants do. Errors, in this order: those of the timestamp,
 * NO_TEXT, BUFFER. */
MUXANDU_NODISCARD MUXANDU_API MUXANDU_NONNULL((4))
MuxanduStatus muxandu_timestamp_to_rfc3339_nanos(MuxanduTimestamp at, char *MUXANDU_RESTRICT buffer,
                                                 size_t buffer_count,
                                                 size_t *MUXANDU_RESTRICT size) MUXANDU_NOEXCEPT;

/* The date-time and the offset in an RFC 3339 text, with nothing before or after it. Examples
 * are '1985-04-12T23:20:50.52Z' and '1996-12-19T16:39:57-08:00'. 't' or a space may replace the
 * 'T', and 'z' the 'Z'. The call drops digits past the ninth of the fraction, and reads '-00:00'
 * as the offset 0. Errors: SYNTAX if the text has another form, else that of the first part out
 * of range: MONTH, DAY or DAY_OF_MONTH, HOUR, MINUTE, SECOND, OFFSET_HOUR, OFFSET_MINUTE. */
MUXANDU_NODISCARD MUXANDU_API MUXANDU_NONNULL((3))
MuxanduStatus muxandu_date_time_from_rfc3339(const char *MUXANDU_RESTRICT text, size_t text_count,
                                             MuxanduDateTime *MUXANDU_RESTRICT out) MUXANDU_NOEXCEPT;

/* The instant of an RFC 3339 text, as muxandu_date_time_from_rfc3339 reads it. Errors: those of
 * that call. */
MUXANDU_NODISCARD MUXANDU_API MUXANDU_NONNULL((3))
MuxanduStatus muxandu_timestamp_from_rfc3339(const char *MUXANDU_RESTRICT text, size_t text_count,
                                             MuxanduTimestamp *MUXANDU_RESTRICT out) MUXANDU_NOEXCEPT;

/* The place of a field in each line of the block 'texts', and the number of lines in 'count'.
 * Fields count from 0. A field ends before 'separator' or before the end of its line. A field
 * that begins with 'quote' contains separators and newlines up to the quote that closes it, the
 * next single one. Two quotes in a row within it are part of the field, and stay two. If the
 * closing quote is its last byte, its span has the bytes between the two quotes. If other bytes
 * follow, or no quote closes it, its span has all bytes of the field. Each line ends with a
 * newline, or with a carriage return and a newline, and the last line may end with the block. A
 * line with fewer fields has an empty span, at its newline or at the end of the block. If
 * 'quote' equals 'separator', no field has quotes. Errors: BUFFER if 'out' has fewer items than
 * there are lines; the call then writes those of the first lines. */
MUXANDU_NODISCARD MUXANDU_API
MuxanduBatch muxandu_field_spans(const char *MUXANDU_RESTRICT texts, size_t texts_count,
                                 size_t field, uint8_t separator, uint8_t quote,
                                 MuxanduSpan *MUXANDU_RESTRICT out,
                                 size_t out_count) MUXANDU_NOEXCEPT;

/* Writes the text of a date-time as the items say to the front of 'buffer', and its length to
 * 'size'. The text has at most 64 bytes, all ASCII. 'kind' says which of its parts the value
 * has. Errors, in this order: UNIT if a number is no item, or for more than 128 items. Those of
 * the date-time. UNIT if 'kind' is none. NO_TEXT if the kind lacks a component of the items.
 * NO_TEXT for a text of more than 64 bytes, or with one that is not ASCII. BUFFER if the text is
 * longer than 'buffer': 'size' is then its length, and 'buffer' is unchanged. */
MUXANDU_NODISCARD MUXANDU_API MUXANDU_NONNULL((7))
MuxanduStatus muxandu_format_items(MuxanduKind kind, const MuxanduItem *MUXANDU_RESTRICT items,
                                   size_t items_count, MuxanduDateTime date_time,
                                   char *MUXANDU_RESTRICT buffer, size_t buffer_count,
                                   size_t *MUXANDU_RESTRICT size) MUXANDU_NOEXCEPT;

/* Writes the text of a date-time by a description in version 2 of its language, such as
 * '[year]-[month]-[day]', as muxandu_format_items does. Errors, in this order: SYNTAX if the
 * text is no description: muxandu_description_parse returns the place and the reason. Those of
 * muxandu_format_items. */
MUXANDU_NODISCARD MUXANDU_API MUXANDU_NONNULL((7))
MuxanduStatus muxandu_format(MuxanduKind kind, const char *MUXANDU_RESTRICT description,
                             size_t description_count, MuxanduDateTime date_time,
                             char *MUXANDU_RESTRICT buffer, size_t buffer_count,
                             size_t *MUXANDU_RESTRICT size) MUXANDU_NOEXCEPT;

/* Writes the text of each date-time as the items say into the block 'texts', one after the other
 * with nothing between, and its place to 'spans'. It stops at the first that
 * muxandu_format_items rejects, with BUFFER if the rest of 'texts' is too short. Errors, in this
 * order: UNIT if a number is no item, or for more than 128 items. BUFFER if 'spans' has fewer
 * items than 'date_times'. The call then writes nothing. Else that of the first rejected item. */
MUXANDU_NODISCARD MUXANDU_API
MuxanduBatch muxandu_format_all(MuxanduKind kind, const MuxanduItem *MUXANDU_RESTRICT items,
                                size_t items_count,
                                const MuxanduDateTime *MUXANDU_RESTRICT date_times,
                                size_t date_times_count, char *MUXANDU_RESTRICT texts,
                                size_t texts_count, MuxanduSpan *MUXANDU_RESTRICT spans,
                                size_t spans_count) MUXANDU_NOEXCEPT;

/* The date-time and the offset at the front of a text, as muxandu_date_time_from_rfc3339 reads
 * them. Writes the number of bytes it read to 'size': 23 for '1985-04-12T23:20:50.52Z done'.
 * Errors: SYNTAX if no front of the text has that form, else those of that call. */
MUXANDU_NODISCARD MUXANDU_API MUXANDU_NONNULL((3, 4))
MuxanduStatus muxandu_date_time_from_rfc3339_front(const char *MUXANDU_RESTRICT text,
                                                   size_t text_count,
                                                   MuxanduDateTime *MUXANDU_RESTRICT out,
                                                   size_t *MUXANDU_RESTRICT size) MUXANDU_NOEXCEPT;

/* The index of the fault in a text that fails with SYNTAX: 10 for '1985-04-12_23:20:50Z'. No RFC
 * 3339 date-time continues with the byte at that index; or the text ends there, too early. For a
 * text that has the form it is the length of the text. */
MUXANDU_API
size_t muxandu_rfc3339_fault(const char *text, size_t text_count) MUXANDU_NOEXCEPT;

/* The time of day and the offset in an RFC 3339 text such as '12:34:56.5+01:00', with nothing
 * before or after them. The call drops digits past the ninth of the fraction. Errors: SYNTAX if
 * the text has another form, else HOUR, MINUTE, SECOND, OFFSET_HOUR or OFFSET_MINUTE for the
 * first part out of range. */
MUXANDU_NODISCARD MUXANDU_API MUXANDU_NONNULL((3, 4))
MuxanduStatus muxandu_full_time_from_rfc3339(const char *MUXANDU_RESTRICT text, size_t text_count,
                                             MuxanduTime *MUXANDU_RESTRICT out,
                                             int32_t *MUXANDU_RESTRICT offset_seconds) MUXANDU_NOEXCEPT;

/* The index of the fault in a text that muxandu_full_time_from_rfc3339 rejects with SYNTAX, as
 * muxandu_plain_fault returns it: 10 for '23:20:50+1:00'. */
MUXANDU_API
size_t muxandu_full_time_fault(const char *text, size_t text_count) MUXANDU_NOEXCEPT;

/* The seconds of the offset in an RFC 3339 text such as '+05:30' or 'Z', with nothing before or
 * after it. Errors: SYNTAX if the text has another form, else OFFSET_HOUR or OFFSET_MINUTE for
 * the first part out of range. */
MUXANDU_NODISCARD MUXANDU_API MUXANDU_NONNULL((3))
MuxanduStatus muxandu_offset_from_rfc3339(const char *MUXANDU_RESTRICT text, size_t text_count,
                                          int32_t *MUXANDU_RESTRICT out) MUXANDU_NOEXCEPT;

/* The date-time of each moment, at its own offset, past gaps and up to the first that
 * muxandu_date_time_from_timestamp rejects. A gap, a row with -9223372036854775808 seconds,
 * leads to a date-time of zeros; 'gaps' is the number of gaps among the 'count' rows. Errors:
 * BUFFER if 'out' has fewer items than 'moments' (the call then writes no item), else that of
 * the first rejected item. */
MUXANDU_NODISCARD MUXANDU_API MUXANDU_NONNULL((5))
MuxanduBatch muxandu_date_times_past_gaps(const MuxanduMoment *MUXANDU_RESTRICT moments,
                                          size_t moments_count,
                                          MuxanduDateTime *MUXANDU_RESTRICT out, size_t out_count,
                                          size_t *MUXANDU_RESTRICT gaps) MUXANDU_NOEXCEPT;

/* The same instant of each moment at another offset in seconds, past gaps and up to the first
 * that muxandu_date_time_to_offset rejects. A gap, a row with -9223372036854775808 seconds,
 * leads to a gap; 'gaps' is the number of gaps among the 'count' rows. Errors: BUFFER if 'out'
 * has fewer items than 'moments' (the call then writes no item), else that of the first rejected
 * item. */
MUXANDU_NODISCARD MUXANDU_API MUXANDU_NONNULL((6))
MuxanduBatch muxandu_moments_to_offset_past_gaps(const MuxanduMoment *MUXANDU_RESTRICT moments,
                                                 size_t moments_count, int32_t offset_seconds,
                                                 MuxanduMoment *MUXANDU_RESTRICT out,
                                                 size_t out_count,
                                                 size_t *MUXANDU_RESTRICT gaps) MUXANDU_NOEXCEPT;

/* Each moment, rounded down to a unit by its own clocks, past gaps and up to the first that
 * muxandu_date_time_truncate rejects. A gap, a row with -9223372036854775808 seconds, leads to a
 * gap; 'gaps' is the number of gaps among the 'count' rows. Errors: BUFFER if 'out' has fewer
 * items than 'moments' (the call then writes no item), else that of the first rejected item. */
MUXANDU_NODISCARD MUXANDU_API MUXANDU_NONNULL((6))
MuxanduBatch muxandu_moments_truncate_past_gaps(const MuxanduMoment *MUXANDU_RESTRICT moments,
                                                size_t moments_count, MuxanduUnit unit,
                                                MuxanduMoment *MUXANDU_RESTRICT out,
                                                size_t out_count,
                                                size_t *MUXANDU_RESTRICT gaps) MUXANDU_NOEXCEPT;

/* Each moment a number of months later, or earlier if it is negative, at the same local time and
 * offset; in a shorter month on its last day, past gaps and up to the first that
 * muxandu_date_add_months rejects. A gap, a row with -9223372036854775808 seconds, leads to a
 * gap; 'gaps' is the number of gaps among the 'count' rows. Errors: BUFFER if 'out' has fewer
 * items than 'moments' (the call then writes no item), else that of the first rejected item. */
MUXANDU_NODISCARD MUXANDU_API MUXANDU_NONNULL((6))
MuxanduBatch muxandu_moments_add_months_past_gaps(const MuxanduMoment *MUXANDU_RESTRICT moments,
                                                  size_t moments_count, int32_t months,
                                                  MuxanduMoment *MUXANDU_RESTRICT out,
                                                  size_t out_count,
                                                  size_t *MUXANDU_RESTRICT gaps) MUXANDU_NOEXCEPT;

/* Each moment plus the duration at its place, at the same offset, past gaps and up to the first
 * pair that muxandu_date_time_add rejects. A pair with a gap leads to a gap. A moment with
 * -9223372036854775808 seconds is a gap, and so is a duration with 9223372036854775807 seconds
 * and 2147483647 nanoseconds. 'gaps' is the number of such pairs among the 'count' pairs.
 * Errors: BUFFER if 'out' or 'durations' has fewer items than 'moments' (the call then writes no
 * item), else that of the first rejected pair. */
MUXANDU_NODISCARD MUXANDU_API MUXANDU_NONNULL((7))
MuxanduBatch muxandu_moments_add_past_gaps(const MuxanduMoment *MUXANDU_RESTRICT moments,
                                           size_t moments_count,
                                           const MuxanduDuration *MUXANDU_RESTRICT durations,
                                           size_t durations_count,
                                           MuxanduMoment *MUXANDU_RESTRICT out, size_t out_count,
                                           size_t *MUXANDU_RESTRICT gaps) MUXANDU_NOEXCEPT;

/* Each moment minus the duration at its place, at the same offset, past gaps and up to the first
 * pair that muxandu_date_time_subtract rejects. A pair with a gap leads to a gap. A moment with
 * -9223372036854775808 seconds is a gap, and so is a duration with 9223372036854775807 seconds
 * and 2147483647 nanoseconds. 'gaps' is the number of such pairs among the 'count' pairs.
 * Errors: BUFFER if 'out' or 'durations' has fewer items than 'moments' (the call then writes no
 * item), else that of the first rejected pair. */
MUXANDU_NODISCARD MUXANDU_API MUXANDU_NONNULL((7))
MuxanduBatch muxandu_moments_subtract_past_gaps(const MuxanduMoment *MUXANDU_RESTRICT moments,
                                                size_t moments_count,
                                                const MuxanduDuration *MUXANDU_RESTRICT durations,
                                                size_t durations_count,
                                                MuxanduMoment *MUXANDU_RESTRICT out,
                                                size_t out_count,
                                                size_t *MUXANDU_RESTRICT gaps) MUXANDU_NOEXCEPT;

/* The order of each moment and the one at its place in 'others': -1 if it comes first, 0 if both
 * are one instant, else 1, past gaps and up to the first pair that muxandu_date_time_compare
 * rejects. A pair with a gap, a row with -9223372036854775808 seconds, leads to 2; 'gaps' is the
 * number of such pairs among the 'count' pairs. Errors: BUFFER if 'out' or 'others' has fewer
 * items than 'firsts' (the call then writes no item), else that of the first rejected pair. */
MUXANDU_NODISCARD MUXANDU_API MUXANDU_NONNULL((7))
MuxanduBatch muxandu_moments_compare_past_gaps(const MuxanduMoment *MUXANDU_RESTRICT firsts,
                                               size_t firsts_count,
                                               const MuxanduMoment *MUXANDU_RESTRICT others,
                                               size_t others_count, int32_t *MUXANDU_RESTRICT out,
                                               size_t out_count,
                                               size_t *MUXANDU_RESTRICT gaps) MUXANDU_NOEXCEPT;

/* The duration to each moment from the one at its place in 'earlier', by instant, past gaps and
 * up to the first pair that muxandu_date_time_difference rejects. A row with
 * -9223372036854775808 seconds is a gap. A pair with a gap leads to a duration with
 * 9223372036854775807 seconds and 2147483647 nanoseconds. 'gaps' is the number of such pairs
 * among the 'count' pairs. Errors: BUFFER if 'out' or 'earlier' has fewer items than 'later'
 * (the call then writes no item), else that of the first rejected pair. */
MUXANDU_NODISCARD MUXANDU_API MUXANDU_NONNULL((7))
MuxanduBatch muxandu_moments_difference_past_gaps(const MuxanduMoment *MUXANDU_RESTRICT later,
                                                  size_t later_count,
                                                  const MuxanduMoment *MUXANDU_RESTRICT earlier,
                                                  size_t earlier_count,
                                                  MuxanduDuration *MUXANDU_RESTRICT out,
                                                  size_t out_count,
                                                  size_t *MUXANDU_RESTRICT gaps) MUXANDU_NOEXCEPT;

/* Writes the ISO 8601 text of a date-time, in at most 41 bytes, as muxandu_date_time_text does.
 * Every date-time has one. It is the text of muxandu_date_time_to_rfc3339 if there is one. Else
 * the year has a sign and six digits, such as '-004712-11-24T12:00:00Z', or the offset has
 * seconds, such as '+01:19:32'. muxandu_date_time_from_iso reads it back. Errors, in this order:
 * those of the date-time, BUFFER. */
MUXANDU_NODISCARD MUXANDU_API MUXANDU_NONNULL((4))
MuxanduStatus muxandu_date_time_to_iso(MuxanduDateTime date_time, char *MUXANDU_RESTRICT buffer,
                                       size_t buffer_count,
                                       size_t *MUXANDU_RESTRICT size) MUXANDU_NOEXCEPT;

/* The date-time and the offset in an ISO 8601 text, with nothing before or after it: one that
 * muxandu_date_time_from_rfc3339 reads, or with a sign and six digits of the year, such as
 * '-004712-11-24T12:00:00Z'. The offset has at most 25 hours, and seconds can follow its
 * minutes, 00 to 59, as in '+01:19:32'. '-000000' is the year 0. Errors: SYNTAX if the text has
 * another form, else that of the first part out of range: MONTH, DAY or DAY_OF_MONTH, HOUR,
 * MINUTE, SECOND, OFFSET_HOUR, OFFSET_MINUTE. */
MUXANDU_NODISCARD MUXANDU_API MUXANDU_NONNULL((3))
MuxanduStatus muxandu_date_time_from_iso(const char *MUXANDU_RESTRICT text, size_t text_count,
                                         MuxanduDateTime *MUXANDU_RESTRICT out) MUXANDU_NOEXCEPT;

/* The index of the fault in a text that muxandu_date_time_from_iso rejects with SYNTAX: 7 for
 * '-004712'. No date-time of the form continues with the byte at that index; or the text ends
 * there, too early. For a text that has the form it is the length of the text. */
MUXANDU_API
size_t muxandu_iso_fault(const char *text, size_t text_count) MUXANDU_NOEXCEPT;

/* The date-time and the offset in a text, as muxandu_date_time_from_rfc3339 reads them, also
 * with a second of 60, as in '2016-12-31T23:59:60Z'. A leap second is valid only as the last
 * second of a month in UTC. It becomes the last nanosecond before the next month, for any
 * fraction; 'is_leap' is then 1, else 0. So values keep the order of their texts. Errors: those
 * of that call, with SECOND above 60; then SECOND if no month ends with a second of 60. */
MUXANDU_NODISCARD MUXANDU_API MUXANDU_NONNULL((3, 4))
MuxanduStatus muxandu_date_time_from_rfc3339_leap(const char *MUXANDU_RESTRICT text,
                                                  size_t text_count,
                                                  MuxanduDateTime *MUXANDU_RESTRICT out,
                                                  uint8_t *MUXANDU_RESTRICT is_leap) MUXANDU_NOEXCEPT;

/* The date-time in each text of RFC 3339, with or without an offset, up to the first that
 * muxandu_date_time_from_local rejects at 'offset_seconds'. A span outside the block 'texts'
 * fails with SPAN. Errors: BUFFER if 'out' has fewer items than 'spans' (the call then writes
 * nothing), else that of the first rejected item. */
MUXANDU_NODISCARD MUXANDU_API
MuxanduBatch muxandu_date_times_from_local(const char *MUXANDU_RESTRICT texts, size_t texts_count,
                                           const MuxanduSpan *MUXANDU_RESTRICT spans,
                                           size_t spans_count, int32_t offset_seconds,
                                           MuxanduDateTime *MUXANDU_RESTRICT out,
                                           size_t out_count) MUXANDU_NOEXCEPT;

/* The date-time in each text of RFC 3339, with or without an offset, and the status of
 * muxandu_date_time_from_local for it at 'offset_seconds'. The status is SPAN for a span outside
 * the block 'texts'. If an item fails, its place in 'out' keeps its contents, and the call
 * continues with the next. 'count' is the number of converted items. Errors: BUFFER if 'out' or
 * 'statuses' has fewer items than 'spans'; the call then writes nothing. */
MUXANDU_NODISCARD MUXANDU_API
MuxanduBatch muxandu_date_times_from_each_local(const char *MUXANDU_RESTRICT texts,
                                                size_t texts_count,
                                                const MuxanduSpan *MUXANDU_RESTRICT spans,
                                                size_t spans_count, int32_t offset_seconds,
                                                MuxanduDateTime *MUXANDU_RESTRICT out,
                                                size_t out_count,
                                                MuxanduStatus *MUXANDU_RESTRICT statuses,
                                                size_t statuses_count) MUXANDU_NOEXCEPT;

/* The date-time in each text of RFC 3339, with or without an offset, up to the first that
 * muxandu_date_time_from_local rejects at the offset at its place in 'offsets'. A span outside
 * the block 'texts' fails with SPAN. Errors: BUFFER if 'out' or 'offsets' has fewer items than
 * 'spans' (the call then writes nothing), else that of the first rejected item. */
MUXANDU_NODISCARD MUXANDU_API
MuxanduBatch muxandu_date_times_from_local_at(const char *MUXANDU_RESTRICT texts,
                                              size_t texts_count,
                                              const MuxanduSpan *MUXANDU_RESTRICT spans,
                                              size_t spans_count,
                                              const int32_t *MUXANDU_RESTRICT offsets,
                                              size_t offsets_count,
                                              MuxanduDateTime *MUXANDU_RESTRICT out,
                                              size_t out_count) MUXANDU_NOEXCEPT;

/* The date-time in each text of RFC 3339, with or without an offset, and the status of
 * muxandu_date_time_from_local for it at the offset at its place in 'offsets'. The status is
 * SPAN for a span outside the block 'texts'. If an item fails, its place in 'out' keeps its
 * contents, and the call continues with the next. 'count' is the number of converted items.
 * Errors: BUFFER if 'out', 'offsets' or 'statuses' has fewer items than 'spans'; the call then
 * writes nothing. */
MUXANDU_NODISCARD MUXANDU_API
MuxanduBatch muxandu_date_times_from_each_local_at(const char *MUXANDU_RESTRICT texts,
                                                   size_t texts_count,
                                                   const MuxanduSpan *MUXANDU_RESTRICT spans,
                                                   size_t spans_count,
                                                   const int32_t *MUXANDU_RESTRICT offsets,
                                                   size_t offsets_count,
                                                   MuxanduDateTime *MUXANDU_RESTRICT out,
                                                   size_t out_count,
                                                   MuxanduStatus *MUXANDU_RESTRICT statuses,
                                                   size_t statuses_count) MUXANDU_NOEXCEPT;

/* The moment in each text of RFC 3339, with or without an offset, up to the first that
 * muxandu_date_time_from_local rejects at 'offset_seconds'. A span outside the block 'texts'
 * fails with SPAN. Errors: BUFFER if 'out' has fewer items than 'spans' (the call then writes
 * nothing), else that of the first rejected item. */
MUXANDU_NODISCARD MUXANDU_API
MuxanduBatch muxandu_moments_from_local(const char *MUXANDU_RESTRICT texts, size_t texts_count,
                                        const MuxanduSpan *MUXANDU_RESTRICT spans,
                                        size_t spans_count, int32_t offset_seconds,
                                        MuxanduMoment *MUXANDU_RESTRICT out,
                                        size_t out_count) MUXANDU_NOEXCEPT;

/* The moment in each text of RFC 3339, with or without an offset, and the status of
 * muxandu_date_time_from_local for it at 'offset_seconds'. The status is SPAN for a span outside
 * the block 'texts'. If an item fails, its place in 'out' keeps its contents, and the call
 * continues with the next. 'count' is the number of converted items. Errors: BUFFER if 'out' or
 * 'statuses' has fewer items than 'spans'; the call then writes nothing. */
MUXANDU_NODISCARD MUXANDU_API
MuxanduBatch muxandu_moments_from_each_local(const char *MUXANDU_RESTRICT texts, size_t texts_count,
                                             const MuxanduSpan *MUXANDU_RESTRICT spans,
                                             size_t spans_count, int32_t offset_seconds,
                                             MuxanduMoment *MUXANDU_RESTRICT out, size_t out_count,
                                             MuxanduStatus *MUXANDU_RESTRICT statuses,
                                             size_t statuses_count) MUXANDU_NOEXCEPT;

/* The moment in each text of RFC 3339, with or without an offset, up to the first that
 * muxandu_date_time_from_local rejects at the offset at its place in 'offsets'. A span outside
 * the block 'texts' fails with SPAN. Errors: BUFFER if 'out' or 'offsets' has fewer items than
 * 'spans' (the call then writes nothing), else that of the first rejected item. */
MUXANDU_NODISCARD MUXANDU_API
MuxanduBatch muxandu_moments_from_local_at(const char *MUXANDU_RESTRICT texts, size_t texts_count,
                                           const MuxanduSpan *MUXANDU_RESTRICT spans,
                                           size_t spans_count,
                                           const int32_t *MUXANDU_RESTRICT offsets,
                                           size_t offsets_count,
                                           MuxanduMoment *MUXANDU_RESTRICT out,
                                           size_t out_count) MUXANDU_NOEXCEPT;

/* The moment in each text of RFC 3339, with or without an offset, and the status of
 * muxandu_date_time_from_local for it at the offset at its place in 'offsets'. The status is
 * SPAN for a span outside the block 'texts'. If an item fails, its place in 'out' keeps its
 * contents, and the call continues with the next. 'count' is the number of converted items.
 * Errors: BUFFER if 'out', 'offsets' or 'statuses' has fewer items than 'spans'; the call then
 * writes nothing. */
MUXANDU_NODISCARD MUXANDU_API
MuxanduBatch muxandu_moments_from_each_local_at(const char *MUXANDU_RESTRICT texts,
                                                size_t texts_count,
                                                const MuxanduSpan *MUXANDU_RESTRICT spans,
                                                size_t spans_count,
                                                const int32_t *MUXANDU_RESTRICT offsets,
                                                size_t offsets_count,
                                                MuxanduMoment *MUXANDU_RESTRICT out,
                                                size_t out_count,
                                                MuxanduStatus *MUXANDU_RESTRICT statuses,
                                                size_t statuses_count) MUXANDU_NOEXCEPT;

/* The date and the time of day in an RFC 3339 text without an offset, with nothing before or
 * after it, such as '2024-02-29T12:34:56.5'. The call sets 'offset_seconds' to 0, and reads all
 * else as muxandu_date_time_from_rfc3339 does. Errors: SYNTAX if the text has another form, else
 * that of the first part out of range: MONTH, DAY or DAY_OF_MONTH, HOUR, MINUTE, SECOND. */
MUXANDU_NODISCARD MUXANDU_API MUXANDU_NONNULL((3))
MuxanduStatus muxandu_date_time_from_plain(const char *MUXANDU_RESTRICT text, size_t text_count,
                                           MuxanduDateTime *MUXANDU_RESTRICT out) MUXANDU_NOEXCEPT;

/* The date-time in an RFC 3339 text with or without an offset. The call reads a text with an
 * offset as muxandu_date_time_from_rfc3339 does. It reads a text without an offset as
 * muxandu_date_time_from_plain does, and sets its offset to 'offset_seconds'. Errors:
 * OFFSET_SECONDS, SYNTAX if the text has another form, else that of the first part out of range:
 * MONTH, DAY or DAY_OF_MONTH, HOUR, MINUTE, SECOND, OFFSET_HOUR, OFFSET_MINUTE. */
MUXANDU_NODISCARD MUXANDU_API MUXANDU_NONNULL((4))
MuxanduStatus muxandu_date_time_from_local(const char *MUXANDU_RESTRICT text, size_t text_count,
                                           int32_t offset_seconds,
                                           MuxanduDateTime *MUXANDU_RESTRICT out) MUXANDU_NOEXCEPT;

/* The time of day in an RFC 3339 text such as '12:34:56.5', with nothing before or after it. The
 * call drops digits past the ninth of the fraction. Errors: SYNTAX if the text has another form,
 * else HOUR, MINUTE or SECOND for the first part out of range. */
MUXANDU_NODISCARD MUXANDU_API MUXANDU_NONNULL((3))
MuxanduStatus muxandu_time_from_rfc3339(const char *MUXANDU_RESTRICT text, size_t text_count,
                                        MuxanduTime *MUXANDU_RESTRICT out) MUXANDU_NOEXCEPT;

/* The index of the fault in a text that muxandu_date_time_from_plain rejects with SYNTAX: 19 for
 * '1985-04-12T23:20:50Z'. No date-time without an offset continues with the byte at that index;
 * or the text ends there, too early. For a text that has the form it is the length of the text. */
MUXANDU_API
size_t muxandu_plain_fault(const char *text, size_t text_count) MUXANDU_NOEXCEPT;

/* The index of the fault in a text that muxandu_time_from_rfc3339 rejects with SYNTAX, as
 * muxandu_plain_fault returns it: 5 for '23:20Z'. */
MUXANDU_API
size_t muxandu_time_fault(const char *text, size_t text_count) MUXANDU_NOEXCEPT;

/* The date-time and the offset in a text of RFC 2822, such as 'Sun, 06 Nov 1994 08:49:37 +0000',
 * which mail, RSS and HTTP have. The day of the week and the second can be absent, and a year
 * can have two digits. The offset can be 'GMT', 'UTC', a zone such as 'EST', or one letter,
 * which is UTC. White space may have any length, and comments may follow. Errors, in this order:
 * SYNTAX if the text has another form, such as a year with a sign or before 1900. RESULT if a
 * part is out of range, or if the day of the week is another than that of the date. */
MUXANDU_NODISCARD MUXANDU_API MUXANDU_NONNULL((3))
MuxanduStatus muxandu_date_time_from_rfc2822(const char *MUXANDU_RESTRICT text, size_t text_count,
                                             MuxanduDateTime *MUXANDU_RESTRICT out) MUXANDU_NOEXCEPT;

/* The date-time of each moment, at its own offset, up to the first that
 * muxandu_date_time_from_timestamp rejects. Errors: BUFFER if 'out' has fewer items than
 * 'moments' (the call then writes nothing), else that of the first rejected item. */
MUXANDU_NODISCARD MUXANDU_API
MuxanduBatch muxandu_date_times_from_moments(const MuxanduMoment *MUXANDU_RESTRICT moments,
                                             size_t moments_count,
                                             MuxanduDateTime *MUXANDU_RESTRICT out,
                                             size_t out_count) MUXANDU_NOEXCEPT;

/* The moment of each date-time, up to the first that muxandu_timestamp_from_date_time rejects.
 * Errors: BUFFER if 'out' has fewer items than 'date_times' (the call then writes nothing), else
 * that of the first rejected item. */
MUXANDU_NODISCARD MUXANDU_API
MuxanduBatch muxandu_moments_from_date_times(const MuxanduDateTime *MUXANDU_RESTRICT date_times,
                                             size_t date_times_count,
                                             MuxanduMoment *MUXANDU_RESTRICT out,
                                             size_t out_count) MUXANDU_NOEXCEPT;

/* The same instant of each moment at another offset in seconds, up to the first that
 * muxandu_date_time_to_offset rejects. Errors: BUFFER if 'out' has fewer items than 'moments'
 * (the call then writes nothing), else that of the first rejected item. */
MUXANDU_NODISCARD MUXANDU_API
MuxanduBatch muxandu_moments_to_offset(const MuxanduMoment *MUXANDU_RESTRICT moments,
                                       size_t moments_count, int32_t offset_seconds,
                                       MuxanduMoment *MUXANDU_RESTRICT out,
                                       size_t out_count) MUXANDU_NOEXCEPT;

/* Each moment, rounded down to a unit by its own clocks, up to the first that
 * muxandu_date_time_truncate rejects. Errors: BUFFER if 'out' has fewer items than 'moments'
 * (the call then writes nothing), else that of the first rejected item. */
MUXANDU_NODISCARD MUXANDU_API
MuxanduBatch muxandu_moments_truncate(const MuxanduMoment *MUXANDU_RESTRICT moments,
                                      size_t moments_count, MuxanduUnit unit,
                                      MuxanduMoment *MUXANDU_RESTRICT out,
                                      size_t out_count) MUXANDU_NOEXCEPT;

/* Each moment a number of months later, or earlier if it is negative, at the same local time and
 * offset; in a shorter month on its last day, up to the first that muxandu_date_add_months
 * rejects. Errors: BUFFER if 'out' has fewer items than 'moments' (the call then writes
 * nothing), else that of the first rejected item. */
MUXANDU_NODISCARD MUXANDU_API
MuxanduBatch muxandu_moments_add_months(const MuxanduMoment *MUXANDU_RESTRICT moments,
                                        size_t moments_count, int32_t months,
                                        MuxanduMoment *MUXANDU_RESTRICT out,
                                        size_t out_count) MUXANDU_NOEXCEPT;

/* The instant and the offset in each text of RFC 3339, up to the first that
 * muxandu_date_time_from_rfc3339 rejects. A span outside the block 'texts' fails with SPAN.
 * Errors: BUFFER if 'out' has fewer items than 'spans' (the call then writes nothing), else that
 * of the first rejected item. */
MUXANDU_NODISCARD MUXANDU_API
MuxanduBatch muxandu_moments_from_rfc3339(const char *MUXANDU_RESTRICT texts, size_t texts_count,
                                          const MuxanduSpan *MUXANDU_RESTRICT spans,
                                          size_t spans_count, MuxanduMoment *MUXANDU_RESTRICT out,
                                          size_t out_count) MUXANDU_NOEXCEPT;

/* Each moment plus the duration at its place, at the same offset, up to the first pair that
 * muxandu_date_time_add rejects. Errors: BUFFER if 'out' or 'durations' has fewer items than
 * 'moments' (the call then writes nothing), else that of the first rejected pair. */
MUXANDU_NODISCARD MUXANDU_API
MuxanduBatch muxandu_moments_add(const MuxanduMoment *MUXANDU_RESTRICT moments,
                                 size_t moments_count,
                                 const MuxanduDuration *MUXANDU_RESTRICT durations,
                                 size_t durations_count, MuxanduMoment *MUXANDU_RESTRICT out,
                                 size_t out_count) MUXANDU_NOEXCEPT;

/* Each moment plus the duration at its place, at the same offset, and the status of
 * muxandu_date_time_add for both. If a pair fails, its place in 'out' keeps its contents, and
 * the call continues with the next. 'count' is the number of converted pairs. Errors: BUFFER if
 * 'out', 'durations' or 'statuses' has fewer items than 'moments'; the call then writes nothing. */
MUXANDU_NODISCARD MUXANDU_API
MuxanduBatch muxandu_each_moment_add(const MuxanduMoment *MUXANDU_RESTRICT moments,
                                     size_t moments_count,
                                     const MuxanduDuration *MUXANDU_RESTRICT durations,
                                     size_t durations_count, MuxanduMoment *MUXANDU_RESTRICT out,
                                     size_t out_count, MuxanduStatus *MUXANDU_RESTRICT statuses,
                                     size_t statuses_count) MUXANDU_NOEXCEPT;

/* Each moment minus the duration at its place, at the same offset, up to the first pair that
 * muxandu_date_time_subtract rejects. Errors: BUFFER if 'out' or 'durations' has fewer items
 * than 'moments' (the call then writes nothing), else that of the first rejected pair. */
MUXANDU_NODISCARD MUXANDU_API
MuxanduBatch muxandu_moments_subtract(const MuxanduMoment *MUXANDU_RESTRICT moments,
                                      size_t moments_count,
                                      const MuxanduDuration *MUXANDU_RESTRICT durations,
                                      size_t durations_count, MuxanduMoment *MUXANDU_RESTRICT out,
                                      size_t out_count) MUXANDU_NOEXCEPT;

/* Each moment minus the duration at its place, at the same offset, and the status of
 * muxandu_date_time_subtract for both. If a pair fails, its place in 'out' keeps its contents,
 * and the call continues with the next. 'count' is the number of converted pairs. Errors: BUFFER
 * if 'out', 'durations' or 'statuses' has fewer items than 'moments'; the call then writes
 * nothing. */
MUXANDU_NODISCARD MUXANDU_API
MuxanduBatch muxandu_each_moment_subtract(const MuxanduMoment *MUXANDU_RESTRICT moments,
                                          size_t moments_count,
                                          const MuxanduDuration *MUXANDU_RESTRICT durations,
                                          size_t durations_count,
                                          MuxanduMoment *MUXANDU_RESTRICT out, size_t out_count,
                                          MuxanduStatus *MUXANDU_RESTRICT statuses,
                                          size_t statuses_count) MUXANDU_NOEXCEPT;

/* The order of each moment and the one at its place in 'others': -1 if it comes first, 0 if both
 * are one instant, else 1, up to the first pair that muxandu_date_time_compare rejects. Errors:
 * BUFFER if 'out' or 'others' has fewer items than 'firsts' (the call then writes nothing), else
 * that of the first rejected pair. */
MUXANDU_NODISCARD MUXANDU_API
MuxanduBatch muxandu_moments_compare(const MuxanduMoment *MUXANDU_RESTRICT firsts,
                                     size_t firsts_count,
                                     const MuxanduMoment *MUXANDU_RESTRICT others,
                                     size_t others_count, int32_t *MUXANDU_RESTRICT out,
                                     size_t out_count) MUXANDU_NOEXCEPT;

/* The order of each moment and the one at its place in 'others': -1 if it comes first, 0 if both
 * are one instant, else 1, and the status of muxandu_date_time_compare for both. If a pair
 * fails, its place in 'out' keeps its contents, and the call continues with the next. 'count' is
 * the number of converted pairs. Errors: BUFFER if 'out', 'others' or 'statuses' has fewer items
 * than 'firsts'; the call then writes nothing. */
MUXANDU_NODISCARD MUXANDU_API
MuxanduBatch muxandu_each_moment_compare(const MuxanduMoment *MUXANDU_RESTRICT firsts,
                                         size_t firsts_count,
                                         const MuxanduMoment *MUXANDU_RESTRICT others,
                                         size_t others_count, int32_t *MUXANDU_RESTRICT out,
                                         size_t out_count, MuxanduStatus *MUXANDU_RESTRICT statuses,
                                         size_t statuses_count) MUXANDU_NOEXCEPT;

/* The duration to each moment from the one at its place in 'earlier', by instant, up to the
 * first pair that muxandu_date_time_difference rejects. Errors: BUFFER if 'out' or 'earlier' has
 * fewer items than 'later' (the call then writes nothing), else that of the first rejected pair. */
MUXANDU_NODISCARD MUXANDU_API
MuxanduBatch muxandu_moments_difference(const MuxanduMoment *MUXANDU_RESTRICT later,
                                        size_t later_count,
                                        const MuxanduMoment *MUXANDU_RESTRICT earlier,
                                        size_t earlier_count, MuxanduDuration *MUXANDU_RESTRICT out,
                                        size_t out_count) MUXANDU_NOEXCEPT;

/* The duration to each moment from the one at its place in 'earlier', by instant, and the status
 * of muxandu_date_time_difference for both. If a pair fails, its place in 'out' keeps its
 * contents, and the call continues with the next. 'count' is the number of converted pairs.
 * Errors: BUFFER if 'out', 'earlier' or 'statuses' has fewer items than 'later'; the call then
 * writes nothing. */
MUXANDU_NODISCARD MUXANDU_API
MuxanduBatch muxandu_each_moment_difference(const MuxanduMoment *MUXANDU_RESTRICT later,
                                            size_t later_count,
                                            const MuxanduMoment *MUXANDU_RESTRICT earlier,
                                            size_t earlier_count,
                                            MuxanduDuration *MUXANDU_RESTRICT out, size_t out_count,
                                            MuxanduStatus *MUXANDU_RESTRICT statuses,
                                            size_t statuses_count) MUXANDU_NOEXCEPT;

/* The seconds of an offset of hours, minutes and seconds. Smaller parts take the sign of the
 * hours, or of the minutes if the hours are 0. Errors, in this order: OFFSET_HOUR if not -25 to
 * 25, OFFSET_MINUTE if not -59 to 59, OFFSET_SECONDS if the seconds are not -59 to 59. */
MUXANDU_NODISCARD MUXANDU_API MUXANDU_NONNULL((2))
MuxanduStatus muxandu_offset_from_parts(MuxanduOffset parts, int32_t *out) MUXANDU_NOEXCEPT;

/* The hours, the minutes and the seconds of an offset in seconds, all of one sign. Errors:
 * OFFSET_SECONDS. */
MUXANDU_NODISCARD MUXANDU_API MUXANDU_NONNULL((2))
MuxanduStatus muxandu_offset_to_parts(int32_t offset_seconds, MuxanduOffset *out) MUXANDU_NOEXCEPT;

/* The date-time at the front of a text that begins as the items say, as muxandu_parse_items
 * reads it. 'size' is the number of bytes that it read, so the rest of the text begins there: 10
 * for '2024-02-29 INFO'. Errors: those of muxandu_parse_items, but for more after the last item.
 * If no item gives the part that is at fault, its place is the number of bytes read. */
MUXANDU_NODISCARD MUXANDU_API MUXANDU_NONNULL((6))
MuxanduOutcome muxandu_parse_items_front(MuxanduKind kind,
                                         const MuxanduItem *MUXANDU_RESTRICT items,
                                         size_t items_count, const char *MUXANDU_RESTRICT text,
                                         size_t text_count,
                                         MuxanduDateTime *MUXANDU_RESTRICT out) MUXANDU_NOEXCEPT;

/* The date-time at the front of a text by a description in version 2 of its language, such as
 * '[year]-[month]-[day]', as muxandu_parse_items_front reads it. Errors, in this order: SYNTAX
 * if the description is none, with the place and the reason of its first fault. Those of
 * muxandu_parse_items_front. */
MUXANDU_NODISCARD MUXANDU_API MUXANDU_NONNULL((6))
MuxanduOutcome muxandu_parse_front(MuxanduKind kind, const char *MUXANDU_RESTRICT description,
                                   size_t description_count, const char *MUXANDU_RESTRICT text,
                                   size_t text_count,
                                   MuxanduDateTime *MUXANDU_RESTRICT out) MUXANDU_NOEXCEPT;

/* The date-time of a text that is written as the items say, to its end. 'kind' says which parts
 * it has: the others are those of 1970-01-01 0:00 UTC. A Unix timestamp alone gives a date-time,
 * in UTC if the text has no offset. 'size' is the length of the text. Errors, in this order:
 * UNIT if a number is no item, or for more than 128 items. SYNTAX with the index of the byte
 * where the item begins that the text lacks. UNIT if 'kind' is none. SYNTAX with a part as the
 * reason, without which the text names no one value. RESULT with the first part that is out of
 * range, or that is not a part of the value. Its place is the byte where the item of the part
 * begins, or the length of the text if no item gives the part. If the other parts contradict a
 * Unix timestamp, the reason is the finest timestamp of the text. */
MUXANDU_NODISCARD MUXANDU_API MUXANDU_NONNULL((6))
MuxanduOutcome muxandu_parse_items(MuxanduKind kind, const MuxanduItem *MUXANDU_RESTRICT items,
                                   size_t items_count, const char *MUXANDU_RESTRICT text,
                                   size_t text_count,
                                   MuxanduDateTime *MUXANDU_RESTRICT out) MUXANDU_NOEXCEPT;

/* The date-time of a text by a description in version 2 of its language, such as
 * '[year]-[month]-[day]', as muxandu_parse_items reads it. Errors, in this order: SYNTAX if the
 * description is none, with the place and the reason of its first fault. Those of
 * muxandu_parse_items. */
MUXANDU_NODISCARD MUXANDU_API MUXANDU_NONNULL((6))
MuxanduOutcome muxandu_parse(MuxanduKind kind, const char *MUXANDU_RESTRICT description,
                             size_t description_count, const char *MUXANDU_RESTRICT text,
                             size_t text_count,
                             MuxanduDateTime *MUXANDU_RESTRICT out) MUXANDU_NOEXCEPT;

/* The date-time of each text of a block, up to the first that muxandu_parse_items rejects. A
 * span outside the block 'texts' fails with SPAN. Errors, in this order: UNIT if a number is no
 * item, or for more than 128 items. BUFFER if 'out' has fewer items than 'spans'. The call then
 * writes nothing. Else that of the first rejected item. */
MUXANDU_NODISCARD MUXANDU_API
MuxanduBatch muxandu_parse_all(MuxanduKind kind, const MuxanduItem *MUXANDU_RESTRICT items,
                               size_t items_count, const char *MUXANDU_RESTRICT texts,
                               size_t texts_count, const MuxanduSpan *MUXANDU_RESTRICT spans,
                               size_t spans_count, MuxanduDateTime *MUXANDU_RESTRICT out,
                               size_t out_count) MUXANDU_NOEXCEPT;

/* The date-time of each text of a block, and the status of muxandu_parse_items for it. The
 * status is SPAN for a span outside the block 'texts'. If an item fails, its place in 'out'
 * keeps its contents, and the call continues with the next. 'count' is the number of converted
 * items. Errors, in this order: UNIT if a number is no item, or for more than 128 items. BUFFER
 * if 'out' or 'statuses' has fewer items than 'spans'. The call then writes nothing. */
MUXANDU_NODISCARD MUXANDU_API
MuxanduBatch muxandu_parse_each(MuxanduKind kind, const MuxanduItem *MUXANDU_RESTRICT items,
                                size_t items_count, const char *MUXANDU_RESTRICT texts,
                                size_t texts_count, const MuxanduSpan *MUXANDU_RESTRICT spans,
                                size_t spans_count, MuxanduDateTime *MUXANDU_RESTRICT out,
                                size_t out_count, MuxanduStatus *MUXANDU_RESTRICT statuses,
                                size_t statuses_count) MUXANDU_NOEXCEPT;

/* Every reading of a date: its day number and Julian day, its day of the year and of the week,
 * and its weeks by ISO 8601, by Sundays and by Mondays. Errors, in this order: MONTH, YEAR, DAY,
 * DAY_OF_MONTH. */
MUXANDU_NODISCARD MUXANDU_API MUXANDU_NONNULL((2))
MuxanduStatus muxandu_date_reads(MuxanduDate date, MuxanduDateReads *out) MUXANDU_NOEXCEPT;

/* The date of a Julian day, which is 2440588 on 1970-01-01. Errors: DAY_NUMBER if out of range. */
MUXANDU_NODISCARD MUXANDU_API MUXANDU_NONNULL((2))
MuxanduStatus muxandu_date_from_julian_day(int32_t julian_day, MuxanduDate *out) MUXANDU_NOEXCEPT;

/* The date-time with one part replaced. It keeps the other parts and the offset; a day of the
 * year replaces the month and the day. Errors, in this order: those of the date-time, UNIT if
 * 'part' is no number of a part, YEAR, MONTH, DAY, DAY_OF_MONTH, ORDINAL, ORDINAL_OF_YEAR, HOUR,
 * MINUTE, SECOND, NANOSECOND. */
MUXANDU_NODISCARD MUXANDU_API MUXANDU_NONNULL((4))
MuxanduStatus muxandu_date_time_replace(MuxanduDateTime date_time, MuxanduPart part, int32_t value,
                                        MuxanduDateTime *out) MUXANDU_NOEXCEPT;

/* The instant with one part of its date or time in UTC replaced, as muxandu_date_time_replace
 * does. Errors, in this order: those of the timestamp, those of that call. */
MUXANDU_NODISCARD MUXANDU_API MUXANDU_NONNULL((4))
MuxanduStatus muxandu_timestamp_replace(MuxanduTimestamp at, MuxanduPart part, int32_t value,
                                        MuxanduTimestamp *out) MUXANDU_NOEXCEPT;

/* The instant of a number of microseconds from 2000-01-01 0:00 UTC, as a 'timestamptz' of
 * PostgreSQL counts them. It is always in range. */
MUXANDU_API
MuxanduTimestamp muxandu_timestamp_from_microseconds_2000(int64_t microseconds) MUXANDU_NOEXCEPT;

/* The whole microseconds from 2000-01-01 0:00 UTC, rounded down. They fit in 64 bits from
 * -290278-12-22 to 294277-01-09. Errors, in this order: those of the timestamp, RESULT if they
 * do not fit. */
MUXANDU_NODISCARD MUXANDU_API MUXANDU_NONNULL((2))
MuxanduStatus muxandu_timestamp_to_microseconds_2000(MuxanduTimestamp at,
                                                     int64_t *out) MUXANDU_NOEXCEPT;

/* The instant with the first 'digits' digits of its fraction: it is rounded down, also before
 * 1970. A number above nine keeps all nine. Errors: those of the timestamp. */
MUXANDU_NODISCARD MUXANDU_API MUXANDU_NONNULL((3))
MuxanduStatus muxandu_timestamp_truncate_digits(MuxanduTimestamp at, uint32_t digits,
                                                MuxanduTimestamp *out) MUXANDU_NOEXCEPT;

/* Checks that the date-time has a text of RFC 3339, as muxandu_date_time_to_rfc3339 writes it.
 * Errors, in this order: those of the date-time, NO_TEXT. */
MUXANDU_NODISCARD MUXANDU_API
MuxanduStatus muxandu_date_time_check_rfc3339(MuxanduDateTime date_time) MUXANDU_NOEXCEPT;

/* The date-time of each Unix millisecond at an offset in seconds, up to the first that
 * muxandu_timestamp_from_milliseconds or muxandu_date_time_from_timestamp rejects. Errors:
 * BUFFER if 'out' has fewer items than 'milliseconds' (the call then writes nothing), else that
 * of the first rejected item. */
MUXANDU_NODISCARD MUXANDU_API
MuxanduBatch muxandu_date_times_from_milliseconds(const int64_t *MUXANDU_RESTRICT milliseconds,
                                                  size_t milliseconds_count, int32_t offset_seconds,
                                                  MuxanduDateTime *MUXANDU_RESTRICT out,
                                                  size_t out_count) MUXANDU_NOEXCEPT;

/* The milliseconds from 1970-01-01 0:00 UTC of each date-time, rounded down, up to the first
 * that muxandu_timestamp_from_date_time or muxandu_timestamp_to_milliseconds rejects. Errors:
 * BUFFER if 'out' has fewer items than 'date_times' (the call then writes nothing), else that of
 * the first rejected item. */
MUXANDU_NODISCARD MUXANDU_API
MuxanduBatch
                                                  muxandu_milliseconds_from_date_times(const MuxanduDateTime *MUXANDU_RESTRICT date_times,
                                                  size_t date_times_count,
                                                  int64_t *MUXANDU_RESTRICT out,
                                                  size_t out_count) MUXANDU_NOEXCEPT;

/* The date-time of each Unix microsecond at an offset in seconds, up to the first that
 * muxandu_date_time_from_timestamp rejects. Errors: BUFFER if 'out' has fewer items than
 * 'microseconds' (the call then writes nothing), else that of the first rejected item. */
MUXANDU_NODISCARD MUXANDU_API
MuxanduBatch muxandu_date_times_from_microseconds(const int64_t *MUXANDU_RESTRICT microseconds,
                                                  size_t microseconds_count, int32_t offset_seconds,
                                                  MuxanduDateTime *MUXANDU_RESTRICT out,
                                                  size_t out_count) MUXANDU_NOEXCEPT;

/* The microseconds from 1970-01-01 0:00 UTC of each date-time, rounded down, up to the first
 * that muxandu_timestamp_from_date_time or muxandu_timestamp_to_microseconds rejects. Errors:
 * BUFFER if 'out' has fewer items than 'date_times' (the call then writes nothing), else that of
 * the first rejected item. */
MUXANDU_NODISCARD MUXANDU_API
MuxanduBatch
                                                  muxandu_microseconds_from_date_times(const MuxanduDateTime *MUXANDU_RESTRICT date_times,
                                                  size_t date_times_count,
                                                  int64_t *MUXANDU_RESTRICT out,
                                                  size_t out_count) MUXANDU_NOEXCEPT;

/* The date-time of each Unix nanosecond at an offset in seconds, up to the first that
 * muxandu_date_time_from_timestamp rejects. Errors: BUFFER if 'out' has fewer items than
 * 'nanoseconds' (the call then writes nothing), else that of the first rejected item. */
MUXANDU_NODISCARD MUXANDU_API
MuxanduBatch muxandu_date_times_from_nanoseconds(const int64_t *MUXANDU_RESTRICT nanoseconds,
                                                 size_t nanoseconds_count, int32_t offset_seconds,
                                                 MuxanduDateTime *MUXANDU_RESTRICT out,
                                                 size_t out_count) MUXANDU_NOEXCEPT;

/* The nanoseconds from 1970-01-01 0:00 UTC of each date-time, up to the first that
 * muxandu_timestamp_from_date_time or muxandu_timestamp_to_nanoseconds rejects. Errors: BUFFER
 * if 'out' has fewer items than 'date_times' (the call then writes nothing), else that of the
 * first rejected item. */
MUXANDU_NODISCARD MUXANDU_API
MuxanduBatch muxandu_nanoseconds_from_date_times(const MuxanduDateTime *MUXANDU_RESTRICT date_times,
                                                 size_t date_times_count,
                                                 int64_t *MUXANDU_RESTRICT out,
                                                 size_t out_count) MUXANDU_NOEXCEPT;

/* The date-time and the offset in each text of RFC 3339, up to the first that
 * muxandu_date_time_from_rfc3339 rejects. A span outside the block 'texts' fails with SPAN.
 * Errors: BUFFER if 'out' has fewer items than 'spans' (the call then writes nothing), else that
 * of the first rejected item. */
MUXANDU_NODISCARD MUXANDU_API
MuxanduBatch muxandu_date_times_from_rfc3339(const char *MUXANDU_RESTRICT texts, size_t texts_count,
                                             const MuxanduSpan *MUXANDU_RESTRICT spans,
                                             size_t spans_count,
                                             MuxanduDateTime *MUXANDU_RESTRICT out,
                                             size_t out_count) MUXANDU_NOEXCEPT;

/* The date-time and the offset in each text of RFC 3339, and the status of
 * muxandu_date_time_from_rfc3339 for it. The status is SPAN for a span outside the block
 * 'texts'. If an item fails, its place in 'out' keeps its contents, and the call continues with
 * the next. 'count' is the number of converted items. Errors: BUFFER if 'out' or 'statuses' has
 * fewer items than 'spans'; the call then writes nothing. */
MUXANDU_NODISCARD MUXANDU_API
MuxanduBatch muxandu_date_times_from_each_rfc3339(const char *MUXANDU_RESTRICT texts,
                                                  size_t texts_count,
                                                  const MuxanduSpan *MUXANDU_RESTRICT spans,
                                                  size_t spans_count,
                                                  MuxanduDateTime *MUXANDU_RESTRICT out,
                                                  size_t out_count,
                                                  MuxanduStatus *MUXANDU_RESTRICT statuses,
                                                  size_t statuses_count) MUXANDU_NOEXCEPT;

/* Writes the text of each date-time into the block 'texts', one after the other with nothing
 * between, and its place to 'spans'. It stops at the first that muxandu_date_time_to_rfc3339
 * rejects, with BUFFER if the rest of 'texts' is too short. Errors: BUFFER if 'spans' has fewer
 * items than 'date_times' (the call then writes nothing), else that of the first rejected item. */
MUXANDU_NODISCARD MUXANDU_API
MuxanduBatch muxandu_date_times_to_rfc3339(const MuxanduDateTime *MUXANDU_RESTRICT date_times,
                                           size_t date_times_count, char *MUXANDU_RESTRICT texts,
                                           size_t texts_count, MuxanduSpan *MUXANDU_RESTRICT spans,
                                           size_t spans_count) MUXANDU_NOEXCEPT;

/* Writes the text of a date-time, such as '1970-01-01 0:00:00.0 +00:00:00', to the front of
 * 'buffer', and its length to 'size'. The text has at most 42 bytes, all ASCII and none 0. Its
 * form is '[sign]year-month-day hour:minute:second.fraction sign hours:minutes:seconds', with no
 * blank after the last sign. The year has four to six digits, with '-' before it below 0, and
 * '+' above 9999. The hour has one digit below 10. The fraction has one to nine digits, and ends
 * with 0 only if it is '0'. Each other number has two digits. The offset has '-' below 0, else
 * '+'. Errors, in this order: those of the date-time, BUFFER if the text is longer than
 * 'buffer'; 'size' is then its length, and 'buffer' is unchanged. */
MUXANDU_NODISCARD MUXANDU_API MUXANDU_NONNULL((4))
MuxanduStatus muxandu_date_time_text(MuxanduDateTime date_time, char *MUXANDU_RESTRICT buffer,
                                     size_t buffer_count,
                                     size_t *MUXANDU_RESTRICT size) MUXANDU_NOEXCEPT;

/* Writes the seconds of a timestamp as a signed decimal, such as '-0.5', in at most 25 bytes, as
 * muxandu_date_time_text does. Errors, in this order: those of the timestamp, BUFFER. */
MUXANDU_NODISCARD MUXANDU_API MUXANDU_NONNULL((4))
MuxanduStatus muxandu_timestamp_text(MuxanduTimestamp at, char *MUXANDU_RESTRICT buffer,
                                     size_t buffer_count,
                                     size_t *MUXANDU_RESTRICT size) MUXANDU_NOEXCEPT;

/* The offset of a time zone at each Unix second, up to the first that muxandu_zone_offset_at
 * rejects. Seconds in their order take the least time, since the call looks up the first alone
 * of those between the same two transitions. Errors: BUFFER if 'out' has fewer items than
 * 'seconds', ZONE if the numbers are no zone. After these two nothing is written. Else the error
 * is that of the first rejected item. */
MUXANDU_NODISCARD MUXANDU_API
MuxanduBatch muxandu_zone_offsets_at(MuxanduZone zone,
                                     const MuxanduTransition *MUXANDU_RESTRICT transitions,
                                     size_t transitions_count,
                                     const int64_t *MUXANDU_RESTRICT seconds, size_t seconds_count,
                                     int32_t *MUXANDU_RESTRICT out,
                                     size_t out_count) MUXANDU_NOEXCEPT;

/* The date-time that the clocks of a time zone show at each timestamp, up to the first that
 * muxandu_timestamp_to_zone rejects. Errors: BUFFER if 'out' has fewer items than 'timestamps',
 * ZONE if the numbers are no zone. After these two nothing is written. Else the error is that of
 * the first rejected item. */
MUXANDU_NODISCARD MUXANDU_API
MuxanduBatch muxandu_timestamps_to_zone(const MuxanduTimestamp *MUXANDU_RESTRICT timestamps,
                                        size_t timestamps_count, MuxanduZone zone,
                                        const MuxanduTransition *MUXANDU_RESTRICT transitions,
                                        size_t transitions_count,
                                        MuxanduDateTime *MUXANDU_RESTRICT out,
                                        size_t out_count) MUXANDU_NOEXCEPT;

/* The date-time of a time zone with the wall clock of each date-time, by a choice where there
 * are two or none, up to the first that muxandu_date_time_at_zone rejects. Errors: BUFFER if
 * 'out' has fewer items than 'locals', ZONE if the numbers are no zone. After these two nothing
 * is written. Else the error is that of the first rejected item. */
MUXANDU_NODISCARD MUXANDU_API
MuxanduBatch muxandu_date_times_at_zone(const MuxanduDateTime *MUXANDU_RESTRICT locals,
                                        size_t locals_count, MuxanduZone zone,
                                        const MuxanduTransition *MUXANDU_RESTRICT transitions,
                                        size_t transitions_count, MuxanduChoice choice,
                                        MuxanduDateTime *MUXANDU_RESTRICT out,
                                        size_t out_count) MUXANDU_NOEXCEPT;

/* The instants at which the clocks of a time zone show the wall clock of a date-time: all of
 * them. The offset of the date-time does not count, but must be one. Errors, in this order:
 * those of the date-time, ZONE if the numbers are no zone. */
MUXANDU_NODISCARD MUXANDU_API MUXANDU_NONNULL((5))
MuxanduStatus muxandu_zone_instants_of(MuxanduZone zone,
                                       const MuxanduTransition *MUXANDU_RESTRICT transitions,
                                       size_t transitions_count, MuxanduDateTime local,
                                       MuxanduZoneInstants *MUXANDU_RESTRICT out) MUXANDU_NOEXCEPT;

/* The date-time of a time zone with the wall clock of another one, by a choice where there are
 * two or none. In a gap it is the date-time that the zone shows then. The offset of the other
 * does not count, but must be one. Errors, in this order: those of the date-time, UNIT if the
 * number is no choice, ZONE if the numbers are no zone. With the choice REJECT also GAP and
 * FOLD. RESULT if the date of the date-time in place of a skipped one is out of range. */
MUXANDU_NODISCARD MUXANDU_API MUXANDU_NONNULL((6))
MuxanduStatus muxandu_date_time_at_zone(MuxanduDateTime local, MuxanduZone zone,
                                        const MuxanduTransition *MUXANDU_RESTRICT transitions,
                                        size_t transitions_count, MuxanduChoice choice,
                                        MuxanduDateTime *MUXANDU_RESTRICT out) MUXANDU_NOEXCEPT;

/* Checks that a text can be the name of a time zone, such as 'America/Port-au-Prince'. A name
 * has parts between slashes. Each part has letters, digits, '+', '-', '_' and '.', and begins
 * with no '.'. So no name is an absolute path, or leads out of the folder with the files. Error:
 * SYNTAX. */
MUXANDU_NODISCARD MUXANDU_API
MuxanduStatus muxandu_zone_name_check(const char *name, size_t name_count) MUXANDU_NOEXCEPT;

/* The offset of a time zone at an instant, in seconds: that after the last transition at or
 * before it. Errors, in this order: those of the timestamp, ZONE if the numbers are no zone. */
MUXANDU_NODISCARD MUXANDU_API MUXANDU_NONNULL((5))
MuxanduStatus muxandu_zone_offset_at(MuxanduZone zone,
                                     const MuxanduTransition *MUXANDU_RESTRICT transitions,
                                     size_t transitions_count, MuxanduTimestamp at,
                                     int32_t *MUXANDU_RESTRICT out) MUXANDU_NOEXCEPT;

/* Reads a time zone from the bytes of a file of RFC 9636, as /usr/share/zoneinfo/Europe/Berlin
 * has them, and writes its numbers to 'zone' and its transitions to the front of 'transitions'.
 * Keep both for the calls that take them. 'size' is the number of the transitions. Errors, in
 * this order: SYNTAX if the bytes are no such file, with the index of the byte and the reason.
 * SYNTAX with the reason ZONE_SIZE for more than 512 transitions. SYNTAX with the reason
 * ZONE_TRANSITION and the index of the transition, or with ZONE_RULE. BUFFER if 'transitions'
 * has room for fewer. After an error nothing is written. */
MUXANDU_NODISCARD MUXANDU_API MUXANDU_NONNULL((3))
MuxanduOutcome muxandu_zone_from_tzif(const char *MUXANDU_RESTRICT bytes, size_t bytes_count,
                                      MuxanduZone *MUXANDU_RESTRICT zone,
                                      MuxanduTransition *MUXANDU_RESTRICT transitions,
                                      size_t transitions_count) MUXANDU_NOEXCEPT;

/* Reads a time zone from the text of a rule in the form of the environment variable TZ, such as
 * 'CET-1CEST,M3.5.0,M10.5.0/3', and writes its numbers to 'zone'. The rule holds at all times,
 * so the zone has no transitions: pass none to the calls that take them. 'size' is 0. The number
 * of its abbreviation of standard time is 256, and that of daylight saving time 257. Errors, in
 * this order: SYNTAX if the text is no rule, with the index of the byte and the reason. SYNTAX
 * with the reason ZONE_RULE if the rule overlaps itself in some year. After an error nothing is
 * written. */
MUXANDU_NODISCARD MUXANDU_API MUXANDU_NONNULL((3))
MuxanduOutcome muxandu_zone_from_text(const char *MUXANDU_RESTRICT text, size_t text_count,
                                      MuxanduZone *MUXANDU_RESTRICT zone) MUXANDU_NOEXCEPT;

/* The date-time that the clocks of a time zone show at an instant. Errors, in this order: those
 * of the timestamp, ZONE if the numbers are no zone, RESULT if the date is out of range. */
MUXANDU_NODISCARD MUXANDU_API MUXANDU_NONNULL((5))
MuxanduStatus muxandu_timestamp_to_zone(MuxanduTimestamp at, MuxanduZone zone,
                                        const MuxanduTransition *MUXANDU_RESTRICT transitions,
                                        size_t transitions_count,
                                        MuxanduDateTime *MUXANDU_RESTRICT out) MUXANDU_NOEXCEPT;

/* The first transition of a time zone after an instant. Errors, in this order: those of the
 * timestamp, ZONE if the numbers are no zone, RESULT if there is none. */
MUXANDU_NODISCARD MUXANDU_API MUXANDU_NONNULL((5))
MuxanduStatus muxandu_zone_next_transition(MuxanduZone zone,
                                           const MuxanduTransition *MUXANDU_RESTRICT transitions,
                                           size_t transitions_count, MuxanduTimestamp at,
                                           MuxanduTransition *MUXANDU_RESTRICT out) MUXANDU_NOEXCEPT;

/* The last transition of a time zone before an instant. Errors: those of
 * muxandu_zone_next_transition. */
MUXANDU_NODISCARD MUXANDU_API MUXANDU_NONNULL((5))
MuxanduStatus muxandu_zone_previous_transition(MuxanduZone zone,
                                               const MuxanduTransition *MUXANDU_RESTRICT transitions,
                                               size_t transitions_count, MuxanduTimestamp at,
                                               MuxanduTransition *MUXANDU_RESTRICT out) MUXANDU_NOEXCEPT;

/* The kind of local time of a time zone at an instant: that after the last transition at or
 * before it. Errors, in this order: those of the timestamp, ZONE if the numbers are no zone. */
MUXANDU_NODISCARD MUXANDU_API MUXANDU_NONNULL((5))
MuxanduStatus muxandu_zone_type_at(MuxanduZone zone,
                                   const MuxanduTransition *MUXANDU_RESTRICT transitions,
                                   size_t transitions_count, MuxanduTimestamp at,
                                   MuxanduTimeType *MUXANDU_RESTRICT out) MUXANDU_NOEXCEPT;

/* Writes the abbreviation with a number, such as 'CEST', to the front of 'buffer'. The number is
 * that of a kind of local time, and 'bytes' are the file from which muxandu_zone_from_tzif read
 * the zone. 'size' is the length of the text: 0 for a number that the zone does not have.
 * Errors, in this order: SYNTAX with the index of the byte and the reason if the bytes are no
 * such file. BUFFER if the text is longer than 'buffer'; 'size' is then its length. After an
 * error nothing is written. */
MUXANDU_NODISCARD MUXANDU_API
MuxanduOutcome muxandu_zone_abbreviation_from_tzif(const char *MUXANDU_RESTRICT bytes,
                                                   size_t bytes_count, uint16_t designation,
                                                   char *MUXANDU_RESTRICT buffer,
                                                   size_t buffer_count) MUXANDU_NOEXCEPT;

/* Writes the abbreviation with a number to the front of 'buffer'. The number is that of a kind
 * of local time, and 'text' is the rule from which muxandu_zone_from_text read the zone. 'size'
 * is the length of the abbreviation: 0 for a number that the zone does not have. Errors, in this
 * order: SYNTAX with the index of the byte and the reason if the text is no rule. BUFFER if the
 * abbreviation is longer than 'buffer'; 'size' is then its length. After an error nothing is
 * written. */
MUXANDU_NODISCARD MUXANDU_API
MuxanduOutcome muxandu_zone_abbreviation_from_text(const char *MUXANDU_RESTRICT text,
                                                   size_t text_count, uint16_t designation,
                                                   char *MUXANDU_RESTRICT buffer,
                                                   size_t buffer_count) MUXANDU_NOEXCEPT;

/* The text of a status, as muxandu_status_text writes it, for a message. It stays, and ends with a
 * byte 0. Your compiler compiles this call and those that end with _z, and no proof covers them;
 * they answer by the proved calls. */
MUXANDU_INLINE const char *muxandu_status_string(MuxanduStatus status) MUXANDU_NOEXCEPT {
    switch (status) {
    case MUXANDU_OK:
        return "Nothing is refused.";
    case MUXANDU_REFUSED_YEAR:
        return "A year before -999999 or after 999999.";
    case MUXANDU_REFUSED_MONTH:
        return "A month that is not 1 to 12.";
    case MUXANDU_REFUSED_DAY:
        return "A day that is not 1 to 31.";
    case MUXANDU_REFUSED_DAY_OF_MONTH:
        return "A day of 1 to 31 that its month does not have in its year.";
    case MUXANDU_REFUSED_ORDINAL:
        return "A day of the year that is not 1 to 366.";
    case MUXANDU_REFUSED_ORDINAL_OF_YEAR:
        return "Day 366 of a year that has 365.";
    case MUXANDU_REFUSED_WEEK:
        return "An ISO week that is not 1 to 53.";
    case MUXANDU_REFUSED_WEEK_OF_YEAR:
        return "Week 53 of an ISO year that has 52.";
    case MUXANDU_REFUSED_WEEKDAY:
        return "A number that is not a day of the week.";
    case MUXANDU_REFUSED_HOUR:
        return "An hour that is not 0 to 23.";
    case MUXANDU_REFUSED_MINUTE:
        return "A minute that is not 0 to 59.";
    case MUXANDU_REFUSED_SECOND:
        return "A second that is not 0 to 59.";
    case MUXANDU_REFUSED_NANOSECOND:
        return "A nanosecond that is not 0 to 999999999.";
    case MUXANDU_REFUSED_OFFSET_SECONDS:
        return "An offset that is not -93599 to 93599 seconds, or whose part in seconds is not -59 to 59.";
    case MUXANDU_REFUSED_TIMESTAMP:
        return "A Unix second, or a count of another unit from 1970-01-01, outside the range of timestamps.";
    case MUXANDU_REFUSED_DAY_NUMBER:
        return "A day number that is not -365961662 to 364522971, or a Julian day outside the range of dates.";
    case MUXANDU_REFUSED_DURATION:
        return "A duration whose whole seconds do not fit in 64 bits.";
    case MUXANDU_REFUSED_UNIT:
        return "A number that is not a unit, not a part of a date-time, or not a kind, a version or an item of a format description.";
    case MUXANDU_REFUSED_RESULT:
        return "A result that is outside the range, or that its type cannot hold.";
    case MUXANDU_REFUSED_BUFFER:
        return "A buffer that is too short for what the call writes.";
    case MUXANDU_REFUSED_SPAN:
        return "A span that does not lie in the block of texts.";
    case MUXANDU_REFUSED_SYNTAX:
        return "A text that does not have the form that the call reads, such as a date-time of RFC 3339.";
    case MUXANDU_REFUSED_OFFSET_HOUR:
        return "Hours of an offset that are out of range: above 23 in a text of RFC 3339, not -25 to 25 elsewhere.";
    case MUXANDU_REFUSED_OFFSET_MINUTE:
        return "Minutes of an offset that are not -59 to 59.";
    case MUXANDU_REFUSED_NO_TEXT:
        return "A value that has no such text, as in RFC 3339 a year outside 0 to 9999, or an offset with seconds or beyond 23:59.";
    case MUXANDU_REFUSED_ZONE:
        return "Numbers that are no time zone: a part is out of range, or a transition or the rule does not follow.";
    case MUXANDU_REFUSED_GAP:
        return "A wall clock that no instant has, since a time zone puts its clocks forward past it.";
    case MUXANDU_REFUSED_FOLD:
        return "A wall clock that two instants have, since a time zone puts its clocks back over it.";
    default:
        return "A number that is no status of this version.";
    }
}

/* The text of a reason, for a message: likewise. */
MUXANDU_INLINE const char *muxandu_reason_string(MuxanduReason reason) MUXANDU_NOEXCEPT {
    switch (reason) {
    case 0:
        return "No reason.";
    case MUXANDU_REASON_NO_END:
        return "A `[` without its `]`.";
    case MUXANDU_REASON_NO_NAME:
        return "A `[` that no name follows.";
    case MUXANDU_REASON_NESTED_BRACKET:
        return "A `[` inside the brackets of a component.";
    case MUXANDU_REASON_UNKNOWN_COMPONENT:
        return "A name of no component.";
    case MUXANDU_REASON_UNKNOWN_MODIFIER:
        return "A name that is no modifier of its component.";
    case MUXANDU_REASON_WRONG_VALUE:
        return "A value that the modifier does not have.";
    case MUXANDU_REASON_MISSING_MODIFIER:
        return "A component without a modifier that it needs, such as the count of `ignore`.";
    case MUXANDU_REASON_WRONG_ESCAPE:
        return "A backslash before another byte than `[`, `]` and a backslash.";
    case MUXANDU_REASON_NO_GROUP:
        return "An `optional` or `first` without a description in brackets.";
    case MUXANDU_REASON_WRONG_GROUP:
        return "Something else than a description in brackets after `optional` or `first`.";
    case MUXANDU_REASON_TOO_DEEP:
        return "More than 32 groups inside each other.";
    case MUXANDU_REASON_NO_ROOM:
        return "An item, or its text, for which the caller has no room.";
    case MUXANDU_REASON_NO_TEXT:
        return "A component that has no name in the language of descriptions.";
    case MUXANDU_REASON_NO_COUNT:
        return "The count 0 of `ignore`.";
    case MUXANDU_REASON_NO_ESCAPE:
        return "A `]` in a group, for which version 1 has no text.";
    case MUXANDU_REASON_NO_FIRST:
        return "A group in place of another that is not there.";
    case MUXANDU_REASON_PAST_END:
        return "A group of more items than the description, or the group around it, has.";
    case MUXANDU_REASON_YEAR:
        return "The year, -999999 to 999999.";
    case MUXANDU_REASON_YEAR_CENTURY:
        return "The year without its last two digits.";
    case MUXANDU_REASON_YEAR_LAST_TWO:
        return "The last two digits of the year.";
    case MUXANDU_REASON_ISO_YEAR:
        return "The year of the ISO week.";
    case MUXANDU_REASON_ISO_YEAR_CENTURY:
        return "The year of the ISO week without its last two digits.";
    case MUXANDU_REASON_ISO_YEAR_LAST_TWO:
        return "The last two digits of the year of the ISO week.";
    case MUXANDU_REASON_MONTH:
        return "The month, 1 to 12.";
    case MUXANDU_REASON_DAY:
        return "The day of the month, 1 to 31.";
    case MUXANDU_REASON_ORDINAL:
        return "The day of the year, 1 to 366.";
    case MUXANDU_REASON_WEEKDAY:
        return "The day of the week.";
    case MUXANDU_REASON_ISO_WEEK:
        return "The ISO week, 1 to 53.";
    case MUXANDU_REASON_SUNDAY_WEEK:
        return "The week by the Sundays of the year, 0 to 53.";
    case MUXANDU_REASON_MONDAY_WEEK:
        return "The week by the Mondays of the year, 0 to 53.";
    case MUXANDU_REASON_HOUR:
        return "The hour of the day, 0 to 23.";
    case MUXANDU_REASON_HOUR12:
        return "The hour on a clock of 12 hours, 1 to 12.";
    case MUXANDU_REASON_PERIOD:
        return "The half of the day.";
    case MUXANDU_REASON_MINUTE:
        return "The minute, 0 to 59.";
    case MUXANDU_REASON_SECOND:
        return "The second, 0 to 59.";
    case MUXANDU_REASON_SUBSECOND:
        return "The fraction of the second.";
    case MUXANDU_REASON_OFFSET_HOUR:
        return "The hours of the offset, -25 to 25.";
    case MUXANDU_REASON_OFFSET_MINUTE:
        return "The minutes of the offset, 0 to 59.";
    case MUXANDU_REASON_OFFSET_SECOND:
        return "The seconds of the offset, 0 to 59.";
    case MUXANDU_REASON_UNIX_SECOND:
        return "The Unix time in seconds, -31619087596800 to 31494784780799.";
    case MUXANDU_REASON_UNIX_MILLISECOND:
        return "The Unix time in milliseconds, -31619087596800000 to 31494784780799999.";
    case MUXANDU_REASON_UNIX_MICROSECOND:
        return "The Unix time in microseconds, -31619087596800000000 to 31494784780799999999.";
    case MUXANDU_REASON_UNIX_NANOSECOND:
        return "The Unix time in nanoseconds, -31619087596800000000000 to 31494784780799999999999.";
    case MUXANDU_REASON_FILE_LENGTH:
        return "A file of a time zone that ends before the end of a header, of a block or of its rule.";
    case MUXANDU_REASON_FILE_MAGIC:
        return "A header of a file of a time zone that does not begin with `TZif`.";
    case MUXANDU_REASON_FILE_VERSION:
        return "A version of a file of a time zone that is none of 1 to 4, or another one in its second header.";
    case MUXANDU_REASON_FILE_COUNT:
        return "A file of a time zone without a kind of local time, or without an abbreviation.";
    case MUXANDU_REASON_FILE_OFFSET:
        return "An offset of a kind of local time that is out of range.";
    case MUXANDU_REASON_FILE_DAYLIGHT:
        return "A mark of daylight saving time that is neither 0 nor 1.";
    case MUXANDU_REASON_FILE_DESIGNATION:
        return "An abbreviation that begins past the end of their list.";
    case MUXANDU_REASON_FILE_NAMES:
        return "A list of abbreviations that does not end with a zero byte.";
    case MUXANDU_REASON_FILE_INDEX:
        return "A transition to a kind of local time that the file does not have.";
    case MUXANDU_REASON_FILE_FOOTER:
        return "A rule in a file that does not begin with a new line.";
    case MUXANDU_REASON_RULE_NAME:
        return "A text without a name where a rule has one.";
    case MUXANDU_REASON_RULE_DIGIT:
        return "A text without a digit where a rule has a number.";
    case MUXANDU_REASON_RULE_RANGE:
        return "A number of a rule with too few digits or too many, or out of range.";
    case MUXANDU_REASON_RULE_BYTE:
        return "Another byte than the one that must follow in a rule, or a byte after it.";
    case MUXANDU_REASON_ZONE_TRANSITION:
        return "A transition that is out of range, or does not follow the one before it.";
    case MUXANDU_REASON_ZONE_RULE:
        return "A rule that overlaps itself in some year, or does not follow the last transition.";
    case MUXANDU_REASON_ZONE_SIZE:
        return "More than 512 transitions of a time zone.";
    case MUXANDU_REASON_FILE_LEAP_SECONDS:
        return "A header of a file of a time zone that counts leap seconds, which Unix time has not.";
    default:
        return "A reason that this version does not know.";
    }
}

/* As muxandu_status_name, with a byte 0 at the end of the text. Errors: also BUFFER if 'buffer'
 * has no room for that byte. A buffer of 16 bytes is always enough. */
MUXANDU_NODISCARD
MUXANDU_INLINE MuxanduStatus muxandu_status_name_z(MuxanduStatus status, char *buffer, size_t buffer_count) MUXANDU_NOEXCEPT {
    size_t size = 0;
    MuxanduStatus answer = muxandu_status_name(status, buffer, buffer_count == 0 ? 0 : buffer_count - 1, &size);
    if (answer == MUXANDU_OK) buffer[size] = '\0';
    return answer;
}

/* As muxandu_status_text, with a byte 0 at the end of the text. Errors: also BUFFER if 'buffer'
 * has no room for that byte. A buffer of 129 bytes is always enough. */
MUXANDU_NODISCARD
MUXANDU_INLINE MuxanduStatus muxandu_status_text_z(MuxanduStatus status, char *buffer, size_t buffer_count) MUXANDU_NOEXCEPT {
    size_t size = 0;
    MuxanduStatus answer = muxandu_status_text(status, buffer, buffer_count == 0 ? 0 : buffer_count - 1, &size);
    if (answer == MUXANDU_OK) buffer[size] = '\0';
    return answer;
}

/* As muxandu_date_to_rfc3339, with a byte 0 at the end of the text. Errors: also BUFFER if
 * 'buffer' has no room for that byte. A buffer of 11 bytes is always enough. */
MUXANDU_NODISCARD
MUXANDU_INLINE MuxanduStatus muxandu_date_to_rfc3339_z(MuxanduDate date, char *buffer, size_t buffer_count) MUXANDU_NOEXCEPT {
    size_t size = 0;
    MuxanduStatus answer = muxandu_date_to_rfc3339(date, buffer, buffer_count == 0 ? 0 : buffer_count - 1, &size);
    if (answer == MUXANDU_OK) buffer[size] = '\0';
    return answer;
}

/* As muxandu_date_time_to_rfc3339_digits, with a byte 0 at the end of the text. Errors: also
 * BUFFER if 'buffer' has no room for that byte. A buffer of 36 bytes is always enough. */
MUXANDU_NODISCARD
MUXANDU_INLINE MuxanduStatus muxandu_date_time_to_rfc3339_digits_z(MuxanduDateTime date_time, uint32_t digits, char *buffer, size_t buffer_count) MUXANDU_NOEXCEPT {
    size_t size = 0;
    MuxanduStatus answer = muxandu_date_time_to_rfc3339_digits(date_time, digits, buffer, buffer_count == 0 ? 0 : buffer_count - 1, &size);
    if (answer == MUXANDU_OK) buffer[size] = '\0';
    return answer;
}

/* As muxandu_duration_text, with a byte 0 at the end of the text. Errors: also BUFFER if
 * 'buffer' has no room for that byte. A buffer of 32 bytes is always enough. */
MUXANDU_NODISCARD
MUXANDU_INLINE MuxanduStatus muxandu_duration_text_z(MuxanduDuration duration, char *buffer, size_t buffer_count) MUXANDU_NOEXCEPT {
    size_t size = 0;
    MuxanduStatus answer = muxandu_duration_text(duration, buffer, buffer_count == 0 ? 0 : buffer_count - 1, &size);
    if (answer == MUXANDU_OK) buffer[size] = '\0';
    return answer;
}

/* As muxandu_date_time_to_rfc3339, with a byte 0 at the end of the text. Errors: also BUFFER if
 * 'buffer' has no room for that byte. A buffer of 36 bytes is always enough. */
MUXANDU_NODISCARD
MUXANDU_INLINE MuxanduStatus muxandu_date_time_to_rfc3339_z(MuxanduDateTime date_time, char *buffer, size_t buffer_count) MUXANDU_NOEXCEPT {
    size_t size = 0;
    MuxanduStatus answer = muxandu_date_time_to_rfc3339(date_time, buffer, buffer_count == 0 ? 0 : buffer_count - 1, &size);
    if (answer == MUXANDU_OK) buffer[size] = '\0';
    return answer;
}

/* As muxandu_timestamp_to_rfc3339, with a byte 0 at the end of the text. Errors: also BUFFER if
 * 'buffer' has no room for that byte. A buffer of 31 bytes is always enough. */
MUXANDU_NODISCARD
MUXANDU_INLINE MuxanduStatus muxandu_timestamp_to_rfc3339_z(MuxanduTimestamp at, char *buffer, size_t buffer_count) MUXANDU_NOEXCEPT {
    size_t size = 0;
    MuxanduStatus answer = muxandu_timestamp_to_rfc3339(at, buffer, buffer_count == 0 ? 0 : buffer_count - 1, &size);
    if (answer == MUXANDU_OK) buffer[size] = '\0';
    return answer;
}

/* As muxandu_timestamp_to_rfc3339_nanos, with a byte 0 at the end of the text. Errors: also
 * BUFFER if 'buffer' has no room for that byte. A buffer of 31 bytes is always enough. */
MUXANDU_NODISCARD
MUXANDU_INLINE MuxanduStatus muxandu_timestamp_to_rfc3339_nanos_z(MuxanduTimestamp at, char *buffer, size_t buffer_count) MUXANDU_NOEXCEPT {
    size_t size = 0;
    MuxanduStatus answer = muxandu_timestamp_to_rfc3339_nanos(at, buffer, buffer_count == 0 ? 0 : buffer_count - 1, &size);
    if (answer == MUXANDU_OK) buffer[size] = '\0';
    return answer;
}

/* As muxandu_format_items, with a byte 0 at the end of the text. Errors: also BUFFER if 'buffer'
 * has no room for that byte. A buffer of 65 bytes is always enough. */
MUXANDU_NODISCARD
MUXANDU_INLINE MuxanduStatus muxandu_format_items_z(MuxanduKind kind, const MuxanduItem *items, size_t items_count, MuxanduDateTime date_time, char *buffer, size_t buffer_count) MUXANDU_NOEXCEPT {
    size_t size = 0;
    MuxanduStatus answer = muxandu_format_items(kind, items, items_count, date_time, buffer, buffer_count == 0 ? 0 : buffer_count - 1, &size);
    if (answer == MUXANDU_OK) buffer[size] = '\0';
    return answer;
}

/* As muxandu_format, with a byte 0 at the end of the text. Errors: also BUFFER if 'buffer' has
 * no room for that byte. A buffer of 65 bytes is always enough. */
MUXANDU_NODISCARD
MUXANDU_INLINE MuxanduStatus muxandu_format_z(MuxanduKind kind, const char *description, size_t description_count, MuxanduDateTime date_time, char *buffer, size_t buffer_count) MUXANDU_NOEXCEPT {
    size_t size = 0;
    MuxanduStatus answer = muxandu_format(kind, description, description_count, date_time, buffer, buffer_count == 0 ? 0 : buffer_count - 1, &size);
    if (answer == MUXANDU_OK) buffer[size] = '\0';
    return answer;
}

/* As muxandu_date_time_to_iso, with a byte 0 at the end of the text. Errors: also BUFFER if
 * 'buffer' has no room for that byte. A buffer of 42 bytes is always enough. */
MUXANDU_NODISCARD
MUXANDU_INLINE MuxanduStatus muxandu_date_time_to_iso_z(MuxanduDateTime date_time, char *buffer, size_t buffer_count) MUXANDU_NOEXCEPT {
    size_t size = 0;
    MuxanduStatus answer = muxandu_date_time_to_iso(date_time, buffer, buffer_count == 0 ? 0 : buffer_count - 1, &size);
    if (answer == MUXANDU_OK) buffer[size] = '\0';
    return answer;
}

/* As muxandu_date_time_text, with a byte 0 at the end of the text. Errors: also BUFFER if
 * 'buffer' has no room for that byte. A buffer of 43 bytes is always enough. */
MUXANDU_NODISCARD
MUXANDU_INLINE MuxanduStatus muxandu_date_time_text_z(MuxanduDateTime date_time, char *buffer, size_t buffer_count) MUXANDU_NOEXCEPT {
    size_t size = 0;
    MuxanduStatus answer = muxandu_date_time_text(date_time, buffer, buffer_count == 0 ? 0 : buffer_count - 1, &size);
    if (answer == MUXANDU_OK) buffer[size] = '\0';
    return answer;
}

/* As muxandu_timestamp_text, with a byte 0 at the end of the text. Errors: also BUFFER if
 * 'buffer' has no room for that byte. A buffer of 26 bytes is always enough. */
MUXANDU_NODISCARD
MUXANDU_INLINE MuxanduStatus muxandu_timestamp_text_z(MuxanduTimestamp at, char *buffer, size_t buffer_count) MUXANDU_NOEXCEPT {
    size_t size = 0;
    MuxanduStatus answer = muxandu_timestamp_text(at, buffer, buffer_count == 0 ? 0 : buffer_count - 1, &size);
    if (answer == MUXANDU_OK) buffer[size] = '\0';
    return answer;
}

#ifdef __cplusplus
}
#endif

#endif
