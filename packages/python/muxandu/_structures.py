"""The structures of the library, as ctypes has them.

Made by make/bindings from crates/muxandu_c/src. Do not edit.
"""

import ctypes


def laid_out(structure, size, /, **places):
    """Stops if the size of a structure or the place of a field is not that of the library."""
    found = {name: getattr(structure, name).offset for name in places}
    if (ctypes.sizeof(structure), found) != (size, places):
        raise ImportError(f"{structure.__name__} is not laid out as the library has it: {found}")


class MuxanduTimestamp(ctypes.Structure):
    """An instant: a Unix second and a nanosecond of that second, before 1970 too."""

    _fields_ = [
        # The seconds from 1970-01-01 0:00 UTC, rounded down: -31619087596800 to 31494784780799.
        ("seconds", ctypes.c_int64),
        # The nanoseconds past that second, 0 to 999999999.
        ("nanoseconds", ctypes.c_uint32),
    ]


laid_out(MuxanduTimestamp, 16, seconds=0, nanoseconds=8)


class MuxanduDuration(ctypes.Structure):
    """A duration: the sum of its seconds and its nanoseconds. A call writes both with one sign,
    and less than a second of nanoseconds. It takes any whose sum is at least -2^63 seconds -
    999999999 ns and at most 2^63 - 1 seconds + 999999999 ns."""

    _fields_ = [
        # The seconds.
        ("seconds", ctypes.c_int64),
        # The nanoseconds to add to the seconds.
        ("nanoseconds", ctypes.c_int32),
    ]


laid_out(MuxanduDuration, 16, seconds=0, nanoseconds=8)


class MuxanduDateTime(ctypes.Structure):
    """A date and a time of day in the proleptic Gregorian calendar, and their offset from UTC."""

    _fields_ = [
        # The year, -999999 to 999999; year 0 comes before year 1.
        ("year", ctypes.c_int32),
        # The month, 1 to 12.
        ("month", ctypes.c_uint8),
        # The day of the month, 1 to 31 and no more than the month has.
        ("day", ctypes.c_uint8),
        # The hour, 0 to 23.
        ("hour", ctypes.c_uint8),
        # The minute, 0 to 59.
        ("minute", ctypes.c_uint8),
        # The second, 0 to 59: there are no leap seconds.
        ("second", ctypes.c_uint8),
        # The nanosecond of the second, 0 to 999999999.
        ("nanosecond", ctypes.c_uint32),
        # The offset: the seconds by which local clocks are ahead of UTC, -93599 to 93599.
        ("offset_seconds", ctypes.c_int32),
    ]


laid_out(MuxanduDateTime, 20, year=0, month=4, day=5, hour=6, minute=7, second=8, nanosecond=12, offset_seconds=16)


class MuxanduDate(ctypes.Structure):
    """A date: a year, a month and a day of the month."""

    _fields_ = [
        # The year, -999999 to 999999.
        ("year", ctypes.c_int32),
        # The month, 1 to 12.
        ("month", ctypes.c_uint8),
        # The day of the month, 1 to 31 and no more than the month has.
        ("day", ctypes.c_uint8),
    ]


laid_out(MuxanduDate, 8, year=0, month=4, day=5)


class MuxanduOrdinalDate(ctypes.Structure):
    """A date as a year and a day of the year."""

    _fields_ = [
        # The year, -999999 to 999999.
        ("year", ctypes.c_int32),
        # The day of the year, 1 to 365, or 366 in a leap year.
        ("ordinal", ctypes.c_uint16),
    ]


laid_out(MuxanduOrdinalDate, 8, year=0, ordinal=4)


class MuxanduWeekDate(ctypes.Structure):
    """A date as an ISO year, an ISO week and a day of the week (ISO 8601). The week belongs to
    the year of its Thursday."""

    _fields_ = [
        # The ISO year, -999999 to 999999.
        ("year", ctypes.c_int32),
        # The ISO week, 1 to 52, or 53 in a year of 53 weeks.
        ("week", ctypes.c_uint8),
        # The day of the week, 0 for Monday to 6 for Sunday.
        ("weekday", ctypes.c_uint8),
    ]


laid_out(MuxanduWeekDate, 8, year=0, week=4, weekday=5)


class MuxanduSpan(ctypes.Structure):
    """The place of a text in a block of texts."""

    _fields_ = [
        # The index of its first byte in the block.
        ("start", ctypes.c_size_t),
        # The number of its bytes.
        ("length", ctypes.c_size_t),
    ]


laid_out(MuxanduSpan, 16, start=0, length=8)


class MuxanduBatch(ctypes.Structure):
    """The result of a call with many items. It converts them in their order, up to the first
    that it rejects."""

    _fields_ = [
        # The number of items that it converted and wrote.
        ("count", ctypes.c_size_t),
        # 0 if these are all items, else the error of the next.
        ("status", ctypes.c_uint32),
    ]


laid_out(MuxanduBatch, 16, count=0, status=8)


class MuxanduItem(ctypes.Structure):
    """An item of a compiled description, as muxandu_description_parse writes it. Keep it as it
    is: its numbers can be others in a later version."""

    _fields_ = [
        # The kind of the item.
        ("kind", ctypes.c_uint8),
        # The first modifier of a component.
        ("first", ctypes.c_uint8),
        # The second modifier.
        ("second", ctypes.c_uint8),
        # The third modifier.
        ("third", ctypes.c_uint8),
        # The fourth modifier.
        ("fourth", ctypes.c_uint8),
        # The byte, the size of a group, or the number of a component.
        ("number", ctypes.c_size_t),
    ]


laid_out(MuxanduItem, 16, kind=0, first=1, second=2, third=3, fourth=4, number=8)


class MuxanduTime(ctypes.Structure):
    """A time of day."""

    _fields_ = [
        # The hour, 0 to 23.
        ("hour", ctypes.c_uint8),
        # The minute, 0 to 59.
        ("minute", ctypes.c_uint8),
        # The second, 0 to 59: there are no leap seconds.
        ("second", ctypes.c_uint8),
        # The nanosecond of the second, 0 to 999999999.
        ("nanosecond", ctypes.c_uint32),
    ]


laid_out(MuxanduTime, 8, hour=0, minute=1, second=2, nanosecond=4)


class MuxanduMoment(ctypes.Structure):
    """A moment: an instant, and the offset of the clocks that show it. It is a row of a column:
    16 bytes with no padding."""

    _fields_ = [
        # The seconds from 1970-01-01 0:00 UTC, rounded down: -31619087596800 to 31494784780799.
        ("seconds", ctypes.c_int64),
        # The nanoseconds past that second, 0 to 999999999.
        ("nanoseconds", ctypes.c_uint32),
        # The offset: the seconds by which local clocks are ahead of UTC, -93599 to 93599.
        ("offset_seconds", ctypes.c_int32),
    ]


laid_out(MuxanduMoment, 16, seconds=0, nanoseconds=8, offset_seconds=12)


class MuxanduOffset(ctypes.Structure):
    """An offset from UTC as hours, minutes and seconds, all of one sign."""

    _fields_ = [
        # The hours, -25 to 25.
        ("hours", ctypes.c_int8),
        # The minutes, -59 to 59.
        ("minutes", ctypes.c_int8),
        # The seconds, -59 to 59.
        ("seconds", ctypes.c_int8),
    ]


laid_out(MuxanduOffset, 3, hours=0, minutes=1, seconds=2)


class MuxanduOutcome(ctypes.Structure):
    """The result of a call with a description."""

    _fields_ = [
        # The number of items or of bytes that the call wrote or, with BUFFER, has to write. After
        # another error it is the index of the byte or of the item with the fault, or 0.
        ("size", ctypes.c_size_t),
        # 0, or the error.
        ("status", ctypes.c_uint32),
        # The reason of the error, the part that is at fault, or 0.
        ("reason", ctypes.c_uint32),
    ]


laid_out(MuxanduOutcome, 16, size=0, status=8, reason=12)


class MuxanduDateReads(ctypes.Structure):
    """Every reading of a date: its day numbers, its day of the year and of the week, and its
    weeks."""

    _fields_ = [
        # The day number, 0 on 1970-01-01.
        ("day", ctypes.c_int32),
        # The Julian day, 2440588 on 1970-01-01.
        ("julian_day", ctypes.c_int32),
        # The year of the ISO week, which is the year of its Thursday.
        ("iso_year", ctypes.c_int32),
        # The day of the year, 1 to 366.
        ("ordinal", ctypes.c_uint16),
        # The ISO week, 1 to 53.
        ("iso_week", ctypes.c_uint8),
        # The day of the week, 0 for Monday to 6 for Sunday.
        ("weekday", ctypes.c_uint8),
        # The number of Sundays in the year up to and including the date, 0 to 53.
        ("sunday_based_week", ctypes.c_uint8),
        # The number of Mondays in the year up to and including the date, 0 to 53.
        ("monday_based_week", ctypes.c_uint8),
    ]


laid_out(MuxanduDateReads, 20, day=0, julian_day=4, iso_year=8, ordinal=12, iso_week=14, weekday=15, sunday_based_week=16, monday_based_week=17)


class MuxanduZoneInstants(ctypes.Structure):
    """The instants at which the clocks of a time zone show a wall clock. There is one, or there
    are two in a fold, where clocks are put back over it. There is none in a gap, where clocks
    are put forward past it. Their Unix seconds may lie outside the range of timestamps by 93599."""

    _fields_ = [
        # The Unix second of the earlier instant, or of the only one. In a gap it is that of the
        # instant that the offset after the gap makes of the wall clock.
        ("earlier_seconds", ctypes.c_int64),
        # The Unix second of the later instant, or of the only one. In a gap it is that of the
        # instant that the offset before the gap makes of the wall clock.
        ("later_seconds", ctypes.c_int64),
        # The Unix second at which clocks are put forward in a gap, else 0.
        ("gap_second", ctypes.c_int64),
        # The nanosecond of both instants, 0 to 999999999: that of the wall clock.
        ("nanoseconds", ctypes.c_uint32),
        # The offset of the earlier instant in seconds, in a gap that after it: -93599 to 93599.
        ("earlier_offset_seconds", ctypes.c_int32),
        # The offset of the later instant, in a gap that before it.
        ("later_offset_seconds", ctypes.c_int32),
        # The number of instants: 1, 2 in a fold, 0 in a gap.
        ("count", ctypes.c_uint32),
    ]


laid_out(MuxanduZoneInstants, 40, earlier_seconds=0, later_seconds=8, gap_second=16, nanoseconds=24, earlier_offset_seconds=28, later_offset_seconds=32, count=36)


class MuxanduTransition(ctypes.Structure):
    """A transition of a time zone: its clocks go from one kind of local time to another."""

    _fields_ = [
        # The Unix second from which on the kind after it holds.
        ("second", ctypes.c_int64),
        # The offset until then, in seconds: -93599 to 93599.
        ("before_offset_seconds", ctypes.c_int32),
        # The offset from then on.
        ("after_offset_seconds", ctypes.c_int32),
        # The number of the abbreviation until then.
        ("before_designation", ctypes.c_uint16),
        # The number of the abbreviation from then on.
        ("after_designation", ctypes.c_uint16),
        # 1 for daylight saving time until then, else 0.
        ("before_is_daylight", ctypes.c_uint8),
        # 1 for daylight saving time from then on, else 0.
        ("after_is_daylight", ctypes.c_uint8),
    ]


laid_out(MuxanduTransition, 24, second=0, before_offset_seconds=8, after_offset_seconds=12, before_designation=16, after_designation=18, before_is_daylight=20, after_is_daylight=21)


class MuxanduZone(ctypes.Structure):
    """A time zone, but for its transitions, which the caller keeps in an array of its own. Keep
    both as a call wrote them."""

    _fields_ = [
        # The offset before the first transition, in seconds: -93599 to 93599.
        ("offset_seconds", ctypes.c_int32),
        # Seconds after the midnight of the first day of the rule, -604799 to 604799.
        ("first_time", ctypes.c_int32),
        # The offset after the first moment of the rule.
        ("first_offset_seconds", ctypes.c_int32),
        # Seconds after the midnight of the second day of the rule.
        ("second_time", ctypes.c_int32),
        # The offset after the second moment of the rule.
        ("second_offset_seconds", ctypes.c_int32),
        # The number of the abbreviation before the first transition.
        ("designation", ctypes.c_uint16),
        # The first day of the rule, for the kinds 2 and 3.
        ("first_day", ctypes.c_uint16),
        # The number of the abbreviation after the first moment of the rule.
        ("first_designation", ctypes.c_uint16),
        # The second day of the rule, for the kinds 2 and 3.
        ("second_day", ctypes.c_uint16),
        # The number of the abbreviation after the second moment of the rule.
        ("second_designation", ctypes.c_uint16),
        # 1 for daylight saving time before the first transition, else 0.
        ("is_daylight", ctypes.c_uint8),
        # 1 if a rule of each year follows the transitions, else 0.
        ("has_rule", ctypes.c_uint8),
        # The kind of the first day: 1 for a weekday of a month, 2 for `Jn`, 3 for `n`.
        ("first_kind", ctypes.c_uint8),
        # Its month, for kind 1.
        ("first_month", ctypes.c_uint8),
        # Its week of the month, 1 to 5, for kind 1.
        ("first_week", ctypes.c_uint8),
        # Its weekday, 0 for Sunday, for kind 1.
        ("first_weekday", ctypes.c_uint8),
        # 1 for daylight saving time after the first moment, else 0.
        ("first_is_daylight", ctypes.c_uint8),
        # The kind of the second day.
        ("second_kind", ctypes.c_uint8),
        # Its month, for kind 1.
        ("second_month", ctypes.c_uint8),
        # Its week of the month, for kind 1.
        ("second_week", ctypes.c_uint8),
        # Its weekday, for kind 1.
        ("second_weekday", ctypes.c_uint8),
        # 1 for daylight saving time after the second moment, else 0.
        ("second_is_daylight", ctypes.c_uint8),
    ]


laid_out(MuxanduZone, 44, offset_seconds=0, first_time=4, first_offset_seconds=8, second_time=12, second_offset_seconds=16, designation=20, first_day=22, first_designation=24, second_day=26, second_designation=28, is_daylight=30, has_rule=31, first_kind=32, first_month=33, first_week=34, first_weekday=35, first_is_daylight=36, second_kind=37, second_month=38, second_week=39, second_weekday=40, second_is_daylight=41)


class MuxanduTimeType(ctypes.Structure):
    """A kind of local time of a time zone."""

    _fields_ = [
        # The offset in seconds: -93599 to 93599.
        ("offset_seconds", ctypes.c_int32),
        # The number of the abbreviation.
        ("designation", ctypes.c_uint16),
        # 1 for daylight saving time, else 0.
        ("is_daylight", ctypes.c_uint8),
    ]


laid_out(MuxanduTimeType, 8, offset_seconds=0, designation=4, is_daylight=6)
