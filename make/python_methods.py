"""Which call of the library each method makes, named without `muxandu_`.

make/python_calls reads these tables. A call whose first parameter is the structure
of a class is a method of it, and each other a class method.
"""

import re

# The structure that the values of each class hold.
STRUCTURES = {"MuxanduTimestamp": "Timestamp", "MuxanduDateTime": "OffsetDateTime", "MuxanduDuration": "Duration"}

# How the calls of a class begin.
PREFIXES = {"Timestamp": "timestamp_", "OffsetDateTime": "date_time_"}

# The methods of other names than their calls. `complete` adds each other call, which has its own name in its class.
METHODS = {
    "Timestamp": {
        "_from_microseconds": "timestamp_from_microseconds",
        "_from_nanoseconds": "timestamp_from_nanoseconds",
        "as_milliseconds": "timestamp_to_milliseconds",
        "_as_microseconds": "timestamp_to_microseconds",
        "_as_nanoseconds": "timestamp_to_nanoseconds",
        "saturating_sub": "timestamp_saturating_subtract",
        "truncated_to": "timestamp_truncate",
        "with_part": "timestamp_replace",
        "to_offset": "date_time_from_timestamp",
    },
    "OffsetDateTime": {
        "saturating_add": "date_time_saturating_add",
        "saturating_sub": "date_time_saturating_subtract",
        "truncated_to": "date_time_truncate",
        "with_part": "date_time_replace",
        "to_timestamp": "timestamp_from_date_time",
        "to_rfc3339": "date_time_to_rfc3339",
        "day_number": "date_time_day",
    },
    "UtcDateTime": {
        "saturating_add": "date_time_saturating_add",
        "saturating_sub": "date_time_saturating_subtract",
        "truncated_to": "date_time_truncate",
        "to_timestamp": "timestamp_from_date_time",
        "to_rfc3339": "date_time_to_rfc3339",
        "day_number": "date_time_day",
    },
    "PlainDateTime": {
        "from_rfc3339": "date_time_from_plain",
        "saturating_add": "date_time_saturating_add",
        "saturating_sub": "date_time_saturating_subtract",
        "truncated_to": "date_time_truncate",
        "day_number": "date_time_day",
    },
    "Duration": {"_of_words": "duration_from_text"},
}

# The calls of operators and texts, which extension.c makes as functions, and those of constructors, comparisons and hashes, which
# it makes by themselves.
OPERATORS = (
    *("timestamp_add", "timestamp_subtract", "timestamp_difference", "timestamp_text"),
    *("date_time_add", "date_time_subtract", "date_time_text"),
)
BY_THEMSELVES = ("timestamp_check", "timestamp_compare", "date_time_check", "date_time_difference", "date_time_compare")

# Calls for the types of a database, which no class has. Each other call over numbers alone is a function: a structure that no
# class holds goes in and out as its numbers. So is each call over many items: each array goes in as its buffer and its count, and
# out come a count and a status.
FOR_DATABASES = (
    "timestamp_from_microseconds_2000",
    "timestamp_to_microseconds_2000",
    "timestamp_truncate_digits",
    "date_time_check_rfc3339",
    *("duration_fault", "duration_text"),
)

# Calls with one description, which the package makes by the items of it and by the calls for many.
OF_ONE_DESCRIPTION = ("format", "format_items", "parse", "parse_front")

# Calls with a time zone, which zones.h makes by hand: their zone and its transitions are one object.
OF_ZONES = (
    *("zone_from_tzif", "zone_from_text", "zone_offset_at", "zone_offsets_at", "zone_instants_of"),
    *("zone_next_transition", "zone_previous_transition", "timestamp_to_zone", "date_time_at_zone"),
    *("timestamps_to_zone", "date_times_at_zone", "zone_name_check", "zone_type_at"),
    *("zone_abbreviation_from_tzif", "zone_abbreviation_from_text"),
)

# The parameters whose value a refusal is of, by the name of the refusal. The first that a call has is the one.
REFUSED = {
    "YEAR": ("year", "value"),
    "MONTH": ("month", "value"),
    "DAY": ("day", "value"),
    "DAY_OF_MONTH": ("day", "value"),
    "ORDINAL": ("ordinal", "value"),
    "ORDINAL_OF_YEAR": ("ordinal", "value"),
    "WEEK": ("week",),
    "WEEK_OF_YEAR": ("week",),
    "WEEKDAY": ("weekday",),
    "HOUR": ("hour", "value"),
    "MINUTE": ("minute", "value"),
    "SECOND": ("second", "value"),
    "NANOSECOND": ("nanosecond", "nanoseconds", "value"),
    "OFFSET_SECONDS": ("offset_seconds", "seconds"),
    "TIMESTAMP": ("seconds", "milliseconds"),
    "DAY_NUMBER": ("day", "julian_day"),
    "UNIT": ("unit", "part"),
    "OFFSET_HOUR": ("hours",),
    "OFFSET_MINUTE": ("minutes",),
}

_RFC3339 = (
    "The {what} of a text of RFC 3339, as 1985-04-12T23:20:50.52Z or 1996-12-19T16:39:57-08:00, a str or bytes. Digits past the "
    "ninth of the fraction drop out. RefusedSyntax if the text has another form, else the class of the first part "
    "that is out of range, such as RefusedMonth."
)
_LATER = "The {what} plus a Duration or a timedelta, or the end of the range. It never raises RefusedResult."
_EARLIER = "The {what} minus a Duration or a timedelta, or the end of the range. It never raises RefusedResult."

# The texts of `help` for methods. Another method has the comment of the header.
DOCS = {
    "Timestamp": {
        "from_rfc3339": _RFC3339.format(what="instant"),
        "from_milliseconds": "The instant of a number of milliseconds from 1970-01-01 0:00 UTC. RefusedTimestamp if out of range.",
        "as_milliseconds": "The milliseconds from 1970-01-01 0:00 UTC, rounded down.",
        "saturating_add": _LATER.format(what="instant"),
        "saturating_sub": _EARLIER.format(what="instant"),
        "truncated_to": "The instant rounded down to a Unit in UTC, also before 1970. RefusedUnit if it is no unit.",
        "with_part": "The instant with one Part of its date or time of day in UTC replaced. RefusedUnit if it is no part, "
        "else the class of the part, such as RefusedHour.",
        "to_offset": "The date-time of the instant at an offset, which is an integer of seconds or a UtcOffset. "
        "RefusedOffsetSeconds outside -93599 to 93599, RefusedResult if the year there is out of range.",
        "to_rfc3339": "The shortest text of RFC 3339 in UTC, such as 1985-04-12T23:20:50.52Z. RefusedNoText outside the years 0 to "
        "9999.",
        "to_rfc3339_nanos": "The text of RFC 3339 in UTC with nine digits of the fraction, such as 1985-04-12T23:20:50.520000000Z. "
        "Such texts sort by their instants. RefusedNoText outside the years 0 to 9999.",
    },
    "OffsetDateTime": {
        "from_rfc3339": _RFC3339.format(what="date-time and its offset"),
        "from_rfc3339_front": "The date-time at the front of a text, as from_rfc3339 reads it, and the number of its bytes.",
        "from_rfc3339_leap": "The date-time as from_rfc3339 reads it, and 0. It also reads a second of 60 at the end of a month in UTC, "
        "where a leap second can be: as the last nanosecond before the next month, and 1. RefusedSecond elsewhere.",
        "from_local": "The date-time of a text of RFC 3339 with or without an offset, a str or bytes. A text without an offset has the "
        "offset of the caller, which is an integer of seconds or a UtcOffset. RefusedOffsetSeconds outside -93599 to 93599, else "
        "as from_rfc3339.",
        "saturating_add": _LATER.format(what="date-time at the same offset"),
        "saturating_sub": _EARLIER.format(what="date-time at the same offset"),
        "truncated_to": "The date-time rounded down to a Unit at its own offset. RefusedUnit if it is no unit.",
        "with_part": "The date-time with one Part replaced; a day of the year replaces the month and the day. RefusedUnit if "
        "it is no part, else the class of the part, such as RefusedHour.",
        "to_offset": "The same instant at another offset, which is an integer of seconds or a UtcOffset. "
        "RefusedOffsetSeconds outside -93599 to 93599, RefusedResult if the year there is out of range.",
        "to_timestamp": "The instant. RefusedResult outside the range of timestamps.",
        "to_rfc3339": "The shortest text of RFC 3339, such as 1996-12-19T16:39:57-08:00. RefusedNoText outside the years 0 to 9999, "
        "and if the offset has seconds or is of 24 hours or more.",
        "to_rfc3339_digits": "The text of RFC 3339 with 0 to 9 digits of the fraction; it cuts further digits off. "
        "RefusedNoText as to_rfc3339.",
        "to_iso": "The text of ISO 8601, which every date-time has. A year below 0 or above 9999 has a sign and six digits, as "
        "-004712-11-24T12:00:00Z, and an offset with seconds has these, as +01:19:32.",
        "from_iso": "The date-time and its offset of a text of ISO 8601 as to_iso writes it, a str or bytes. RefusedSyntax if the text "
        "has another form, else the class of the first part that is out of range, such as RefusedMonth.",
        "day_number": "The days from 1970-01-01 to the date at its offset.",
    },
    "UtcDateTime": {
        "saturating_add": "The value later by a duration, or the end of the range.",
        "saturating_sub": "The value earlier by a duration, or the end of the range.",
        "truncated_to": "Rounded down to a unit, before 1970 too. RefusedUnit if it is no unit.",
        "to_timestamp": "The instant.",
        "to_rfc3339": "The shortest text of RFC 3339. RefusedNoText if there is none.",
        "day_number": "The days from 1970-01-01.",
    },
}
DOCS["PlainDateTime"] = {
    **DOCS["UtcDateTime"],
    "from_rfc3339": "The date and the time of day of a text of RFC 3339 without an offset, as 2024-02-29T12:34:56.5, a str or bytes. "
    "Digits past the ninth of the fraction drop out. RefusedSyntax if the text has another form, else the class of the first part "
    "that is out of range, such as RefusedMonth.",
}


def complete(calls: dict) -> None:
    """Adds the calls of an interface that no table has: each as a method of the class that it reads first, or else makes."""
    tables = (
        OPERATORS,
        BY_THEMSELVES,
        FOR_DATABASES,
        OF_ONE_DESCRIPTION,
        OF_ZONES,
        *(rows.values() for rows in METHODS.values()),
    )
    known = {name for names in tables for name in names}
    for name, call in calls.items():
        places = {one["role"]: one["type"] for one in reversed(call["parameters"])}
        first = next((one["type"] for one in call["parameters"][:1] if one["role"] == "in"), None)
        kinds = [STRUCTURES.get(kind) for kind in (first, places.get("out"), call["result"])]
        kind = next((kind for kind in kinds if kind in PREFIXES), None)
        if kind and name not in known and places.keys().isdisjoint({"items in", "items out"}):
            METHODS[kind][name.removeprefix(PREFIXES[kind])] = name


def doc(kind: str, method: str, call: str, said: str) -> str:
    """The text of `help` for a method: that of DOCS, or the comment of the header with Python's names of the methods."""
    own = DOCS.get(kind, {}).get(method)
    if own is not None:
        return own
    return re.sub(r"\bmuxandu_(\w+)", lambda found: name_of(found[1]), said).replace("`", "")


def name_of(call: str) -> str:
    """The name that Python knows a call by: that of its method, or its own."""
    return next((name for calls in METHODS.values() for name, made in calls.items() if made == call), call)
