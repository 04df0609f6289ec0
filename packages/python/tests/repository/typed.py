"""A user's program, for a checker of types: each line that it must refuse says that it is wrong. It is not run."""

from array import array
from datetime import date, datetime, timedelta
from typing import List, Optional, Tuple

import muxandu
from muxandu import columns
from muxandu import Date, Duration, OffsetDateTime, PlainDateTime, Time, Timestamp, Unit, UtcDateTime, UtcOffset, Zone

at: Timestamp = Timestamp.from_rfc3339("2024-02-29T12:34:56Z") + timedelta(days=1)
later: Timestamp = Duration(1) + at
apart: Duration = later - at
shown: OffsetDateTime = at.to_offset(UtcOffset.from_hms(2))
again: OffsetDateTime = shown.to_offset(3_600).truncated_to(Unit.DAY).replace(hour=5) - apart
utc: UtcDateTime = (again.to_utc() + apart).saturating_add(timedelta(1))
plain: PlainDateTime = utc.date_time()
parts: Tuple[Date, Time, UtcOffset] = (shown.date(), plain.time(), shown.offset())
day: date = (Date(2024, 2, 28) + 1).to_date()
days: int = (Date.today() - Date.MIN).whole_days()
moment: datetime = at.to_datetime()
texts: List[str] = muxandu.rfc3339_from_timestamps([at, later])
each, statuses = muxandu.date_times_from_each_second([0, None, float("nan"), 1], UtcOffset.UTC)
numbers = muxandu.seconds_from_date_times(muxandu.date_times_from_seconds(array("q", [0]), 3_600))
parts_of_texts = muxandu.date_times_from_rfc3339(["1970-01-01T00:00:00Z", b"1970-01-01T00:00:00Z"])
local_texts: List[str] = muxandu.rfc3339_from_date_times([shown, again])
texts_or_none: List[Optional[str]] = muxandu.rfc3339_from_date_times([shown, None], "coerce")
day_numbers = muxandu.days_from_dates(muxandu.dates_from_days(memoryview(array("i", [0]))))
read: Tuple[OffsetDateTime, Date, UtcOffset] = (
    OffsetDateTime.from_text(str(shown)),
    Date.from_text("2024-02-29"),
    UtcOffset.from_text("+02:00:00"),
)
missing: int = muxandu.MISSING
length: Duration = 3 * Duration.of(timedelta(hours=1)) % Duration(7)
order: bool = at < later and shown <= again and utc != shown and length > timedelta(0)
instants: bool = at < shown and shown >= utc and utc > at and at <= utc
lengths: Tuple[Duration, Duration, Duration] = (at - shown, shown - utc, utc - at)
refusal: str = muxandu.RefusedMonth.name
first_parts: muxandu.DateTimeParts = muxandu.date_times_from_seconds([0])[0]
first_date: muxandu.DateParts = muxandu.dates_from_days(range(3))[0]
first_stamp: muxandu.TimestampParts = muxandu.timestamps_from_rfc3339(["1970-01-01T00:00:00Z"])[0]
whole: int = muxandu.seconds_from_date_times([shown])[0]
filled: "array[int]" = muxandu.seconds_from_date_times([shown], array("q", [0]))
status: int = statuses[0]
rows = columns.moments_from_rfc3339(["1970-01-01T00:00:00Z", "1970-01-01T00:00:00+01:00"])
row: columns.MomentParts = columns.moments_add(rows, Duration(1))[0]
apart_by: columns.DurationParts = columns.moments_difference(rows, shown)[0]
orders: List[int] = columns.moments_compare(rows, rows).tolist()
moved, told = columns.each_moment_to_offset([shown, None], UtcOffset.UTC)
moved_row, told_status = columns.each_moment_add(moved, [Duration(1), timedelta(1)])[0][0], told[1] == muxandu.MISSING
plain_rows, _ = columns.moments_from_each_plain_text(["1970-01-01T00:00:00", None], [0, UtcOffset.UTC])
hour_long: Duration = Duration(hours=1, minutes=UtcOffset.UTC)
ends: Tuple[OffsetDateTime, OffsetDateTime] = (OffsetDateTime.MIN, OffsetDateTime.MAX)
week: int = Date.today().to_iso_week_date().week
python_moment: datetime = shown.to_datetime()
berlin: Zone = Zone.from_rule("CET-1CEST,M3.5.0,M10.5.0/3")
in_berlin: OffsetDateTime = at.to_zone(berlin).to_utc().to_zone("Europe/Berlin").to_zone(Zone.local())
local_times: muxandu.LocalTimes = berlin.instants_of(plain)
of_wall: Tuple[OffsetDateTime, ...] = local_times.times + (plain.at_zone(berlin), plain.at_zone("Europe/Berlin", "later"))
skipped: Optional[PlainDateTime] = local_times.gap and local_times.gap.end
change: Optional[muxandu.Transition] = berlin.next_transition(at) or berlin.previous_transition(shown)
offset_there: UtcOffset = change.after.offset if change and change.after.is_daylight else berlin.offset_at(utc)
told_of_zone: Tuple[Optional[str], Optional[str], Optional[str]] = (berlin.name, berlin.source, berlin.version)
row_there: columns.MomentParts = columns.moments_to_zone(rows, berlin)[0]


def matched(value: OffsetDateTime) -> int:
    """The year of a date-time of February."""
    match value:
        case OffsetDateTime(year, 2, _):
            return year
    return 0


full: Tuple[Time, UtcOffset] = Time.from_text_with_offset("12:34:56Z")


class Stamp(Timestamp):
    """A class of a user's own."""


mine: Stamp = Stamp.now() + Duration(1)

Timestamp("5")  # wrong
at.to_zone(3_600)  # wrong
plain.to_zone(berlin)  # wrong
plain.at_zone(berlin, "never")  # wrong
berlin.offset_at(5)  # wrong
berlin.instants_of(at)  # wrong
berlin.name = "Europe/Berlin"  # wrong
Zone(b"Europe/Berlin")  # wrong
change.after  # wrong
columns.moments_to_zone(rows, 3_600)  # wrong
Timestamp(0.5)  # wrong
Timestamp.from_rfc3339(5)  # wrong
at + 1  # wrong
at < 5  # wrong
shown.replace(yaer=5)  # wrong
Date(2024, 2, 29).replace(hour=5)  # wrong
shown - plain  # wrong
number: int = later - at  # wrong
shown.to_offset("Z")  # wrong
Date(2024, 2)  # wrong
Duration(hours=0.5)  # wrong
Duration(months=1)  # wrong
OffsetDateTime(2024, 2, 29, zone=0)  # wrong
at.seconds = 5  # wrong
at.to_civil()  # wrong
muxandu.date_times_from_seconds("abc")  # wrong
muxandu.date_times_from_seconds([0.5])  # wrong
muxandu.date_times_from_seconds([None])  # wrong
muxandu.seconds_from_date_times([at])  # wrong
muxandu.rfc3339_from_timestamps(["1970-01-01T00:00:00Z"])  # wrong
muxandu.timestamps_from_rfc3339([5])  # wrong
Date.from_text(5)  # wrong
one, two, three = muxandu.seconds_from_each_date_time([shown])  # wrong
first_parts + 1  # wrong
day_of: int = muxandu.dates_from_days([0])[0]  # wrong
stamps: List[str] = muxandu.timestamps_from_rfc3339(["1970-01-01T00:00:00Z"])  # wrong
words: List[str] = muxandu.seconds_from_date_times([shown]).tolist()  # wrong
columns.moments_add(rows, 5)  # wrong
columns.moments_to_offset(rows, "Z")  # wrong
columns.moments_truncate([at], Unit.DAY)  # wrong
columns.moments_from_rfc3339([5])  # wrong
status_text: str = columns.each_moment_add(rows, Duration(1))[1][0]  # wrong
other_row: columns.DurationParts = columns.moments_add(rows, Duration(1))[0]  # wrong
