"""Prints a meeting each Monday at 9:00 in Berlin, as people in New York and Kathmandu see it, and
how long a night lasts there in which clocks are put forward."""

from muxandu import Date, PlainDateTime, Time, Zone

berlin, others = Zone("Europe/Berlin"), ("America/New_York", "Asia/Kathmandu")
first = Date(2024, 3, 25)
for week in range(3):
    meeting = PlainDateTime.new(first.add_days(7 * week), Time(9)).at_zone(berlin)
    seen = ", ".join(f"{meeting.to_zone(name):%a %H:%M} in {name}" for name in others)
    print(f"{meeting.to_rfc3339()}: {seen}")

begin, end = PlainDateTime(2024, 3, 30, 22), PlainDateTime(2024, 3, 31, 6)
hours = (end.at_zone(berlin) - begin.at_zone(berlin)).total_seconds() / 3_600
print(f"{hours:g} hours from {begin} to {end}")
