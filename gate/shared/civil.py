"""A calendar, clocks and texts of their own for the tools, from no code of this repository.

A day is counted from 1970-01-01, and dates are found by eras of 400 years that begin in March. A clock is counted in
nanoseconds of the day, an instant in nanoseconds from 1970-01-01 0:00 UTC.
"""

SECOND = 1_000_000_000
DAY = 86_400 * SECOND

# The range of times_bench. The seconds and the instants at its ends stand below the calendar.
FIRST_YEAR = -999_999
LAST_YEAR = 999_999

MONTHS = (
    "January", "February", "March", "April", "May", "June",
    "July", "August", "September", "October", "November", "December",
)  # fmt: skip
WEEKDAYS = ("Monday", "Tuesday", "Wednesday", "Thursday", "Friday", "Saturday", "Sunday")


def civil_date(day):
    """The year, the month and the day of the month of a day."""
    shifted = day + 719_468
    era, day_of_era = divmod(shifted, 146_097)
    year_of_era = (day_of_era - day_of_era // 1_460 + day_of_era // 36_524 - day_of_era // 146_096) // 365
    day_of_year = day_of_era - (365 * year_of_era + year_of_era // 4 - year_of_era // 100)
    month_from_march = (5 * day_of_year + 2) // 153
    day_of_month = day_of_year - (153 * month_from_march + 2) // 5 + 1
    month = month_from_march + 3 if month_from_march < 10 else month_from_march - 9
    return year_of_era + 400 * era + (month <= 2), month, day_of_month


def day_number(year, month, day_of_month):
    """The day of a year, a month and a day of the month."""
    shifted = year - (month <= 2)
    era, year_of_era = divmod(shifted, 400)
    day_of_year = (153 * (month - 3 if month > 2 else month + 9) + 2) // 5 + day_of_month - 1
    return era * 146_097 + year_of_era * 365 + year_of_era // 4 - year_of_era // 100 + day_of_year - 719_468


FIRST_SECOND = day_number(FIRST_YEAR, 1, 1) * 86_400
LAST_SECOND = day_number(LAST_YEAR + 1, 1, 1) * 86_400 - 1
FIRST = FIRST_SECOND * SECOND
LAST = LAST_SECOND * SECOND + SECOND - 1


def month_length(year, month):
    """The days of a month."""
    next_year, next_month = (year, month + 1) if month < 12 else (year + 1, 1)
    return day_number(next_year, next_month, 1) - day_number(year, month, 1)


def ordinal(day):
    """The day of the year, 1 for 1 January."""
    return day - day_number(civil_date(day)[0], 1, 1) + 1


def weekday(day):
    """The day of the week, 0 for Monday. 1970-01-01 was a Thursday."""
    return (day + 3) % 7


def iso_week_date(day):
    """The year and the week of ISO 8601: the year of the Thursday of the week, and the week of that year."""
    thursday = day - weekday(day) + 3
    return civil_date(thursday)[0], (ordinal(thursday) - 1) // 7 + 1


def date_text(day):
    year, month, day_of_month = civil_date(day)
    sign = "-" if year < 0 else "+" if year > 9999 else ""
    return f"{sign}{abs(year):04}-{month:02}-{day_of_month:02}"


def time_text(clock):
    seconds, nanosecond = divmod(clock, SECOND)
    fraction = f"{nanosecond:09}".rstrip("0") or "0"
    return f"{seconds // 3_600}:{seconds // 60 % 60:02}:{seconds % 60:02}.{fraction}"


def date_time_text(wall):
    day, clock = divmod(wall, DAY)
    return f"{date_text(day)} {time_text(clock)}"


def offset_text(offset):
    size = abs(offset)
    return f"{'-' if offset < 0 else '+'}{size // 3_600:02}:{size // 60 % 60:02}:{size % 60:02}"


def timestamp_text(instant):
    seconds, nanosecond = divmod(abs(instant), SECOND)
    fraction = f".{nanosecond:09}".rstrip("0") if nanosecond else ""
    return f"{'-' if instant < 0 else ''}{seconds}{fraction}"
