//! Deadlines of a support desk: a ticket is answered by noon of the second working day.

use muxandu::ext::NumericalDuration;
use muxandu::macros::{datetime, offset};
use muxandu::{Date, Duration, OffsetDateTime, Time, UtcOffset, Weekday};

fn is_working_day(date: Date) -> bool {
    !matches!(date.weekday(), Weekday::Saturday | Weekday::Sunday)
}

/// The day that is so many working days later.
fn working_days_later(mut date: Date, mut count: u32) -> Option<Date> {
    while count > 0 {
        date = date.next_day()?;
        count -= u32::from(is_working_day(date));
    }
    Some(date)
}

/// Noon of the second working day, as the customer's clocks show it.
fn deadline(opened: OffsetDateTime, customer: UtcOffset) -> Option<OffsetDateTime> {
    let date = working_days_later(opened.date(), 2)?;
    let noon = Time::from_hms(12, 0, 0).ok()?;
    Some(opened.replace_date(date).replace_time(noon).to_offset(customer))
}

fn main() {
    let opened = datetime!(2024-02-28 16:40 +1);
    let due = deadline(opened, offset!(-5)).expect("a day of the range");
    let left: Duration = due - opened;
    println!("{due}, week {}, in {} hours", due.iso_week(), left.whole_hours());
    println!("reminded {}", due - 90.minutes());
}
