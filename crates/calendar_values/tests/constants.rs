//! The numbers of the constants.
use super::is;
use calendar_values::constants::{dates, durations, offsets, times};
use calendar_values::{Date, SignedDuration, Time, UtcOffset};

#[test]
fn functions_give_the_constants(rt: HostRuntime) {
    let (days, clocks) = (dates(), times());
    is(&rt, days.first, Date::MIN);
    is(&rt, days.last, Date::MAX);
    is(&rt, days.epoch, Date::UNIX_EPOCH);
    is(&rt, clocks.midnight, Time::MIDNIGHT);
    is(&rt, clocks.last, Time::MAX);
    is(&rt, offsets(), UtcOffset::UTC);
    let lengths = durations();
    is(&rt, lengths.zero, SignedDuration::ZERO);
    is(&rt, lengths.nanosecond, SignedDuration::nanoseconds(1));
    is(&rt, lengths.microsecond, SignedDuration::microseconds(1));
    is(&rt, lengths.millisecond, SignedDuration::milliseconds(1));
    is(&rt, lengths.second, SignedDuration::seconds(1));
    is(&rt, lengths.minute, SignedDuration::minutes(1));
    is(&rt, lengths.hour, SignedDuration::hours(1));
    is(&rt, lengths.day, SignedDuration::days(1));
    is(&rt, lengths.week, SignedDuration::weeks(1));
}
