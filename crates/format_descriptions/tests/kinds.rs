//! Dates, times of day, offsets and wall clocks: each is written where it has what the items ask
//! for.
use super::is;
use calendar_values::{Date, Month, Text, Time, UtcOffset};
use format_descriptions::{
    Component, FormatRefusal, Item, Padding, Sign, format_date, format_offset, format_plain,
    format_time,
};
use plain_times::PlainDateTime;
use std::process::Abort;
use std::test::Fail;

const DAY: Item = Item::Part(Component::Day(Padding::Bare));

const HOUR: Item = Item::Part(Component::Hour(Padding::Bare));

const OFFSET_HOUR: Item = Item::Part(Component::OffsetHour(Sign::Mandatory, Padding::Zero));

// Ends the test unless this text is written, or the refusal is this one.
fn is_text(rt: &impl Abort, shown: Result<Text, FormatRefusal>, wanted: &str) {
    match shown {
        Ok(text) => is(rt, text.as_str(), wanted),
        Err(FormatRefusal::NoText) => is(rt, "no text", wanted),
        Err(FormatRefusal::Lacks(Component::Day(_))) => is(rt, "lacks day", wanted),
        Err(FormatRefusal::Lacks(Component::Hour(_))) => is(rt, "lacks hour", wanted),
        Err(FormatRefusal::Lacks(_)) => is(rt, "lacks another", wanted),
    }
}

#[test]
fn values_by_what_they_have(rt: HostRuntime) -> Result<(), Fail> {
    let date = Date::from_calendar_date(2003, Month::July, 9)?;
    let time = Time::from_hms(5, 0, 0)?;
    let offset = UtcOffset::from_hms(-3, -30, 0)?;
    let at = PlainDateTime::new(date, time);
    let both = [DAY, Item::Byte(b' '), HOUR];
    is_text(&rt, format_date(&[DAY], date), "9");
    is_text(&rt, format_date(&both, date), "lacks hour");
    is_text(
        &rt,
        format_date(&[OFFSET_HOUR, HOUR], date),
        "lacks another",
    );
    is_text(&rt, format_time(&[HOUR], time), "5");
    is_text(&rt, format_time(&both, time), "lacks day");
    is_text(&rt, format_offset(&[OFFSET_HOUR], offset), "-03");
    is_text(&rt, format_offset(&both, offset), "lacks day");
    is_text(&rt, format_plain(&both, at), "9 5");
    is_text(&rt, format_plain(&[OFFSET_HOUR], at), "lacks another");
    is_text(&rt, format_date(&[Item::Byte(200)], date), "no text");
    Ok(())
}
