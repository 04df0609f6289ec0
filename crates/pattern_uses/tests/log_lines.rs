//! Each caller over the lines of a log is called.
use super::is;
use calendar_values::UtcOffset;
use line_devices::devices::Device;
use line_devices::stamp_tallies::StampTally;
use log_forms::{Assumed, FormName, Place, named_form};
use pattern_uses::log_lines;
use std::test::Fail;
use utc_times::UtcDateTime;

#[test]
fn lines_of_a_log(rt: HostRuntime) -> Result<(), Fail> {
    let lines: [&[u8]; 2] = [b"Dec 31 23:59:59 a", b"Jan  1 00:00:00 b"];
    let reading = log_lines::reading_of(&lines);
    is(&rt, reading, Some((FormName::Syslog, Place::Front)));
    let form = named_form(FormName::Syslog);
    let assumed = Assumed {
        offset: Some(UtcOffset::UTC),
        year: Some(2_023),
        month: 0,
    };
    let first = log_lines::next_stamp(&form, &assumed, None, lines[0]).map(|stamp| stamp.instant);
    let second = log_lines::next_stamp(&form, &assumed, first, lines[1]);
    let seconds = second.map(|stamp| stamp.instant.unix_timestamp());
    is(&rt, seconds, Some(1_704_067_200));
    let message = log_lines::message_of(&form, &assumed, lines[0]);
    is(&rt, message, Some(b" a".as_slice()));
    Ok(())
}

#[test]
fn counts_of_a_log(rt: HostRuntime) -> Result<(), Fail> {
    let tally = log_lines::with_line(StampTally::new(), 7, b" at x");
    is(&rt, (tally.texts, tally.continued), (0, 1));
    let (from, to) = (
        UtcDateTime::from_unix_timestamp(0)?,
        UtcDateTime::from_unix_timestamp(5_400)?,
    );
    is(&rt, log_lines::hours_between(from, to), 2);
    Ok(())
}

#[test]
fn devices_lend_what_they_are_over(rt: HostRuntime) {
    let device = Device::new(7_u8);
    is(&rt, *device.inner(), 7);
    is(&rt, device.is_at_line_start(), true);
}
