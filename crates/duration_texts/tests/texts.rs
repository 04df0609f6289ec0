//! Texts that are written: the decimals are those of Python's `decimal`.
use super::is;
use calendar_values::SignedDuration;
use duration_texts::{parse_duration, seconds_text, short_text};
use std::test::Fail;

#[test]
fn decimals_of_seconds(rt: HostRuntime) -> Result<(), Fail> {
    for (duration, decimal) in [
        (SignedDuration::ZERO, "0"),
        (SignedDuration::minutes(90), "5400"),
        (SignedDuration::milliseconds(-500), "-0.5"),
        (SignedDuration::nanoseconds(1), "0.000000001"),
        (SignedDuration::nanoseconds(-1_000_000_010), "-1.00000001"),
        (SignedDuration::MAX, "9223372036854775807.999999999"),
        (SignedDuration::MIN, "-9223372036854775808.999999999"),
    ] {
        let text = seconds_text(duration);
        is(&rt, text.as_str() == decimal, true);
        is(&rt, parse_duration(text.as_bytes())?, duration);
    }
    Ok(())
}

#[test]
fn texts_in_short(rt: HostRuntime) -> Result<(), Fail> {
    for (duration, short) in [
        (SignedDuration::ZERO, "0s"),
        (SignedDuration::minutes(-90), "-1h30m"),
        (SignedDuration::milliseconds(93_780_500), "1d2h3m500ms"),
        (SignedDuration::nanoseconds(1_001_001), "1ms1us1ns"),
        (
            SignedDuration::MIN,
            "-106751991167300d15h30m8s999ms999us999ns",
        ),
    ] {
        let text = short_text(duration);
        is(&rt, text.as_str() == short, true);
        is(&rt, parse_duration(text.as_bytes())?, duration);
    }
    Ok(())
}
