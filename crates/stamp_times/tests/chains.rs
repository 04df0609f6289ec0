//! Chains of conversions.
use calendar_values::UtcOffset;
use offset_times::{Assume, OffsetDateTime};
use stamp_times::{Held, Step, Timestamp, chain};
use std::test::Fail;

// Whether both are of one type, at one instant and at one offset.
fn is_same(held: Held, wanted: Held) -> bool {
    match held {
        Held::Stamp(stamp) => match wanted {
            Held::Stamp(wanted) => stamp == wanted,
            _ => false,
        },
        Held::Utc(at) => match wanted {
            Held::Utc(wanted) => at == wanted,
            _ => false,
        },
        Held::Offset(at) => match wanted {
            Held::Offset(wanted) => at == wanted && at.offset() == wanted.offset(),
            _ => false,
        },
    }
}

fn arrives(start: Held, steps: &[Step], wanted: Held) -> bool {
    match chain(start, steps) {
        Ok(held) => is_same(held, wanted),
        Err(_) => false,
    }
}

fn stops(start: Held, steps: &[Step], index: usize, wanted: Held) -> bool {
    match chain(start, steps) {
        Ok(_) => false,
        Err(stopped) => stopped.index == index && is_same(stopped.held, wanted),
    }
}

#[test]
fn arrives_or_stops(rt: HostRuntime) -> Result<(), Fail> {
    let epoch = Timestamp::UNIX_EPOCH;
    assert!(rt; arrives(Held::Stamp(epoch), &[], Held::Stamp(epoch)));
    let one_east = UtcOffset::from_hms(1, 0, 0)?;
    let start = Held::Offset(epoch.to_utc().as_plain().assume_offset(one_east));
    let hour_before = Held::Stamp(Timestamp::from_seconds(-3_600)?);
    assert!(rt; arrives(start, &[Step::ToUtc, Step::ToStamp], hour_before));
    let steps = [
        Step::ToOffset(UtcOffset::from_hms(-25, 59, 59)?),
        Step::ToUtc,
        Step::ToOffset(one_east),
    ];
    // 9999-12-31 23:59:59.999999999 in UTC, an hour later by the clocks at the offset
    let last_of_four_digits = Timestamp::new(253_402_300_799, 999_999_999)?.to_utc();
    let shown = Timestamp::new(253_402_304_399, 999_999_999)?.to_utc();
    let wanted = Held::Offset(shown.as_plain().assume_offset(one_east));
    assert!(rt; arrives(Held::Utc(last_of_four_digits), &steps, wanted));
    let last = Timestamp::new(31_494_784_780_799, 999_999_999)?.to_utc();
    assert!(rt; stops(Held::Utc(last), &steps, 2, Held::Utc(last)));
    let ten_east = UtcOffset::from_hms(10, 0, 0)?;
    let steps = [
        Step::ToOffset(UtcOffset::from_hms(25, 0, 0)?),
        Step::ToOffset(ten_east),
        Step::ToStamp,
    ];
    let first_of_four_digits = Timestamp::from_seconds(-377_705_116_800)?.to_utc();
    let start = Held::Offset(first_of_four_digits.as_plain().assume_offset(ten_east));
    let wanted = Held::Stamp(Timestamp::from_seconds(-377_705_152_800)?);
    assert!(rt; arrives(start, &steps, wanted));
    let first = Timestamp::from_seconds(-31_619_087_596_800)?.to_utc();
    let start = Held::Offset(first.as_plain().assume_offset(ten_east));
    let wanted = Held::Offset(first.as_plain().assume_offset(ten_east));
    assert!(rt; stops(start, &steps, 2, wanted));
    Ok(())
}
