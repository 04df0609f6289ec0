//! The zone of a file, whose clocks are those of Python's `zoneinfo`.
use super::is;
use stamp_times::Timestamp;
use std::test::Fail;
use zone_uses::file_zones::{time_in_zone, zone_of};

// A file of version 3 with no transitions and the rule of Berlin.
static BERLIN: [u8; 136] = [
    84, 90, 105, 102, 51, 0, 0, 0, 0, 0, 0, 0, 0, 0, 0, 0, 0, 0, 0, 0, 0, 0, 0, 0, 0, 0, 0, 0, 0,
    0, 0, 0, 0, 0, 0, 0, 0, 0, 0, 1, 0, 0, 0, 4, 0, 0, 14, 16, 0, 0, 67, 69, 84, 0, 84, 90, 105,
    102, 51, 0, 0, 0, 0, 0, 0, 0, 0, 0, 0, 0, 0, 0, 0, 0, 0, 0, 0, 0, 0, 0, 0, 0, 0, 0, 0, 0, 0, 0,
    0, 0, 0, 0, 0, 1, 0, 0, 0, 4, 0, 0, 14, 16, 0, 0, 67, 69, 84, 0, 10, 67, 69, 84, 45, 49, 67,
    69, 83, 84, 44, 77, 51, 46, 53, 46, 48, 44, 77, 49, 48, 46, 53, 46, 48, 47, 51, 10,
];

#[test]
fn zone_of_a_file(rt: HostRuntime) -> Result<(), Fail> {
    let Some(zone) = zone_of(rt.alloc(), &BERLIN)? else {
        return Err(Fail::from("no zone"));
    };
    for (second, offset) in [(1_711_846_799, 3_600), (1_711_846_800, 7_200)] {
        let at = time_in_zone(Timestamp::from_seconds(second)?, &zone).ok_or("out of range")?;
        is(
            &rt,
            (at.unix_timestamp(), at.offset().whole_seconds()),
            (second, offset),
        );
    }
    is(&rt, zone_of(rt.alloc(), &BERLIN[..100])?.is_none(), true);
    Ok(())
}
