//! Logs in the order of time.
use super::is;
use calendar_values::UtcOffset;
use offset_times::{OffsetDateTime, ToOffset};
use stamp_times::logs::{Dated, Stamped};
use stamp_times::{Timestamp, logs};
use std::test::Fail;

#[test]
fn each_timestamp_once(rt: HostRuntime) -> Result<(), Fail> {
    let epoch = Timestamp::UNIX_EPOCH;
    let mut log = [epoch, Timestamp::MIN, epoch].to_vec(rt.alloc())?;
    logs::put_in_order(&mut log)?;
    assert!(rt; logs::enter(&mut log, Timestamp::MAX)?);
    assert!(rt; !logs::enter(&mut log, epoch)?);
    is(&rt, log.len(), 3);
    Ok(())
}

#[test]
fn removed(rt: HostRuntime) -> Result<(), Fail> {
    let epoch = Timestamp::UNIX_EPOCH;
    let mut log = [Timestamp::MIN, epoch, Timestamp::MAX].to_vec(rt.alloc())?;
    logs::put_in_order(&mut log)?;
    assert!(rt; logs::remove(&mut log, epoch));
    assert!(rt; !logs::remove(&mut log, epoch));
    is(&rt, log.len(), 2);
    is(&rt, log.get(0).copied(), Some(Timestamp::MIN));
    is(&rt, log.get(1).copied(), Some(Timestamp::MAX));
    Ok(())
}

#[test]
fn merged(rt: HostRuntime) -> Result<(), Fail> {
    let epoch = Timestamp::UNIX_EPOCH;
    let mut log = [Timestamp::MIN, epoch].to_vec(rt.alloc())?;
    logs::merge(&mut log, &[Timestamp::MAX, epoch])?;
    is(&rt, log.len(), 3);
    is(&rt, log.get(0).copied(), Some(Timestamp::MIN));
    is(&rt, log.get(1).copied(), Some(epoch));
    is(&rt, log.get(2).copied(), Some(Timestamp::MAX));
    logs::merge(&mut log, &[])?;
    is(&rt, log.len(), 3);
    Ok(())
}

#[test]
#[tactic(auto, using(stamp_times::specs::LogLemmas::without_repeats))]
fn last_of_a_log(rt: HostRuntime) -> Result<(), Fail> {
    let mut log = [Timestamp::MAX, Timestamp::MIN].to_vec(rt.alloc())?;
    logs::put_in_order(&mut log)?;
    is(&rt, logs::last(&log), Some(Timestamp::MAX));
    Ok(())
}

#[test]
fn cut_at_an_instant(rt: HostRuntime) -> Result<(), Fail> {
    let epoch = Timestamp::UNIX_EPOCH;
    let mut log = [epoch, Timestamp::MAX, Timestamp::MIN, epoch].to_vec(rt.alloc())?;
    log.sort()?;
    is(&rt, logs::before(&log, epoch).len(), 1);
    is(&rt, logs::from(&log, epoch).len(), 3);
    let (before, from) = logs::split_at(&log, Timestamp::MAX);
    is(&rt, (before.len(), from.len()), (3, 1));
    let (before, from) = logs::split_at(&log, Timestamp::MIN);
    is(&rt, (before.len(), from.len()), (0, 4));
    logs::drop_before(&mut log, epoch);
    is(&rt, log.len(), 3);
    is(&rt, log.first().copied(), Some(epoch));
    Ok(())
}

#[test]
fn ends_of_what_stands_in_any_order(rt: HostRuntime) -> Result<(), Fail> {
    let stamps = [
        Timestamp::UNIX_EPOCH,
        Timestamp::MAX,
        Timestamp::MIN,
        Timestamp::UNIX_EPOCH,
    ];
    is(&rt, logs::latest(&stamps), Some(Timestamp::MAX));
    is(&rt, logs::earliest(&stamps), Some(Timestamp::MIN));
    is(&rt, logs::latest(&[]), None);
    is(&rt, logs::earliest(&[]), None);
    Ok(())
}

#[derive(Clone, Copy)]
struct Line {
    at: Timestamp,
    number: u8,
}

impl Stamped for Line {
    ghost stamp = { λ line. line.at };

    fn stamp(&self) -> Timestamp {
        self.at
    }
}

fn numbered(at: Timestamp, number: u8) -> Line {
    Line { at, number }
}

#[test]
fn records_by_their_stamps(rt: HostRuntime) -> Result<(), Fail> {
    let epoch = Timestamp::UNIX_EPOCH;
    let mut lines = [
        numbered(Timestamp::MAX, 1),
        numbered(epoch, 2),
        numbered(Timestamp::MIN, 3),
        numbered(epoch, 4),
    ]
    .to_vec(rt.alloc())?;
    logs::sort_by_stamp(&mut lines)?;
    for (line, number) in lines.iter().zip([3_u8, 2, 4, 1].iter()) {
        is(&rt, line.number, *number);
    }
    is(&rt, numbered(epoch, 1).stamp(), epoch);
    Ok(())
}

#[derive(Clone, Copy)]
struct Sale {
    at: OffsetDateTime,
    number: u8,
}

impl Dated for Sale {
    ghost date_time = { λ sale. sale.at };

    fn date_time(&self) -> OffsetDateTime {
        self.at
    }
}

#[test]
fn records_by_their_date_times(rt: HostRuntime) -> Result<(), Fail> {
    // Clocks at the later instant show the earlier time.
    let noon = Timestamp::from_seconds(1_700_000_000)?;
    let later = Timestamp::from_seconds(1_700_003_600)?;
    let east = noon.to_utc().to_offset(UtcOffset::from_hms(2, 0, 0)?);
    let west = later.to_utc().to_offset(UtcOffset::from_hms(-8, 0, 0)?);
    let mut sales = [
        Sale {
            at: west,
            number: 1,
        },
        Sale {
            at: east,
            number: 2,
        },
    ]
    .to_vec(rt.alloc())?;
    logs::sort_by_date_time(&mut sales)?;
    for (sale, number) in sales.iter().zip([2_u8, 1].iter()) {
        is(&rt, sale.number, *number);
    }
    is(
        &rt,
        Sale {
            at: east,
            number: 1,
        }
        .date_time(),
        east,
    );
    Ok(())
}
