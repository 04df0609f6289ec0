//! Logs of instants of two types.
use super::is;
use stamp_times::{Moment, Timestamp, moment_logs};
use std::alloc::AllocError;
use std::test::Fail;
use utc_times::UtcDateTime;

#[test]
fn each_instant_once(rt: HostRuntime) -> Result<(), Fail> {
    let (one, two) = (
        UtcDateTime::from_unix_timestamp(60)?,
        UtcDateTime::from_unix_timestamp(120)?,
    );
    let mut log = [two, one, two].to_vec(rt.alloc())?;
    moment_logs::put_in_order(&mut log)?;
    assert!(rt; !moment_logs::enter(&mut log, two)?);
    assert!(rt; moment_logs::enter(&mut log, UtcDateTime::UNIX_EPOCH)?);
    is(&rt, log.len(), 3);
    is(&rt, log.get(0).copied(), Some(UtcDateTime::UNIX_EPOCH));
    is(&rt, log.get(1).copied(), Some(one));
    is(&rt, log.get(2).copied(), Some(two));
    Ok(())
}

#[test]
fn removed(rt: HostRuntime) -> Result<(), Fail> {
    let (one, two) = (
        UtcDateTime::from_unix_timestamp(-1)?,
        UtcDateTime::from_unix_timestamp(1)?,
    );
    let mut log = [two, one].to_vec(rt.alloc())?;
    moment_logs::put_in_order(&mut log)?;
    assert!(rt; moment_logs::remove(&mut log, two));
    assert!(rt; !moment_logs::remove(&mut log, two));
    is(&rt, log.len(), 1);
    is(&rt, log.get(0).copied(), Some(one));
    Ok(())
}

// The place of an instant in a log, which it puts in order first.
#[tactic(auto, using(stamp_times::specs::LogLemmas::without_repeats))]
fn place_of<M: Moment>(log: &mut Vec<M>, at: M) -> Result<Option<usize>, AllocError> {
    moment_logs::put_in_order(log)?;
    Ok(moment_logs::find(log, at))
}

// The last instant of a log, which it puts in order first.
#[tactic(auto, using(stamp_times::specs::LogLemmas::without_repeats))]
fn last_of<M: Moment>(log: &mut Vec<M>) -> Result<Option<M>, AllocError> {
    moment_logs::put_in_order(log)?;
    Ok(moment_logs::last(log))
}

#[test]
fn found(rt: HostRuntime) -> Result<(), Fail> {
    let epoch = UtcDateTime::UNIX_EPOCH;
    let mut log = [UtcDateTime::MAX, epoch, UtcDateTime::MIN].to_vec(rt.alloc())?;
    is(&rt, place_of(&mut log, epoch)?, Some(1));
    let minute = UtcDateTime::from_unix_timestamp(60)?;
    is(&rt, place_of(&mut log, minute)?, None);
    is(&rt, last_of(&mut log)?, Some(UtcDateTime::MAX));
    Ok(())
}

#[test]
fn timestamps(rt: HostRuntime) -> Result<(), Fail> {
    let epoch = Timestamp::UNIX_EPOCH;
    let mut log = [Timestamp::MAX, epoch].to_vec(rt.alloc())?;
    moment_logs::merge(&mut log, &[Timestamp::MIN, epoch])?;
    is(&rt, log.len(), 3);
    is(&rt, place_of(&mut log, Timestamp::MIN)?, Some(0));
    is(&rt, place_of(&mut log, Timestamp::MAX)?, Some(2));
    is(&rt, last_of(&mut log)?, Some(Timestamp::MAX));
    Ok(())
}

#[test]
fn ends_in_any_order(rt: HostRuntime) -> Result<(), Fail> {
    let utc = [
        UtcDateTime::UNIX_EPOCH,
        UtcDateTime::MAX,
        UtcDateTime::MIN,
        UtcDateTime::UNIX_EPOCH,
    ];
    is(&rt, moment_logs::latest(&utc), Some(UtcDateTime::MAX));
    is(&rt, moment_logs::earliest(&utc), Some(UtcDateTime::MIN));
    let stamps = [Timestamp::UNIX_EPOCH, Timestamp::MIN];
    is(
        &rt,
        moment_logs::latest(&stamps),
        Some(Timestamp::UNIX_EPOCH),
    );
    is(&rt, moment_logs::earliest(&stamps), Some(Timestamp::MIN));
    Ok(())
}

#[test]
fn no_instants(rt: HostRuntime) -> Result<(), Fail> {
    is(&rt, moment_logs::latest::<UtcDateTime>(&[]), None);
    is(&rt, moment_logs::earliest::<UtcDateTime>(&[]), None);
    is(&rt, moment_logs::last::<UtcDateTime>(&[]), None);
    is(&rt, moment_logs::find(&[], UtcDateTime::UNIX_EPOCH), None);
    Ok(())
}

#[test]
fn cut_at_an_instant(rt: HostRuntime) -> Result<(), Fail> {
    let epoch = UtcDateTime::UNIX_EPOCH;
    let mut log = [epoch, UtcDateTime::MAX, UtcDateTime::MIN, epoch].to_vec(rt.alloc())?;
    log.sort()?;
    is(&rt, moment_logs::before(&log, epoch).len(), 1);
    is(&rt, moment_logs::from(&log, epoch).len(), 3);
    let (before, from) = moment_logs::split_at(&log, UtcDateTime::from_unix_timestamp(1)?);
    is(&rt, (before.len(), from.len()), (3, 1));
    moment_logs::drop_before(&mut log, epoch);
    is(&rt, log.len(), 3);
    is(&rt, log.first().copied(), Some(epoch));
    Ok(())
}
