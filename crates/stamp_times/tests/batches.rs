//! Lists of Unix seconds.
use super::is;
use stamp_times::Timestamp;
use std::test::Fail;

#[test]
fn seconds_up_to_the_first_refused(rt: HostRuntime) -> Result<(), Fail> {
    let all = Timestamp::from_seconds_slice(rt.alloc(), &[0, -1])?;
    is(&rt, (all.stamps.len(), all.refused), (2, None));
    let some = Timestamp::from_seconds_slice(rt.alloc(), &[0, i64::MAX, 1])?;
    is(&rt, (some.stamps.len(), some.refused), (1, Some(1)));
    Ok(())
}
