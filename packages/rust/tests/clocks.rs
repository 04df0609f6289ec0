//! Clocks of the machine with durations of either sign.
#![cfg(feature = "std")]

use core::time::Duration as StdDuration;
use std::time::{Instant as StdInstant, SystemTime};

use muxandu::ext::{InstantExt, NumericalDuration, NumericalStdDuration, SystemTimeExt};
use muxandu::{Instant, SignedDuration};

/// The time of a clock and one 90 s later: sums, and differences with both signs.
macro_rules! is_moved {
    ($start:expr, $later:expr) => {{
        let (start, later) = ($start, $later);
        assert_eq!(start.checked_add_signed(90.seconds()), Some(later));
        assert_eq!(start.checked_sub_signed((-90).seconds()), Some(later));
        assert_eq!(later.checked_add_signed((-90).seconds()), Some(start));
        assert_eq!(later.checked_sub_signed(90.seconds()), Some(start));
        assert_eq!(start.add_signed(90.seconds()), later);
        assert_eq!(later.sub_signed(90.seconds()), start);
        assert_eq!((start + 90.seconds(), later - 90.seconds()), (later, start));
        assert_eq!((start - (-90).seconds(), later + (-90).seconds()), (later, start));
        assert_eq!(later.signed_duration_since(start), 90.seconds());
        assert_eq!(start.signed_duration_since(later), (-90).seconds());
        assert_eq!(start.signed_duration_since(start), SignedDuration::ZERO);
        assert_eq!(later.checked_add_signed(SignedDuration::MAX), None);
        assert_eq!(later.checked_sub_signed(SignedDuration::MIN), None);
    }};
}

#[test]
fn clocks_of_std_take_durations_of_either_sign() {
    let now = StdInstant::now();
    is_moved!(now, now + StdDuration::from_secs(90));
    let epoch = SystemTime::UNIX_EPOCH;
    is_moved!(epoch, epoch + StdDuration::from_secs(90));
    is_moved!(epoch - StdDuration::from_secs(30), epoch + StdDuration::from_secs(60));
}

#[test]
#[should_panic(expected = "out of the range of the clock")]
fn a_clock_ends() {
    let _ = StdInstant::now().add_signed(SignedDuration::MAX);
}

#[test]
#[should_panic(expected = "out of the range of the clock")]
fn a_clock_begins() {
    let _ = (SystemTime::UNIX_EPOCH - 2.seconds()).sub_signed(SignedDuration::MAX);
}

#[test]
fn an_instant_is_that_of_std() {
    let std = StdInstant::now();
    let start = Instant::from(std);
    assert_eq!((StdInstant::from(start), start.into_inner(), start.0), (std, std, std));
    assert_eq!((start.as_ref(), std::borrow::Borrow::borrow(&start)), (&std, &std));
    let mut later = start + 5.seconds();
    assert_eq!(later - start, 5.seconds());
    assert_eq!(start - later, (-5).seconds());
    assert_eq!((later - std, std - later), (5.seconds(), (-5).seconds()));
    assert_eq!(start.checked_add(5.seconds()), Some(later));
    assert_eq!(later.checked_sub(5.seconds()), Some(start));
    assert_eq!(start.checked_add(SignedDuration::MAX), None);
    assert_eq!(start.checked_sub(SignedDuration::MIN), None);
    assert_eq!((start < later, later > std, std < later), (true, true, true));
    assert_eq!((start == std, std == start), (true, true));
    later += (-2).seconds();
    later -= 1.seconds();
    assert_eq!(later - start, 2.seconds());
    later += 1.std_seconds();
    later -= 3.std_seconds();
    assert_eq!(later, start);
    assert_eq!(start + 2.std_seconds() - 2.std_seconds(), start);
    assert!(Instant::now() >= start && start.elapsed() >= SignedDuration::ZERO);
    assert!((start + 1.hours()).elapsed().is_negative());
    let (took, sum) = SignedDuration::time_fn(|| 1 + 2);
    assert_eq!((took.is_negative(), sum), (false, 3));
}
