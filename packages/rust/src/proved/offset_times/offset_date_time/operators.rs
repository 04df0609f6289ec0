// Made by make/erase of crates/offset_times/src/offset_date_time/operators.rt. Do not edit.
//! Sums and differences by operators.
use crate::proved::offset_times::OffsetDateTime;
use crate::proved::calendar_values::{SignedDuration, UtcOffset};
use std::ops::{Add, AddAssign, Sub, SubAssign};
use std::time::Duration;

/// # Contract
///
/// ```text
/// ghost can_add = { λ at duration. IsWallClock (at.wall +ℤ duration) };
/// ghost add_gives = { λ at duration sum. IsLater at duration sum };
/// ```
///
/// [docs/proofs/STATEMENT.md](crate::proved#contracts) explains the words.
impl Add<SignedDuration> for OffsetDateTime {
    type Output = OffsetDateTime;

    #[inline]
    #[track_caller]
    fn add(self, duration: SignedDuration) -> OffsetDateTime {
        self.replace_date_time(self.date_time() + duration)
    }
}

/// # Contract
///
/// ```text
/// ghost can_add_assign = { λ at duration. IsWallClock (at.wall +ℤ duration) };
/// ghost add_assign_gives = { λ at duration sum. IsLater at duration sum };
/// ```
///
/// [docs/proofs/STATEMENT.md](crate::proved#contracts) explains the words.
impl AddAssign<SignedDuration> for OffsetDateTime {
    #[inline]
    #[track_caller]
    fn add_assign(&mut self, duration: SignedDuration) {
        *self = *self + duration;
    }
}

/// # Contract
///
/// ```text
/// ghost can_add = { λ at duration. IsWallClock (at.wall +ℤ pos (as_nanos duration)) };
/// ghost add_gives = { λ at duration sum. IsLater at (pos (as_nanos duration)) sum };
/// ```
///
/// [docs/proofs/STATEMENT.md](crate::proved#contracts) explains the words.
impl Add<Duration> for OffsetDateTime {
    type Output = OffsetDateTime;

    #[inline]
    #[track_caller]
    fn add(self, duration: Duration) -> OffsetDateTime {
        self.replace_date_time(self.date_time() + duration)
    }
}

/// # Contract
///
/// ```text
/// ghost can_add_assign = { λ at duration. IsWallClock (at.wall +ℤ pos (as_nanos duration)) };
/// ghost add_assign_gives = { λ at duration sum. IsLater at (pos (as_nanos duration)) sum };
/// ```
///
/// [docs/proofs/STATEMENT.md](crate::proved#contracts) explains the words.
impl AddAssign<Duration> for OffsetDateTime {
    #[inline]
    #[track_caller]
    fn add_assign(&mut self, duration: Duration) {
        *self = *self + duration;
    }
}

/// # Contract
///
/// ```text
/// ghost can_sub = { λ at duration. IsWallClock (at.wall -ℤ duration) };
/// ghost sub_gives = { λ at duration difference. IsEarlier at duration difference };
/// ```
///
/// [docs/proofs/STATEMENT.md](crate::proved#contracts) explains the words.
impl Sub<SignedDuration> for OffsetDateTime {
    type Output = OffsetDateTime;

    #[inline]
    #[track_caller]
    fn sub(self, duration: SignedDuration) -> OffsetDateTime {
        self.replace_date_time(self.date_time() - duration)
    }
}

/// # Contract
///
/// ```text
/// ghost can_sub_assign = { λ at duration. IsWallClock (at.wall -ℤ duration) };
/// ghost sub_assign_gives = { λ at duration difference. IsEarlier at duration difference };
/// ```
///
/// [docs/proofs/STATEMENT.md](crate::proved#contracts) explains the words.
impl SubAssign<SignedDuration> for OffsetDateTime {
    #[inline]
    #[track_caller]
    fn sub_assign(&mut self, duration: SignedDuration) {
        *self = *self - duration;
    }
}

/// # Contract
///
/// ```text
/// ghost can_sub = { λ at duration. IsWallClock (at.wall -ℤ pos (as_nanos duration)) };
/// ghost sub_gives = { λ at duration difference.
///     IsEarlier at (pos (as_nanos duration)) difference };
/// ```
///
/// [docs/proofs/STATEMENT.md](crate::proved#contracts) explains the words.
impl Sub<Duration> for OffsetDateTime {
    type Output = OffsetDateTime;

    #[inline]
    #[track_caller]
    fn sub(self, duration: Duration) -> OffsetDateTime {
        self.replace_date_time(self.date_time() - duration)
    }
}

/// # Contract
///
/// ```text
/// ghost can_sub_assign = { λ at duration. IsWallClock (at.wall -ℤ pos (as_nanos duration)) };
/// ghost sub_assign_gives = { λ at duration difference.
///     IsEarlier at (pos (as_nanos duration)) difference };
/// ```
///
/// [docs/proofs/STATEMENT.md](crate::proved#contracts) explains the words.
impl SubAssign<Duration> for OffsetDateTime {
    #[inline]
    #[track_caller]
    fn sub_assign(&mut self, duration: Duration) {
        *self = *self - duration;
    }
}

/// # Contract
///
/// ```text
/// ghost sub_gives = { λ at other difference. difference ≡ instant_of at -ℤ instant_of other };
/// ```
///
/// [docs/proofs/STATEMENT.md](crate::proved#contracts) explains the words.
impl Sub for OffsetDateTime {
    type Output = SignedDuration;

    #[inline]
    fn sub(self, other: OffsetDateTime) -> SignedDuration {
        let offsets = between_offsets(self.offset(), other.offset());
        self.date_time() - other.date_time() + offsets
    }
}

// How far clocks at the second offset are ahead of clocks at the first.
/// # Contract
///
/// ```text
/// ensures { result ≡ offset_nanos (to -ℤ from) }
/// ```
///
/// [docs/proofs/STATEMENT.md](crate::proved#contracts) explains the words.
#[inline]
const fn between_offsets(from: UtcOffset, to: UtcOffset) -> SignedDuration {
    SignedDuration::seconds((to.whole_seconds() - from.whole_seconds()) as i64)
}
