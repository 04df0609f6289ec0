// Made by make/erase of crates/calendar_values/src/signed_duration/sums.rt. Do not edit.
//! Sums and differences that may lie outside the range.
use crate::proved::calendar_values::SignedDuration;

impl SignedDuration {
    /// The sum, or None outside the range.
    ///
    /// ```
    /// # use muxandu::proved::*;
    /// # fn main() -> Result<(), Box<dyn std::error::Error>> {
    /// assert_eq!(
    ///     SignedDuration::HOUR.checked_add(SignedDuration::minutes(-1)),
    ///     Some(SignedDuration::minutes(59))
    /// );
    /// assert_eq!(SignedDuration::MAX.checked_add(SignedDuration::NANOSECOND), None);
    /// # Ok(())
    /// # }
    /// ```
    ///
    /// # Contract
    ///
    /// ```text
    /// ensures { SomeDuration result (self +ℤ other) }
    /// ```
    ///
    /// [docs/proofs/STATEMENT.md](crate::proved#contracts) explains the words.
    #[inline]
    pub const fn checked_add(self, other: SignedDuration) -> Option<SignedDuration> {
        match self.seconds.checked_add(other.seconds) {
            Some(seconds) => {
                SignedDuration::from_parts(seconds, self.nanoseconds + other.nanoseconds)
            }
            None => None,
        }
    }

    /// The difference, or None outside the range.
    ///
    /// ```
    /// # use muxandu::proved::*;
    /// # fn main() -> Result<(), Box<dyn std::error::Error>> {
    /// assert_eq!(
    ///     SignedDuration::SECOND.checked_sub(SignedDuration::MINUTE),
    ///     Some(SignedDuration::seconds(-59))
    /// );
    /// assert_eq!(SignedDuration::MIN.checked_sub(SignedDuration::NANOSECOND), None);
    /// # Ok(())
    /// # }
    /// ```
    ///
    /// # Contract
    ///
    /// ```text
    /// ensures { SomeDuration result (self -ℤ other) }
    /// ```
    ///
    /// [docs/proofs/STATEMENT.md](crate::proved#contracts) explains the words.
    #[inline]
    pub const fn checked_sub(self, other: SignedDuration) -> Option<SignedDuration> {
        match self.seconds.checked_sub(other.seconds) {
            Some(seconds) => {
                SignedDuration::from_parts(seconds, self.nanoseconds - other.nanoseconds)
            }
            // 2^63 seconds still fit with negative nanoseconds.
            None => SignedDuration::from_whole_nanoseconds(
                self.whole_nanoseconds() - other.whole_nanoseconds(),
            ),
        }
    }

    /// The duration with the other sign, or None for -2^63 seconds and less.
    ///
    /// ```
    /// # use muxandu::proved::*;
    /// # fn main() -> Result<(), Box<dyn std::error::Error>> {
    /// assert_eq!(SignedDuration::DAY.checked_neg(), Some(SignedDuration::days(-1)));
    /// assert_eq!(SignedDuration::MIN.checked_neg(), None);
    /// # Ok(())
    /// # }
    /// ```
    ///
    /// # Contract
    ///
    /// ```text
    /// ensures { SomeDuration result (neg_ℤ self) }
    /// ```
    ///
    /// [docs/proofs/STATEMENT.md](crate::proved#contracts) explains the words.
    #[inline]
    pub const fn checked_neg(self) -> Option<SignedDuration> {
        match self.seconds.checked_neg() {
            Some(seconds) => SignedDuration::from_parts(seconds, -self.nanoseconds),
            None => None,
        }
    }

    /// The sum, or the end of the range that is nearest to it.
    ///
    /// ```
    /// # use muxandu::proved::*;
    /// # fn main() -> Result<(), Box<dyn std::error::Error>> {
    /// assert_eq!(
    ///     SignedDuration::SECOND.saturating_add(SignedDuration::SECOND),
    ///     SignedDuration::seconds(2)
    /// );
    /// assert_eq!(
    ///     SignedDuration::MAX.saturating_add(SignedDuration::SECOND),
    ///     SignedDuration::MAX
    /// );
    /// # Ok(())
    /// # }
    /// ```
    ///
    /// # Contract
    ///
    /// ```text
    /// ensures { IsNearestDuration (self +ℤ other) result }
    /// ```
    ///
    /// [docs/proofs/STATEMENT.md](crate::proved#contracts) explains the words.
    #[inline]
    pub const fn saturating_add(self, other: SignedDuration) -> SignedDuration {
        match self.checked_add(other) {
            Some(sum) => sum,
            None => SignedDuration::nearest(self.whole_nanoseconds() + other.whole_nanoseconds()),
        }
    }

    /// The difference, or the end of the range that is nearest to it.
    ///
    /// ```
    /// # use muxandu::proved::*;
    /// # fn main() -> Result<(), Box<dyn std::error::Error>> {
    /// assert_eq!(
    ///     SignedDuration::SECOND.saturating_sub(SignedDuration::SECOND),
    ///     SignedDuration::ZERO
    /// );
    /// assert_eq!(
    ///     SignedDuration::MIN.saturating_sub(SignedDuration::SECOND),
    ///     SignedDuration::MIN
    /// );
    /// # Ok(())
    /// # }
    /// ```
    ///
    /// # Contract
    ///
    /// ```text
    /// ensures { IsNearestDuration (self -ℤ other) result }
    /// ```
    ///
    /// [docs/proofs/STATEMENT.md](crate::proved#contracts) explains the words.
    #[inline]
    pub const fn saturating_sub(self, other: SignedDuration) -> SignedDuration {
        match self.checked_sub(other) {
            Some(difference) => difference,
            None => SignedDuration::nearest(self.whole_nanoseconds() - other.whole_nanoseconds()),
        }
    }
}
