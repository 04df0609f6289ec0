// Made by make/erase of crates/calendar_values/src/signed_duration/products.rt. Do not edit.
//! Products of durations and whole numbers.
use crate::proved::calendar_values::SignedDuration;
use std::ops::{Mul, MulAssign};

impl SignedDuration {
    /// The product with a whole number, or None outside the range.
    ///
    /// ```
    /// # use muxandu::proved::*;
    /// # fn main() -> Result<(), Box<dyn std::error::Error>> {
    /// assert_eq!(
    ///     SignedDuration::milliseconds(1_500).checked_mul(-3),
    ///     Some(SignedDuration::milliseconds(-4_500))
    /// );
    /// assert_eq!(SignedDuration::MAX.checked_mul(2), None);
    /// # Ok(())
    /// # }
    /// ```
    ///
    /// # Contract
    ///
    /// ```text
    /// ensures { SomeDuration result (self *ℤ factor) }
    /// ```
    ///
    /// [docs/proofs/STATEMENT.md](crate::proved#contracts) explains the words.
    #[inline]
    pub const fn checked_mul(self, factor: i32) -> Option<SignedDuration> {
        self.times(factor as i64)
    }

    /// The product with a whole number, or the end of the range that is nearest to it.
    ///
    /// ```
    /// # use muxandu::proved::*;
    /// # fn main() -> Result<(), Box<dyn std::error::Error>> {
    /// assert_eq!(SignedDuration::HOUR.saturating_mul(24), SignedDuration::DAY);
    /// assert_eq!(SignedDuration::MAX.saturating_mul(-2), SignedDuration::MIN);
    /// # Ok(())
    /// # }
    /// ```
    ///
    /// # Contract
    ///
    /// ```text
    /// ensures { IsNearestDuration (self *ℤ factor) result }
    /// ```
    ///
    /// [docs/proofs/STATEMENT.md](crate::proved#contracts) explains the words.
    #[inline]
    pub const fn saturating_mul(self, factor: i32) -> SignedDuration {
        SignedDuration::nearest(self.nanoseconds_times(factor as i64))
    }

    // The duration multiplied by a factor, if that is in range.
    /// # Contract
    ///
    /// ```text
    /// requires { unsigned_abs factor ≤ 4_294_967_296 }
    /// ensures { SomeDuration result (self *ℤ factor) }
    /// ```
    ///
    /// [docs/proofs/STATEMENT.md](crate::proved#contracts) explains the words.
    #[inline]
    const fn times(self, factor: i64) -> Option<SignedDuration> {
        SignedDuration::from_whole_nanoseconds(self.nanoseconds_times(factor))
    }

    // So many times its nanoseconds, which 128 bits hold.
    /// # Contract
    ///
    /// ```text
    /// requires { unsigned_abs factor ≤ 4_294_967_296 }
    /// ensures { result ≡ self *ℤ factor }
    /// ```
    ///
    /// [docs/proofs/STATEMENT.md](crate::proved#contracts) explains the words.
    #[inline]
    const fn nanoseconds_times(self, factor: i64) -> i128 {
        self.whole_nanoseconds() * factor as i128
    }
}

/// # Contract
///
/// ```text
/// ghost can_mul = { λ duration factor. IsDuration (duration *ℤ factor) };
/// ghost mul_gives = { λ duration factor product. product ≡ duration *ℤ factor };
/// ```
///
/// [docs/proofs/STATEMENT.md](crate::proved#contracts) explains the words.
impl Mul<i8> for SignedDuration {
    type Output = SignedDuration;

    #[inline]
    #[track_caller]
    fn mul(self, factor: i8) -> SignedDuration {
        self.times(factor as i64).unwrap()
    }
}

/// # Contract
///
/// ```text
/// ghost can_mul = { λ factor duration. IsDuration (duration *ℤ factor) };
/// ghost mul_gives = { λ factor duration product. product ≡ duration *ℤ factor };
/// ```
///
/// [docs/proofs/STATEMENT.md](crate::proved#contracts) explains the words.
impl Mul<SignedDuration> for i8 {
    type Output = SignedDuration;

    #[inline]
    #[track_caller]
    fn mul(self, duration: SignedDuration) -> SignedDuration {
        duration * self
    }
}

/// # Contract
///
/// ```text
/// ghost can_mul_assign = { λ duration factor. IsDuration (duration *ℤ factor) };
/// ghost mul_assign_gives = { λ duration factor product. product ≡ duration *ℤ factor };
/// ```
///
/// [docs/proofs/STATEMENT.md](crate::proved#contracts) explains the words.
impl MulAssign<i8> for SignedDuration {
    #[inline]
    #[track_caller]
    fn mul_assign(&mut self, factor: i8) {
        *self = *self * factor;
    }
}

/// # Contract
///
/// ```text
/// ghost can_mul = { λ duration factor. IsDuration (duration *ℤ factor) };
/// ghost mul_gives = { λ duration factor product. product ≡ duration *ℤ factor };
/// ```
///
/// [docs/proofs/STATEMENT.md](crate::proved#contracts) explains the words.
impl Mul<i16> for SignedDuration {
    type Output = SignedDuration;

    #[inline]
    #[track_caller]
    fn mul(self, factor: i16) -> SignedDuration {
        self.times(factor as i64).unwrap()
    }
}

/// # Contract
///
/// ```text
/// ghost can_mul = { λ factor duration. IsDuration (duration *ℤ factor) };
/// ghost mul_gives = { λ factor duration product. product ≡ duration *ℤ factor };
/// ```
///
/// [docs/proofs/STATEMENT.md](crate::proved#contracts) explains the words.
impl Mul<SignedDuration> for i16 {
    type Output = SignedDuration;

    #[inline]
    #[track_caller]
    fn mul(self, duration: SignedDuration) -> SignedDuration {
        duration * self
    }
}

/// # Contract
///
/// ```text
/// ghost can_mul_assign = { λ duration factor. IsDuration (duration *ℤ factor) };
/// ghost mul_assign_gives = { λ duration factor product. product ≡ duration *ℤ factor };
/// ```
///
/// [docs/proofs/STATEMENT.md](crate::proved#contracts) explains the words.
impl MulAssign<i16> for SignedDuration {
    #[inline]
    #[track_caller]
    fn mul_assign(&mut self, factor: i16) {
        *self = *self * factor;
    }
}

/// # Contract
///
/// ```text
/// ghost can_mul = { λ duration factor. IsDuration (duration *ℤ factor) };
/// ghost mul_gives = { λ duration factor product. product ≡ duration *ℤ factor };
/// ```
///
/// [docs/proofs/STATEMENT.md](crate::proved#contracts) explains the words.
impl Mul<i32> for SignedDuration {
    type Output = SignedDuration;

    #[inline]
    #[track_caller]
    fn mul(self, factor: i32) -> SignedDuration {
        self.times(factor as i64).unwrap()
    }
}

/// # Contract
///
/// ```text
/// ghost can_mul = { λ factor duration. IsDuration (duration *ℤ factor) };
/// ghost mul_gives = { λ factor duration product. product ≡ duration *ℤ factor };
/// ```
///
/// [docs/proofs/STATEMENT.md](crate::proved#contracts) explains the words.
impl Mul<SignedDuration> for i32 {
    type Output = SignedDuration;

    #[inline]
    #[track_caller]
    fn mul(self, duration: SignedDuration) -> SignedDuration {
        duration * self
    }
}

/// # Contract
///
/// ```text
/// ghost can_mul_assign = { λ duration factor. IsDuration (duration *ℤ factor) };
/// ghost mul_assign_gives = { λ duration factor product. product ≡ duration *ℤ factor };
/// ```
///
/// [docs/proofs/STATEMENT.md](crate::proved#contracts) explains the words.
impl MulAssign<i32> for SignedDuration {
    #[inline]
    #[track_caller]
    fn mul_assign(&mut self, factor: i32) {
        *self = *self * factor;
    }
}

/// # Contract
///
/// ```text
/// ghost can_mul = { λ duration factor. IsDuration (duration *ℤ pos factor) };
/// ghost mul_gives = { λ duration factor product. product ≡ duration *ℤ pos factor };
/// ```
///
/// [docs/proofs/STATEMENT.md](crate::proved#contracts) explains the words.
impl Mul<u8> for SignedDuration {
    type Output = SignedDuration;

    #[inline]
    #[track_caller]
    fn mul(self, factor: u8) -> SignedDuration {
        self.times(factor as i64).unwrap()
    }
}

/// # Contract
///
/// ```text
/// ghost can_mul = { λ factor duration. IsDuration (duration *ℤ pos factor) };
/// ghost mul_gives = { λ factor duration product. product ≡ duration *ℤ pos factor };
/// ```
///
/// [docs/proofs/STATEMENT.md](crate::proved#contracts) explains the words.
impl Mul<SignedDuration> for u8 {
    type Output = SignedDuration;

    #[inline]
    #[track_caller]
    fn mul(self, duration: SignedDuration) -> SignedDuration {
        duration * self
    }
}

/// # Contract
///
/// ```text
/// ghost can_mul_assign = { λ duration factor. IsDuration (duration *ℤ pos factor) };
/// ghost mul_assign_gives = { λ duration factor product. product ≡ duration *ℤ pos factor };
/// ```
///
/// [docs/proofs/STATEMENT.md](crate::proved#contracts) explains the words.
impl MulAssign<u8> for SignedDuration {
    #[inline]
    #[track_caller]
    fn mul_assign(&mut self, factor: u8) {
        *self = *self * factor;
    }
}

/// # Contract
///
/// ```text
/// ghost can_mul = { λ duration factor. IsDuration (duration *ℤ pos factor) };
/// ghost mul_gives = { λ duration factor product. product ≡ duration *ℤ pos factor };
/// ```
///
/// [docs/proofs/STATEMENT.md](crate::proved#contracts) explains the words.
impl Mul<u16> for SignedDuration {
    type Output = SignedDuration;

    #[inline]
    #[track_caller]
    fn mul(self, factor: u16) -> SignedDuration {
        self.times(factor as i64).unwrap()
    }
}

/// # Contract
///
/// ```text
/// ghost can_mul = { λ factor duration. IsDuration (duration *ℤ pos factor) };
/// ghost mul_gives = { λ factor duration product. product ≡ duration *ℤ pos factor };
/// ```
///
/// [docs/proofs/STATEMENT.md](crate::proved#contracts) explains the words.
impl Mul<SignedDuration> for u16 {
    type Output = SignedDuration;

    #[inline]
    #[track_caller]
    fn mul(self, duration: SignedDuration) -> SignedDuration {
        duration * self
    }
}

/// # Contract
///
/// ```text
/// ghost can_mul_assign = { λ duration factor. IsDuration (duration *ℤ pos factor) };
/// ghost mul_assign_gives = { λ duration factor product. product ≡ duration *ℤ pos factor };
/// ```
///
/// [docs/proofs/STATEMENT.md](crate::proved#contracts) explains the words.
impl MulAssign<u16> for SignedDuration {
    #[inline]
    #[track_caller]
    fn mul_assign(&mut self, factor: u16) {
        *self = *self * factor;
    }
}

/// # Contract
///
/// ```text
/// ghost can_mul = { λ duration factor. IsDuration (duration *ℤ pos factor) };
/// ghost mul_gives = { λ duration factor product. product ≡ duration *ℤ pos factor };
/// ```
///
/// [docs/proofs/STATEMENT.md](crate::proved#contracts) explains the words.
impl Mul<u32> for SignedDuration {
    type Output = SignedDuration;

    #[inline]
    #[track_caller]
    fn mul(self, factor: u32) -> SignedDuration {
        self.times(factor as i64).unwrap()
    }
}

/// # Contract
///
/// ```text
/// ghost can_mul = { λ factor duration. IsDuration (duration *ℤ pos factor) };
/// ghost mul_gives = { λ factor duration product. product ≡ duration *ℤ pos factor };
/// ```
///
/// [docs/proofs/STATEMENT.md](crate::proved#contracts) explains the words.
impl Mul<SignedDuration> for u32 {
    type Output = SignedDuration;

    #[inline]
    #[track_caller]
    fn mul(self, duration: SignedDuration) -> SignedDuration {
        duration * self
    }
}

/// # Contract
///
/// ```text
/// ghost can_mul_assign = { λ duration factor. IsDuration (duration *ℤ pos factor) };
/// ghost mul_assign_gives = { λ duration factor product. product ≡ duration *ℤ pos factor };
/// ```
///
/// [docs/proofs/STATEMENT.md](crate::proved#contracts) explains the words.
impl MulAssign<u32> for SignedDuration {
    #[inline]
    #[track_caller]
    fn mul_assign(&mut self, factor: u32) {
        *self = *self * factor;
    }
}
