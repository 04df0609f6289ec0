// Made by make/erase of crates/calendar_values/src/signed_duration/quotients.rt. Do not edit.
//! Quotients of durations and whole numbers, rounded towards zero.
use crate::proved::calendar_values::SignedDuration;
use std::ops::{Div, DivAssign};

impl SignedDuration {
    /// The duration divided by a number, rounded towards zero. None if the number is 0, and outside
    /// the range: for -2^63 seconds and less, divided by -1.
    ///
    /// ```
    /// # use muxandu::proved::*;
    /// # fn main() -> Result<(), Box<dyn std::error::Error>> {
    /// assert_eq!(
    ///     SignedDuration::seconds(-7).checked_div(2),
    ///     Some(SignedDuration::milliseconds(-3_500))
    /// );
    /// assert_eq!(SignedDuration::SECOND.checked_div(0), None);
    /// # Ok(())
    /// # }
    /// ```
    ///
    /// # Contract
    ///
    /// ```text
    /// ensures { SomeIff result (HasQuotient self divisor) (int_div self divisor) }
    /// ```
    ///
    /// [docs/proofs/STATEMENT.md](crate::proved#contracts) explains the words.
    #[inline]
    pub const fn checked_div(self, divisor: i32) -> Option<SignedDuration> {
        self.over(divisor as i64)
    }

    // The duration divided by a number, if there is one.
    /// # Contract
    ///
    /// ```text
    /// ensures { SomeIff result (HasQuotient self divisor) (int_div self divisor) }
    /// ```
    ///
    /// [docs/proofs/STATEMENT.md](crate::proved#contracts) explains the words.
    #[inline]
    const fn over(self, divisor: i64) -> Option<SignedDuration> {
        if divisor == 0 {
            return None;
        }
        SignedDuration::from_whole_nanoseconds(self.whole_nanoseconds() / divisor as i128)
    }
}

/// # Contract
///
/// ```text
/// ghost can_div = { λ duration divisor. HasQuotient duration divisor };
/// ghost div_gives = { λ duration divisor quotient. quotient ≡ int_div duration divisor };
/// ```
///
/// [docs/proofs/STATEMENT.md](crate::proved#contracts) explains the words.
impl Div<i8> for SignedDuration {
    type Output = SignedDuration;

    #[inline]
    #[track_caller]
    fn div(self, divisor: i8) -> SignedDuration {
        self.over(divisor as i64).unwrap()
    }
}

/// # Contract
///
/// ```text
/// ghost can_div_assign = { λ duration divisor. HasQuotient duration divisor };
/// ghost div_assign_gives = { λ before divisor after. after ≡ int_div before divisor };
/// ```
///
/// [docs/proofs/STATEMENT.md](crate::proved#contracts) explains the words.
impl DivAssign<i8> for SignedDuration {
    #[inline]
    #[track_caller]
    fn div_assign(&mut self, divisor: i8) {
        *self = *self / divisor;
    }
}

/// # Contract
///
/// ```text
/// ghost can_div = { λ duration divisor. HasQuotient duration divisor };
/// ghost div_gives = { λ duration divisor quotient. quotient ≡ int_div duration divisor };
/// ```
///
/// [docs/proofs/STATEMENT.md](crate::proved#contracts) explains the words.
impl Div<i16> for SignedDuration {
    type Output = SignedDuration;

    #[inline]
    #[track_caller]
    fn div(self, divisor: i16) -> SignedDuration {
        self.over(divisor as i64).unwrap()
    }
}

/// # Contract
///
/// ```text
/// ghost can_div_assign = { λ duration divisor. HasQuotient duration divisor };
/// ghost div_assign_gives = { λ before divisor after. after ≡ int_div before divisor };
/// ```
///
/// [docs/proofs/STATEMENT.md](crate::proved#contracts) explains the words.
impl DivAssign<i16> for SignedDuration {
    #[inline]
    #[track_caller]
    fn div_assign(&mut self, divisor: i16) {
        *self = *self / divisor;
    }
}

/// # Contract
///
/// ```text
/// ghost can_div = { λ duration divisor. HasQuotient duration divisor };
/// ghost div_gives = { λ duration divisor quotient. quotient ≡ int_div duration divisor };
/// ```
///
/// [docs/proofs/STATEMENT.md](crate::proved#contracts) explains the words.
impl Div<i32> for SignedDuration {
    type Output = SignedDuration;

    #[inline]
    #[track_caller]
    fn div(self, divisor: i32) -> SignedDuration {
        self.over(divisor as i64).unwrap()
    }
}

/// # Contract
///
/// ```text
/// ghost can_div_assign = { λ duration divisor. HasQuotient duration divisor };
/// ghost div_assign_gives = { λ before divisor after. after ≡ int_div before divisor };
/// ```
///
/// [docs/proofs/STATEMENT.md](crate::proved#contracts) explains the words.
impl DivAssign<i32> for SignedDuration {
    #[inline]
    #[track_caller]
    fn div_assign(&mut self, divisor: i32) {
        *self = *self / divisor;
    }
}

/// # Contract
///
/// ```text
/// ghost can_div = { λ duration divisor. HasQuotient duration (pos divisor) };
/// ghost div_gives = { λ duration divisor quotient. quotient ≡ int_div duration (pos divisor) };
/// ```
///
/// [docs/proofs/STATEMENT.md](crate::proved#contracts) explains the words.
impl Div<u8> for SignedDuration {
    type Output = SignedDuration;

    #[inline]
    #[track_caller]
    fn div(self, divisor: u8) -> SignedDuration {
        self.over(divisor as i64).unwrap()
    }
}

/// # Contract
///
/// ```text
/// ghost can_div_assign = { λ duration divisor. HasQuotient duration (pos divisor) };
/// ghost div_assign_gives = { λ before divisor after. after ≡ int_div before (pos divisor) };
/// ```
///
/// [docs/proofs/STATEMENT.md](crate::proved#contracts) explains the words.
impl DivAssign<u8> for SignedDuration {
    #[inline]
    #[track_caller]
    fn div_assign(&mut self, divisor: u8) {
        *self = *self / divisor;
    }
}

/// # Contract
///
/// ```text
/// ghost can_div = { λ duration divisor. HasQuotient duration (pos divisor) };
/// ghost div_gives = { λ duration divisor quotient. quotient ≡ int_div duration (pos divisor) };
/// ```
///
/// [docs/proofs/STATEMENT.md](crate::proved#contracts) explains the words.
impl Div<u16> for SignedDuration {
    type Output = SignedDuration;

    #[inline]
    #[track_caller]
    fn div(self, divisor: u16) -> SignedDuration {
        self.over(divisor as i64).unwrap()
    }
}

/// # Contract
///
/// ```text
/// ghost can_div_assign = { λ duration divisor. HasQuotient duration (pos divisor) };
/// ghost div_assign_gives = { λ before divisor after. after ≡ int_div before (pos divisor) };
/// ```
///
/// [docs/proofs/STATEMENT.md](crate::proved#contracts) explains the words.
impl DivAssign<u16> for SignedDuration {
    #[inline]
    #[track_caller]
    fn div_assign(&mut self, divisor: u16) {
        *self = *self / divisor;
    }
}

/// # Contract
///
/// ```text
/// ghost can_div = { λ duration divisor. HasQuotient duration (pos divisor) };
/// ghost div_gives = { λ duration divisor quotient. quotient ≡ int_div duration (pos divisor) };
/// ```
///
/// [docs/proofs/STATEMENT.md](crate::proved#contracts) explains the words.
impl Div<u32> for SignedDuration {
    type Output = SignedDuration;

    #[inline]
    #[track_caller]
    fn div(self, divisor: u32) -> SignedDuration {
        self.over(divisor as i64).unwrap()
    }
}

/// # Contract
///
/// ```text
/// ghost can_div_assign = { λ duration divisor. HasQuotient duration (pos divisor) };
/// ghost div_assign_gives = { λ before divisor after. after ≡ int_div before (pos divisor) };
/// ```
///
/// [docs/proofs/STATEMENT.md](crate::proved#contracts) explains the words.
impl DivAssign<u32> for SignedDuration {
    #[inline]
    #[track_caller]
    fn div_assign(&mut self, divisor: u32) {
        *self = *self / divisor;
    }
}
