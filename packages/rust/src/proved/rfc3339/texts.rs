// Made by make/erase of crates/rfc3339/src/texts.rt. Do not edit.
//! Every type that has texts of RFC 3339.
use crate::proved::rfc3339::write::text_of;
use crate::proved::rfc3339::{TextRefusal, parse_rfc3339};
use crate::proved::calendar_values::Text;
use crate::proved::offset_times::OffsetDateTime;
use crate::proved::stamp_times::Timestamp;
use crate::proved::utc_times::UtcDateTime;

/// A type with texts of RFC 3339: a wall clock at an offset, or an instant.
///
/// # Contract
///
/// ```text
/// ghost shown: { Self → Local };
/// ghost value_shown: { Local → Self };
/// ```
///
/// [docs/proofs/STATEMENT.md](crate::proved#contracts) explains the words.
pub trait Rfc3339: Copy {
    /// Reads a text as [`parse_rfc3339`] does, as a value of this type, and with its errors. The
    /// instant of such a text always exists.
    ///
    /// ```
    /// # use muxandu::proved::*;
    /// # fn main() -> Result<(), Box<dyn std::error::Error>> {
    /// let at = OffsetDateTime::from_rfc3339(b"1990-12-31T15:59:59-08:00")?;
    /// assert_eq!(at.hour(), 15);
    /// assert_eq!(UtcDateTime::from_rfc3339(b"1990-12-31T15:59:59-08:00")?.hour(), 23);
    /// assert_eq!(Timestamp::from_rfc3339(b"1990-12-31"), Err(TextRefusal::Syntax));
    /// # Ok(())
    /// # }
    /// ```
    ///
    /// # Contract
    ///
    /// ```text
    /// ensures reading { result ≡ reading_as value_shown text.now }
    /// ensures value { (p : Parts) → IsDateTime text.now p →
    ///     OkIff result (AreInRange p) (value_shown (value_of p)) }
    /// ensures equation { (p : Parts) → IsDateTime text.now p →
    ///     result ≡ result_map_both value_shown (λ refusal. refusal) (meaning p) }
    /// ensures syntax { (result ≡ Err Syntax) ⊎ ((p : Parts) × IsDateTime text.now p) }
    /// ensures accepted { IfOk result (λ at. (p : Parts) × IsDateTime text.now p ×
    ///     AreInRange p × (at ≡ value_shown (value_of p))) }
    /// ensures has_text { IfOk (reading_of text.now) HasText }
    /// ensures instant { IfOk result (λ at. IsInstant (instant_of (shown at))) }
    /// ensures written { (at : Self) → HasText (shown at) →
    ///     text.now ≡ rfc3339_text (shown at) → result ≡ Ok at }
    /// ensures written_fixed { (i : ℤ) → HasFixedText i → text.now ≡ fixed_text i →
    ///     result ≡ Ok (value_shown (local_in_utc i)) }
    /// ```
    ///
    /// [docs/proofs/STATEMENT.md](crate::proved#contracts) explains the words.
    fn from_rfc3339(text: &[u8]) -> Result<Self, TextRefusal>;

    /// The shortest text, such as `1985-04-12T23:20:50.52Z` or `1996-12-19T16:39:57-08:00`. It has
    /// `T` between the date and the time of day, and `Z` for the offset 0. A whole second has no
    /// fraction, and no fraction ends in 0. None if the year there is not one of 0 to 9999, or if
    /// the offset has seconds or is of 24 hours or more.
    ///
    /// ```
    /// # use muxandu::proved::*;
    /// # fn main() -> Result<(), Box<dyn std::error::Error>> {
    /// let text = UtcDateTime::UNIX_EPOCH.to_rfc3339().ok_or("no text")?;
    /// assert_eq!(text.as_str(), "1970-01-01T00:00:00Z");
    /// assert_eq!(UtcDateTime::MAX.to_rfc3339().is_none(), true);
    /// # Ok(())
    /// # }
    /// ```
    ///
    /// # Contract
    ///
    /// ```text
    /// ensures text { SomeIff result (HasText (shown self)) (rfc3339_text (shown self)) }
    /// ensures length { IfSome result (λ text. length text ≤ 35) }
    /// ```
    ///
    /// [docs/proofs/STATEMENT.md](crate::proved#contracts) explains the words.
    fn to_rfc3339(self) -> Option<Text>;
}

/// # Contract
///
/// ```text
/// ghost shown = { λ at. at };
/// ghost value_shown = { λ at. at };
/// ```
///
/// [docs/proofs/STATEMENT.md](crate::proved#contracts) explains the words.
impl Rfc3339 for OffsetDateTime {
    #[inline(always)]
    fn from_rfc3339(text: &[u8]) -> Result<OffsetDateTime, TextRefusal> {
        parse_rfc3339(text)
    }

    #[inline(always)]
    fn to_rfc3339(self) -> Option<Text> {
        text_of(self)
    }
}

impl OffsetDateTime {
    /// As [`Rfc3339::from_rfc3339`], which has the contract.
    #[inline(always)]
    pub fn from_rfc3339(text: &[u8]) -> Result<OffsetDateTime, TextRefusal> {
        parse_rfc3339(text)
    }

    /// As [`Rfc3339::to_rfc3339`], which has the contract.
    #[inline(always)]
    pub fn to_rfc3339(self) -> Option<Text> {
        text_of(self)
    }
}

/// # Contract
///
/// ```text
/// ghost shown = { λ instant. local_in_utc instant };
/// ghost value_shown = { λ at. instant_of at };
/// ```
///
/// [docs/proofs/STATEMENT.md](crate::proved#contracts) explains the words.
impl Rfc3339 for UtcDateTime {
    #[inline]
    fn from_rfc3339(text: &[u8]) -> Result<UtcDateTime, TextRefusal> {
        Ok(parse_rfc3339(text)?.to_utc())
    }

    #[inline]
    fn to_rfc3339(self) -> Option<Text> {
        text_of(OffsetDateTime::from(self))
    }
}

impl UtcDateTime {
    /// As [`Rfc3339::from_rfc3339`], which has the contract.
    #[inline]
    pub fn from_rfc3339(text: &[u8]) -> Result<UtcDateTime, TextRefusal> {
        Ok(parse_rfc3339(text)?.to_utc())
    }

    /// As [`Rfc3339::to_rfc3339`], which has the contract.
    #[inline]
    pub fn to_rfc3339(self) -> Option<Text> {
        text_of(OffsetDateTime::from(self))
    }
}

/// # Contract
///
/// ```text
/// ghost shown = { λ instant. local_in_utc instant };
/// ghost value_shown = { λ at. instant_of at };
/// ```
///
/// [docs/proofs/STATEMENT.md](crate::proved#contracts) explains the words.
impl Rfc3339 for Timestamp {
    #[inline]
    fn from_rfc3339(text: &[u8]) -> Result<Timestamp, TextRefusal> {
        Ok(Timestamp::from(UtcDateTime::from_rfc3339(text)?))
    }

    #[inline]
    fn to_rfc3339(self) -> Option<Text> {
        UtcDateTime::from(self).to_rfc3339()
    }
}

impl Timestamp {
    /// As [`Rfc3339::from_rfc3339`], which has the contract.
    #[inline]
    pub fn from_rfc3339(text: &[u8]) -> Result<Timestamp, TextRefusal> {
        Ok(Timestamp::from(UtcDateTime::from_rfc3339(text)?))
    }

    /// As [`Rfc3339::to_rfc3339`], which has the contract.
    #[inline]
    pub fn to_rfc3339(self) -> Option<Text> {
        UtcDateTime::from(self).to_rfc3339()
    }
}
