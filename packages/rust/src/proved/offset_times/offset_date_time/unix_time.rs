// Made by make/erase of crates/offset_times/src/offset_date_time/unix_time.rt. Do not edit.
//! Unix time: instants counted from 1970-01-01 0:00 UTC, with no leap seconds.
use crate::proved::offset_times::OffsetDateTime;
use crate::proved::calendar_values::ComponentRange;
use crate::proved::calendar_values::units::NANOS_PER_SECOND;
use crate::proved::utc_times::{AsUtc, UtcDateTime};

impl OffsetDateTime {
    /// The instant of a Unix second, in UTC. Fails with `timestamp` before that of
    /// [`UtcDateTime::MIN`] or after that of [`UtcDateTime::MAX`].
    ///
    /// ```
    /// # use muxandu::proved::*;
    /// # fn main() -> Result<(), Box<dyn std::error::Error>> {
    /// let at = OffsetDateTime::from_unix_timestamp(1_000_000_000)?;
    /// assert_eq!(at.to_calendar_date(), (2001, Month::September, 9));
    /// assert_eq!(
    ///     OffsetDateTime::from_unix_timestamp(i64::MAX),
    ///     Err(ComponentRange::new("timestamp", false))
    /// );
    /// # Ok(())
    /// # }
    /// ```
    ///
    /// # Contract
    ///
    /// ```text
    /// ensures value { let i = instant_of_second timestamp in
    ///     Gives result (within local_in_utc (instant_outcome (codes "timestamp") i)) }
    /// ensures instant { IfOk result (λ at. instant_of at ≡ instant_of_second timestamp) }
    /// ```
    ///
    /// [docs/proofs/STATEMENT.md](crate::proved#contracts) explains the words.
    #[inline]
    pub const fn from_unix_timestamp(timestamp: i64) -> Result<OffsetDateTime, ComponentRange> {
        match UtcDateTime::from_unix_timestamp(timestamp) {
            Ok(at) => Ok(OffsetDateTime::from_utc(at)),
            Err(refusal) => Err(refusal),
        }
    }

    /// The instant of a number of nanoseconds from 1970-01-01 0:00 UTC, in UTC. Fails with
    /// `timestamp` before [`UtcDateTime::MIN`] or after [`UtcDateTime::MAX`].
    ///
    /// ```
    /// # use muxandu::proved::*;
    /// # fn main() -> Result<(), Box<dyn std::error::Error>> {
    /// let at = OffsetDateTime::from_unix_timestamp_nanos(-1)?;
    /// assert_eq!(at.year(), 1969);
    /// assert_eq!(at.nanosecond(), 999_999_999);
    /// # Ok(())
    /// # }
    /// ```
    ///
    /// # Contract
    ///
    /// ```text
    /// ensures value { Gives result
    ///     (within local_in_utc (instant_outcome (codes "timestamp") timestamp)) }
    /// ensures instant { IfOk result (λ at. instant_of at ≡ timestamp) }
    /// ```
    ///
    /// [docs/proofs/STATEMENT.md](crate::proved#contracts) explains the words.
    #[inline]
    pub const fn from_unix_timestamp_nanos(
        timestamp: i128,
    ) -> Result<OffsetDateTime, ComponentRange> {
        match UtcDateTime::from_unix_timestamp_nanos(timestamp) {
            Ok(at) => Ok(OffsetDateTime::from_utc(at)),
            Err(refusal) => Err(refusal),
        }
    }

    /// The Unix second of the instant: the whole seconds from 1970-01-01 0:00 UTC, rounded down. An
    /// instant out of range has one too.
    ///
    /// ```
    /// # use muxandu::proved::*;
    /// # fn main() -> Result<(), Box<dyn std::error::Error>> {
    /// let date = Date::from_calendar_date(2000, Month::January, 1)?;
    /// let west = UtcOffset::from_hms(-5, 0, 0)?;
    /// let at = OffsetDateTime::new_in_offset(date, Time::MIDNIGHT, west);
    /// assert_eq!(at.unix_timestamp(), 946_702_800);
    /// # Ok(())
    /// # }
    /// ```
    ///
    /// # Contract
    ///
    /// ```text
    /// ensures { result ≡ unix_seconds_of (instant_of self) }
    /// ```
    ///
    /// [docs/proofs/STATEMENT.md](crate::proved#contracts) explains the words.
    #[inline]
    pub const fn unix_timestamp(self) -> i64 {
        self.date_time().as_utc().unix_timestamp() - self.offset().whole_seconds() as i64
    }

    /// The nanoseconds from 1970-01-01 0:00 UTC to the instant, outside the range too.
    ///
    /// ```
    /// # use muxandu::proved::*;
    /// # fn main() -> Result<(), Box<dyn std::error::Error>> {
    /// let date = Date::from_calendar_date(2000, Month::January, 1)?;
    /// let west = UtcOffset::from_hms(-5, 0, 0)?;
    /// let at = OffsetDateTime::new_in_offset(date, Time::MIDNIGHT, west);
    /// assert_eq!(at.unix_timestamp_nanos(), 946_702_800_000_000_000);
    /// # Ok(())
    /// # }
    /// ```
    ///
    /// # Contract
    ///
    /// ```text
    /// ensures { result ≡ instant_of self }
    /// ```
    ///
    /// [docs/proofs/STATEMENT.md](crate::proved#contracts) explains the words.
    #[inline]
    pub const fn unix_timestamp_nanos(self) -> i128 {
        let offset = self.offset().whole_seconds() as i128;
        self.date_time().as_utc().unix_timestamp_nanos() - offset * NANOS_PER_SECOND as i128
    }
}
