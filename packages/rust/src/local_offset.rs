//! The offset of the machine's clock, with the feature `local-offset`: that of the zone of the
//! machine, which [`zones`](crate::zones) find.
//!
//! On Unix `time` asks C's `localtime_r`, which reads the environment while another thread may
//! change it. So it fails in a program of several threads. Here std reads the environment, and the
//! zone is read by safe Rust, so each thread may ask.

use crate::error::IndeterminateOffset;
use crate::zones::local_zone;
use crate::{OffsetDateTime, UtcOffset};

impl UtcOffset {
    /// The offset of the machine's clock at an instant: that of
    /// [`Zone::local`](crate::zones::Zone::local).
    ///
    /// It keeps the zone from call to call, and reads it again where `TZ`, `TZDIR` or
    /// `/etc/localtime` has changed.
    ///
    /// ```
    /// # #[cfg(feature = "local-offset")] {
    /// use muxandu::{OffsetDateTime, UtcOffset};
    ///
    /// let offset = UtcOffset::local_offset_at(OffsetDateTime::UNIX_EPOCH);
    /// assert!(offset.is_ok());
    /// # }
    /// ```
    ///
    /// # Errors
    ///
    /// [`IndeterminateOffset`] where the zone of the machine is not found or not read.
    /// [`Zone::local`](crate::zones::Zone::local) says why.
    pub fn local_offset_at(at: OffsetDateTime) -> Result<UtcOffset, IndeterminateOffset> {
        let zone = local_zone().map_err(|_| IndeterminateOffset)?;
        Ok(zone.offset_at(at.checked_to_timestamp().ok_or(IndeterminateOffset)?))
    }

    /// The offset of the machine's clock now.
    ///
    /// # Errors
    ///
    /// As [`UtcOffset::local_offset_at`].
    pub fn current_local_offset() -> Result<UtcOffset, IndeterminateOffset> {
        UtcOffset::local_offset_at(OffsetDateTime::now_utc())
    }
}

impl OffsetDateTime {
    /// The time of the machine's clock, at the offset that the machine's zone has now.
    ///
    /// ```
    /// # #[cfg(feature = "local-offset")] {
    /// use muxandu::OffsetDateTime;
    ///
    /// println!("{}", OffsetDateTime::now_local()?);
    /// # }
    /// # Ok::<(), Box<dyn core::error::Error>>(())
    /// ```
    ///
    /// # Errors
    ///
    /// As [`UtcOffset::local_offset_at`].
    pub fn now_local() -> Result<OffsetDateTime, IndeterminateOffset> {
        let now = OffsetDateTime::now_utc();
        Ok(now.to_offset(UtcOffset::local_offset_at(now)?))
    }
}
