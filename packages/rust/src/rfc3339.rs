//! Texts of RFC 3339 by the methods of the types: each calls the proved function of the same name.

use crate::proved::{local_texts, rfc3339 as proved};
use crate::{Date, OffsetDateTime, PlainDateTime, Text, TextRefusal, Time, Timestamp, UtcOffset};

impl Date {
    /// Reads a text of RFC 3339, as `1985-04-12`.
    ///
    /// # Errors
    ///
    /// [`TextRefusal::Syntax`] for another form, else the first part from the left that is out of
    /// its range.
    pub fn from_rfc3339(text: &[u8]) -> Result<Date, TextRefusal> {
        proved::date_from_rfc3339(text)
    }

    /// The text of RFC 3339, as `1985-04-12`. None outside the years 0 to 9999.
    ///
    /// ```
    /// use muxandu::Date;
    ///
    /// let date = Date::from_rfc3339(b"2024-02-29").unwrap();
    /// assert_eq!(date.days_since_epoch(), 19_782);
    /// assert_eq!(date.to_rfc3339().unwrap(), "2024-02-29");
    /// assert!(Date::from_rfc3339(b"2023-02-29").is_err());
    /// ```
    #[must_use]
    pub fn to_rfc3339(self) -> Option<Text> {
        proved::date_to_rfc3339(self)
    }
}

impl OffsetDateTime {
    /// The text of RFC 3339 with a number of digits of the fraction, 0 to 9, and nine for more.
    /// What lies past them is left out. None as by [`OffsetDateTime::to_rfc3339`].
    ///
    /// ```
    /// use muxandu::OffsetDateTime;
    ///
    /// let at = OffsetDateTime::from_rfc3339(b"1996-12-19T16:39:57.987654-08:00").unwrap();
    /// assert_eq!(at.to_rfc3339_digits(3).unwrap(), "1996-12-19T16:39:57.987-08:00");
    /// assert_eq!(at.to_rfc3339_digits(0).unwrap(), "1996-12-19T16:39:57-08:00");
    /// ```
    #[must_use]
    pub fn to_rfc3339_digits(self, digits: u8) -> Option<Text> {
        proved::to_rfc3339_digits(self, digits)
    }

    /// Reads a text of RFC 3339, and one whose second is 60 too. A leap second can be the last
    /// second of a month in UTC alone: it is read as the last nanosecond before the next month,
    /// with `true` too. The values have the order of the texts.
    ///
    /// ```
    /// use muxandu::OffsetDateTime;
    ///
    /// let (at, is_leap) = OffsetDateTime::from_rfc3339_leap(b"2016-12-31T23:59:60.5Z").unwrap();
    /// assert_eq!((at.nanosecond(), is_leap), (999_999_999, true));
    /// let before = OffsetDateTime::from_rfc3339_leap(b"2016-12-31T23:59:59.9Z").unwrap();
    /// assert!(before.0 < at && !before.1);
    /// assert!(OffsetDateTime::from_rfc3339_leap(b"2024-02-29T12:34:60Z").is_err());
    /// ```
    ///
    /// # Errors
    ///
    /// As [`OffsetDateTime::from_rfc3339`], and the second for one of 60 that no month ends with.
    pub fn from_rfc3339_leap(text: &[u8]) -> Result<(OffsetDateTime, bool), TextRefusal> {
        proved::parse_rfc3339_leap(text)
    }

    /// Reads a text of RFC 3339, also one without an offset, which is then the one assumed.
    ///
    /// ```
    /// use muxandu::OffsetDateTime;
    /// use muxandu::macros::{datetime, offset};
    ///
    /// let read = |text| OffsetDateTime::from_rfc3339_at(text, offset!(+1));
    /// assert_eq!(read(b"2024-02-29 12:34:56").unwrap(), datetime!(2024-02-29 12:34:56 +1));
    /// assert_eq!(read(b"2024-02-29T12:34:56Z").unwrap(), datetime!(2024-02-29 12:34:56 UTC));
    /// ```
    ///
    /// # Errors
    ///
    /// As [`OffsetDateTime::from_rfc3339`].
    pub fn from_rfc3339_at(text: &[u8], assumed: UtcOffset) -> Result<OffsetDateTime, TextRefusal> {
        local_texts::parse_date_time_at(text, assumed)
    }
}

impl PlainDateTime {
    /// Reads a text of RFC 3339 without its offset, as `2024-02-29T12:34:56.5`. A space can replace
    /// the `T`.
    ///
    /// ```
    /// use muxandu::macros::datetime;
    /// use muxandu::{PlainDateTime, TextRefusal};
    ///
    /// let wall = PlainDateTime::from_rfc3339(b"2024-02-29 12:34:56.5").unwrap();
    /// assert_eq!(wall, datetime!(2024-02-29 12:34:56.5));
    /// let with_offset = PlainDateTime::from_rfc3339(b"2024-02-29T12:34:56Z");
    /// assert_eq!(with_offset, Err(TextRefusal::Syntax));
    /// ```
    ///
    /// # Errors
    ///
    /// As [`OffsetDateTime::from_rfc3339`].
    pub fn from_rfc3339(text: &[u8]) -> Result<PlainDateTime, TextRefusal> {
        local_texts::parse_date_time(text)
    }
}

impl Time {
    /// Reads the time of day of a text of RFC 3339, as `12:34:56.5`.
    ///
    /// ```
    /// use muxandu::Time;
    /// use muxandu::macros::time;
    ///
    /// assert_eq!(Time::from_rfc3339(b"12:34:56.5").unwrap(), time!(12:34:56.5));
    /// assert!(Time::from_rfc3339(b"12:34").is_err());
    /// ```
    ///
    /// # Errors
    ///
    /// As [`OffsetDateTime::from_rfc3339`].
    pub fn from_rfc3339(text: &[u8]) -> Result<Time, TextRefusal> {
        local_texts::parse_time(text)
    }

    /// Reads the time of day and the offset of a text of RFC 3339, as `12:34:56.5+01:00`.
    ///
    /// ```
    /// use muxandu::Time;
    /// use muxandu::macros::{offset, time};
    ///
    /// let read = Time::from_rfc3339_with_offset(b"16:39:57-08:00").unwrap();
    /// assert_eq!(read, (time!(16:39:57), offset!(-8)));
    /// ```
    ///
    /// # Errors
    ///
    /// As [`OffsetDateTime::from_rfc3339`].
    pub fn from_rfc3339_with_offset(text: &[u8]) -> Result<(Time, UtcOffset), TextRefusal> {
        local_texts::parse_time_with_offset(text)
    }
}

impl UtcOffset {
    /// Reads the offset of a text of RFC 3339, as `+05:30` or `Z`.
    ///
    /// ```
    /// use muxandu::UtcOffset;
    /// use muxandu::macros::offset;
    ///
    /// assert_eq!(UtcOffset::from_rfc3339(b"-02:30").unwrap(), offset!(-2:30));
    /// assert!(UtcOffset::from_rfc3339(b"-0230").is_err());
    /// ```
    ///
    /// # Errors
    ///
    /// As [`OffsetDateTime::from_rfc3339`].
    pub fn from_rfc3339(text: &[u8]) -> Result<UtcOffset, TextRefusal> {
        proved::parse_rfc3339_offset(text)
    }
}

impl Timestamp {
    /// The text of RFC 3339 in UTC, always with nine digits of the fraction, so that such texts are
    /// in the order of their instants. None outside the years 0 to 9999.
    ///
    /// ```
    /// use muxandu::macros::timestamp;
    ///
    /// let text = timestamp!(1_709_210_040.5).to_rfc3339_nanos().unwrap();
    /// assert_eq!(text, "2024-02-29T12:34:00.500000000Z");
    /// ```
    #[must_use]
    pub fn to_rfc3339_nanos(self) -> Option<Text> {
        proved::to_rfc3339_nanos(self)
    }
}
