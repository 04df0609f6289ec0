//! Time zones with rules: the offset of a zone at an instant, and the instants of a wall clock.
//!
//! A [`Zone`] has the rules of a file, of bytes or of a text as the variable `TZ` has it. With the
//! feature `std` a program finds it [by its name](Zone::named) or takes [that of the
//! machine](Zone::local). All rules are those of the [proved] modules `zones`, `zone_files` and
//! `zoned_times`, which are not public; the lines here are names, files and errors.
//!
//! Clocks that are put forward skip wall clocks, and clocks that are put back show some twice.
//! [`PlainDateTime::at_zone`] returns all instants of a wall clock, and you choose among them.
//!
//! ```
//! use muxandu::macros::datetime;
//! use muxandu::zones::{LocalRefusal, Zone};
//!
//! let berlin = Zone::from_tz("CET-1CEST,M3.5.0,M10.5.0/3")?;
//! let at = datetime!(2024-07-01 10:00 UTC).to_zone(&berlin);
//! assert_eq!(at.to_string(), "2024-07-01 12:00:00.0 +02:00:00");
//!
//! let skipped = datetime!(2024-03-31 2:30).at_zone(&berlin);
//! assert_eq!(skipped.compatible()?.to_string(), "2024-03-31 3:30:00.0 +02:00:00");
//! let twice = datetime!(2024-10-27 2:30).at_zone(&berlin);
//! assert_eq!(twice.reject(), Err(LocalRefusal::Fold));
//! assert_eq!(twice.later()? - twice.earlier()?, muxandu::Duration::HOUR);
//! # Ok::<(), Box<dyn core::error::Error>>(())
//! ```
//!
//! [proved]: crate::proved

use alloc::string::{String, ToString as _};
use alloc::vec;
use alloc::vec::Vec;
use core::fmt;

use crate::proved::memory::Global;
use crate::proved::zone_files::{ZoneFile, parse_rule};
use crate::proved::zoned_times::{AtZone, ToZone, ZoneDays};
use crate::proved::zones::{self as rules, OwnedZone, TimeType};
use crate::{
    Date, OffsetDateTime, PlainDateTime, SignedDuration, Timestamp, UtcDateTime, UtcOffset,
};

#[cfg(feature = "std")]
mod finding;
mod refusal;

#[doc(inline)]
pub use crate::proved::zoned_times::{Gap, LocalRefusal, LocalTimes};
#[cfg(feature = "local-offset")]
pub(crate) use finding::local_zone;
#[cfg(feature = "std")]
#[doc(inline)]
pub use finding::{ZoneSource, data_version};
#[doc(inline)]
pub use refusal::{FilePart, RuleFault, ZoneRefusal};

/// A header and a block of a file of version 3 without transitions: a rule follows two of them.
const EMPTY_BLOCK: &[u8] = b"TZif3\0\0\0\0\0\0\0\0\0\0\0\0\0\0\0\
    \0\0\0\0\0\0\0\0\0\0\0\0\0\0\0\0\0\0\0\x01\0\0\0\x04\0\0\0\0\0\0UTC\0";

/// How many numbers of abbreviations there are.
const NUMBERS: u16 = 258;

/// A time zone: its transitions, and the rule of each year that may follow them.
///
/// It is sent and shared between threads. Reading one costs more than its answers, so a program
/// keeps it.
pub struct Zone {
    rules: OwnedZone,
    abbreviations: Abbreviations,
    name: Option<String>,
}

/// The abbreviations of a zone by their numbers: one text, and where each ends.
struct Abbreviations {
    text: String,
    ends: Vec<usize>,
}

/// A kind of local time, which the clocks of a zone show from one transition to the next.
#[derive(Clone, Copy, Debug, PartialEq, Eq, Hash)]
pub struct LocalType<'a> {
    /// The offset from UTC.
    pub offset: UtcOffset,
    /// Whether it is daylight saving time.
    pub is_daylight: bool,
    /// The abbreviation, such as `CEST`.
    pub abbreviation: &'a str,
}

/// An instant at which the clocks of a zone go from one kind of local time to another.
#[derive(Clone, Copy, Debug, PartialEq, Eq, Hash)]
pub struct Transition<'a> {
    /// The instant from which on the kind after it holds.
    pub at: Timestamp,
    /// The kind of local time up to it.
    pub before: LocalType<'a>,
    /// The kind of local time from it on.
    pub after: LocalType<'a>,
}

impl Abbreviations {
    fn of_file(file: &ZoneFile<'_>) -> Result<Abbreviations, ZoneRefusal> {
        let (mut text, mut ends) = (String::new(), Vec::new());
        for number in 0..NUMBERS {
            let name = core::str::from_utf8(file.abbreviation(number));
            text.push_str(name.map_err(|_| ZoneRefusal::Abbreviation)?);
            ends.push(text.len());
        }
        Ok(Abbreviations { text, ends })
    }

    fn of_number(&self, number: u16) -> &str {
        let place = usize::from(number);
        let begin = place.checked_sub(1).map_or(0, |before| self.ends[before]);
        &self.text[begin..self.ends[place]]
    }
}

impl Zone {
    /// Reads the file of a zone, as RFC 9636 has it: versions 1 to 4. Bytes after its rule do not
    /// count.
    ///
    /// ```
    /// use muxandu::zones::{FilePart, Zone, ZoneRefusal};
    ///
    /// let refused = Zone::from_tzif(b"TZif5").unwrap_err();
    /// assert!(matches!(refused, ZoneRefusal::File { part: FilePart::Length, byte: 5 }));
    /// ```
    ///
    /// # Errors
    ///
    /// [`ZoneRefusal::File`] for bytes that are no such file, with the part at fault and its byte.
    /// [`ZoneRefusal::Transition`] and [`ZoneRefusal::Overlap`] where its transitions and its rule
    /// are no zone. [`ZoneRefusal::Abbreviation`] where an abbreviation is no text, and
    /// [`ZoneRefusal::Memory`] where there is no memory for the transitions.
    pub fn from_tzif(bytes: &[u8]) -> Result<Zone, ZoneRefusal> {
        let file = ZoneFile::read(bytes)?;
        let rules = file.owned_zone(Global).map_err(|_| ZoneRefusal::Memory)??;
        let abbreviations = Abbreviations::of_file(&file)?;
        Ok(Zone { rules, abbreviations, name: None })
    }

    /// Reads a rule for all years in the form of the variable `TZ` of POSIX, with the hours from
    /// -167 to 167 of RFC 9636. A text with daylight saving time has its two moments too.
    ///
    /// ```
    /// use muxandu::macros::{datetime, offset};
    /// use muxandu::zones::{RuleFault, Zone, ZoneRefusal};
    ///
    /// let zone = Zone::from_tz("<+1030>-10:30<+11>-11,M10.1.0,M4.1.0")?;
    /// assert_eq!(zone.offset_at(datetime!(2024-01-01 0:00 UTC)), offset!(+11));
    /// let refused = Zone::from_tz("CET-1CEST").unwrap_err();
    /// assert!(matches!(refused, ZoneRefusal::Rule { byte: 9, .. }));
    /// # Ok::<(), ZoneRefusal>(())
    /// ```
    ///
    /// # Errors
    ///
    /// [`ZoneRefusal::Rule`] for a text that is no rule, with the fault and its byte.
    /// [`ZoneRefusal::Overlap`] where the rule overlaps itself in some year.
    pub fn from_tz(text: &str) -> Result<Zone, ZoneRefusal> {
        parse_rule(text.as_bytes())?;
        let file = [EMPTY_BLOCK, EMPTY_BLOCK, b"\n", text.as_bytes(), b"\n"].concat();
        Zone::from_tzif(&file)
    }

    /// UTC: the zone at the offset 0, with the name and the abbreviation `UTC`.
    ///
    /// ```
    /// use muxandu::UtcDateTime;
    /// use muxandu::zones::Zone;
    ///
    /// let utc = Zone::utc();
    /// assert_eq!(utc.abbreviation_at(UtcDateTime::UNIX_EPOCH), "UTC");
    /// ```
    #[must_use]
    pub fn utc() -> Zone {
        Zone { name: Some("UTC".into()), ..Zone::of_type(UtcOffset::UTC, "UTC".into()) }
    }

    /// The zone at one offset, which has the text of the offset as its abbreviation.
    ///
    /// ```
    /// use muxandu::UtcDateTime;
    /// use muxandu::macros::offset;
    /// use muxandu::zones::Zone;
    ///
    /// let zone = Zone::of_offset(offset!(+5:30));
    /// assert_eq!(zone.abbreviation_at(UtcDateTime::UNIX_EPOCH), "+05:30:00");
    /// assert_eq!(zone.next_transition(UtcDateTime::UNIX_EPOCH), None);
    /// ```
    #[must_use]
    pub fn of_offset(offset: UtcOffset) -> Zone {
        Zone::of_type(offset, offset.to_string())
    }

    /// The zone with one kind of local time.
    fn of_type(offset: UtcOffset, abbreviation: String) -> Zone {
        let kind = TimeType { offset: offset.whole_seconds(), is_daylight: false, designation: 0 };
        let rules = OwnedZone::new(Global, &rules::Zone::of_type(kind));
        Zone {
            rules: rules.expect("it has no transitions, which would take memory"),
            abbreviations: Abbreviations { ends: vec![abbreviation.len()], text: abbreviation },
            name: None,
        }
    }

    /// The name by which the zone was found, such as `Europe/Berlin`.
    ///
    /// ```
    /// let zone = muxandu::zones::Zone::from_tz("UTC0")?;
    /// assert_eq!(zone.name(), None);
    /// # Ok::<(), muxandu::zones::ZoneRefusal>(())
    /// ```
    #[must_use]
    pub fn name(&self) -> Option<&str> {
        self.name.as_deref()
    }

    /// The kind of local time at an instant: that after the last transition at or before it.
    ///
    /// ```
    /// use muxandu::macros::{datetime, offset};
    /// use muxandu::zones::{LocalType, Zone};
    ///
    /// let berlin = Zone::from_tz("CET-1CEST,M3.5.0,M10.5.0/3")?;
    /// let summer = LocalType { offset: offset!(+2), is_daylight: true, abbreviation: "CEST" };
    /// assert_eq!(berlin.local_type_at(datetime!(2024-07-01 10:00 UTC)), summer);
    /// # Ok::<(), muxandu::zones::ZoneRefusal>(())
    /// ```
    #[must_use]
    pub fn local_type_at(&self, at: impl Into<Timestamp>) -> LocalType<'_> {
        self.local_type(self.rules.zone().type_at(at.into().as_seconds()))
    }

    /// The offset of the zone at an instant: that after the last transition at or before it.
    ///
    /// ```
    /// use muxandu::macros::{datetime, offset};
    /// use muxandu::zones::Zone;
    ///
    /// let berlin = Zone::from_tz("CET-1CEST,M3.5.0,M10.5.0/3")?;
    /// assert_eq!(berlin.offset_at(datetime!(2024-03-31 0:59:59 UTC)), offset!(+1));
    /// assert_eq!(berlin.offset_at(datetime!(2024-03-31 1:00 UTC)), offset!(+2));
    /// # Ok::<(), muxandu::zones::ZoneRefusal>(())
    /// ```
    #[must_use]
    #[inline]
    pub fn offset_at(&self, at: impl Into<Timestamp>) -> UtcOffset {
        self.rules.zone().utc_offset_at(at.into().as_seconds())
    }

    /// The offsets of the zone at instants, in their order. Of instants between the same two
    /// transitions the zone looks up the first alone, so instants in order take the least time.
    ///
    /// ```
    /// use muxandu::macros::{datetime, offset};
    /// use muxandu::zones::Zone;
    ///
    /// let berlin = Zone::from_tz("CET-1CEST,M3.5.0,M10.5.0/3")?;
    /// let spring = [datetime!(2024-03-31 0:59:59 UTC), datetime!(2024-03-31 1:00 UTC)];
    /// let offsets = berlin.offsets_at(&spring.map(|at| at.to_timestamp()));
    /// assert_eq!(offsets, [offset!(+1), offset!(+2)]);
    /// # Ok::<(), muxandu::zones::ZoneRefusal>(())
    /// ```
    #[must_use]
    pub fn offsets_at(&self, instants: &[Timestamp]) -> Vec<UtcOffset> {
        let zone = self.rules.zone();
        let mut kept = zone.interval_at(0);
        let mut offset = offset_of(kept.kind);
        let offsets = instants.iter().map(|at| {
            if !kept.contains(at.as_seconds()) {
                kept = zone.interval_at(at.as_seconds());
                offset = offset_of(kept.kind);
            }
            offset
        });
        offsets.collect()
    }

    /// The abbreviation that the zone has at an instant.
    ///
    /// ```
    /// use muxandu::macros::datetime;
    /// use muxandu::zones::Zone;
    ///
    /// let new_york = Zone::from_tz("EST5EDT,M3.2.0,M11.1.0")?;
    /// assert_eq!(new_york.abbreviation_at(datetime!(2024-12-24 18:00 UTC)), "EST");
    /// # Ok::<(), muxandu::zones::ZoneRefusal>(())
    /// ```
    #[must_use]
    pub fn abbreviation_at(&self, at: impl Into<Timestamp>) -> &str {
        self.local_type_at(at).abbreviation
    }

    /// Whether the zone has daylight saving time at an instant.
    ///
    /// ```
    /// use muxandu::macros::datetime;
    /// use muxandu::zones::Zone;
    ///
    /// let new_york = Zone::from_tz("EST5EDT,M3.2.0,M11.1.0")?;
    /// assert!(new_york.is_daylight_at(datetime!(2024-07-04 12:00 UTC)));
    /// # Ok::<(), muxandu::zones::ZoneRefusal>(())
    /// ```
    #[must_use]
    pub fn is_daylight_at(&self, at: impl Into<Timestamp>) -> bool {
        self.local_type_at(at).is_daylight
    }

    /// All date-times of the zone with a wall clock, as [`PlainDateTime::at_zone`].
    ///
    /// ```
    /// use muxandu::macros::datetime;
    /// use muxandu::zones::{LocalTimes, Zone};
    ///
    /// let berlin = Zone::from_tz("CET-1CEST,M3.5.0,M10.5.0/3")?;
    /// let skipped = berlin.instants_of(datetime!(2024-03-31 2:30));
    /// let LocalTimes::Gap(gap, _, _) = skipped else { panic!("clocks skip it") };
    /// assert_eq!(gap.start(), Some(datetime!(2024-03-31 2:00)));
    /// assert_eq!(gap.end(), Some(datetime!(2024-03-31 3:00)));
    /// # Ok::<(), muxandu::zones::ZoneRefusal>(())
    /// ```
    #[must_use]
    pub fn instants_of(&self, wall: PlainDateTime) -> LocalTimes {
        AtZone::at_zone(wall, &self.rules.zone())
    }

    /// The first transition after an instant, or `None` if there is none in range.
    ///
    /// ```
    /// use muxandu::macros::datetime;
    /// use muxandu::zones::Zone;
    ///
    /// let berlin = Zone::from_tz("CET-1CEST,M3.5.0,M10.5.0/3")?;
    /// let next = berlin.next_transition(datetime!(2024-07-01 0:00 UTC)).expect("clocks change");
    /// assert_eq!(next.at, datetime!(2024-10-27 1:00 UTC).to_timestamp());
    /// assert_eq!((next.before.abbreviation, next.after.abbreviation), ("CEST", "CET"));
    /// # Ok::<(), muxandu::zones::ZoneRefusal>(())
    /// ```
    #[must_use]
    pub fn next_transition(&self, after: impl Into<Timestamp>) -> Option<Transition<'_>> {
        self.transition(after.into().next_transition_in_zone(&self.rules.zone())?)
    }

    /// The last transition before an instant, or `None` if there is none in range.
    ///
    /// ```
    /// use muxandu::macros::datetime;
    /// use muxandu::zones::Zone;
    ///
    /// let berlin = Zone::from_tz("CET-1CEST,M3.5.0,M10.5.0/3")?;
    /// let last = berlin.previous_transition(datetime!(2024-07-01 0:00 UTC));
    /// let spring = datetime!(2024-03-31 1:00 UTC).to_timestamp();
    /// assert_eq!(last.map(|transition| transition.at), Some(spring));
    /// # Ok::<(), muxandu::zones::ZoneRefusal>(())
    /// ```
    #[must_use]
    pub fn previous_transition(&self, before: impl Into<Timestamp>) -> Option<Transition<'_>> {
        self.transition(before.into().previous_transition_in_zone(&self.rules.zone())?)
    }

    /// The transitions after an instant, up to and including another one, in their order. There
    /// are none if the other is not later.
    ///
    /// ```
    /// use muxandu::macros::datetime;
    /// use muxandu::zones::Zone;
    ///
    /// let berlin = Zone::from_tz("CET-1CEST,M3.5.0,M10.5.0/3")?;
    /// let (begin, end) = (datetime!(2024-01-01 0:00 +1), datetime!(2025-01-01 0:00 +1));
    /// let changes: Vec<_> = berlin.transitions_between(begin, end).map(|it| it.at).collect();
    /// let spring = datetime!(2024-03-31 1:00 UTC).to_timestamp();
    /// assert_eq!(changes, [spring, datetime!(2024-10-27 1:00 UTC).to_timestamp()]);
    /// # Ok::<(), muxandu::zones::ZoneRefusal>(())
    /// ```
    pub fn transitions_between(
        &self,
        after: impl Into<Timestamp>,
        until: impl Into<Timestamp>,
    ) -> impl Iterator<Item = Transition<'_>> {
        let until = until.into();
        let first = self.next_transition(after);
        core::iter::successors(first, |last| self.next_transition(last.at))
            .take_while(move |found| found.at <= until)
    }

    fn local_type(&self, kind: TimeType) -> LocalType<'_> {
        LocalType {
            offset: offset_of(kind),
            is_daylight: kind.is_daylight,
            abbreviation: self.abbreviations.of_number(kind.designation),
        }
    }

    fn transition(&self, found: rules::Transition) -> Option<Transition<'_>> {
        Some(Transition {
            at: Timestamp::from_seconds(found.second).ok()?,
            before: self.local_type(found.before),
            after: self.local_type(found.after),
        })
    }
}

impl fmt::Debug for Zone {
    fn fmt(&self, f: &mut fmt::Formatter<'_>) -> fmt::Result {
        f.debug_struct("Zone").field("name", &self.name).finish_non_exhaustive()
    }
}

/// The offset of a kind of local time, which is in range.
#[inline]
fn offset_of(kind: TimeType) -> UtcOffset {
    UtcOffset::from_whole_seconds(kind.offset).expect("an offset of a zone is in range")
}

impl PlainDateTime {
    /// All date-times of a zone with this wall clock: one, none where clocks are put forward past
    /// it, or two where they are put back over it. [`LocalTimes`] has the choices.
    ///
    /// ```
    /// use muxandu::macros::datetime;
    /// use muxandu::zones::Zone;
    ///
    /// let berlin = Zone::from_tz("CET-1CEST,M3.5.0,M10.5.0/3")?;
    /// let at = datetime!(2024-12-24 18:00).at_zone(&berlin).reject()?;
    /// assert_eq!(at, datetime!(2024-12-24 18:00 +1));
    /// # Ok::<(), Box<dyn core::error::Error>>(())
    /// ```
    #[must_use]
    pub fn at_zone(&self, zone: &Zone) -> LocalTimes {
        zone.instants_of(*self)
    }
}

impl Date {
    /// The first date-time of the day in a zone. It is no midnight where clocks are put forward
    /// past that. Of a day that the clocks skip, it is that of the next day. `None` where its year
    /// is outside the range.
    ///
    /// ```
    /// use muxandu::macros::{date, datetime};
    /// use muxandu::zones::Zone;
    ///
    /// let cairo = Zone::from_tz("EET-2EEST,M4.5.5/0,M10.5.4/24")?;
    /// let begin = date!(2024-04-26).start_of_day_in_zone(&cairo);
    /// assert_eq!(begin, Some(datetime!(2024-04-26 1:00 +3)));
    /// # Ok::<(), muxandu::zones::ZoneRefusal>(())
    /// ```
    #[must_use]
    pub fn start_of_day_in_zone(&self, zone: &Zone) -> Option<OffsetDateTime> {
        ZoneDays::start_of_day_in_zone(*self, &zone.rules.zone())
    }

    /// How long the day lasts in a zone, up to the start of the next one: 24 hours on most days, 23
    /// or 25 where clocks are put forward or back by an hour, and none on a day that they skip.
    ///
    /// ```
    /// use muxandu::Duration;
    /// use muxandu::macros::date;
    /// use muxandu::zones::Zone;
    ///
    /// let berlin = Zone::from_tz("CET-1CEST,M3.5.0,M10.5.0/3")?;
    /// assert_eq!(date!(2024-10-27).length_of_day_in_zone(&berlin), Duration::hours(25));
    /// # Ok::<(), muxandu::zones::ZoneRefusal>(())
    /// ```
    #[must_use]
    pub fn length_of_day_in_zone(&self, zone: &Zone) -> SignedDuration {
        ZoneDays::length_of_day_in_zone(*self, &zone.rules.zone())
    }
}

/// Instants on the clocks of a zone.
macro_rules! to_zone {
    ($($Type:ident)+) => {
        $(
            // By reference: the proved sources call the method of the trait, which takes the value.
            #[allow(clippy::wrong_self_convention, reason = "the trait has it by value")]
            impl $Type {
                /// The same instant on the clocks of a zone, at the offset that it has then.
                ///
                /// ```
                /// use muxandu::macros::datetime;
                /// use muxandu::zones::Zone;
                ///
                /// let berlin = Zone::from_tz("CET-1CEST,M3.5.0,M10.5.0/3")?;
                #[doc = concat!("let at = muxandu::", stringify!($Type), "::from(datetime!(2024-07-01 10:00 UTC));")]
                /// assert_eq!(at.to_zone(&berlin).hour(), 12);
                /// # Ok::<(), muxandu::zones::ZoneRefusal>(())
                /// ```
                ///
                /// # Panics
                ///
                /// The zone shows a year outside the range then.
                #[must_use]
                #[track_caller]
                pub fn to_zone(&self, zone: &Zone) -> OffsetDateTime {
                    self.checked_to_zone(zone).expect("the zone shows a year of the range")
                }

                /// As `to_zone`, or `None` where the zone shows a year outside the range.
                #[must_use]
                pub fn checked_to_zone(&self, zone: &Zone) -> Option<OffsetDateTime> {
                    ToZone::to_zone(*self, &zone.rules.zone())
                }

                /// The date-times of a zone at the same time of day a number of days later, or
                /// earlier for a negative number. Days are those of the zone's clocks: one may have
                /// 23 or 25 hours. `None` where the zone shows a year outside the range, now or
                /// then.
                #[must_use]
                pub fn checked_add_days_in_zone(&self, days: i64, zone: &Zone) -> Option<LocalTimes> {
                    ToZone::checked_add_days_in_zone(*self, days, &zone.rules.zone())
                }

                /// The date-times of a zone at the same time of day a number of months later, or
                /// earlier for a negative number: on the last day of a month that is shorter.
                /// `None` where the zone shows a year outside the range, now or then.
                #[must_use]
                pub fn checked_add_months_in_zone(&self, months: i32, zone: &Zone) -> Option<LocalTimes> {
                    ToZone::checked_add_months_in_zone(*self, months, &zone.rules.zone())
                }
            }
        )+
    };
}

to_zone! { OffsetDateTime Timestamp UtcDateTime }
