// Made by make/erase of crates/stamp_times/src/logs.rt. Do not edit.
//! Logs: timestamps in the order of time.
use crate::proved::stamp_times::{Timestamp, moment_logs};
use crate::proved::offset_times::OffsetDateTime;
use crate::proved::memory::AllocError;

/// A place of the timestamp in a log that is in order. None if the log does not have it.
///
/// # Contract
///
/// ```text
/// requires { IsSorted int_cmp log.now }
/// ensures place { IfSome result (λ place. place < length log.now) }
/// ensures found { IfSome result (HoldsAt (λ entry. entry ≡ at) log.now) }
/// ensures present { IfSome result (λ _. Contains log.now at) }
/// ensures absent { IfNone result (¬ Contains log.now at) }
/// ```
///
/// [docs/proofs/STATEMENT.md](crate::proved#contracts) explains the words.
#[inline]
pub(in crate::proved) fn find(log: &[Timestamp], at: Timestamp) -> Option<usize> {
    moment_logs::find(log, at)
}

/// Enters the timestamp in its place in a log that has each once. False if it is there already;
/// `AllocError`, with the log as before, where there is no memory for one more.
///
/// # Contract
///
/// ```text
/// requires { IsStrictlySortedBy int_cmp log.old.items }
/// ensures in_order { IsStrictlySortedBy int_cmp log.new.items }
/// ensures entered { OnOk result (Contains log.new.items at) }
/// ensures was_new { IfOk result (λ is_new. IsTrue is_new ↔ (¬ Contains log.old.items at)) }
/// ensures kept { (entry : ℤ) → Contains log.old.items entry → Contains log.new.items entry }
/// ensures no_other { (entry : ℤ) → Contains log.new.items entry →
///     Contains log.old.items entry ⊎ (entry ≡ at) }
/// ensures unchanged { OnErr result (log.new.items ≡ log.old.items) }
/// ```
///
/// [docs/proofs/STATEMENT.md](crate::proved#contracts) explains the words.
#[inline]
pub(in crate::proved) fn enter(
    log: &mut crate::proved::memory::Vec<Timestamp>,
    at: Timestamp,
) -> Result<bool, AllocError> {
    moment_logs::enter(log, at)
}

/// Removes the timestamp from a log that has each once, and the others stay. False if it is not
/// there.
///
/// # Contract
///
/// ```text
/// requires { IsStrictlySortedBy int_cmp log.old.items }
/// ensures in_order { IsStrictlySortedBy int_cmp log.new.items }
/// ensures was_there { IsTrue result ↔ Contains log.old.items at }
/// ensures absent { ¬ Contains log.new.items at }
/// ensures kept { (entry : ℤ) → Contains log.old.items entry → entry ≢ at →
///     Contains log.new.items entry }
/// ensures no_other { (entry : ℤ) → Contains log.new.items entry → Contains log.old.items entry }
/// ```
///
/// [docs/proofs/STATEMENT.md](crate::proved#contracts) explains the words.
#[inline]
pub(in crate::proved) fn remove(
    log: &mut crate::proved::memory::Vec<Timestamp>,
    at: Timestamp,
) -> bool {
    moment_logs::remove(log, at)
}

/// Puts a log in order, and leaves each timestamp once. `AllocError` if there is no memory to sort
/// it.
///
/// # Contract
///
/// ```text
/// ensures in_order { OnOk result (IsStrictlySortedBy int_cmp log.new.items) }
/// ensures kept { (entry : ℤ) → Contains log.old.items entry → Contains log.new.items entry }
/// ensures no_other { (entry : ℤ) → Contains log.new.items entry → Contains log.old.items entry }
/// ensures unchanged { OnErr result (log.new.items ≡ log.old.items) }
/// ```
///
/// [docs/proofs/STATEMENT.md](crate::proved#contracts) explains the words.
#[inline]
pub fn put_in_order(log: &mut crate::proved::memory::Vec<Timestamp>) -> Result<(), AllocError> {
    moment_logs::put_in_order(log)
}

/// Adds the entries of another list, puts all in order, and leaves each timestamp once.
/// `AllocError`, with the log as before, where there is no memory for them or to sort them.
///
/// # Contract
///
/// ```text
/// ensures in_order { OnOk result (IsStrictlySortedBy int_cmp log.new.items) }
/// ensures entered { OnOk result ((entry : ℤ) →
///     Contains other.now entry → Contains log.new.items entry) }
/// ensures kept { (entry : ℤ) → Contains log.old.items entry → Contains log.new.items entry }
/// ensures no_other { (entry : ℤ) → Contains log.new.items entry →
///     Contains log.old.items entry ⊎ Contains other.now entry }
/// ensures unchanged { OnErr result (log.new.items ≡ log.old.items) }
/// ```
///
/// [docs/proofs/STATEMENT.md](crate::proved#contracts) explains the words.
#[inline]
pub fn merge(
    log: &mut crate::proved::memory::Vec<Timestamp>,
    other: &[Timestamp],
) -> Result<(), AllocError> {
    moment_logs::merge(log, other)
}

/// The last entry of a log that is in order: none of the others is later. None if it is empty.
///
/// # Contract
///
/// ```text
/// requires { IsSorted int_cmp log.now }
/// ensures none { IsNone result ↔ (log.now ≡ []) }
/// ensures present { IfSome result (Contains log.now) }
/// ensures none_later { IfSome result (λ last. All (λ entry. entry ≤ℤ last) log.now) }
/// ```
///
/// [docs/proofs/STATEMENT.md](crate::proved#contracts) explains the words.
#[inline]
pub(in crate::proved) const fn last(log: &[Timestamp]) -> Option<Timestamp> {
    moment_logs::last(log)
}

/// The latest of timestamps in any order. None if there are none.
///
/// ```
/// # use muxandu::proved::*;
/// # fn main() -> Result<(), Box<dyn std::error::Error>> {
/// let stamps = [Timestamp::UNIX_EPOCH, Timestamp::MIN];
/// assert_eq!(stamp_times::logs::latest(&stamps), Some(Timestamp::UNIX_EPOCH));
/// assert_eq!(stamp_times::logs::latest(&[]), None);
/// # Ok(())
/// # }
/// ```
///
/// # Contract
///
/// ```text
/// ensures none { IsNone result ↔ (stamps.now ≡ []) }
/// ensures present { IfSome result (Contains stamps.now) }
/// ensures none_later { IfSome result (λ latest. All (λ at. at ≤ℤ latest) stamps.now) }
/// ```
///
/// [docs/proofs/STATEMENT.md](crate::proved#contracts) explains the words.
#[inline]
pub fn latest(stamps: &[Timestamp]) -> Option<Timestamp> {
    moment_logs::latest(stamps)
}

/// The earliest of timestamps in any order. None if there are none.
///
/// ```
/// # use muxandu::proved::*;
/// # fn main() -> Result<(), Box<dyn std::error::Error>> {
/// let stamps = [Timestamp::UNIX_EPOCH, Timestamp::MIN];
/// assert_eq!(stamp_times::logs::earliest(&stamps), Some(Timestamp::MIN));
/// assert_eq!(stamp_times::logs::earliest(&[]), None);
/// # Ok(())
/// # }
/// ```
///
/// # Contract
///
/// ```text
/// ensures none { IsNone result ↔ (stamps.now ≡ []) }
/// ensures present { IfSome result (Contains stamps.now) }
/// ensures none_earlier { IfSome result (λ earliest. All (λ at. earliest ≤ℤ at) stamps.now) }
/// ```
///
/// [docs/proofs/STATEMENT.md](crate::proved#contracts) explains the words.
#[inline]
pub fn earliest(stamps: &[Timestamp]) -> Option<Timestamp> {
    moment_logs::earliest(stamps)
}

/// The entries before an instant, of a log that is in order.
///
/// # Contract
///
/// ```text
/// requires { IsSorted int_cmp log.now }
/// ensures exact { result.now ≡ filter (λ entry. int_lt entry at) log.now }
/// ensures each { All (λ entry. entry <ℤ at) result.now }
/// ensures in_order { IsSorted int_cmp result.now }
/// ```
///
/// [docs/proofs/STATEMENT.md](crate::proved#contracts) explains the words.
#[inline]
pub(in crate::proved) fn before(log: &[Timestamp], at: Timestamp) -> &[Timestamp] {
    moment_logs::before(log, at)
}

/// The entries at an instant and after it, of a log that is in order.
///
/// # Contract
///
/// ```text
/// requires { IsSorted int_cmp log.now }
/// ensures exact { result.now ≡ filter (λ entry. int_le at entry) log.now }
/// ensures each { All (λ entry. at ≤ℤ entry) result.now }
/// ensures in_order { IsSorted int_cmp result.now }
/// ```
///
/// [docs/proofs/STATEMENT.md](crate::proved#contracts) explains the words.
#[inline]
pub(in crate::proved) fn from(log: &[Timestamp], at: Timestamp) -> &[Timestamp] {
    moment_logs::from(log, at)
}

/// The entries before an instant, and the others, of a log that is in order.
///
/// # Contract
///
/// ```text
/// requires { IsSorted int_cmp log.now }
/// ensures whole { log.now ≡ result.0.now ++ result.1.now }
/// ensures before { result.0.now ≡ filter (λ entry. int_lt entry at) log.now }
/// ensures from { result.1.now ≡ filter (λ entry. int_le at entry) log.now }
/// ensures before_in_order { IsSorted int_cmp result.0.now }
/// ensures from_in_order { IsSorted int_cmp result.1.now }
/// ```
///
/// [docs/proofs/STATEMENT.md](crate::proved#contracts) explains the words.
#[inline]
pub(in crate::proved) fn split_at(
    log: &[Timestamp],
    at: Timestamp,
) -> (&[Timestamp], &[Timestamp]) {
    moment_logs::split_at(log, at)
}

/// Takes the entries before an instant out of a log. Those that stay keep their order.
///
/// # Contract
///
/// ```text
/// ensures exact { log.new.items ≡ filter (λ entry. int_le at entry) log.old.items }
/// ensures each { All (λ entry. at ≤ℤ entry) log.new.items }
/// ensures in_order { IsStrictlySortedBy int_cmp log.old.items →
///     IsStrictlySortedBy int_cmp log.new.items }
/// ```
///
/// [docs/proofs/STATEMENT.md](crate::proved#contracts) explains the words.
#[inline]
pub fn drop_before(log: &mut crate::proved::memory::Vec<Timestamp>, at: Timestamp) {
    moment_logs::drop_before(log, at)
}

/// A record that has a timestamp.
///
/// # Contract
///
/// ```text
/// ghost stamp: { Self → ℤ };
/// ```
///
/// [docs/proofs/STATEMENT.md](crate::proved#contracts) explains the words.
pub trait Stamped {
    /// Its timestamp.
    ///
    /// # Contract
    ///
    /// ```text
    /// ensures { result ≡ stamp self.now }
    /// ```
    ///
    /// [docs/proofs/STATEMENT.md](crate::proved#contracts) explains the words.
    fn stamp(&self) -> Timestamp;
}

/// Puts records into the order of their timestamps; those of one instant keep their order.
/// `AllocError`, with all as before, where there is no memory to sort them.
///
/// # Contract
///
/// ```text
/// ensures same_records { IsPermutation records.old.items records.new.items }
/// ensures in_order { OnOk result (IsSortedByKey T.stamp int_cmp records.new.items) }
/// ensures stable { IsStableByKey T.stamp int_cmp records.old.items records.new.items }
/// ensures unchanged { OnErr result (records.new.items ≡ records.old.items) }
/// ```
///
/// [docs/proofs/STATEMENT.md](crate::proved#contracts) explains the words.
#[inline]
pub fn sort_by_stamp<T: Stamped>(
    records: &mut crate::proved::memory::Vec<T>,
) -> Result<(), AllocError> {
    records.sort_by_key(|record| record.stamp())?;
    Ok(())
}

/// A record that has a date-time at an offset.
///
/// # Contract
///
/// ```text
/// ghost date_time: { Self → Local };
/// ```
///
/// [docs/proofs/STATEMENT.md](crate::proved#contracts) explains the words.
pub trait Dated {
    /// Its date-time.
    ///
    /// # Contract
    ///
    /// ```text
    /// ensures { result ≡ date_time self.now }
    /// ```
    ///
    /// [docs/proofs/STATEMENT.md](crate::proved#contracts) explains the words.
    fn date_time(&self) -> OffsetDateTime;
}

/// Puts records into the order of the instants of their date-times; those of one instant keep their
/// order. `AllocError`, with all as before, where there is no memory to sort them.
///
/// # Contract
///
/// ```text
/// ensures same_records { IsPermutation records.old.items records.new.items }
/// ensures in_order { OnOk result
///     (IsSortedByKey T.date_time (on instant_of int_cmp) records.new.items) }
/// ensures stable { IsStableByKey T.date_time (on instant_of int_cmp)
///     records.old.items records.new.items }
/// ensures unchanged { OnErr result (records.new.items ≡ records.old.items) }
/// ```
///
/// [docs/proofs/STATEMENT.md](crate::proved#contracts) explains the words.
#[inline]
pub fn sort_by_date_time<T: Dated>(
    records: &mut crate::proved::memory::Vec<T>,
) -> Result<(), AllocError> {
    records.sort_by_key(|record| record.date_time())?;
    Ok(())
}
