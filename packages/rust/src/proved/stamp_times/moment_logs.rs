// Made by make/erase of crates/stamp_times/src/moment_logs.rt. Do not edit.
//! Logs of instants of any type, in the order of time. Values of one instant count as one entry.
use crate::proved::stamp_times::runs::moment::Moment;
use crate::proved::memory::AllocError;

/// Returns a place of the instant in a log that is in order. None if the log does not have it.
///
/// # Contract
///
/// ```text
/// requires { IsSortedByKey M.instant int_cmp log.now }
/// ensures place { IfSome result (λ place. place < length log.now) }
/// ensures found { IfSome result (HoldsAt (λ entry. M.instant entry ≡ M.instant at) log.now) }
/// ensures present { IfSome result (λ _. ContainsByKey M.instant log.now at) }
/// ensures absent { IfNone result (¬ ContainsByKey M.instant log.now at) }
/// ```
///
/// [docs/proofs/STATEMENT.md](crate::proved#contracts) explains the words.
#[inline]
pub(in crate::proved) fn find<M: Moment>(log: &[M], at: M) -> Option<usize> {
    match log.binary_search(&at) {
        Ok(place) => Some(place),
        Err(_) => None,
    }
}

/// Enters the instant in its place in a log that has each once. False if it is there already;
/// `AllocError`, with the log as before, if there is no memory for one more.
///
/// # Contract
///
/// ```text
/// requires { IsStrictlySortedBy (on M.instant int_cmp) log.old.items }
/// ensures in_order { IsStrictlySortedBy (on M.instant int_cmp) log.new.items }
/// ensures entered { OnOk result (ContainsByKey M.instant log.new.items at) }
/// ensures was_new { IfOk result (λ is_new.
///     IsTrue is_new ↔ (¬ ContainsByKey M.instant log.old.items at)) }
/// ensures kept { (entry : M) → ContainsByKey M.instant log.old.items entry →
///     ContainsByKey M.instant log.new.items entry }
/// ensures no_other { (entry : M) → Contains log.new.items entry →
///     Contains log.old.items entry ⊎ (entry ≡ at) }
/// ensures inserted { IfOk result (λ is_new. IsTrue is_new → (place : ℕ) ×
///     (log.new.items ≡ take place log.old.items ++ at ∷ drop place log.old.items)) }
/// ensures same { IfOk result (λ is_new. is_new ≡ false → log.new.items ≡ log.old.items) }
/// ensures unchanged { OnErr result (log.new.items ≡ log.old.items) }
/// ```
///
/// [docs/proofs/STATEMENT.md](crate::proved#contracts) explains the words.
#[inline]
pub(in crate::proved) fn enter<M: Moment>(
    log: &mut crate::proved::memory::Vec<M>,
    at: M,
) -> Result<bool, AllocError> {
    match log.binary_search(&at) {
        Ok(_) => Ok(false),
        Err(place) => {
            log.insert(place, at)?;
            Ok(true)
        }
    }
}

/// Removes the instant from a log that has each once, and the others stay. False if it is not
/// there.
///
/// # Contract
///
/// ```text
/// requires { IsStrictlySortedBy (on M.instant int_cmp) log.old.items }
/// ensures in_order { IsStrictlySortedBy (on M.instant int_cmp) log.new.items }
/// ensures was_there { IsTrue result ↔ ContainsByKey M.instant log.old.items at }
/// ensures absent { ¬ ContainsByKey M.instant log.new.items at }
/// ensures kept { (entry : M) → ContainsByKey M.instant log.old.items entry →
///     M.instant entry ≢ M.instant at → ContainsByKey M.instant log.new.items entry }
/// ensures no_other { (entry : M) → ContainsByKey M.instant log.new.items entry →
///     ContainsByKey M.instant log.old.items entry }
/// ensures removed { IsTrue result → (place : ℕ) ×
///     (log.new.items ≡ take place log.old.items ++ drop (place + 1) log.old.items) }
/// ensures same { result ≡ false → log.new.items ≡ log.old.items }
/// ```
///
/// [docs/proofs/STATEMENT.md](crate::proved#contracts) explains the words.
#[inline]
pub(in crate::proved) fn remove<M: Moment>(log: &mut crate::proved::memory::Vec<M>, at: M) -> bool {
    match log.binary_search(&at) {
        Ok(place) => {
            log.remove(place);
            true
        }
        Err(_) => false,
    }
}

/// Puts a log in order, and leaves each instant once: the first value of it. `AllocError`, with the
/// log as before, if there is no memory to sort it.
///
/// # Contract
///
/// ```text
/// ensures in_order { OnOk result (IsStrictlySortedBy (on M.instant int_cmp) log.new.items) }
/// ensures kept { (entry : M) → ContainsByKey M.instant log.old.items entry →
///     ContainsByKey M.instant log.new.items entry }
/// ensures no_other { (entry : M) → ContainsByKey M.instant log.new.items entry →
///     ContainsByKey M.instant log.old.items entry }
/// ensures first { OnOk result ((entry : M) → Contains log.new.items entry →
///     first_by_key M.instant log.old.items entry ≡ Some entry) }
/// ensures unchanged { OnErr result (log.new.items ≡ log.old.items) }
/// ```
///
/// [docs/proofs/STATEMENT.md](crate::proved#contracts) explains the words.
#[inline]
pub fn put_in_order<M: Moment>(log: &mut crate::proved::memory::Vec<M>) -> Result<(), AllocError> {
    log.sort()?;
    log.dedup();
    Ok(())
}

/// Adds the entries of another list, puts all in order, and leaves each instant once: its value in
/// the log, or else the first in the other list. `AllocError`, with the log as before, if there is
/// no memory for them or to sort them.
///
/// # Contract
///
/// ```text
/// ensures in_order { OnOk result (IsStrictlySortedBy (on M.instant int_cmp) log.new.items) }
/// ensures entered { OnOk result ((entry : M) →
///     ContainsByKey M.instant other.now entry → ContainsByKey M.instant log.new.items entry) }
/// ensures kept { (entry : M) → ContainsByKey M.instant log.old.items entry →
///     ContainsByKey M.instant log.new.items entry }
/// ensures no_other { (entry : M) → ContainsByKey M.instant log.new.items entry →
///     ContainsByKey M.instant log.old.items entry ⊎ ContainsByKey M.instant other.now entry }
/// ensures first { OnOk result ((entry : M) → Contains log.new.items entry →
///     first_by_key M.instant (log.old.items ++ other.now) entry ≡ Some entry) }
/// ensures unchanged { OnErr result (log.new.items ≡ log.old.items) }
/// ```
///
/// [docs/proofs/STATEMENT.md](crate::proved#contracts) explains the words.
#[inline]
pub fn merge<M: Moment>(
    log: &mut crate::proved::memory::Vec<M>,
    other: &[M],
) -> Result<(), AllocError> {
    let before = log.len();
    log.extend_from_slice(other)?;
    let in_order = put_in_order(log);
    if in_order.is_err() {
        log.truncate(before);
    }
    in_order
}

/// Returns the last entry of a log that is in order: no other is later. None if it is empty.
///
/// # Contract
///
/// ```text
/// requires { IsSortedByKey M.instant int_cmp log.now }
/// ensures none { IsNone result ↔ (log.now ≡ []) }
/// ensures present { IfSome result (Contains log.now) }
/// ensures place { IfSome result (λ last.
///     HoldsAt (λ entry. entry ≡ last) log.now (length log.now - 1)) }
/// ensures none_later { IfSome result (λ last.
///     All (λ entry. M.instant entry ≤ℤ M.instant last) log.now) }
/// ```
///
/// [docs/proofs/STATEMENT.md](crate::proved#contracts) explains the words.
#[inline]
pub(in crate::proved) const fn last<M: Moment>(log: &[M]) -> Option<M> {
    log.last().copied()
}

/// Returns the latest of instants in any order, the last of them if several are equal. None if
/// there are none.
///
/// ```
/// # use muxandu::proved::*;
/// # fn main() -> Result<(), Box<dyn std::error::Error>> {
/// let instants = [UtcDateTime::UNIX_EPOCH, UtcDateTime::MIN];
/// assert_eq!(
///     stamp_times::moment_logs::latest(&instants),
///     Some(UtcDateTime::UNIX_EPOCH)
/// );
/// # Ok(())
/// # }
/// ```
///
/// # Contract
///
/// ```text
/// ensures none { IsNone result ↔ (instants.now ≡ []) }
/// ensures present { IfSome result (Contains instants.now) }
/// ensures none_later { IfSome result (λ latest.
///     All (λ at. M.instant at ≤ℤ M.instant latest) instants.now) }
/// ensures last { IfSome result (λ latest.
///     last_by_key M.instant instants.now latest ≡ Some latest) }
/// ```
///
/// [docs/proofs/STATEMENT.md](crate::proved#contracts) explains the words.
#[inline]
pub fn latest<M: Moment>(instants: &[M]) -> Option<M> {
    instants.iter().copied().max()
}

/// Returns the earliest of instants in any order, the first of them if several are equal. None if
/// there are none.
///
/// ```
/// # use muxandu::proved::*;
/// # fn main() -> Result<(), Box<dyn std::error::Error>> {
/// let instants = [UtcDateTime::UNIX_EPOCH, UtcDateTime::MIN];
/// assert_eq!(stamp_times::moment_logs::earliest(&instants), Some(UtcDateTime::MIN));
/// # Ok(())
/// # }
/// ```
///
/// # Contract
///
/// ```text
/// ensures none { IsNone result ↔ (instants.now ≡ []) }
/// ensures present { IfSome result (Contains instants.now) }
/// ensures none_earlier { IfSome result (λ earliest.
///     All (λ at. M.instant earliest ≤ℤ M.instant at) instants.now) }
/// ensures first { IfSome result (λ earliest.
///     first_by_key M.instant instants.now earliest ≡ Some earliest) }
/// ```
///
/// [docs/proofs/STATEMENT.md](crate::proved#contracts) explains the words.
#[inline]
pub fn earliest<M: Moment>(instants: &[M]) -> Option<M> {
    instants.iter().copied().min()
}

/// Returns the entries before an instant, of a log that is in order.
///
/// # Contract
///
/// ```text
/// requires { IsSortedByKey M.instant int_cmp log.now }
/// ensures exact { result.now ≡
///     filter (λ entry. int_lt (M.instant entry) (M.instant at)) log.now }
/// ensures each { All (λ entry. M.instant entry <ℤ M.instant at) result.now }
/// ensures in_order { IsSortedByKey M.instant int_cmp result.now }
/// ```
///
/// [docs/proofs/STATEMENT.md](crate::proved#contracts) explains the words.
#[inline]
pub(in crate::proved) fn before<M: Moment>(log: &[M], at: M) -> &[M] {
    split_at(log, at).0
}

/// Returns the entries at an instant and after it, of a log that is in order.
///
/// # Contract
///
/// ```text
/// requires { IsSortedByKey M.instant int_cmp log.now }
/// ensures exact { result.now ≡
///     filter (λ entry. int_le (M.instant at) (M.instant entry)) log.now }
/// ensures each { All (λ entry. M.instant at ≤ℤ M.instant entry) result.now }
/// ensures in_order { IsSortedByKey M.instant int_cmp result.now }
/// ```
///
/// [docs/proofs/STATEMENT.md](crate::proved#contracts) explains the words.
#[inline]
pub(in crate::proved) fn from<M: Moment>(log: &[M], at: M) -> &[M] {
    split_at(log, at).1
}

/// Returns the entries before an instant, and the others, of a log that is in order.
///
/// # Contract
///
/// ```text
/// requires { IsSortedByKey M.instant int_cmp log.now }
/// ensures whole { log.now ≡ result.0.now ++ result.1.now }
/// ensures before { result.0.now ≡
///     filter (λ entry. int_lt (M.instant entry) (M.instant at)) log.now }
/// ensures from { result.1.now ≡
///     filter (λ entry. int_le (M.instant at) (M.instant entry)) log.now }
/// ensures before_in_order { IsSortedByKey M.instant int_cmp result.0.now }
/// ensures from_in_order { IsSortedByKey M.instant int_cmp result.1.now }
/// ```
///
/// [docs/proofs/STATEMENT.md](crate::proved#contracts) explains the words.
#[inline]
pub(in crate::proved) fn split_at<M: Moment>(log: &[M], at: M) -> (&[M], &[M]) {
    log.split_at(log.partition_point(|entry| entry.cmp(&at).is_lt()))
}

/// Takes the entries before an instant out of a log. Those that stay keep their order.
///
/// # Contract
///
/// ```text
/// ensures exact { log.new.items ≡
///     filter (λ entry. int_le (M.instant at) (M.instant entry)) log.old.items }
/// ensures each { All (λ entry. M.instant at ≤ℤ M.instant entry) log.new.items }
/// ensures in_order { IsStrictlySortedBy (on M.instant int_cmp) log.old.items →
///     IsStrictlySortedBy (on M.instant int_cmp) log.new.items }
/// ```
///
/// [docs/proofs/STATEMENT.md](crate::proved#contracts) explains the words.
#[inline]
pub fn drop_before<M: Moment>(log: &mut crate::proved::memory::Vec<M>, at: M) {
    log.retain(|entry| entry.cmp(&at).is_ge());
}
