// Made by make/erase of crates/stamp_times/src/runs.rt. Do not edit.
//! Runs of calls.
use crate::proved::stamp_times::runs::calls::{Call, Reply};
use crate::proved::stamp_times::{Moment, Timestamp};
use crate::proved::offset_times::OffsetDateTime;
use crate::proved::memory::{AllocError, Global};

pub mod calls;
pub mod moment;

/// The replies to the calls in their order, one a call, and the value after the last: those of a
/// counter of nanoseconds that starts at the instant. A read leaves the value as it is and replies
/// the part. A sum or a replacement that succeeds replies the date and the time of day of its
/// result, and the next call starts there. One that fails replies the error and changes nothing. A
/// conversion to an offset replies the date-time there, and the next call starts at the instant.
/// `AllocError` if there is no memory for the replies. It takes all of it first, and none if there
/// is no call.
///
/// # Contract
///
/// ```text
/// ensures replies { IfOk result (λ ended. ended.0.items ≡ replies (M.instant start) calls.now) }
/// ensures count { IfOk result (λ ended. vec_len ended.0 ≡ length calls.now) }
/// ensures last { IfOk result (λ ended.
///     M.instant ended.1 ≡ last_instant (M.instant start) calls.now) }
/// ensures no_call { calls.now ≡ [] → IsOk result }
/// ```
///
/// [docs/proofs/STATEMENT.md](crate::proved#contracts) explains the words.
#[inline]
pub fn run<M: Moment>(
    alloc: Global,
    start: M,
    calls: &[Call],
) -> Result<(crate::proved::memory::Vec<Reply>, M), AllocError> {
    let mut replies = crate::proved::memory::Vec::with_capacity(alloc, calls.len())?;
    let mut held = start;
    for call in calls {
        let (reply, next) = step(held, *call);
        put_in_room(&mut replies, reply);
        held = next;
    }
    Ok((replies, held))
}

/// The replies of [`run`] from a timestamp, and from the same instant as a date-time in UTC. They
/// are equal. Ok where there is no call.
///
/// # Contract
///
/// ```text
/// ensures of_timestamp { IfOk result (λ both. both.0.items ≡ replies start calls.now) }
/// ensures of_utc { IfOk result (λ both. both.1.items ≡ replies start calls.now) }
/// ensures count_of_timestamp { IfOk result (λ both. vec_len both.0 ≡ length calls.now) }
/// ensures count_of_utc { IfOk result (λ both. vec_len both.1 ≡ length calls.now) }
/// ensures no_call { calls.now ≡ [] → IsOk result }
/// ```
///
/// [docs/proofs/STATEMENT.md](crate::proved#contracts) explains the words.
#[inline]
pub fn run_both(
    alloc: Global,
    start: Timestamp,
    calls: &[Call],
) -> Result<
    (
        crate::proved::memory::Vec<Reply>,
        crate::proved::memory::Vec<Reply>,
    ),
    AllocError,
> {
    let (of_timestamp, _) = run(alloc, start, calls)?;
    let (of_utc, _) = run(alloc, start.to_utc(), calls)?;
    Ok((of_timestamp, of_utc))
}

// What a call replies, and the value after it.
/// # Contract
///
/// ```text
/// ensures reply { result.0 ≡ reply (M.instant held) call }
/// ensures next { M.instant result.1 ≡ instant_after (M.instant held) call }
/// ```
///
/// [docs/proofs/STATEMENT.md](crate::proved#contracts) explains the words.
#[inline]
fn step<M: Moment>(held: M, call: Call) -> (Reply, M) {
    match call {
        Call::ReadDate(read) => (Reply::DatePart(held.date_part(read)), held),
        Call::ReadClock(read) => (Reply::ClockPart(held.clock_part(read)), held),
        Call::Shift(shift) => match held.shift(shift) {
            Some(next) => (reply_of(next), next),
            None => (Reply::Refused, held),
        },
        Call::Replace(replace) => match held.replace(replace) {
            Ok(next) => (reply_of(next), next),
            Err(refusal) => (Reply::RefusedPart(refusal), held),
        },
        Call::Local(offset) => match held.at_offset(offset) {
            Some(at) => (local_reply(at), held),
            None => (Reply::Refused, held),
        },
    }
}

// The reply that says where the value is.
/// # Contract
///
/// ```text
/// ensures { result ≡ reply_of_instant (M.instant held) }
/// ```
///
/// [docs/proofs/STATEMENT.md](crate::proved#contracts) explains the words.
#[inline]
fn reply_of<M: Moment>(held: M) -> Reply {
    let (date, time) = held.parts();
    Reply::Now(date, time)
}

// The reply that says what clocks at an offset show.
/// # Contract
///
/// ```text
/// ensures { result ≡ local_reply at.offset (Some at.wall) }
/// ```
///
/// [docs/proofs/STATEMENT.md](crate::proved#contracts) explains the words.
#[inline]
const fn local_reply(at: OffsetDateTime) -> Reply {
    let (date, time, offset) = at.parts();
    Reply::Local(date, time, offset)
}

// Puts an item at the end, where there is room for it.
/// # Contract
///
/// ```text
/// requires { vec_len items.old < vec_capacity items.old }
/// ensures items { items.new.items ≡ items.old.items ++ item ∷ [] }
/// ensures length { vec_len items.new ≡ vec_len items.old + 1 }
/// ensures room { vec_capacity items.old ≤ vec_capacity items.new }
/// ```
///
/// [docs/proofs/STATEMENT.md](crate::proved#contracts) explains the words.
#[inline]
pub(crate) fn put_in_room<T: Copy>(items: &mut crate::proved::memory::Vec<T>, item: T) {
    match items.push(item) {
        Ok(()) => {}
        Err(_) => unreachable!(),
    }
}
