// Made by make/erase of crates/stamp_times/src/chains.rt. Do not edit.
//! Chains of conversions.
use crate::proved::stamp_times::chains::steps::{Held, Step, StoppedAt};
use crate::proved::stamp_times::{Moment, Timestamp};
use crate::proved::calendar_values::UtcOffset;
use crate::proved::offset_times::OffsetDateTime;
use crate::proved::utc_times::UtcDateTime;

pub mod steps;

// Seconds and years nearer to 1970 and to the year 0 than these lie days inside the range.
const FAR_SECOND: u64 = 31_400_000_000_000;

const FAR_YEAR: u32 = 999_999;

/// Converts the instant step by step, as far as each target can hold it. A timestamp and a
/// date-time in UTC hold an instant of the range. A date-time at an offset holds one with a date
/// of the range there. Ok is the value of the last step, or the start if there is no step. Err is
/// the first step that cannot hold the instant, and the value of the steps before it.
/// Either way the instant is that of the start.
///
/// ```
/// # use muxandu::proved::*;
/// # fn main() -> Result<(), Box<dyn std::error::Error>> {
/// let start = Held::Stamp(Timestamp::MIN);
/// let west = Step::ToOffset(UtcOffset::from_hms(-1, 0, 0)?);
/// let stopped = chain(start, &[Step::ToUtc, west]).err();
/// assert_eq!(stopped.map(|stopped| stopped.index), Some(1));
/// # Ok(())
/// # }
/// ```
///
/// # Contract
///
/// ```text
/// ensures arrived { IfOk result (λ _. stop_index (held_instant start) steps.now ≡ None) }
/// ensures held { IfOk result (λ held. held ≡ held_after start (held_instant start) steps.now) }
/// ensures instant { IfOk result (λ held. held_instant held ≡ held_instant start) }
/// ensures stopped { IfErr result (λ stopped.
///     stop_index (held_instant start) steps.now ≡ Some stopped.index) }
/// ensures kept { IfErr result (λ stopped. stopped.held ≡
///     held_after start (held_instant start) (take stopped.index steps.now)) }
/// ensures place { IfErr result (λ stopped. stopped.index < length steps.now) }
/// ensures kept_instant { IfErr result (λ stopped.
///     held_instant stopped.held ≡ held_instant start) }
/// ```
///
/// [docs/proofs/STATEMENT.md](crate::proved#contracts) explains the words.
#[inline]
pub fn chain(start: Held, steps: &[Step]) -> Result<Held, StoppedAt> {
    let at = start;
    if is_far_inside(at) {
        let from = start;
        return Ok(held_after(from, steps));
    }
    let mut held = start;
    for (index, step) in steps.iter().enumerate() {
        let before = held;
        match held_by(before, *step) {
            Some(next) => held = next,
            None => return Err(StoppedAt { index, held }),
        }
    }
    Ok(held)
}

// Whether the target of each step can hold the instant, by its second or the year that clocks show alone: no
// for instants near an end of the range.
/// # Contract
///
/// ```text
/// ensures { IsTrue result → IsFarInside (held_instant held) }
/// ```
///
/// [docs/proofs/STATEMENT.md](crate::proved#contracts) explains the words.
#[inline]
const fn is_far_inside(held: Held) -> bool {
    match held {
        Held::Stamp(stamp) => stamp.as_seconds().unsigned_abs() < FAR_SECOND,
        Held::Utc(at) => at.year().unsigned_abs() < FAR_YEAR,
        Held::Offset(at) => at.date().year().unsigned_abs() < FAR_YEAR,
    }
}

// The instant as the target of the last step holds it, or the start where there is no step.
/// # Contract
///
/// ```text
/// requires { IsFarInside (held_instant start) }
/// ensures arrived { stop_index (held_instant start) steps.now ≡ None }
/// ensures held { result ≡ held_after start (held_instant start) steps.now }
/// ensures instant { held_instant result ≡ held_instant start }
/// ```
///
/// [docs/proofs/STATEMENT.md](crate::proved#contracts) explains the words.
#[inline]
fn held_after(start: Held, steps: &[Step]) -> Held {
    for step in steps {
        be_in_range(*step);
    }
    let Some((last, _)) = steps.split_last() else {
        return start;
    };
    be_in_range(*last);
    held_by(start, *last).unwrap()
}

// For the proof alone: the offset of a step lies in its range.
/// # Contract
///
/// ```text
/// ensures { IsStep step }
/// ```
///
/// [docs/proofs/STATEMENT.md](crate::proved#contracts) explains the words.
#[inline(always)]
const fn be_in_range(step: Step) {
    match step {
        Step::ToStamp => {}
        Step::ToUtc => {}
        Step::ToOffset(offset) => {
            let _in_range = offset.whole_seconds();
        }
    }
}

// The instant as the target of the step holds it. None where it cannot.
/// # Contract
///
/// ```text
/// ensures { let i = held_instant held in SomeIff result (IsWallClock (shown_by step i))
///     (held_by step i) }
/// ```
///
/// [docs/proofs/STATEMENT.md](crate::proved#contracts) explains the words.
#[inline]
fn held_by(held: Held, step: Step) -> Option<Held> {
    match step {
        Step::ToStamp => Some(Held::Stamp(Timestamp::from(in_utc(held)?))),
        Step::ToUtc => Some(Held::Utc(in_utc(held)?)),
        Step::ToOffset(offset) => Some(Held::Offset(held_at_offset(held, offset)?)),
    }
}

// The instant as a date-time in UTC. None where its date there is out of the range.
/// # Contract
///
/// ```text
/// ensures { SomeInRange result (held_instant held) }
/// ```
///
/// [docs/proofs/STATEMENT.md](crate::proved#contracts) explains the words.
#[inline]
const fn in_utc(held: Held) -> Option<UtcDateTime> {
    match held {
        Held::Stamp(stamp) => Some(stamp.to_utc()),
        Held::Utc(at) => {
            // For the proof alone: what is read lies in its range.
            let _in_range = at.date();
            Some(at)
        }
        Held::Offset(at) => at.checked_to_utc(),
    }
}

// The instant as a date-time at an offset. None where its date there is out of the range.
/// # Contract
///
/// ```text
/// ensures { let i = held_instant held in ShownAt result i offset }
/// ```
///
/// [docs/proofs/STATEMENT.md](crate::proved#contracts) explains the words.
#[inline]
fn held_at_offset(held: Held, offset: UtcOffset) -> Option<OffsetDateTime> {
    match held {
        Held::Stamp(stamp) => stamp.at_offset(offset),
        Held::Utc(at) => at.at_offset(offset),
        Held::Offset(at) => at.checked_to_offset(offset),
    }
}
