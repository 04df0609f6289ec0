// Made by make/erase of crates/zones/src/joined.rt. Do not edit.
//! Clocks of a table and of the cycle after it.
use crate::proved::zones::{Cycle, Tail, TimeType, Transition, tables};

// A moment before all seconds.
pub(crate) const FIRST_MOMENT: i64 = -2_390_000;

// The kind of local time at the second.
/// # Contract
///
/// ```text
/// requires joined { IsJoined first rows.now tail }
/// requires second_in { IsCycleSecond second }
/// ensures { IsTypeAt Always (joined_second rows.now tail) (joined_type first rows.now tail)
///     second result }
/// ```
///
/// [docs/proofs/STATEMENT.md](crate::proved#contracts) explains the words.
#[inline]
pub(crate) fn type_at(first: TimeType, rows: &[Transition], tail: Tail, second: i64) -> TimeType {
    if second >= tail.from {
        tail.cycle.type_at(second)
    } else {
        tables::type_at(first, rows, second)
    }
}

// The last transition whose gap or fold starts at or before the wall clock.
/// # Contract
///
/// ```text
/// requires joined { IsJoined first rows.now tail }
/// requires local_in { IsSecond local }
/// ensures { IsLastStarted Always (joined_second rows.now tail) (joined_type first rows.now tail)
///     local result }
/// ```
///
/// [docs/proofs/STATEMENT.md](crate::proved#contracts) explains the words.
#[inline]
pub(crate) fn last_started(
    first: TimeType,
    rows: &[Transition],
    tail: Tail,
    local: i64,
) -> Option<Transition> {
    if local >= tail.from_local {
        Some(tail.cycle.transition_of(tail.cycle.last_start_at(local)))
    } else {
        tables::last_started(first, rows, local)
    }
}

// The kind of local time at the wall clock, if the cycle has it, and no gap or fold lies near.
/// # Contract
///
/// ```text
/// requires joined { IsJoined first rows.now tail }
/// requires local_in { IsSecond local }
/// ensures { IfSome result (λ kind. IsSettledOf first rows.now (Some tail) local kind) }
/// ```
///
/// [docs/proofs/STATEMENT.md](crate::proved#contracts) explains the words.
#[inline]
pub(crate) fn settled_type(
    first: TimeType,
    rows: &[Transition],
    tail: Tail,
    local: i64,
) -> Option<TimeType> {
    if local < tail.from_local {
        return None;
    }
    tail.cycle.settled_type(local)
}

// The first transition after the second.
/// # Contract
///
/// ```text
/// requires joined { IsJoined first rows.now tail }
/// requires second_in { IsCycleSecond second }
/// ensures { IsNext Always (joined_second rows.now tail) (joined_type first rows.now tail)
///     second result }
/// ```
///
/// [docs/proofs/STATEMENT.md](crate::proved#contracts) explains the words.
#[inline]
pub(crate) fn next(
    first: TimeType,
    rows: &[Transition],
    tail: Tail,
    second: i64,
) -> Option<Transition> {
    if second >= tail.from {
        return Some(tail.cycle.transition_of(tail.cycle.last_at(second) + 1));
    }
    match tables::next(first, rows, second) {
        Some(row) => Some(row),
        None => Some(tail.cycle.transition_of(tail.moment)),
    }
}

// The last transition at or before the second.
/// # Contract
///
/// ```text
/// requires joined { IsJoined first rows.now tail }
/// requires second_in { IsCycleSecond second }
/// ensures { IsLast Always (joined_second rows.now tail) (joined_type first rows.now tail)
///     second result }
/// ```
///
/// [docs/proofs/STATEMENT.md](crate::proved#contracts) explains the words.
#[inline]
pub(crate) fn last(
    first: TimeType,
    rows: &[Transition],
    tail: Tail,
    second: i64,
) -> Option<Transition> {
    if second >= tail.from {
        Some(tail.cycle.transition_of(tail.cycle.last_at(second)))
    } else {
        tables::last(first, rows, second)
    }
}

// The first moment of a cycle after a table.
/// # Contract
///
/// ```text
/// requires { IsForward first rows.now }
/// ensures moment { IsFirstMoment rows.now cycle result }
/// ensures low { neg_ℤ (pos 2_390_000) ≤ℤ result }
/// ensures high { result ≤ℤ pos 2_390_001 }
/// ```
///
/// [docs/proofs/STATEMENT.md](crate::proved#contracts) explains the words.
#[inline]
fn first_moment(first: TimeType, rows: &[Transition], cycle: Cycle) -> i64 {
    let count = rows.len();
    if count == 0 {
        return FIRST_MOMENT;
    }
    let last = rows[count - 1];
    cycle.last_at(last.second) + 1
}

// Whether the last row's gap or fold has ended at this wall clock.
/// # Contract
///
/// ```text
/// ensures { IsTrue result ↔ IsClear rows.now local }
/// ```
///
/// [docs/proofs/STATEMENT.md](crate::proved#contracts) explains the words.
#[inline]
fn is_clear(rows: &[Transition], local: i64) -> bool {
    let count = rows.len();
    if count == 0 {
        return true;
    }
    let last = rows[count - 1];
    if last.end() > local {
        return false;
    }
    true
}

// The part of the cycle after the table, if the two meet.
/// # Contract
///
/// ```text
/// requires { IsForward first rows.now }
/// ensures some { IfSome result (λ tail. (tail.cycle ≡ cycle) × IsJoined first rows.now tail) }
/// ensures none { IfNone result (NeverJoined first rows.now cycle) }
/// ```
///
/// [docs/proofs/STATEMENT.md](crate::proved#contracts) explains the words.
#[inline]
pub(crate) fn tail_after(first: TimeType, rows: &[Transition], cycle: Cycle) -> Option<Tail> {
    if !cycle.runs_forward() {
        return None;
    }
    let moment = first_moment(first, rows, cycle);
    let next = cycle.transition_of(moment);
    if !next.before.is(tables::type_after(first, rows, rows.len())) {
        return None;
    }
    let from_local = next.second + cycle.low();
    if !is_clear(rows, from_local) {
        return None;
    }
    Some(Tail {
        cycle,
        moment,
        from: next.second,
        from_local,
    })
}
