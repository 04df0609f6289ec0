//! Rules that repeat each year.
use super::is;
use calendar_values::Month;
use std::test::Fail;
use zones::{Cycle, Moment, RuleDay, TimeType, Transition};

// `EST5EDT` with these two moments.
fn eastern(first: Moment, second: Moment) -> Cycle {
    Cycle {
        first,
        second,
        after_first: TimeType {
            offset: -14_400,
            is_daylight: true,
            designation: 1,
        },
        after_second: TimeType {
            offset: -18_000,
            is_daylight: false,
            designation: 0,
        },
    }
}

#[test]
fn rule_of_new_york(rt: HostRuntime) -> Result<(), Fail> {
    let march = Moment {
        day: RuleDay::Weekday(Month::March, 2, 0),
        time: 7_200,
    };
    let november = Moment {
        day: RuleDay::Weekday(Month::November, 1, 0),
        time: 7_200,
    };
    let cycle = eastern(march, november);
    is(
        &rt,
        (cycle.runs_forward(), cycle.one_type().is_none()),
        (true, true),
    );
    is(
        &rt,
        (cycle.second_of(4_048), cycle.second_of(4_049)),
        (1_710_054_000, 1_730_613_600),
    );
    let row: Transition = cycle.transition_of(4_048);
    is(
        &rt,
        (row.second, row.before.offset, row.after.offset),
        (1_710_054_000, -18_000, -14_400),
    );
    is(
        &rt,
        (row.start(), row.end()),
        (1_710_036_000, 1_710_039_600),
    );
    Ok(())
}

#[test]
fn daylight_time_all_year(rt: HostRuntime) -> Result<(), Fail> {
    let first = Moment {
        day: RuleDay::Counted(0),
        time: 0,
    };
    let last = Moment {
        day: RuleDay::Common(365),
        time: 90_000,
    };
    let cycle = eastern(first, last);
    let kept = cycle.one_type().map(|kept| (kept.offset, kept.is_daylight));
    is(
        &rt,
        (cycle.runs_forward(), kept),
        (false, Some((-14_400, true))),
    );
    Ok(())
}

#[test]
fn moments_that_overlap_in_some_year(rt: HostRuntime) -> Result<(), Fail> {
    let sunday = Moment {
        day: RuleDay::Weekday(Month::March, 5, 0),
        time: 7_200,
    };
    let april = Moment {
        day: RuleDay::Weekday(Month::April, 1, 0),
        time: -597_600,
    };
    let cycle = eastern(sunday, april);
    is(&rt, cycle.runs_forward(), false);
    Ok(())
}
