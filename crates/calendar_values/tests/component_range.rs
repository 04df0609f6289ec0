//! Refusals and their texts.
use super::is;
use calendar_values::{ComponentRange, Part};
use std::test::Fail;

#[test]
fn refusals_are_shown_by_their_names(rt: HostRuntime) -> Result<(), Fail> {
    let (day, ordinal) = (
        ComponentRange::new("day", false),
        ComponentRange::new("ordinal", true),
    );
    is(&rt, ordinal.name(), "ordinal");
    is(&rt, ordinal.is_conditional(), true);
    is(&rt, ordinal.part(), Part::Ordinal);
    is(&rt, ComponentRange::of_part(Part::Ordinal, true), ordinal);
    is(
        &rt,
        ComponentRange::of_part(Part::JulianDay, false).name(),
        "julian_day",
    );
    is(&rt, day.part(), Part::Day);
    assert_ne!(rt; ordinal, ComponentRange::new("ordinal", false));
    is(
        &rt,
        format!(in rt.alloc(); "{ordinal};{day:>22}")?.as_str(),
        "ordinal is out of range given the other parts;   day is out of range",
    );
    Ok(())
}
