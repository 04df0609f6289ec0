//! Names of months.
use super::is;
use calendar_values::Month;
use std::test::Fail;

#[test]
fn months_are_shown_by_their_names(rt: HostRuntime) -> Result<(), Fail> {
    for (number, name) in [
        (1, "January"),
        (2, "February"),
        (3, "March"),
        (4, "April"),
        (5, "May"),
        (6, "June"),
        (7, "July"),
        (8, "August"),
        (9, "September"),
        (10, "October"),
        (11, "November"),
        (12, "December"),
    ] {
        let month = Month::from_number(number)?;
        is(&rt, month.text().as_str(), name);
    }
    Ok(())
}
