//! Days of the week.
use super::is;
use calendar_values::{Date, Month, Weekday};
use std::test::Fail;

#[test]
fn days_of_a_week_have_their_numbers_and_names(rt: HostRuntime) -> Result<(), Fail> {
    for (julian_day, number, name) in [
        (2_459_625, 0, "Monday"),
        (2_459_626, 1, "Tuesday"),
        (2_459_627, 2, "Wednesday"),
        (2_459_628, 3, "Thursday"),
        (2_459_629, 4, "Friday"),
        (2_459_630, 5, "Saturday"),
        (2_459_631, 6, "Sunday"),
    ] {
        let weekday = Date::from_julian_day(julian_day)?.weekday();
        is(&rt, weekday.number_days_from_monday(), number);
        is(&rt, weekday.text().as_str(), name);
        is(
            &rt,
            Weekday::from_number_days_from_monday(number),
            Some(weekday),
        );
    }
    is(&rt, Weekday::of_number(6), Weekday::Sunday);
    is(&rt, Weekday::from_number_days_from_monday(7), None);
    Ok(())
}

#[test]
fn formats_pad_the_names(rt: HostRuntime) -> Result<(), Fail> {
    let (may, monday) = (Month::May, Weekday::Monday);
    is(
        &rt,
        format!(in rt.alloc(); "{may} {may:?}{may:*^8}{monday:?}{monday:>9}")?.as_str(),
        "May May**May***Monday   Monday",
    );
    Ok(())
}
