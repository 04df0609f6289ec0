//! The laws can be called.
#[test]
fn laws_can_be_called(_rt: HostRuntime) {
    calendar_values::laws::years_follow();
    calendar_values::laws::year_is_unique();
    calendar_values::laws::calendar_dates_are_days();
    calendar_values::laws::ordinal_dates_are_days();
    calendar_values::laws::iso_week_dates_are_days();
    calendar_values::laws::range_is_whole_years();
    calendar_values::laws::replacements_keep_the_rest();
    calendar_values::laws::clock_replacements_keep_the_rest();
    calendar_values::laws::truncation_is_greatest_multiple();
}
