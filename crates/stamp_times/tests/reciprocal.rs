//! The calendar by two multiplications.
use super::is;
use stamp_times::reciprocal::{century, julian_year, year_leap_ordinal};
use std::test::Fail;

#[test]
fn words_of_products(rt: HostRuntime) -> Result<(), Fail> {
    is(&rt, century(869_861_538), (23_815, 4_294_963_575));
    is(&rt, julian_year(869_879_400), (2_381_600, 1_469_893));
    Ok(())
}

#[test]
fn years_by_products(rt: HostRuntime) -> Result<(), Fail> {
    is(&rt, year_leap_ordinal(10_957), (2000, true, 1));
    is(&rt, year_leap_ordinal(11_322), (2000, true, 366));
    is(&rt, year_leap_ordinal(-25_203), (1900, false, 365));
    is(&rt, year_leap_ordinal(-25_202), (1901, false, 1));
    is(&rt, year_leap_ordinal(12_418), (2004, true, 1));
    is(&rt, year_leap_ordinal(-365_961_662), (-999_999, false, 1));
    is(&rt, year_leap_ordinal(364_522_971), (999_999, false, 365));
    Ok(())
}
