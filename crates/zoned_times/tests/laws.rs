//! Laws: a call of each does nothing.
use std::test::Fail;
use zoned_times::laws;

#[test]
fn laws_do_nothing(rt: HostRuntime) -> Result<(), Fail> {
    laws::instants_are_kept();
    laws::instants_are_found();
    laws::choices_are_right();
    laws::fixed_is_its_offset();
    laws::stays_between();
    laws::order_is_kept();
    laws::rules_repeat();
    Ok(())
}
