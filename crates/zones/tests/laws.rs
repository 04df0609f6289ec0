//! Laws: a call of each does nothing.
use std::test::Fail;
use zones::laws;

#[test]
fn laws_do_nothing(rt: HostRuntime) -> Result<(), Fail> {
    laws::seconds_are_found();
    laws::types_are_one();
    laws::stays_between();
    laws::order_is_kept();
    laws::rules_repeat();
    laws::fixed_is_one_offset();
    laws::one_type_holds();
    laws::intervals_hold();
    Ok(())
}
