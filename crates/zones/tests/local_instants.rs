//! Which second of a wall clock a caller takes.
use super::is;
use std::test::Fail;
use zones::LocalInstants;

#[test]
fn one_second(rt: HostRuntime) -> Result<(), Fail> {
    let found = LocalInstants::Single(7);
    is(
        &rt,
        (found.earlier(), found.later(), found.compatible()),
        (7, 7, 7),
    );
    is(&rt, (found.only(), found.first()), (Some(7), 7));
    Ok(())
}

#[test]
fn no_second_in_a_gap(rt: HostRuntime) -> Result<(), Fail> {
    let found = LocalInstants::Gap(7, 3_607, 1_800);
    is(
        &rt,
        (found.earlier(), found.later(), found.compatible()),
        (7, 3_607, 3_607),
    );
    is(&rt, (found.only(), found.first()), (None, 1_800));
    Ok(())
}

#[test]
fn two_seconds_in_a_fold(rt: HostRuntime) -> Result<(), Fail> {
    let found = LocalInstants::Fold(7, 3_607);
    is(
        &rt,
        (found.earlier(), found.later(), found.compatible()),
        (7, 3_607, 7),
    );
    is(&rt, (found.only(), found.first()), (None, 7));
    Ok(())
}
