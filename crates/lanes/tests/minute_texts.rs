//! The first sixteen bytes of a text at once.
use super::is;
use lanes::minute_texts::{is_minute_text, minute_text_numbers};
use std::simd::prelude::*;
use std::test::Fail;

#[test]
fn form_of_sixteen_bytes(rt: HostRuntime) -> Result<(), Fail> {
    for (text, expected) in [
        (b"1996-12-19T16:39", true),
        (b"0000-00-00T99:99", true),
        (b"1996-12-19t16:39", false),
        (b"1996-12-19T16:3/", false),
        (b"199:-12-19T16:39", false),
        (b"1996/12-19T16:39", false),
        (b"1996-12-19T16-39", false),
    ] {
        is(&rt, is_minute_text(u8x16::from_array(*text)), expected);
    }
    Ok(())
}

#[test]
fn numbers_of_sixteen_bytes(rt: HostRuntime) -> Result<(), Fail> {
    let numbers = minute_text_numbers(u8x16::from_array(*b"1996-12-19T16:39"));
    is(&rt, numbers.to_array(), [19, 96, 12, 19, 16, 39, 39, 39]);
    Ok(())
}
