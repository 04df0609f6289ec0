//! Texts written of values that a text has: none is longer. We wrote the expected ones by hand.
use super::is;
use rfc3339::laws::{texts_of_digits_keep_the_order, texts_of_digits_truncate};
use rfc3339::length_laws::written_texts_are_the_shortest;
use rfc3339::{Rfc3339, parse_rfc3339};
use std::test::Fail;

#[test]
fn texts_written_again(rt: HostRuntime) -> Result<(), Fail> {
    for (text, expected) in [
        ("1985-04-12t23:20:50.520z", "1985-04-12T23:20:50.52Z"),
        ("1985-04-12 23:20:50.000+00:00", "1985-04-12T23:20:50Z"),
        (
            "1985-04-12T23:20:50.5200000000001-08:00",
            "1985-04-12T23:20:50.52-08:00",
        ),
        ("1985-04-12T23:20:50-00:00", "1985-04-12T23:20:50Z"),
    ] {
        let Some(written) = parse_rfc3339(text.as_bytes())?.to_rfc3339() else {
            return Err(Fail::from("no text"));
        };
        is(&rt, written.as_str(), expected);
    }
    // Each law is a function that does nothing.
    written_texts_are_the_shortest();
    texts_of_digits_truncate();
    texts_of_digits_keep_the_order();
    Ok(())
}
