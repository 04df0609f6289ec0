//! Each caller over words for forms and places is called.
use super::is;
use calendar_values::UtcOffset;
use format_descriptions::{Field, ValueRefusal};
use log_forms::{Assumed, FormName, Place, StampRefusal, choose, named_form};
use pattern_uses::{log_stamps, log_words};
use std::test::Fail;

const IN_2023: Assumed = Assumed {
    offset: Some(UtcOffset::UTC),
    year: Some(2_023),
    month: 0,
};

#[test]
fn words_of_users(rt: HostRuntime) {
    let line: &[u8] = b"31/Dec/2023 23:59:59 a";
    for (word, is_form) in [("django", true), ("[day]", true), ("[hours]", false)] {
        let form = log_words::form_of_word(word.as_bytes());
        is(&rt, form.is_some(), is_form);
    }
    match log_words::form_of_word(b"django") {
        Some(form) => is(&rt, log_stamps::has_stamp(&form, &IN_2023, line), true),
        None => is(&rt, "no form", "django"),
    }
    match log_words::place_of_word(b"json:time") {
        Some((place, name)) => {
            is(&rt, place, Place::Json);
            is(&rt, name, b"time".as_slice());
        }
        None => is(&rt, "no place", "json:time"),
    }
    is(&rt, log_words::place_of_word(b"field:0").is_none(), true);
    let sample = log_words::sample_without_year(FormName::Syslog);
    is(&rt, sample, Some("Feb 29 12:00:00"));
    is(&rt, log_words::sample_without_year(FormName::Git), None);
    let day = StampRefusal::Part(ValueRefusal::Wrong(Field::Day));
    is(&rt, log_words::wrong_part_name(day), Some("day"));
    is(&rt, log_words::wrong_part_name(StampRefusal::Absent), None);
}

#[test]
fn stamps_of_lines(rt: HostRuntime) -> Result<(), Fail> {
    let lines: [&[u8]; 3] = [b"Dec 31 23:59:59 a", b"  at b", b"Dec 31 23:59:58 c"];
    let form = named_form(FormName::Syslog);
    is(&rt, log_stamps::refused_lines(&form, &IN_2023, &lines), 1);
    is(&rt, log_stamps::has_stamp(&form, &IN_2023, lines[1]), false);
    is(
        &rt,
        log_stamps::end_of_stamp(&form, &IN_2023, lines[0]),
        Some(15),
    );
    is(
        &rt,
        log_stamps::end_of_stamp(&form, &IN_2023, lines[1]),
        None,
    );
    is(&rt, log_stamps::has_any_stamp(lines[0]), true);
    is(&rt, log_stamps::has_any_stamp(lines[1]), false);
    match choose(&lines) {
        Some(reader) => {
            let text = log_stamps::text_of_stamp(reader, &IN_2023, lines[2]);
            is(&rt, text, Some(b"Dec 31 23:59:58".as_slice()));
        }
        None => is(&rt, "no reader", "syslog"),
    }
    Ok(())
}
