//! Descriptions of the Rust package and of `time` 0.3.9: `formats_bench LIBRARY CALL FORM ROUNDS` makes a call so often.
//!
//! LIBRARY is `muxandu`, `time`, or `items` for the proved functions over a list of items. CALL is `read`, `write` or
//! `format`. FORM counts the forms from 0. It prints a sum of what the calls gave, by which two libraries can be compared.

use std::hint::black_box;

/// Moments, and texts of them, in a ring.
const COUNT: usize = 64;

/// The texts of the forms, for the proved functions.
const FORMS: [&str; 5] = [
    "[year]-[month]-[day] [hour]:[minute]:[second]",
    "[year]-[month]-[day]T[hour]:[minute]:[second].[subsecond digits:9][offset_hour sign:mandatory]:[offset_minute]",
    "[weekday repr:short], [day] [month repr:short] [year] [hour]:[minute]:[second] [offset_hour sign:mandatory][offset_minute]",
    "[day]/[month repr:short]/[year]:[hour]:[minute]:[second] [offset_hour sign:mandatory][offset_minute]",
    "[month repr:long] [day padding:none], [year padding:none] [hour padding:space]:[minute]:[second].[subsecond] [offset_hour]",
];

macro_rules! calls {
    ($name:ident $library:ident) => {
        mod $name {
            use super::{COUNT, black_box};
            use ::$library::format_description::FormatItem;
            use ::$library::macros::{datetime, format_description};
            use ::$library::{Duration, OffsetDateTime, PrimitiveDateTime, UtcOffset};

            pub const FORMS: [&[FormatItem<'static>]; 5] = [
                format_description!("[year]-[month]-[day] [hour]:[minute]:[second]"),
                format_description!("[year]-[month]-[day]T[hour]:[minute]:[second].[subsecond digits:9][offset_hour sign:mandatory]:[offset_minute]"),
                format_description!("[weekday repr:short], [day] [month repr:short] [year] [hour]:[minute]:[second] [offset_hour sign:mandatory][offset_minute]"),
                format_description!("[day]/[month repr:short]/[year]:[hour]:[minute]:[second] [offset_hour sign:mandatory][offset_minute]"),
                format_description!("[month repr:long] [day padding:none], [year padding:none] [hour padding:space]:[minute]:[second].[subsecond] [offset_hour]"),
            ];

            pub fn moments() -> Vec<OffsetDateTime> {
                let start = datetime!(2024-02-29 9:08:07.123456789);
                (0..COUNT as i64)
                    .map(|n| {
                        let at = start + Duration::new(n * 1_234_567, n as i32 * 3_210_123);
                        at.assume_offset(UtcOffset::from_hms((n % 9) as i8 - 4, 0, 0).unwrap())
                    })
                    .collect()
            }

            pub fn read(form: usize, rounds: usize) -> i64 {
                let texts: Vec<String> = moments().iter().map(|at| at.format(FORMS[form]).unwrap()).collect();
                let mut sum = 0;
                for n in 0..rounds {
                    let (text, form_items) = (black_box(&texts[n % COUNT]), black_box(FORMS[form]));
                    sum += i64::from(if form == 0 {
                        PrimitiveDateTime::parse(text, form_items).unwrap().second()
                    } else {
                        OffsetDateTime::parse(text, form_items).unwrap().second()
                    });
                }
                sum
            }

            pub fn write(form: usize, rounds: usize) -> i64 {
                let moments = moments();
                let mut bytes = Vec::with_capacity(128);
                let mut sum = 0;
                for n in 0..rounds {
                    bytes.clear();
                    let at = black_box(moments[n % COUNT]);
                    sum += at.format_into(&mut bytes, black_box(FORMS[form])).unwrap() as i64;
                    black_box(&bytes);
                }
                sum
            }

            pub fn format(form: usize, rounds: usize) -> i64 {
                let moments = moments();
                let mut sum = 0;
                for n in 0..rounds {
                    let at = black_box(moments[n % COUNT]);
                    sum += black_box(at.format(black_box(FORMS[form])).unwrap()).len() as i64;
                }
                sum
            }
        }
    };
}

calls! { of_muxandu muxandu }
calls! { of_time time }

mod of_items {
    use super::{COUNT, FORMS, black_box, of_muxandu};
    use ::muxandu::proved::format_descriptions::{self as proved, DescriptionVersion, Item};

    fn with_items<T>(form: usize, act: impl FnOnce(&[Item]) -> T) -> T {
        let mut room = [Item::Byte(0); 64];
        let count = proved::parse_description(DescriptionVersion::One, FORMS[form].as_bytes(), &mut room).unwrap();
        act(&room[..count])
    }

    pub fn read(form: usize, rounds: usize) -> i64 {
        let texts: Vec<String> = of_muxandu::moments().iter().map(|at| at.format(of_muxandu::FORMS[form]).unwrap()).collect();
        with_items(form, |items| {
            let mut sum = 0;
            for n in 0..rounds {
                let mut parts = proved::Parts::none();
                proved::parse_into(black_box(items), black_box(texts[n % COUNT].as_bytes()), &mut parts).unwrap();
                sum += i64::from(black_box(&parts).second.unwrap());
            }
            sum
        })
    }

    pub fn write(form: usize, rounds: usize) -> i64 {
        let moments = of_muxandu::moments();
        with_items(form, |items| {
            let mut sum = 0;
            for n in 0..rounds {
                let at = black_box(moments[n % COUNT]);
                sum += black_box(proved::format_date_time(black_box(items), at).unwrap()).as_bytes().len() as i64;
            }
            sum
        })
    }
}

fn main() {
    let words: Vec<String> = std::env::args().collect();
    let (form, rounds) = (words[3].parse().unwrap(), words[4].parse().unwrap());
    let sum = match (words[1].as_str(), words[2].as_str()) {
        ("muxandu", "read") => of_muxandu::read(form, rounds),
        ("muxandu", "write") => of_muxandu::write(form, rounds),
        ("muxandu", "format") => of_muxandu::format(form, rounds),
        ("time", "read") => of_time::read(form, rounds),
        ("time", "write") => of_time::write(form, rounds),
        ("time", "format") => of_time::format(form, rounds),
        ("items", "read") => of_items::read(form, rounds),
        ("items", "write") => of_items::write(form, rounds),
        _ => panic!("formats_bench muxandu|time|items read|write|format FORM ROUNDS"),
    };
    println!("{sum}");
}
