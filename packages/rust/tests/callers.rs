//! A call that panics names the line of its caller, as those of `time` do.

use std::panic::{self, UnwindSafe};
use std::sync::Mutex;

use muxandu::ext::{NumericalDuration, NumericalStdDuration};
use muxandu::macros::{datetime, offset};
use muxandu::{
    Date, OffsetDateTime, PlainDateTime, SignedDuration, Timestamp, UtcDateTime, Weekday,
};

/// The file in which the last panic was.
static FILE: Mutex<String> = Mutex::new(String::new());

/// The file that the panic of a call names.
fn file_of<T>(call: impl FnOnce() -> T + UnwindSafe) -> String {
    FILE.lock().unwrap().clear();
    assert!(panic::catch_unwind(call).is_err(), "it does not panic");
    FILE.lock().unwrap().clone()
}

#[test]
fn a_panic_names_its_caller() {
    panic::set_hook(Box::new(|info| {
        let place = info.location().expect("a panic has a place");
        *FILE.lock().unwrap() = place.file().to_string();
    }));
    let last = PlainDateTime::MAX;
    let files = [
        file_of(|| Date::MAX + 1.days()),
        file_of(|| last + 1.nanoseconds()),
        file_of(|| PlainDateTime::MIN - 1.std_seconds()),
        file_of(|| UtcDateTime::MAX + 1.nanoseconds()),
        file_of(|| Timestamp::MIN - 1.seconds()),
        file_of(|| last.assume_utc() + 1.hours()),
        file_of(|| {
            let mut at = last.assume_utc();
            at += 1.hours();
            at
        }),
        file_of(|| last.assume_utc().to_offset(offset!(+1))),
        file_of(|| last.assume_offset(offset!(-1)).to_utc()),
        file_of(|| UtcDateTime::from(last.assume_offset(offset!(-1)))),
        file_of(|| Timestamp::from(last.assume_offset(offset!(-1)))),
        file_of(|| Timestamp::MAX.to_offset(offset!(+1))),
        file_of(|| SignedDuration::MAX + 1.seconds()),
        file_of(|| -SignedDuration::MIN),
        file_of(|| SignedDuration::weeks(i64::MAX)),
        file_of(|| i64::MAX.days()),
        file_of(|| SignedDuration::new(i64::MAX, i32::MAX)),
        file_of(|| SignedDuration::MAX * 2),
        file_of(|| 1.seconds() / 0),
        file_of(|| SignedDuration::seconds_f64(f64::NAN)),
        file_of(|| (-1.0).std_seconds()),
        file_of(|| Date::MAX.next_occurrence(Weekday::Friday)),
        file_of(|| Date::MIN.nth_prev_occurrence(Weekday::Friday, 0)),
    ];
    let _ = panic::take_hook();
    for (place, file) in files.iter().enumerate() {
        assert!(file.ends_with("callers.rs"), "{place}: {file}");
    }
    let there: OffsetDateTime = datetime!(2024-02-29 0:00 UTC);
    assert_eq!(there.to_offset(offset!(UTC)), there);
}
