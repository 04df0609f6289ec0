//! Texts of another form: we counted the place of the wrong byte by hand.
use super::is;
use local_texts::{date_time_fault, time_fault, time_with_offset_fault};

#[test]
fn faults_of_date_times(rt: HostRuntime) {
    for (text, place) in [
        ("", 0),
        ("1985-04-12", 10),
        ("1985-04-12_23:20:50", 10),
        ("1985-04-12T23:20:50Z", 19),
        ("1985-04-12T23:20:50.5+08:00", 21),
        ("1985-04-12T23:20:50.", 20),
        ("1985-04-12T23:20:50.12345678901234567x", 37),
        ("9999-99-99 99:99:99.0123456789", 30),
    ] {
        is(&rt, date_time_fault(text.as_bytes()), place);
    }
}

#[test]
fn faults_of_times(rt: HostRuntime) {
    for (text, place) in [
        ("", 0),
        ("23:20Z", 5),
        ("1:20:50", 1),
        ("23:20:50,5", 8),
        ("23:20:50.5", 10),
    ] {
        is(&rt, time_fault(text.as_bytes()), place);
    }
}

#[test]
fn faults_of_times_with_an_offset(rt: HostRuntime) {
    for (text, place) in [
        ("", 0),
        ("23:20Z", 5),
        ("23:20:50", 8),
        ("23:20:50.Z", 9),
        ("23:20:50ZZ", 9),
        ("23:20:50+1:00", 10),
        ("23:20:50+0800", 11),
        ("23:20:50.5+08:0x", 15),
        ("24:00:00-99:99", 14),
    ] {
        is(&rt, time_with_offset_fault(text.as_bytes()), place);
    }
}
