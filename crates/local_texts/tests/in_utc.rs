//! Texts without an offset, written as texts in UTC.
use super::is;
use local_texts::{UTC_ROOM, write_date_time_in_utc, write_time_in_utc};

#[test]
fn texts_in_utc(rt: HostRuntime) {
    let mut room = [0; UTC_ROOM];
    is(
        &rt,
        write_date_time_in_utc(b"1985-04-12 23:20:50.12345678912", &mut room),
        Some(30),
    );
    is(&rt, &room[..], b"1985-04-12 23:20:50.123456789Z");
    is(&rt, write_time_in_utc(b"23:20:50", &mut room), Some(20));
    is(&rt, &room[..20], b"1970-01-01T23:20:50Z");
    is(
        &rt,
        write_time_in_utc(b"23:20:50.123456789x", &mut room),
        None,
    );
}
