//! Each caller over lines that are counted, written or sorted is called.
use super::is;
use calendar_values::UtcOffset;
use line_devices::devices::{Device, Sink, Source};
use line_devices::sending::{Pending, flush};
use log_forms::{Assumed, FormName, named_form};
use pattern_uses::sorted_logs::{FrontStamps, join_logs};
use pattern_uses::{device_lines, line_tallies, sorted_logs};
use std::collections::VecDeque;
use std::io::Cursor;
use std::test::Fail;

// The number of the bytes that were written to a device. The room has them at its front.
fn written(device: &Device<VecDeque<u8>>, room: &mut [u8; 64]) -> usize {
    let mut count = 0;
    for byte in device.inner().iter() {
        if count < 64 {
            room[count] = *byte;
            count += 1;
        }
    }
    count
}

fn front_stamps() -> FrontStamps {
    FrontStamps {
        form: named_form(FormName::Syslog),
        assumed: Assumed {
            offset: Some(UtcOffset::UTC),
            year: Some(2_023),
            month: 0,
        },
    }
}

#[test]
fn lines_are_written_and_read(rt: HostRuntime) -> Result<(), Fail> {
    let mut device = Device::new(VecDeque::new(rt.alloc()));
    let mut pending = Pending::new(0);
    is(
        &rt,
        device_lines::send_line(&mut device, &mut pending, b"a"),
        Ok(()),
    );
    is(&rt, flush(&mut device, &mut pending), Ok(()));
    is(
        &rt,
        device_lines::write_both(&mut device, b"b", b"c"),
        Ok(()),
    );
    let mut room = [0; 64];
    let count = written(&device, &mut room);
    is(&rt, &room[..count], b"a\nb\nc\n".as_slice());
    let mut source = Device::new(Cursor::new(b"d\ne"));
    is(
        &rt,
        device_lines::read_bytes(&mut source, &mut room),
        Some(3),
    );
    is(&rt, device_lines::first_line(&room[..3]), b"d".as_slice());
    is(&rt, device_lines::first_line(b"e"), b"e".as_slice());
    Ok(())
}

#[test]
fn lines_are_counted(rt: HostRuntime) {
    let none = line_tallies::no_lines();
    let one = line_tallies::with_next(none, 0, b"Dec 31 23:59:59 a", true);
    let two = line_tallies::with_next(one, 1, b"b", false);
    is(&rt, (two.texts, two.first), (2, Some(2)));
    is(&rt, line_tallies::count_refused(&two), 1);
    is(&rt, line_tallies::due_report(&two), Some(1));
    is(&rt, line_tallies::due_report(&one), None);
}

#[test]
fn logs_are_sorted(rt: HostRuntime) -> Result<(), Fail> {
    let (first, second) = (b"Dec 31 23:59:59 a\n", b"Dec 31 23:59:58 b\n c\n");
    let both = join_logs(first, second, rt.alloc())?;
    is(&rt, both.len(), 39);
    let mut device = Device::new(VecDeque::new(rt.alloc()));
    let stamps = front_stamps();
    let sorted = sorted_logs::sort_both(&stamps, first, second, &mut device, rt.alloc());
    match sorted {
        Ok(sorted) => is(&rt, sorted.lateness.count, 2),
        Err(_) => is(&rt, "no lines", "3 lines"),
    }
    let mut room = [0; 64];
    let count = written(&device, &mut room);
    let wanted = b"Dec 31 23:59:58 b\n c\nDec 31 23:59:59 a\n".as_slice();
    is(&rt, &room[..count], wanted);
    let log = both.as_slice();
    let late = sorted_logs::late_lines(&stamps, 1_000_000_000, log, &mut device, rt.alloc());
    is(&rt, late, Some(0));
    let tally = sorted_logs::tally_of_sorted(&stamps, log, (), &mut device, rt.alloc());
    is(
        &rt,
        tally.map(|tally| (tally.texts, tally.continued)),
        Some((2, 1)),
    );
    is(
        &rt,
        (Source::failed(&device), Sink::failed(&device)),
        (false, false),
    );
    Ok(())
}
