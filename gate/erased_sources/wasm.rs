//! Calls of the Rust package as a module of WebAssembly, for Node.

#![no_std]

use muxandu::proved::{OffsetDateTime, Timestamp, parse_rfc3339};

static mut OUT: [u8; 64] = [0; 64];

#[panic_handler]
fn panic(_: &core::panic::PanicInfo) -> ! {
    core::arch::wasm32::unreachable()
}

/// No call that is made here allocates.
struct Never;

unsafe impl core::alloc::GlobalAlloc for Never {
    unsafe fn alloc(&self, _: core::alloc::Layout) -> *mut u8 {
        core::ptr::null_mut()
    }
    unsafe fn dealloc(&self, _: *mut u8, _: core::alloc::Layout) {}
}

#[global_allocator]
static ALLOCATOR: Never = Never;

/// Where texts are written.
#[unsafe(no_mangle)]
pub extern "C" fn out() -> usize {
    &raw const OUT as usize
}

fn put_bytes(bytes: &[u8]) -> u32 {
    unsafe { (&mut *(&raw mut OUT))[..bytes.len()].copy_from_slice(bytes) };
    bytes.len() as u32
}

/// What the program answers to a line `unix`: the number of bytes.
#[unsafe(no_mangle)]
pub extern "C" fn unix(second: i64) -> u32 {
    match Timestamp::from_seconds(second) {
        Ok(at) => put_bytes(at.to_utc().text().as_bytes()),
        Err(_) => put_bytes(b"refused timestamp"),
    }
}

/// Whether the text of RFC 3339 of an instant is read back as that instant: 1, or 0; 2 where there is no such text.
#[unsafe(no_mangle)]
pub extern "C" fn exchange(second: i64, nanosecond: u32) -> u32 {
    use muxandu::proved::Rfc3339;
    let Ok(at) = Timestamp::new(second, nanosecond) else {
        return 0;
    };
    let Some(text) = at.to_rfc3339() else {
        return 2;
    };
    let back = parse_rfc3339(text.as_bytes()).map(|back: OffsetDateTime| back.unix_timestamp_nanos());
    u32::from(back == Ok(at.to_utc().unix_timestamp_nanos()))
}
