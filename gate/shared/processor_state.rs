// Prints how many additions that do not wait for one another the processor makes in a cycle: at its full speed four or
// more, and about half of that while another thread shares its core. measure/speed builds it with `rustc -O` and runs it
// beside what it measures.
use std::arch::asm;

const TURNS: u64 = 100_000;
const SEGMENTS: usize = 9;

// What a turn of either loop has, and the cycles that a multiplication waits for the one before it.
const ADDITIONS: f64 = 36.0;
const MULTIPLICATIONS: f64 = 12.0;
const CYCLES_WAITED: f64 = 3.0;

const PROCESSOR_TIME_OF_THREAD: i32 = 3;

unsafe extern "C" {
    fn clock_gettime(clock: i32, time: *mut [i64; 2]) -> i32;
}

// The nanoseconds of processor time so far.
fn now() -> i64 {
    let mut time = [0; 2];
    unsafe { clock_gettime(PROCESSOR_TIME_OF_THREAD, &mut time) };
    time[0] * 1_000_000_000 + time[1]
}

fn add() {
    unsafe {
        asm!(
            "2:",
            ".rept 6",
            "add {a}, 1", "add {b}, 1", "add {c}, 1", "add {d}, 1", "add {e}, 1", "add {f}, 1",
            ".endr",
            "dec {turns}",
            "jnz 2b",
            turns = inout(reg) TURNS => _,
            a = inout(reg) 0_u64 => _, b = inout(reg) 0_u64 => _, c = inout(reg) 0_u64 => _,
            d = inout(reg) 0_u64 => _, e = inout(reg) 0_u64 => _, f = inout(reg) 0_u64 => _,
            options(nomem, nostack),
        );
    }
}

fn multiply() {
    unsafe {
        asm!(
            "2:", ".rept 12", "imul {a}, {a}", ".endr", "dec {turns}", "jnz 2b",
            turns = inout(reg) TURNS => _, a = inout(reg) 3_u64 => _,
            options(nomem, nostack),
        );
    }
}

fn main() {
    let mut found: Vec<f64> = (0..SEGMENTS)
        .map(|_| {
            let start = now();
            multiply();
            let middle = now();
            add();
            let cycle = (middle - start) as f64 / (MULTIPLICATIONS * CYCLES_WAITED);
            ADDITIONS * cycle / (now() - middle) as f64
        })
        .collect();
    found.sort_by(f64::total_cmp);
    println!("{:.2}", found[SEGMENTS / 2]);
}
