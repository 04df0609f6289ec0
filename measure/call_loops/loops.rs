// The loops that two crates have alike, but for the names of their types and calls.

/// Loops over `at_second`, which gives a date-time in UTC, and `at_offset`, which gives one at an offset.
macro_rules! loops {
    ($utc:ty, $local:ty, $timestamp:ident, $add:ident, $sub:ident) => {
        fn values_of(seconds: &[i64], offsets: &[i32], with_fraction: bool) -> Vec<$local> {
            let fraction = |second| {
                if with_fraction { nanosecond_after(second) } else { 0 }
            };
            seconds.iter().zip(offsets).map(|(second, offset)| at_offset(*second, fraction(*second), *offset)).collect()
        }

        #[inline(never)]
        pub fn seconds_again(seconds: &[i64], _offsets: &[i32], rounds: u32, _out: &mut [u8]) -> u64 {
            let mut sum = 0_u64;
            for _ in 0..rounds {
                for second in seconds {
                    if let Some(at) = at_second(*second) {
                        sum = sum.wrapping_add(at.$timestamp().unsigned_abs());
                    }
                }
            }
            sum
        }

        #[inline(never)]
        pub fn sums(seconds: &[i64], offsets: &[i32], rounds: u32, _out: &mut [u8]) -> u64 {
            let mut held: Vec<$utc> = seconds.iter().map(|second| at_second(*second).unwrap()).collect();
            let durations: Vec<Duration> = offsets.iter().map(|offset| Duration::seconds(delta(*offset))).collect();
            for round in 0..rounds {
                for (at, duration) in held.iter_mut().zip(&durations) {
                    let moved = if round % 2 == 0 { at.$add(*duration) } else { at.$sub(*duration) };
                    if let Some(moved) = moved {
                        *at = moved;
                    }
                }
            }
            held.iter().fold(0, |sum, at| sum.wrapping_add(at.$timestamp().unsigned_abs()))
        }

        #[inline(never)]
        pub fn texts(seconds: &[i64], _offsets: &[i32], rounds: u32, out: &mut [u8]) -> u64 {
            let mut sum = 0_u64;
            let mut text = String::with_capacity(64);
            for _ in 0..rounds {
                for second in seconds {
                    if let Some(at) = at_second(*second) {
                        text.clear();
                        write!(text, "{at}").unwrap();
                        out[..text.len()].copy_from_slice(text.as_bytes());
                        sum = sum.wrapping_add(text.len() as u64);
                    }
                }
            }
            sum
        }

        #[inline(never)]
        pub fn compare(seconds: &[i64], offsets: &[i32], rounds: u32, _out: &mut [u8]) -> u64 {
            let held = values_of(seconds, offsets, false);
            let mut sum = 0_u64;
            for _ in 0..rounds {
                for (first, second) in held.iter().zip(held.iter().skip(1)) {
                    sum = sum.wrapping_add(u64::from(first < second));
                }
            }
            sum
        }

        #[inline(never)]
        pub fn sorted(seconds: &[i64], offsets: &[i32], rounds: u32, _out: &mut [u8]) -> u64 {
            let held = values_of(seconds, offsets, false);
            let mut sum = 0_u64;
            for _ in 0..rounds {
                let mut sorted = held.clone();
                sorted.sort_unstable();
                for (place, at) in sorted.iter().enumerate().step_by(9_973) {
                    sum = sum.wrapping_add((place as u64).wrapping_mul(at.$timestamp().unsigned_abs()));
                }
            }
            sum
        }
    };
}
pub(crate) use loops;
