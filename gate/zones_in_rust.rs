//! Judges the files of zones that it reads, as zones_program.txt does, by the Rust package: a line for each, 0 if it is refused, the
//! number of the part at fault, and the byte or the index of the transition; and else 1 and how many questions it had. If some have
//! another answer, their number and the first of them follow.

use std::alloc::{GlobalAlloc, Layout, System};
use std::io::Read;
use std::sync::atomic::{AtomicUsize, Ordering::Relaxed};

use muxandu::zones::{FilePart, LocalTimes, RuleFault, Transition, Zone, ZoneRefusal};
use muxandu::{Date, OffsetDateTime, Timestamp, UtcDateTime};

/// Memory of the system, which counts the bytes that are taken.
struct Counted;

/// The bytes that are taken now, and the most since the last count began.
static TAKEN: AtomicUsize = AtomicUsize::new(0);
static MOST: AtomicUsize = AtomicUsize::new(0);

unsafe impl GlobalAlloc for Counted {
    unsafe fn alloc(&self, layout: Layout) -> *mut u8 {
        MOST.fetch_max(TAKEN.fetch_add(layout.size(), Relaxed) + layout.size(), Relaxed);
        unsafe { System.alloc(layout) }
    }

    unsafe fn dealloc(&self, place: *mut u8, layout: Layout) {
        TAKEN.fetch_sub(layout.size(), Relaxed);
        unsafe { System.dealloc(place, layout) }
    }
}

#[global_allocator]
static MEMORY: Counted = Counted;

/// The zone of a file, or why it is none, and the most bytes that were taken to read it.
fn read(bytes: &[u8]) -> (Result<Zone, ZoneRefusal>, usize) {
    let before = TAKEN.load(Relaxed);
    MOST.store(before, Relaxed);
    let zone = Zone::from_tzif(bytes);
    (zone, MOST.load(Relaxed) - before)
}

/// The number of a part, in the order of gate/zone_faults.py.
fn number_of(part: FilePart) -> usize {
    match part {
        FilePart::Length => 0,
        FilePart::Magic => 1,
        FilePart::Version => 2,
        FilePart::Count => 3,
        FilePart::Offset => 4,
        FilePart::Daylight => 5,
        FilePart::Designation => 6,
        FilePart::Names => 7,
        FilePart::Index => 8,
        FilePart::Footer => 9,
        FilePart::Rule(RuleFault::Name) => 10,
        FilePart::Rule(RuleFault::Digit) => 11,
        FilePart::Rule(RuleFault::Range) => 12,
        FilePart::Rule(RuleFault::Byte) => 13,
        FilePart::LeapSeconds => 16,
    }
}

/// The number and the place of what is refused.
fn fault_of(refused: ZoneRefusal) -> (usize, usize) {
    match refused {
        ZoneRefusal::File { part, byte } => (number_of(part), byte),
        ZoneRefusal::Transition { index } => (14, index),
        ZoneRefusal::Overlap => (15, 0),
        ZoneRefusal::Abbreviation => (17, 0),
        _ => panic!("{refused}"),
    }
}

/// The bytes that are still to come.
struct Input<'a>(&'a [u8]);

impl<'a> Input<'a> {
    fn piece(&mut self, count: usize) -> &'a [u8] {
        let (piece, rest) = self.0.split_at(count);
        self.0 = rest;
        piece
    }

    fn word(&mut self) -> usize {
        u32::from_be_bytes(self.piece(4).try_into().unwrap()) as usize
    }

    fn question(&mut self) -> [i64; 6] {
        std::array::from_fn(|_| i64::from_be_bytes(self.piece(8).try_into().unwrap()))
    }
}

/// A number of an abbreviation, by its bytes.
fn code(name: &str) -> i64 {
    name.bytes().fold(0, |code, byte| (code * 257 + i64::from(byte)) % 2_147_483_647)
}

fn second_of(at: Option<OffsetDateTime>) -> i64 {
    at.map_or(i64::MIN, OffsetDateTime::unix_timestamp)
}

fn at_of(found: Option<Transition<'_>>) -> i64 {
    found.map_or(0, |transition| transition.at.as_seconds())
}

/// Whether the answer to a question is that of the zone.
fn is_answer(zone: &Zone, [kind, at, first, second, third, fourth]: [i64; 6]) -> bool {
    match kind {
        0 | 5 => {
            let instant = Timestamp::from_seconds(at).unwrap();
            let shown = zone.local_type_at(instant);
            i64::from(shown.offset.whole_seconds()) == first
                && zone.offset_at(instant) == shown.offset
                && instant.to_zone(zone).offset() == shown.offset
                && (kind == 5 || shown.is_daylight == (second == 1))
                && code(shown.abbreviation) == third
        }
        1 => {
            let wall = UtcDateTime::from_unix_timestamp(at).unwrap().as_plain();
            let shown = match wall.at_zone(zone) {
                LocalTimes::Single(at) => (1, Some(at), Some(at), at.unix_timestamp()),
                LocalTimes::Gap(gap, earlier, later) => (0, earlier, later, gap.second),
                LocalTimes::Fold(earlier, later) => (2, Some(earlier), Some(later), earlier.unix_timestamp()),
            };
            (shown.0, second_of(shown.1), second_of(shown.2), shown.3) == (first, second, third, fourth)
        }
        2 => at_of(zone.next_transition(Timestamp::from_seconds(at).unwrap())) == first,
        3 => at_of(zone.previous_transition(Timestamp::from_seconds(at).unwrap())) == first,
        _ => {
            let day = Date::from_days_since_epoch(at as i32).unwrap();
            let length = day.length_of_day_in_zone(zone).whole_seconds();
            (second_of(day.start_of_day_in_zone(zone)), length) == (first, second)
        }
    }
}

fn judge(input: &mut Input<'_>) {
    let length = input.word();
    let (zone, taken) = read(input.piece(length));
    assert!(taken <= 65_536 + 1_000 * length, "a file of {length} bytes took {taken}");
    let asked = input.word();
    let questions: Vec<_> = (0..asked).map(|_| input.question()).collect();
    let zone = match zone {
        Ok(zone) => zone,
        Err(refused) => {
            let (part, place) = fault_of(refused);
            println!("0 {part} {place}");
            return;
        }
    };
    let wrong: Vec<_> = questions.into_iter().filter(|&question| !is_answer(&zone, question)).collect();
    match wrong.first() {
        None => println!("1 {asked}"),
        Some(first) => println!("1 {asked} {} {} {}", wrong.len(), first[0], first[1]),
    }
}

fn main() {
    let mut bytes = Vec::new();
    std::io::stdin().read_to_end(&mut bytes).unwrap();
    let mut input = Input(&bytes);
    while !input.0.is_empty() {
        judge(&mut input);
    }
}
