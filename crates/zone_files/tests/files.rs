//! Files of time zones: their offsets and abbreviations are those of Python's `zoneinfo`.
use super::is;
use std::process::Abort;
use std::test::Fail;
use zone_files::{FilePart, RuleFault, ZoneFile};
use zones::{TimeType, Transition, Zone, ZoneError};

// The file `Asia/Tokyo` of tzdata 2025b, as Debian has it.
static TOKYO: [u8; 309] = [
    84, 90, 105, 102, 50, 0, 0, 0, 0, 0, 0, 0, 0, 0, 0, 0, 0, 0, 0, 0, 0, 0, 0, 4, 0, 0, 0, 4, 0,
    0, 0, 0, 0, 0, 0, 9, 0, 0, 0, 4, 0, 0, 0, 12, 128, 0, 0, 0, 215, 62, 2, 112, 215, 237, 89, 240,
    216, 248, 250, 112, 217, 205, 59, 240, 219, 7, 0, 240, 219, 173, 29, 240, 220, 230, 226, 240,
    221, 140, 255, 240, 3, 1, 2, 1, 2, 1, 2, 1, 2, 0, 0, 131, 3, 0, 0, 0, 0, 140, 160, 1, 4, 0, 0,
    126, 144, 0, 8, 0, 0, 126, 144, 0, 8, 76, 77, 84, 0, 74, 68, 84, 0, 74, 83, 84, 0, 0, 0, 0, 1,
    0, 0, 0, 1, 84, 90, 105, 102, 50, 0, 0, 0, 0, 0, 0, 0, 0, 0, 0, 0, 0, 0, 0, 0, 0, 0, 0, 4, 0,
    0, 0, 4, 0, 0, 0, 0, 0, 0, 0, 9, 0, 0, 0, 4, 0, 0, 0, 12, 255, 255, 255, 255, 101, 194, 164,
    112, 255, 255, 255, 255, 215, 62, 2, 112, 255, 255, 255, 255, 215, 237, 89, 240, 255, 255, 255,
    255, 216, 248, 250, 112, 255, 255, 255, 255, 217, 205, 59, 240, 255, 255, 255, 255, 219, 7, 0,
    240, 255, 255, 255, 255, 219, 173, 29, 240, 255, 255, 255, 255, 220, 230, 226, 240, 255, 255,
    255, 255, 221, 140, 255, 240, 3, 1, 2, 1, 2, 1, 2, 1, 2, 0, 0, 131, 3, 0, 0, 0, 0, 140, 160, 1,
    4, 0, 0, 126, 144, 0, 8, 0, 0, 126, 144, 0, 8, 76, 77, 84, 0, 74, 68, 84, 0, 74, 83, 84, 0, 0,
    0, 0, 1, 0, 0, 0, 1, 10, 74, 83, 84, 45, 57, 10,
];

// A file of version 3 with no transitions and the rule of Berlin.
static RULE: [u8; 136] = [
    84, 90, 105, 102, 51, 0, 0, 0, 0, 0, 0, 0, 0, 0, 0, 0, 0, 0, 0, 0, 0, 0, 0, 0, 0, 0, 0, 0, 0,
    0, 0, 0, 0, 0, 0, 0, 0, 0, 0, 1, 0, 0, 0, 4, 0, 0, 14, 16, 0, 0, 67, 69, 84, 0, 84, 90, 105,
    102, 51, 0, 0, 0, 0, 0, 0, 0, 0, 0, 0, 0, 0, 0, 0, 0, 0, 0, 0, 0, 0, 0, 0, 0, 0, 0, 0, 0, 0, 0,
    0, 0, 0, 0, 0, 1, 0, 0, 0, 4, 0, 0, 14, 16, 0, 0, 67, 69, 84, 0, 10, 67, 69, 84, 45, 49, 67,
    69, 83, 84, 44, 77, 51, 46, 53, 46, 48, 44, 77, 49, 48, 46, 53, 46, 48, 47, 51, 10,
];

// The place of the second header of the file of Tokyo, and of its block.
const SECOND: usize = 133;

const BLOCK: usize = SECOND + 44;

const BLANK: TimeType = TimeType {
    offset: 0,
    is_daylight: false,
    designation: 0,
};

const BLANK_ROW: Transition = Transition {
    second: 0,
    before: BLANK,
    after: BLANK,
};

// Ends the test unless the clocks show this offset, flag and abbreviation at the second.
fn shows(
    rt: &impl Abort,
    file: &ZoneFile<'_>,
    zone: &Zone<'_>,
    second: i64,
    wanted: (i32, bool, &str),
) {
    let shown = file.abbreviation_at(zone, second);
    is(rt, (shown.offset, shown.is_daylight), (wanted.0, wanted.1));
    is(rt, shown.abbreviation == wanted.2.as_bytes(), true);
    let name = file.abbreviation(zone.type_at(second).designation);
    is(rt, name == wanted.2.as_bytes(), true);
}

#[test]
fn transitions_of_tokyo(rt: HostRuntime) -> Result<(), Fail> {
    let file = ZoneFile::read(&TOKYO)?;
    is(&rt, file.transitions(), 9);
    let mut rows = [BLANK_ROW; 9];
    match file.write_rows(&mut rows) {
        Ok(()) => {}
        Err(_) => return Err(Fail::from("a row is out of range")),
    }
    let Ok(zone) = file.zone(&rows) else {
        return Err(Fail::from("no zone"));
    };
    shows(&rt, &file, &zone, -2_587_712_401, (33_539, false, "LMT"));
    shows(&rt, &file, &zone, -2_587_712_400, (32_400, false, "JST"));
    shows(&rt, &file, &zone, -683_802_001, (32_400, false, "JST"));
    shows(&rt, &file, &zone, -683_802_000, (36_000, true, "JDT"));
    shows(&rt, &file, &zone, -577_962_000, (32_400, false, "JST"));
    shows(&rt, &file, &zone, 1_700_000_000, (32_400, false, "JST"));
    Ok(())
}

#[test]
fn rules_of_files(rt: HostRuntime) -> Result<(), Fail> {
    let file = ZoneFile::read(&RULE)?;
    is(&rt, file.transitions(), 0);
    is(&rt, file.rule().map(|rule| rule.offset), Some(3_600));
    let Ok(zone) = file.zone(&[]) else {
        return Err(Fail::from("no zone"));
    };
    shows(&rt, &file, &zone, 4_109_878_799, (3_600, false, "CET"));
    shows(&rt, &file, &zone, 4_109_878_800, (7_200, true, "CEST"));
    Ok(())
}

#[test]
fn zones_that_keep_their_transitions(rt: HostRuntime) -> Result<(), Fail> {
    let alloc = rt.alloc();
    let file = ZoneFile::read(&TOKYO)?;
    let Ok(owned) = file.owned_zone(alloc)? else {
        return Err(Fail::from("no zone"));
    };
    let zone = owned.zone();
    shows(&rt, &file, &zone, -2_587_712_401, (33_539, false, "LMT"));
    shows(&rt, &file, &zone, -683_802_000, (36_000, true, "JDT"));
    shows(&rt, &file, &zone, -577_962_000, (32_400, false, "JST"));
    let mut late = TOKYO;
    late[BLOCK] = 1;
    let refused = match ZoneFile::read(&late)?.owned_zone(alloc)? {
        Ok(_) => None,
        Err(fault) => Some(fault),
    };
    is(&rt, refused, Some(ZoneError::Row(0)));
    Ok(())
}

#[test]
fn first_versions(rt: HostRuntime) -> Result<(), Fail> {
    let mut bytes = TOKYO;
    bytes[4] = 0;
    let file = ZoneFile::read(&bytes)?;
    is(&rt, file.transitions(), 9);
    is(&rt, file.rule().is_none(), true);
    let mut rows = [BLANK_ROW; 9];
    match file.write_rows(&mut rows) {
        Ok(()) => {}
        Err(_) => return Err(Fail::from("a row is out of range")),
    }
    // A second of four bytes is at least -2147483648.
    is(&rt, rows[0].second, -2_147_483_648);
    is(&rt, rows[1].second, -683_802_000);
    Ok(())
}

#[test]
fn cut_files(rt: HostRuntime) {
    for length in [0, 43, 44, 124, 130, 168, 200, 302, 308] {
        match ZoneFile::read(&TOKYO[..length]) {
            Ok(_) => is(&rt, length, 309),
            Err(refusal) => is(
                &rt,
                (refusal.part, refusal.place),
                (FilePart::Length, length),
            ),
        }
    }
}

// Ends the test unless the file of Tokyo with this byte at this place is refused for this part.
fn refuses(rt: &impl Abort, place: usize, byte: u8, part: FilePart, at: usize) {
    let mut bytes = TOKYO;
    bytes[place] = byte;
    match ZoneFile::read(&bytes) {
        Ok(_) => is(rt, place, 309),
        Err(refusal) => is(rt, (refusal.part, refusal.place), (part, at)),
    }
}

#[test]
fn changed_bytes(rt: HostRuntime) {
    refuses(&rt, 0, b'U', FilePart::Magic, 0);
    refuses(&rt, 4, b'5', FilePart::Version, 4);
    refuses(&rt, 31, 27, FilePart::LeapSeconds, 28);
    refuses(&rt, SECOND, b'U', FilePart::Magic, SECOND);
    refuses(&rt, SECOND + 4, b'3', FilePart::Version, SECOND + 4);
    refuses(&rt, SECOND + 28, 1, FilePart::LeapSeconds, SECOND + 28);
    // A transition to a kind that the file has not, in the indexes after nine seconds.
    refuses(&rt, BLOCK + 72, 4, FilePart::Index, BLOCK + 72);
    // The kinds of local time after the indexes: offset, flag and abbreviation.
    refuses(&rt, BLOCK + 81, 1, FilePart::Offset, BLOCK + 81);
    refuses(&rt, BLOCK + 85, 2, FilePart::Daylight, BLOCK + 85);
    refuses(&rt, BLOCK + 86, 12, FilePart::Designation, BLOCK + 86);
    refuses(&rt, BLOCK + 116, b'T', FilePart::Names, BLOCK + 116);
    // The rule after the marks.
    refuses(&rt, 302, b' ', FilePart::Footer, 302);
    refuses(&rt, 303, b'1', FilePart::Rule(RuleFault::Name), 303);
    refuses(&rt, 306, b' ', FilePart::Rule(RuleFault::Digit), 306);
}

// The error of a file of which the bytes are one zone no more.
fn fault_of(bytes: &[u8]) -> Option<ZoneError> {
    let Ok(file) = ZoneFile::read(bytes) else {
        return None;
    };
    let mut rows = [BLANK_ROW; 9];
    if file.transitions() != 9 {
        return None;
    }
    match file.write_rows(&mut rows) {
        Err(fault) => Some(fault),
        Ok(()) => file.zone(&rows).err(),
    }
}

#[test]
fn changed_transitions(rt: HostRuntime) {
    // The second of the third transition is far before the others.
    let mut bytes = TOKYO;
    bytes[BLOCK + 16] = 128;
    is(&rt, fault_of(&bytes), Some(ZoneError::Row(2)));
    // It comes before the second one.
    let mut bytes = TOKYO;
    bytes[BLOCK + 20] = 214;
    is(&rt, fault_of(&bytes), Some(ZoneError::Row(2)));
    // The rule does not follow the last transition.
    let mut bytes = TOKYO;
    bytes[307] = b'8';
    is(&rt, fault_of(&bytes), Some(ZoneError::Rule));
    is(&rt, fault_of(&TOKYO), None);
}
