//! Zones found by names and by the variables of the machine, each in a process of its own.
#![cfg(all(unix, feature = "std"))]

use std::fs;
use std::os::unix::fs::symlink;
use std::path::{Path, PathBuf};
use std::process::Command;

use muxandu::macros::datetime;
use muxandu::zones::{FilePart, Zone, ZoneRefusal, ZoneSource, data_version};

/// A header and a block without transitions.
const BLOCK: &[u8] = b"TZif3\0\0\0\0\0\0\0\0\0\0\0\0\0\0\0\
    \0\0\0\0\0\0\0\0\0\0\0\0\0\0\0\0\0\0\0\x01\0\0\0\x04\0\0\0\0\0\0UTC\0";

/// The file of a zone with this rule.
fn file(rule: &str) -> Vec<u8> {
    [BLOCK, BLOCK, b"\n", rule.as_bytes(), b"\n"].concat()
}

/// A folder of zones of its own, for a test of this name.
fn folder(name: &str) -> PathBuf {
    let folder = Path::new(env!("CARGO_TARGET_TMPDIR")).join(name);
    let _ = fs::remove_dir_all(&folder);
    fs::create_dir_all(folder.join("Made")).unwrap();
    fs::write(folder.join("Made/Up"), file("AAA-2")).unwrap();
    fs::write(folder.join("EST5EDT"), file("BBB3")).unwrap();
    fs::write(folder.join("Broken"), b"no zone").unwrap();
    fs::write(folder.join("Long"), vec![b'T'; (1 << 20) + 1]).unwrap();
    fs::write(folder.join("+VERSION"), "2099z\n").unwrap();
    symlink("Made/Up", folder.join("Alias")).unwrap();
    symlink("/dev/zero", folder.join("Endless")).unwrap();
    folder
}

/// What a test that is ignored prints between brackets, with these variables alone.
fn told(test: &str, variables: &[(&str, &Path)]) -> String {
    let mut run = Command::new(std::env::current_exe().unwrap());
    run.args(["--exact", test, "--ignored", "--nocapture"]).env_remove("TZ").env_remove("TZDIR");
    let output = run.envs(variables.iter().copied()).output().unwrap();
    let text = String::from_utf8(output.stdout).unwrap();
    let begin = text.find('[').expect(&text) + 1;
    text[begin..begin + text[begin..].find(']').expect(&text)].into()
}

#[test]
#[ignore = "another test runs it with variables of its own"]
fn tell_local() {
    match Zone::local() {
        Ok(zone) => {
            let at = datetime!(2024-07-01 12:00 UTC);
            println!("[{:?} {} {}]", zone.name(), zone.offset_at(at), zone.abbreviation_at(at));
        }
        Err(refused) => println!("[{refused:?}]"),
    }
}

#[test]
#[ignore = "another test runs it with variables of its own"]
fn tell_names() {
    for name in [
        "Made/Up",
        "Alias",
        "Made",
        "Nowhere",
        "Endless",
        "Long",
        "Broken",
        "Made/Up/",
        "../x",
        "/etc/localtime",
    ] {
        match Zone::named(name) {
            Ok(zone) => println!("{:?}", zone.name()),
            Err(refused) => println!("{refused:?}"),
        }
    }
    println!("[{:?}]", data_version());
}

#[test]
#[ignore = "another test runs it with variables of its own"]
fn tell_given() {
    let given = file("CCC-3");
    let tell = |name: &str, has: bool| match Zone::named_or(name, |_| has.then_some(&given[..])) {
        Ok((zone, source)) => {
            let at = datetime!(2024-07-01 12:00 UTC);
            assert_eq!(zone.name(), Some(name));
            format!("{} {}", zone.abbreviation_at(at), source == ZoneSource::Given)
        }
        Err(refused) => format!("{refused:?}"),
    };
    let told = [tell("EST5EDT", true), tell("Nowhere", true), tell("Nowhere", false)];
    println!("[{}; {}; {}]", told.join(", "), tell("../x", true), tell("Long", true));
}

#[test]
fn a_given_file_is_read_where_the_machine_has_none() {
    let folder = folder("given");
    let text = told("tell_given", &[("TZDIR", &folder)]);
    assert_eq!(text, "BBB false, CCC true, Unknown; Name; TooLong");
}

#[test]
fn names_lead_out_of_no_folder() {
    for name in [
        "",
        "/",
        "/etc/localtime",
        "../zoneinfo/UTC",
        "Europe/../UTC",
        "Europe//Berlin",
        "./UTC",
        "UTC/",
        "UTC\0",
        "U TC",
        "Ünited",
    ] {
        assert_eq!(Zone::named(name).unwrap_err(), ZoneRefusal::Name, "{name:?}");
    }
}

#[test]
fn zones_of_a_folder_are_found_by_name() {
    let folder = folder("names");
    let output = Command::new(std::env::current_exe().unwrap())
        .args(["--exact", "tell_names", "--ignored", "--nocapture"])
        .env("TZDIR", &folder)
        .output()
        .unwrap();
    let text = String::from_utf8(output.stdout).unwrap();
    let broken = ZoneRefusal::File { part: FilePart::Length, byte: 7 };
    let wanted = [
        r#"Some("Made/Up")"#.into(),
        r#"Some("Alias")"#.into(),
        "Unknown".into(),
        "Unknown".into(),
        "Unknown".into(),
        "TooLong".into(),
        format!("{broken:?}"),
        "Name".into(),
        "Name".into(),
        "Name".into(),
        r#"[Some("2099z")]"#.to_string(),
    ];
    assert!(text.contains(&wanted.join("\n")), "{text}");
}

#[test]
fn the_zone_of_the_machine_is_that_of_its_variables() {
    let folder = folder("variables");
    for (tz, wanted) in [
        ("Made/Up", r#"Some("Made/Up") +02:00:00 AAA"#),
        (":Made/Up", r#"Some("Made/Up") +02:00:00 AAA"#),
        ("EST5EDT", r#"Some("EST5EDT") -03:00:00 BBB"#),
        ("", r#"Some("UTC") +00:00:00 UTC"#),
        ("CCC-4DDD,M3.5.0,M10.5.0", "None +05:00:00 DDD"),
        ("CCC-4", "None +04:00:00 CCC"),
        (":CCC-4", "Unknown"),
        ("Nowhere/Here", "Unknown"),
        ("Broken", "File { part: Length, byte: 7 }"),
        ("../zoneinfo/UTC", "Rule { fault: Name, byte: 0 }"),
        (":/etc/localtime", "Name"),
        ("CCC-25,", "Rule { fault: Range, byte: 4 }"),
    ] {
        assert_eq!(
            told("tell_local", &[("TZ", Path::new(tz)), ("TZDIR", &folder)]),
            wanted,
            "TZ={tz}"
        );
    }
}

#[test]
fn the_zone_of_the_machine_is_else_that_of_its_file() {
    let found = told("tell_local", &[]);
    let link = fs::read_link("/etc/localtime").ok();
    let name = link.as_deref().and_then(|it| it.strip_prefix("/usr/share/zoneinfo").ok());
    if let Some(name) = name {
        assert!(found.starts_with(&format!("Some({name:?}) ")), "{found}");
    }
}

#[test]
fn the_version_of_the_data_is_told() {
    if let Ok(text) = fs::read_to_string("/usr/share/zoneinfo/tzdata.zi") {
        let version = data_version().unwrap();
        assert!(text.starts_with(&format!("# version {version}\n")), "{version}");
    }
}
