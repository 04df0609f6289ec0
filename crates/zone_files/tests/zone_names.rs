//! Names of zones.
use super::is;
use zone_files::is_zone_name;

#[test]
fn names_of_zones(rt: HostRuntime) {
    for name in [
        "UTC",
        "Etc/GMT+12",
        "America/Port-au-Prince",
        "America/Argentina/ComodRivadavia",
        "posix_zones/v1.0",
        "a.b./c..",
    ] {
        is(&rt, (name, is_zone_name(name.as_bytes())), (name, true));
    }
}

#[test]
fn texts_that_are_no_names(rt: HostRuntime) {
    for name in [
        "",
        "/",
        "/etc/localtime",
        "..",
        "../UTC",
        "Europe/../UTC",
        "Europe//Berlin",
        "Europe/",
        ".hidden",
        "U TC",
        "CET-1CEST,M3.5.0,M10.5.0/3",
        "UTC\0",
        "Münster",
    ] {
        is(&rt, (name, is_zone_name(name.as_bytes())), (name, false));
    }
}
