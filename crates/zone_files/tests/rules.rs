//! Texts of rules: the offsets and times are those of RFC 9636 and of POSIX, chapter 8.
use super::is;
use calendar_values::Month;
use std::process::Abort;
use std::test::Fail;
use zone_files::{RuleFault, parse_rule, rule_text, rule_zone};
use zones::RuleDay;

// Ends the test unless the text has these offsets, times and names.
fn reads(
    rt: &impl Abort,
    text: &str,
    names: (&str, &str),
    offsets: (i32, i32),
    times: (i32, i32),
) -> Result<(), Fail> {
    let rule = parse_rule(text.as_bytes())?;
    is(rt, rule.name == names.0.as_bytes(), true);
    is(rt, rule.offset, offsets.0);
    let Some(daylight) = rule.daylight else {
        is(rt, names.1, "");
        return Ok(());
    };
    is(rt, daylight.name == names.1.as_bytes(), true);
    is(rt, daylight.offset, offsets.1);
    is(rt, (daylight.from.time, daylight.until.time), times);
    Ok(())
}

#[test]
fn texts_of_rules(rt: HostRuntime) -> Result<(), Fail> {
    reads(&rt, "UTC0", ("UTC", ""), (0, 0), (0, 0))?;
    reads(&rt, "<+0330>-3:30", ("+0330", ""), (12_600, 0), (0, 0))?;
    let names = ("CET", "CEST");
    reads(
        &rt,
        "CET-1CEST,M3.5.0,M10.5.0/3",
        names,
        (3_600, 7_200),
        (7_200, 10_800),
    )?;
    // RFC 9636, 3.3.2: a rule of which a time is negative.
    let names = ("-03", "-02");
    let text = "<-03>3<-02>,M3.5.0/-2,M10.5.0/-1";
    reads(&rt, text, names, (-10_800, -7_200), (-7_200, -3_600))?;
    Ok(())
}

#[test]
fn offsets_and_times_at_their_ends(rt: HostRuntime) -> Result<(), Fail> {
    let text = "AAA+24:59:59BBB-24:59:59,J1/167:59:59,365/-167:59:59";
    let offsets = (-89_999, 89_999);
    reads(&rt, text, ("AAA", "BBB"), offsets, (604_799, -604_799))?;
    let text = "EST5EDT,0/0,J365/25";
    reads(&rt, text, ("EST", "EDT"), (-18_000, -14_400), (0, 90_000))
}

#[test]
fn days_of_rules(rt: HostRuntime) -> Result<(), Fail> {
    let rule = parse_rule(b"CET-1CEST,M3.5.0,J60")?;
    let Some(daylight) = rule.daylight else {
        is(&rt, 1, 2);
        return Ok(());
    };
    match (daylight.from.day, daylight.until.day) {
        (RuleDay::Weekday(month, week, weekday), RuleDay::Common(day)) => {
            is(&rt, month, Month::March);
            is(&rt, (week, weekday, day), (5, 0, 60));
        }
        _ => is(&rt, 1, 2),
    }
    Ok(())
}

// Ends the test unless the text has this fault at this place.
fn refuses(rt: &impl Abort, text: &str, fault: RuleFault, place: usize) {
    match parse_rule(text.as_bytes()) {
        Ok(_) => is(rt, text, ""),
        Err(refusal) => is(rt, (refusal.fault, refusal.place), (fault, place)),
    }
}

#[test]
fn texts_of_no_rule(rt: HostRuntime) {
    refuses(&rt, "", RuleFault::Name, 0);
    refuses(&rt, "CE-1", RuleFault::Name, 0);
    refuses(&rt, "<C>1", RuleFault::Name, 1);
    refuses(&rt, "<+0330-3", RuleFault::Byte, 8);
    refuses(&rt, "CET", RuleFault::Digit, 3);
    refuses(&rt, "CET-25", RuleFault::Range, 4);
    refuses(&rt, "CET-1:5", RuleFault::Range, 6);
    refuses(&rt, "CET-1CEST", RuleFault::Digit, 9);
    refuses(&rt, "CET-1CEST,M3.5.0", RuleFault::Byte, 16);
    refuses(&rt, "CET-1CEST,M13.5.0,M10.5.0", RuleFault::Range, 11);
    refuses(&rt, "CET-1CEST,M3.5.7,M10.5.0", RuleFault::Range, 15);
    refuses(&rt, "CET-1CEST,J0,M10.5.0", RuleFault::Range, 11);
    refuses(&rt, "CET-1CEST,366,M10.5.0", RuleFault::Range, 10);
    refuses(&rt, "CET-1CEST,M3.5.0/168,M10.5.0", RuleFault::Range, 17);
    refuses(&rt, "CET-1CEST,M3.5.0,M10.5.0/3 ", RuleFault::Byte, 26);
}

#[test]
fn texts_that_are_written(rt: HostRuntime) -> Result<(), Fail> {
    for (text, written) in [
        (
            "CET-01CEST-2,M3.5.0/2,M10.5.0/3",
            "CET-1CEST,M3.5.0,M10.5.0/3",
        ),
        (
            "<-03>3<-02>,M3.5.0/-2,M10.5.0/-1",
            "<-03>3<-02>,M3.5.0/-2,M10.5.0/-1",
        ),
        ("<EST>+05:00:00EDT,0/0,J365/25:00", "EST5EDT,0/0,J365/25"),
        ("IST-5:30", "IST-5:30"),
        (
            "AAA0:00:01BBB0,J60/100,059/-0:05",
            "AAA0:00:01BBB0,J60/100,59/-0:05",
        ),
    ] {
        let bytes = rule_text(rt.alloc(), parse_rule(text.as_bytes())?)?;
        is(&rt, bytes.as_slice() == written.as_bytes(), true);
    }
    Ok(())
}

#[test]
fn zones_of_rules(rt: HostRuntime) -> Result<(), Fail> {
    let Some(berlin) = rule_zone(parse_rule(b"CET-1CEST,M3.5.0,M10.5.0/3")?) else {
        return Err(Fail::from("no zone"));
    };
    is(&rt, berlin.offset_at(1_711_846_799), 3_600);
    is(&rt, berlin.offset_at(1_711_846_800), 7_200);
    let Some(utc) = rule_zone(parse_rule(b"UTC0")?) else {
        return Err(Fail::from("no zone"));
    };
    is(&rt, utc.offset_at(1_711_846_800), 0);
    // Summer time ends on the day before it begins, so that it overlaps itself.
    let overlap = rule_zone(parse_rule(b"AAA0BBB,J100/0,J100/0:30")?);
    is(&rt, overlap.is_none(), true);
    Ok(())
}
