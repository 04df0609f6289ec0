//! A meeting each Monday at 9:00 in Berlin, as people in New York and Kathmandu see it.

use muxandu::macros::{datetime, time};
use muxandu::zones::{LocalRefusal, Zone, ZoneRefusal};
use muxandu::{Date, Month, PlainDateTime, Weekday};

fn main() -> Result<(), Box<dyn std::error::Error>> {
    let berlin = Zone::named("Europe/Berlin")?;
    let others = [Zone::named("America/New_York")?, Zone::named("Asia/Kathmandu")?];

    let mut day = Date::from_calendar_date(2024, Month::March, 20)?;
    for _ in 0..3 {
        day = day.next_occurrence(Weekday::Monday);
        let meeting = PlainDateTime::new(day, time!(9:00)).at_zone(&berlin).compatible()?;
        let seen = others.each_ref().map(|zone| meeting.to_zone(zone).time().to_string());
        println!("{meeting}: {} in New York, {} in Kathmandu", seen[0], seen[1]);
    }

    // A wall clock that Berlin skips, and one that it shows twice.
    let skipped = datetime!(2024-03-31 2:30).at_zone(&berlin);
    if let Err(LocalRefusal::Gap(gap)) = skipped.reject() {
        let ends = gap.start().zip(gap.end()).expect("a year of the range");
        println!("no 2:30: from {} on it is {}", ends.0.time(), ends.1.time());
    }
    let twice = datetime!(2024-10-27 2:30).at_zone(&berlin);
    println!("2:30 comes again after {}", twice.later()? - twice.earlier()?);

    assert_eq!(Zone::named("../etc/passwd").unwrap_err(), ZoneRefusal::Name);
    Ok(())
}
