//! Each caller is called.
use super::is;
use calendar_values::{Date, Month, SignedDuration, Time, UtcOffset, Weekday};
use offset_times::OffsetDateTime;
use stamp_times::{Call, ClockRead, Held, Shift, Step, Timestamp, ToTimestamp};
use std::cmp::Ordering;
use std::test::Fail;
use uses::audit::Audit;
use uses::periods::Period;
use uses::tokens::Token;
use uses::{
    agendas, any_moments, audit, batches, billing, constants, daily, date_texts, days, exchange,
    expiry, fronts, leases, log, meeting, midnight, milliseconds, moments, nights, offsets,
    periods, replays, reports, retry, shares, shown, timeouts, tokens, wall_texts, wholes, windows,
};
use utc_times::UtcDateTime;

fn utc(second: i64) -> Result<UtcDateTime, Fail> {
    Ok(UtcDateTime::from_unix_timestamp(second)?)
}

#[test]
fn expiry_and_retries_are_called(rt: HostRuntime) -> Result<(), Fail> {
    let issued = utc(1_709_164_800)?;
    is(
        &rt,
        expiry::expires_at(issued, 30),
        Some(utc(1_711_756_800)?),
    );
    is(&rt, expiry::is_expired(utc(1_711_756_800)?, issued), true);
    is(&rt, expiry::tomorrow(UtcDateTime::MAX), None);
    Ok(())
}

#[test]
fn midnights_and_starts_are_called(rt: HostRuntime) -> Result<(), Fail> {
    is(&rt, midnight::next_midnight(utc(-1)?), Some(utc(0)?));
    let (evening, morning) = (Time::from_hms(22, 0, 0)?, Time::from_hms(6, 0, 0)?);
    is(
        &rt,
        midnight::window_length(evening, morning),
        SignedDuration::hours(8),
    );
    is(
        &rt,
        midnight::window_length(morning, evening),
        SignedDuration::hours(16),
    );
    is(
        &rt,
        midnight::left_of_day(evening),
        SignedDuration::hours(2),
    );
    is(
        &rt,
        midnight::left_of_day(Time::MIDNIGHT),
        SignedDuration::DAY,
    );
    is(&rt, retry::retry_at(utc(0)?, 3), utc(8)?);
    is(&rt, constants::started_at(None), UtcDateTime::UNIX_EPOCH);
    Ok(())
}

#[test]
fn logs_are_called(rt: HostRuntime) -> Result<(), Fail> {
    let alloc = rt.alloc();
    let mut entries = [utc(5)?, utc(3)?].to_vec(alloc)?;
    log::sort(&mut entries)?;
    is(&rt, log::position(entries.as_slice(), utc(5)?), Some(1));
    is(&rt, log::accept(&mut entries, utc(4)?)?, false);
    Ok(())
}

#[test]
fn logs_are_cut(rt: HostRuntime) -> Result<(), Fail> {
    let (one, two) = (Timestamp::from_seconds(1)?, Timestamp::from_seconds(2)?);
    let mut log = [Timestamp::MIN, two, one].to_vec(rt.alloc())?;
    log.sort()?;
    is(&rt, log::count_since(&log, one), 2);
    is(&rt, log::between(&log, one, two).len(), 1);
    let (before, from) = log::parts(&log, two);
    is(&rt, (before.len(), from.len()), (2, 1));
    is(&rt, windows::minute_of(two), Timestamp::UNIX_EPOCH);
    Ok(())
}

#[test]
fn old_entries_are_dropped(rt: HostRuntime) -> Result<(), Fail> {
    let mut log = [Timestamp::MIN, Timestamp::UNIX_EPOCH].to_vec(rt.alloc())?;
    stamp_times::logs::put_in_order(&mut log)?;
    log::keep_since(&mut log, Timestamp::UNIX_EPOCH);
    is(&rt, log.len(), 1);
    Ok(())
}

#[test]
fn shares_and_tokens_are_called(rt: HostRuntime) -> Result<(), Fail> {
    is(&rt, shares::share(1_000, 10, 30), 333);
    is(&rt, shares::rest(1_000, 10, 30), 667);
    let leap_day = Date::from_calendar_date(2024, Month::February, 29)?;
    is(&rt, shares::share_of_month(1_000, leap_day), 1_000);
    let one = Token {
        issued: utc(0)?,
        expires: utc(60)?,
    };
    let other = Token {
        issued: utc(50)?,
        expires: utc(90)?,
    };
    let (ten, twenty) = (SignedDuration::seconds(10), SignedDuration::seconds(20));
    is(&rt, tokens::both_valid(one, other), Some(ten));
    is(&rt, tokens::time_left(one, utc(40)?), Some(twenty));
    Ok(())
}

#[test]
fn meetings_are_called(rt: HostRuntime) -> Result<(), Fail> {
    let hour = UtcOffset::from_hms(1, 0, 0)?;
    let shown = meeting::shown_to(OffsetDateTime::from(utc(0)?), hour)?;
    is(&rt, shown.date_time().time(), Time::from_hms(1, 0, 0)?);
    is(&rt, moments::first_of_day(utc(86_399)?), utc(0)?);
    is(
        &rt,
        moments::first_of_day(Timestamp::from_seconds(-1)?),
        Timestamp::from_seconds(-86_400)?,
    );
    Ok(())
}

#[test]
fn moments_replay_calls(rt: HostRuntime) -> Result<(), Fail> {
    let calls = [Call::ReadClock(ClockRead::Hour)];
    let (of_timestamp, of_utc) = moments::replay(rt.alloc(), Timestamp::UNIX_EPOCH, &calls)?;
    is(&rt, of_timestamp == of_utc, true);
    Ok(())
}

#[test]
fn texts_are_exchanged(rt: HostRuntime) -> Result<(), Fail> {
    let stamp = b"1996-12-19T16:39:57-08:00";
    let east = UtcOffset::from_hms(1, 0, 0)?;
    let shown = exchange::stamp_at(stamp, east);
    is(
        &rt,
        shown.is_some_and(|text| text.as_str() == "1996-12-20T01:39:57+01:00"),
        true,
    );
    is(&rt, exchange::instant(stamp)?, utc(851_042_397)?);
    is(
        &rt,
        exchange::rewritten(b"1996-12-20 00:39:57.50z")?.as_str() == "1996-12-20T00:39:57.5Z",
        true,
    );
    Ok(())
}

#[test]
fn date_times_are_received(rt: HostRuntime) -> Result<(), Fail> {
    let sent = OffsetDateTime::from(utc(851_042_397)?);
    is(&rt, exchange::receive(sent), Some(sent));
    Ok(())
}

#[test]
fn texts_of_fixed_width_are_sorted(rt: HostRuntime) -> Result<(), Fail> {
    let (first, second) = (
        "1969-12-31T23:59:59.999999999Z",
        "1970-01-01T00:00:00.000000000Z",
    );
    is(
        &rt,
        exchange::compare_texts(first.as_bytes(), second.as_bytes()),
        Ordering::Less,
    );
    let mut texts = [second.as_bytes(), first.as_bytes()].to_vec(rt.alloc())?;
    exchange::sort(&mut texts)?;
    assert_eq!(rt; texts.len(), 2);
    is(&rt, texts[0] == first.as_bytes(), true);
    Ok(())
}

// The instant of a Unix second, as clocks this number of hours ahead of UTC show it.
fn local(second: i64, hours: i8) -> Result<OffsetDateTime, Fail> {
    let offset = UtcOffset::from_hms(hours, 0, 0)?;
    let shown = OffsetDateTime::from_unix_timestamp(second)?.checked_to_offset(offset);
    Ok(shown.ok_or("no date of the range")?)
}

#[test]
fn callers_at_offsets_are_called(rt: HostRuntime) -> Result<(), Fail> {
    is(&rt, offsets::is_before(local(0, 1)?, local(1, -5)?), true);
    is(&rt, offsets::is_same(local(0, 1)?, local(0, -5)?), true);
    is(
        &rt,
        offsets::earlier(local(9, 1)?, local(8, -5)?),
        local(8, 0)?,
    );
    is(
        &rt,
        offsets::time_between(local(0, 1)?, local(7, -5)?),
        SignedDuration::seconds(7),
    );
    Ok(())
}

#[test]
fn callers_at_an_offset_of_another_are_called(rt: HostRuntime) -> Result<(), Fail> {
    let shown = offsets::shown_like(local(0, 1)?, local(0, -5)?).ok_or("shown")?;
    is(&rt, shown.date_time().time(), Time::from_hms(1, 0, 0)?);
    is(
        &rt,
        offsets::put_at(local(0, 1)?, local(0, -5)?),
        Some(shown),
    );
    is(
        &rt,
        offsets::put_back_at(local(0, 1)?, local(0, -5)?),
        Some(shown),
    );
    is(
        &rt,
        offsets::noted_at(local(0, 1)?, UtcOffset::UTC),
        local(3_600, 0)?,
    );

    Ok(())
}

#[test]
fn periods_and_timeouts_are_called(rt: HostRuntime) -> Result<(), Fail> {
    let period = Period {
        from: local(0, 1)?,
        until: local(10, -5)?,
    };
    is(&rt, periods::is_in(period, local(9, 3)?), true);
    is(&rt, periods::is_in(period, local(10, 3)?), false);
    is(&rt, periods::overlap(period, period), true);
    Ok(())
}

#[test]
fn timeouts_are_called(rt: HostRuntime) -> Result<(), Fail> {
    let limit = SignedDuration::seconds(5);
    is(
        &rt,
        timeouts::has_timed_out(local(0, 1)?, limit, local(5, 2)?),
        true,
    );
    is(&rt, timeouts::remaining(local(0, 1)?, local(5, 3)?), limit);
    is(
        &rt,
        timeouts::remaining(local(6, 1)?, local(5, 3)?),
        SignedDuration::ZERO,
    );
    is(
        &rt,
        timeouts::extend_deadline(local(0, 1)?, limit),
        Some(local(5, 1)?),
    );
    Ok(())
}

#[test]
fn plans_of_days_and_months_are_called(rt: HostRuntime) -> Result<(), Fail> {
    is(&rt, daily::run_today(local(0, 1)?), Some(local(28_800, 1)?));
    is(&rt, daily::run_today(local(28_800, 1)?), None);
    is(
        &rt,
        daily::run_after(local(28_800, 1)?),
        Some(local(115_200, 1)?),
    );
    Ok(())
}

#[test]
fn next_runs_are_called(rt: HostRuntime) -> Result<(), Fail> {
    is(
        &rt,
        daily::next_run(local(28_799, 1)?),
        Some(local(28_800, 1)?),
    );
    is(
        &rt,
        daily::next_run(local(28_800, 1)?),
        Some(local(115_200, 1)?),
    );
    is(
        &rt,
        billing::period_start(local(1_709_164_800, 1)?),
        Ok(local(1_706_742_000, 1)?),
    );
    Ok(())
}

#[test]
fn records_at_offsets_are_called(rt: HostRuntime) -> Result<(), Fail> {
    let ahead = UtcOffset::from_hms(1, 0, 0)?;
    let shown = milliseconds::at_offset(-1, ahead).ok_or("shown")?;
    is(&rt, milliseconds::milliseconds_of(shown), Some(-1));
    Ok(())
}

#[test]
fn audits_are_called(rt: HostRuntime) -> Result<(), Fail> {
    let ahead = UtcOffset::from_hms(1, 0, 0)?;
    let earlier = Audit {
        user: 7,
        at: local(0, 1)?,
    };
    let later = Audit {
        user: 8,
        at: local(1, -5)?,
    };
    is(&rt, audit::comes_before(&earlier, &later), true);
    is(&rt, audit::shown_at(later, ahead).ok_or("shown")?.user, 8);
    Ok(())
}

#[test]
fn callers_of_lists_are_called(rt: HostRuntime) -> Result<(), Fail> {
    let alloc = rt.alloc();
    let epoch = Timestamp::UNIX_EPOCH;
    let all = batches::import(alloc, &[0, 60])?;
    is(&rt, all.map(|stamps| stamps.len()), Ok(2));
    let refused = batches::import(alloc, &[0, i64::MAX])?;
    is(&rt, refused.map(|stamps| stamps.len()), Err(1));
    Ok(())
}

#[test]
fn replays_are_called(rt: HostRuntime) -> Result<(), Fail> {
    let epoch = Timestamp::UNIX_EPOCH;
    is(
        &rt,
        replays::steps_made(Held::Stamp(epoch), &[Step::ToUtc]),
        1,
    );
    let ahead = UtcOffset::from_hms(1, 0, 0)?;
    is(
        &rt,
        replays::by_way_of_utc(epoch, ahead),
        Some(local(0, 1)?),
    );
    let replies = replays::replies_to(rt.alloc(), epoch, &[Call::ReadClock(ClockRead::Hour)])?;
    is(&rt, replies.len(), 1);

    Ok(())
}

#[test]
fn callers_of_timestamps_are_called(rt: HostRuntime) -> Result<(), Fail> {
    let epoch = Timestamp::UNIX_EPOCH;
    is(
        &rt,
        retry::next_attempt(epoch, 3),
        Timestamp::from_seconds(3)?,
    );
    is(
        &rt,
        retry::next_attempt(epoch, 99),
        Timestamp::from_seconds(60)?,
    );
    Ok(())
}

#[test]
fn days_and_logs_of_timestamps_are_called(rt: HostRuntime) -> Result<(), Fail> {
    let epoch = Timestamp::UNIX_EPOCH;
    is(
        &rt,
        moments::tomorrow(epoch),
        Some(Timestamp::from_seconds(86_400)?),
    );
    is(&rt, log::has(&[epoch], epoch), true);
    is(&rt, reports::hour_of(utc(3_700)?), utc(3_600)?);
    Ok(())
}

#[test]
fn logs_without_repeats_are_called(rt: HostRuntime) -> Result<(), Fail> {
    let epoch = Timestamp::UNIX_EPOCH;
    let mut log = [epoch, Timestamp::MIN, epoch].to_vec(rt.alloc())?;
    is(&rt, log::joined_has(&mut log, epoch)?, true);
    log::enter_shift(&mut log, epoch, Timestamp::MAX)?;
    is(&rt, log.len(), 3);
    Ok(())
}

#[test]
fn callers_of_what_replacements_show_are_called(rt: HostRuntime) -> Result<(), Fail> {
    let leap_day = Date::from_calendar_date(2024, Month::February, 29)?;
    is(
        &rt,
        days::first_of_its_month(leap_day),
        Date::from_calendar_date(2024, Month::February, 1)?,
    );
    is(&rt, days::first_of_year(1970), Some(Date::UNIX_EPOCH));
    is(&rt, days::first_of_year(1_000_000), None);
    Ok(())
}

#[test]
fn weeks_of_replacements_are_called(rt: HostRuntime) -> Result<(), Fail> {
    let leap_day = Date::from_calendar_date(2024, Month::February, 29)?;
    is(
        &rt,
        days::monday_of_week(1970, 1),
        Some(Date::from_julian_day(2_440_585)?),
    );
    is(&rt, days::monday_of_week(2021, 53), None);
    is(
        &rt,
        days::weekday_weeks_later(leap_day, -3),
        Weekday::Thursday,
    );
    is(
        &rt,
        days::at_half_past(Time::MIDNIGHT),
        Time::from_hms(0, 30, 0)?,
    );
    Ok(())
}

#[test]
fn moments_of_replacements_are_called(rt: HostRuntime) -> Result<(), Fail> {
    is(
        &rt,
        moments::first_of_month(utc(1_709_164_800)?),
        utc(1_706_745_600)?,
    );
    is(&rt, moments::in_the_last_hour(utc(60)?), utc(82_860)?);
    is(&rt, moments::an_hour_on(UtcDateTime::MAX), UtcDateTime::MAX);
    Ok(())
}

#[test]
fn callers_of_sums_in_order_are_called(rt: HostRuntime) -> Result<(), Fail> {
    let epoch = Timestamp::UNIX_EPOCH;
    let second = SignedDuration::seconds(1);
    let (first, later) = retry::in_turn(epoch, Timestamp::MAX, second);
    is(&rt, first, Timestamp::from_seconds(1)?);
    is(&rt, later, Timestamp::MAX);
    is(
        &rt,
        retry::after_both(epoch, second, second),
        Some(Timestamp::from_seconds(2)?),
    );
    Ok(())
}

#[test]
fn replays_in_order_are_called(rt: HostRuntime) -> Result<(), Fail> {
    let alloc = rt.alloc();
    let epoch = Timestamp::UNIX_EPOCH;
    let second = SignedDuration::seconds(1);
    let shift = [Call::Shift(Shift::CheckedAdd(second))];
    let end = replays::led_by_both(alloc, epoch, &shift, &shift)?;
    is(&rt, end, Timestamp::from_seconds(2)?);
    let (one, other) = replays::replies_to_both(alloc, epoch, &shift, &shift)?;
    is(&rt, one.len() == 1 && other.len() == 1, true);
    Ok(())
}

#[test]
fn replays_without_a_call(rt: HostRuntime) -> Result<(), Fail> {
    let alloc = rt.alloc();
    let epoch = Timestamp::UNIX_EPOCH;
    let second = SignedDuration::seconds(1);
    let shift = [Call::Shift(Shift::CheckedAdd(second))];
    let refused = Call::Shift(Shift::CheckedSub(second));
    let end = replays::led_without(alloc, Timestamp::MIN, &[], refused, &shift)?;
    is(&rt, Timestamp::MIN.checked_add(second), Some(end));
    let both = replays::converted_by_both(Held::Stamp(epoch), &[Step::ToUtc], &[Step::ToStamp]);
    is(&rt, both.is_some(), true);
    Ok(())
}

#[test]
fn timeouts_in_order_are_called(rt: HostRuntime) -> Result<(), Fail> {
    let second = SignedDuration::seconds(1);
    is(
        &rt,
        timeouts::both_extended(local(0, 1)?, local(5, 2)?, second),
        Some((local(1, 1)?, local(6, 2)?)),
    );
    let (first, later) = timeouts::both_put_off(
        OffsetDateTime::from(utc(0)?),
        OffsetDateTime::from(UtcDateTime::MAX),
        second,
    );
    is(&rt, first, local(1, 0)?);
    is(&rt, later, OffsetDateTime::from(UtcDateTime::MAX));
    Ok(())
}

#[test]
fn hours_pauses_and_periods(rt: HostRuntime) -> Result<(), Fail> {
    let stamp = Timestamp::from_seconds(1_709_164_800)?;
    let shown = offsets::at_seconds(stamp, 20_700).ok_or("no date")?;
    is(&rt, (shown.hour(), shown.minute()), (5, 45));
    is(&rt, offsets::offset_of(93_600), None);
    Ok(())
}

#[test]
fn reports_and_periods(rt: HostRuntime) -> Result<(), Fail> {
    let stamp = Timestamp::from_seconds(1_709_164_800)?;
    let shown = offsets::at_seconds(stamp, 20_700).ok_or("no date")?;
    let next = reports::next_hour_there(shown).ok_or("past the range")?;
    is(
        &rt,
        next.checked_to_timestamp(),
        Some(Timestamp::from_seconds(1_709_165_700)?),
    );
    Ok(())
}

#[test]
fn pauses_and_days(rt: HostRuntime) -> Result<(), Fail> {
    is(&rt, retry::after_pause(utc(0)?, 5), utc(32)?);
    is(&rt, retry::after_pause(utc(0)?, 40), utc(3_600)?);
    is(&rt, date_texts::is_day(b"2024-02-29"), true);
    is(&rt, date_texts::is_day(b"2023-02-29"), false);
    Ok(())
}

#[test]
fn periods_in_common(rt: HostRuntime) -> Result<(), Fail> {
    let (shown, next) = (local(1_709_164_800, 5)?, local(1_709_165_700, 5)?);
    let first = Period {
        from: shown,
        until: next,
    };
    let common = periods::common(
        first,
        Period {
            from: next,
            until: shown,
        },
    );
    is(&rt, common.is_none(), true);
    is(
        &rt,
        periods::common(first, first) == Some((shown, next)),
        true,
    );
    Ok(())
}

#[test]
fn logs_of_any_instants(rt: HostRuntime) -> Result<(), Fail> {
    let (one, two) = (utc(60)?, utc(120)?);
    let mut log = [two, one].to_vec(rt.alloc())?;
    any_moments::join_without(&mut log, &[utc(0)?, two], one)?;
    is(&rt, log.len(), 2);
    is(&rt, log.get(0).copied(), Some(utc(0)?));
    any_moments::enter(&mut log, one)?;
    is(&rt, log.len(), 3);
    assert!(rt; any_moments::withdraw(&mut log, two));
    assert!(rt; !any_moments::withdraw(&mut log, two));
    is(&rt, any_moments::latest(&log), Some(one));
    Ok(())
}

#[test]
fn instants_of_any_type(rt: HostRuntime) -> Result<(), Fail> {
    let (one, two) = (utc(60)?, utc(120)?);
    is(&rt, any_moments::has(&[two], two), true);
    is(&rt, any_moments::is_news(&[one], two), true);
    is(&rt, any_moments::later(one, two), two);
    let mut log = [two, one].to_vec(rt.alloc())?;
    any_moments::sort(&mut log)?;
    is(&rt, log.get(1).copied(), Some(two));
    Ok(())
}

#[test]
fn texts_without_an_offset_are_read(rt: HostRuntime) -> Result<(), Fail> {
    let chosen = wall_texts::wall_clock_of_field(b"2024-02-29T12:34:56.5")?;
    is(&rt, chosen.as_hms_nano(), (12, 34, 56, 500_000_000));
    let refused = wall_texts::chosen_wall_clock(b"2024-02-29T12:34:56Z");
    is(&rt, refused, None);
    let day = Date::from_calendar_date(2024, Month::February, 29)?;
    is(&rt, wall_texts::departure(day, b"12:34:56.5"), Some(chosen));
    Ok(())
}

#[test]
fn stamps_are_noted_at_a_place(rt: HostRuntime) -> Result<(), Fail> {
    let east = UtcOffset::from_hms(1, 0, 0)?;
    let noted = wall_texts::noted_at_place(b"1970-01-01T01:00:00", east);
    is(&rt, noted, Some(local(0, 1)?));
    let noted = wall_texts::noted_at_place(b"1970-01-01T01:00:00Z", east);
    is(&rt, noted, Some(local(3_600, 0)?));
    let valid = wall_texts::before_the_fault_of_field(b"1985-04-12T23:20:50Z");
    is(&rt, valid.len(), 19);
    is(
        &rt,
        wall_texts::before_the_fault_of_time(b"23:20Z").len(),
        5,
    );
    Ok(())
}

#[test]
fn stamps_are_valid(rt: HostRuntime) -> Result<(), Fail> {
    let opening = wall_texts::opening(b"16:39:57-08:00");
    is(
        &rt,
        opening.is_some_and(|(time, _)| time.hour() == 16),
        true,
    );
    let valid = b"1990-12-31T23:59:59Z";
    is(&rt, wall_texts::is_valid_with_offset(valid), true);
    is(
        &rt,
        wall_texts::is_valid_with_offset(b"1990-12-31T23:59:59"),
        false,
    );
    is(&rt, wall_texts::is_in_range(valid), true);
    is(&rt, wall_texts::is_in_range(b"1990-02-29T23:59:59Z"), false);
    is(&rt, wall_texts::is_wall_clock(b"1990-12-31T23:59:59"), true);
    is(&rt, wall_texts::is_wall_clock(valid), false);
    Ok(())
}

#[test]
fn nights_are_called(rt: HostRuntime) -> Result<(), Fail> {
    let midnight = local(0, 0)?;
    is(&rt, nights::price(midnight, 3), 30);
    is(&rt, nights::price(local(0, 6)?, 3), 60);
    is(
        &rt,
        nights::left_of_night(midnight),
        SignedDuration::hours(6),
    );
    is(
        &rt,
        nights::left_of_night(local(0, 7)?),
        SignedDuration::ZERO,
    );
    Ok(())
}

#[test]
fn steps_of_days_are_called(rt: HostRuntime) -> Result<(), Fail> {
    let alloc = rt.alloc();
    let end = replays::two_days(alloc, Timestamp::UNIX_EPOCH)?;
    is(&rt, end, Timestamp::from_seconds(172_800)?);
    let (replies, end) = replays::past_the_end(alloc, Timestamp::MAX)?;
    is(&rt, replies.len(), 1);
    is(&rt, end, Timestamp::MAX);
    Ok(())
}

#[test]
fn lines_of_logs_are_parted(rt: HostRuntime) -> Result<(), Fail> {
    let line = *b"1970-01-01T01:00:00+01:00 start";
    let mut left = 0;
    if let Some((at, words)) = fronts::stamp_and_words(&line) {
        is(&rt, at.unix_timestamp(), 0);
        left = words.len();
    }
    is(&rt, left, 6);
    let leap = b"1990-12-31T23:59:60Z";
    is(&rt, fronts::has_leap_second(leap), true);
    let last = Timestamp::new(662_687_999, 999_999_999)?;
    is(&rt, fronts::timestamp_of_leap(leap), Some(last));
    let log = [Timestamp::UNIX_EPOCH];
    is(&rt, log::is_quiet_since(&log, Timestamp::UNIX_EPOCH), true);
    Ok(())
}

#[test]
fn readers_see_what_is_left(rt: HostRuntime) -> Result<(), Fail> {
    let left = timeouts::left_until(local(0, 1)?, local(60, 0)?);
    is(&rt, left, SignedDuration::seconds(60));
    let west = UtcOffset::from_hms(-1, 0, 0)?;
    is(&rt, shown::month_at(utc(0)?, west), Some(Month::December));
    let leap_day = Date::from_calendar_date(2024, Month::February, 29)?;
    is(&rt, agendas::first_of_page(leap_day).day(), 1);
    Ok(())
}

#[test]
fn leases_are_called(rt: HostRuntime) -> Result<(), Fail> {
    let noon = Timestamp::from_seconds(43_200)?;
    let (begin, end) = leases::around(noon, SignedDuration::hours(1)).ok_or("around")?;
    is(&rt, begin, Timestamp::from_seconds(39_600)?);
    is(&rt, end, Timestamp::from_seconds(46_800)?);
    let (begin, end) = leases::minutes_around(local(0, 1)?, 2).ok_or("around")?;
    is(&rt, begin, local(-120, 1)?);
    is(&rt, end, local(120, 1)?);
    let warning = leases::warn_at(local(3_600, 1)?, 15);
    is(&rt, warning, Some(local(2_700, 1)?));
    Ok(())
}

#[test]
fn hours_and_attempts_follow(rt: HostRuntime) -> Result<(), Fail> {
    is(&rt, reports::hour_after(utc(3_700)?), Some(utc(7_200)?));
    let epoch = Timestamp::UNIX_EPOCH;
    is(&rt, retry::next_try(epoch, 5), Timestamp::from_seconds(32)?);
    let hour = Timestamp::from_seconds(3_600)?;
    is(&rt, retry::next_try(epoch, 99), hour);
    let limit = SignedDuration::seconds(4_000);
    let left = timeouts::left_of(epoch, limit, hour);
    is(&rt, left, SignedDuration::seconds(400));
    Ok(())
}

#[test]
fn logs_are_gathered(rt: HostRuntime) -> Result<(), Fail> {
    let epoch = Timestamp::UNIX_EPOCH;
    let mut log = [epoch, Timestamp::MAX].to_vec(rt.alloc())?;
    log::gather(&mut log, &[Timestamp::MIN, epoch])?;
    let all = [Timestamp::MIN, epoch, epoch, Timestamp::MAX];
    assert_eq!(rt; log.as_slice(), all.as_slice());
    Ok(())
}

#[test]
fn leap_seconds_are_read_at_an_offset(rt: HostRuntime) -> Result<(), Fail> {
    let west = UtcOffset::from_hms(-8, 0, 0)?;
    let leap = b"1990-12-31T23:59:60Z";
    let (there, is_leap) = fronts::leap_date_time_at(leap, west).ok_or("no date")?;
    is(&rt, is_leap, true);
    is(&rt, there.to_hms_nano(), (15, 59, 59, 999_999_999));
    is(&rt, there.day(), 31);
    Ok(())
}

#[test]
fn offsets_are_crossed(rt: HostRuntime) -> Result<(), Fail> {
    let east = UtcOffset::from_hms(2, 0, 0)?;
    let at = local(0, 1)?;
    is(&rt, offsets::there_and_back(at, east), Some(at));
    let there = offsets::across(Timestamp::UNIX_EPOCH, UtcOffset::UTC, east);
    is(&rt, there, Some(local(0, 2)?));
    let there = offsets::at_offset_seconds(Timestamp::UNIX_EPOCH, 7_200);
    is(&rt, there, Some(local(0, 2)?));
    Ok(())
}

#[test]
fn calls_cost_by_the_minute(rt: HostRuntime) -> Result<(), Fail> {
    let call = SignedDuration::seconds(190);
    is(&rt, nights::cost(local(0, 0)?, call), 30);
    is(&rt, nights::cost(local(0, 6)?, call), 60);
    is(&rt, wholes::days_agree(call), true);
    Ok(())
}
