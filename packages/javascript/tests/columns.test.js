// Descriptions, months and columns, beside Date and on values that other programs gave.
import assert from "node:assert/strict";
import { createRequire } from "node:module";
import test from "node:test";

import { Description, Moments, OffsetDateTime, Refused, Timestamp } from "muxandu";

import { refuses } from "./refuses.js";

const LEAP_DAY = OffsetDateTime.parse("2024-02-29T12:34:56.5+05:30");

/** The error of a call. */
function errorOf(call) {
    try {
        call();
    } catch (error) {
        assert.ok(error instanceof Refused, String(error));
        return [error.refusal, error.place, error.reason];
    }
    return null;
}

test("descriptions write and read", () => {
    for (const [description, text] of [
        ["[weekday repr:short], [day] [month repr:short] [year] [hour]:[minute]:[second].[subsecond] [offset_hour sign:mandatory][offset_minute]", "Thu, 29 Feb 2024 12:34:56.5 +0530"],
        ["[year]-[ordinal]T[hour repr:12][period] [minute]:[second].[subsecond digits:3] [offset_hour]:[offset_minute]", "2024-060T12PM 34:56.500 05:30"],
        ["[unix_timestamp].[subsecond] [offset_hour sign:mandatory]:[offset_minute]", "1709190296.5 +05:30"],
    ]) {
        const form = new Description(description);
        assert.equal(form.format(LEAP_DAY), text);
        assert.equal(String(form), description);
        const read = form.parse(text);
        assert.deepEqual([read.toRfc3339(), read.offsetSeconds], ["2024-02-29T12:34:56.5+05:30", 19_800]);
    }
    const day = new Description("[day].[month].[year]");
    assert.equal(day.parse("29.02.2024", "date").toRfc3339(), "2024-02-29T00:00:00Z");
    assert.equal(new Description("[hour]:[minute]").parse("23:59", "time").toRfc3339(), "1970-01-01T23:59:00Z");
    assert.equal(new Description("[offset_hour]").parse("-01", "utcOffset").offsetSeconds, -3_600);
});

test("descriptions say where a fault is, and why", () => {
    assert.deepEqual(errorOf(() => new Description("[year]-[mouth]")), ["SYNTAX", 8, "UNKNOWN_COMPONENT"]);
    assert.deepEqual(errorOf(() => new Description("é[day")), ["SYNTAX", 1, "NO_END"]);
    const day = new Description("[year]-[month]-[day]");
    assert.deepEqual(errorOf(() => day.parse("2023-02-29", "date")), ["RESULT", 8, "DAY"]);
    assert.deepEqual(errorOf(() => day.parse("2024-2-29", "date")), ["SYNTAX", 5, undefined]);
    assert.deepEqual(errorOf(() => day.parse("2024-02-29x", "date")), ["SYNTAX", 10, undefined]);
    assert.deepEqual(errorOf(() => day.parse("2024-02-29")), ["SYNTAX", 0, "HOUR"]);
    refuses("KIND", () => day.parse("2024-02-29", "day"));
    refuses("KIND", () => day.parse("2024-02-29", "toString"));
    refuses("LENGTH", () => new Description("0".repeat(250_001)));
    refuses("NO_TEXT", () => new Description("x".repeat(65)).format(LEAP_DAY));
    assert.deepEqual(errorOf(() => new Description("x".repeat(129))), ["SYNTAX", 128, "NO_ROOM"]);
    for (const value of [undefined, null, 5]) {
        assert.throws(() => new Description(value), TypeError);
        assert.throws(() => day.parse(value), TypeError);
        assert.throws(() => day.format(value), TypeError);
    }
    assert.throws(() => day.format(Timestamp.now()), TypeError);
});

test("the front of a line is read, and the rest is given", () => {
    const form = new Description("[day]/[month repr:short]/[year]:[hour]:[minute]:[second] [offset_hour sign:mandatory][offset_minute]");
    const { dateTime, rest } = form.parseFront('29/Feb/2024:12:34:56 +0530] "GET /é" 200');
    assert.deepEqual([dateTime.toRfc3339(), rest], ["2024-02-29T12:34:56+05:30", '] "GET /é" 200']);
    assert.deepEqual(errorOf(() => form.parseFront("30/Feb/2024:12:34:56 +0530] x")), ["RESULT", 0, "DAY"]);
    assert.deepEqual(errorOf(() => form.parseFront("INFO")), ["SYNTAX", 0, undefined]);
});

test("months are added as the calendar has them", () => {
    for (const [text, months, wanted] of [
        ["2024-01-31T01:02:03+01:00", 1, "2024-02-29T01:02:03+01:00"],
        ["2024-02-29T12:34:56.5+05:30", -12, "2023-02-28T12:34:56.5+05:30"],
        ["2024-12-01T00:00:00Z", 1, "2025-01-01T00:00:00Z"],
        ["2024-03-31T00:00:00Z", -1, "2024-02-29T00:00:00Z"],
    ]) {
        assert.equal(OffsetDateTime.parse(text).addMonths(months).toRfc3339(), wanted);
        assert.equal(Moments.parse([text]).addMonths(months).at(0).toRfc3339(), wanted);
    }
    refuses("RESULT", () => LEAP_DAY.addMonths(12_000_000));
    assert.throws(() => LEAP_DAY.addMonths(1.5), TypeError);
});

test("a column keeps gaps, and the names of its errors", () => {
    const column = Moments.parse(["2024-01-31T23:00:00-01:00", "2023-02-29T00:00:00Z", null, "1969-12-31T23:59:59.5+02:00"]);
    const shown = (each) => [...each].map((one) => one && one.toRfc3339());
    assert.deepEqual(shown(column), ["2024-01-31T23:00:00-01:00", null, null, "1969-12-31T23:59:59.5+02:00"]);
    assert.deepEqual([0, 1, 2, 3, 4].map((index) => column.refusalAt(index)), [null, "DAY_OF_MONTH", null, null, null]);
    assert.deepEqual([column.length, column.at(4), column.at(-1)], [4, null, null]);
    for (const made of [column.addMonths(1), column.add({ hours: 1 }), column.toOffset(60), column.truncate("day")]) {
        assert.deepEqual([made.at(1), made.refusalAt(1), made.refusalAt(2), made.length], [null, "DAY_OF_MONTH", null, 4]);
    }
    assert.deepEqual(shown(column.toOffset(3_600)), ["2024-02-01T01:00:00+01:00", null, null, "1969-12-31T22:59:59.5+01:00"]);
    assert.deepEqual(shown(column.truncate("day")), ["2024-01-31T00:00:00-01:00", null, null, "1969-12-31T00:00:00+02:00"]);
    assert.deepEqual(shown(Moments.of([LEAP_DAY, null]).add({ days: -1 })), ["2024-02-28T12:34:56.5+05:30", null]);
    assert.deepEqual([...Moments.of([OffsetDateTime.parse("1970-01-01T00:00:01.000000002Z"), null]).toBytes()], [
        ...[1, 0, 0, 0, 0, 0, 0, 0, 2, 0, 0, 0, 0, 0, 0, 0],
        ...[0, 0, 0, 0, 0, 0, 0, 128, 0, 0, 0, 0, 0, 0, 0, 0],
    ]);
    assert.equal(Moments.of([LEAP_DAY]).toOffset(93_600).refusalAt(0), "OFFSET_SECONDS");
    assert.equal(Moments.parse([]).length, 0);
    for (const value of [5, "5", null, [5], [new Date(0)]]) {
        assert.throws(() => Moments.parse(value), TypeError);
        assert.throws(() => Moments.of(value), TypeError);
    }
    refuses("UNIT", () => column.truncate("week"));
    refuses("LENGTH", () => Moments.parse(["0".repeat(250_000)]));
});

test("long columns are as Date has them", () => {
    const dates = Array.from({ length: 5_000 }, (_, row) => new Date((row - 2_500) * 604_801_007));
    const column = Moments.parse(dates.map((date) => date.toISOString())), later = column.add({ milliseconds: 7 });
    assert.equal(column.length, 5_000);
    for (const [row, date] of dates.entries()) {
        assert.equal(column.at(row).toDate().getTime(), date.getTime());
        assert.equal(later.at(row).toDate().getTime(), date.getTime() + 7);
    }
    const text = "2024-02-29T00:00:00Z", broken = Moments.parse(["\ud83d", "\ude00", text, "é", text, "\u{1f600}", text]);
    assert.deepEqual(broken.toRfc3339(), [null, null, text, null, text, null, text]);
    assert.equal(Moments.parse(Array.from({ length: 60_000 }, () => "é")).refusalAt(59_999), "SYNTAX");
    const long = `2024-02-29T00:00:00.${"1".repeat(100_000)}Z`;
    assert.deepEqual([...Moments.parse([long, long, long])].map((each) => each.nanosecond), [111_111_111, 111_111_111, 111_111_111]);
    assert.deepEqual(Moments.parse([long, `${long}é`, "é".repeat(94_000), long]).toRfc3339().map((each) => each?.length), [30, undefined, undefined, 30]);
});

test("milliseconds of all kinds make a column", () => {
    const wanted = ["1970-01-01T00:00:00Z", "1969-12-31T23:59:59.999Z", "2024-02-29T12:34:56.789Z", null, "0000-01-01T00:00:00Z"];
    const numbers = [0, -1, 1_709_210_096_789, NaN, -62_167_219_200_000];
    for (const values of [numbers, Float64Array.from(numbers), numbers.map((each) => (each === each ? BigInt(each) : null))]) {
        assert.deepEqual(Moments.fromMilliseconds(values).toRfc3339(), wanted);
        assert.deepEqual(Moments.fromMilliseconds(values).toMilliseconds(), Float64Array.from(numbers));
    }
    const bigints = BigInt64Array.from(numbers, (each) => (each === each ? BigInt(each) : -(2n ** 63n)));
    assert.deepEqual(Moments.fromMilliseconds(bigints, 3_600).toRfc3339()[1], "1970-01-01T00:59:59.999+01:00");
    assert.equal(Moments.fromMilliseconds(bigints).refusalAt(3), null);
    const [first, last] = [-31_619_087_596_800_000n, 31_494_784_780_799_999n];
    const ends = Moments.fromMilliseconds([first, last, first - 1n, last + 1n, 1e300, -1e300, (2n ** 64n + 5n) * 1_000n, 9_007_199_254_740_993n]);
    assert.deepEqual([0, 1, 2, 3, 4, 5, 6, 7].map((row) => ends.refusalAt(row)), [null, null, ...Array(5).fill("TIMESTAMP"), null]);
    assert.deepEqual([ends.at(0).year, ends.at(1).year, ends.at(1).nanosecond], [-999_999, 999_999, 999_000_000]);
    assert.equal(ends.at(7).toTimestamp().milliseconds, 9_007_199_254_740_993n);
    assert.equal(errorOf(() => ends.toMilliseconds())[1], 0);
    refuses("RESULT", () => ends.toMilliseconds());
    assert.equal(Moments.fromMilliseconds([8.64e15, -8.64e15]).toMilliseconds()[1], -8.64e15);
    for (const values of [[1.5], [Infinity], ["5"], [undefined], new Float64Array([0.5]), 5, "5", null]) {
        assert.throws(() => Moments.fromMilliseconds(values), TypeError);
    }
    assert.throws(() => Moments.fromMilliseconds([0], 0.5), TypeError);
    assert.equal(Moments.fromMilliseconds([0], 93_600).refusalAt(0), "OFFSET_SECONDS");
});

test("a column has its days, its parts, its offsets and its texts", () => {
    const column = Moments.parse(["2024-02-29T23:34:56.789-01:30", null, "1969-12-31T23:00:00+02:00", "2023-02-29T00:00:00Z"]);
    assert.deepEqual([...column.toDayNumbers()], [19_782, -(2 ** 31), -1, -(2 ** 31)]);
    assert.deepEqual([...column.toOffsets()], [-5_400, 0, 7_200, 0]);
    const parts = column.toParts();
    assert.deepEqual(Object.entries(parts).map(([name, [one, gap, other, wrong]]) => [name, one, gap, other, wrong]), [
        ["year", 2024, 0, 1969, 0], ["month", 2, 0, 12, 0], ["day", 29, 0, 31, 0], ["hour", 23, 0, 23, 0], ["minute", 34, 0, 0, 0],
        ["second", 56, 0, 0, 0], ["nanosecond", 789_000_000, 0, 0, 0], ["offsetSeconds", -5_400, 0, 7_200, 0],
    ]);
    assert.deepEqual(column.toRfc3339(), ["2024-02-29T23:34:56.789-01:30", null, "1969-12-31T23:00:00+02:00", null]);
    const old = Moments.of([LEAP_DAY, OffsetDateTime.of({ year: -1, month: 1, day: 1 })]);
    assert.deepEqual(errorOf(() => old.toRfc3339()).slice(0, 2), ["NO_TEXT", 1]);
    assert.deepEqual([...Moments.of([LEAP_DAY.with({ year: -999_996 })]).toDayNumbers()], [-365_960_508]);
    const empty = Moments.parse([]);
    for (const values of [empty.toDayNumbers(), empty.toOffsets(), empty.toMilliseconds(), empty.toRfc3339(), empty.toParts().day]) {
        assert.equal(values.length, 0);
    }
});

test("the reads of long columns are as Date has them", () => {
    const milliseconds = Float64Array.from({ length: 5_000 }, (_, row) => (row - 2_500) * 12_345_678_901);
    const column = Moments.fromMilliseconds(milliseconds), numbers = column.toDayNumbers(), parts = column.toParts(), texts = column.toRfc3339();
    assert.deepEqual(column.toMilliseconds(), milliseconds);
    const cut = column.truncate("hour").toMilliseconds();
    for (const [row, each] of milliseconds.entries()) {
        const date = new Date(each);
        assert.equal(numbers[row], Math.floor(each / 86_400_000));
        assert.equal(texts[row], date.toISOString().replace(/\.?0*Z$/, "Z"));
        assert.equal(cut[row], date.setUTCMinutes(0, 0, 0));
        const here = [parts.year[row], parts.month[row], parts.day[row], parts.hour[row], parts.minute[row], parts.second[row], parts.nanosecond[row]];
        date.setTime(each);
        const there = [date.getUTCFullYear(), date.getUTCMonth() + 1, date.getUTCDate(), date.getUTCHours(), date.getUTCMinutes()];
        assert.deepEqual(here, [...there, date.getUTCSeconds(), date.getUTCMilliseconds() * 1_000_000]);
    }
});

test("a module of CommonJS requires the package", { skip: !process.features.require_module }, () => {
    const required = createRequire(import.meta.url)("muxandu");
    assert.equal(required.Timestamp.parse("1996-12-19T16:39:57-08:00").seconds, 851_042_397n);
});
