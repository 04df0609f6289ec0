// Each call, on values that other programs gave.
import assert from "node:assert/strict";
import test from "node:test";

import { Duration, OffsetDateTime, Timestamp, daysInMonth, parseOffset } from "muxandu";

import { refuses } from "./refuses.js";

const FIRST = new Timestamp(-31_619_087_596_800n);
const LAST = new Timestamp(31_494_784_780_799n, 999_999_999);

test("texts are read", () => {
    for (const [text, seconds, nanosecond] of [
        ["1985-04-12T23:20:50.52Z", 482196050n, 520_000_000],
        ["1996-12-19T16:39:57-08:00", 851042397n, 0],
        ["1969-12-31T23:59:59.999999999Z", -1n, 999_999_999],
        ["0000-01-01T00:00:00+23:59", -62167305540n, 0],
        ["9999-12-31T23:59:59.9-23:59", 253402387139n, 900_000_000],
        ["2024-02-29 00:00:00z", 1709164800n, 0],
        [`2024-02-29t00:00:00.${"1".repeat(100_000)}z`, 1709164800n, 111_111_111],
    ]) {
        const at = Timestamp.parse(text);
        assert.deepEqual([at.seconds, at.nanosecond], [seconds, nanosecond], text);
        assert.ok(OffsetDateTime.parse(text).toTimestamp().equals(at));
    }
});

test("bad texts are refused by name", () => {
    for (const [text, name] of [
        ["2023-02-29T00:00:00Z", "DAY_OF_MONTH"],
        ["2024-02-30T00:00:00Z", "DAY_OF_MONTH"],
        ["2024-06-31T00:00:00Z", "DAY_OF_MONTH"],
        ["2024-02-00T00:00:00Z", "DAY"],
        ["2024-02-32T00:00:00Z", "DAY"],
        ["2024-00-01T00:00:00Z", "MONTH"],
        ["2024-02-28T24:00:00Z", "HOUR"],
        ["2024-02-28T23:60:00Z", "MINUTE"],
        ["2016-12-31T23:59:60Z", "SECOND"],
        ["2024-01-01T00:00:00+24:00", "OFFSET_HOUR"],
        ["2024-01-01T00:00:00+00:60", "OFFSET_MINUTE"],
        ["2024-02-28T23:30:00", "SYNTAX"],
        ["2024-02-28", "SYNTAX"],
        ["2024-02-28T23:30:00Z ", "SYNTAX"],
        ["2024-02-28T23:30:00Z\0", "SYNTAX"],
        ["２０２４-02-28T23:30:00Z", "SYNTAX"],
        ["\ud800", "SYNTAX"],
        ["yesterday", "SYNTAX"],
        ["", "SYNTAX"],
        ["0".repeat(250_000), "SYNTAX"],
        ["é".repeat(125_000), "SYNTAX"],
        ["0".repeat(250_001), "LENGTH"],
        ["é".repeat(125_001), "LENGTH"],
        ["0".repeat(1_000_000), "LENGTH"],
    ]) {
        refuses(name, () => Timestamp.parse(text));
        refuses(name, () => OffsetDateTime.parse(text));
    }
    for (const value of [undefined, null, 5, new Date(0)]) assert.throws(() => Timestamp.parse(value), TypeError);
});

test("an error of a type spells the value", () => {
    for (const [value, text] of [
        ["5", '"5"'],
        [5.5, "5.5"],
        [Symbol("5"), "Symbol(5)"],
        [[5], "[object Array]"],
        [class Five {}, "a function"],
        ["x".repeat(1_000), `"${"x".repeat(59)}..`],
    ]) {
        assert.throws(() => new Timestamp(value), { name: "TypeError", message: `seconds must be an integer, not ${text}` });
    }
    for (const [value, text] of [
        [5n, "5n"],
        [-(10n ** 100n), `-1${"0".repeat(58)}..`],
    ]) {
        assert.throws(() => new Timestamp(0).toOffset(value), { message: `offsetSeconds must be an integer, not ${text}` });
    }
});

test("a leap second is read as the last nanosecond of a month in UTC", () => {
    for (const [text, wanted, isLeap] of [
        ["2016-12-31T23:59:59.9Z", "2016-12-31T23:59:59.9Z", false],
        ["2016-12-31T23:59:60Z", "2016-12-31T23:59:59.999999999Z", true],
        ["2016-12-31T23:59:60.5Z", "2016-12-31T23:59:59.999999999Z", true],
        ["2016-12-31T15:59:60-08:00", "2016-12-31T15:59:59.999999999-08:00", true],
        ["2017-01-01T00:00:00Z", "2017-01-01T00:00:00Z", false],
    ]) {
        const read = OffsetDateTime.parseLeap(text);
        assert.deepEqual([read.dateTime.toRfc3339(), read.isLeap], [wanted, isLeap], text);
    }
    for (const [text, name] of [
        ["2016-12-31T23:59:60-08:00", "SECOND"],
        ["2024-02-29T12:34:60Z", "SECOND"],
        ["2024-02-28T23:59:60Z", "SECOND"],
        ["2016-12-31T23:59:61Z", "SECOND"],
        ["2016-12-31T23:59:60+24:00", "OFFSET_HOUR"],
        ["2016-12-31T23:59:60", "SYNTAX"],
    ]) {
        refuses(name, () => OffsetDateTime.parseLeap(text));
    }
    assert.throws(() => OffsetDateTime.parseLeap(5), TypeError);
});

test("a timestamp has bounds", () => {
    refuses("TIMESTAMP", () => new Timestamp(31_494_784_780_800n));
    refuses("TIMESTAMP", () => new Timestamp(-31_619_087_596_801n));
    refuses("TIMESTAMP", () => new Timestamp(2n ** 64n));
    refuses("TIMESTAMP", () => new Timestamp(-(2n ** 64n)));
    refuses("TIMESTAMP", () => Timestamp.fromNanoseconds(LAST.nanoseconds + 1n));
    refuses("NANOSECOND", () => new Timestamp(0, 1_000_000_000));
    refuses("NANOSECOND", () => new Timestamp(0, 2 ** 32));
    refuses("NANOSECOND", () => new Timestamp(0, -1));
    for (const value of [0.5, NaN, 2 ** 53, "0", undefined]) assert.throws(() => new Timestamp(value), TypeError);
    assert.throws(() => new Timestamp(0, 0.5), TypeError);
    assert.equal(String(FIRST), "-999999-01-01 0:00:00.0 +00:00:00");
    assert.equal(String(LAST), "+999999-12-31 23:59:59.999999999 +00:00:00");
    refuses("NO_TEXT", () => LAST.toRfc3339());
    refuses("NO_TEXT", () => JSON.stringify({ LAST }));
    assert.equal(JSON.stringify([new Timestamp(0)]), '["1970-01-01T00:00:00Z"]');
});

test("counts from 1970 round down", () => {
    const at = Timestamp.fromNanoseconds(-1n);
    assert.deepEqual([at.seconds, at.nanosecond], [-1n, 999_999_999]);
    assert.deepEqual([at.milliseconds, at.microseconds, at.nanoseconds], [-1n, -1n, -1n]);
    assert.equal(Timestamp.fromMilliseconds(-1).nanosecond, 999_000_000);
    assert.equal(Timestamp.fromMicroseconds(1n).nanosecond, 1_000);
    assert.equal(Timestamp.fromNanoseconds(LAST.nanoseconds).nanoseconds, LAST.nanoseconds);
    assert.equal(Timestamp.fromNanoseconds(FIRST.nanoseconds).nanoseconds, FIRST.nanoseconds);
});

test("sums, differences and order", () => {
    const at = Timestamp.parse("2024-02-28T23:30:00-01:00");
    assert.equal(at.add({ hours: 1, minutes: 30 }).toRfc3339(), "2024-02-29T02:00:00Z");
    assert.equal(at.subtract(new Duration(1)).toRfc3339Nanos(), "2024-02-29T00:29:59.999999999Z");
    assert.equal(at.add({ days: -1n, nanoseconds: 5 }).since(at).nanoseconds, -86_399_999_999_995n);
    assert.equal(LAST.since(FIRST).nanoseconds, 63_113_872_377_599_999_999_999n);
    assert.ok(LAST.saturatingAdd({ days: 1 }).equals(LAST) && FIRST.saturatingSubtract({ days: 1 }).equals(FIRST));
    refuses("RESULT", () => LAST.add({ nanoseconds: 1 }));
    refuses("DURATION", () => at.add({ seconds: 2n ** 63n }));
    refuses("DURATION", () => at.add({ seconds: -(2n ** 70n) }));
    assert.throws(() => at.add({ hour: 1 }), TypeError);
    assert.throws(() => at.add({ hours: 1.5 }), TypeError);
    assert.deepEqual([LAST, at, FIRST].sort(Timestamp.compare), [FIRST, at, LAST]);
    assert.ok(FIRST < at && at < LAST && at <= at && LAST > FIRST);
    assert.equal(at.truncate("day").toRfc3339(), "2024-02-29T00:00:00Z");
    assert.equal(Timestamp.fromNanoseconds(-1n).truncate("second").seconds, -1n);
    refuses("UNIT", () => at.truncate("week"));
    refuses("UNIT", () => at.truncate("toString"));
    assert.equal(String(new Duration(-1_500_000_000n)), "-1.5 s");
    assert.equal(Duration.of({ minutes: -90 }).whole("hours"), -1n);
    const kept = JSON.parse(JSON.stringify({ gap: LAST.since(FIRST) })).gap;
    assert.equal(kept, "63113872377599999999999");
    assert.equal(new Duration(BigInt(kept)).nanoseconds, LAST.since(FIRST).nanoseconds);
});

test("each unit of a duration, and its negation", () => {
    const units = [["days", 86_400_000_000_000n], ["hours", 3_600_000_000_000n], ["minutes", 60_000_000_000n]];
    units.push(["seconds", 1_000_000_000n], ["milliseconds", 1_000_000n], ["microseconds", 1_000n], ["nanoseconds", 1n]);
    for (const [name, size] of units) {
        const seven = Duration.of({ [name]: 7 });
        assert.equal(seven.nanoseconds, 7n * size, name);
        assert.equal(Duration.of({ [name]: -7n }).nanoseconds, -7n * size, name);
        assert.equal(seven.whole(name), 7n, name);
        assert.equal(new Duration(1n - 7n * size).whole(name), -6n, name);
        assert.equal(seven.negated().nanoseconds, -7n * size, name);
        assert.equal(new Timestamp(0).add({ [name]: 7 }).nanoseconds, 7n * size, name);
        assert.equal(seven.negated().negated().valueOf(), 7n * size, name);
    }
    assert.equal(Duration.of({ days: 1, hours: -2, nanoseconds: 3 }).nanoseconds, 79_200_000_000_003n);
    assert.ok(new Duration(1) < new Duration(2) && new Duration(-1) < new Duration(0));
});

test("sums that end at the ends of the range", () => {
    const ends = [FIRST, LAST, FIRST.toOffset(0), LAST.toOffset(0)];
    const [first, last, firstShown, lastShown] = ends, day = { days: 1 }, one = { nanoseconds: 1 };
    for (const end of ends) {
        const isFirst = end === first || end === firstShown, inward = isFirst ? "Add" : "Subtract", outward = isFirst ? "Subtract" : "Add";
        assert.ok(end[`saturating${outward}`](day).equals(end), outward);
        assert.ok(end[`saturating${outward}`](one).equals(end), outward);
        assert.equal(end[`saturating${inward}`](one).since(end).nanoseconds, isFirst ? 1n : -1n, inward);
        refuses("RESULT", () => end[outward.toLowerCase()](one));
    }
    for (const at of [new Timestamp(5), new Timestamp(5).toOffset(-60)]) {
        assert.equal(at.saturatingAdd(day).since(at).nanoseconds, 86_400_000_000_000n);
        assert.equal(at.saturatingSubtract(day).since(at).nanoseconds, -86_400_000_000_000n);
        assert.equal(at.subtract(day).since(at).nanoseconds, -86_400_000_000_000n);
    }
    assert.ok(last > lastShown.subtract(one) && first < firstShown.add(one));
});

test("values that are compared are nanoseconds", () => {
    const at = new Timestamp(0), later = at.add({ nanoseconds: 1 });
    for (const [one, other] of [[at, later], [at.toOffset(60), later.toOffset(-60)], [new Duration(0), later.since(at)]]) {
        assert.deepEqual([one.valueOf(), other.valueOf()], [0n, 1n]);
        assert.ok(one < other && !(other < one));
    }
    assert.equal(LAST.toOffset(-60).valueOf(), LAST.nanoseconds);
});

test("a Date at an offset", () => {
    const at = OffsetDateTime.fromDate(new Date(0), 3_600), before = OffsetDateTime.fromDate(new Date(-1), -5_400);
    assert.deepEqual([at.hour, at.offsetSeconds, OffsetDateTime.fromDate(new Date(0)).hour], [1, 3_600, 0]);
    assert.equal(before.toRfc3339(), "1969-12-31T22:29:59.999-01:30");
});

test("date-times at an offset", () => {
    const at = OffsetDateTime.parse("1996-12-19T16:39:57.5-08:00");
    const { year, month, day, hour, minute, second, nanosecond, offsetSeconds } = at;
    assert.deepEqual([year, month, day, hour, minute, second], [1996, 12, 19, 16, 39, 57]);
    assert.deepEqual([nanosecond, offsetSeconds], [500_000_000, -28_800]);
    assert.equal(at.toOffset(0).toRfc3339(), "1996-12-20T00:39:57.5Z");
    assert.ok(at.toOffset(0).equals(at) && OffsetDateTime.compare(at, at.add({ nanoseconds: 1 })) === -1);
    assert.equal(at.with({ year: 2000, offsetSeconds: 0 }).toRfc3339(), "2000-12-19T16:39:57.5Z");
    assert.equal(at.truncate("hour").toRfc3339(), "1996-12-19T16:00:00-08:00");
    assert.equal(at.subtract({ days: 1 }).since(at).nanoseconds, -86_400_000_000_000n);
    const week = OffsetDateTime.parse("2021-01-03T23:30:00Z");
    assert.deepEqual([week.isoYear, week.isoWeek, week.weekday, week.dayOfYear, week.dayNumber], [2020, 53, 7, 3, 18_630]);
    const end = OffsetDateTime.of({ year: 999_999, month: 12, day: 31 });
    assert.equal(end.saturatingAdd({ days: 2 }).toString(), "+999999-12-31 23:59:59.999999999 +00:00:00");
    assert.equal(end.with({ year: -999_999, month: 1, day: 1 }).saturatingSubtract({ days: 2 }).year, -999_999);
    assert.equal(JSON.stringify(at), '"1996-12-19T16:39:57.5-08:00"');
});

test("parts are tested", () => {
    const day = { year: 2023, month: 2, day: 28 };
    for (const [parts, name] of [
        [{ month: 13 }, "MONTH"],
        [{ month: 258 }, "MONTH"],
        [{ month: -1 }, "MONTH"],
        [{ year: 1_000_000 }, "YEAR"],
        [{ year: 2 ** 32 + 2023 }, "YEAR"],
        [{ day: 32 }, "DAY"],
        [{ day: 284 }, "DAY"],
        [{ day: 29 }, "DAY_OF_MONTH"],
        [{ hour: 24 }, "HOUR"],
        [{ minute: 60 }, "MINUTE"],
        [{ second: 60 }, "SECOND"],
        [{ nanosecond: 1e9 }, "NANOSECOND"],
        [{ offsetSeconds: 93_600 }, "OFFSET_SECONDS"],
        [{ offsetSeconds: 2 ** 32 }, "OFFSET_SECONDS"],
    ]) {
        refuses(name, () => OffsetDateTime.of({ ...day, ...parts }));
        refuses(name, () => OffsetDateTime.of(day).with(parts));
    }
    assert.throws(() => OffsetDateTime.of({ year: 2023, month: 2 }), TypeError);
    assert.throws(() => OffsetDateTime.of({ ...day, hour: 1.5 }), TypeError);
    assert.throws(() => OffsetDateTime.of({ ...day, hours: 1 }), TypeError);
    refuses("OFFSET_SECONDS", () => new Timestamp(0).toOffset(-93_600));
    refuses("RESULT", () => LAST.toOffset(1));
});

test("days in months, and offsets", () => {
    assert.deepEqual([daysInMonth(2024, 2), daysInMonth(1900, 2), daysInMonth(0, 2), daysInMonth(2023, 4)], [29, 28, 29, 30]);
    refuses("MONTH", () => daysInMonth(2024, 0));
    refuses("YEAR", () => daysInMonth(1_000_000, 1));
    assert.deepEqual(["Z", "z", "+02:30", "-00:30", "-23:59"].map(parseOffset), [0, 0, 9_000, -1_800, -86_340]);
    for (const text of ["", "2", "+2", ".5Z", "+02:00 ", "5Z"]) refuses("SYNTAX", () => parseOffset(text));
    refuses("OFFSET_HOUR", () => parseOffset("+24:00"));
    for (const value of [undefined, null, 0, ["Z"], new String("Z"), { toString: () => "Z" }]) {
        assert.throws(() => parseOffset(value), TypeError);
    }
});

test("what names no part is no duration, and no part of a date-time", () => {
    const at = new Timestamp(0), shown = at.toOffset(0);
    const others = [undefined, null, true, NaN, 3600, 5n, "", "5", Symbol("5"), () => 5, [], {}, Object.create(null), new Date(0), new Map([["hours", 1]])];
    for (const value of [...others, at, shown, Object.create({ hours: 1 }), Object.create({ hour: 1 })]) {
        for (const call of ["add", "subtract", "saturatingAdd", "saturatingSubtract"]) {
            assert.throws(() => at[call](value), TypeError, call);
            assert.throws(() => shown[call](value), TypeError, call);
        }
        assert.throws(() => Duration.of(value), TypeError);
        assert.throws(() => shown.with(value), TypeError);
        assert.throws(() => OffsetDateTime.of(value), TypeError);
    }
    assert.throws(() => Duration.of(new Duration(5)), TypeError);
    assert.throws(() => Duration.of({ hours: undefined }), TypeError);
    assert.throws(() => shown.with({ hour: undefined }), TypeError);
    refuses("UNIT", () => at.truncate(["day"]));
    refuses("UNIT", () => at.truncate({ toString: () => "day" }));
    assert.throws(() => new Duration(5).whole(["hours"]), TypeError);
    assert.equal(Duration.of({ hours: -0 }).nanoseconds, 0n);
});

test("a name that each object has names no part", () => {
    const at = new Timestamp(0), shown = at.toOffset(0), day = { year: 1970, month: 1, day: 1 };
    for (const name of Object.getOwnPropertyNames(Object.prototype)) {
        const parts = Object.fromEntries([[name, 5]]), message = new RegExp(`^(?:the date-time|the duration|a duration) has no part ${name}: name `);
        for (const call of [
            () => OffsetDateTime.of({ ...day, ...parts }),
            () => shown.with(parts),
            () => shown.add(parts),
            () => at.subtract(parts),
            () => Duration.of({ hours: 1, ...parts }),
            () => new Duration(5).whole(name),
        ]) {
            assert.throws(call, { name: "TypeError", message }, `${name}: ${call}`);
        }
    }
});

test("a stack that overflows within a call leaves the calls as they were", () => {
    const text = "2024-02-28T23:30:00.123-01:00", at = Timestamp.parse(text), shown = OffsetDateTime.parse(text);
    const moved = () => at.toOffset(60).add({ hours: 1 }).truncate("minute").toRfc3339();
    const calls = [moved, () => at.toRfc3339(), () => shown.toRfc3339(), () => shown.add({ days: 1 }), () => Timestamp.parse(text)];
    for (const call of calls) {
        // The first calls compile what they need. That takes much more of the stack than the calls do.
        for (let round = 0; round < 10; round++) call();
        let places = 0;
        // The stack overflows in the last of these functions. Each function before it leaves the call a little more room, so
        // that the stack overflows in each part of the call, also within the module.
        const deep = () => {
            try {
                deep();
            } catch (error) {
                assert.ok(error instanceof RangeError, error);
            }
            if (places++ >= 500) return;
            try {
                call();
            } catch (error) {
                assert.ok(error instanceof RangeError, error);
            }
        };
        deep();
        assert.ok(places >= 500);
        assert.equal(moved(), "2024-02-29T01:31:00+00:01");
    }
});

test("values are told from others by their parts", () => {
    const read = (text) => [Timestamp.parse(text), OffsetDateTime.parse(text), Timestamp.parse(text).since(new Timestamp(0))];
    assert.deepStrictEqual(read("2024-02-29T00:00:00Z"), read("2024-02-29T00:00:00z"));
    read("2024-02-29T00:00:00Z").forEach((value, at) => {
        assert.notDeepStrictEqual(value, read("2024-02-29T00:00:00.000000001Z")[at]);
        assert.deepEqual(Object.keys(value), []);
    });
    const [at, shown] = read("2024-02-29T00:00:00Z");
    for (const other of [shown, new Date(0), {}, 0, 5n, "", null, undefined, Symbol("other"), Timestamp, Timestamp.prototype]) {
        for (const call of [() => at.since(other), () => at.equals(other), () => Timestamp.compare(at, other), () => Timestamp.compare(other, at)]) {
            assert.throws(call, { name: "TypeError", message: /must be a Timestamp, not / });
        }
    }
    for (const other of [at, new Date(0), {}, 0, 5n, "", null, undefined, Symbol("other"), OffsetDateTime, OffsetDateTime.prototype]) {
        const calls = [() => shown.since(other), () => shown.equals(other), () => OffsetDateTime.compare(other, shown)];
        for (const call of calls) assert.throws(call, { name: "TypeError", message: /must be an OffsetDateTime, not / });
    }
    for (const other of [at, shown, {}, 0, 5n, "1970-01-01", null, undefined]) {
        for (const type of [Timestamp, OffsetDateTime]) {
            assert.throws(() => type.fromDate(other), { name: "TypeError", message: /must be a Date, not / });
        }
    }
});

test("zeros have no sign, and parts are copied", () => {
    const parts = { year: -0, month: 1, day: 1, hour: -0, nanosecond: -0, offsetSeconds: -0 };
    const plain = OffsetDateTime.of({ year: 0, month: 1, day: 1 });
    assert.deepStrictEqual(OffsetDateTime.of(parts), plain);
    assert.deepStrictEqual(plain.with({ minute: -0 }), plain);
    assert.deepStrictEqual(new Timestamp(-0, -0), new Timestamp(0));
    const made = OffsetDateTime.of(parts);
    parts.year = 1;
    assert.equal(made.year, 0);
});

test("values cannot be changed", () => {
    const at = new Timestamp(0);
    assert.throws(() => { at.seconds = 5n; }, TypeError);
    assert.throws(() => { OffsetDateTime.parse("2024-02-29T00:00:00Z").day = 31; }, TypeError);
});
