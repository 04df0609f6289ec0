// Time zones beside those of Intl, and on values that other programs gave.
import assert from "node:assert/strict";
import { existsSync, readFileSync } from "node:fs";
import { join } from "node:path";
import test from "node:test";

import { Moments, OffsetDateTime, PlainDateTime, Refused, Timestamp, Zone } from "muxandu";

import { refuses } from "./refuses.js";

const FOLDER = "/usr/share/zoneinfo";
const OTHER_FOLDER = { skip: existsSync(FOLDER) ? false : `${FOLDER} is not there` };

// How many instants each zone is asked about, and how many zones may differ where Intl has another release of the time zone database.
const ROUNDS = Math.max(2, Math.floor(Number(process.env.ROUNDS ?? 10_000) / 500));
const MOST_CHANGED = 8;

// The seconds from 1970 to 2100, in which the zones of both are told by the same rules.
const MOST = 4_102_444_800;

let state = 1n;

/** A number from 0 to below 1. */
function random() {
    state = (state * 6364136223846793005n + 1442695040888963407n) & ((1n << 64n) - 1n);
    return Number(state >> 11n) / 2 ** 53;
}

const NAMES = OTHER_FOLDER.skip ? [] : Intl.supportedValuesOf("timeZone").filter((name) => existsSync(join(FOLDER, name)));

/** The offset of a zone at a second, by Intl. */
function offsetsOfIntl(timeZone) {
    const form = new Intl.DateTimeFormat("en", { timeZone, timeZoneName: "longOffset" });
    return (second) => {
        const { value } = form.formatToParts(second * 1000).find(({ type }) => type === "timeZoneName");
        const [, sign, hours, minutes, seconds = 0] = value.match(/([+-])(\d+):(\d+):?(\d+)?/) ?? [0, "+", 0, 0];
        return (sign === "-" ? -1 : 1) * (hours * 3600 + minutes * 60 + Number(seconds));
    };
}

/** The release of the machine's time zone database. */
function release() {
    const path = join(FOLDER, "tzdata.zi");
    return existsSync(path) ? readFileSync(path, "utf8").match(/^# version (\S+)/)?.[1] : undefined;
}

/** What a zone has at a second: its offset by two calls, and the wall clock. */
function shownAt(zone, second) {
    const at = new Timestamp(second), shown = at.toZone(zone);
    assert.equal(shown.offsetSeconds, zone.offsetAt(at));
    assert.equal(zone.offsetAt(shown), shown.offsetSeconds);
    assert.ok(shown.toTimestamp().equals(at));
    return shown;
}

test("the offsets of all zones beside Intl", OTHER_FOLDER, (context) => {
    assert.ok(NAMES.length > 300, `Intl has ${NAMES.length} zones of this machine`);
    const changed = new Set();
    for (const name of NAMES) {
        const zone = Zone.open(name), offsetOf = offsetsOfIntl(name);
        for (let round = 0; round < ROUNDS; round++) {
            const second = Math.floor(random() * MOST);
            if (shownAt(zone, second).offsetSeconds !== offsetOf(second)) changed.add(name);
        }
    }
    const [here, there] = [release(), process.versions.tz];
    if (changed.size > 0) context.diagnostic(`${[...changed]} differ: Intl has release ${there}, the machine ${here}`);
    assert.ok(changed.size <= (here === there ? 0 : MOST_CHANGED), [...changed].join());
});

test("the wall clocks of all zones have their instants", OTHER_FOLDER, () => {
    for (const name of NAMES) {
        const zone = Zone.open(name);
        for (let round = 0; round < ROUNDS / 2; round++) {
            const at = new Timestamp(Math.floor(random() * MOST), 5), wall = at.toZone(zone).toPlainDateTime();
            const { instants, gap } = zone.instantsOf(wall);
            assert.ok(instants.some((each) => each.equals(at)), `${name} ${wall}`);
            assert.equal(gap, null);
            const ends = ["earlier", "later"].map((disambiguation) => wall.atZone(zone, { disambiguation }).toTimestamp());
            assert.ok(instants[0].equals(ends[0]) && instants.at(-1).equals(ends[1]), `${name} ${wall}`);
        }
    }
});

test("next to each transition Intl has the offsets of both sides", OTHER_FOLDER, () => {
    for (const name of ["Europe/Berlin", "America/New_York", "Australia/Lord_Howe", "Asia/Kathmandu", "America/Sao_Paulo"]) {
        const zone = Zone.open(name), offsetOf = offsetsOfIntl(name);
        let count = 0;
        for (let at = new Timestamp(0); at.seconds < MOST; count++) {
            const next = zone.nextTransition(at);
            if (next === null) break;
            const second = Number(next.at.seconds);
            assert.deepEqual([offsetOf(second - 1), offsetOf(second)], [next.before.offsetSeconds, next.after.offsetSeconds], `${name} ${next.at}`);
            assert.ok(zone.previousTransition(next.at.add({ nanoseconds: 1 })).at.equals(next.at));
            at = next.at;
        }
        assert.ok(count > 0, name);
    }
});

// The clocks of Berlin in 2024, by Python's zoneinfo and Temporal's choices.
const RULE = "CET-1CEST,M3.5.0,M10.5.0/3";

/** What the choices of a wall clock are. */
const choicesOf = (wall, zone) => ["compatible", "earlier", "later"].map((disambiguation) => wall.atZone(zone, { disambiguation }).toRfc3339());

for (const [what, options, made] of [
    ["the file of Berlin", OTHER_FOLDER, () => Zone.open("Europe/Berlin")],
    ["the rule of Berlin", {}, () => Zone.fromRule(RULE)],
]) {
    test(`the gap and the fold by ${what}`, options, () => {
        const zone = made(), gap = PlainDateTime.parse("2024-03-31T02:30:00"), fold = PlainDateTime.parse("2024-10-27T02:30:00.5");
        assert.deepEqual(choicesOf(gap, zone), ["2024-03-31T03:30:00+02:00", "2024-03-31T01:30:00+01:00", "2024-03-31T03:30:00+02:00"]);
        assert.deepEqual(choicesOf(fold, zone), ["2024-10-27T02:30:00.5+02:00", "2024-10-27T02:30:00.5+02:00", "2024-10-27T02:30:00.5+01:00"]);
        assert.equal(gap.atZone(zone).toRfc3339(), "2024-03-31T03:30:00+02:00");
        refuses("GAP", () => gap.atZone(zone, { disambiguation: "reject" }));
        refuses("FOLD", () => fold.atZone(zone, { disambiguation: "reject" }));
        const single = PlainDateTime.parse("2024-12-24T18:00:00");
        assert.equal(single.atZone(zone, { disambiguation: "reject" }).toRfc3339(), "2024-12-24T18:00:00+01:00");

        const skipped = zone.instantsOf(gap), twice = zone.instantsOf(fold);
        assert.deepEqual([skipped.instants, String(skipped.gap.at)], [[], "2024-03-31T01:00:00Z"]);
        assert.deepEqual([String(skipped.gap.start), String(skipped.gap.end)], ["2024-03-31T02:00:00", "2024-03-31T03:00:00"]);
        assert.deepEqual([twice.instants.map(String), twice.gap], [["2024-10-27T00:30:00.5Z", "2024-10-27T01:30:00.5Z"], null]);
        assert.deepEqual(zone.instantsOf(single).instants.map(String), ["2024-12-24T17:00:00Z"]);
        for (const [wall, count] of [["02:00:00", 0], ["01:59:59.999999999", 1], ["03:00:00", 1], ["02:59:59.999999999", 0]]) {
            assert.equal(zone.instantsOf(PlainDateTime.parse(`2024-03-31T${wall}`)).instants.length, count, wall);
        }

        const next = zone.nextTransition(Timestamp.parse("2024-07-01T00:00:00Z"));
        assert.equal(String(next.at), "2024-10-27T01:00:00Z");
        assert.deepEqual([next.before, next.after], [{ offsetSeconds: 7_200, isDaylight: true }, { offsetSeconds: 3_600, isDaylight: false }]);
        assert.equal(String(zone.previousTransition(next.at).at), "2024-03-31T01:00:00Z");
    });
}

test("zones of other kinds", () => {
    const fixed = Zone.fromRule("<+0530>-5:30");
    assert.deepEqual([fixed.offsetAt(new Timestamp(0)), fixed.nextTransition(new Timestamp(0)), fixed.previousTransition(new Timestamp(0))], [19_800, null, null]);
    assert.deepEqual([fixed.name, String(fixed)], [null, "a time zone without a name"]);
    const south = Zone.fromRule("<+1030>-10:30<+11>-11,M10.1.0,M4.1.0");
    assert.equal(Timestamp.parse("2024-01-01T00:00:00Z").toZone(south).toRfc3339(), "2024-01-01T11:00:00+11:00");
    assert.equal(OffsetDateTime.parse("2024-07-01T00:00:00+02:00").toZone(south).toRfc3339(), "2024-07-01T08:30:00+10:30");
    refuses("RESULT", () => new Timestamp(31_494_784_780_799n).toZone(south));
    const far = Timestamp.parse("9999-07-01T00:00:00Z");
    assert.equal(far.toZone(Zone.fromRule(RULE)).toRfc3339(), "9999-07-01T02:00:00+02:00");
});

test("the clocks of Berlin", OTHER_FOLDER, () => {
    const zone = Zone.open("Europe/Berlin"), next = zone.nextTransition(Timestamp.parse("2024-07-01T00:00:00Z"));
    assert.equal(String(next.at), "2024-10-27T01:00:00Z");
    assert.deepEqual([next.before, next.after], [{ offsetSeconds: 7_200, isDaylight: true }, { offsetSeconds: 3_600, isDaylight: false }]);
    assert.equal(String(zone.previousTransition(next.at).at), "2024-03-31T01:00:00Z");
    assert.equal(Timestamp.parse("9999-07-01T00:00:00Z").toZone(zone).toRfc3339(), "9999-07-01T02:00:00+02:00");
    assert.equal(OffsetDateTime.parse("2024-07-01T00:00:00-02:00").toZone(zone).toRfc3339(), "2024-07-01T04:00:00+02:00");
    refuses("RESULT", () => new Timestamp(31_494_784_780_799n).toZone(zone));
    const fixed = Zone.open("Etc/GMT-14");
    assert.deepEqual([fixed.offsetAt(new Timestamp(0)), fixed.nextTransition(new Timestamp(0)), fixed.previousTransition(new Timestamp(0))], [50_400, null, null]);
    assert.equal(zone.offsetAt(new Timestamp(0)), 3_600);
    const nameless = Zone.fromBytes(readFileSync(join(FOLDER, "UTC")));
    assert.deepEqual([nameless.name, String(nameless)], [null, "a time zone without a name"]);
});

/** The refusal of a call, its place and its reason. */
function faultOf(call) {
    try {
        call();
    } catch (error) {
        assert.ok(error instanceof Refused, String(error));
        return [error.refusal, error.place, error.reason];
    }
    return null;
}

test("files and rules that are none say where and why", () => {
    const header = Uint8Array.from("TZif3", (character) => character.charCodeAt(0));
    assert.deepEqual(faultOf(() => Zone.fromBytes(new Uint8Array(0))), ["SYNTAX", 0, "FILE_LENGTH"]);
    assert.deepEqual(faultOf(() => Zone.fromBytes(header)), ["SYNTAX", 5, "FILE_LENGTH"]);
    assert.deepEqual(faultOf(() => Zone.fromBytes(new Uint8Array(44))), ["SYNTAX", 0, "FILE_MAGIC"]);
    assert.deepEqual(faultOf(() => Zone.fromBytes(new Uint8Array(237_000).buffer)), ["SYNTAX", 0, "FILE_MAGIC"]);
    assert.deepEqual(faultOf(() => Zone.fromRule("CET-1CEST")), ["SYNTAX", 9, "RULE_DIGIT"]);
    assert.deepEqual(faultOf(() => Zone.fromRule("CET-1CEST,M3.5.0,M13.5.0")), ["SYNTAX", 18, "RULE_RANGE"]);
    assert.deepEqual(faultOf(() => Zone.fromRule("<é>1")), ["SYNTAX", 1, "RULE_NAME"]);
    assert.deepEqual(faultOf(() => Zone.fromRule("CET-1é")), ["SYNTAX", 5, "RULE_NAME"]);
    refuses("LENGTH", () => Zone.fromBytes(new Uint8Array(250_000)));
    for (const value of [undefined, null, 5, "TZif", [84, 90]]) {
        assert.throws(() => Zone.fromBytes(value), TypeError);
        assert.throws(() => new Zone(value), TypeError);
        if (typeof value !== "string") assert.throws(() => Zone.fromRule(value), TypeError);
    }
});

test("other values are no zones and no instants", () => {
    const zone = Zone.fromRule(RULE), at = new Timestamp(0), wall = PlainDateTime.parse("1970-01-01T00:00:00");
    for (const value of [undefined, null, "UTC", at, {}]) {
        assert.throws(() => at.toZone(value), TypeError);
        assert.throws(() => at.toOffset(0).toZone(value), TypeError);
        assert.throws(() => wall.atZone(value), TypeError);
        assert.throws(() => zone.instantsOf(value), TypeError);
        assert.throws(() => Moments.of([at.toOffset(0)]).toZone(value), TypeError);
        if (value !== at) assert.throws(() => zone.offsetAt(value), TypeError);
    }
    for (const disambiguation of ["first", "toString", 1, null]) refuses("CHOICE", () => wall.atZone(zone, { disambiguation }));
});

test("zones are opened by their names alone", OTHER_FOLDER, () => {
    assert.deepEqual([Zone.open("America/Argentina/Buenos_Aires").name, String(Zone.open("Etc/GMT+5"))], ["America/Argentina/Buenos_Aires", "Etc/GMT+5"]);
    assert.equal(Zone.open("Etc/GMT+5").offsetAt(new Timestamp(0)), -18_000);
    for (const name of ["No/Where", "Europe", "Europe/Berlin/Mitte", "", ".", "..", "../zoneinfo/UTC", "/usr/share/zoneinfo/UTC", "Europe/../UTC"]) {
        refuses("ZONE_NAME", () => Zone.open(name), name);
    }
    for (const name of ["Europe//Berlin", "Europe/", "./UTC", ".UTC", "UTC\0", "UTC\n", "Europe\\Berlin", "é", "x".repeat(5_000)]) {
        refuses("ZONE_NAME", () => Zone.open(name), name);
    }
    assert.equal(faultOf(() => Zone.open("tzdata.zi"))[0], "SYNTAX");
    for (const value of [undefined, null, 5, ["UTC"]]) assert.throws(() => Zone.open(value), TypeError);
    process.env.TZDIR = join(FOLDER, "Europe");
    try {
        assert.equal(Zone.open("Berlin").offsetAt(new Timestamp(0)), 3_600);
        refuses("ZONE_NAME", () => Zone.open("Europe/Berlin"));
    } finally {
        delete process.env.TZDIR;
    }
});

test("a browser opens no file", OTHER_FOLDER, async () => {
    const { Zone: OfBrowser } = await import(new URL("index.js", import.meta.resolve ? import.meta.resolve("muxandu") : "file:///"));
    assert.throws(() => OfBrowser.open("UTC"), /TypeError: Zone.open reads files/);
    assert.equal(OfBrowser.fromBytes(new Uint8Array(readFileSync(join(FOLDER, "UTC")))).offsetAt(new Timestamp(0)), 0);
});

test("a column goes to a zone", () => {
    const zone = Zone.fromRule(RULE), texts = ["2024-03-31T00:59:59.5Z", null, "2024-03-31T03:00:00+02:00", "2023-02-29T00:00:00Z", "2024-10-27T01:00:00Z"];
    const made = Moments.parse(texts).toZone(zone);
    assert.deepEqual(made.toRfc3339(), ["2024-03-31T01:59:59.5+01:00", null, "2024-03-31T03:00:00+02:00", null, "2024-10-27T02:00:00+01:00"]);
    assert.deepEqual([0, 1, 2, 3, 4].map((row) => made.refusalAt(row)), [null, null, null, "DAY_OF_MONTH", null]);
    const last = new Timestamp(31_494_784_780_799n), ends = Moments.of([last, new Timestamp(0), last, last].map((at) => at.toOffset(0))).toZone(zone);
    assert.deepEqual([0, 1, 2, 3].map((row) => ends.refusalAt(row)), ["RESULT", null, "RESULT", "RESULT"]);
    assert.equal(String(ends.at(1)), "1970-01-01T01:00:00+01:00");
    const seconds = Float64Array.from({ length: 3_000 }, () => Math.floor(random() * MOST));
    const many = Moments.fromMilliseconds(seconds.map((second) => second * 1000)).toZone(zone), offsets = many.toOffsets();
    for (const [row, second] of seconds.entries()) assert.equal(offsets[row], zone.offsetAt(new Timestamp(second)));
});

test("wall clocks without an offset", () => {
    const wall = PlainDateTime.of({ year: 2024, month: 2, day: 29, hour: 12, minute: 34, second: 56, nanosecond: 500_000_000 });
    assert.deepEqual([String(wall), wall.toRfc3339(), JSON.stringify(wall)], ["2024-02-29T12:34:56.5", "2024-02-29T12:34:56.5", '"2024-02-29T12:34:56.5"']);
    assert.ok(wall.equals(PlainDateTime.parse("2024-02-29T12:34:56.5")));
    assert.deepEqual([wall.weekday, wall.dayOfYear, wall.isoWeek, wall.isoYear, wall.dayNumber], [4, 60, 9, 2024, 19_782]);
    assert.equal(String(wall.addMonths(12).add({ days: 1 }).with({ hour: 0 }).truncate("minute")), "2025-03-01T00:34:00");
    assert.equal(wall.since(PlainDateTime.parse("2024-02-28T12:34:56.5")).whole("hours"), 24n);
    assert.equal(wall.atOffset(-3_600).toRfc3339(), "2024-02-29T12:34:56.5-01:00");
    assert.ok(wall.atOffset(-3_600).toPlainDateTime().equals(wall));
    assert.ok(wall < wall.add({ nanoseconds: 1 }) && PlainDateTime.compare(wall, wall) === 0);
    const old = PlainDateTime.of({ year: -4712, month: 1, day: 1 });
    assert.equal(String(old), "-004712-01-01T00:00:00");
    refuses("NO_TEXT", () => old.toRfc3339());
    for (const [text, name] of [["2024-02-29T12:34:56Z", "SYNTAX"], ["2023-02-29T12:34:56", "DAY_OF_MONTH"], ["2024-02-29", "SYNTAX"]]) {
        refuses(name, () => PlainDateTime.parse(text));
    }
    refuses("OFFSET_SECONDS", () => wall.atOffset(93_600));
    refuses("HOUR", () => wall.with({ hour: 24 }));
    assert.throws(() => wall.with({ offsetSeconds: 0 }), TypeError);
    assert.throws(() => PlainDateTime.of({ year: 2024, month: 2, day: 29, offsetSeconds: 0 }), TypeError);
    assert.throws(() => wall.equals(wall.atOffset(0)), TypeError);
});
