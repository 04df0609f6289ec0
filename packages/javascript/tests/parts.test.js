// Each part at the ends of its range, and where fewer bits would hold another number.
import assert from "node:assert/strict";
import test from "node:test";

import { OffsetDateTime, Timestamp, daysInMonth } from "muxandu";

import { refuses } from "./refuses.js";

/** The least and the most of each part, and the name by which others are refused. */
const RANGES = {
    year: [-999_999, 999_999, "YEAR"],
    month: [1, 12, "MONTH"],
    day: [1, 31, "DAY"],
    hour: [0, 23, "HOUR"],
    minute: [0, 59, "MINUTE"],
    second: [0, 59, "SECOND"],
    nanosecond: [0, 999_999_999, "NANOSECOND"],
    offsetSeconds: [-93_599, 93_599, "OFFSET_SECONDS"],
};

const WIDTHS = [7, 8, 15, 16, 31, 32, 53].map((bits) => 2 ** bits);

/** The numbers around the ends of a range, and those that fewer bits would hold as one of the
 * range. */
function numbersAround(least, most) {
    const ends = [least - 1, least, most, most + 1, -1, 0, 1];
    const wide = WIDTHS.flatMap((width) => ends.flatMap((end) => [width + end, end - width]));
    return [...new Set([...ends, ...wide, 1e300, -1e300])];
}

/** Sees that a call takes each number of a part's range, and refuses each other one by name. It
 * returns the part. */
function keepsRange(name, call) {
    const [least, most, refusal] = RANGES[name];
    for (const number of numbersAround(least, most)) {
        if (number >= least && number <= most) assert.equal(call(number), number, `${name}: ${number}`);
        else refuses(refusal, () => call(number), `${name}: ${number}`);
    }
}

const DAY = { year: 2024, month: 1, day: 1 };

for (const name of Object.keys(RANGES)) {
    test(`the range of ${name}`, () => {
        keepsRange(name, (number) => OffsetDateTime.of({ ...DAY, [name]: number })[name]);
        keepsRange(name, (number) => new OffsetDateTime({ ...DAY, [name]: number })[name]);
        keepsRange(name, (number) => OffsetDateTime.of(DAY).with({ [name]: number })[name]);
    });
}

test("the range of an offset that is given", () => {
    const at = new Timestamp(0), shown = OffsetDateTime.of(DAY);
    keepsRange("offsetSeconds", (number) => at.toOffset(number).offsetSeconds);
    keepsRange("offsetSeconds", (number) => shown.toOffset(number).offsetSeconds);
    keepsRange("offsetSeconds", (number) => OffsetDateTime.fromDate(new Date(0), number).offsetSeconds);
});

test("the range of a nanosecond that is given", () => {
    keepsRange("nanosecond", (number) => new Timestamp(0, number).nanosecond);
});

test("the ranges of a month's days", () => {
    keepsRange("year", (number) => (daysInMonth(number, 1) === 31 ? number : NaN));
    keepsRange("month", (number) => (daysInMonth(2023, number) === new Date(Date.UTC(2023, number, 0)).getUTCDate() ? number : NaN));
});
