// Random instants beside JavaScript's own Date.
import assert from "node:assert/strict";
import test from "node:test";

import { OffsetDateTime, Refused, Timestamp } from "muxandu";

const ROUNDS = Number(process.env.ROUNDS ?? 100_000);

// The milliseconds that a Date holds, of either sign, less two days.
const MOST = 8.64e15 - 2 * 86_400_000;

let state = 1n;

/** A number from 0 to below 1. */
function random() {
    state = (state * 6364136223846793005n + 1442695040888963407n) & ((1n << 64n) - 1n);
    return Number(state >> 11n) / 2 ** 53;
}

const between = (least, most) => Math.floor(least + random() * (most - least + 1));

/** A millisecond of the whole range of Date, of its years of four digits, or of this age. */
function someMillisecond(round) {
    if (round % 3 === 0) return between(-MOST, MOST);
    return round % 3 === 1 ? between(-62_167_219_200_000, 253_402_300_799_999) : between(-(2 ** 41), 2 ** 42);
}

test(`${ROUNDS} random instants beside Date`, () => {
    for (let round = 0; round < ROUNDS; round++) {
        const millisecond = someMillisecond(round), offset = between(-86_399, 86_399);
        const date = new Date(millisecond), wall = new Date(millisecond + offset * 1000);
        const at = Timestamp.fromDate(date), shown = at.toOffset(offset);
        const parts = [shown.year, shown.month, shown.day, shown.hour, shown.minute, shown.second, shown.nanosecond];
        assert.deepEqual(parts, [
            wall.getUTCFullYear(), wall.getUTCMonth() + 1, wall.getUTCDate(), wall.getUTCHours(), wall.getUTCMinutes(),
            wall.getUTCSeconds(), wall.getUTCMilliseconds() * 1_000_000,
        ]);
        assert.equal(shown.weekday % 7, wall.getUTCDay());
        const start = new Date(0);
        start.setUTCFullYear(wall.getUTCFullYear(), 0, 1);
        assert.equal(shown.dayOfYear, Math.floor((wall - start) / 86_400_000) + 1);
        assert.equal(shown.toDate().getTime(), millisecond);
        const other = someMillisecond(round + 1);
        assert.equal(at.since(Timestamp.fromMilliseconds(other)).nanoseconds, BigInt(millisecond - other) * 1_000_000n);
        const [year, month, day] = parts, midnight = Math.floor(wall / 86_400_000) * 86_400_000;
        assert.equal(OffsetDateTime.of({ year, month, day }).toDate().getTime(), midnight);
    }
});

test(`${ROUNDS} random texts beside Date`, () => {
    for (let round = 0; round < ROUNDS; round++) {
        const millisecond = between(-62_167_219_200_000, 253_402_300_799_999), date = new Date(millisecond);
        assert.equal(Timestamp.parse(date.toISOString()).milliseconds, BigInt(millisecond));
        const text = Timestamp.fromDate(date).toRfc3339();
        assert.equal(Date.parse(text), millisecond);
        assert.equal(text, date.toISOString().replace(/\.?0*Z$/, "Z"));
    }
});

test("what a Date does not hold", () => {
    assert.throws(() => Timestamp.fromDate(new Date(NaN)), (error) => error instanceof Refused && error.refusal === "DATE");
    const last = Timestamp.fromMilliseconds(8_640_000_000_000_000n);
    assert.equal(last.add({ nanoseconds: 999_999 }).toDate().getTime(), 8.64e15);
    assert.throws(() => last.add({ milliseconds: 1 }).toDate(), (error) => error.refusal === "RESULT");
    assert.equal(new Timestamp(-1, 999_999_999).toDate().getTime(), -1);
    assert.ok(Math.abs(Date.now() - Number(Timestamp.now().milliseconds)) < 60_000);
});
