import { MISSING, columns } from "./column_calls.js";
import { nanosecondsOf } from "./duration.js";
import { KNOWN, refuseType, textual } from "./library.js";
import { HELD, unitNumber } from "./moment.js";
import { OffsetDateTime, dateTimeOf } from "./offset_date_time.js";
import { nameOf } from "./refused.js";
import { rulesOf } from "./zone_calls.js";

/** The key of the rows and their statuses. */
const COLUMN = Symbol("column");

const columnOf = (column) => new Moments(KNOWN, column);

/** Each item of a sequence, where null is a gap. */
function items(values, made) {
    if (typeof values === "string" || typeof values?.[Symbol.iterator] !== "function") refuseType("the argument", "a sequence", values);
    return Array.from(values, (value) => (value === null ? null : made(value)));
}

const partsOf = (value) => (value instanceof OffsetDateTime ? value[HELD] : refuseType("an item", "an OffsetDateTime", value));

/** A column of moments: instants, each with its offset, or gaps. */
export class Moments {
    constructor(dateTimes, known) {
        this[COLUMN] = dateTimes === KNOWN ? known : columns.of(items(dateTimes, partsOf));
    }

    static of(dateTimes) {
        return new Moments(dateTimes);
    }

    static parse(texts) {
        return columnOf(columns.read(items(texts, textual)));
    }

    static fromMilliseconds(milliseconds, offsetSeconds = 0) {
        const values = ArrayBuffer.isView(milliseconds) ? milliseconds : items(milliseconds, (value) => value);
        return columnOf(columns.ofMilliseconds(values, offsetSeconds));
    }

    get length() {
        return this[COLUMN].statuses.length;
    }

    /** The date-time of a row, or null for a gap. */
    at(index) {
        if (!Number.isInteger(index)) refuseType("index", "an integer", index);
        const parts = index >= 0 && index < this.length ? columns.clocksAt(this[COLUMN], index) : null;
        return parts && dateTimeOf(parts);
    }

    /** The name of the error of a row, or null for a moment, and for a gap that was given. */
    refusalAt(index) {
        const status = this[COLUMN].statuses[index] ?? 0;
        return status === 0 || status === MISSING ? null : nameOf(status);
    }

    add(duration) {
        return columnOf(columns.add(this[COLUMN], nanosecondsOf(duration)));
    }

    addMonths(months) {
        return columnOf(columns.addMonths(this[COLUMN], months));
    }

    toOffset(offsetSeconds) {
        return columnOf(columns.toOffset(this[COLUMN], offsetSeconds));
    }

    toZone(zone) {
        return columnOf(columns.toZone(this[COLUMN], rulesOf(zone)));
    }

    truncate(unit) {
        return columnOf(columns.truncate(this[COLUMN], unitNumber(unit)));
    }

    toMilliseconds() {
        return columns.milliseconds(this[COLUMN]);
    }

    toOffsets() {
        return columns.offsets(this[COLUMN]);
    }

    toDayNumbers() {
        return columns.dayNumbers(this[COLUMN]);
    }

    toParts() {
        return columns.parts(this[COLUMN]);
    }

    toRfc3339() {
        return columns.rfc3339(this[COLUMN]);
    }

    /** The rows as C has them: a second, a nanosecond and an offset, in 16 bytes. */
    toBytes() {
        return this[COLUMN].rows.slice();
    }

    *[Symbol.iterator]() {
        for (let index = 0; index < this.length; index++) yield this.at(index);
    }
}
