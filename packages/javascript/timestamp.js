import { BILLION, KNOWN, refuseType, splitNanoseconds, timestamps, toBigInt } from "./library.js";
import { HELD, momentClass } from "./moment.js";
import { dateTimeOf } from "./offset_date_time.js";
import { refuse } from "./refused.js";
import { rulesOf, zones } from "./zone_calls.js";

// The milliseconds that a Date holds, of either sign.
const MOST_OF_DATE = 8_640_000_000_000_000n;

/** The timestamp of parts that the library has given. */
export const timestampOf = (parts) => new Timestamp(KNOWN, parts);

/** An instant. */
export class Timestamp extends momentClass(timestamps, "a Timestamp", timestampOf) {
    constructor(seconds, nanosecond = 0) {
        super(seconds === KNOWN ? nanosecond : timestamps.checked({ seconds: toBigInt(seconds, "seconds"), nanosecond }));
    }

    static fromMilliseconds(milliseconds) {
        return Timestamp.fromNanoseconds(toBigInt(milliseconds, "milliseconds") * 1_000_000n);
    }

    static fromMicroseconds(microseconds) {
        return Timestamp.fromNanoseconds(toBigInt(microseconds, "microseconds") * 1_000n);
    }

    static fromNanoseconds(nanoseconds) {
        const { seconds, nanosecond } = splitNanoseconds(toBigInt(nanoseconds, "nanoseconds"));
        return new Timestamp(seconds, nanosecond);
    }

    static fromDate(date) {
        if (typeof date?.getTime !== "function") refuseType("the argument", "a Date", date);
        const milliseconds = date.getTime();
        return Number.isNaN(milliseconds) ? refuse("DATE") : Timestamp.fromMilliseconds(milliseconds);
    }

    static now() {
        return Timestamp.fromMilliseconds(Date.now());
    }

    get seconds() {
        return this[HELD].seconds;
    }

    get nanosecond() {
        return this[HELD].nanosecond;
    }

    get milliseconds() {
        return this.seconds * 1_000n + BigInt(Math.floor(this.nanosecond / 1_000_000));
    }

    get microseconds() {
        return this.seconds * 1_000_000n + BigInt(Math.floor(this.nanosecond / 1_000));
    }

    get nanoseconds() {
        return this.seconds * BILLION + BigInt(this.nanosecond);
    }

    toOffset(offsetSeconds) {
        return dateTimeOf(timestamps.toClocks(this[HELD], offsetSeconds));
    }

    toZone(zone) {
        return dateTimeOf(zones.toClocks(rulesOf(zone), this[HELD]));
    }

    toDate() {
        const { milliseconds } = this;
        if (milliseconds < -MOST_OF_DATE || milliseconds > MOST_OF_DATE) refuse("RESULT");
        return new Date(Number(milliseconds));
    }

    toRfc3339Nanos() {
        return timestamps.rfc3339Nanos(this[HELD]);
    }

    toString() {
        return this.toOffset(0).toString();
    }

    valueOf() {
        return this.nanoseconds;
    }
}
