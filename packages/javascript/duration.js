import { BILLION, partNames, textual, toBigInt } from "./library.js";

// The nanoseconds of each part. A day has 24 hours.
const PARTS = {
    days: 86_400_000_000_000n,
    hours: 3_600_000_000_000n,
    minutes: 60_000_000_000n,
    seconds: BILLION,
    milliseconds: 1_000_000n,
    microseconds: 1_000n,
    nanoseconds: 1n,
};

/** The key of the nanoseconds, as of the parts in a timestamp. */
const NANOSECONDS = Symbol("nanoseconds");

/** A number of nanoseconds, of either sign. */
export class Duration {
    constructor(nanoseconds) {
        this[NANOSECONDS] = toBigInt(nanoseconds, "nanoseconds");
    }

    static of(parts) {
        let total = 0n;
        for (const name of partNames(parts, PARTS, "duration")) total += toBigInt(parts[name], name) * PARTS[name];
        return new Duration(total);
    }

    get nanoseconds() {
        return this[NANOSECONDS];
    }

    /** The whole ones of a part, as `hours`. The rest, of either sign, is dropped. */
    whole(part) {
        if (!Object.hasOwn(PARTS, textual(part))) throw new TypeError(`a duration has no part ${part}: name ${Object.keys(PARTS).join(", ")}`);
        return this[NANOSECONDS] / PARTS[part];
    }

    negated() {
        return new Duration(-this[NANOSECONDS]);
    }

    /** The decimal of its seconds, as `-1.5 s`. */
    toString() {
        const size = this[NANOSECONDS] < 0n ? -this[NANOSECONDS] : this[NANOSECONDS];
        const fraction = String(size % PARTS.seconds).padStart(9, "0").replace(/0+$/, "");
        return `${this[NANOSECONDS] < 0n ? "-" : ""}${size / PARTS.seconds}${fraction && "." + fraction} s`;
    }

    /** Its nanoseconds, in decimal digits, since JSON has no `BigInt`. */
    toJSON() {
        return String(this[NANOSECONDS]);
    }

    valueOf() {
        return this[NANOSECONDS];
    }
}

/** The nanoseconds of a duration, or of the parts of one. */
export function nanosecondsOf(duration) {
    return (duration instanceof Duration ? duration : Duration.of(duration)).nanoseconds;
}
