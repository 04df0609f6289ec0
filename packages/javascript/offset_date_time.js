import { clockClass } from "./clock.js";
import { KNOWN, clocks, days, textual } from "./library.js";
import { HELD } from "./moment.js";
import { plainOf } from "./plain_date_time.js";
import { Refused, refuse } from "./refused.js";
import { Timestamp, timestampOf } from "./timestamp.js";

/** The date-time of parts that the library has given. */
export const dateTimeOf = (parts) => new OffsetDateTime(KNOWN, parts);

const MIDNIGHT_IN_UTC = { hour: 0, minute: 0, second: 0, nanosecond: 0, offsetSeconds: 0 };

/** A date and a time of day at an offset from UTC. */
export class OffsetDateTime extends clockClass(clocks, "an OffsetDateTime", dateTimeOf, MIDNIGHT_IN_UTC) {
    static parseLeap(text) {
        const { parts, isLeap } = clocks.readLeap(text);
        return { dateTime: dateTimeOf(parts), isLeap };
    }

    static fromDate(date, offsetSeconds = 0) {
        return Timestamp.fromDate(date).toOffset(offsetSeconds);
    }

    get offsetSeconds() {
        return this[HELD].offsetSeconds;
    }

    toOffset(offsetSeconds) {
        return dateTimeOf(clocks.toOffset(this[HELD], offsetSeconds));
    }

    toZone(zone) {
        return this.toTimestamp().toZone(zone);
    }

    toPlainDateTime() {
        return plainOf({ ...this[HELD], offsetSeconds: 0 });
    }

    toTimestamp() {
        return timestampOf(clocks.toTimestamp(this[HELD]));
    }

    toDate() {
        return this.toTimestamp().toDate();
    }

    /** The text of RFC 3339, or the library's own text if there is none. */
    toString() {
        try {
            return this.toRfc3339();
        } catch (error) {
            if (error instanceof Refused && error.refusal === "NO_TEXT") return clocks.text(this[HELD]);
            throw error;
        }
    }

    valueOf() {
        return this.toTimestamp().nanoseconds;
    }
}

/** How many days a month has. */
export function daysInMonth(year, month) {
    return days.inMonth(year, month);
}

/** The seconds of an offset such as `+02:00` or `Z`, which is read as part of a date-time. */
export function parseOffset(text) {
    if (!/^[Zz+-]/.test(textual(text))) refuse("SYNTAX");
    return OffsetDateTime.parse(`2000-01-01T00:00:00${text}`).offsetSeconds;
}
