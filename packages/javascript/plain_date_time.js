import { clockClass } from "./clock.js";
import { CHOICES } from "./declared.js";
import { KNOWN, plainClocks } from "./library.js";
import { HELD } from "./moment.js";
import { OffsetDateTime, dateTimeOf } from "./offset_date_time.js";
import { refuse } from "./refused.js";
import { rulesOf, zones } from "./zone_calls.js";

/** The wall clock of parts that the library has given. */
export const plainOf = (parts) => new PlainDateTime(KNOWN, parts);

const MIDNIGHT = { hour: 0, minute: 0, second: 0, nanosecond: 0 };

/** The number of a choice. */
const choiceNumber = (name) => (typeof name === "string" && Object.hasOwn(CHOICES, name) ? CHOICES[name] : refuse("CHOICE"));

/** A date and a time of day as a clock shows them, with no offset. */
export class PlainDateTime extends clockClass(plainClocks, "a PlainDateTime", plainOf, MIDNIGHT) {
    atOffset(offsetSeconds) {
        return OffsetDateTime.of({ ...this[HELD], offsetSeconds });
    }

    atZone(zone, { disambiguation = "compatible" } = {}) {
        return dateTimeOf(zones.atZone(rulesOf(zone), this[HELD], choiceNumber(disambiguation)));
    }

    /** The text of RFC 3339 without an offset, or that of ISO 8601 with six digits of the year. */
    toString() {
        return plainClocks.text(this[HELD]);
    }

    valueOf() {
        return this.atOffset(0).valueOf();
    }
}
