import { KNOWN, refuseType, textual, timestamps } from "./library.js";
import { HELD } from "./moment.js";
import { OffsetDateTime } from "./offset_date_time.js";
import { PlainDateTime } from "./plain_date_time.js";
import { Timestamp, timestampOf } from "./timestamp.js";
import { RULES, zones } from "./zone_calls.js";

/** The key of the name. */
const NAME = Symbol("name");

/** The bytes of a file, of which a response has a buffer. */
function bytesOf(file) {
    if (file instanceof ArrayBuffer) return new Uint8Array(file);
    return file instanceof Uint8Array ? file : refuseType("the argument", "a Uint8Array or an ArrayBuffer", file);
}

/** The parts of an instant, which a date-time has too. */
function instantIn(value) {
    if (value instanceof Timestamp) return value[HELD];
    if (value instanceof OffsetDateTime) return value.toTimestamp()[HELD];
    return refuseType("the argument", "a Timestamp or an OffsetDateTime", value);
}

const wallIn = (value) => (value instanceof PlainDateTime ? value[HELD] : refuseType("the argument", "a PlainDateTime", value));

/** The transition of the fields of one, or null. */
function transitionOf(found) {
    return found && {
        at: timestampOf({ seconds: found.second, nanosecond: 0 }),
        before: { offsetSeconds: found.beforeOffsetSeconds, isDaylight: found.beforeIsDaylight === 1 },
        after: { offsetSeconds: found.afterOffsetSeconds, isDaylight: found.afterIsDaylight === 1 },
    };
}

/** A time zone: its transitions, and the rule of each year that may follow them. */
export class Zone {
    constructor(bytes, rules, name = null) {
        this[RULES] = bytes === KNOWN ? rules : zones.read(bytesOf(bytes));
        this[NAME] = name;
    }

    static fromBytes(bytes) {
        return new this(bytes);
    }

    static fromRule(text) {
        return new this(KNOWN, zones.readText(textual(text)));
    }

    /** The package in Node has this call. */
    static open() {
        throw new TypeError("Zone.open reads files, which only Node has here: fetch the file of the zone, and pass its bytes to Zone.fromBytes");
    }

    get name() {
        return this[NAME];
    }

    offsetAt(instant) {
        return zones.offsetAt(this[RULES], instantIn(instant));
    }

    /** All instants of a wall clock, in order, and the gap in which it lies, or null. */
    instantsOf(wall) {
        const found = zones.instantsOf(this[RULES], wallIn(wall)), { gapSecond, nanoseconds: nanosecond } = found;
        const seconds = [found.earlierSeconds, found.laterSeconds].slice(0, found.count);
        const instants = seconds.map((second) => timestampOf(timestamps.checked({ seconds: second, nanosecond })));
        if (found.count > 0) return { instants, gap: null };
        const at = timestampOf({ seconds: gapSecond, nanosecond: 0 });
        const [start, end] = [found.laterOffsetSeconds, found.earlierOffsetSeconds].map((offset) => at.toOffset(offset).toPlainDateTime());
        return { instants, gap: { at, start, end } };
    }

    nextTransition(instant) {
        return transitionOf(zones.next(this[RULES], instantIn(instant)));
    }

    previousTransition(instant) {
        return transitionOf(zones.previous(this[RULES], instantIn(instant)));
    }

    toString() {
        return this.name ?? "a time zone without a name";
    }
}
