import { UNITS } from "./declared.js";
import { Duration, nanosecondsOf } from "./duration.js";
import { refuseType } from "./library.js";
import { refuse } from "./refused.js";

/** The key of the parts: code that compares objects finds them, and other code only by intent. */
export const HELD = Symbol("parts");

/** The number of a unit. */
export const unitNumber = (unit) => (typeof unit === "string" && Object.hasOwn(UNITS, unit) ? UNITS[unit] : refuse("UNIT"));

/**
 * A class of the members that timestamps and date-times have alike.
 * It takes the calls of a kind, its type in errors, and the function that makes a value of parts.
 */
export function momentClass(group, type, made) {
    const partsIn = (value) => (value instanceof Moment && value[HELD]) || refuseType("the argument", type, value);
    const moved = (call) =>
        function (duration) {
            return made(group[call](this[HELD], nanosecondsOf(duration)));
        };

    class Moment {
        constructor(parts) {
            this[HELD] = parts;
        }

        static parse(text) {
            return made(group.read(text));
        }

        static compare(one, other) {
            return group.compare(partsIn(one), partsIn(other));
        }

        since(earlier) {
            return new Duration(group.difference(this[HELD], partsIn(earlier)));
        }

        truncate(unit) {
            return made(group.truncate(this[HELD], unitNumber(unit)));
        }

        /** Whether both are one instant. */
        equals(other) {
            return Moment.compare(this, other) === 0;
        }

        toRfc3339() {
            return group.rfc3339(this[HELD]);
        }

        toJSON() {
            return this.toRfc3339();
        }
    }
    for (const name of ["add", "subtract", "saturatingAdd", "saturatingSubtract"]) {
        Object.defineProperty(Moment.prototype, name, { value: moved(name), configurable: true, writable: true });
    }
    return Moment;
}
