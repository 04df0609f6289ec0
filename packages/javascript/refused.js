import { REASONS, REFUSALS } from "./declared.js";

// The errors of this package, before a call of the library.
const OF_JAVASCRIPT = {
    CHOICE: "An unknown disambiguation: write compatible, earlier, later or reject.",
    DATE: "An invalid Date.",
    KIND: "An unknown kind: write offsetDateTime, plainDateTime, date, time or utcOffset.",
    LENGTH: "A text of more than 250,000 bytes, or a file of a time zone of more than 237,000.",
    UNIT: "An unknown unit: write day, hour, minute, second, millisecond, microsecond or nanosecond.",
    ZONE_NAME: "No time zone of that name: write one such as Europe/Berlin, and let TZDIR name the folder of their files.",
};

/** An error of the library, by its name. */
export class Refused extends RangeError {
    constructor(refusal, meaning, found = {}) {
        super(`${refusal}: ${meaning}`);
        this.refusal = refusal;
        this.place = found.place;
        this.reason = found.reason;
    }

    get name() {
        return "Refused";
    }
}

const meaningOf = (name) => OF_JAVASCRIPT[name] ?? REFUSALS.find((refusal) => refusal.name === name).meaning;

/** Throws the error of that name. */
export function refuse(name) {
    throw new Refused(name, meaningOf(name));
}

/** Throws the error of that name, for an item of a column. */
export function refuseItem(name, place) {
    throw new Refused(name, `${meaningOf(name)} It is item ${place}.`, { place });
}

/** Throws the error of a status, if it is one. */
export function accept(status) {
    if (status !== 0) refuse(REFUSALS[status - 1].name);
}

/** The name of the error of a status. */
export const nameOf = (status) => REFUSALS[status - 1].name;

/** Throws the error of an outcome, if it is one: with its place in a text, and its reason. */
export function acceptOutcome({ status, reason }, place) {
    if (status === 0) return;
    const { name, meaning } = REFUSALS[status - 1], told = REASONS[reason - 1];
    throw new Refused(name, `${told?.meaning ?? meaning} It is at ${place}.`, { place, reason: told?.name });
}
