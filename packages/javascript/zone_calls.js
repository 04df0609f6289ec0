// The calls over time zones. A zone is the bytes of its numbers and of its transitions, as a call wrote them.

import { MuxanduOutcome, MuxanduTransition, MuxanduZoneInstants } from "./layout.js";
import {
    FIRST,
    MOST_BYTES,
    SIZE,
    TEXT,
    calls,
    getBy,
    getClocks,
    getNumber,
    lasting,
    memory,
    out,
    putClocks,
    putText,
    putTimestamp,
    refuseType,
    view,
} from "./library.js";
import { acceptOutcome, nameOf, refuse } from "./refused.js";

// The most transitions, their bytes and those of the numbers, and their places at the end of the room of a text.
const MOST_TRANSITIONS = 512, TRANSITION = 24, NUMBERS = 48;
const MOST_OF_FILE = MOST_BYTES - NUMBERS - MOST_TRANSITIONS * TRANSITION;
const ZONE = TEXT + MOST_OF_FILE, TRANSITIONS = ZONE + NUMBERS;

/** The key of the bytes of a zone. */
export const RULES = Symbol("rules");

/** The bytes of a zone. */
export const rulesOf = (zone) => zone?.[RULES] ?? refuseType("the argument", "a Zone", zone);

/** Writes a zone to the memory, and returns its places, and the number of its transitions. */
export function putZone(rules) {
    memory.set(rules, ZONE);
    return [BigInt(ZONE), BigInt(TRANSITIONS), BigInt((rules.length - NUMBERS) / TRANSITION)];
}

/** The zone that a call has written, unless its outcome is an error. */
function takeZone() {
    const outcome = MuxanduOutcome.get(view, SIZE), size = Number(outcome.size);
    acceptOutcome(outcome, size);
    return memory.slice(ZONE, TRANSITIONS + size * TRANSITION);
}

/** The transition that a call finds, or null where there is none. */
function transitionBy(call, rules, at) {
    const status = call(...putZone(rules), putTimestamp(FIRST, at), out);
    const isNone = status !== 0 && nameOf(status) === "RESULT";
    return isNone ? null : getBy(status, (place) => MuxanduTransition.get(view, place));
}

/** The calls of zones, by their bytes. */
export const zones = lasting({
    /** Whether a text can be the name of a zone. */
    isName: (text) => calls.muxandu_zone_name_check(...putText(text)) === 0,
    /** The zone of the bytes of a file. */
    read(file) {
        if (file.length > MOST_OF_FILE) refuse("LENGTH");
        memory.set(file, TEXT);
        calls.muxandu_zone_from_tzif(BigInt(SIZE), BigInt(TEXT), BigInt(file.length), BigInt(ZONE), BigInt(TRANSITIONS), BigInt(MOST_TRANSITIONS));
        return takeZone();
    },
    /** The zone of a text of a rule. */
    readText(text) {
        calls.muxandu_zone_from_text(BigInt(SIZE), ...putText(text), BigInt(ZONE));
        return takeZone();
    },
    offsetAt: (rules, at) => getBy(calls.muxandu_zone_offset_at(...putZone(rules), putTimestamp(FIRST, at), out), getNumber),
    toClocks: (rules, at) => getBy(calls.muxandu_timestamp_to_zone(putTimestamp(FIRST, at), ...putZone(rules), out), getClocks),
    next: (rules, at) => transitionBy(calls.muxandu_zone_next_transition, rules, at),
    previous: (rules, at) => transitionBy(calls.muxandu_zone_previous_transition, rules, at),
    instantsOf: (rules, wall) =>
        getBy(calls.muxandu_zone_instants_of(...putZone(rules), putClocks(FIRST, wall), out), (place) => MuxanduZoneInstants.get(view, place)),
    atZone: (rules, wall, choice) => getBy(calls.muxandu_date_time_at_zone(putClocks(FIRST, wall), ...putZone(rules), choice, out), getClocks),
});
