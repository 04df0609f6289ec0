// The module of WebAssembly: how values lie in its memory, and how its calls are made. A struct is passed by its address,
// and addresses and counts are BigInts.

import {
    MuxanduDate,
    MuxanduDateTime,
    MuxanduDuration,
    MuxanduOrdinalDate,
    MuxanduOutcome,
    MuxanduTimestamp,
    MuxanduWeekDate,
} from "./layout.js";
import { MODULE } from "./module.js";
import { accept, acceptOutcome, refuse } from "./refused.js";

const bytes = Uint8Array.from(atob(MODULE), (character) => character.charCodeAt(0));
const module = new WebAssembly.Module(bytes);
const instance = new WebAssembly.Instance(module, {});

// Places in the memory that the calls do not use themselves, each of 64 bytes.
const base = Number(instance.exports.__heap_base.value);
export const [FIRST, SECOND, OUT, SIZE] = [0, 64, 128, 192].map((at) => base + at);
/** Where a text lies. */
export const TEXT = base + 256;
const TEXT_ROOM = 64n;

/** The bytes of the longest text that is read. */
export const MOST_BYTES = 250_000;

// The items of a description, behind the longest text, and their bytes.
const ITEMS = TEXT + MOST_BYTES;
const MOST_ITEMS = 128;
const ITEM = 16;

/** The calls of the instance that works, and its memory. */
export let calls, memory, view;
let room;

function use(exports) {
    calls = exports;
    memory = new Uint8Array(calls.memory.buffer);
    view = new DataView(calls.memory.buffer);
    room = memory.subarray(TEXT, TEXT + MOST_BYTES);
}

use(instance.exports);

/**
 * The same calls, with an instance of the module that works. If JavaScript's stack overflows within
 * a call, that call does not end, and the instance takes no other one.
 */
export function lasting(group) {
    const lastingly = (call) => (one, other, third) => {
        try {
            return call(one, other, third);
        } catch (error) {
            if (!(error instanceof WebAssembly.RuntimeError)) throw error;
            use(new WebAssembly.Instance(module, {}).exports);
            return call(one, other, third);
        }
    };
    return Object.fromEntries(Object.entries(group).map(([name, call]) => [name, lastingly(call)]));
}

export const encoder = new TextEncoder();
export const decoder = new TextDecoder();

/** The least second of 64 bits, which is no second of an instant. */
export const LEAST_SECOND = -(2n ** 63n);
const MOST_SECOND = 2n ** 63n - 1n;
/** The nanoseconds of a second. */
export const BILLION = 1_000_000_000n;

/** The mark of parts that the library has returned, which need no test. */
export const KNOWN = Symbol("known");

/** The most characters of a value in a message. */
const MOST_SHOWN = 60;

/** A value for a message, as a program writes it. */
function spell(value) {
    if (typeof value === "object" && value !== null) return Object.prototype.toString.call(value);
    if (typeof value === "function") return "a function";
    const text = typeof value === "string" ? JSON.stringify(value) : typeof value === "bigint" ? `${value}n` : String(value);
    return text.length <= MOST_SHOWN ? text : `${text.slice(0, MOST_SHOWN)}..`;
}

/** Throws a TypeError: the name, the type that it must have, and the value. */
export function refuseType(name, type, value) {
    throw new TypeError(`${name} must be ${type}, not ${spell(value)}`);
}

/** A BigInt of an integer. */
export function toBigInt(value, name) {
    if (typeof value === "bigint") return value;
    if (Number.isSafeInteger(value)) return BigInt(value);
    return refuseType(name, "an integer", value);
}

/** The names of the parts in an object: one at least, and each of them known. */
export function partNames(parts, known, what) {
    const names = typeof parts === "object" && parts !== null ? Object.keys(parts) : [];
    if (names.length === 0) throw new TypeError(`name at least one part of the ${what}: ${Object.keys(known).join(", ")}`);
    for (const name of names) {
        if (!Object.hasOwn(known, name)) throw new TypeError(`the ${what} has no part ${name}: name ${Object.keys(known).join(", ")}`);
    }
    return names;
}

/** A text. */
export const textual = (value) => (typeof value === "string" ? value : refuseType("the argument", "a text", value));

/** A number of a number of bits. Any other becomes a number that the library rejects. */
function fitBits(value, name, least, most) {
    if (!Number.isInteger(value)) refuseType(name, "an integer", value);
    return value < least || value > most ? most : value;
}

export const signed32 = (value, name) => fitBits(value, name, -(2 ** 31), 2 ** 31 - 1);
const unsigned32 = (value, name) => fitBits(value, name, 0, 2 ** 32 - 1);
const unsigned8 = (value, name) => fitBits(value, name, 0, 255);

/** The seconds of a count of nanoseconds, rounded down, and the nanoseconds past them. */
export function splitNanoseconds(total) {
    const past = ((total % BILLION) + BILLION) % BILLION;
    return { seconds: (total - past) / BILLION, nanosecond: Number(past) };
}

/** A second of 64 bits. Any other becomes one that the library rejects. */
export const fitSecond = (seconds) => (seconds >= LEAST_SECOND && seconds <= MOST_SECOND ? seconds : MOST_SECOND);

export function putTimestamp(place, { seconds, nanosecond }) {
    MuxanduTimestamp.put(view, place, { seconds: fitSecond(seconds), nanoseconds: unsigned32(nanosecond, "nanosecond") });
    return BigInt(place);
}

function getTimestamp(place) {
    const { seconds, nanoseconds } = MuxanduTimestamp.get(view, place);
    return { seconds, nanosecond: nanoseconds };
}

export function putClocks(place, clocks) {
    MuxanduDateTime.put(view, place, {
        year: signed32(clocks.year, "year"),
        month: unsigned8(clocks.month, "month"),
        day: unsigned8(clocks.day, "day"),
        hour: unsigned8(clocks.hour, "hour"),
        minute: unsigned8(clocks.minute, "minute"),
        second: unsigned8(clocks.second, "second"),
        nanosecond: unsigned32(clocks.nanosecond, "nanosecond"),
        offsetSeconds: signed32(clocks.offsetSeconds, "offsetSeconds"),
    });
    return BigInt(place);
}

export const getClocks = (place) => MuxanduDateTime.get(view, place);

export function putDuration(place, nanoseconds) {
    const seconds = nanoseconds / BILLION;
    if (seconds < LEAST_SECOND || seconds > MOST_SECOND) refuse("DURATION");
    MuxanduDuration.put(view, place, { seconds, nanoseconds: Number(nanoseconds % BILLION) });
    return BigInt(place);
}

function getDuration(place) {
    const { seconds, nanoseconds } = MuxanduDuration.get(view, place);
    return seconds * BILLION + BigInt(nanoseconds);
}

/** Writes a text to the memory, and returns its place and its size. */
export function putText(text) {
    const { read, written } = encoder.encodeInto(textual(text), room);
    if (read < text.length) refuse("LENGTH");
    return [BigInt(TEXT), BigInt(written)];
}

/** The text that a call writes of the value at a place. */
function textBy(call, place) {
    accept(call(place, BigInt(TEXT), TEXT_ROOM, BigInt(SIZE)));
    return decoder.decode(room.subarray(0, Number(view.getBigUint64(SIZE, true))));
}

/** Where a call writes what it makes. */
export const out = BigInt(OUT);

export function getBy(status, get) {
    accept(status);
    return get(OUT);
}

export const getNumber = (place) => view.getInt32(place, true);

/** The calls that timestamps and date-times have alike, by their kind in the names of the calls. */
function alike(kind, put, get) {
    const [difference, truncate, read, write] = ["difference", "truncate", "from_rfc3339", "to_rfc3339"].map((name) => `muxandu_${kind}_${name}`);
    const shift = (name) => {
        const call = `muxandu_${kind}_${name}`;
        return (at, length) => getBy(calls[call](put(FIRST, at), putDuration(SECOND, length), out), get);
    };
    return {
        add: shift("add"),
        subtract: shift("subtract"),
        saturatingAdd: shift("saturating_add"),
        saturatingSubtract: shift("saturating_subtract"),
        difference: (later, earlier) => getBy(calls[difference](put(FIRST, later), put(SECOND, earlier), out), getDuration),
        truncate: (at, unit) => getBy(calls[truncate](put(FIRST, at), unit, out), get),
        read: (text) => getBy(calls[read](...putText(text), out), get),
        rfc3339: (at) => textBy(calls[write], put(FIRST, at)),
    };
}

/** The calls of timestamps, each of which is `{ seconds, nanosecond }`; durations are
 * nanoseconds. */
export const timestamps = lasting({
    ...alike("timestamp", putTimestamp, getTimestamp),
    /** Its parts in the memory, read before the call, which may change them. */
    checked(at) {
        const place = putTimestamp(FIRST, at), { nanosecond } = getTimestamp(FIRST);
        accept(calls.muxandu_timestamp_check(place));
        return { seconds: at.seconds, nanosecond };
    },
    compare: (one, other) => calls.muxandu_timestamp_compare(putTimestamp(FIRST, one), putTimestamp(SECOND, other)),
    toClocks(at, offset) {
        const place = putTimestamp(FIRST, at);
        return getBy(calls.muxandu_date_time_from_timestamp(place, signed32(offset, "offsetSeconds"), out), getClocks);
    },
    rfc3339Nanos: (at) => textBy(calls.muxandu_timestamp_to_rfc3339_nanos, putTimestamp(FIRST, at)),
});

/** The calls of date-times at an offset, in the same way. */
export const clocks = lasting({
    ...alike("date_time", putClocks, getClocks),
    /** Likewise. */
    checked(at) {
        const place = putClocks(FIRST, at), parts = getClocks(FIRST);
        accept(calls.muxandu_date_time_check(place));
        return parts;
    },
    compare(one, other) {
        const places = [putClocks(FIRST, one), putClocks(SECOND, other)];
        return getBy(calls.muxandu_date_time_compare(...places, out), getNumber);
    },
    toOffset(at, offset) {
        const place = putClocks(FIRST, at);
        return getBy(calls.muxandu_date_time_to_offset(place, signed32(offset, "offsetSeconds"), out), getClocks);
    },
    toTimestamp: (at) => getBy(calls.muxandu_timestamp_from_date_time(putClocks(FIRST, at), out), getTimestamp),
    readLeap(text) {
        const parts = getBy(calls.muxandu_date_time_from_rfc3339_leap(...putText(text), out, BigInt(SIZE)), getClocks);
        return { parts, isLeap: memory[SIZE] === 1 };
    },
    readPlain: (text) => getBy(calls.muxandu_date_time_from_plain(...putText(text), out), getClocks),
    text: (at) => textBy(calls.muxandu_date_time_text, putClocks(FIRST, at)),
    iso: (at) => textBy(calls.muxandu_date_time_to_iso, putClocks(FIRST, at)),
    addMonths(at, months) {
        MuxanduDate.put(view, FIRST, at);
        const status = calls.muxandu_date_add_months(BigInt(FIRST), signed32(months, "months"), out);
        return { ...at, ...getBy(status, (place) => MuxanduDate.get(view, place)) };
    },
    day: (at) => getBy(calls.muxandu_date_time_day(putClocks(FIRST, at), out), getNumber),
});

/** The calls of date-times without an offset: theirs is 0, and their texts do not have it. */
export const plainClocks = {
    ...clocks,
    checked: (at) => clocks.checked({ ...at, offsetSeconds: 0 }),
    read: clocks.readPlain,
    rfc3339: (at) => clocks.rfc3339(at).slice(0, -1),
    text: (at) => clocks.iso(at).slice(0, -1),
};

/** The calls of days, by their numbers. */
export const days = lasting({
    ordinal: (day) => getBy(calls.muxandu_ordinal_date_from_day(day, out), (at) => MuxanduOrdinalDate.get(view, at).ordinal),
    week(day) {
        const { year, week, weekday } = getBy(calls.muxandu_week_date_from_day(day, out), (at) => MuxanduWeekDate.get(view, at));
        return { isoYear: year, isoWeek: week, weekday: weekday + 1 };
    },
    inMonth(year, month) {
        const parts = [signed32(year, "year"), unsigned8(month, "month")];
        return getBy(calls.muxandu_days_in_month(...parts, out), (place) => memory[place]);
    },
});

/** The place of a byte in a text, as JavaScript counts. */
const placeIn = (byte) => decoder.decode(room.subarray(0, byte)).length;

/** Reads a text of a description by a call: the parts, and the number of bytes that it read. */
function readBy(call, kind, items, text) {
    const [place, size] = putText(text);
    memory.set(items, ITEMS);
    call(BigInt(SIZE), kind, BigInt(ITEMS), BigInt(items.length / ITEM), place, size, out);
    const outcome = MuxanduOutcome.get(view, SIZE), end = Number(outcome.size);
    acceptOutcome(outcome, placeIn(end));
    return { parts: getClocks(OUT), rest: decoder.decode(room.subarray(end, Number(size))) };
}

/** The calls of descriptions, by the bytes of their items. */
export const descriptions = lasting({
    items(text) {
        const [place, size] = putText(text);
        calls.muxandu_description_parse(BigInt(SIZE), 2, place, size, BigInt(ITEMS), BigInt(MOST_ITEMS));
        const outcome = MuxanduOutcome.get(view, SIZE), count = Number(outcome.size);
        acceptOutcome(outcome, placeIn(count));
        return memory.slice(ITEMS, ITEMS + count * ITEM);
    },
    write(items, kind, at) {
        const place = putClocks(FIRST, at);
        memory.set(items, ITEMS);
        const call = (...words) => calls.muxandu_format_items(kind, BigInt(ITEMS), BigInt(items.length / ITEM), ...words);
        return textBy(call, place);
    },
    read: (items, kind, text) => readBy(calls.muxandu_parse_items, kind, items, text),
    readFront: (items, kind, text) => readBy(calls.muxandu_parse_items_front, kind, items, text),
});
