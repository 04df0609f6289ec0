import type { Disambiguation, Kind, ReasonName, RefusalName, Unit } from "./declared.js";

export type { Disambiguation, Kind, ReasonName, RefusalName, Unit } from "./declared.js";

/** An error of the library, by its name. Its message is the name and its meaning. */
export class Refused extends RangeError {
    constructor(refusal: RefusalName, meaning: string, found?: { place?: number; reason?: ReasonName });
    readonly name: "Refused";
    readonly refusal: RefusalName;
    /**
     * Where the fault is: the index of the character in a description, in a text that it reads, or
     * in the rule of a time zone; of the byte in a file of a time zone; of the item in a column.
     */
    readonly place: number | undefined;
    /** The fault of a description or a zone, or the part of a text that is missing or wrong. */
    readonly reason: ReasonName | undefined;
}

/**
 * Parts of a duration, one at least: whole numbers of any sign, which are added. A day has 24
 * hours.
 */
export interface DurationParts {
    days?: number | bigint;
    hours?: number | bigint;
    minutes?: number | bigint;
    seconds?: number | bigint;
    milliseconds?: number | bigint;
    microseconds?: number | bigint;
    nanoseconds?: number | bigint;
}

/** A number of nanoseconds, of either sign. */
export class Duration {
    constructor(nanoseconds: number | bigint);
    static of(parts: DurationParts): Duration;
    readonly nanoseconds: bigint;
    /** The whole number of a part, such as `hours`, rounded towards 0. */
    whole(part: keyof DurationParts): bigint;
    negated(): Duration;
    /** The decimal of its seconds, such as `-1.5 s`. */
    toString(): string;
    /**
     * Its nanoseconds, in decimal digits, since JSON has no `BigInt`. `new Duration(BigInt(text))`
     * is the same.
     */
    toJSON(): string;
    /** Its nanoseconds, so that durations compare by `<`. */
    valueOf(): bigint;
}

/**
 * An instant: a second from 1970-01-01 0:00 UTC and a nanosecond of it, in the years -999999 to
 * 999999.
 */
export class Timestamp {
    /** Throws `TIMESTAMP` or `NANOSECOND`. */
    constructor(seconds: number | bigint, nanosecond?: number);
    static fromMilliseconds(milliseconds: number | bigint): Timestamp;
    static fromMicroseconds(microseconds: number | bigint): Timestamp;
    static fromNanoseconds(nanoseconds: number | bigint): Timestamp;
    /** Throws `DATE` for an invalid `Date`. */
    static fromDate(date: Date): Timestamp;
    /** The time of the clock of this machine, to the millisecond. */
    static now(): Timestamp;
    /**
     * The instant of a text of RFC 3339, of 250,000 bytes at most. Throws `LENGTH` or `SYNTAX`,
     * else `MONTH`, `DAY`, `DAY_OF_MONTH`, `HOUR`, `MINUTE`, `SECOND`, `OFFSET_HOUR` or
     * `OFFSET_MINUTE`.
     */
    static parse(text: string): Timestamp;
    /** -1, 0 or 1: for `sort`. */
    static compare(one: Timestamp, other: Timestamp): -1 | 0 | 1;

    /** The seconds from 1970-01-01 0:00 UTC, rounded down. */
    readonly seconds: bigint;
    /** The nanoseconds past that second, 0 to 999999999. */
    readonly nanosecond: number;
    /** The milliseconds from 1970-01-01 0:00 UTC, rounded down. */
    readonly milliseconds: bigint;
    /** The microseconds from 1970-01-01 0:00 UTC, rounded down. */
    readonly microseconds: bigint;
    /** The nanoseconds from 1970-01-01 0:00 UTC. */
    readonly nanoseconds: bigint;

    /** The instant plus a duration. Throws `DURATION` or `RESULT`. */
    add(duration: Duration | DurationParts): Timestamp;
    subtract(duration: Duration | DurationParts): Timestamp;
    /** As `add`, or the nearer end of the range. */
    saturatingAdd(duration: Duration | DurationParts): Timestamp;
    saturatingSubtract(duration: Duration | DurationParts): Timestamp;
    /** The duration from the other instant to this, negative if this comes first. */
    since(earlier: Timestamp): Duration;
    /** The instant, rounded down to a unit in UTC, also before 1970. */
    truncate(unit: Unit): Timestamp;
    equals(other: Timestamp): boolean;
    /** The date-time at an offset in seconds. Throws `OFFSET_SECONDS` or `RESULT`. */
    toOffset(offsetSeconds: number): OffsetDateTime;
    /** The date-time that the clocks of a time zone show. Throws `RESULT`. */
    toZone(zone: Zone): OffsetDateTime;
    /** The `Date` of its millisecond, rounded down. Throws `RESULT` outside the range of `Date`. */
    toDate(): Date;
    /** The shortest RFC 3339 text in UTC. Throws `NO_TEXT` outside the years 0 to 9999. */
    toRfc3339(): string;
    /** The text with nine digits of the fraction: such texts sort as instants do. */
    toRfc3339Nanos(): string;
    toJSON(): string;
    /** The text of RFC 3339, or the library's own text if there is none. */
    toString(): string;
    /** Its nanoseconds, so that instants compare by `<`. */
    valueOf(): bigint;
}

/** Parts of a date-time, all of them whole numbers. */
export interface OffsetDateTimeParts {
    /** -999999 to 999999; year 0 comes before year 1. */
    year: number;
    /** 1 to 12. */
    month: number;
    /** 1 to 31, and no more than the month has. */
    day: number;
    hour: number;
    minute: number;
    /** 0 to 59: there are no leap seconds. */
    second: number;
    nanosecond: number;
    /** The offset: the seconds by which local clocks are ahead of UTC, -93599 to 93599. */
    offsetSeconds: number;
}

type DateParts = Pick<OffsetDateTimeParts, "year" | "month" | "day">;

/** Parts of a wall clock, all of them whole numbers. */
export type PlainDateTimeParts = Omit<OffsetDateTimeParts, "offsetSeconds">;

/** A date and a time of day as a clock shows them, with no offset: it is no instant. */
export class PlainDateTime implements Readonly<PlainDateTimeParts> {
    /** Missing parts are 0: midnight. Throws the name of the first part out of range. */
    constructor(parts: DateParts & Partial<PlainDateTimeParts>);
    static of(parts: DateParts & Partial<PlainDateTimeParts>): PlainDateTime;
    /**
     * The wall clock of a text of RFC 3339 without an offset, such as `2024-02-29T12:34:56.5`.
     * Throws `LENGTH` or `SYNTAX`, else `MONTH`, `DAY`, `DAY_OF_MONTH`, `HOUR`, `MINUTE` or
     * `SECOND`.
     */
    static parse(text: string): PlainDateTime;
    /** -1, 0 or 1. */
    static compare(one: PlainDateTime, other: PlainDateTime): -1 | 0 | 1;

    readonly year: number;
    readonly month: number;
    readonly day: number;
    readonly hour: number;
    readonly minute: number;
    readonly second: number;
    readonly nanosecond: number;
    readonly dayOfYear: number;
    readonly weekday: number;
    readonly isoWeek: number;
    readonly isoYear: number;
    readonly dayNumber: number;

    with(parts: Partial<PlainDateTimeParts>): PlainDateTime;
    /** The wall clock plus a duration, as a clock that no zone changes. */
    add(duration: Duration | DurationParts): PlainDateTime;
    addMonths(months: number): PlainDateTime;
    subtract(duration: Duration | DurationParts): PlainDateTime;
    saturatingAdd(duration: Duration | DurationParts): PlainDateTime;
    saturatingSubtract(duration: Duration | DurationParts): PlainDateTime;
    /** The duration from the other wall clock to this. */
    since(earlier: PlainDateTime): Duration;
    truncate(unit: Unit): PlainDateTime;
    /** Whether both have the same parts. */
    equals(other: PlainDateTime): boolean;
    /** The date-time with this wall clock at an offset in seconds. Throws `OFFSET_SECONDS`. */
    atOffset(offsetSeconds: number): OffsetDateTime;
    /**
     * The date-time of a time zone with this wall clock. In a fold clocks show it twice:
     * `compatible`, the default, and `earlier` take the first, and `later` the second. In a gap
     * clocks skip it: `compatible` and `later` take the date-time later by the length of the gap,
     * and `earlier` the one earlier by that. `reject` throws `FOLD` and `GAP` there. Throws
     * `CHOICE` or `RESULT` too.
     */
    atZone(zone: Zone, options?: { disambiguation?: Disambiguation }): OffsetDateTime;
    /** The text of RFC 3339 without an offset. Throws `NO_TEXT` outside the years 0 to 9999. */
    toRfc3339(): string;
    toJSON(): string;
    /** The text of RFC 3339 without an offset, or with a sign and six digits of the year. */
    toString(): string;
    /** The nanoseconds of the instant with this wall clock in UTC, so that `<` compares. */
    valueOf(): bigint;
}

/** A date and a time of day at an offset from UTC. */
export class OffsetDateTime implements Readonly<OffsetDateTimeParts> {
    /** Missing parts are 0: midnight in UTC. Throws the name of the first part out of range. */
    constructor(parts: DateParts & Partial<OffsetDateTimeParts>);
    static of(parts: DateParts & Partial<OffsetDateTimeParts>): OffsetDateTime;
    /** As `Timestamp.parse`, and keeps the offset. */
    static parse(text: string): OffsetDateTime;
    /**
     * As `parse`, also with a second of 60. A leap second is valid only as the last second of a
     * month in UTC. It becomes the last nanosecond before the next month, and `isLeap` is true. Any
     * other second of 60 throws `SECOND`.
     */
    static parseLeap(text: string): { dateTime: OffsetDateTime; isLeap: boolean };
    static fromDate(date: Date, offsetSeconds?: number): OffsetDateTime;
    /** -1, 0 or 1, by their instants. */
    static compare(one: OffsetDateTime, other: OffsetDateTime): -1 | 0 | 1;

    readonly year: number;
    readonly month: number;
    readonly day: number;
    readonly hour: number;
    readonly minute: number;
    readonly second: number;
    readonly nanosecond: number;
    readonly offsetSeconds: number;
    /** 1 to 366. */
    readonly dayOfYear: number;
    /** 1 for Monday to 7 for Sunday. */
    readonly weekday: number;
    /** 1 to 53, by ISO 8601. */
    readonly isoWeek: number;
    /** The year of the Thursday of the week. */
    readonly isoYear: number;
    /** The day by its number, 0 for 1970-01-01. */
    readonly dayNumber: number;

    /** The date-time with these parts replaced, at least one. */
    with(parts: Partial<OffsetDateTimeParts>): OffsetDateTime;
    /** The date-time plus a duration, at the same offset. Throws `DURATION` or `RESULT`. */
    add(duration: Duration | DurationParts): OffsetDateTime;
    /**
     * The same clock and offset a number of months later, earlier if it is below 0; in a shorter
     * month on its last day. Throws `RESULT`.
     */
    addMonths(months: number): OffsetDateTime;
    subtract(duration: Duration | DurationParts): OffsetDateTime;
    saturatingAdd(duration: Duration | DurationParts): OffsetDateTime;
    saturatingSubtract(duration: Duration | DurationParts): OffsetDateTime;
    since(earlier: OffsetDateTime): Duration;
    /** Rounded down to a unit, as the clocks show it. */
    truncate(unit: Unit): OffsetDateTime;
    /** Whether both are one instant. */
    equals(other: OffsetDateTime): boolean;
    /** The same instant at another offset. */
    toOffset(offsetSeconds: number): OffsetDateTime;
    /** The same instant on the clocks of a time zone. Throws `RESULT`. */
    toZone(zone: Zone): OffsetDateTime;
    /** The date and the time of day without the offset. */
    toPlainDateTime(): PlainDateTime;
    /** The instant. Throws `RESULT` outside the range of timestamps. */
    toTimestamp(): Timestamp;
    toDate(): Date;
    toRfc3339(): string;
    toJSON(): string;
    toString(): string;
    /**
     * The nanoseconds of its instant, so that date-times compare by `<`. Throws `RESULT` outside
     * the range of timestamps.
     */
    valueOf(): bigint;
}

/** The number of days in a month, 28 to 31. Throws `MONTH` or `YEAR`. */
export function daysInMonth(year: number, month: number): number;

/**
 * The seconds of an offset such as `+02:00` or `Z`. Throws `SYNTAX`, `OFFSET_HOUR` or
 * `OFFSET_MINUTE`.
 */
export function parseOffset(text: string): number;

/**
 * A format description, such as `[day].[month].[year]`. Keep it for many texts, since it is
 * compiled.
 */
export class Description {
    /**
     * Throws `SYNTAX`, with the place and the reason, which is `NO_ROOM` after 128 items, or
     * `LENGTH` above 250,000 bytes.
     */
    constructor(text: string);
    /** The text of a date-time. Throws `NO_TEXT` above 64 bytes, or if a component has none. */
    format(dateTime: OffsetDateTime): string;
    /**
     * The date-time of a text. A kind says which parts it has; without one it has all. The others
     * are those of 1970-01-01 0:00 UTC. Throws `SYNTAX` or `RESULT`, with the place and the part,
     * or `KIND`.
     */
    parse(text: string, kind?: Kind): OffsetDateTime;
    /** The date-time at the front of a text, and the rest of the text. Throws as `parse`. */
    parseFront(text: string, kind?: Kind): { dateTime: OffsetDateTime; rest: string };
    /** The text of the description. */
    toString(): string;
}

/**
 * A column of moments: instants, each with its offset, in 16 bytes. A call converts all rows. A row
 * that fails is a gap in the result, and keeps the name of its error.
 */
export class Moments implements Iterable<OffsetDateTime | null> {
    /** Takes null for a gap. Throws `RESULT` outside the range of timestamps. */
    constructor(dateTimes: Iterable<OffsetDateTime | null>);
    static of(dateTimes: Iterable<OffsetDateTime | null>): Moments;
    /**
     * The moments of texts of RFC 3339, or null for a gap. Throws `LENGTH` for a text above 188,000
     * bytes.
     */
    static parse(texts: Iterable<string | null>): Moments;
    /**
     * The moments of whole milliseconds since 1970, at an offset in seconds, 0 without one. A gap
     * is `null` or `NaN`, and -2^63 in a `BigInt64Array`. A fraction throws a `TypeError`.
     */
    static fromMilliseconds(
        milliseconds: Float64Array | BigInt64Array | Iterable<number | bigint | null>,
        offsetSeconds?: number,
    ): Moments;
    readonly length: number;
    /** The date-time of a row, or null for a gap. */
    at(index: number): OffsetDateTime | null;
    /** The name of the error that made a row a gap, else null. */
    refusalAt(index: number): RefusalName | null;
    /** Each moment plus a duration, at its offset. Throws `DURATION`. */
    add(duration: Duration | DurationParts): Moments;
    /** Each moment a number of months later, as `addMonths` of a date-time. */
    addMonths(months: number): Moments;
    /** The same instants at another offset. */
    toOffset(offsetSeconds: number): Moments;
    /** The same instants on the clocks of a time zone. */
    toZone(zone: Zone): Moments;
    /** Each moment rounded down to a unit, as its clocks show it. */
    truncate(unit: Unit): Moments;
    /**
     * The milliseconds since 1970, rounded down, and `NaN` for a gap. Throws `RESULT` outside the
     * range of `Date`, with the index of the row.
     */
    toMilliseconds(): Float64Array;
    /** The offset of each row in seconds, and 0 for a gap. */
    toOffsets(): Int32Array;
    /** The number of the day that the clocks of a row show: 0 for 1970-01-01, -2^31 for a gap. */
    toDayNumbers(): Int32Array;
    /** The parts that the clocks of each row show, each part in an array. Those of a gap are 0. */
    toParts(): MomentParts;
    /**
     * The text of RFC 3339 of each row, and `null` for a gap. Throws `NO_TEXT` if a moment has
     * none, with the index of the row.
     */
    toRfc3339(): (string | null)[];
    /**
     * The rows as C has them, each a second of 8 bytes, a nanosecond and an offset of 4, the low
     * byte first. A gap has the second -2^63.
     */
    toBytes(): Uint8Array;
    [Symbol.iterator](): IterableIterator<OffsetDateTime | null>;
}

/** The parts of the rows of a column, each part in an array. */
export interface MomentParts {
    year: Int32Array;
    month: Uint8Array;
    day: Uint8Array;
    hour: Uint8Array;
    minute: Uint8Array;
    second: Uint8Array;
    nanosecond: Uint32Array;
    offsetSeconds: Int32Array;
}

/** A kind of local time, which the clocks of a zone show from one transition to the next. */
export interface LocalType {
    offsetSeconds: number;
    /** Whether it is daylight saving time. */
    isDaylight: boolean;
}

/** An instant at which the clocks of a time zone go from one kind of local time to another. */
export interface ZoneTransition {
    /** The instant from which on the kind after it holds. */
    at: Timestamp;
    before: LocalType;
    after: LocalType;
}

/** The instants of a wall clock in a time zone. */
export interface ZoneInstants {
    /** All of them, in order: one, two in a fold, or none in a gap. */
    instants: Timestamp[];
    /**
     * The gap in which the wall clock lies: the instant at which clocks are put forward, the first
     * wall clock that they skip, and the first one after the gap.
     */
    gap: { at: Timestamp; start: PlainDateTime; end: PlainDateTime } | null;
}

/** A time zone with rules: its transitions, and the rule of each year that may follow them. */
export class Zone {
    /** As `Zone.fromBytes`. */
    constructor(bytes: Uint8Array | ArrayBuffer);
    /**
     * The zone of the bytes of its file, as RFC 9636 has it, versions 1 to 4. Throws `SYNTAX` with
     * the place and the reason, or `LENGTH` above 237,000 bytes.
     */
    static fromBytes(bytes: Uint8Array | ArrayBuffer): Zone;
    /**
     * The zone of the rule of each year, as the variable `TZ` has it, such as
     * `CET-1CEST,M3.5.0,M10.5.0/3`. Throws `SYNTAX` with the place and the reason, or `LENGTH`.
     */
    static fromRule(text: string): Zone;
    /**
     * In Node: the zone of a name, such as `Europe/Berlin`, whose file lies in the folder `TZDIR`,
     * or in /usr/share/zoneinfo. Throws `ZONE_NAME` if there is none, and as `fromBytes`.
     */
    static open(name: string): Zone;
    /** The name by which it was opened, else null. */
    readonly name: string | null;
    /** The offset at an instant, in seconds: that after the last transition at or before it. */
    offsetAt(instant: Timestamp | OffsetDateTime): number;
    /** The instants of a wall clock. Throws `TIMESTAMP` if one of them is outside the range. */
    instantsOf(wall: PlainDateTime): ZoneInstants;
    /** The first transition after an instant, or null. */
    nextTransition(instant: Timestamp | OffsetDateTime): ZoneTransition | null;
    /** The last transition before an instant, or null. */
    previousTransition(instant: Timestamp | OffsetDateTime): ZoneTransition | null;
    /** Its name, or a text that it has none. */
    toString(): string;
}
