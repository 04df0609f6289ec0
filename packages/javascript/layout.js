// Made by make/declarations from packages/c/interface.json. Do not edit.

/** An instant: a Unix second and a nanosecond of that second, before 1970 too. */
export const MuxanduTimestamp = {
    get: (view, place) => ({
        seconds: view.getBigInt64(place + 0, true),
        nanoseconds: view.getUint32(place + 8, true),
    }),
    put(view, place, { seconds, nanoseconds }) {
        view.setBigInt64(place + 0, seconds, true);
        view.setUint32(place + 8, nanoseconds, true);
    },
};

/** A duration: the sum of its seconds and its nanoseconds. A call writes both with one sign, and
 * less than a second of nanoseconds. It takes any whose sum is at least -2^63 seconds - 999999999
 * ns and at most 2^63 - 1 seconds + 999999999 ns. */
export const MuxanduDuration = {
    get: (view, place) => ({
        seconds: view.getBigInt64(place + 0, true),
        nanoseconds: view.getInt32(place + 8, true),
    }),
    put(view, place, { seconds, nanoseconds }) {
        view.setBigInt64(place + 0, seconds, true);
        view.setInt32(place + 8, nanoseconds, true);
    },
};

/** A date and a time of day in the proleptic Gregorian calendar, and their offset from UTC. */
export const MuxanduDateTime = {
    get: (view, place) => ({
        year: view.getInt32(place + 0, true),
        month: view.getUint8(place + 4),
        day: view.getUint8(place + 5),
        hour: view.getUint8(place + 6),
        minute: view.getUint8(place + 7),
        second: view.getUint8(place + 8),
        nanosecond: view.getUint32(place + 12, true),
        offsetSeconds: view.getInt32(place + 16, true),
    }),
    put(view, place, { year, month, day, hour, minute, second, nanosecond, offsetSeconds }) {
        view.setInt32(place + 0, year, true);
        view.setUint8(place + 4, month);
        view.setUint8(place + 5, day);
        view.setUint8(place + 6, hour);
        view.setUint8(place + 7, minute);
        view.setUint8(place + 8, second);
        view.setUint32(place + 12, nanosecond, true);
        view.setInt32(place + 16, offsetSeconds, true);
    },
};

/** A date: a year, a month and a day of the month. */
export const MuxanduDate = {
    get: (view, place) => ({
        year: view.getInt32(place + 0, true),
        month: view.getUint8(place + 4),
        day: view.getUint8(place + 5),
    }),
    put(view, place, { year, month, day }) {
        view.setInt32(place + 0, year, true);
        view.setUint8(place + 4, month);
        view.setUint8(place + 5, day);
    },
};

/** A date as a year and a day of the year. */
export const MuxanduOrdinalDate = {
    get: (view, place) => ({
        year: view.getInt32(place + 0, true),
        ordinal: view.getUint16(place + 4, true),
    }),
    put(view, place, { year, ordinal }) {
        view.setInt32(place + 0, year, true);
        view.setUint16(place + 4, ordinal, true);
    },
};

/** A date as an ISO year, an ISO week and a day of the week (ISO 8601). The week belongs to the
 * year of its Thursday. */
export const MuxanduWeekDate = {
    get: (view, place) => ({
        year: view.getInt32(place + 0, true),
        week: view.getUint8(place + 4),
        weekday: view.getUint8(place + 5),
    }),
    put(view, place, { year, week, weekday }) {
        view.setInt32(place + 0, year, true);
        view.setUint8(place + 4, week);
        view.setUint8(place + 5, weekday);
    },
};

/** The place of a text in a block of texts. */
export const MuxanduSpan = {
    get: (view, place) => ({
        start: view.getBigUint64(place + 0, true),
        length: view.getBigUint64(place + 8, true),
    }),
    put(view, place, { start, length }) {
        view.setBigUint64(place + 0, start, true);
        view.setBigUint64(place + 8, length, true);
    },
};

/** The result of a call with many items. It converts them in their order, up to the first that it
 * rejects. */
export const MuxanduBatch = {
    get: (view, place) => ({
        count: view.getBigUint64(place + 0, true),
        status: view.getUint32(place + 8, true),
    }),
    put(view, place, { count, status }) {
        view.setBigUint64(place + 0, count, true);
        view.setUint32(place + 8, status, true);
    },
};

/** An item of a compiled description, as muxandu_description_parse writes it. Keep it as it is: its
 * numbers can be others in a later version. */
export const MuxanduItem = {
    get: (view, place) => ({
        kind: view.getUint8(place + 0),
        first: view.getUint8(place + 1),
        second: view.getUint8(place + 2),
        third: view.getUint8(place + 3),
        fourth: view.getUint8(place + 4),
        number: view.getBigUint64(place + 8, true),
    }),
    put(view, place, { kind, first, second, third, fourth, number }) {
        view.setUint8(place + 0, kind);
        view.setUint8(place + 1, first);
        view.setUint8(place + 2, second);
        view.setUint8(place + 3, third);
        view.setUint8(place + 4, fourth);
        view.setBigUint64(place + 8, number, true);
    },
};

/** A time of day. */
export const MuxanduTime = {
    get: (view, place) => ({
        hour: view.getUint8(place + 0),
        minute: view.getUint8(place + 1),
        second: view.getUint8(place + 2),
        nanosecond: view.getUint32(place + 4, true),
    }),
    put(view, place, { hour, minute, second, nanosecond }) {
        view.setUint8(place + 0, hour);
        view.setUint8(place + 1, minute);
        view.setUint8(place + 2, second);
        view.setUint32(place + 4, nanosecond, true);
    },
};

/** A moment: an instant, and the offset of the clocks that show it. It is a row of a column: 16
 * bytes with no padding. */
export const MuxanduMoment = {
    get: (view, place) => ({
        seconds: view.getBigInt64(place + 0, true),
        nanoseconds: view.getUint32(place + 8, true),
        offsetSeconds: view.getInt32(place + 12, true),
    }),
    put(view, place, { seconds, nanoseconds, offsetSeconds }) {
        view.setBigInt64(place + 0, seconds, true);
        view.setUint32(place + 8, nanoseconds, true);
        view.setInt32(place + 12, offsetSeconds, true);
    },
};

/** An offset from UTC as hours, minutes and seconds, all of one sign. */
export const MuxanduOffset = {
    get: (view, place) => ({
        hours: view.getInt8(place + 0),
        minutes: view.getInt8(place + 1),
        seconds: view.getInt8(place + 2),
    }),
    put(view, place, { hours, minutes, seconds }) {
        view.setInt8(place + 0, hours);
        view.setInt8(place + 1, minutes);
        view.setInt8(place + 2, seconds);
    },
};

/** The result of a call with a description. */
export const MuxanduOutcome = {
    get: (view, place) => ({
        size: view.getBigUint64(place + 0, true),
        status: view.getUint32(place + 8, true),
        reason: view.getUint32(place + 12, true),
    }),
    put(view, place, { size, status, reason }) {
        view.setBigUint64(place + 0, size, true);
        view.setUint32(place + 8, status, true);
        view.setUint32(place + 12, reason, true);
    },
};

/** Every reading of a date: its day numbers, its day of the year and of the week, and its weeks. */
export const MuxanduDateReads = {
    get: (view, place) => ({
        day: view.getInt32(place + 0, true),
        julianDay: view.getInt32(place + 4, true),
        isoYear: view.getInt32(place + 8, true),
        ordinal: view.getUint16(place + 12, true),
        isoWeek: view.getUint8(place + 14),
        weekday: view.getUint8(place + 15),
        sundayBasedWeek: view.getUint8(place + 16),
        mondayBasedWeek: view.getUint8(place + 17),
    }),
    put(view, place, { day, julianDay, isoYear, ordinal, isoWeek, weekday, sundayBasedWeek, mondayBasedWeek }) {
        view.setInt32(place + 0, day, true);
        view.setInt32(place + 4, julianDay, true);
        view.setInt32(place + 8, isoYear, true);
        view.setUint16(place + 12, ordinal, true);
        view.setUint8(place + 14, isoWeek);
        view.setUint8(place + 15, weekday);
        view.setUint8(place + 16, sundayBasedWeek);
        view.setUint8(place + 17, mondayBasedWeek);
    },
};

/** The instants at which the clocks of a time zone show a wall clock. There is one, or there are
 * two in a fold, where clocks are put back over it. There is none in a gap, where clocks are put
 * forward past it. Their Unix seconds may lie outside the range of timestamps by 93599. */
export const MuxanduZoneInstants = {
    get: (view, place) => ({
        earlierSeconds: view.getBigInt64(place + 0, true),
        laterSeconds: view.getBigInt64(place + 8, true),
        gapSecond: view.getBigInt64(place + 16, true),
        nanoseconds: view.getUint32(place + 24, true),
        earlierOffsetSeconds: view.getInt32(place + 28, true),
        laterOffsetSeconds: view.getInt32(place + 32, true),
        count: view.getUint32(place + 36, true),
    }),
    put(view, place, { earlierSeconds, laterSeconds, gapSecond, nanoseconds, earlierOffsetSeconds, laterOffsetSeconds, count }) {
        view.setBigInt64(place + 0, earlierSeconds, true);
        view.setBigInt64(place + 8, laterSeconds, true);
        view.setBigInt64(place + 16, gapSecond, true);
        view.setUint32(place + 24, nanoseconds, true);
        view.setInt32(place + 28, earlierOffsetSeconds, true);
        view.setInt32(place + 32, laterOffsetSeconds, true);
        view.setUint32(place + 36, count, true);
    },
};

/** A transition of a time zone: its clocks go from one kind of local time to another. */
export const MuxanduTransition = {
    get: (view, place) => ({
        second: view.getBigInt64(place + 0, true),
        beforeOffsetSeconds: view.getInt32(place + 8, true),
        afterOffsetSeconds: view.getInt32(place + 12, true),
        beforeDesignation: view.getUint16(place + 16, true),
        afterDesignation: view.getUint16(place + 18, true),
        beforeIsDaylight: view.getUint8(place + 20),
        afterIsDaylight: view.getUint8(place + 21),
    }),
    put(view, place, { second, beforeOffsetSeconds, afterOffsetSeconds, beforeDesignation, afterDesignation, beforeIsDaylight, afterIsDaylight }) {
        view.setBigInt64(place + 0, second, true);
        view.setInt32(place + 8, beforeOffsetSeconds, true);
        view.setInt32(place + 12, afterOffsetSeconds, true);
        view.setUint16(place + 16, beforeDesignation, true);
        view.setUint16(place + 18, afterDesignation, true);
        view.setUint8(place + 20, beforeIsDaylight);
        view.setUint8(place + 21, afterIsDaylight);
    },
};

/** A time zone, but for its transitions, which the caller keeps in an array of its own. Keep both
 * as a call wrote them. */
export const MuxanduZone = {
    get: (view, place) => ({
        offsetSeconds: view.getInt32(place + 0, true),
        firstTime: view.getInt32(place + 4, true),
        firstOffsetSeconds: view.getInt32(place + 8, true),
        secondTime: view.getInt32(place + 12, true),
        secondOffsetSeconds: view.getInt32(place + 16, true),
        designation: view.getUint16(place + 20, true),
        firstDay: view.getUint16(place + 22, true),
        firstDesignation: view.getUint16(place + 24, true),
        secondDay: view.getUint16(place + 26, true),
        secondDesignation: view.getUint16(place + 28, true),
        isDaylight: view.getUint8(place + 30),
        hasRule: view.getUint8(place + 31),
        firstKind: view.getUint8(place + 32),
        firstMonth: view.getUint8(place + 33),
        firstWeek: view.getUint8(place + 34),
        firstWeekday: view.getUint8(place + 35),
        firstIsDaylight: view.getUint8(place + 36),
        secondKind: view.getUint8(place + 37),
        secondMonth: view.getUint8(place + 38),
        secondWeek: view.getUint8(place + 39),
        secondWeekday: view.getUint8(place + 40),
        secondIsDaylight: view.getUint8(place + 41),
    }),
    put(view, place, { offsetSeconds, firstTime, firstOffsetSeconds, secondTime, secondOffsetSeconds, designation, firstDay, firstDesignation, secondDay, secondDesignation, isDaylight, hasRule, firstKind, firstMonth, firstWeek, firstWeekday, firstIsDaylight, secondKind, secondMonth, secondWeek, secondWeekday, secondIsDaylight }) {
        view.setInt32(place + 0, offsetSeconds, true);
        view.setInt32(place + 4, firstTime, true);
        view.setInt32(place + 8, firstOffsetSeconds, true);
        view.setInt32(place + 12, secondTime, true);
        view.setInt32(place + 16, secondOffsetSeconds, true);
        view.setUint16(place + 20, designation, true);
        view.setUint16(place + 22, firstDay, true);
        view.setUint16(place + 24, firstDesignation, true);
        view.setUint16(place + 26, secondDay, true);
        view.setUint16(place + 28, secondDesignation, true);
        view.setUint8(place + 30, isDaylight);
        view.setUint8(place + 31, hasRule);
        view.setUint8(place + 32, firstKind);
        view.setUint8(place + 33, firstMonth);
        view.setUint8(place + 34, firstWeek);
        view.setUint8(place + 35, firstWeekday);
        view.setUint8(place + 36, firstIsDaylight);
        view.setUint8(place + 37, secondKind);
        view.setUint8(place + 38, secondMonth);
        view.setUint8(place + 39, secondWeek);
        view.setUint8(place + 40, secondWeekday);
        view.setUint8(place + 41, secondIsDaylight);
    },
};

/** A kind of local time of a time zone. */
export const MuxanduTimeType = {
    get: (view, place) => ({
        offsetSeconds: view.getInt32(place + 0, true),
        designation: view.getUint16(place + 4, true),
        isDaylight: view.getUint8(place + 6),
    }),
    put(view, place, { offsetSeconds, designation, isDaylight }) {
        view.setInt32(place + 0, offsetSeconds, true);
        view.setUint16(place + 4, designation, true);
        view.setUint8(place + 6, isDaylight);
    },
};
