// The calls over columns of moments. A column has the rows as C has them, each of 16 bytes, and the status of each.

import { MuxanduMoment } from "./layout.js";
import {
    LEAST_SECOND,
    MOST_BYTES,
    TEXT,
    calls,
    clocks,
    decoder,
    encoder,
    fitSecond,
    getClocks,
    lasting,
    memory,
    out,
    putDuration,
    refuseType,
    signed32,
    splitNanoseconds,
    timestamps,
    view,
} from "./library.js";
import { nameOf, refuse, refuseItem } from "./refused.js";
import { putZone } from "./zone_calls.js";

// The rows at once, and the places for them in the room of a text: of what a call reads, of what it makes, of statuses, of spans or
// other rows, and of a block of texts.
const ROWS_AT_ONCE = 1_024;
const [ROWS_PLACE, MADE_PLACE, STATUSES_PLACE, OTHERS_PLACE, BLOCK_PLACE] = [0, 16_384, 40_960, 45_056, 61_440].map((at) => TEXT + at);
const MOST_OF_BLOCK = MOST_BYTES - 61_440;

// The bytes of a row and of a date-time, and the most of a text of RFC 3339.
const ROW = 16, DATE_TIME = 20, MOST_OF_TEXT = 35;

/** The seconds of a row that has no moment, and the milliseconds of a gap among 64 bits. */
const NO_SECOND = LEAST_SECOND;

/** The number of a day for a gap. */
const NO_DAY = -(2 ** 31);

/** The milliseconds that a Date holds, of either sign. A number has each of them. */
const MOST_MILLISECONDS = 8_640_000_000_000_000;

/** The status of a row that was given as a gap. */
export const MISSING = 2 ** 32 - 1;

/** An empty column of a number of rows: their bytes, and their statuses. */
const emptyColumn = (count) => ({ rows: new Uint8Array(count * ROW), statuses: new Uint32Array(count) });

const viewOf = (rows) => new DataView(rows.buffer, rows.byteOffset, rows.byteLength);

const putGap = (rows, row) => MuxanduMoment.put(viewOf(rows), row * ROW, { seconds: NO_SECOND, nanoseconds: 0, offsetSeconds: 0 });

/** Copies the rows that a call has made into a column, and makes those that failed gaps. */
function take(column, start, count, told) {
    const { rows, statuses } = column, made = wordsAt(STATUSES_PLACE, count);
    rows.set(memory.subarray(MADE_PLACE, MADE_PLACE + count * ROW), start * ROW);
    for (let place = 0; place < count; place++) {
        const status = told?.[start + place] || made[place];
        statuses[start + place] = status;
        if (status !== 0) putGap(rows, start + place);
    }
}

/** The column that a call makes, row by row. */
function convert(column, call) {
    const count = column.statuses.length, made = emptyColumn(count);
    for (let start = 0; start < count; start += ROWS_AT_ONCE) {
        const size = Math.min(ROWS_AT_ONCE, count - start), many = BigInt(size);
        memory.set(column.rows.subarray(start * ROW, (start + size) * ROW), ROWS_PLACE);
        call([out, BigInt(ROWS_PLACE), many], [BigInt(MADE_PLACE), many, BigInt(STATUSES_PLACE), many], size, start);
        take(made, start, size, column.statuses);
    }
    return made;
}

/** The words of rows, four of each: its second (low, high), nanosecond, offset. */
const wordsOf = (rows) => new Int32Array(rows.buffer, rows.byteOffset, rows.byteLength / 4);

/** A number of words of the memory. */
const wordsAt = (place, count) => new Int32Array(memory.buffer, place, count);

/** Writes an instant of milliseconds that a Date holds to a row, by the words of all. */
function putMilliseconds(words, row, milliseconds) {
    const second = Math.floor(milliseconds / 1_000);
    words[4 * row] = second;
    words[4 * row + 1] = Math.floor(second / 2 ** 32);
    words[4 * row + 2] = (milliseconds - second * 1_000) * 1_000_000;
}

/** The milliseconds of a row, rounded down, by the words of all, if a Date holds them. */
function getMilliseconds(words, row) {
    const second = words[4 * row + 1] * 2 ** 32 + (words[4 * row] >>> 0);
    const milliseconds = second * 1_000 + Math.floor(words[4 * row + 2] / 1_000_000);
    return Math.abs(milliseconds) <= MOST_MILLISECONDS ? milliseconds : refuseItem("RESULT", row);
}

/** Writes as many texts as there is room for, and their spans, and returns their number. */
function putTexts(texts) {
    // a space between two keeps halves of one character apart
    const block = texts.join(" "), spans = wordsAt(OTHERS_PLACE, 4 * texts.length).fill(0);
    const { read, written } = encoder.encodeInto(block, memory.subarray(BLOCK_PLACE, BLOCK_PLACE + MOST_OF_BLOCK));
    const isAscii = read === block.length && written === block.length;
    let count = 0, end = 0;
    for (; count < texts.length; count++) {
        const size = isAscii ? texts[count].length : encoder.encode(texts[count]).length;
        if (end + size > MOST_OF_BLOCK) break;
        spans[4 * count] = end;
        spans[4 * count + 2] = size;
        end += size + 1;
    }
    return count;
}

/** Whether a count of milliseconds is a gap. */
const isGap = (value) => value === null || Number.isNaN(value) || value === NO_SECOND;

/** Makes the date-times of rows, block by block, and calls a function for each block. */
function eachBlock(column, use) {
    for (let start = 0; start < column.statuses.length; start += ROWS_AT_ONCE) {
        const size = Math.min(ROWS_AT_ONCE, column.statuses.length - start), many = BigInt(size);
        memory.set(column.rows.subarray(start * ROW, (start + size) * ROW), ROWS_PLACE);
        calls.muxandu_date_times_from_each_moment(out, BigInt(ROWS_PLACE), many, BigInt(MADE_PLACE), many, BigInt(STATUSES_PLACE), many);
        use(start, size, many);
    }
}

/** The calls of columns of moments. */
export const columns = lasting({
    /** The moments of texts of RFC 3339. */
    read(texts) {
        const column = emptyColumn(texts.length);
        for (let start = 0, count; start < texts.length; start += count) {
            count = putTexts(texts.slice(start, start + ROWS_AT_ONCE).map((text) => text ?? ""));
            if (count === 0) refuse("LENGTH");
            const many = BigInt(count);
            calls.muxandu_moments_from_each_rfc3339(out, BigInt(BLOCK_PLACE), BigInt(MOST_OF_BLOCK), BigInt(OTHERS_PLACE), many, BigInt(MADE_PLACE), many, BigInt(STATUSES_PLACE), many);
            take(column, start, count, undefined);
            for (let row = start; row < start + count; row++) if (texts[row] === null) column.statuses[row] = MISSING;
        }
        return column;
    },
    /** The moments of milliseconds since 1970, at an offset. */
    ofMilliseconds(values, offset) {
        const column = emptyColumn(values.length), words = wordsOf(column.rows);
        for (let place = 0; place < values.length; place++) {
            const value = values[place], number = Number(value);
            if (isGap(value)) {
                column.statuses[place] = MISSING;
            } else if (typeof value !== "bigint" && !Number.isInteger(value)) {
                refuseType(`item ${place}`, "an integer", value);
            } else if (Math.abs(number) <= MOST_MILLISECONDS) {
                putMilliseconds(words, place, number);
            } else {
                const { seconds, nanosecond } = splitNanoseconds(BigInt(value) * 1_000_000n);
                MuxanduMoment.put(viewOf(column.rows), place * ROW, { seconds: fitSecond(seconds), nanoseconds: nanosecond, offsetSeconds: 0 });
            }
        }
        return columns.toOffset(column, offset);
    },
    /** The moments of date-times, each of which may be null. */
    of(dateTimes) {
        const column = emptyColumn(dateTimes.length);
        for (const [place, parts] of dateTimes.entries()) {
            const row = parts === null ? { seconds: NO_SECOND, nanosecond: 0 } : clocks.toTimestamp(parts);
            const offsetSeconds = parts === null ? 0 : parts.offsetSeconds;
            MuxanduMoment.put(viewOf(column.rows), place * ROW, { seconds: row.seconds, nanoseconds: row.nanosecond, offsetSeconds });
            column.statuses[place] = parts === null ? MISSING : 0;
        }
        return column;
    },
    toOffset: (column, offset) => convert(column, (given, made) => calls.muxandu_each_moment_to_offset(...given, signed32(offset, "offsetSeconds"), ...made)),
    toZone: (column, rules) =>
        convert(column, (given, made, size, start) => {
            const seconds = wordsAt(OTHERS_PLACE, 2 * size).fill(0), rows = wordsAt(ROWS_PLACE, 4 * size), many = BigInt(size);
            for (let place = 0; place < size; place++) {
                if (column.statuses[start + place] !== 0) continue;
                seconds[2 * place] = rows[4 * place];
                seconds[2 * place + 1] = rows[4 * place + 1];
            }
            calls.muxandu_zone_offsets_at(out, ...putZone(rules), BigInt(OTHERS_PLACE), many, BigInt(BLOCK_PLACE), many);
            const offsets = wordsAt(BLOCK_PLACE, size), shown = wordsAt(MADE_PLACE, 4 * size);
            shown.set(rows);
            for (let place = 0; place < size; place++) shown[4 * place + 3] = offsets[place];
            // a moment whose date-time is out of range fails
            calls.muxandu_date_times_from_each_moment(out, BigInt(MADE_PLACE), many, BigInt(BLOCK_PLACE), many, BigInt(STATUSES_PLACE), many);
        }),
    truncate: (column, unit) => convert(column, (given, made) => calls.muxandu_each_moment_truncate(...given, unit, ...made)),
    addMonths: (column, months) => convert(column, (given, made) => calls.muxandu_each_moment_add_months(...given, signed32(months, "months"), ...made)),
    add: (column, length) =>
        convert(column, (given, made, size) => {
            for (let place = 0; place < size; place++) putDuration(OTHERS_PLACE + place * ROW, length);
            return calls.muxandu_each_moment_add(...given, BigInt(OTHERS_PLACE), BigInt(size), ...made);
        }),
    /** The milliseconds of each row, NaN for a gap. */
    milliseconds(column) {
        const words = wordsOf(column.rows), milliseconds = new Float64Array(column.statuses.length);
        for (let row = 0; row < milliseconds.length; row++) milliseconds[row] = column.statuses[row] === 0 ? getMilliseconds(words, row) : NaN;
        return milliseconds;
    },
    /** The offset of each row, 0 for a gap. */
    offsets(column) {
        const words = wordsOf(column.rows), offsets = new Int32Array(column.statuses.length);
        for (let row = 0; row < offsets.length; row++) offsets[row] = words[4 * row + 3];
        return offsets;
    },
    /** The number of the day of each row, as its clocks show it. */
    dayNumbers(column) {
        const numbers = new Int32Array(column.statuses.length).fill(NO_DAY), isRow = (row) => column.statuses[row] === 0;
        eachBlock(column, (start, size) => {
            const made = wordsAt(MADE_PLACE, 5 * size), dates = wordsAt(OTHERS_PLACE, 2 * size), days = wordsAt(ROWS_PLACE, size);
            let count = 0, next = 0;
            for (let place = 0; place < size; place++) {
                if (!isRow(start + place)) continue;
                // a date-time begins with its date, of two words
                dates[2 * count] = made[5 * place];
                dates[2 * count + 1] = made[5 * place + 1];
                count++;
            }
            calls.muxandu_days_from_dates(out, BigInt(OTHERS_PLACE), BigInt(count), BigInt(ROWS_PLACE), BigInt(count));
            for (let row = start; row < start + size; row++) if (isRow(row)) numbers[row] = days[next++];
        });
        return numbers;
    },
    /** The parts of each row in arrays of their own, all of them 0 for a gap. */
    parts(column) {
        const count = column.statuses.length, [year, offsetSeconds] = [new Int32Array(count), new Int32Array(count)];
        const [month, day, hour, minute, second] = Array.from({ length: 5 }, () => new Uint8Array(count));
        const nanosecond = new Uint32Array(count);
        eachBlock(column, (start, size) => {
            for (let row = start; row < start + size; row++) {
                if (column.statuses[row] !== 0) continue;
                const parts = getClocks(MADE_PLACE + (row - start) * DATE_TIME);
                year[row] = parts.year;
                month[row] = parts.month;
                day[row] = parts.day;
                hour[row] = parts.hour;
                minute[row] = parts.minute;
                second[row] = parts.second;
                nanosecond[row] = parts.nanosecond;
                offsetSeconds[row] = parts.offsetSeconds;
            }
        });
        return { year, month, day, hour, minute, second, nanosecond, offsetSeconds };
    },
    /** The text of RFC 3339 of each row, or null for a gap. */
    rfc3339(column) {
        const texts = [];
        eachBlock(column, (start, size, many) => {
            calls.muxandu_each_date_time_to_rfc3339(out, BigInt(MADE_PLACE), many, BigInt(BLOCK_PLACE), BigInt(MOST_OF_BLOCK), BigInt(OTHERS_PLACE), many, BigInt(STATUSES_PLACE), many);
            const spans = wordsAt(OTHERS_PLACE, 4 * size), statuses = wordsAt(STATUSES_PLACE, size);
            const block = decoder.decode(memory.subarray(BLOCK_PLACE, BLOCK_PLACE + MOST_OF_TEXT * size));
            for (let place = 0; place < size; place++) {
                const isRow = column.statuses[start + place] === 0, begin = spans[4 * place];
                if (isRow && statuses[place] !== 0) refuseItem(nameOf(statuses[place]), start + place);
                texts.push(isRow ? block.slice(begin, begin + spans[4 * place + 2]) : null);
            }
        });
        return texts;
    },
    /** The parts of a row, or null for a gap. */
    clocksAt(column, place) {
        if (column.statuses[place] !== 0) return null;
        const { seconds, nanoseconds, offsetSeconds } = MuxanduMoment.get(viewOf(column.rows), place * ROW);
        return timestamps.toClocks({ seconds, nanosecond: nanoseconds }, offsetSeconds);
    },
});
