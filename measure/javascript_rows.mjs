// What calls of the package for JavaScript and those of Date take, for measure/javascript_speed: node javascript_rows.mjs INDEX ROUNDS
// INDEX is the address of the package. Each line that it prints has a row of a round: its name, and the nanoseconds of both.
import assert from "node:assert/strict";
import { isDeepStrictEqual } from "node:util";

const { Moments, OffsetDateTime, Timestamp, Zone } = await import(process.argv[2]);

const CALLS = 20_000, ITEMS = 100_000, FIRST = 1_483_228_800_000, YEARS = 126_230_400_000;

let state = 1;

/** A number from 0 to below 1, by the generator of Lehmer. */
function random() {
    state = (state * 48_271) % 2_147_483_647;
    return state / 2_147_483_647;
}

const milliseconds = Float64Array.from({ length: ITEMS }, () => FIRST + Math.floor(random() * YEARS));
const inOrder = milliseconds.slice().sort(), bigints = BigInt64Array.from(milliseconds, BigInt);
const dates = Array.from(milliseconds, (each) => new Date(each)), texts = dates.map((date) => date.toISOString());
const column = Moments.fromMilliseconds(milliseconds), columnInOrder = Moments.fromMilliseconds(inOrder);
const stamps = texts.map((text) => Timestamp.parse(text)), hour = { hours: 1 };
const berlin = Zone.open("Europe/Berlin"), form = new Intl.DateTimeFormat("en", { timeZone: "Europe/Berlin", timeZoneName: "longOffset" });

/** The offset of Berlin, by Intl. */
function offsetOfIntl(millisecond) {
    const { value } = form.formatToParts(millisecond).find(({ type }) => type === "timeZoneName");
    return Number(value.slice(4, 6)) * 3_600;
}

/** The numbers of a call for each of some items. */
function numbersOf(count, call) {
    const made = new Float64Array(count);
    for (let place = 0; place < count; place++) made[place] = call(place);
    return made;
}

const one = (call) => () => numbersOf(CALLS, call);
const many = (call) => () => numbersOf(ITEMS, call);
const few = (call) => () => numbersOf(2_000, call);

function partsOfDates() {
    const [year, month, day, hour, minute, second] = [Int32Array, Uint8Array, Uint8Array, Uint8Array, Uint8Array, Uint8Array].map((made) => new made(ITEMS));
    for (let place = 0; place < ITEMS; place++) {
        const date = new Date(milliseconds[place]);
        year[place] = date.getUTCFullYear();
        month[place] = date.getUTCMonth() + 1;
        day[place] = date.getUTCDate();
        hour[place] = date.getUTCHours();
        minute[place] = date.getUTCMinutes();
        second[place] = date.getUTCSeconds();
    }
    return { year, month, day, hour, minute, second };
}

const partsHere = ({ year, month, day, hour, minute, second }) => ({ year, month, day, hour, minute, second });
const textsOf = (all) => all.map((text) => text.replace(/(\.\d*?)0+Z$/, "$1Z").replace(".Z", "Z"));
const monthLater = (place) => {
    const date = new Date(milliseconds[place]), day = date.getUTCDate();
    const later = date.setUTCMonth(date.getUTCMonth() + 1);
    return date.getUTCDate() === day ? later : date.setUTCDate(0);
};

/** Each row: what a caller does, how often, both calls, and what makes their answers alike. */
const ROWS = [
    ["read a text", CALLS, one((k) => Number(Timestamp.parse(texts[k]).milliseconds)), one((k) => Date.parse(texts[k]))],
    ["write a text", CALLS, one((k) => stamps[k].toRfc3339().charCodeAt(18)), one((k) => dates[k].toISOString().charCodeAt(18))],
    [
        "six parts of an instant at an offset",
        CALLS,
        one((k) => {
            const { year, month, day, hour, minute, second } = stamps[k].toOffset(3_600);
            return year + month + day + hour + minute + second;
        }),
        one((k) => {
            const wall = new Date(milliseconds[k] + 3_600_000);
            return wall.getUTCFullYear() + wall.getUTCMonth() + 1 + wall.getUTCDate() + wall.getUTCHours() + wall.getUTCMinutes() + wall.getUTCSeconds();
        }),
    ],
    ["an hour later", CALLS, one((k) => Number(stamps[k].add(hour).seconds)), one((k) => Math.floor(new Date(dates[k].getTime() + 3_600_000).getTime() / 1_000))],
    ["the offset of Europe/Berlin, beside `Intl`", 2_000, few((k) => berlin.offsetAt(stamps[k])), few((k) => offsetOfIntl(milliseconds[k]))],
    ["a column of milliseconds, of a `Float64Array`", ITEMS, () => Moments.fromMilliseconds(milliseconds), () => Array.from(milliseconds, (each) => new Date(each)), (all) => Float64Array.from(all.toMilliseconds?.() ?? all)],
    ["a column of milliseconds, of a `BigInt64Array`", ITEMS, () => Moments.fromMilliseconds(bigints), () => Array.from(bigints, (each) => new Date(Number(each))), (all) => Float64Array.from(all.toMilliseconds?.() ?? all)],
    ["a column to milliseconds", ITEMS, () => column.toMilliseconds(), many((k) => dates[k].getTime())],
    ["a column to six parts", ITEMS, () => column.toParts(), partsOfDates, partsHere],
    ["a column to the numbers of its days", ITEMS, () => column.toDayNumbers(), many((k) => Math.floor(dates[k].getTime() / 86_400_000)), (all) => Float64Array.from(all)],
    ["a column to texts", ITEMS, () => column.toRfc3339(), () => dates.map((date) => date.toISOString()), textsOf],
    ["texts to a column", ITEMS, () => Moments.parse(texts), many((k) => Date.parse(texts[k])), (all) => all.toMilliseconds?.() ?? all],
    ["a column cut to the hour", ITEMS, () => column.truncate("hour"), many((k) => new Date(milliseconds[k]).setUTCMinutes(0, 0, 0)), (all) => all.toMilliseconds?.() ?? all],
    ["a column a month later", ITEMS, () => column.addMonths(1), many(monthLater), (all) => all.toMilliseconds?.() ?? all],
    ["a column to Europe/Berlin, beside `Intl`", ITEMS, () => column.toZone(berlin), null, (all) => all.toOffsets?.() ?? all],
    ["a column in order to Europe/Berlin, beside `Intl`", ITEMS, () => columnInOrder.toZone(berlin), null, (all) => all.toOffsets?.() ?? all],
];

/** The nanoseconds that a call takes for each item. */
function nanoseconds(call, count) {
    const began = process.cpuUsage();
    call();
    const { user, system } = process.cpuUsage(began);
    return ((user + system) * 1_000) / count;
}

const offsetsOfIntl = few((k) => offsetOfIntl(milliseconds[k]));
for (const [name, , here, there, alike = (all) => all] of ROWS) {
    if (there !== null) assert.ok(isDeepStrictEqual(alike(here()), alike(there())), name);
}
for (const [given, made] of [[milliseconds, column], [inOrder, columnInOrder]]) {
    const offsets = made.toZone(berlin).toOffsets();
    for (let place = 0; place < ITEMS; place += 97) assert.equal(offsets[place], offsetOfIntl(given[place]));
}
assert.equal(String(OffsetDateTime.parse(texts[0]).toTimestamp()), String(stamps[0]));

for (let round = 0; round < Number(process.argv[3]); round++) {
    for (const [name, count, here, there] of ROWS) {
        // Intl is asked for fewer instants, since it takes longer
        const [theirs, size] = there === null ? [offsetsOfIntl, 2_000] : [there, count], found = [0, 0];
        for (const which of round % 2 === 0 ? [0, 1] : [1, 0]) found[which] = which === 0 ? nanoseconds(here, count) : nanoseconds(theirs, size);
        console.log(JSON.stringify([name, ...found]));
    }
}
