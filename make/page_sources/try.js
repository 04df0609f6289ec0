import { Timestamp } from "../../packages/javascript/timestamp.js";
import { OffsetDateTime, parseOffset } from "../../packages/javascript/offset_date_time.js";
import { Refused } from "../../packages/javascript/refused.js";
import { PROVED_MODULE } from "../../packages/javascript/module.js";

const WEEKDAYS = ["Monday", "Tuesday", "Wednesday", "Thursday", "Friday", "Saturday", "Sunday"];
const MONTHS = ["Jan", "Feb", "Mar", "Apr", "May", "Jun", "Jul", "Aug", "Sep", "Oct", "Nov", "Dec"];

/** The texts that each example types into the fields. */
const EXAMPLES = [
    ["a leap day", "2024-02-28T23:30:00-01:00", "+02:00", "2024-03-01T00:00:00Z"],
    ["no such day", "2023-02-29T12:00:00Z", "+02:00", ""],
    ["the first second", "0", "-00:30", ""],
    ["a leap second", "2016-12-31T23:59:60Z", "Z", ""],
    ["week 53", "2021-01-03T23:30:00.000000001Z", "-03:30", "2020-12-28T00:00:00Z"],
    ["year 10000", "253402300800", "+14:00", ""],
    ["the last nanosecond", "31494784780799.999999999", "-12:00", ""],
];

/** The time and the offset of the clock of this machine, as an example has them. */
function now() {
    const at = Timestamp.now().truncate("second"), minutes = -new Date().getTimezoneOffset(), size = Math.abs(minutes);
    const offset = `${minutes < 0 ? "-" : "+"}${two(Math.floor(size / 60))}:${two(size % 60)}`;
    return [String(at.seconds), minutes === 0 ? "Z" : offset, ""];
}

/** The instant of a typed text: a Unix second, with a fraction or without, or a text of RFC 3339. */
function instantOf(text) {
    const number = /^([+-]?)(\d+)(?:\.(\d{1,9}))?$/.exec(text);
    if (!number) return Timestamp.parse(text);
    const nanoseconds = BigInt(number[2]) * 1_000_000_000n + BigInt((number[3] ?? "").padEnd(9, "0"));
    return Timestamp.fromNanoseconds(number[1] === "-" ? -nanoseconds : nanoseconds);
}

const two = (number) => String(number).padStart(2, "0");

/** A year as ISO 8601 writes it: four digits at least, and a sign where there are more or it is negative. */
function yearText(year) {
    const digits = String(Math.abs(year)).padStart(4, "0");
    return `${year < 0 ? "-" : year > 9999 ? "+" : ""}${digits}`;
}

/** A duration in words: its days, hours, minutes and seconds, without those that are 0. */
function lengthText(duration) {
    const size = duration.nanoseconds < 0n ? -duration.nanoseconds : duration.nanoseconds, seconds = size / 1_000_000_000n;
    const fraction = String(size % 1_000_000_000n).padStart(9, "0").replace(/0+$/, "");
    const counts = { day: seconds / 86_400n, hour: seconds / 3_600n % 24n, minute: seconds / 60n % 60n };
    counts.second = `${seconds % 60n}${fraction && "." + fraction}`;
    const named = Object.entries(counts).map(([name, count]) => [name, String(count)]).filter(([, count]) => count !== "0");
    return named.map(([name, count]) => `${count} ${name}${count === "1" ? "" : "s"}`).join(" ");
}

function differenceText(at, other) {
    const difference = at.since(other);
    if (difference.nanoseconds === 0n) return "the same instant";
    return `${lengthText(difference)} ${difference.nanoseconds > 0n ? "later" : "earlier"}, ${difference}`;
}

function secondsText(at) {
    const { nanoseconds } = at, size = nanoseconds < 0n ? -nanoseconds : nanoseconds;
    const fraction = String(size % 1_000_000_000n).padStart(9, "0").replace(/0+$/, "");
    return `${nanoseconds < 0n ? "-" : ""}${size / 1_000_000_000n}${fraction && "." + fraction}`;
}

/** The instant that JavaScript's own `Date` reads in a text, if it is another. */
function dateText(text, at) {
    if (/^[+-]?\d+(?:\.\d*)?$/.test(text)) return null;
    const time = Date.parse(text);
    if (Number.isNaN(time)) return at === null ? null : "no date";
    if (at !== null && BigInt(time) * 1_000_000n === at.nanoseconds) return null;
    return new Date(time).toISOString();
}

/** The result of a reading. An error gets the id of its field. */
function reading(field, read) {
    try {
        return read();
    } catch (error) {
        if (error instanceof Refused) throw Object.assign(error, { field });
        throw error;
    }
}

/** The contents of the page: the instant, the date-time at the offset, and the rows of the table. */
export function answers(text, offset, other) {
    const at = reading("at", () => instantOf(text));
    const there = reading("offset", () => at.toOffset(parseOffset(offset)));
    const second = other === "" ? null : reading("other", () => instantOf(other));
    const date = dateText(text, at);
    const rows = [
        ["In UTC", at.toString(), "utc"],
        ["At the offset", there.toString(), "there"],
        ["Unix seconds", secondsText(at)],
        ["Day of the week", WEEKDAYS[there.weekday - 1], "there"],
        ["ISO week", `${yearText(there.isoYear)}-W${two(there.isoWeek)}-${there.weekday}`, "there"],
        ["Day of the year", String(there.dayOfYear), "there"],
    ];
    if (second) rows.push(["Compared with the other", differenceText(at, second)]);
    if (date !== null) rows.push(["JavaScript's Date", date]);
    return { at, there, second, rows };
}

/** The form of the text of each field. */
const FORMS = {
    at: "Type a text such as 2024-02-28T23:30:00-01:00, or seconds from 1970, such as -0.5.",
    offset: "Type Z, or hours and minutes such as +02:00.",
};
FORMS.other = FORMS.at;

/** The ranges of other errors. */
const RANGES = {
    TIMESTAMP: "Type seconds from -31619087596800 to 31494784780799: the years -999999 to 999999.",
    RESULT: "The year at this offset would be before -999999 or after 999999.",
};

/** The contents of the page for an error. */
export function refusal(error, text) {
    const date = error.field === "at" ? dateText(text, null) : null;
    const rows = date === null ? [] : [["JavaScript's Date", date]];
    const own = error.refusal === "SYNTAX" ? FORMS[error.field] : RANGES[error.refusal];
    return { name: error.refusal, meaning: own ?? error.message.slice(error.refusal.length + 2), rows };
}

// The picture: a day around the instant, as clocks in UTC show it, and above it as those at the offset do.

const HALF = 12n * 3_600_000_000_000n;

/** Each of these hours of the clocks in the picture: where it is, from -1 to 1, and what they show. */
function hoursAround(shown, step) {
    const found = [];
    for (let hour = -48; hour <= 48; hour += step) {
        try {
            const then = shown.truncate("day").add({ hours: hour }), past = then.since(shown).nanoseconds;
            if (past >= -HALF && past <= HALF) found.push({ at: Number(past) / Number(HALF), then });
        } catch (error) {
            if (!(error instanceof Refused)) throw error;
        }
    }
    return found;
}

const clockText = (shown) => `${two(shown.hour)}:${two(shown.minute)}:${two(shown.second)}`;
const dayText = (shown) => `${WEEKDAYS[shown.weekday - 1].slice(0, 3)} ${shown.day} ${MONTHS[shown.month - 1]}`;

function createSvg(name, attributes, text = "") {
    const element = document.createElementNS("http://www.w3.org/2000/svg", name);
    for (const [key, value] of Object.entries(attributes)) element.setAttribute(key, value);
    element.textContent = text;
    return element;
}

/** The edges of the days in the picture, from -1 to 1: midnights, and where it or the range of the library ends. */
function edgesAround(shown) {
    const ends = [shown.saturatingSubtract({ nanoseconds: HALF }), shown.saturatingAdd({ nanoseconds: HALF })];
    const [first, last] = ends.map((end) => Number(end.since(shown).nanoseconds) / Number(HALF));
    const midnights = hoursAround(shown, 24).map((midnight) => midnight.at);
    return [first, ...midnights.filter((at) => at > first && at < last), last];
}

/** The name of the day between two edges, in the wider part of it beside the line in the middle, if there is room for it. */
function drawName(svg, shown, start, end, middle, y) {
    const hour = hoursAround(shown, 1).find(({ at }) => at >= start && at < end);
    if (!hour) return;
    const [from, to] = start + end < 0 ? [start, Math.min(end, 0)] : [Math.max(start, 0), end];
    const name = dayText(hour.then), names = [`${name} ${hour.then.year}`, name], scale = middle - 14;
    const text = names.find((each) => (to - from) * scale > 7 * each.length + 6);
    if (text) svg.append(createSvg("text", { x: middle + ((from + to) / 2) * scale, y }, text));
}

/** The days that clocks show on one side of the line of time, and their hours. */
function drawClocks(svg, shown, kind, width, line, isAbove) {
    const middle = width / 2, place = (at) => middle + at * (middle - 14), toward = isAbove ? -1 : 1;
    const top = isAbove ? line - 62 : line + 34, edges = edgesAround(shown);
    edges.slice(1).forEach((end, day) => {
        const start = edges[day], isItsDay = start <= 0 && (end > 0 || day === edges.length - 2);
        const fill = `var(--${kind}-${isItsDay ? "day" : "other"})`;
        svg.append(createSvg("rect", { x: place(start), y: top, width: place(end) - place(start), height: 28, fill }));
        if (day > 0) {
            const x = place(start), stroke = `var(--${kind})`;
            svg.append(createSvg("line", { x1: x, x2: x, y1: top, y2: top + 28, stroke }));
        }
        drawName(svg, shown, start, end, middle, top + 18);
    });
    for (const hour of hoursAround(shown, width < 480 ? 6 : 3)) {
        const x = place(hour.at);
        svg.append(createSvg("line", { x1: x, x2: x, y1: line, y2: line + toward * 8, stroke: `var(--${kind})` }));
        if (Math.abs(x - middle) > 14) {
            svg.append(createSvg("text", { x, y: line + (isAbove ? -14 : 24), class: "quiet" }, two(hour.then.hour)));
        }
    }
}

/** Marks the other instant, so many nanoseconds past the one in the middle, if it lies in the picture: behind the days. */
function drawOther(svg, past, middle, height) {
    if (past === 0n || past < -HALF || past > HALF) return;
    const x = middle + (Number(past) / Number(HALF)) * (middle - 14), side = past < 0n ? -1 : 1;
    svg.append(createSvg("line", { x1: x, x2: x, y1: 22, y2: height - 30, stroke: "var(--ink)", "stroke-dasharray": "4 3" }));
    // its name stands clear of the time in the middle, and of the edge
    const away = Math.min(Math.max(Math.abs(x - middle), 82), middle - 28);
    svg.append(createSvg("text", { x: middle + side * away, y: 15, class: "quiet" }, "the other"));
}

// The axis of years: the range of the library, the years with texts of RFC 3339, and the instant.

const START_OF_RANGE = new Timestamp(-31_619_087_596_800n), END_OF_RANGE = new Timestamp(31_494_784_780_799n, 999_999_999);

/** The place of an instant on the axis: 0 at the first of the range, 1 at the last. */
function placeInRange(at) {
    return Number(at.since(START_OF_RANGE).nanoseconds) / Number(END_OF_RANGE.since(START_OF_RANGE).nanoseconds);
}

/** The beginning of a year in UTC. */
const startOf = (year) => OffsetDateTime.of({ year, month: 1, day: 1 }).toTimestamp();

/** A text on the axis, on the side of its mark that has room. */
function axisText(x, y, width, text, kind) {
    const room = 4 * text.length, anchor = x < room ? "start" : x > width - room ? "end" : "middle";
    return createSvg("text", { x, y, class: kind, style: `text-anchor: ${anchor}` }, text);
}

/** Draws the axis of years. */
function drawYears(place, { at, there, second }) {
    const width = Math.max(place.clientWidth, 160), line = 34, height = 60, year = yearText(there.year);
    const across = (moment) => 14 + placeInRange(moment) * (width - 28), range = "the range -999999 to 999999";
    const svg = createSvg("svg", { viewBox: `0 0 ${width} ${height}`, width, height, role: "img", "aria-label": `The year ${year} in ${range}` });
    const [from, to] = [across(startOf(0)), across(startOf(10_000))];
    svg.append(createSvg("rect", { x: from, y: line - 5, width: to - from, height: 10, fill: "var(--utc-day)" }));
    svg.append(createSvg("line", { x1: 14, x2: width - 14, y1: line, y2: line, stroke: "var(--quiet)" }));
    for (const tick of width < 480 ? [-999_999, 0, 999_999] : [-999_999, -500_000, 0, 500_000, 999_999]) {
        const x = tick === 999_999 ? width - 14 : across(startOf(tick));
        svg.append(createSvg("line", { x1: x, x2: x, y1: line, y2: line + 6, stroke: "var(--quiet)" }));
        svg.append(axisText(x, line + 20, width, String(tick), "year"));
    }
    for (const [moment, stroke] of second ? [[second, "var(--quiet)"], [at, "var(--ink)"]] : [[at, "var(--ink)"]]) {
        const x = across(moment);
        svg.append(createSvg("line", { x1: x, x2: x, y1: line - 12, y2: line + 4, stroke, "stroke-width": 2 }));
    }
    svg.append(axisText(across(at), line - 17, width, `year ${year}`, "there"));
    place.append(svg);
}

/** Draws both clocks on one line of time, and the axis of years. */
function draw(place, { at, there, second }) {
    const width = Math.max(place.clientWidth, 160), line = 98, height = 2 * line;
    const utc = at.toOffset(0), middle = width / 2;
    const told = `${clockText(utc)} in UTC is ${clockText(there)} at the offset`;
    const svg = createSvg("svg", { viewBox: `0 0 ${width} ${height}`, width, height, role: "img", "aria-label": told });
    svg.append(createSvg("line", { x1: 14, x2: width - 14, y1: line, y2: line, stroke: "var(--quiet)" }));
    if (second) drawOther(svg, second.since(at).nanoseconds, middle, height);
    drawClocks(svg, utc, "utc", width, line, true);
    drawClocks(svg, there, "there", width, line, false);
    svg.append(createSvg("line", { x1: middle, x2: middle, y1: 22, y2: height - 22, stroke: "var(--ink)", "stroke-width": 2 }));
    svg.append(createSvg("text", { x: middle, y: 15, class: "utc" }, `${clockText(utc)} UTC`));
    svg.append(createSvg("text", { x: middle, y: height - 8, class: "there" }, `${clockText(there)} at the offset`));
    place.replaceChildren(svg);
    drawYears(place, { at, there, second });
}

const FIELDS = ["at", "offset", "other"];

function fill(tbody, rows) {
    tbody.replaceChildren();
    for (const [name, value, kind = ""] of rows) {
        const row = tbody.insertRow(), head = document.createElement("th");
        row.className = kind;
        head.scope = "row";
        head.textContent = name;
        row.append(head);
        row.insertCell().textContent = value;
    }
}

/** Shows the result for the fields, and keeps them in the address. */
function show(fields) {
    const [text, offset, other] = fields.map((field) => field.value.trim());
    const refused = document.getElementById("refused"), times = document.getElementById("times");
    const tbody = document.querySelector("tbody");
    let wrong = null;
    try {
        const answer = answers(text, offset, other);
        fill(tbody, answer.rows);
        times.hidden = false;
        draw(times, answer);
    } catch (error) {
        if (!(error instanceof Refused)) throw error;
        const { name, meaning, rows } = refusal(error, text);
        const bold = document.createElement("b"), where = document.createElement("span");
        bold.textContent = name;
        where.textContent = `${labelOf(fields.find((field) => field.id === error.field))} `;
        refused.replaceChildren(where, bold, ` ${meaning}`);
        fill(tbody, rows);
        times.hidden = true;
        wrong = error.field;
    }
    refused.hidden = wrong === null;
    for (const field of fields) {
        field.setAttribute("aria-invalid", String(field.id === wrong));
        if (field.id === wrong) field.setAttribute("aria-describedby", "refused");
        else field.removeAttribute("aria-describedby");
    }
    const told = wrong === null ? times.firstChild.getAttribute("aria-label") : refused.textContent;
    document.getElementById("said").textContent = told;
    keep(fields);
}

const labelOf = (field) => field.parentElement.firstChild.textContent;

/** The typed texts as an address, in which a plus sign is a plus sign. */
function addressOf(fields) {
    const typed = fields.map((field) => [field.id, field.value.trim()]).filter(([id, value]) => value || id !== "other");
    const text = String(new URLSearchParams(typed));
    return `#${text.replaceAll("+", "%20").replaceAll("%2B", "+").replaceAll("%3A", ":")}`;
}

function keep(fields) {
    const address = addressOf(fields);
    document.getElementById("link").href = address;
    try {
        history.replaceState(null, "", address);
    } catch {
        // where a browser holds no history for a page, the link has it
    }
}

/** Fills the fields from the address, or with the first example. */
function restore(fields) {
    const kept = new URLSearchParams(location.hash.slice(1).replaceAll("+", "%2B"));
    const others = FIELDS.some((id) => kept.has(id)) ? ["", "Z", ""] : EXAMPLES[0].slice(1);
    fields.forEach((field, at) => {
        field.value = kept.get(field.id) ?? others[at];
    });
}

function start() {
    const fields = FIELDS.map((id) => document.getElementById(id));
    for (const field of fields) field.addEventListener("input", () => show(fields));
    document.querySelector("form").addEventListener("submit", (event) => event.preventDefault());
    for (const [name, ...values] of [...EXAMPLES, ["now"]]) {
        const button = document.createElement("button");
        button.type = "button";
        button.textContent = name;
        button.addEventListener("click", () => {
            const typed = name === "now" ? now() : values;
            fields.forEach((field, at) => {
                field.value = typed[at];
            });
            show(fields);
        });
        document.getElementById("examples").append(button);
    }
    addEventListener("hashchange", () => {
        restore(fields);
        show(fields);
    });
    addEventListener("resize", () => show(fields));
    document.getElementById("size").textContent = `the proved module: SHA-256 ${PROVED_MODULE.slice(0, 16)}…`;
    restore(fields);
    show(fields);
}

if (typeof document !== "undefined") start();
