// What the page must say, in a browser by its fields and its table, and elsewhere by the functions that fill them. It stands
// after the page's own script, and after ROUNDS, the number of random instants. It shows its cases as JSON: pairs of a name and
// what is wrong, or null.

// What is typed, and the rows that must come: of the instant and of what is refused.
const ROWS = [
    [
        ["2024-02-28T23:30:00-01:00", "+02:00", "2024-03-01T00:00:00Z"],
        "In UTC=2024-02-29T00:30:00Z|At the offset=2024-02-29T02:30:00+02:00|Unix seconds=1709166600|Day of the week=Thursday" +
            "|ISO week=2024-W09-4|Day of the year=60|Compared with the other=23 hours 30 minutes earlier, -84600 s",
    ],
    [
        ["0", "-00:30", ""],
        "In UTC=1970-01-01T00:00:00Z|At the offset=1969-12-31T23:30:00-00:30|Unix seconds=0|Day of the week=Wednesday" +
            "|ISO week=1970-W01-3|Day of the year=365",
    ],
    [
        ["-0.5", "Z", "0"],
        "In UTC=1969-12-31T23:59:59.5Z|At the offset=1969-12-31T23:59:59.5Z|Unix seconds=-0.5|Day of the week=Wednesday" +
            "|ISO week=1970-W01-3|Day of the year=365|Compared with the other=0.5 seconds earlier, -0.5 s",
    ],
    [
        [" 2021-01-03T23:30:00.000000001Z ", "+05:45", "2020-12-28T00:00:00Z"],
        "In UTC=2021-01-03T23:30:00.000000001Z|At the offset=2021-01-04T05:15:00.000000001+05:45" +
            "|Unix seconds=1609716600.000000001|Day of the week=Monday|ISO week=2021-W01-1|Day of the year=4" +
            "|Compared with the other=6 days 23 hours 30 minutes 0.000000001 seconds later, 603000.000000001 s|JavaScript's Date=2021-01-03T23:30:00.000Z",
    ],
    [
        ["253402300800", "+14:00", "253402300800.0"],
        "In UTC=+10000-01-01 0:00:00.0 +00:00:00|At the offset=+10000-01-01 14:00:00.0 +14:00:00|Unix seconds=253402300800" +
            "|Day of the week=Saturday|ISO week=9999-W52-6|Day of the year=1|Compared with the other=the same instant",
    ],
    [
        ["31494784780799.999999999", "-12:00", ""],
        "In UTC=+999999-12-31 23:59:59.999999999 +00:00:00|At the offset=+999999-12-31 11:59:59.999999999 -12:00:00" +
            "|Unix seconds=31494784780799.999999999|Day of the week=Friday|ISO week=+999999-W52-5|Day of the year=365",
    ],
    [
        ["-31619087596800", "Z", "31494784780799"],
        "In UTC=-999999-01-01 0:00:00.0 +00:00:00|At the offset=-999999-01-01 0:00:00.0 +00:00:00|Unix seconds=-31619087596800" +
            "|Day of the week=Monday|ISO week=-999999-W01-1|Day of the year=1" +
            "|Compared with the other=730484633 days 23 hours 59 minutes 59 seconds earlier, -63113872377599 s",
    ],
    [
        ["-62135596800", "Z", ""],
        "In UTC=0001-01-01T00:00:00Z|At the offset=0001-01-01T00:00:00Z|Unix seconds=-62135596800|Day of the week=Monday" +
            "|ISO week=0001-W01-1|Day of the year=1",
    ],
    [
        ["-62167219201", "Z", ""],
        "In UTC=-0001-12-31 23:59:59.0 +00:00:00|At the offset=-0001-12-31 23:59:59.0 +00:00:00|Unix seconds=-62167219201" +
            "|Day of the week=Friday|ISO week=-0001-W52-5|Day of the year=365",
    ],
    [["2023-02-29T12:00:00Z", "Z", ""], "at DAY_OF_MONTH|JavaScript's Date=2023-03-01T12:00:00.000Z"],
    [["2024-02-28T24:00:00Z", "Z", ""], "at HOUR|JavaScript's Date=2024-02-29T00:00:00.000Z"],
    [["2016-12-31T23:59:60Z", "Z", ""], "at SECOND"],
    [["2024-13-01T00:00:00Z", "Z", ""], "at MONTH"],
    [["2024-01-01T00:61:00Z", "Z", ""], "at MINUTE"],
    [["2024-01-01T00:00:00+00:60", "Z", ""], "at OFFSET_MINUTE"],
    [["yesterday", "Z", ""], "at SYNTAX"],
    [["", "Z", ""], "at SYNTAX"],
    [["\u00a0\t0\n", " Z ", "  "], "In UTC=1970-01-01T00:00:00Z|At the offset=1970-01-01T00:00:00Z|Unix seconds=0" +
            "|Day of the week=Thursday|ISO week=1970-W01-4|Day of the year=1"],
    [["2024-02-28T23:30:00Z 5", "Z", ""], "at SYNTAX"],
    [["0.1234567891", "Z", ""], "at SYNTAX"],
    [["\ud800", "Z", ""], "at SYNTAX"],
    [["x".repeat(300_000), "Z", ""], "at LENGTH"],
    [["99999999999999999999", "Z", ""], "at TIMESTAMP"],
    [["9".repeat(30), "Z", ""], "at TIMESTAMP"],
    [["-" + "9".repeat(100_000), "Z", ""], "at TIMESTAMP"],
    [["31494784780800", "Z", ""], "at TIMESTAMP"],
    [["-31619087596801", "Z", ""], "at TIMESTAMP"],
    [["31494784780799", "+00:01", ""], "offset RESULT"],
    [["-31619087596800", "-00:01", ""], "offset RESULT"],
    [["0", "+24:00", ""], "offset OFFSET_HOUR"],
    [["0", "2", ""], "offset SYNTAX"],
    [["0", "", ""], "offset SYNTAX"],
    [["0", "Z", "2024-02-30T00:00:00Z"], "other DAY_OF_MONTH"],
    [["0", "Z", "<b>x</b>"], "other SYNTAX"],
];

const isPage = typeof document !== "undefined";
const cases = [];

/** Keeps a case: what is wrong with it, or that nothing is. */
function check(name, problem) {
    cases.push([name, problem]);
}

/** Keeps a case whose value must be another program's. */
function checkSame(name, value, wanted) {
    const [text, other] = [value, wanted].map((each) => JSON.stringify(each));
    check(name, text === other ? null : `${text}, and not ${other}`);
}

/** What the page shows, once this is typed. */
function shownByFields(typed) {
    const fields = ["at", "offset", "other"].map((id) => document.getElementById(id));
    fields.forEach((field, at) => {
        field.value = typed[at];
    });
    fields[0].dispatchEvent(new Event("input"));
    const lines = [...document.querySelectorAll("tbody tr")];
    const rows = lines.map((line) => [...line.cells].map((cell) => cell.textContent).join("="));
    const wrong = fields.filter((field) => field.getAttribute("aria-invalid") === "true");
    const isDescribed = fields.every((field) => field.hasAttribute("aria-describedby") === wrong.includes(field));
    if (!isDescribed) return "what is refused does not describe its field alone";
    const refused = document.getElementById("refused");
    if (refused.hidden !== (wrong.length === 0) || document.getElementById("times").hidden === refused.hidden) return "neither";
    if (refused.hidden && document.querySelectorAll("svg line").length < 2) return "no picture";
    return [...wrong.map((field) => `${field.id} ${refused.querySelector("b").textContent}`), ...rows].join("|");
}

/** The same by the functions alone. */
function shownByFunctions(typed) {
    const [text, offset, other] = typed.map((field) => field.trim());
    const joined = (rows) => rows.map(([name, value]) => `${name}=${value}`);
    try {
        return joined(answers(text, offset, other).rows).join("|");
    } catch (error) {
        const { name, rows } = refusal(error, text);
        return [`${error.field} ${name}`, ...joined(rows)].join("|");
    }
}

const shownBy = isPage ? shownByFields : shownByFunctions;

/** What is typed, short enough for the name of a case. */
function named(typed) {
    const text = JSON.stringify(typed);
    return text.length > 90 ? `${text.slice(0, 60)}.. of ${text.length} characters` : text;
}

for (const [typed, wanted] of ROWS) checkSame(named(typed), shownBy(typed), wanted);

// What each example shows of what its name says.
const SHOWN_BY_EXAMPLES = {
    "a leap day": /\|At the offset=\d+-02-29T/,
    "no such day": /^at DAY_OF_MONTH/,
    "the first second": /^In UTC=1970-01-01T00:00:00Z\|/,
    "a leap second": /^at SECOND/,
    "week 53": /\|ISO week=\d+-W53-\d\|/,
    "year 10000": /^In UTC=\+10000-01-01 /,
    "the last nanosecond": /^In UTC=\+999999-12-31 23:59:59\.999999999 /,
};

for (const [name, ...typed] of EXAMPLES) {
    const shown = shownBy(typed);
    check(`the example ${name}`, SHOWN_BY_EXAMPLES[name]?.test(shown) ? null : `shows ${shown}`);
}
checkSame("the examples, by their names", EXAMPLES.map(([name]) => name), Object.keys(SHOWN_BY_EXAMPLES));

/** The parts of a date-time that the clocks of this machine show by `Date`, from the year to the second. */
function localParts(date) {
    const day = [date.getFullYear(), date.getMonth() + 1, date.getDate()];
    return [...day, date.getHours(), date.getMinutes(), date.getSeconds()];
}

function checkNow() {
    const [typed, offset] = now(), date = new Date(Number(typed) * 1_000);
    const { year, month, day, hour, minute, second } = answers(typed, offset, "").there;
    checkSame("now is what the clock of this machine shows", [year, month, day, hour, minute, second], localParts(date));
    check("now is of this minute", Math.abs(Date.now() - date) < 60_000 ? null : typed);
}

checkNow();

/** The name of a refusal, or what is answered. */
function refusedOf(text) {
    try {
        return answers(text, "Z", "").rows[0][1];
    } catch (error) {
        return error.refusal;
    }
}

/** What is wrong with the range that the page names where an instant is beyond it. */
function problemOfRange() {
    let told;
    try {
        answers("9".repeat(20), "Z", "");
    } catch (error) {
        told = refusal(error, "").meaning;
    }
    const numbers = told?.match(/-?\d{7,}/g) ?? [];
    if (numbers.length !== 2) return `no range: ${told}`;
    const [least, most] = numbers.map(BigInt), ends = [least - 1n, least, most, most + 1n].map((end) => refusedOf(String(end)));
    const fine = ends[0] === "TIMESTAMP" && ends[1].startsWith("-999999-01-01 0:00:00") && ends[2].startsWith("+999999-12-31 23:59:59");
    return fine && ends[3] === "TIMESTAMP" ? null : `${told}: ${ends}`;
}

check("the range that the page names", problemOfRange());

// Days of each month and of each weekday, as the browser's own English names them.
const ENGLISH = new Intl.DateTimeFormat("en-US", { timeZone: "UTC", weekday: "short", day: "numeric", month: "short" });

function dayNamed(date) {
    const parts = Object.fromEntries(ENGLISH.formatToParts(date).map(({ type, value }) => [type, value]));
    return `${parts.weekday} ${parts.day} ${parts.month}`;
}

const fifteenths = Array.from({ length: 12 }, (_, at) => new Date(Date.UTC(2024, at, 15, 12)));
const dayTexts = fifteenths.map((date) => dayText(Timestamp.fromDate(date).toOffset(0)));
checkSame("the picture's names of months and days", dayTexts, fifteenths.map(dayNamed));

// The picture has half a day on each side: the hours of midnight at 1970-01-01, and where they are.
const HOURS = [12, 15, 18, 21, 0, 3, 6, 9, 12];
const around = hoursAround(new Timestamp(0).toOffset(0), 3).map(({ at, then }) => [at, then.hour]);
checkSame("the hours of the picture", around, HOURS.map((hour, at) => [at / 4 - 1, hour]));

// The axis of years has both ends of the range, and 1970 a little past its middle: 31,619,087,596,800 of 63,113,872,377,600 seconds.
const SECONDS = [-31_619_087_596_800n, 0n, 31_494_784_780_799n], PLACES = [0, 0.500985, 1];
const placesInRange = SECONDS.map((second) => Math.round(placeInRange(new Timestamp(second)) * 1_000_000) / 1_000_000);
checkSame("the axis of years", placesInRange, PLACES);

if (isPage) {
    shownByFields(["2024-06-15T00:00:00Z", "Z", ""]);
    const labels = [...document.querySelectorAll("svg text.year")].map((text) => text.textContent);
    const isWide = document.getElementById("times").clientWidth >= 480;
    checkSame("the years of the axis", labels, isWide ? ["-999999", "-500000", "0", "500000", "999999"] : ["-999999", "0", "999999"]);
    const textsOf = (kind) => [...document.querySelectorAll(kind)].map((text) => text.textContent);
    const hours = HOURS.filter((hour) => hour !== 0).map((hour) => String(hour).padStart(2, "0"));
    checkSame("the hours in the picture", textsOf("svg text.quiet"), [...hours, ...hours]);
    const days = ["Fri 14 Jun 2024", "Sat 15 Jun 2024"];
    checkSame("the days in the picture", textsOf("svg text:not([class])"), [...days, ...days]);
}

const LINKS = [
    ["2024-02-29T00:00:00.5+02:00", "+05:45", "0"],
    ["2024-02-29 00:00:00z", "-00:30", ""],
    ["a&b=c#d%e+f", "Z", "é <b>"],
    ["", "", ""],
];

// Addresses as they may be written by hand or by other programs, and what the fields then have.
const ADDRESSES = [
    ["#at=2024-02-29T00%3A00%3A00%2B02%3A00&offset=%2B05%3A45", ["2024-02-29T00:00:00+02:00", "+05:45", ""]],
    ["#at=0", ["0", "Z", ""]],
    ["#elsewhere", EXAMPLES[0].slice(1)],
];

// A link holds what was typed, and the fields have it again; each example shows something, and what is wrong is told aloud.
if (isPage) {
    const fields = FIELDS.map((id) => document.getElementById(id)), link = document.getElementById("link");
    const restored = (hash) => {
        location.hash = hash;
        restore(fields);
        return fields.map((field) => field.value);
    };
    for (const typed of LINKS) {
        shownByFields(typed);
        const { hash } = link;
        checkSame(`the address of ${named(typed)}`, location.hash, hash);
        shownByFields(["0", "Z", "1"]);
        checkSame(`the link of ${named(typed)}`, restored(hash), typed);
    }
    for (const [hash, wanted] of ADDRESSES) checkSame(`the address ${hash}`, restored(hash), wanted);
    const refused = document.getElementById("refused"), tbody = document.querySelector("tbody");
    for (const button of document.querySelectorAll("#examples button")) {
        button.click();
        check(`the button ${button.textContent}`, tbody.rows.length > 0 || !refused.hidden ? null : "shows nothing");
    }
    shownByFields(["0", "+24:00", ""]);
    const told = document.getElementById("said").textContent;
    check("what is refused is read aloud", /^At the offset ?OFFSET_HOUR /.test(told) ? null : told);
    shownByFields(["0", "+01:00", "1"]);
    const name = document.querySelector("svg").getAttribute("aria-label");
    checkSame("the picture's name", name, "00:00:00 in UTC is 01:00:00 at the offset");
    const isAsked = await fetch("data:,x").then(() => true, () => false);
    check("the policy of the page", isAsked ? "lets it ask something of a network" : null);
    const isWithin = document.documentElement.scrollWidth <= innerWidth;
    check("the page is no wider than the window", isWithin ? null : `it is ${document.documentElement.scrollWidth} wide`);
}

let state = 7n;

function random(least, most) {
    state = (state * 6364136223846793005n + 1442695040888963407n) & ((1n << 64n) - 1n);
    return least + Math.floor((Number(state >> 11n) / 2 ** 53) * (most - least + 1));
}

/** Where the page and `Date` differ on an instant, if they do. */
function beside(second, minutes) {
    const sign = minutes < 0 ? "-" : "+", size = Math.abs(minutes);
    const offset = `${sign}${two(Math.floor(size / 60))}:${two(size % 60)}`;
    const { rows, there } = answers(String(second), offset, "");
    const wall = new Date((second + minutes * 60) * 1000), start = new Date(0);
    start.setUTCFullYear(wall.getUTCFullYear(), 0, 1);
    const { year, month, day, hour, minute, second: shownSecond, dayOfYear, weekday } = there;
    const parts = [year, month, day, hour, minute, shownSecond, dayOfYear, weekday % 7];
    const wanted = [
        wall.getUTCFullYear(), wall.getUTCMonth() + 1, wall.getUTCDate(), wall.getUTCHours(), wall.getUTCMinutes(),
        wall.getUTCSeconds(), Math.floor((wall - start) / 86_400_000) + 1, wall.getUTCDay(),
    ];
    const utc = new Date(second * 1000).toISOString().replace(".000Z", "Z");
    const isSame = parts.every((part, at) => part === wanted[at]) && (utc.length > 20 || rows[0][1] === utc);
    return isSame ? null : `${second} at ${offset}: ${parts}, and not ${wanted}; ${rows[0][1]}, and not ${utc}`;
}

const differences = [];
for (let round = 0; round < ROUNDS; round++) {
    const instant = round % 2 ? random(-62_167_219_200, 253_402_300_799) : random(-8.639e12, 8.639e12);
    const difference = beside(instant, random(-1_439, 1_439));
    if (difference !== null) differences.push(difference);
}
check(`${ROUNDS} random instants of the page compared with Date`, differences.length ? differences.slice(0, 5).join("\n") : null);

if (isPage) {
    const checked = document.createElement("pre");
    checked.id = "checked";
    checked.textContent = JSON.stringify(cases);
    document.body.append(checked);
} else {
    console.log(JSON.stringify(cases));
}
