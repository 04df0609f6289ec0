// What index.d.ts declares. `tsc` reads this program, where each call must take and return what is declared; Node runs it, where
// each value must be of the kind that the program says.
import { Description, Duration, Moments, OffsetDateTime, PlainDateTime, Refused, Timestamp, Zone, daysInMonth, parseOffset } from "muxandu";
import type { Disambiguation, DurationParts, Kind, LocalType, MomentParts, OffsetDateTimeParts, ReasonName, RefusalName, Unit } from "muxandu";
import type { ZoneInstants, ZoneTransition } from "muxandu";

function are(what: string, values: unknown[], is: (value: unknown) => boolean): void {
    for (const value of values) {
        if (!is(value)) throw new Error(`no ${what}: ${String(value)}`);
    }
}

const bigints = (...values: bigint[]) => are("bigint", values, (value) => typeof value === "bigint");
const numbers = (...values: number[]) => are("number", values, (value) => typeof value === "number");
const texts = (...values: string[]) => are("string", values, (value) => typeof value === "string");
const truths = (...values: boolean[]) => are("boolean", values, (value) => typeof value === "boolean");
const orders = (...values: (-1 | 0 | 1)[]) => are("order", values, (value) => value === -1 || value === 0 || value === 1);
const dates = (...values: Date[]) => are("Date", values, (value) => value instanceof Date);
const durations = (...values: Duration[]) => are("Duration", values, (value) => value instanceof Duration);
const timestamps = (...values: Timestamp[]) => are("Timestamp", values, (value) => value instanceof Timestamp);
const wallClocks = (...values: PlainDateTime[]) => are("PlainDateTime", values, (value) => value instanceof PlainDateTime);
const dateTimes = (...values: OffsetDateTime[]) => are("OffsetDateTime", values, (value) => value instanceof OffsetDateTime);

const unit: Unit = "day";
const parts: DurationParts = { days: 1n, hours: 1, minutes: 2n, seconds: 3, milliseconds: 4n, microseconds: 5, nanoseconds: 6n };
const date = new Date(0);

const total = Duration.of(parts);
durations(total, total.negated(), new Duration(5), new Duration(5n));
bigints(total.nanoseconds, total.valueOf(), total.whole("hours"), total.negated().whole("nanoseconds"));
texts(total.toString(), total.toJSON());

const at = Timestamp.parse("2024-02-29T00:00:00Z");
timestamps(at, new Timestamp(0), new Timestamp(0n, 5), Timestamp.now(), Timestamp.fromDate(date));
timestamps(Timestamp.fromMilliseconds(1), Timestamp.fromMicroseconds(1n), Timestamp.fromNanoseconds(1n));
timestamps(at.add(parts), at.subtract(total), at.saturatingAdd(total), at.saturatingSubtract(parts), at.truncate(unit));
bigints(at.seconds, at.milliseconds, at.microseconds, at.nanoseconds, at.valueOf());
numbers(at.nanosecond);
durations(at.since(Timestamp.now()));
truths(at.equals(at));
orders(Timestamp.compare(at, at));
dates(at.toDate());
texts(at.toRfc3339(), at.toRfc3339Nanos(), at.toJSON(), at.toString());

const shown = at.toOffset(parseOffset("+02:00"));
const clocks: OffsetDateTimeParts = shown;
dateTimes(shown, OffsetDateTime.parse("2024-02-29T00:00:00Z"), new OffsetDateTime({ year: 2024, month: 2, day: 29 }));
dateTimes(OffsetDateTime.of({ ...clocks, ...{ year: 2024, month: 2, day: 29, hour: 1, minute: 2, second: 3, nanosecond: 4, offsetSeconds: 5 } }));
dateTimes(OffsetDateTime.fromDate(date), OffsetDateTime.fromDate(date, 3_600));
dateTimes(shown.with({ day: daysInMonth(2024, 2) }), shown.toOffset(0), shown.truncate("microsecond"));
dateTimes(shown.addMonths(1));
dateTimes(shown.add(parts), shown.subtract(total), shown.saturatingAdd(total), shown.saturatingSubtract(parts));
const leap = OffsetDateTime.parseLeap("2016-12-31T23:59:60Z");
dateTimes(leap.dateTime);
truths(leap.isLeap);
numbers(shown.year, shown.month, shown.day, shown.hour, shown.minute, shown.second, shown.nanosecond, shown.offsetSeconds);
numbers(shown.dayOfYear, shown.weekday, shown.isoWeek, shown.isoYear, shown.dayNumber, daysInMonth(2024, 2), parseOffset("Z"));
timestamps(shown.toTimestamp());
durations(shown.since(shown));
truths(shown.equals(shown));
orders(OffsetDateTime.compare(shown, shown));
dates(shown.toDate());
bigints(shown.valueOf());
texts(shown.toRfc3339(), shown.toJSON(), shown.toString());

const wall = PlainDateTime.parse("2024-02-29T12:34:56");
wallClocks(wall, new PlainDateTime({ year: 2024, month: 2, day: 29 }), PlainDateTime.of({ year: 2024, month: 2, day: 29, hour: 1 }));
wallClocks(wall.with({ day: 1 }), wall.addMonths(1), wall.truncate(unit), shown.toPlainDateTime());
wallClocks(wall.add(parts), wall.subtract(total), wall.saturatingAdd(total), wall.saturatingSubtract(parts));
numbers(wall.year, wall.month, wall.day, wall.hour, wall.minute, wall.second, wall.nanosecond);
numbers(wall.dayOfYear, wall.weekday, wall.isoWeek, wall.isoYear, wall.dayNumber);
durations(wall.since(wall));
truths(wall.equals(wall));
orders(PlainDateTime.compare(wall, wall));
bigints(wall.valueOf());
texts(wall.toRfc3339(), wall.toJSON(), wall.toString());

const zone: Zone = Zone.fromRule("CET-1CEST,M3.5.0,M10.5.0/3"), choice: Disambiguation = "earlier";
dateTimes(at.toZone(zone), shown.toZone(zone), wall.atOffset(60), wall.atZone(zone), wall.atZone(zone, { disambiguation: choice }));
const { instants, gap }: ZoneInstants = zone.instantsOf(wall);
timestamps(...instants);
if (gap !== null) wallClocks(gap.start, gap.end);
numbers(zone.offsetAt(at), zone.offsetAt(shown));
texts(zone.name ?? "", zone.toString());
const next: ZoneTransition | null = zone.nextTransition(at), previous = zone.previousTransition(shown);
for (const each of [next, previous]) {
    if (each === null) throw new Error("no transition");
    const { offsetSeconds, isDaylight }: LocalType = each.after;
    timestamps(each.at);
    numbers(offsetSeconds, each.before.offsetSeconds);
    truths(isDaylight);
}
for (const bytes of [new Uint8Array(5), new ArrayBuffer(5)]) {
    for (const call of [() => new Zone(bytes), () => Zone.fromBytes(bytes), () => Zone.open("No/Where")]) {
        try {
            truths(call() === null);
        } catch (error) {
            truths(error instanceof Refused);
        }
    }
}

const kind: Kind = "date";
const form = new Description("[year]-[month]-[day]");
texts(form.format(shown), form.toString());
dateTimes(form.parse("2024-02-29", kind), form.parseFront("2024-02-29 INFO", kind).dateTime);
texts(form.parseFront("2024-02-29 INFO", kind).rest);
try {
    form.parse("2024-02-30", "date");
} catch (error) {
    if (!(error instanceof Refused)) throw error;
    const reason: ReasonName | undefined = error.reason, place: number | undefined = error.place;
    texts(reason ?? "");
    numbers(place ?? -1);
}

const column: Moments = Moments.parse(["2024-02-29T00:00:00Z", null]);
const columns: Moments[] = [Moments.of([shown, null]), new Moments([shown]), column.add(parts), column.addMonths(1), column.toOffset(60)];
columns.push(column.truncate(unit), column.toZone(zone), Moments.fromMilliseconds(new Float64Array(2)));
columns.push(Moments.fromMilliseconds(new BigInt64Array(2), 60), Moments.fromMilliseconds([5, 5n, null]));
for (const each of columns) numbers(each.length, each.toBytes().length);
for (const each of columns) {
    const { year, month, day, hour, minute, second, nanosecond, offsetSeconds }: MomentParts = each.toParts();
    for (const array of [year, month, day, hour, minute, second, nanosecond, offsetSeconds]) numbers(...array);
    numbers(...each.toMilliseconds(), ...each.toOffsets(), ...each.toDayNumbers());
    texts(...each.toRfc3339().map((text: string | null) => text ?? ""));
}
for (const each of column) if (each !== null) dateTimes(each);
const row: OffsetDateTime | null = column.at(0), error: RefusalName | null = column.refusalAt(1);
truths(row !== null, error === null);

const sorted: Timestamp[] = [at, shown.toTimestamp()].sort(Timestamp.compare);
timestamps(...sorted);

try {
    OffsetDateTime.of({ year: 2023, month: 2, day: 29 });
} catch (error) {
    if (!(error instanceof Refused)) throw error;
    const refusal: RefusalName = error.refusal, name: "Refused" = error.name;
    texts(refusal, name, error.message);
}
texts(new Refused("DATE", "Own words.").refusal);

/** What `tsc` must refuse. It is not run. */
export function wrong(): void {
    // @ts-expect-error: no such refusal
    new Refused("DAYS", "Own words.");
    // @ts-expect-error: a number is no duration
    at.add(3600);
    // @ts-expect-error: a day is missing
    OffsetDateTime.of({ year: 2023, month: 2 });
    // @ts-expect-error: no such part
    at.add({ hour: 1 });
    // @ts-expect-error: no such unit
    at.truncate("week");
    // @ts-expect-error: it cannot be written
    at.seconds = 0n;
    // @ts-expect-error: it cannot be written
    shown.day = 1;
    // @ts-expect-error: no unit of a duration
    total.whole("day");
    // @ts-expect-error: a text is no Date
    Timestamp.fromDate("1970-01-01");
    // @ts-expect-error: another type
    at.equals(shown);
    // @ts-expect-error: another type
    shown.since(at);
    // @ts-expect-error: no such choice
    wall.atZone(zone, { disambiguation: "first" });
    // @ts-expect-error: a wall clock is no instant
    zone.offsetAt(wall);
    // @ts-expect-error: a name is no zone
    at.toZone("Europe/Berlin");
    // @ts-expect-error: a number is no text
    parseOffset(3_600);
}

console.log("the values are of the kinds that are declared");
