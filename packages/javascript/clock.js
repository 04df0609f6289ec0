import { KNOWN, clocks, days, partNames } from "./library.js";
import { HELD, momentClass } from "./moment.js";

/**
 * A class of the members that date-times with an offset and without one have alike.
 * It takes what `momentClass` takes, and the parts of midnight, which a program need not name.
 */
export function clockClass(group, type, made, midnight) {
    const names = { year: 0, month: 0, day: 0, ...midnight };

    /** The named parts over others. Other names throw. */
    function partsOver(others, parts) {
        partNames(parts, names, "date-time");
        return group.checked({ ...others, ...parts });
    }

    return class extends momentClass(group, type, made) {
        constructor(parts, known) {
            super(parts === KNOWN ? known : partsOver(midnight, parts));
        }

        static of(parts) {
            return made(partsOver(midnight, parts));
        }

        get year() {
            return this[HELD].year;
        }

        get month() {
            return this[HELD].month;
        }

        get day() {
            return this[HELD].day;
        }

        get hour() {
            return this[HELD].hour;
        }

        get minute() {
            return this[HELD].minute;
        }

        get second() {
            return this[HELD].second;
        }

        get nanosecond() {
            return this[HELD].nanosecond;
        }

        get dayNumber() {
            return clocks.day(this[HELD]);
        }

        get dayOfYear() {
            return days.ordinal(this.dayNumber);
        }

        get weekday() {
            return days.week(this.dayNumber).weekday;
        }

        get isoWeek() {
            return days.week(this.dayNumber).isoWeek;
        }

        get isoYear() {
            return days.week(this.dayNumber).isoYear;
        }

        with(parts) {
            return made(partsOver(this[HELD], parts));
        }

        addMonths(months) {
            return made(clocks.addMonths(this[HELD], months));
        }
    };
}
