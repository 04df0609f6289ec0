import { KINDS } from "./declared.js";
import { descriptions, refuseType } from "./library.js";
import { HELD } from "./moment.js";
import { OffsetDateTime, dateTimeOf } from "./offset_date_time.js";
import { refuse } from "./refused.js";

/** The keys of the items and of the text. */
const ITEMS = Symbol("items"), TEXT = Symbol("text");

/** The number of a kind. */
const kindNumber = (kind) => (typeof kind === "string" && Object.hasOwn(KINDS, kind) ? KINDS[kind] : refuse("KIND"));

/** A format description, by which date-times are written and read. */
export class Description {
    constructor(text) {
        this[ITEMS] = descriptions.items(text);
        this[TEXT] = text;
    }

    format(dateTime) {
        if (!(dateTime instanceof OffsetDateTime)) refuseType("the argument", "an OffsetDateTime", dateTime);
        return descriptions.write(this[ITEMS], KINDS.offsetDateTime, dateTime[HELD]);
    }

    parse(text, kind = "offsetDateTime") {
        return dateTimeOf(descriptions.read(this[ITEMS], kindNumber(kind), text).parts);
    }

    /** The date-time at the front of a text, and the rest of the text. */
    parseFront(text, kind = "offsetDateTime") {
        const { parts, rest } = descriptions.readFront(this[ITEMS], kindNumber(kind), text);
        return { dateTime: dateTimeOf(parts), rest };
    }

    toString() {
        return this[TEXT];
    }
}
