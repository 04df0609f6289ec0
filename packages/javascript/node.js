// The package in Node, which reads the files of time zones.

import { readFileSync } from "node:fs";
import { join } from "node:path";

import { Zone as ZoneOfBytes } from "./index.js";
import { refuse } from "./refused.js";
import { zones } from "./zone_calls.js";

export * from "./index.js";

/** The errors of a name for which there is no file. */
const NO_FILE = ["ENOENT", "ENOTDIR", "EISDIR", "ENAMETOOLONG"];

function bytesOfZone(name) {
    try {
        return readFileSync(join(process.env.TZDIR || "/usr/share/zoneinfo", name));
    } catch (error) {
        if (NO_FILE.includes(error.code)) refuse("ZONE_NAME");
        throw error;
    }
}

/** A time zone, which also has the file of its name. */
export class Zone extends ZoneOfBytes {
    static open(name) {
        if (!zones.isName(name)) refuse("ZONE_NAME");
        return new this(bytesOfZone(name), undefined, name);
    }
}
