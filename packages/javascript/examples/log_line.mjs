// Prints each line of a log with its timestamp at the offset +02:00, or the name of the error in the timestamp.
import { readFileSync } from "node:fs";
import { OffsetDateTime, Refused } from "muxandu";

for (const line of readFileSync(0, "utf8").trimEnd().split("\n")) {
    const [stamp, rest] = [line.slice(0, line.indexOf(" ")), line.slice(line.indexOf(" "))];
    try {
        console.log(OffsetDateTime.parse(stamp).toOffset(2 * 3600).toRfc3339() + rest);
    } catch (error) {
        if (!(error instanceof Refused)) throw error;
        console.log(`${error.refusal}: ${line}`);
    }
}
