// Prints a meeting each Monday at 9:00 in Berlin, the runs of a job at 2:30 over a change of time, and the hours of two local days.
import { PlainDateTime, Zone } from "muxandu";

const berlin = Zone.open("Europe/Berlin");

let monday = PlainDateTime.of({ year: 2024, month: 3, day: 25, hour: 9 });
for (let week = 0; week < 2; week++, monday = monday.add({ days: 7 })) {
    console.log("meeting", monday.atZone(berlin).toTimestamp().toRfc3339());
}
let night = PlainDateTime.parse("2024-03-30T02:30:00");
for (let run = 0; run < 3; run++, night = night.add({ days: 1 })) console.log("job", night.atZone(berlin).toRfc3339());

const midnightOf = (day) => PlainDateTime.of(day).atZone(berlin);
for (const [month, day] of [[3, 31], [10, 27]]) {
    const begin = midnightOf({ year: 2024, month, day }), end = begin.toPlainDateTime().add({ days: 1 }).atZone(berlin);
    console.log(String(begin), Number(end.since(begin).whole("hours")), "hours");
}
