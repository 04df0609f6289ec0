export { Description } from "./description.js";
export { Duration } from "./duration.js";
export { Moments } from "./moments.js";
export { OffsetDateTime, daysInMonth, parseOffset } from "./offset_date_time.js";
export { PlainDateTime } from "./plain_date_time.js";
export { Refused } from "./refused.js";
export { Timestamp } from "./timestamp.js";
export { Zone } from "./zone.js";
