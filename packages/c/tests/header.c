/* The headers alone, in each order and more than once: they are compiled with no warning in each
 * standard of C and C++. */
#include "muxandu.h"

#include "muxandu_time.h"

#include "muxandu_arrow.h"

#include "muxandu.h"

#include "muxandu_time.h"

#include "muxandu_arrow.h"

int main(void) {
    char text[MUXANDU_TEXT_ROOM + 1];
    MuxanduTimestamp at = {0, 0};
    MuxanduDateTime shown;
    struct tm clocks;
    if (muxandu_timestamp_truncate(at, MUXANDU_UNIT_DAY, &at) != MUXANDU_OK) return 1;
    if (muxandu_date_time_from_timestamp(at, 0, &shown) != MUXANDU_OK) return 1;
    if (muxandu_tm_from_date_time(shown, &clocks) != MUXANDU_OK) return 1;
    if (muxandu_date_time_from_tm(&clocks, 0, 0, &shown) != MUXANDU_OK) return 1;
#ifdef MUXANDU_HAS_TIMESPEC
    {
        struct timespec time;
        if (muxandu_timespec_from_timestamp(at, &time) != MUXANDU_OK) return 1;
        if (muxandu_timestamp_from_timespec(&time, &at) != MUXANDU_OK) return 1;
    }
#endif
    {
        MuxanduMoment moment = {0, 0, 0};
        struct ArrowSchema schema;
        struct ArrowArray array;
        if (muxandu_arrow_from_moments(&moment, 1, NULL, MUXANDU_UNIT_SECOND, &schema, &array).status != MUXANDU_OK)
            return 1;
        schema.release(&schema);
        array.release(&array);
    }
    return muxandu_date_time_text_z(shown, text, sizeof text) != MUXANDU_OK || muxandu_status_string(1)[0] != 'A';
}
