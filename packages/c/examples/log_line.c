/* Prints each line of a log with its timestamp at the offset +02:00, or the name of the error in
 * the timestamp. */
#include <muxandu.h>
#include <stdio.h>
#include <string.h>

int main(void) {
    char line[1024];
    while (fgets(line, sizeof line, stdin) != NULL) {
        size_t size = strcspn(line, " \n"), written;
        char text[MUXANDU_TEXT_ROOM];
        MuxanduDateTime at;
        uint32_t status = muxandu_date_time_from_rfc3339(line, size, &at);
        if (status == MUXANDU_OK) status = muxandu_date_time_to_offset(at, 2 * 3600, &at);
        if (status == MUXANDU_OK) status = muxandu_date_time_to_rfc3339(at, text, sizeof text, &written);
        if (status == MUXANDU_OK)
            printf("%.*s%s", (int)written, text, line + size);
        else if (muxandu_status_name(status, text, sizeof text, &written) == MUXANDU_OK)
            printf("%.*s: %s", (int)written, text, line);
    }
    return 0;
}
