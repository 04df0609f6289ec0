/* struct timespec where time_t has 32 bits, as on 32-bit machines. */
#define time_t system_time_t
#define timespec system_timespec
#include <time.h>
#undef timespec
#undef time_t

#include <stdint.h>

#define time_t int32_t

struct timespec {
    int32_t tv_sec;
    long tv_nsec;
};

#include "checks.h"

#include "muxandu_time.h"

/* Whether a second is written and read back, or refused with the timespec as it was. */
static int is_held(int64_t second, MuxanduStatus wanted) {
    struct timespec spec = {-7, 7};
    MuxanduTimestamp back;
    MuxanduStatus status = muxandu_timespec_from_timestamp(stamp(second, 8), &spec);
    if (status != wanted) return 0;
    if (status != MUXANDU_OK) return spec.tv_sec == -7 && spec.tv_nsec == 7;
    return muxandu_timestamp_from_timespec(&spec, &back) == MUXANDU_OK && back.seconds == second &&
           back.nanoseconds == 8;
}

int main(void) {
    static const int64_t held[] = {INT32_MIN, -1, 0, INT32_MAX};
    static const int64_t others[] = {(int64_t)INT32_MIN - 1, (int64_t)INT32_MAX + 1, (int64_t)1 << 32, -31619087596800,
                                     31494784780799};
    size_t at;
    for (at = 0; at < sizeof held / sizeof *held; at++) CHECK(is_held(held[at], MUXANDU_OK));
    for (at = 0; at < sizeof others / sizeof *others; at++) CHECK(is_held(others[at], MUXANDU_REFUSED_RESULT));
    CHECK(is_held(LAST + 1, MUXANDU_REFUSED_TIMESTAMP));
    return counted();
}
