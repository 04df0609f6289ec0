// Calls of the library for C and others of the same work, for measure/library_speed:
//
//     library_peers times ROUNDS [WORD]    the nanoseconds of processor time an item, of each contender in each round
//     library_peers instructions [WORD]    has callgrind write a profile for each contender
//
// WORD chooses the rows whose names have it. All contenders of a row have their answers compared with those that it must have,
// which are of bare.c or of printf, and then run in turn, each the first of a round in its turn.
#include <chrono>
#include <cstdio>
#include <cstdlib>
#include <cstring>
#include <string>
#include <vector>

#include <time.h>

#ifdef WITH_ABSEIL
#include <absl/time/civil_time.h>
#include <absl/time/time.h>
#endif
#if __has_include(<valgrind/callgrind.h>)
#include <valgrind/callgrind.h>
#endif

extern "C" {
#include "bare.h"
#include "reference.h"
}
#include "library_peers.h"

namespace {

constexpr int ITEMS = 1 << 14, PLACE = 40;
constexpr int32_t OFFSET = 3600, OTHER_OFFSET = -12600;
constexpr MuxanduDuration HALF_DAY = {43200, 500000000};

// What calls are made of, and what they must give.
int64_t seconds[ITEMS];
int32_t days[ITEMS];
MuxanduTimestamp stamps[ITEMS];
MuxanduDateTime date_times[ITEMS], other_date_times[ITEMS];
MuxanduDate dates[ITEMS];
MuxanduSpan spans[ITEMS];
char texts[ITEMS * PLACE];
struct tm broken[ITEMS];
#ifdef WITH_ABSEIL
absl::Time absl_times[ITEMS];
#endif

// What they give.
int64_t given_seconds[ITEMS];
MuxanduTimestamp given_stamps[ITEMS];
MuxanduDateTime given_date_times[ITEMS];
MuxanduDate given_dates[ITEMS];
MuxanduDuration given_durations[ITEMS];
int32_t given_orders[ITEMS];
char given_texts[ITEMS * PLACE];
size_t given_sizes[ITEMS];

// Whether each call has succeeded: statuses that are not 0, and peers that refuse.
uint32_t refused;

struct Contender {
    const char *name;
    void (*run)();
};

using Test = bool (*)();

int rounds = 1;
bool counts_instructions = false;
const char *chosen = "";

[[noreturn]] void stop(const std::string &row, const char *name) {
    std::printf("%s: %s has other answers\n", row.c_str(), name);
    std::exit(1);
}

double now() {
    timespec at;
    clock_gettime(CLOCK_THREAD_CPUTIME_ID, &at);
    return double(at.tv_sec) * 1e9 + double(at.tv_nsec);
}

void clear_answers() {
    std::memset(given_seconds, 1, sizeof given_seconds);
    std::memset(given_stamps, 1, sizeof given_stamps);
    std::memset(given_date_times, 1, sizeof given_date_times);
    std::memset(given_dates, 1, sizeof given_dates);
    std::memset(given_durations, 1, sizeof given_durations);
    std::memset(given_orders, 1, sizeof given_orders);
    std::memset(given_texts, 1, sizeof given_texts);
    std::memset(given_sizes, 1, sizeof given_sizes);
    refused = 0;
}

void count_instructions(const std::string &row, const Contender &contender) {
#ifdef CALLGRIND_ZERO_STATS
    std::string label = row + "|" + contender.name;
    CALLGRIND_ZERO_STATS;
    contender.run();
    CALLGRIND_DUMP_STATS_AT(label.c_str());
#else
    (void)row;
    (void)contender;
#endif
}

void measure(const std::string &call, const char *input, const std::vector<Contender> &contenders, Test is_right) {
    std::string row = call + "|" + input;
    if (row.find(chosen) == std::string::npos) return;
    for (const Contender &contender : contenders) {
        clear_answers();
        contender.run();
        if (refused != 0 || !is_right()) stop(row, contender.name);
    }
    if (counts_instructions) {
        for (const Contender &contender : contenders) count_instructions(row, contender);
        return;
    }
    for (int round = 0; round < rounds; round++) {
        for (size_t turn = 0; turn < contenders.size(); turn++) {
            const Contender &contender = contenders[(size_t(round) + turn) % contenders.size()];
            double began = now();
            contender.run();
            std::printf("%s|%s|%.3f\n", row.c_str(), contender.name, (now() - began) / ITEMS);
        }
    }
}

bool is_same(const MuxanduDateTime &a, const MuxanduDateTime &b) {
    return a.year == b.year && a.month == b.month && a.day == b.day && a.hour == b.hour && a.minute == b.minute &&
           a.second == b.second && a.nanosecond == b.nanosecond && a.offset_seconds == b.offset_seconds;
}

// Whether what was given is so for each item.
template <typename Test> bool holds_for_all(Test test) {
    for (int k = 0; k < ITEMS; k++) {
        if (!test(k)) return false;
    }
    return true;
}

bool are_date_times() {
    return holds_for_all([](int k) { return is_same(given_date_times[k], date_times[k]); });
}

bool are_other_date_times() {
    return holds_for_all([](int k) { return is_same(given_date_times[k], other_date_times[k]); });
}

bool are_seconds() {
    return std::memcmp(given_seconds, seconds, sizeof seconds) == 0;
}

bool are_dates() {
    return holds_for_all([](int k) {
        return given_dates[k].year == dates[k].year && given_dates[k].month == dates[k].month &&
               given_dates[k].day == dates[k].day;
    });
}

bool are_stamps() {
    return holds_for_all([](int k) {
        return given_stamps[k].seconds == stamps[k].seconds && given_stamps[k].nanoseconds == stamps[k].nanoseconds;
    });
}

bool are_texts() {
    return holds_for_all([](int k) {
        return given_sizes[k] == spans[k].length &&
               std::memcmp(given_texts + k * PLACE, texts + spans[k].start, spans[k].length) == 0;
    });
}

Nanoseconds instant(int k) {
    return Nanoseconds(stamps[k].seconds) * 1000000000 + stamps[k].nanoseconds;
}

bool are_sums() {
    return holds_for_all([](int k) { return instant_of(given_stamps[k]) == instant(k) + length_of(HALF_DAY); });
}

bool are_date_time_sums() {
    return holds_for_all([](int k) { return date_time_instant(given_date_times[k]) == instant(k) + length_of(HALF_DAY); });
}

bool are_differences() {
    return holds_for_all([](int k) { return length_of(given_durations[k]) == instant(k) - instant(k ^ 1); });
}

bool are_orders() {
    return holds_for_all([](int k) { return given_orders[k] == (instant(k) > instant(k ^ 1)) - (instant(k) < instant(k ^ 1)); });
}

bool are_hours() {
    return holds_for_all([](int k) {
        return given_stamps[k].seconds == floor_divide(stamps[k].seconds, 3600) * 3600 && given_stamps[k].nanoseconds == 0;
    });
}

bool none_is_refused() {
    return true;
}

// A contender that does this for each item.
template <auto Item> void each() {
    for (int k = 0; k < ITEMS; k++) Item(k);
}

void put_tm(const struct tm &from, MuxanduDateTime *out) {
    *out = {from.tm_year + 1900,
            uint8_t(from.tm_mon + 1),
            uint8_t(from.tm_mday),
            uint8_t(from.tm_hour),
            uint8_t(from.tm_min),
            uint8_t(from.tm_sec),
            0,
            OFFSET};
}

// Dates of days, and clocks of seconds, by std::chrono.
void put_chrono(int64_t second, uint32_t nanosecond, int32_t offset, MuxanduDateTime *out) {
    using namespace std::chrono;
    sys_seconds at{std::chrono::seconds(second + offset)};
    auto day = floor<std::chrono::days>(at);
    year_month_day date{day};
    hh_mm_ss clock{at - day};
    *out = {int(date.year()),
            uint8_t(unsigned(date.month())),
            uint8_t(unsigned(date.day())),
            uint8_t(clock.hours().count()),
            uint8_t(clock.minutes().count()),
            uint8_t(clock.seconds().count()),
            nanosecond,
            offset};
}

bool chrono_second(const MuxanduDateTime &at, int64_t *out) {
    using namespace std::chrono;
    year_month_day date{year(at.year), month(at.month), day(at.day)};
    if (!date.ok() || at.hour > 23 || at.minute > 59 || at.second > 59) return false;
    auto wall = sys_days(date) + hours(at.hour) + minutes(at.minute) + std::chrono::seconds(at.second);
    *out = wall.time_since_epoch().count() - at.offset_seconds;
    return true;
}

void measure_dates(const char *input, bool is_wide) {
    std::vector<Contender> forth = {
        {"here, a batch",
         [] { refused |= muxandu_date_times_from_seconds(seconds, ITEMS, OFFSET, given_date_times, ITEMS).status; }},
        {"here", each<[](int k) {
             MuxanduTimestamp at = {seconds[k], 0};
             refused |= muxandu_date_time_from_timestamp(at, OFFSET, given_date_times + k);
         }>},
        {"bare C", [] { refused |= bare_date_times_from_seconds(seconds, ITEMS, OFFSET, given_date_times, ITEMS).status; }},
        {"Neri-Schneider", each<[](int k) { refused |= !peer_date_time_of(seconds[k], 0, OFFSET, given_date_times + k); }>},
        {"C library", each<[](int k) {
             time_t at = seconds[k] + OFFSET;
             gmtime_r(&at, broken + k);
             put_tm(broken[k], given_date_times + k);
         }>},
    };
    std::vector<Contender> back = {
        {"here, a batch", [] { refused |= muxandu_seconds_from_date_times(date_times, ITEMS, given_seconds, ITEMS).status; }},
        {"here", each<[](int k) {
             MuxanduTimestamp at = {0, 0};
             refused |= muxandu_timestamp_from_date_time(date_times[k], &at);
             given_seconds[k] = at.seconds;
         }>},
        {"bare C", [] { refused |= bare_seconds_from_date_times(date_times, ITEMS, given_seconds, ITEMS).status; }},
        {"Neri-Schneider", each<[](int k) { refused |= !peer_second_of(date_times + k, given_seconds + k); }>},
        {"C library", each<[](int k) {
             struct tm at = broken[k];
             given_seconds[k] = timegm(&at) - OFFSET;
         }>},
    };
    std::vector<Contender> of_days = {
        {"here, a batch", [] { refused |= muxandu_dates_from_days(days, ITEMS, given_dates, ITEMS).status; }},
        {"here", each<[](int k) { refused |= muxandu_date_from_day(days[k], given_dates + k); }>},
        {"bare C", [] { refused |= bare_dates_from_days(days, ITEMS, given_dates, ITEMS).status; }},
        {"Neri-Schneider", each<[](int k) {
             refused |= !peer_is_day(days[k]);
             given_dates[k] = peer_date_of_day(days[k]);
         }>},
    };
    // std::chrono has the years -32767 to 32767
    if (!is_wide) {
        forth.push_back({"`std::chrono`", each<[](int k) { put_chrono(seconds[k], 0, OFFSET, given_date_times + k); }>});
        back.push_back({"`std::chrono`", each<[](int k) { refused |= !chrono_second(date_times[k], given_seconds + k); }>});
        of_days.push_back(
            {"`std::chrono`", each<[](int k) {
                 std::chrono::year_month_day date{std::chrono::sys_days(std::chrono::days(days[k]))};
                 given_dates[k] = {int(date.year()), uint8_t(unsigned(date.month())), uint8_t(unsigned(date.day()))};
             }>});
    }
#ifdef WITH_ABSEIL
    forth.push_back({"Abseil", each<[](int k) {
                         absl::CivilSecond at = absl::CivilSecond(1970) + (seconds[k] + OFFSET);
                         given_date_times[k] = {int32_t(at.year()),
                                                uint8_t(at.month()),
                                                uint8_t(at.day()),
                                                uint8_t(at.hour()),
                                                uint8_t(at.minute()),
                                                uint8_t(at.second()),
                                                0,
                                                OFFSET};
                     }>});
    back.push_back({"Abseil", each<[](int k) {
                        const MuxanduDateTime &at = date_times[k];
                        absl::CivilSecond wall(at.year, at.month, at.day, at.hour, at.minute, at.second);
                        given_seconds[k] = wall - absl::CivilSecond(1970) - at.offset_seconds;
                    }>});
    of_days.push_back({"Abseil", each<[](int k) {
                           absl::CivilDay day = absl::CivilDay(1970) + days[k];
                           given_dates[k] = {int32_t(day.year()), uint8_t(day.month()), uint8_t(day.day())};
                       }>});
#endif
    measure("seconds to date-times", input, forth, are_date_times);
    measure("date-times to seconds", input, back, are_seconds);
    measure("day numbers to dates", input, of_days, are_dates);
}

int order_of(int64_t first, uint32_t nanosecond, int64_t second, uint32_t other) {
    return first != second ? (first > second) - (first < second) : (nanosecond > other) - (nanosecond < other);
}

void sum_of(int k) {
    int64_t second = 0;
    uint32_t nanosecond = date_times[k].nanosecond;
    refused |= !peer_second_of(date_times + k, &second) || !peer_sum(&second, &nanosecond, HALF_DAY);
    refused |= !peer_date_time_of(second, nanosecond, date_times[k].offset_seconds, given_date_times + k);
}

void difference_of(int k) {
    int64_t later = 0, earlier = 0;
    refused |= !peer_second_of(date_times + k, &later) || !peer_second_of(date_times + (k ^ 1), &earlier);
    int64_t whole = later - earlier;
    int32_t rest = int32_t(date_times[k].nanosecond - date_times[k ^ 1].nanosecond);
    // both parts of one sign
    int32_t carry = (whole > 0 && rest < 0) - (whole < 0 && rest > 0);
    given_durations[k] = {whole - carry, rest + carry * 1000000000};
}

void measure_instants(const char *input) {
    std::vector<Contender> converted = {
        {"here", each<[](int k) { refused |= muxandu_date_time_to_offset(date_times[k], OTHER_OFFSET, given_date_times + k); }>},
        {"bare C", each<[](int k) { refused |= bare_date_time_to_offset(date_times[k], OTHER_OFFSET, given_date_times + k); }>},
        {"Neri-Schneider", each<[](int k) {
             int64_t at = 0;
             refused |= !peer_second_of(date_times + k, &at);
             refused |= !peer_date_time_of(at, date_times[k].nanosecond, OTHER_OFFSET, given_date_times + k);
         }>},
        {"`std::chrono`", each<[](int k) {
             int64_t at = 0;
             refused |= !chrono_second(date_times[k], &at);
             put_chrono(at, date_times[k].nanosecond, OTHER_OFFSET, given_date_times + k);
         }>},
    };
    std::vector<Contender> tests = {
        {"here", each<[](int k) { refused |= muxandu_date_time_check(date_times[k]); }>},
        {"bare C", each<[](int k) { refused |= bare_date_time_check(date_times[k]); }>},
        {"Neri-Schneider", each<[](int k) { refused |= !peer_is_date_time(date_times + k); }>},
    };
    std::vector<Contender> stamp_sums = {
        {"here", each<[](int k) { refused |= muxandu_timestamp_add(stamps[k], HALF_DAY, given_stamps + k); }>},
        {"bare C", each<[](int k) { refused |= bare_timestamp_add(stamps[k], HALF_DAY, given_stamps + k); }>},
    };
    std::vector<Contender> hours = {
        {"here", each<[](int k) { refused |= muxandu_timestamp_truncate(stamps[k], MUXANDU_UNIT_HOUR, given_stamps + k); }>},
        {"bare C", each<[](int k) {
             refused |= reference_timestamp_check(stamps[k]);
             given_stamps[k] = {floor_divide(stamps[k].seconds, 3600) * 3600, 0};
         }>},
    };
    std::vector<Contender> sums = {
        {"here", each<[](int k) { refused |= muxandu_date_time_add(date_times[k], HALF_DAY, given_date_times + k); }>},
        {"Neri-Schneider", each<sum_of>},
    };
    std::vector<Contender> differences = {
        {"here",
         each<[](int k) { refused |= muxandu_date_time_difference(date_times[k], date_times[k ^ 1], given_durations + k); }>},
        {"Neri-Schneider", each<difference_of>},
    };
    std::vector<Contender> orders = {
        {"here", each<[](int k) { refused |= muxandu_date_time_compare(date_times[k], date_times[k ^ 1], given_orders + k); }>},
        {"Neri-Schneider", each<[](int k) {
             int64_t first = 0, second = 0;
             refused |= !peer_second_of(date_times + k, &first) || !peer_second_of(date_times + (k ^ 1), &second);
             given_orders[k] = order_of(first, date_times[k].nanosecond, second, date_times[k ^ 1].nanosecond);
         }>},
        {"`std::chrono`", each<[](int k) {
             int64_t first = 0, second = 0;
             refused |= !chrono_second(date_times[k], &first) || !chrono_second(date_times[k ^ 1], &second);
             given_orders[k] = order_of(first, date_times[k].nanosecond, second, date_times[k ^ 1].nanosecond);
         }>},
    };
    measure("date-time to another offset", input, converted, are_other_date_times);
    measure("test of a date-time", input, tests, none_is_refused);
    measure("timestamp plus a duration", input, stamp_sums, are_sums);
    measure("timestamp rounded down to an hour", input, hours, are_hours);
    measure("date-time plus a duration", input, sums, are_date_time_sums);
    measure("difference of date-times", input, differences, are_differences);
    measure("order of date-times", input, orders, are_orders);
}

#ifdef WITH_ABSEIL
void read_by_abseil(int k) {
    absl::Time at;
    absl::string_view text(texts + spans[k].start, spans[k].length);
    refused |= !absl::ParseTime(absl::RFC3339_full, text, &at, nullptr);
    timespec parts = absl::ToTimespec(at);
    given_stamps[k] = {parts.tv_sec, uint32_t(parts.tv_nsec)};
}

void write_by_abseil(int k) {
    std::string text = absl::FormatTime("%Y-%m-%d%ET%H:%M:%SZ", absl_times[k], absl::UTCTimeZone());
    given_sizes[k] = text.size();
    std::memcpy(given_texts + k * PLACE, text.data(), text.size());
}
#endif

void measure_texts(const char *input, bool is_short) {
    std::vector<Contender> readers = {
        {"here, a batch",
         [] { refused |= muxandu_timestamps_from_rfc3339(texts, sizeof texts, spans, ITEMS, given_stamps, ITEMS).status; }},
        {"here", each<[](int k) {
             refused |= muxandu_timestamp_from_rfc3339(texts + spans[k].start, spans[k].length, given_stamps + k);
         }>},
    };
    std::vector<Contender> writers = {
        {"here", each<[](int k) {
             refused |= muxandu_date_time_to_rfc3339(date_times[k], given_texts + k * PLACE, PLACE, given_sizes + k);
         }>},
        {"C by hand", each<[](int k) { given_sizes[k] = peer_write(date_times + k, given_texts + k * PLACE); }>},
    };
#ifdef __SSE4_1__
    readers.push_back(
        {"C by hand", each<[](int k) { refused |= !peer_read(texts + spans[k].start, spans[k].length, given_stamps + k); }>});
#endif
#ifdef WITH_ABSEIL
    readers.push_back({"Abseil", each<read_by_abseil>});
    // it writes the offset 0 as +00:00, where it is not a byte of the form
    if (is_short) writers.push_back({"Abseil", each<write_by_abseil>});
#endif
    // neither strptime nor strftime has a fraction, or an offset with a colon
    if (is_short) {
        readers.push_back({"C library", each<[](int k) {
                               struct tm at;
                               strptime(texts + spans[k].start, "%Y-%m-%dT%H:%M:%SZ", &at);
                               given_stamps[k] = {timegm(&at), 0};
                           }>});
        writers.push_back(
            {"C library",
             each<[](int k) { given_sizes[k] = strftime(given_texts + k * PLACE, PLACE, "%Y-%m-%dT%H:%M:%SZ", broken + k); }>});
    }
    measure("text of RFC 3339 to timestamp", input, readers, are_stamps);
    measure("date-time to a text of RFC 3339", input, writers, are_texts);
}

uint64_t state = 88172645463325252u;

uint64_t random_number() {
    state ^= state << 13;
    state ^= state >> 7;
    state ^= state << 17;
    return state;
}

// Fills what calls are made of, and what they must give, by bare.c, for these seconds and one offset.
void fill(int64_t first, uint64_t span) {
    for (int k = 0; k < ITEMS; k++) {
        seconds[k] = first + int64_t(random_number() % span);
        days[k] = int32_t(floor_divide(seconds[k], 86400));
        dates[k] = era_date(days[k]);
        stamps[k] = {seconds[k], 0};
        time_t shown = seconds[k] + OFFSET;
        gmtime_r(&shown, broken + k);
    }
    refused |= bare_date_times_from_seconds(seconds, ITEMS, OFFSET, date_times, ITEMS).status;
}

// Fills date-times at six offsets, each with a nanosecond, and those at the other offset. A pair is `near` seconds apart at most,
// where that is not 0.
void fill_mixed(int64_t first, uint64_t span, uint64_t near) {
    static const int32_t offsets[] = {0, 3600, 7200, -18000, 19800, -12600};
    for (int k = 0; k < ITEMS; k++) {
        bool is_second = near != 0 && k % 2 != 0;
        seconds[k] = is_second ? seconds[k - 1] + int64_t(random_number() % near) : first + int64_t(random_number() % span);
        stamps[k] = {seconds[k], uint32_t(random_number() % 1000000000)};
        refused |= bare_date_time_from_timestamp(stamps[k], offsets[random_number() % 6], date_times + k);
        refused |= bare_date_time_from_timestamp(stamps[k], OTHER_OFFSET, other_date_times + k);
    }
}

// Fills texts of the years 2017 to 2021, by printf: of 20 bytes in UTC, or at six offsets and with 0, 3, 6 or 9 digits.
void fill_texts(bool is_mixed) {
    static const uint32_t units[] = {1000000000, 1000000, 1000, 1};
    size_t end = 0;
    fill_mixed(1483228800, 157766400, 0);
    for (int k = 0; k < ITEMS; k++) {
        size_t kind = is_mixed ? random_number() % 4 : 0;
        stamps[k].nanoseconds = stamps[k].nanoseconds / units[kind] * units[kind];
        if (kind != 0 && stamps[k].nanoseconds / units[kind] % 10 == 0) stamps[k].nanoseconds += units[kind];
        refused |= bare_date_time_from_timestamp(stamps[k], is_mixed ? date_times[k].offset_seconds : 0, date_times + k);
        const MuxanduDateTime &at = date_times[k];
        char text[64], fraction[16] = "", zone[16] = "Z";
        if (kind != 0) std::snprintf(fraction, sizeof fraction, ".%0*u", int(3 * kind), at.nanosecond / units[kind]);
        int minutes = std::abs(at.offset_seconds) / 60;
        if (minutes != 0)
            std::snprintf(zone, sizeof zone, "%c%02d:%02d", at.offset_seconds < 0 ? '-' : '+', minutes / 60, minutes % 60);
        int size = std::snprintf(text, sizeof text, "%04d-%02d-%02dT%02d:%02d:%02d%s%s", at.year, at.month, at.day, at.hour,
                                 at.minute, at.second, fraction, zone);
        std::memcpy(texts + end, text, size_t(size));
        spans[k] = {end, size_t(size)};
        end += size_t(size);
        time_t shown = seconds[k];
        gmtime_r(&shown, broken + k);
#ifdef WITH_ABSEIL
        absl_times[k] = absl::FromUnixSeconds(seconds[k]);
#endif
    }
}

} // namespace

int main(int words, char **word) {
    if (words < 2) return 2;
    counts_instructions = std::strcmp(word[1], "instructions") == 0;
    int next = 2;
    if (!counts_instructions) rounds = words > next ? std::atoi(word[next++]) : 1;
    if (words > next) chosen = word[next];
    peer_fill_pairs();
    fill(1483228800, 157766400);
    measure_dates("2017 to 2021", false);
    fill(-2000000000, 8000000000);
    measure_dates("1906 to 2160", false);
    fill(PEER_FIRST_SECOND + 93599, uint64_t(PEER_LAST_SECOND - PEER_FIRST_SECOND) - 2 * 93599);
    measure_dates("-999999 to 999999", true);
    fill_mixed(1483228800, 157766400, 86400);
    measure_instants("2017 to 2021, pairs a day apart at most");
    fill_mixed(-377700000000, 631090000000, 0);
    measure_instants("-9999 to 9999");
    fill_texts(false);
    measure_texts("20 bytes", true);
    fill_texts(true);
    measure_texts("20 to 35 bytes", false);
    if (refused != 0) std::printf("an input is refused\n");
    return refused != 0;
}
