/* Calls from a signal handler while another call is under way: each has the results of calls by themselves. The handler has a stack
 * of its own, which has room for a call as muxandu.h says it, and for what the system puts there.
 *
 * The last line is 'N passed, M failed'. */
#define _XOPEN_SOURCE 700
#include <signal.h>
#include <sys/time.h>

#include "checks.h"

#define ITEMS 64
#define WANTED 200
#define MOST 200000000
#define OF_SYSTEM 8192

static const char description[] = "[year]-[month]-[day]T[hour]:[minute]:[second]";
static MuxanduTimestamp given[ITEMS];
static MuxanduDateTime wanted[ITEMS];
static volatile sig_atomic_t signals, differ;

/* Two calls of each kind by the results of those that nothing interrupts. */
static int are_right(size_t n) {
    MuxanduDateTime shown, read;
    char text[MUXANDU_TEXT_ROOM];
    size_t size;
    if (muxandu_date_time_from_timestamp(given[n], 3600, &shown) != MUXANDU_OK) return 0;
    if (!is_date_time(shown, wanted[n])) return 0;
    if (muxandu_date_time_to_rfc3339(shown, text, sizeof text, &size) != MUXANDU_OK) return 0;
    if (muxandu_date_time_from_rfc3339(text, size, &read) != MUXANDU_OK || !is_date_time(read, wanted[n])) return 0;
    return muxandu_parse(MUXANDU_KIND_PLAIN_DATE_TIME, description, sizeof description - 1, text, 19, &read).status ==
           MUXANDU_OK;
}

static void handle(int number) {
    (void)number;
    if (!are_right((size_t)signals % ITEMS)) differ = 1;
    signals = signals + 1;
}

int main(void) {
    struct itimerval every = {{0, 200}, {0, 200}};
    static char room[OF_SYSTEM + MUXANDU_STACK];
    struct sigaction action;
    stack_t stack;
    int is_right = 1;
    for (size_t n = 0; n < ITEMS; n++) {
        given[n] = stamp((int64_t)n * 1000003, (uint32_t)n * 1000);
        CHECK(muxandu_date_time_from_timestamp(given[n], 3600, &wanted[n]) == MUXANDU_OK);
    }
    memset(&action, 0, sizeof action);
    memset(&stack, 0, sizeof stack);
    stack.ss_sp = room;
    stack.ss_size = sizeof room;
    CHECK(sigaltstack(&stack, NULL) == 0);
    action.sa_handler = handle;
    action.sa_flags = SA_ONSTACK;
    CHECK(sigaction(SIGALRM, &action, NULL) == 0 && setitimer(ITIMER_REAL, &every, NULL) == 0);
    for (long n = 0; n < MOST && signals < WANTED; n++) is_right &= are_right((size_t)n % ITEMS);
    CHECK(is_right);
    CHECK(!differ);
    CHECK(signals >= WANTED);
    return counted();
}
