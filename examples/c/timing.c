/* What a call takes from C, by one thread and an office that keeps no entry, in nanoseconds of the thread's own time: the least of nine
 * rounds. It prints a line for a Request to the only arena, and one for a Limit. */
#define _POSIX_C_SOURCE 200809L
#include "market.h"

#include <stdio.h>
#include <time.h>

enum { CALLS = 2000000, ROUNDS = 9 };

static double now(void) {
    struct timespec time;
    clock_gettime(CLOCK_THREAD_CPUTIME_ID, &time);
    return (double)time.tv_sec * 1e9 + (double)time.tv_nsec;
}

int main(void) {
    market_seat seat = MARKET_SEAT_INIT;
    const market_terms terms = {8, 64, 1, 3, 3, 1048576, MARKET_KEEP_NOTHING};
    uint32_t arena = 0, number = 0;
    if (market_open(&seat, &terms) != MARKET_OK || market_arena_open(&seat, 64, 0, 1, &arena) != MARKET_OK) return 1;
    double least_request = 1e9, least_limit = 1e9;
    for (int round = 0; round < ROUNDS; round++) {
        double from = now();
        for (int call = 0; call < CALLS; call++)
            if (market_request(&seat, arena, call % 2 == 0 ? 1 : -1, 0, &number) != MARKET_OK) return 1;
        const double request = (now() - from) / CALLS;
        market_limits limits = {0, 0, 0};
        from = now();
        for (int call = 0; call < CALLS; call++)
            if (market_limit(&seat, &limits) != MARKET_OK) return 1;
        const double limit = (now() - from) / CALLS;
        if (request < least_request) least_request = request;
        if (limit < least_limit) least_limit = limit;
    }
    printf("request %6.1f\nlimit   %6.1f\n", least_request, least_limit);
    market_totals totals;
    return market_close(&seat, &totals) == MARKET_OK ? 0 : 1;
}
