/* Each misuse is told by its code, and the market goes on. Argument: by how many threads at once (1), each on places of its own; where they
 * are more than one, all then use the same two seats and the same journal. Prints what was wrong, and ends with 0 where all codes are
 * right. */
#include "market.h"

#include <pthread.h>
#include <stdatomic.h>
#include <stdio.h>
#include <stdlib.h>
#include <time.h>

enum { MOST_THREADS = 64, PATIENCE = 60 };

static atomic_int wrong;

static void want(const char *what, int32_t code, int32_t wanted) {
    if (code == wanted) return;
    wrong++;
    printf("%s: %s, not %s\n", what, market_code_name(code), market_code_name(wanted));
}

static void want_number(const char *what, uint64_t number, uint64_t wanted) {
    if (number == wanted) return;
    wrong++;
    printf("%s: %llu, not %llu\n", what, (unsigned long long)number, (unsigned long long)wanted);
}

/* Two seats, forty places, three levels. */
static market_terms usual(uint32_t keeping) {
    const market_terms terms = {4, 64, 2, 40, 3, 1048576, keeping};
    return terms;
}

/* A market in a place of zeros. */
static void open_on(market_seat *seat, market_terms terms) { want("open", market_open(seat, &terms), MARKET_OK); }

static void close_with(market_seat *seat, uint64_t calls) {
    market_totals totals = {77};
    want("close", market_close(seat, &totals), MARKET_OK);
    want_number("calls", totals.calls, calls);
    want("close again", market_close(seat, &totals), MARKET_BAD_SEAT);
    want_number("and nothing is written", totals.calls, calls);
}

/* A place of zeros, and no place at all. */
static void no_seat(void) {
    market_seat zeros = MARKET_SEAT_INIT, other = MARKET_SEAT_INIT;
    market_journal journal = MARKET_JOURNAL_INIT;
    market_totals totals = {77};
    market_view view = {0};
    market_limits limits = {0};
    market_counts counts[2];
    market_part part = {77, 77};
    uint64_t many = 77;
    uint32_t number = 77;
    want("arena_open on zeros", market_arena_open(&zeros, 8, 1, 1, &number), MARKET_BAD_SEAT);
    want("arena_close on zeros", market_arena_close(&zeros, 1), MARKET_BAD_SEAT);
    want("priority on zeros", market_priority(&zeros, 1, 1), MARKET_BAD_SEAT);
    want("resize on zeros", market_resize(&zeros, 1, 8, 1, &number), MARKET_BAD_SEAT);
    want("request on zeros", market_request(&zeros, 1, 1, 0, &number), MARKET_BAD_SEAT);
    want("control on zeros", market_control(&zeros, 1, &number), MARKET_BAD_SEAT);
    want("uncontrol on zeros", market_uncontrol(&zeros, 1), MARKET_BAD_SEAT);
    want("join on zeros", market_join(&zeros, &number), MARKET_BAD_SEAT);
    want("stay on zeros", market_stay(&zeros, &number), MARKET_BAD_SEAT);
    want("leave on zeros", market_leave(&zeros, &number), MARKET_BAD_SEAT);
    want("show on zeros", market_show(&zeros, 1, &view), MARKET_BAD_SEAT);
    want("limit on zeros", market_limit(&zeros, &limits), MARKET_BAD_SEAT);
    want("lists on zeros", market_lists(&zeros, counts, 2, &many), MARKET_BAD_SEAT);
    want("an attempt on zeros", market_try_join(&zeros, &number), MARKET_BAD_SEAT);
    want("close of zeros", market_close(&zeros, &totals), MARKET_BAD_SEAT);
    want("split of zeros", market_split(&zeros, &other), MARKET_BAD_SEAT);
    want("merge of zeros", market_merge(&zeros, &other), MARKET_BAD_SEAT);
    want("a journal of no market", market_journal_open(&zeros, &journal), MARKET_BAD_SEAT);
    want("no seat at all", market_join(NULL, &number), MARKET_BAD_SEAT);
    want("no seat to open", market_open(NULL, NULL), MARKET_BAD_SEAT);
    want("no seat to merge", market_merge(&zeros, NULL), MARKET_BAD_SEAT);
    want("no seat to cut by", market_cut(NULL, &journal, &part), MARKET_BAD_SEAT);
    want("no journal at all", market_journal_close(NULL), MARKET_BAD_JOURNAL);
    want_number("nothing was written", number + totals.calls + many + part.from, 4 * 77);
}

/* Terms out of their ranges, and a place that holds a seat. */
static void openings(void) {
    market_seat seat = MARKET_SEAT_INIT;
    market_terms bad = usual(MARKET_KEEP_ALL);
    bad.base = 0;
    want("base 0", market_open(&seat, &bad), MARKET_BAD_BASE);
    bad = usual(MARKET_KEEP_ALL), bad.hard = 0;
    want("hard 0", market_open(&seat, &bad), MARKET_BAD_HARD);
    bad = usual(MARKET_KEEP_ALL), bad.seats = 0;
    want("no seats", market_open(&seat, &bad), MARKET_BAD_SEATS);
    bad = usual(MARKET_KEEP_ALL), bad.seats = 65;
    want("65 seats", market_open(&seat, &bad), MARKET_BAD_SEATS);
    bad = usual(MARKET_KEEP_ALL), bad.places = 0;
    want("no places", market_open(&seat, &bad), MARKET_BAD_PLACES);
    bad = usual(MARKET_KEEP_ALL), bad.levels = 9;
    want("nine levels", market_open(&seat, &bad), MARKET_BAD_LEVELS);
    bad = usual(MARKET_KEEP_ALL), bad.last = 0;
    want("last 0", market_open(&seat, &bad), MARKET_BAD_NUMBER);
    bad = usual(3);
    want("keeping 3", market_open(&seat, &bad), MARKET_BAD_NUMBER);
    open_on(&seat, usual(MARKET_KEEP_ALL));
    bad = usual(MARKET_KEEP_ALL);
    want("opened over a live seat", market_open(&seat, &bad), MARKET_BAD_SEAT);
    close_with(&seat, 0);
}

/* Two seats of one market: each may be used, none twice in one call, and none after it was given back. */
static void two_seats_of_one_market(void) {
    market_seat a = MARKET_SEAT_INIT, b = MARKET_SEAT_INIT, c = MARKET_SEAT_INIT;
    market_totals totals = {77};
    uint32_t number = 77;
    open_on(&a, usual(MARKET_KEEP_ALL));
    want("split onto itself", market_split(&a, &a), MARKET_BAD_SEAT);
    want("split", market_split(&a, &b), MARKET_OK);
    want("split onto a live one", market_split(&a, &b), MARKET_BAD_SEAT);
    want("a seat too many", market_split(&a, &c), MARKET_NO_SEAT_LEFT);
    want("a seat too many from the other", market_split(&b, &c), MARKET_NO_SEAT_LEFT);
    want("merged into itself", market_merge(&a, &a), MARKET_BAD_SEAT);
    want("merge of zeros", market_merge(&a, &c), MARKET_BAD_SEAT);
    want("merge into zeros", market_merge(&c, &a), MARKET_BAD_SEAT);
    want("close too early", market_close(&a, &totals), MARKET_SEATS_OUT);
    want("close too early by the other", market_close(&b, &totals), MARKET_SEATS_OUT);
    want("arena_open by one", market_arena_open(&a, 8, 1, 1, &number), MARKET_OK);
    want("request by the other", market_request(&b, 1, 1, 0, &number), MARKET_OK);
    want("join", market_join(&b, &number), MARKET_OK);
    want("merge while placed", market_merge(&a, &b), MARKET_STILL_PLACED);
    want("close while placed", market_close(&b, &totals), MARKET_STILL_PLACED);
    want("leave", market_leave(&b, &number), MARKET_OK);
    want("merge", market_merge(&a, &b), MARKET_OK);
    want("merge again", market_merge(&a, &b), MARKET_BAD_SEAT);
    want("a call on a seat given back", market_join(&b, &number), MARKET_BAD_SEAT);
    want("split again", market_split(&a, &b), MARKET_OK);
    want("the first into the second", market_merge(&b, &a), MARKET_OK);
    want("close of one given back", market_close(&a, &totals), MARKET_BAD_SEAT);
    want_number("nothing was written", totals.calls, 77);
    close_with(&b, 4);
}

static void seats_of_two_markets(void) {
    market_seat a = MARKET_SEAT_INIT, b = MARKET_SEAT_INIT, part_of_b = MARKET_SEAT_INIT;
    market_journal journal = MARKET_JOURNAL_INIT;
    market_totals totals = {77};
    market_part part = {77, 77};
    char text[256];
    uint64_t written = 77;
    open_on(&a, usual(MARKET_KEEP_PARTS));
    open_on(&b, usual(MARKET_KEEP_PARTS));
    want("a seat of another market", market_merge(&a, &b), MARKET_OTHER_MARKET);
    want("split of the other", market_split(&b, &part_of_b), MARKET_OK);
    want("a part of it", market_merge(&a, &part_of_b), MARKET_OTHER_MARKET);
    want("journal_open", market_journal_open(&a, &journal), MARKET_OK);
    want("a cut of another market", market_cut(&b, &journal, &part), MARKET_OTHER_MARKET);
    want("merge of the other", market_merge(&b, &part_of_b), MARKET_OK);
    want("a close of another market", market_close_into(&b, &journal, &totals, &part), MARKET_OTHER_MARKET);
    want_number("nothing was told", totals.calls + part.from, 2 * 77);
    want("read", market_journal_read(&journal, text, sizeof text, &written), MARKET_OK);
    want("journal_close", market_journal_close(&journal), MARKET_OK);
    close_with(&a, 0);
    close_with(&b, 0);
}

/* What a command is refused for. */
static void refusals(void) {
    market_seat seat = MARKET_SEAT_INIT;
    market_terms terms = usual(MARKET_KEEP_NOTHING);
    uint32_t number = 77;
    terms.last = 1300;
    open_on(&seat, terms);
    want("level 0", market_arena_open(&seat, 8, 1, 0, &number), MARKET_BAD_NUMBER);
    want("level 9", market_arena_open(&seat, 8, 1, 9, &number), MARKET_BAD_NUMBER);
    want("level 4", market_arena_open(&seat, 8, 1, 4, &number), MARKET_BAD_LEVEL);
    want("no slots", market_arena_open(&seat, 0, 0, 1, &number), MARKET_BAD_SLOTS);
    want("too many reserved", market_arena_open(&seat, 8, 9, 1, &number), MARKET_BAD_RESERVE);
    want("no such arena", market_request(&seat, 9, 1, 0, &number), MARKET_NO_ARENA);
    want("no such control", market_uncontrol(&seat, 9), MARKET_NO_CONTROL);
    want("a control of 0", market_control(&seat, 0, &number), MARKET_BAD_VALUE);
    want_number("nothing was written", number, 77);
    for (int arena = 1; arena <= 1024; arena++) want("arena_open", market_arena_open(&seat, 8, 1, 1, &number), MARKET_OK);
    want("one arena more", market_arena_open(&seat, 8, 1, 1, &number), MARKET_TOO_MANY_ARENAS);
    for (int control = 1; control <= 256; control++) want("control", market_control(&seat, 4, &number), MARKET_OK);
    want("one control more", market_control(&seat, 4, &number), MARKET_TOO_MANY_CONTROLS);
    want("priority to level 9", market_priority(&seat, 1, 9), MARKET_BAD_NUMBER);
    want("priority to level 4", market_priority(&seat, 1, 4), MARKET_BAD_LEVEL);
    for (int stamp = 1025; stamp <= 1300; stamp++) want("priority", market_priority(&seat, 1, 1), MARKET_OK);
    want("no stamp left", market_priority(&seat, 1, 1), MARKET_OUT_OF_NUMBERS);
    want("all wanted", market_request(&seat, 1, INT32_MAX, 65535, &number), MARKET_OK);
    want("one more wanted", market_request(&seat, 1, 1, 0, &number), MARKET_WANTED_RANGE);
    want("one more enqueued", market_request(&seat, 1, 0, 1, &number), MARKET_MANDATORY_RANGE);
    want("fewer enqueued than none", market_request(&seat, 2, 0, -1, &number), MARKET_MANDATORY_RANGE);
    /* Two levels were no number of a command, so they were not asked; all else was, refusals too. */
    close_with(&seat, 6 + 1025 + 257 + 1 + 277 + 4);
}

/* What a seat can't ask as it is: placed, or not. */
static void unfit_seats(void) {
    market_seat a = MARKET_SEAT_INIT, b = MARKET_SEAT_INIT;
    market_journal journal = MARKET_JOURNAL_INIT;
    market_view view = {0};
    market_part part = {77, 77};
    uint32_t number = 77;
    char text[256];
    uint64_t written = 77;
    open_on(&a, usual(MARKET_KEEP_PARTS));
    want("split", market_split(&a, &b), MARKET_OK);
    want("journal_open", market_journal_open(&a, &journal), MARKET_OK);
    want("arena_open", market_arena_open(&a, 8, 1, 1, &number), MARKET_OK);
    want("stay while not placed", market_stay(&b, &number), MARKET_UNFIT);
    want("leave while not placed", market_leave(&b, &number), MARKET_UNFIT);
    want("nothing to join", market_join(&b, &number), MARKET_IDLE);
    want("request", market_request(&b, 1, 1, 0, &number), MARKET_OK);
    want("join", market_join(&b, &number), MARKET_OK);
    want("join while placed", market_join(&b, &number), MARKET_UNFIT);
    want("cut while placed", market_cut(&b, &journal, &part), MARKET_UNFIT);
    want("arena_close while in use", market_arena_close(&a, 1), MARKET_ARENA_IN_USE);
    want("show", market_show(&a, 1, &view), MARKET_OK);
    want_number("one is active", view.active, 1);
    want("stay", market_stay(&b, &number), MARKET_OK);
    want("request back", market_request(&b, 1, -1, 0, &number), MARKET_OK);
    want("recalled", market_stay(&b, &number), MARKET_RECALLED);
    want_number("by the arena", number, 1);
    want("leave after that", market_leave(&b, &number), MARKET_UNFIT);
    want("cut", market_cut(&b, &journal, &part), MARKET_OK);
    want_number("all of it", part.calls, 9);
    want("cut before it is read", market_cut(&b, &journal, &part), MARKET_UNREAD);
    do want("read", market_journal_read(&journal, text, sizeof text, &written), MARKET_OK);
    while (written > 0);
    want("journal_close", market_journal_close(&journal), MARKET_OK);
    want("merge", market_merge(&a, &b), MARKET_OK);
    close_with(&a, 9);
}

static void lists(void) {
    market_seat seat = MARKET_SEAT_INIT;
    market_counts counts[2] = {{77, 77, 77}, {77, 77, 77}};
    uint64_t many = 77;
    uint32_t number = 77;
    open_on(&seat, usual(MARKET_KEEP_ALL));
    want("arena_open", market_arena_open(&seat, 8, 1, 1, &number), MARKET_OK);
    want("lists", market_lists(&seat, counts, 2, &many), MARKET_OK);
    want_number("none is too many or too few", many, 0);
    want("request", market_request(&seat, 1, 2, 0, &number), MARKET_OK);
    want("lists with no room", market_lists(&seat, NULL, 0, &many), MARKET_OK);
    want_number("there is one", many, 1);
    want("lists", market_lists(&seat, counts, 2, &many), MARKET_OK);
    want_number("two are to be hired", counts[0].arena == 1 && counts[0].recall == 0 ? counts[0].hire : 0, 2);
    want_number("the other is not written", counts[1].arena, 77);
    close_with(&seat, 5);
}

static void journals(uint32_t keeping) {
    market_seat seat = MARKET_SEAT_INIT, other = MARKET_SEAT_INIT, zeros = MARKET_SEAT_INIT;
    market_journal journal = MARKET_JOURNAL_INIT;
    market_totals totals = {77};
    market_part part = {77, 77};
    unsigned char text[256];
    uint64_t written = 77;
    const int keeps = keeping != MARKET_KEEP_NOTHING;
    open_on(&seat, usual(keeping));
    want("a read of no journal", market_journal_read(&journal, text, sizeof text, &written), MARKET_BAD_JOURNAL);
    want("a cut into no journal", market_cut(&seat, &journal, &part), MARKET_BAD_JOURNAL);
    want("a close into no journal", market_close_into(&seat, &journal, &totals, &part), MARKET_BAD_JOURNAL);
    want("close of no journal", market_journal_close(&journal), MARKET_BAD_JOURNAL);
    want("journal_open", market_journal_open(&seat, &journal), MARKET_OK);
    want("opened over a live journal", market_journal_open(&seat, &journal), MARKET_BAD_JOURNAL);
    want("no seat at all", market_cut(&zeros, &journal, &part), MARKET_BAD_SEAT);
    want("a close of no seat", market_close_into(&zeros, &journal, &totals, &part), MARKET_BAD_SEAT);
    if (keeping != MARKET_KEEP_PARTS) want("a market that is not in parts", market_cut(&seat, &journal, &part), MARKET_NO_PART);
    if (!keeps) want("a market that keeps nothing", market_close_into(&seat, &journal, &totals, &part), MARKET_NO_PART);
    want("split", market_split(&seat, &other), MARKET_OK);
    if (keeps) want("close too early", market_close_into(&seat, &journal, &totals, &part), MARKET_SEATS_OUT);
    want("merge", market_merge(&seat, &other), MARKET_OK);
    want_number("nothing was told", totals.calls + part.from + part.calls + written, 4 * 77);
    want("close before it is read", market_journal_close(&journal), MARKET_UNREAD);
    want("a read of no bytes", market_journal_read(&journal, NULL, 0, &written), MARKET_OK);
    want_number("read nothing", written, 0);
    want("priority of no arena", market_priority(&seat, 1, 1), MARKET_NO_ARENA);
    if (keeping == MARKET_KEEP_PARTS) {
        want("cut", market_cut(&seat, &journal, &part), MARKET_OK);
        want_number("one call", part.from == 0 ? part.calls : 77, 1);
        want("a close before it is read", market_close_into(&seat, &journal, &totals, &part), MARKET_UNREAD);
    }
    do want("read", market_journal_read(&journal, text, sizeof text, &written), MARKET_OK);
    while (written > 0);
    want("priority of no arena", market_priority(&seat, 1, 1), MARKET_NO_ARENA);
    if (keeps) {
        want("close_into", market_close_into(&seat, &journal, &totals, &part), MARKET_OK);
        want_number("two calls", totals.calls, 2);
        want_number("up to the last", part.from + part.calls, 2);
        want_number("and what was not cut", part.from, keeping == MARKET_KEEP_PARTS ? 1 : 0);
        want("close again", market_close_into(&seat, &journal, &totals, &part), MARKET_UNREAD);
        want("read", market_journal_read(&journal, text, sizeof text, &written), MARKET_OK);
        want("a line", written > 0 && text[0] == '{', 1);
        want("and again", market_close_into(&seat, &journal, &totals, &part), MARKET_BAD_SEAT);
        do want("read", market_journal_read(&journal, text, sizeof text, &written), MARKET_OK);
        while (written > 0);
    } else {
        close_with(&seat, 2);
    }
    want("journal_close", market_journal_close(&journal), MARKET_OK);
    want("journal_close again", market_journal_close(&journal), MARKET_BAD_JOURNAL);
}

static void full_history(void) {
    market_seat seat = MARKET_SEAT_INIT;
    int32_t code = MARKET_OK;
    int calls = 0;
    open_on(&seat, usual(MARKET_KEEP_ALL));
    while (calls < 60 && (code = market_priority(&seat, 1, 1)) == MARKET_NO_ARENA) calls++;
    want("the history is full", code, MARKET_HISTORY_FULL);
    close_with(&seat, 40);
}

static void *all_misuses(void *unused) {
    no_seat();
    openings();
    two_seats_of_one_market();
    seats_of_two_markets();
    refusals();
    unfit_seats();
    lists();
    journals(MARKET_KEEP_ALL);
    journals(MARKET_KEEP_PARTS);
    journals(MARKET_KEEP_NOTHING);
    full_history();
    return unused;
}

/* What several threads use at the same time, and what they were told. */
static market_seat shared = MARKET_SEAT_INIT, twin = MARKET_SEAT_INIT;
static market_journal shared_journal = MARKET_JOURNAL_INIT;
static atomic_uint_least64_t answered, seat_in_use, journal_in_use;
static time_t deadline;

/* Counts a code where it tells of an overlap, and else wants one of the two. */
static int is_done(const char *what, int32_t code, int32_t or_else) {
    if (code == MARKET_SEAT_IN_USE) seat_in_use++;
    else if (code == MARKET_JOURNAL_IN_USE) journal_in_use++;
    else if (code != or_else) want(what, code, MARKET_OK);
    return code == MARKET_OK;
}

/* Whether two calls by one seat have met, and two of one journal, which takes a while where there is one processor; or it is too late. */
static int has_met(void) { return (seat_in_use > 0 && journal_in_use > 0) || time(NULL) > deadline; }

static void *on_one_seat(void *unused) {
    market_limits limits;
    char text[16];
    uint64_t written;
    do {
        for (int call = 0; call < 10000; call++) {
            answered += is_done("limit", market_limit(&shared, &limits), MARKET_OK);
            is_done("read", market_journal_read(&shared_journal, text, sizeof text, &written), MARKET_OK);
        }
    } while (!has_met());
    return unused;
}

/* Each of the two is empty at times, or holds both seats. */
static void *on_two_seats(void *unused) {
    market_limits limits;
    for (int call = 0; call < 10000; call++) {
        is_done("split", market_split(&shared, &twin), MARKET_BAD_SEAT);
        answered += is_done("limit by one", market_limit(&shared, &limits), MARKET_BAD_SEAT);
        answered += is_done("limit by the other", market_limit(&twin, &limits), MARKET_BAD_SEAT);
        if (call % 2 == 0) is_done("merge", market_merge(&shared, &twin), MARKET_BAD_SEAT);
        else is_done("merge back", market_merge(&twin, &shared), MARKET_BAD_SEAT);
    }
    return unused;
}

static void by_all(int threads, void *(*run)(void *)) {
    pthread_t started[MOST_THREADS];
    for (int k = 0; k < threads; k++)
        if (pthread_create(&started[k], NULL, run, NULL) != 0) {
            printf("no thread\n");
            exit(1);
        }
    for (int k = 0; k < threads; k++) pthread_join(started[k], NULL);
}

static void shared_seats(int threads) {
    market_totals totals = {77};
    open_on(&shared, usual(MARKET_KEEP_NOTHING));
    want("journal_open", market_journal_open(&shared, &shared_journal), MARKET_OK);
    deadline = time(NULL) + PATIENCE;
    by_all(threads, on_one_seat);
    want("two calls by one seat", seat_in_use > 0 ? MARKET_SEAT_IN_USE : MARKET_OK, MARKET_SEAT_IN_USE);
    want("two of one journal", journal_in_use > 0 ? MARKET_JOURNAL_IN_USE : MARKET_OK, MARKET_JOURNAL_IN_USE);
    by_all(threads, on_two_seats);
    is_done("merge", market_merge(&shared, &twin), MARKET_BAD_SEAT);
    want("journal_close", market_journal_close(&shared_journal), MARKET_OK);
    int32_t code = market_close(&shared, &totals);
    if (code == MARKET_BAD_SEAT) code = market_close(&twin, &totals);
    want("close", code, MARKET_OK);
    want_number("calls", totals.calls, answered);
    fprintf(stderr, "%llu calls, %llu times a seat in use, %llu times a journal\n", (unsigned long long)answered,
        (unsigned long long)seat_in_use, (unsigned long long)journal_in_use);
}

int main(int count, char **words) {
    const int threads = count > 1 ? atoi(words[1]) : 1;
    if (threads < 1 || threads > MOST_THREADS) return 2;
    by_all(threads, all_misuses);
    if (threads > 1) shared_seats(threads);
    printf("%s\n", wrong == 0 ? "every misuse was told by its code" : "WRONG");
    return wrong == 0 ? 0 : 1;
}
