/* What stands between C and the proved library, whose functions are market_raw_*: a flag for each seat, the number of the market
 * that it is of, and the waits between attempts. */
#include "market.h"

#include <sched.h>
#include <stdatomic.h>
#include <stddef.h>

/* The proved functions. A place is what a market_seat begins with. */
int32_t market_raw_open(void *place, const market_terms *terms);
int32_t market_raw_split(void *from, void *to);
int32_t market_raw_merge(void *into, void *from);
int32_t market_raw_close(void *place, market_totals *totals);
int32_t market_raw_arena_open(void *place, uint32_t slots, uint32_t reserved, uint32_t level, uint32_t *arena);
int32_t market_raw_arena_close(void *place, uint32_t arena);
int32_t market_raw_priority(void *place, uint32_t arena, uint32_t level);
int32_t market_raw_resize(void *place, uint32_t arena, uint32_t slots, uint32_t reserved, uint32_t *request);
int32_t market_raw_request(void *place, uint32_t arena, int32_t wanted, int32_t mandatory, uint32_t *request);
int32_t market_raw_control(void *place, uint32_t value, uint32_t *control);
int32_t market_raw_uncontrol(void *place, uint32_t control);
int32_t market_raw_join(void *place, uint32_t *arena);
int32_t market_raw_stay(void *place, uint32_t *arena);
int32_t market_raw_leave(void *place, uint32_t *arena);
int32_t market_raw_show(void *place, uint32_t arena, market_view *view);
int32_t market_raw_limit(void *place, market_limits *limits);
int32_t market_raw_lists(void *place, market_counts *arenas, size_t room, uint64_t *count);
int32_t market_raw_journal_open(void *place, void *journal);
int32_t market_raw_cut(void *place, void *journal, market_part *part);
int32_t market_raw_close_into(void *place, void *journal, market_totals *totals, market_part *part);
int32_t market_raw_journal_read(void *journal, unsigned char *buffer, size_t room, uint64_t *written);
int32_t market_raw_journal_close(void *journal);

/* How many attempts a call makes before it gives its processor away, and how many pauses stand between two of them. */
enum { ATTEMPTS_AT_ONCE = 16, PAUSES = 32 };

/* The flag is a plain byte in the header, which C and C++ read alike. */
static int take(market_seat *seat) { return !__atomic_test_and_set(&seat->in_use, __ATOMIC_ACQUIRE); }

static void give(market_seat *seat) { __atomic_clear(&seat->in_use, __ATOMIC_RELEASE); }

static void pause_a_while(void) {
    for (int i = 0; i < PAUSES; i++) {
#if defined(__x86_64__) || defined(__i386__)
        __builtin_ia32_pause();
#else
        atomic_signal_fence(memory_order_seq_cst);
#endif
    }
}

static void wait_between(const market_seat *seat, unsigned round) {
    if (seat->wait != NULL)
        seat->wait(round, seat->with);
    else if (round < ATTEMPTS_AT_ONCE)
        pause_a_while();
    else
        sched_yield();
}

/* One attempt by this seat, with its flag taken. */
#define TRY(CALL)                                     \
    if (seat == NULL) return MARKET_BAD_SEAT;         \
    if (!take(seat)) return MARKET_SEAT_IN_USE;       \
    const int32_t code = CALL;                        \
    give(seat);                                       \
    return code;

/* Attempts, until one is answered. */
#define UNTIL_ANSWERED(ATTEMPT)                        \
    for (unsigned round = 0;; round++) {               \
        const int32_t code = ATTEMPT;                  \
        if (code != MARKET_BUSY) return code;          \
        wait_between(seat, round);                     \
    }

/* ---- seats ---- */

/* Each market that is opened has a number of its own, from 1. */
static atomic_uint_least64_t markets;

int32_t market_open(market_seat *seat, const market_terms *terms) {
    if (seat == NULL) return MARKET_BAD_SEAT;
    if (!take(seat)) return MARKET_SEAT_IN_USE;
    const int32_t code = market_raw_open(&seat->place, terms);
    if (code == MARKET_OK) seat->market = atomic_fetch_add(&markets, 1) + 1;
    give(seat);
    return code;
}

/* Takes the flags of two seats. One seat twice is a misuse, as proved code must not get it. */
static int32_t take_both(market_seat *one, market_seat *other) {
    if (one == NULL || other == NULL || one == other) return MARKET_BAD_SEAT;
    if (!take(one)) return MARKET_SEAT_IN_USE;
    if (take(other)) return MARKET_OK;
    give(one);
    return MARKET_SEAT_IN_USE;
}

int32_t market_split(market_seat *from, market_seat *to) {
    int32_t code = take_both(from, to);
    if (code != MARKET_OK) return code;
    code = market_raw_split(&from->place, &to->place);
    if (code == MARKET_OK) to->market = from->market;
    give(to);
    give(from);
    return code;
}

int32_t market_merge(market_seat *into, market_seat *from) {
    int32_t code = take_both(into, from);
    if (code != MARKET_OK) return code;
    /* What the proved function asks for: both are of one market. Where one of the places is empty, it finds that itself. */
    const int both_live = into->market != 0 && from->market != 0;
    code = both_live && into->market != from->market ? MARKET_OTHER_MARKET : market_raw_merge(&into->place, &from->place);
    if (code == MARKET_OK) from->market = 0;
    give(from);
    give(into);
    return code;
}

int32_t market_close(market_seat *seat, market_totals *totals) {
    if (seat == NULL) return MARKET_BAD_SEAT;
    if (!take(seat)) return MARKET_SEAT_IN_USE;
    const int32_t code = market_raw_close(&seat->place, totals);
    if (code == MARKET_OK) seat->market = 0;
    give(seat);
    return code;
}

int32_t market_set_wait(market_seat *seat, market_wait_fn wait, void *with) {
    if (seat == NULL) return MARKET_BAD_SEAT;
    if (!take(seat)) return MARKET_SEAT_IN_USE;
    seat->wait = wait;
    seat->with = with;
    give(seat);
    return MARKET_OK;
}

/* ---- commands ---- */

int32_t market_try_arena_open(market_seat *seat, uint32_t slots, uint32_t reserved, uint32_t level, uint32_t *arena) {
    TRY(market_raw_arena_open(&seat->place, slots, reserved, level, arena))
}

int32_t market_arena_open(market_seat *seat, uint32_t slots, uint32_t reserved, uint32_t level, uint32_t *arena) {
    UNTIL_ANSWERED(market_try_arena_open(seat, slots, reserved, level, arena))
}

int32_t market_try_arena_close(market_seat *seat, uint32_t arena) { TRY(market_raw_arena_close(&seat->place, arena)) }

int32_t market_arena_close(market_seat *seat, uint32_t arena) { UNTIL_ANSWERED(market_try_arena_close(seat, arena)) }

int32_t market_try_priority(market_seat *seat, uint32_t arena, uint32_t level) {
    TRY(market_raw_priority(&seat->place, arena, level))
}

int32_t market_priority(market_seat *seat, uint32_t arena, uint32_t level) {
    UNTIL_ANSWERED(market_try_priority(seat, arena, level))
}

int32_t market_try_resize(market_seat *seat, uint32_t arena, uint32_t slots, uint32_t reserved, uint32_t *request) {
    TRY(market_raw_resize(&seat->place, arena, slots, reserved, request))
}

int32_t market_resize(market_seat *seat, uint32_t arena, uint32_t slots, uint32_t reserved, uint32_t *request) {
    UNTIL_ANSWERED(market_try_resize(seat, arena, slots, reserved, request))
}

int32_t market_try_request(market_seat *seat, uint32_t arena, int32_t wanted, int32_t mandatory, uint32_t *request) {
    TRY(market_raw_request(&seat->place, arena, wanted, mandatory, request))
}

int32_t market_request(market_seat *seat, uint32_t arena, int32_t wanted, int32_t mandatory, uint32_t *request) {
    UNTIL_ANSWERED(market_try_request(seat, arena, wanted, mandatory, request))
}

int32_t market_try_control(market_seat *seat, uint32_t value, uint32_t *control) {
    TRY(market_raw_control(&seat->place, value, control))
}

int32_t market_control(market_seat *seat, uint32_t value, uint32_t *control) {
    UNTIL_ANSWERED(market_try_control(seat, value, control))
}

int32_t market_try_uncontrol(market_seat *seat, uint32_t control) { TRY(market_raw_uncontrol(&seat->place, control)) }

int32_t market_uncontrol(market_seat *seat, uint32_t control) { UNTIL_ANSWERED(market_try_uncontrol(seat, control)) }

int32_t market_try_join(market_seat *seat, uint32_t *arena) { TRY(market_raw_join(&seat->place, arena)) }

int32_t market_join(market_seat *seat, uint32_t *arena) { UNTIL_ANSWERED(market_try_join(seat, arena)) }

int32_t market_try_stay(market_seat *seat, uint32_t *arena) { TRY(market_raw_stay(&seat->place, arena)) }

int32_t market_stay(market_seat *seat, uint32_t *arena) { UNTIL_ANSWERED(market_try_stay(seat, arena)) }

int32_t market_try_leave(market_seat *seat, uint32_t *arena) { TRY(market_raw_leave(&seat->place, arena)) }

int32_t market_leave(market_seat *seat, uint32_t *arena) { UNTIL_ANSWERED(market_try_leave(seat, arena)) }

int32_t market_try_show(market_seat *seat, uint32_t arena, market_view *view) {
    TRY(market_raw_show(&seat->place, arena, view))
}

int32_t market_show(market_seat *seat, uint32_t arena, market_view *view) {
    UNTIL_ANSWERED(market_try_show(seat, arena, view))
}

int32_t market_try_limit(market_seat *seat, market_limits *limits) { TRY(market_raw_limit(&seat->place, limits)) }

int32_t market_limit(market_seat *seat, market_limits *limits) { UNTIL_ANSWERED(market_try_limit(seat, limits)) }

/* A slice of no elements has a pointer too: it is never read. */
static market_counts no_counts;
static unsigned char no_bytes;

int32_t market_try_lists(market_seat *seat, market_counts *arenas, size_t room, uint64_t *count) {
    TRY(market_raw_lists(&seat->place, room == 0 ? &no_counts : arenas, room, count))
}

int32_t market_lists(market_seat *seat, market_counts *arenas, size_t room, uint64_t *count) {
    UNTIL_ANSWERED(market_try_lists(seat, arenas, room, count))
}

/* ---- the journal ---- */

/* The same flag, of a journal. */
static int take_journal(market_journal *journal) { return !__atomic_test_and_set(&journal->in_use, __ATOMIC_ACQUIRE); }

static void give_journal(market_journal *journal) { __atomic_clear(&journal->in_use, __ATOMIC_RELEASE); }

/* Takes the flags of a seat and of a journal. */
static int32_t take_with(market_seat *seat, market_journal *journal) {
    if (seat == NULL) return MARKET_BAD_SEAT;
    if (journal == NULL) return MARKET_BAD_JOURNAL;
    if (!take(seat)) return MARKET_SEAT_IN_USE;
    if (take_journal(journal)) return MARKET_OK;
    give(seat);
    return MARKET_JOURNAL_IN_USE;
}

/* A journal is of one market. Where one of the places is empty, the proved function finds that itself. */
static int are_apart(const market_seat *seat, const market_journal *journal) {
    return seat->market != 0 && journal->market != 0 && seat->market != journal->market;
}

int32_t market_journal_open(market_seat *seat, market_journal *journal) {
    int32_t code = take_with(seat, journal);
    if (code != MARKET_OK) return code;
    code = market_raw_journal_open(&seat->place, &journal->place);
    if (code == MARKET_OK) journal->market = seat->market;
    give_journal(journal);
    give(seat);
    return code;
}

int32_t market_try_cut(market_seat *seat, market_journal *journal, market_part *part) {
    int32_t code = take_with(seat, journal);
    if (code != MARKET_OK) return code;
    code = are_apart(seat, journal) ? MARKET_OTHER_MARKET : market_raw_cut(&seat->place, &journal->place, part);
    give_journal(journal);
    give(seat);
    return code;
}

int32_t market_cut(market_seat *seat, market_journal *journal, market_part *part) {
    UNTIL_ANSWERED(market_try_cut(seat, journal, part))
}

int32_t market_close_into(market_seat *seat, market_journal *journal, market_totals *totals, market_part *part) {
    int32_t code = take_with(seat, journal);
    if (code != MARKET_OK) return code;
    code = are_apart(seat, journal) ? MARKET_OTHER_MARKET : market_raw_close_into(&seat->place, &journal->place, totals, part);
    if (code == MARKET_OK) seat->market = 0;
    give_journal(journal);
    give(seat);
    return code;
}

int32_t market_journal_read(market_journal *journal, void *buffer, size_t size, uint64_t *written) {
    if (journal == NULL) return MARKET_BAD_JOURNAL;
    if (!take_journal(journal)) return MARKET_JOURNAL_IN_USE;
    const int32_t code = market_raw_journal_read(&journal->place, size == 0 ? &no_bytes : buffer, size, written);
    give_journal(journal);
    return code;
}

int32_t market_journal_close(market_journal *journal) {
    if (journal == NULL) return MARKET_BAD_JOURNAL;
    if (!take_journal(journal)) return MARKET_JOURNAL_IN_USE;
    const int32_t code = market_raw_journal_close(&journal->place);
    if (code == MARKET_OK) journal->market = 0;
    give_journal(journal);
    return code;
}

/* ---- names ---- */

const char *market_code_name(int32_t code) {
    switch (code) {
#define NAME(CODE) \
    case CODE:     \
        return #CODE;
        NAME(MARKET_OK)
        NAME(MARKET_BUSY)
        NAME(MARKET_HISTORY_FULL)
        NAME(MARKET_IDLE)
        NAME(MARKET_RECALLED)
        NAME(MARKET_NO_SEAT_LEFT)
        NAME(MARKET_SEATS_OUT)
        NAME(MARKET_STILL_PLACED)
        NAME(MARKET_UNREAD)
        NAME(MARKET_NO_PART)
        NAME(MARKET_BAD_SLOTS)
        NAME(MARKET_BAD_RESERVE)
        NAME(MARKET_TOO_MANY_ARENAS)
        NAME(MARKET_OUT_OF_NUMBERS)
        NAME(MARKET_NO_ARENA)
        NAME(MARKET_ARENA_IN_USE)
        NAME(MARKET_WANTED_RANGE)
        NAME(MARKET_MANDATORY_RANGE)
        NAME(MARKET_BAD_VALUE)
        NAME(MARKET_TOO_MANY_CONTROLS)
        NAME(MARKET_NO_CONTROL)
        NAME(MARKET_BAD_LEVEL)
        NAME(MARKET_BAD_BASE)
        NAME(MARKET_BAD_HARD)
        NAME(MARKET_BAD_SEATS)
        NAME(MARKET_BAD_PLACES)
        NAME(MARKET_BAD_LEVELS)
        NAME(MARKET_NO_MEMORY)
        NAME(MARKET_BAD_SEAT)
        NAME(MARKET_BAD_NUMBER)
        NAME(MARKET_SEAT_IN_USE)
        NAME(MARKET_OTHER_MARKET)
        NAME(MARKET_UNFIT)
        NAME(MARKET_BAD_JOURNAL)
        NAME(MARKET_JOURNAL_IN_USE)
#undef NAME
    default:
        return "MARKET_UNKNOWN";
    }
}
