/* market.h: the worker market for C and C++.
 *
 * THREADS. A market_seat is one caller's way into a market. Different seats of one market may be used by any threads at the same
 * time; one seat by one thread at a time (a second one is told MARKET_SEAT_IN_USE). A seat may go to another thread through a lock,
 * a thread's start or its join. A `_try_` call never sleeps, yields, blocks or calls back: where another caller has the market it
 * answers MARKET_BUSY, and changes nothing. The calls without `_try_` make attempts until one is answered, and wait between them as
 * market_set_wait says. No call is made from a signal handler, nor in the forked child of a process with threads.
 *
 * WHAT IS LEFT TO THE CALLER'S WORD. All else is proved of the library behind this header, or told by a code.
 *   1. Each seat begins as MARKET_SEAT_INIT and each journal as MARKET_JOURNAL_INIT (all bytes zero), stays where it is, and its
 *      fields are the library's: no memcpy, no write.
 *   2. Pointers point to what their types say, readable and writable, and no two of one call overlap.
 *   3. A seat's memory is not freed, nor used for anything else, before the seat is merged or closed; nor a journal's before it is closed.
 *   4. Two threads that share a seat order their calls: the flag behind MARKET_SEAT_IN_USE finds an overlap, and orders nothing.
 *   5. malloc and free do what the C standard says, also when several threads call them.
 *
 * ANSWERS. Each call answers a code: 0 is done, a positive one is an answer of the market, a negative one a misuse, or that
 * memory ran out. What a call writes is written at MARKET_OK, and else only where it says so. Every code but MARKET_OK, MARKET_IDLE and
 * MARKET_RECALLED leaves all arenas and seats as they were. Refusals are calls too: they are entries of the history.
 */
#ifndef MARKET_H
#define MARKET_H

#include <stddef.h>
#include <stdint.h>

#ifdef __cplusplus
extern "C" {
#endif

#define MARKET_ABI 1

typedef enum market_code {
    MARKET_OK = 0,

    /* answers of the market */
    MARKET_BUSY = 1,               /* another caller has the market: call again */
    MARKET_HISTORY_FULL = 2,       /* the history has too few free places */
    MARKET_IDLE = 3,               /* no arena is in need of a worker */
    MARKET_RECALLED = 4,           /* the seat was recalled, and is no longer placed */
    MARKET_NO_SEAT_LEFT = 5,       /* all seats are given out */
    MARKET_SEATS_OUT = 6,          /* other seats of the market are not merged yet */
    MARKET_STILL_PLACED = 7,       /* the seat is placed: it has to leave first */
    MARKET_UNREAD = 8,             /* the journal has text that was not read yet: read it first */
    MARKET_NO_PART = 9,            /* there is no part: no entry is kept to be cut, or to be left by a close, or the history is too long */

    /* refusals of a command */
    MARKET_BAD_SLOTS = 11,         /* the slots are not 1 to 65,535 */
    MARKET_BAD_RESERVE = 12,       /* more slots are reserved than there are */
    MARKET_TOO_MANY_ARENAS = 13,   /* 1,024 arenas live */
    MARKET_OUT_OF_NUMBERS = 14,    /* the last number of its kind has been given */
    MARKET_NO_ARENA = 15,          /* no living arena has this number */
    MARKET_ARENA_IN_USE = 16,      /* seats are placed at the arena */
    MARKET_WANTED_RANGE = 17,      /* the total of wanted workers would leave the range of an int32_t */
    MARKET_MANDATORY_RANGE = 18,   /* the enqueued work would leave 0 to 65,535 */
    MARKET_BAD_VALUE = 19,         /* the control's value is not 1 to 65,536 */
    MARKET_TOO_MANY_CONTROLS = 20, /* 256 controls live */
    MARKET_NO_CONTROL = 21,        /* no living control has this number */
    MARKET_BAD_LEVEL = 24,         /* the market has no such level */

    /* why a market is not opened */
    MARKET_BAD_BASE = 31,          /* the base is not 1 to 65,536 */
    MARKET_BAD_HARD = 32,          /* the hard limit is not 1 to 65,535 */
    MARKET_BAD_SEATS = 33,         /* the seats are not 1 to 64 */
    MARKET_BAD_PLACES = 34,        /* the places are not 1 to 1,048,576 */
    MARKET_BAD_LEVELS = 35,        /* the levels are not 1 to 8 */

    /* the caller's */
    MARKET_NO_MEMORY = -1,         /* malloc gave nothing */
    MARKET_BAD_SEAT = -2,          /* the place holds no seat, or one where an empty place is wanted, or it is one seat twice */
    MARKET_BAD_NUMBER = -3,        /* a number is out of the range that is named beside it: nothing was asked */
    MARKET_SEAT_IN_USE = -4,       /* another thread is in a call by this very seat: nothing was asked */
    MARKET_OTHER_MARKET = -5,      /* the two seats are of different markets */
    MARKET_UNFIT = -6,             /* the seat is placed, where it is not to be, or is not placed, where it is to be: nothing was asked */
    MARKET_BAD_JOURNAL = -7,       /* the place holds no journal, or one where an empty place is wanted */
    MARKET_JOURNAL_IN_USE = -8     /* another thread is in a call with this very journal: nothing was asked */
} market_code;

/* The name of a code, as "MARKET_BUSY"; "MARKET_UNKNOWN" for any other number. Never NULL. */
const char *market_code_name(int32_t code);

/* ---- seats ---- */

/* Called by a call that waits, between its attempts: `round` counts them from 0 on. It may call nothing by this seat. */
typedef void (*market_wait_fn)(unsigned round, void *with);

/* One caller's way into a market. All fields are the library's. */
typedef struct market_seat {
    struct {
        uint32_t state;
        void *at;
    } place;
    uint64_t market;
    market_wait_fn wait;
    void *with;
    unsigned char in_use;
} market_seat;

#define MARKET_SEAT_INIT {{0, 0}, 0, 0, 0, 0}

/* Which entries of the history are kept. */
enum {
    MARKET_KEEP_ALL = 0,     /* each, while there are places: they are read at the close */
    MARKET_KEEP_PARTS = 1,   /* each, until it is cut out */
    MARKET_KEEP_NOTHING = 2  /* none: `places` is at least the seats and two, and it is never full in 2^63 calls */
};

typedef struct market_terms {
    uint32_t base;    /* parallelism while no control lives, 1 to 65,536: fewer workers than this are active */
    uint32_t hard;    /* how many workers there are at most, 1 to 65,535 */
    uint32_t seats;   /* how many seats there are, 1 to 64 */
    uint32_t places;  /* how many places the history has, 1 to 1,048,576 */
    uint32_t levels;  /* how many priority levels there are, 1 to 8; level 1 is served first */
    uint32_t last;    /* the last number that an arena or a control gets, 1 to 4,294,967,294 */
    uint32_t keeping; /* MARKET_KEEP_ALL, MARKET_KEEP_PARTS or MARKET_KEEP_NOTHING */
} market_terms;

/* Opens a market in a place that holds no seat. It then holds the first seat, and all others in it. */
int32_t market_open(market_seat *seat, const market_terms *terms);

/* One seat that was not given out goes from `from` to the empty place `to`, for one more thread. */
int32_t market_split(market_seat *from, market_seat *to);

/* Takes a seat of the same market back into `into`, with all that were not given out by it. `from` is then empty. A seat that is
 * placed is not taken: MARKET_STILL_PLACED. */
int32_t market_merge(market_seat *into, market_seat *from);

/* What a market leaves. */
typedef struct market_totals {
    uint64_t calls; /* how many calls were answered */
} market_totals;

/* Ends the market and frees it, once all seats are merged into this one; MARKET_SEATS_OUT before. The place is then empty. What it
 * still keeps of its history goes, too: market_close_into has it written. */
int32_t market_close(market_seat *seat, market_totals *totals);

/* How the calls without `_try_` by this seat wait. NULL is the usual way: a few attempts at once, then the system's yield. */
int32_t market_set_wait(market_seat *seat, market_wait_fn wait, void *with);

/* ---- commands: each as an attempt, and as a call that waits while the answer is MARKET_BUSY ---- */

/* A new arena with so many slots, of which so many are reserved, in this priority level, 1 to 8. Its number is written. */
int32_t market_try_arena_open(market_seat *seat, uint32_t slots, uint32_t reserved, uint32_t level, uint32_t *arena);
int32_t market_arena_open(market_seat *seat, uint32_t slots, uint32_t reserved, uint32_t level, uint32_t *arena);

/* The arena goes, where no seat is placed at it. */
int32_t market_try_arena_close(market_seat *seat, uint32_t arena);
int32_t market_arena_close(market_seat *seat, uint32_t arena);

/* The arena goes first in this priority level, 1 to 8. */
int32_t market_try_priority(market_seat *seat, uint32_t arena, uint32_t level);
int32_t market_priority(market_seat *seat, uint32_t arena, uint32_t level);

/* The arena gets other slots and reserved slots. What it then asks for is written. */
int32_t market_try_resize(market_seat *seat, uint32_t arena, uint32_t slots, uint32_t reserved, uint32_t *request);
int32_t market_resize(market_seat *seat, uint32_t arena, uint32_t slots, uint32_t reserved, uint32_t *request);

/* The demand of the arena goes up by so many workers, and its mandatory concurrency by so much enqueued work; both may be below 0.
 * What it then asks for is written. */
int32_t market_try_request(market_seat *seat, uint32_t arena, int32_t wanted, int32_t mandatory, uint32_t *request);
int32_t market_request(market_seat *seat, uint32_t arena, int32_t wanted, int32_t mandatory, uint32_t *request);

/* A new global control, a limit on parallelism of this value, 1 to 65,536. Its number is written. */
int32_t market_try_control(market_seat *seat, uint32_t value, uint32_t *control);
int32_t market_control(market_seat *seat, uint32_t value, uint32_t *control);

/* The control goes. */
int32_t market_try_uncontrol(market_seat *seat, uint32_t control);
int32_t market_uncontrol(market_seat *seat, uint32_t control);

/* The seat asks for an arena in need of a worker: it is placed at the one that is written, or it is MARKET_IDLE. */
int32_t market_try_join(market_seat *seat, uint32_t *arena);
int32_t market_join(market_seat *seat, uint32_t *arena);

/* The seat asks whether its arena still wants it. The arena is written; at MARKET_RECALLED the seat is no longer placed at it. */
int32_t market_try_stay(market_seat *seat, uint32_t *arena);
int32_t market_stay(market_seat *seat, uint32_t *arena);

/* The seat leaves its arena, which is written. It takes no memory, and is never refused. */
int32_t market_try_leave(market_seat *seat, uint32_t *arena);
int32_t market_leave(market_seat *seat, uint32_t *arena);

/* What the market allots to an arena. */
typedef struct market_view {
    uint32_t arena;
    uint32_t request; /* how many workers it asks for */
    uint32_t allot;   /* how many it is allotted, at most its request */
    uint32_t active;  /* how many seats are placed at it */
    uint32_t recall;  /* how many of these are too many */
    uint32_t hire;    /* how many more it is allotted */
    uint32_t top;     /* 1 where it asks for workers, and no level before its own does, else 0 */
} market_view;
int32_t market_try_show(market_seat *seat, uint32_t arena, market_view *view);
int32_t market_show(market_seat *seat, uint32_t arena, market_view *view);

/* How many workers may be active. */
typedef struct market_limits {
    uint32_t value;     /* the least value of a living control, or the base */
    uint32_t limit;     /* one less than the value, and at most the hard limit */
    uint32_t effective; /* the limit, or 1 where it is 0 and some arena has enqueued work */
} market_limits;
int32_t market_try_limit(market_seat *seat, market_limits *limits);
int32_t market_limit(market_seat *seat, market_limits *limits);

/* How far an arena is from what it is allotted: one of its counts is 0, the other is not. */
typedef struct market_counts {
    uint32_t arena;
    uint32_t recall; /* how many of its workers are too many */
    uint32_t hire;   /* how many more it is allotted */
} market_counts;

/* All arenas with workers too many or too few, in the order in which arenas are served: the first `room` of them are written, and
 * how many there are in all, which may be more. */
int32_t market_try_lists(market_seat *seat, market_counts *arenas, size_t room, uint64_t *count);
int32_t market_lists(market_seat *seat, market_counts *arenas, size_t room, uint64_t *count);

/* ---- the journal of a market: its history as text, cut in parts while it works, or left by its close ---- */

/* The text of a journal that was not read yet. All fields are the library's. One thread at a time uses a journal. */
typedef struct market_journal {
    struct {
        uint32_t state;
        void *at;
    } place;
    uint64_t market;
    unsigned char in_use;
} market_journal;

#define MARKET_JOURNAL_INIT {{0, 0}, 0, 0}

/* A journal of the seat's market, in a place that holds none. Its first line is there to be read. */
int32_t market_journal_open(market_seat *seat, market_journal *journal);

/* What is told of a part. Parts follow one another: a part begins with as many calls as the parts before it have together. */
typedef struct market_part {
    uint64_t from;  /* how many calls the history has before it */
    uint64_t calls; /* how many calls it has */
} market_part;

/* The seat, which is not placed, cuts out all that the market keeps of its history, and that goes to the end of the journal's text:
 * its entries take no place any more. At MARKET_UNREAD the part before is to be read first. Where one journal takes all parts, its
 * text is what `market replay` reads. */
int32_t market_try_cut(market_seat *seat, market_journal *journal, market_part *part);
int32_t market_cut(market_seat *seat, market_journal *journal, market_part *part);

/* Ends the market as market_close does, and what it still keeps of its history, the last part, goes to the end of the journal's text:
 * with MARKET_KEEP_ALL that is every entry, with MARKET_KEEP_PARTS what was not cut yet. With MARKET_KEEP_NOTHING it is
 * MARKET_NO_PART, and the market goes on. At MARKET_UNREAD the part before is to be read first. */
int32_t market_close_into(market_seat *seat, market_journal *journal, market_totals *totals, market_part *part);

/* The next bytes of the text go to the buffer, at most `size`; how many is written, which is 0 where all is read. At
 * MARKET_NO_MEMORY none are, and none are lost: read again. It asks the market for nothing. */
int32_t market_journal_read(market_journal *journal, void *buffer, size_t size, uint64_t *written);

/* The journal goes, and its place is empty; MARKET_UNREAD where some of its text was not read. It may outlive its market. */
int32_t market_journal_close(market_journal *journal);

#ifdef __cplusplus
} /* extern "C" */

/* A seat for C++. It can be neither copied nor moved, since its place stays its place. A seat that is split off is merged by
 * whoever split it; none is closed or merged by a destructor, since that may be refused. */
namespace market {
class seat {
public:
    seat() = default;
    seat(const seat &) = delete;
    seat &operator=(const seat &) = delete;
    market_seat *get() noexcept { return &seat_; }
    operator market_seat *() noexcept { return &seat_; }

private:
    market_seat seat_ = MARKET_SEAT_INIT;
};
} /* namespace market */
#endif

#endif /* MARKET_H */
