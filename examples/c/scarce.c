/* A market's life in which memory may run out in any call: that is told by MARKET_NO_MEMORY, has changed nothing, and the call is made
 * again. Ends with 0 where all codes are right, and the journal has all calls. check/library refuses each growth of memory in turn. */
#include "market.h"

#include <stdio.h>

static int scarce = 0;

/* Makes the call again where there was no memory for it. */
#define AGAIN(CALL, WANTED)                                                             \
    do {                                                                                \
        int32_t code = CALL;                                                            \
        if (code == MARKET_NO_MEMORY) {                                                 \
            scarce++;                                                                   \
            code = CALL;                                                                \
        }                                                                               \
        if (code != WANTED) {                                                           \
            printf("%s: %s, not %s\n", #CALL, market_code_name(code), #WANTED);         \
            return 1;                                                                   \
        }                                                                               \
    } while (0)

/* Reads all of the journal's text, in small pieces, and counts its lines. */
static int count_lines(market_journal *journal, int *lines) {
    char text[50];
    uint64_t written = 0;
    do {
        AGAIN(market_journal_read(journal, text, sizeof text, &written), MARKET_OK);
        for (uint64_t k = 0; k < written; k++) *lines += text[k] == '\n';
    } while (written > 0);
    return 0;
}

static int live(uint32_t keeping) {
    const market_terms terms = {4, 64, 2, 40, 3, 1048576, keeping};
    market_seat first = MARKET_SEAT_INIT, other = MARKET_SEAT_INIT;
    market_journal journal = MARKET_JOURNAL_INIT;
    market_counts counts[2];
    market_totals totals = {0};
    market_part part = {0, 0};
    uint64_t many = 0;
    uint32_t number = 0;
    int lines = 0;
    AGAIN(market_open(&first, &terms), MARKET_OK);
    AGAIN(market_split(&first, &other), MARKET_OK);
    AGAIN(market_journal_open(&first, &journal), MARKET_OK);
    AGAIN(market_arena_open(&first, 8, 1, 2, &number), MARKET_OK);
    AGAIN(market_control(&first, 4, &number), MARKET_OK);
    AGAIN(market_request(&first, 1, 1, 0, &number), MARKET_OK);
    AGAIN(market_join(&other, &number), MARKET_OK);
    AGAIN(market_lists(&first, counts, 2, &many), MARKET_OK);
    if (keeping == MARKET_KEEP_PARTS) {
        AGAIN(market_cut(&first, &journal, &part), MARKET_OK);
        if (count_lines(&journal, &lines) != 0) return 1;
    }
    AGAIN(market_stay(&other, &number), MARKET_OK);
    AGAIN(market_leave(&other, &number), MARKET_OK);
    AGAIN(market_merge(&first, &other), MARKET_OK);
    AGAIN(market_close_into(&first, &journal, &totals, &part), MARKET_OK);
    if (count_lines(&journal, &lines) != 0) return 1;
    AGAIN(market_journal_close(&journal), MARKET_OK);
    if (totals.calls == 7 && lines == 8 && part.from + part.calls == 7) return 0;
    printf("%llu calls, %d lines\n", (unsigned long long)totals.calls, lines);
    return 1;
}

int main(void) {
    const int wrong = live(MARKET_KEEP_ALL) + live(MARKET_KEEP_PARTS);
    printf("%s, %d times out of memory\n", wrong == 0 ? "all calls were made" : "WRONG", scarce);
    return wrong == 0 ? 0 : 1;
}
