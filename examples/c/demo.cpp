// Threads share a market from C++: each has a seat of its own, joins an arena, stays, leaves, and at the end all seats are merged and
// the totals are those of the calls that were made. Arguments: threads (4), rounds of each (20000) or, as 60s, for how many seconds,
// keeping (2: no entry is kept), and a file for the journal of a market that keeps entries: in parts one more thread writes it meanwhile,
// and the last part, or every entry, is left by the close.
#include "market.h"

#include <atomic>
#include <chrono>
#include <cstdio>
#include <cstdlib>
#include <cstring>
#include <memory>
#include <thread>
#include <vector>

namespace {
// Ends the program where a call is answered otherwise than wanted.
void want(const char *what, int32_t code, int32_t wanted = MARKET_OK) {
    if (code == wanted) return;
    std::fprintf(stderr, "%s: %s, not %s\n", what, market_code_name(code), market_code_name(wanted));
    std::exit(1);
}

// How long each thread works: so many rounds, or seconds.
class measure {
public:
    explicit measure(const char *word) {
        const long number = std::atol(word);
        if (std::strchr(word, 's') != nullptr) until_ = clock::now() + std::chrono::seconds(number);
        else rounds_ = number;
    }
    bool is_over(long round) const { return rounds_ >= 0 ? round >= rounds_ : round % 256 == 0 && clock::now() >= until_; }

private:
    using clock = std::chrono::steady_clock;
    long rounds_ = -1;
    clock::time_point until_;
};

// What one thread did.
struct tally {
    uint64_t calls = 0, joins = 0, recalls = 0, full = 0;
};

// Asks for a worker, joins where one is wanted, stays while it is, and gives the demand back.
void work(market_seat *seat, uint32_t arena, const measure &long_enough, tally &told) {
    for (long round = 0; !long_enough.is_over(round); round++) {
        uint32_t request = 0, at = 0;
        int32_t code = market_request(seat, arena, 1, 0, &request);
        if (code == MARKET_HISTORY_FULL) {
            told.full++;
            std::this_thread::yield();
            continue;
        }
        want("request", code);
        told.calls++;
        code = market_join(seat, &at);
        if (code == MARKET_OK) {
            told.calls++, told.joins++;
            code = market_stay(seat, &at);
            if (code == MARKET_RECALLED) told.calls++, told.recalls++;
            if (code == MARKET_OK) told.calls++;
            if (code != MARKET_RECALLED) { want("leave", market_leave(seat, &at)); told.calls++; }
        } else if (code == MARKET_IDLE) told.calls++;
        code = market_request(seat, arena, -1, 0, &request);
        if (code == MARKET_OK || code == MARKET_WANTED_RANGE) told.calls++;
    }
}

// The journal of a market, which goes to a file part by part: each has to begin where the one before it ends.
class journal {
public:
    journal(market_seat *seat, std::FILE *file) : file_(file) {
        want("a cut into no journal", market_try_cut(seat, &journal_, &part_), MARKET_BAD_JOURNAL);
        want("journal_open", market_journal_open(seat, &journal_));
        read();
    }

    void cut(market_seat *seat) {
        want("cut", market_cut(seat, &journal_, &part_));
        want("a cut before it is read", market_cut(seat, &journal_, &part_), MARKET_UNREAD);
        follow();
    }

    void close(market_seat *seat, market_totals *totals) {
        want("close_into", market_close_into(seat, &journal_, totals, &part_));
        follow();
        want("journal_close", market_journal_close(&journal_));
    }

    // How many calls it has, in how many parts.
    uint64_t calls() const { return calls_; }
    uint64_t parts() const { return parts_; }

private:
    void follow() {
        if (part_.from != calls_) {
            std::fprintf(stderr, "a part begins at %llu, not %llu\n", (unsigned long long)part_.from, (unsigned long long)calls_);
            std::exit(1);
        }
        calls_ += part_.calls, parts_++;
        read();
    }

    void read() {
        static char buffer[65536];
        uint64_t written = 0;
        do {
            want("journal_read", market_journal_read(&journal_, buffer, sizeof buffer, &written));
            std::fwrite(buffer, 1, written, file_);
        } while (written > 0);
    }

    std::FILE *file_;
    market_journal journal_ = MARKET_JOURNAL_INIT;
    market_part part_{};
    uint64_t calls_ = 0, parts_ = 0;
};

market_terms terms_for(unsigned seats, uint32_t keeping) {
    market_terms terms{};
    terms.base = 4, terms.hard = 64, terms.seats = seats, terms.places = 1u << 20, terms.levels = 3, terms.last = 1u << 20;
    terms.keeping = keeping;
    return terms;
}
} // namespace

int main(int count, char **words) {
    const unsigned threads = count > 1 ? std::atoi(words[1]) : 4;
    const measure long_enough(count > 2 ? words[2] : "20000");
    const uint32_t keeping = count > 3 ? std::atoi(words[3]) : MARKET_KEEP_NOTHING;
    std::FILE *file = count > 4 ? std::fopen(words[4], "w") : nullptr;
    const bool cuts = file && keeping == MARKET_KEEP_PARTS;
    const market_terms terms = terms_for(threads + (cuts ? 1 : 0), keeping);

    market::seat first, scribe, extra;
    want("open", market_open(first, &terms));
    std::vector<std::unique_ptr<market::seat>> seats;
    for (unsigned k = 1; k < threads; k++) {
        seats.push_back(std::make_unique<market::seat>());
        want("split", market_split(first, *seats.back()));
    }
    if (cuts) want("split of the scribe", market_split(first, scribe));
    want("a seat too many", market_split(first, extra), MARKET_NO_SEAT_LEFT);
    std::unique_ptr<journal> history;
    if (file) history = std::make_unique<journal>(first, file);
    uint32_t arena = 0;
    want("arena_open", market_arena_open(first, 64, 0, 2, &arena));

    std::atomic<bool> done{false};
    std::thread writing;
    if (cuts) writing = std::thread([&] { while (!done) history->cut(scribe); });
    std::vector<tally> told(threads);
    std::vector<std::thread> running;
    for (unsigned k = 1; k < threads; k++)
        running.emplace_back([&, k] { work(*seats[k - 1], arena, long_enough, told[k]); });
    work(first, arena, long_enough, told[0]);
    for (auto &thread : running) thread.join();
    done = true;
    if (cuts) {
        writing.join();
        want("merge of the scribe", market_merge(first, scribe));
    }

    // A full history answers no call more.
    market_view view{};
    const bool shown = market_show(first, arena, &view) == MARKET_OK;
    market_totals totals{};
    if (threads > 1) want("close too early", market_close(first, &totals), MARKET_SEATS_OUT);
    for (auto &seat : seats) want("merge", market_merge(first, *seat));
    if (file) history->close(first, &totals);
    else want("close", market_close(first, &totals));

    tally all;
    for (const tally &one : told)
        all.calls += one.calls, all.joins += one.joins, all.recalls += one.recalls, all.full += one.full;
    const uint64_t expected = all.calls + (shown ? 2 : 1);
    std::printf("%llu calls, %s; the arena asks for %u, and %u are placed\n", (unsigned long long)totals.calls,
        totals.calls == expected ? "as counted" : "NOT as counted", view.request, view.active);
    std::fprintf(stderr, "%llu joins, %llu recalls, %llu calls too many for the history\n", (unsigned long long)all.joins,
        (unsigned long long)all.recalls, (unsigned long long)all.full);
    if (file) {
        std::fprintf(stderr, "%llu parts\n", (unsigned long long)history->parts());
        if (std::fclose(file) != 0 || history->calls() != totals.calls) return 1;
    }
    return totals.calls == expected && view.active == 0 ? 0 : 1;
}
