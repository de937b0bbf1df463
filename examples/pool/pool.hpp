// A thread pool on top of the worker market. The market says how many workers each arena may have; the pool's threads join, stay and
// leave as it says, and sleep while nobody wants them. A loop's own thread works on it too, beside the workers.
#ifndef MARKET_POOL_HPP
#define MARKET_POOL_HPP

#include "market.h"

#include <algorithm>
#include <atomic>
#include <condition_variable>
#include <cstdint>
#include <cstdio>
#include <functional>
#include <memory>
#include <mutex>
#include <stdexcept>
#include <string>
#include <thread>
#include <vector>

namespace pool {

// An answer that a pool has no use for.
class refusal : public std::runtime_error {
public:
    refusal(const char *what, int32_t code) : std::runtime_error(std::string(what) + ": " + market_code_name(code)) {}
};

inline void want(const char *what, int32_t code) {
    if (code != MARKET_OK) throw refusal(what, code);
}

// Waits a little, and where that did not help for long, gives the processor to another thread.
class patience {
public:
    void wait() {
        if (++waits_ > 200) return std::this_thread::yield();
#if defined(__x86_64__) || defined(__i386__)
        for (int k = 0; k < 16; k++) __builtin_ia32_pause();
#endif
    }
    bool is_long() const { return waits_ > 100; }

private:
    int waits_ = 0;
};

// What a loop does with the numbers from the first up to the second.
using piece_body = std::function<void(std::size_t, std::size_t)>;

// One parallel_for. Whoever works on it takes one piece after the other.
class loop {
public:
    enum class taken { none, piece, last_piece };

    loop(const piece_body &body, std::size_t begin, std::size_t end, std::size_t grain)
        : body_(body), begin_(begin), end_(end), grain_(grain), pieces_((end - begin + grain - 1) / grain) {}

    std::size_t pieces() const { return pieces_; }

    // Takes a piece, and whether it is the last one.
    taken take(std::size_t &piece) {
        if (next_.load(std::memory_order_relaxed) >= pieces_) return taken::none;
        piece = next_.fetch_add(1, std::memory_order_relaxed);
        if (piece >= pieces_) return taken::none;
        return piece + 1 == pieces_ ? taken::last_piece : taken::piece;
    }

    void run(std::size_t piece) {
        const std::size_t from = begin_ + piece * grain_;
        body_(from, std::min(end_, from + grain_));
    }

    // Another thread works on it, until it leaves with all of its pieces done. Once all are taken, and all others have left, it is over.
    void enter() { guests_.fetch_add(1, std::memory_order_relaxed); }
    void leave() { guests_.fetch_sub(1, std::memory_order_release); }
    bool has_guests() const { return guests_.load(std::memory_order_acquire) != 0; }

private:
    const piece_body &body_;
    const std::size_t begin_, end_, grain_, pieces_;
    alignas(64) std::atomic<std::size_t> next_{0};
    alignas(64) std::atomic<int> guests_{0};
};

// Work of one priority, and what the market calls it. It asks for a worker for each piece of its loops but one, and for no more than
// it has slots.
class arena {
public:
    arena(uint32_t number, uint32_t slots) : number_(number), slots_(slots) {}
    uint32_t number() const { return number_; }

    // One more loop; by how many workers the arena's demand changes.
    int32_t add(loop &more) {
        std::lock_guard<std::mutex> lock(mutex_);
        loops_.push_back(&more);
        return change(int64_t(more.pieces()) - 1);
    }

    // A loop whose pieces are all taken goes; by how many workers the arena's demand changes.
    int32_t remove(loop &done) {
        std::lock_guard<std::mutex> lock(mutex_);
        loops_.erase(std::find(loops_.begin(), loops_.end(), &done));
        return change(1 - int64_t(done.pieces()));
    }

    // The newest loop that has pieces left, for a thread that leaves it again.
    loop *enter() {
        std::lock_guard<std::mutex> lock(mutex_);
        if (loops_.empty()) return nullptr;
        loops_.back()->enter();
        return loops_.back();
    }

private:
    int32_t change(int64_t by) {
        const int64_t before = std::min<int64_t>(wanted_, slots_);
        wanted_ += by;
        return int32_t(std::min<int64_t>(wanted_, slots_) - before);
    }

    const uint32_t number_, slots_;
    std::mutex mutex_;
    std::vector<loop *> loops_;
    int64_t wanted_ = 0;
};

class thread_pool {
public:
    // So many workers, of which one less than `base` are active while no control lives, and so many priority levels. Where there is a file,
    // the market's journal goes there at the end: it then has places for 1,048,576 calls, which is some minutes' work.
    thread_pool(unsigned workers, uint32_t base, uint32_t levels, std::FILE *file = nullptr) : file_(file) {
        market_terms terms{};
        terms.base = base, terms.hard = 65535, terms.seats = workers + 1, terms.levels = levels, terms.last = 4294967294;
        terms.places = file ? 1u << 20 : workers + 3, terms.keeping = file ? MARKET_KEEP_ALL : MARKET_KEEP_NOTHING;
        want("open", market_open(front_, &terms));
        if (file) want("journal_open", market_journal_open(front_, &journal_));
        for (unsigned k = 0; k < workers; k++) {
            seats_.push_back(std::make_unique<market::seat>());
            want("split", market_split(front_, *seats_.back()));
        }
        for (auto &seat : seats_) threads_.emplace_back([this, one = seat->get()] { work(one); });
    }

    thread_pool(const thread_pool &) = delete;
    thread_pool &operator=(const thread_pool &) = delete;

    // All loops have ended before. Ends the workers, and closes the market.
    ~thread_pool() {
        {
            std::lock_guard<std::mutex> lock(sleep_);
            ends_ = true;
        }
        changes_++;
        wakes_.notify_all();
        for (auto &thread : threads_) thread.join();
        for (auto &seat : seats_) market_merge(front_, *seat);
        market_totals totals{};
        if (file_ == nullptr) market_close(front_, &totals);
        else write_journal(totals);
    }

    // A new arena, which lives as long as the pool.
    arena &open(uint32_t slots, uint32_t level) {
        uint32_t number = 0;
        ask([&](market_seat *seat) { want("arena_open", market_arena_open(seat, slots, 0, level, &number)); });
        std::lock_guard<std::mutex> lock(arenas_mutex_);
        arenas_.push_back(std::make_unique<arena>(number, slots));
        return *arenas_.back();
    }

    // Fewer workers than this are active until it is lifted.
    uint32_t limit(uint32_t value) {
        uint32_t control = 0;
        ask([&](market_seat *seat) {
            want("control", market_control(seat, value, &control));
            tell_change(seat);
        });
        return control;
    }

    void lift(uint32_t control) {
        ask([&](market_seat *seat) {
            want("uncontrol", market_uncontrol(seat, control));
            tell_change(seat);
        });
    }

    market_view show(const arena &where) {
        market_view view{};
        ask([&](market_seat *seat) { want("show", market_show(seat, where.number(), &view)); });
        return view;
    }

    market_limits limits() {
        market_limits limits{};
        ask([&](market_seat *seat) { want("limit", market_limit(seat, &limits)); });
        return limits;
    }

    // Calls `body` for all of begin..end, in pieces of at most `grain`, in this thread and by the workers that the arena gets. A body may
    // call it again, in this arena or another; it throws nothing.
    void parallel_for(arena &where, std::size_t begin, std::size_t end, std::size_t grain, const piece_body &body) {
        if (begin >= end) return;
        loop mine(body, begin, end, std::max<std::size_t>(grain, 1));
        demand(where, where.add(mine));
        while (run_one(where, mine)) {}
        for (patience patient; mine.has_guests();) {
            if (!help(where)) patient.wait();
        }
    }

    // How often workers were recalled, how often they slept, and how many are in an arena.
    uint64_t recalls() const { return recalls_; }
    uint64_t sleeps() const { return sleeps_; }
    int active() const { return active_; }

private:
    // The seat of the worker that runs this, or nothing in a thread of the pool's user.
    static market_seat *&own() {
        static thread_local market_seat *seat = nullptr;
        return seat;
    }

    // Calls by the worker's own seat, else by the front seat, which the user's threads share one at a time.
    template <class Call> void ask(const Call &call) {
        if (own() != nullptr) return call(own());
        std::lock_guard<std::mutex> lock(front_mutex_);
        call(front_.get());
    }

    // The demand of an arena goes up or down.
    void demand(arena &where, int32_t wanted) {
        if (wanted == 0) return;
        ask([&](market_seat *seat) {
            uint32_t request = 0;
            want("request", market_request(seat, where.number(), wanted, 0, &request));
            tell_change(seat);
        });
    }

    // Workers look at the count of changes: a recall can only come of one. Wakes as many sleepers as all arenas are to hire.
    void tell_change(market_seat *seat) {
        changes_++;
        if (sleepers_ == 0) return;
        market_counts counts[MOST_ARENAS];
        uint64_t many = 0;
        want("lists", market_lists(seat, counts, MOST_ARENAS, &many));
        uint64_t hires = 0;
        for (uint64_t k = 0; k < many; k++) hires += counts[k].hire;
        if (hires == 0) return;
        { std::lock_guard<std::mutex> lock(sleep_); }
        for (uint64_t k = 0; k < std::min<uint64_t>(hires, seats_.size()); k++) wakes_.notify_one();
    }

    arena *find(uint32_t number) {
        std::lock_guard<std::mutex> lock(arenas_mutex_);
        for (auto &each : arenas_)
            if (each->number() == number) return each.get();
        return nullptr;
    }

    // Runs a piece of a loop. Who takes the last one gives back what the arena asked for it.
    bool run_one(arena &where, loop &of) {
        std::size_t piece = 0;
        const loop::taken taken = of.take(piece);
        if (taken == loop::taken::none) return false;
        if (taken == loop::taken::last_piece) demand(where, where.remove(of));
        of.run(piece);
        return true;
    }

    // Runs a piece of any loop of the arena.
    bool help(arena &where) {
        loop *const of = where.enter();
        if (of == nullptr) return false;
        const bool ran = run_one(where, *of);
        of->leave();
        return ran;
    }

    // A worker's life: it joins the arena that wants it most, works there while it may stay, and sleeps while nobody wants it.
    void work(market_seat *seat) {
        own() = seat;
        while (!ends_) {
            const uint64_t seen = changes_;
            uint32_t number = 0;
            const int32_t joined = market_join(seat, &number);
            if (joined == MARKET_OK) serve(seat, *find(number), seen);
            else if (joined == MARKET_IDLE) sleep(seen);
            else throw refusal("join", joined);
        }
    }

    void serve(market_seat *seat, arena &where, uint64_t seen) {
        active_++;
        bool stays = true;
        patience patience;
        while (loop *const of = stays ? where.enter() : nullptr) {
            while (stays && run_one(where, *of)) stays = may_stay(seat, seen);
            of->leave();
            patience.wait();
        }
        uint32_t number = 0;
        if (stays) want("leave", market_leave(seat, &number));
        active_--;
    }

    // Whether the worker was not recalled. It asks only where something has changed since it asked last.
    bool may_stay(market_seat *seat, uint64_t &seen) {
        const uint64_t changes = changes_;
        if (changes == seen) return true;
        seen = changes;
        uint32_t number = 0;
        const int32_t stays = market_stay(seat, &number);
        if (stays == MARKET_RECALLED) recalls_++;
        else want("stay", stays);
        return stays == MARKET_OK;
    }

    // Waits a moment, and then sleeps, until something has changed since `seen`.
    void sleep(uint64_t seen) {
        for (patience patient; !patient.is_long(); patient.wait())
            if (changes_ != seen) return;
        std::unique_lock<std::mutex> lock(sleep_);
        sleepers_++, sleeps_++;
        if (!ends_ && changes_ == seen) wakes_.wait(lock);
        sleepers_--;
    }

    void write_journal(market_totals &totals) {
        market_part part{};
        char buffer[65536];
        uint64_t written = 0;
        do {
            market_journal_read(&journal_, buffer, sizeof buffer, &written);
            std::fwrite(buffer, 1, written, file_);
        } while (written > 0);
        market_close_into(front_, &journal_, &totals, &part);
        do {
            market_journal_read(&journal_, buffer, sizeof buffer, &written);
            std::fwrite(buffer, 1, written, file_);
        } while (written > 0);
        market_journal_close(&journal_);
    }

    static constexpr std::size_t MOST_ARENAS = 1024;

    std::FILE *const file_;
    market::seat front_;
    market_journal journal_ = MARKET_JOURNAL_INIT;
    std::mutex front_mutex_;
    std::vector<std::unique_ptr<market::seat>> seats_;
    std::vector<std::thread> threads_;
    std::mutex arenas_mutex_;
    std::vector<std::unique_ptr<arena>> arenas_;
    std::mutex sleep_;
    std::condition_variable wakes_;
    alignas(64) std::atomic<uint64_t> changes_{0};
    alignas(64) std::atomic<int> sleepers_{0};
    std::atomic<bool> ends_{false};
    std::atomic<int> active_{0};
    std::atomic<uint64_t> recalls_{0}, sleeps_{0};
};

} // namespace pool
#endif
