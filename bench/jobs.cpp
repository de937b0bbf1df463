// What thread_bench's table of jobs is measured beside: a bounded queue, and the jobs of a plan run by workers that a market
// moves, in plain C++. Nothing here is verified, and nothing stands on it.
//   g++ -std=c++17 -O3 -march=native -pthread jobs.cpp -o /tmp/jobs && /tmp/jobs
// With -DONETBB and -ltbb (Debian's libtbb-dev) it measures oneTBB's own bounded queue too.
#include <algorithm>
#include <atomic>
#include <charconv>
#include <chrono>
#include <cstdint>
#include <cstdio>
#include <memory>
#include <mutex>
#include <optional>
#include <string>
#include <string_view>
#include <thread>
#include <vector>
#ifdef ONETBB
#include <oneapi/tbb/concurrent_queue.h>
#endif

using Clock = std::chrono::steady_clock;

// A bounded queue for many producers and many consumers, as Vyukov's: each slot has a stamp that says whose turn it is.
template <class T> class Queue {
public:
    explicit Queue(size_t capacity) : capacity_(capacity), lap_(1), slots_(new Slot[capacity]) {
        while (lap_ <= capacity) lap_ *= 2;
        for (size_t i = 0; i < capacity; ++i) slots_[i].stamp.store(i, std::memory_order_relaxed);
    }
    bool push(T job) {
        size_t tail = tail_.load(std::memory_order_relaxed);
        for (;;) {
            const size_t index = tail & (lap_ - 1);
            Slot& slot = slots_[index];
            const size_t stamp = slot.stamp.load(std::memory_order_acquire);
            if (stamp == tail) {
                if (tail_.compare_exchange_weak(tail, next(tail, index))) {
                    slot.job = job;
                    slot.stamp.store(tail + 1, std::memory_order_release);
                    return true;
                }
            } else if (stamp + lap_ == tail + 1) {
                std::atomic_thread_fence(std::memory_order_seq_cst);
                if (head_.load(std::memory_order_relaxed) + lap_ == tail) return false;
                tail = tail_.load(std::memory_order_relaxed);
            } else {
                tail = tail_.load(std::memory_order_relaxed);
            }
        }
    }
    std::optional<T> pop() {
        size_t head = head_.load(std::memory_order_relaxed);
        for (;;) {
            const size_t index = head & (lap_ - 1);
            Slot& slot = slots_[index];
            const size_t stamp = slot.stamp.load(std::memory_order_acquire);
            if (stamp == head + 1) {
                if (head_.compare_exchange_weak(head, next(head, index))) {
                    T job = slot.job;
                    slot.stamp.store(head + lap_, std::memory_order_release);
                    return job;
                }
            } else if (stamp == head) {
                std::atomic_thread_fence(std::memory_order_seq_cst);
                if (tail_.load(std::memory_order_relaxed) == head) return std::nullopt;
                head = head_.load(std::memory_order_relaxed);
            } else {
                head = head_.load(std::memory_order_relaxed);
            }
        }
    }

private:
    struct Slot {
        std::atomic<size_t> stamp{0};
        T job{};
    };
    size_t next(size_t at, size_t index) const { return index + 1 < capacity_ ? at + 1 : (at & ~(lap_ - 1)) + lap_; }

    const size_t capacity_;
    size_t lap_;
    std::unique_ptr<Slot[]> slots_;
    alignas(128) std::atomic<size_t> head_{0};
    alignas(128) std::atomic<size_t> tail_{0};
};

// The same as a ring behind one lock, as most programs have it.
template <class T> class LockedQueue {
public:
    explicit LockedQueue(size_t capacity) : ring_(capacity) {}
    bool push(T job) {
        std::lock_guard guard(lock_);
        if (count_ == ring_.size()) return false;
        ring_[(first_ + count_++) % ring_.size()] = job;
        return true;
    }
    std::optional<T> pop() {
        std::lock_guard guard(lock_);
        if (count_ == 0) return std::nullopt;
        T job = ring_[first_];
        first_ = (first_ + 1) % ring_.size();
        --count_;
        return job;
    }

private:
    std::mutex lock_;
    std::vector<T> ring_;
    size_t first_ = 0, count_ = 0;
};

#ifdef ONETBB
// The bounded queue that oneTBB has, asked as the others are, without waiting.
template <class T> class TbbQueue {
public:
    explicit TbbQueue(size_t capacity) { queue_.set_capacity(ptrdiff_t(capacity)); }
    bool push(T job) { return queue_.try_push(job); }
    std::optional<T> pop() {
        T job;
        return queue_.try_pop(job) ? std::optional<T>(job) : std::nullopt;
    }

private:
    oneapi::tbb::concurrent_bounded_queue<T> queue_;
};
#endif

struct Job {
    uint32_t number = 0, arena = 0;
    bool sums = false;
    uint64_t argument = 0;
};
struct Done {
    uint32_t number = 0;
    uint64_t value = 0;
};
struct Arena {
    uint32_t slots = 0, wanted = 0, active = 0, allot = 0;
};

// A market behind one lock: one level, allotments renewed by a walk with a carry at each change of demand, and a history.
class Market {
public:
    Market(uint32_t limit, std::vector<Arena> arenas) : limit_(limit), arenas_(std::move(arenas)) {
        history_.reserve(1'048'576);
        renew();
    }
    int join(uint32_t seat) {
        std::lock_guard guard(lock_);
        for (size_t a = 0; a < arenas_.size(); ++a)
            if (arenas_[a].active < arenas_[a].allot) {
                ++arenas_[a].active;
                return record(seat, 0, int(a));
            }
        return record(seat, 0, -1);
    }
    bool stays(uint32_t seat, uint32_t arena) {
        std::lock_guard guard(lock_);
        Arena& it = arenas_[arena];
        if (it.active <= it.allot) return record(seat, 1, 1);
        --it.active;
        return record(seat, 1, 0);
    }
    void give_back(uint32_t seat, uint32_t arena) {
        std::lock_guard guard(lock_);
        arenas_[arena].wanted = 0;
        renew();
        record(seat, 2, int(arena));
    }
    void leave(uint32_t seat, uint32_t arena) {
        std::lock_guard guard(lock_);
        --arenas_[arena].active;
        record(seat, 3, int(arena));
    }

private:
    struct Entry {
        uint32_t seat, what;
        int reply;
        uint32_t room[11];                       // as many bytes as an entry of the proved history
    };
    int record(uint32_t seat, uint32_t what, int reply) {
        history_.push_back({seat, what, reply, {}});
        return reply;
    }
    void renew() {
        uint64_t demand = 0, carry = 0;
        for (auto& a : arenas_) demand += std::min(a.wanted, a.slots);
        const uint64_t workers = std::min<uint64_t>(demand, limit_);
        for (auto& a : arenas_) {
            if (demand == 0) {
                a.allot = 0;
                continue;
            }
            const uint64_t product = std::min(a.wanted, a.slots) * workers + carry;
            a.allot = uint32_t(product / demand), carry = product % demand;
        }
    }
    const uint32_t limit_;
    std::vector<Arena> arenas_;
    std::vector<Entry> history_;
    std::mutex lock_;
};

struct Plan {
    uint32_t limit = 0;
    std::vector<Arena> arenas;
    std::vector<Job> jobs;
};

static std::string_view word(std::string_view& line) {
    const size_t end = std::min(line.find(' '), line.size());
    const auto first = line.substr(0, end);
    line.remove_prefix(std::min(end + 1, line.size()));
    return first;
}
static uint64_t number(std::string_view& line) {
    const auto text = word(line);
    uint64_t n = 0;
    std::from_chars(text.data(), text.data() + text.size(), n);
    return n;
}
static Plan read_plan(std::string_view text) {
    Plan plan;
    while (!text.empty()) {
        const size_t end = std::min(text.find('\n'), text.size());
        auto line = text.substr(0, end);
        text.remove_prefix(std::min(end + 1, text.size()));
        const auto kind = word(line);
        if (kind == "market") {
            const uint64_t base = number(line), hard = number(line);
            plan.limit = uint32_t(std::min(base - 1, hard));
        } else if (kind == "arena") {
            Arena arena;
            arena.slots = uint32_t(number(line));
            number(line), word(line);
            arena.wanted = uint32_t(number(line));
            plan.arenas.push_back(arena);
        } else if (kind == "job") {
            Job job;
            job.number = uint32_t(plan.jobs.size() + 1);
            job.arena = uint32_t(number(line) - 1);
            job.sums = word(line) == "sum";
            job.argument = number(line);
            plan.jobs.push_back(job);
        }
    }
    return plan;
}

static uint64_t value_of(const Job& job) {
    uint64_t sum = 0;
    if (job.sums)
        for (uint64_t n = 1; n <= job.argument; ++n) sum += n;
    else
        for (uint64_t rest = job.argument; rest > 0; rest /= 10) sum += rest % 10;
    return sum;
}

static void work(Market& market, std::vector<std::unique_ptr<Queue<Job>>>& queues, uint32_t seat, std::vector<Done>& done) {
    for (;;) {
        const int arena = market.join(seat);
        if (arena < 0) return;
        for (;;) {
            const auto job = queues[size_t(arena)]->pop();
            if (!job) {
                market.give_back(seat, uint32_t(arena));
                market.leave(seat, uint32_t(arena));
                break;
            }
            done.push_back({job->number, value_of(*job)});
            if (!market.stays(seat, uint32_t(arena))) break;
        }
    }
}

static size_t drive(std::string_view text, uint32_t workers) {
    Plan plan = read_plan(text);
    std::vector<size_t> counts(plan.arenas.size(), 0);
    for (auto& job : plan.jobs) ++counts[job.arena];
    std::vector<std::unique_ptr<Queue<Job>>> queues;
    for (auto count : counts) queues.push_back(std::make_unique<Queue<Job>>(std::max<size_t>(count, 1)));
    for (auto& job : plan.jobs) queues[job.arena]->push(job);
    Market market(plan.limit, plan.arenas);
    std::vector<std::vector<Done>> done(workers);
    std::vector<std::thread> threads;
    for (uint32_t seat = 0; seat < workers; ++seat)
        threads.emplace_back([&, seat] { work(market, queues, seat, done[seat]); });
    for (auto& thread : threads) thread.join();
    std::vector<Done> all;
    for (auto& some : done) all.insert(all.end(), some.begin(), some.end());
    std::sort(all.begin(), all.end(), [](const Done& a, const Done& b) { return a.number < b.number; });
    return all.size();
}

template <class F> void row(int threads, const char* name, size_t turns, F round) {
    double least = 1e300;
    for (int i = 0; i < 7; ++i) {
        const auto start = Clock::now();
        if (round() != turns) std::puts("a job was not done"), std::exit(1);
        least = std::min(least, std::chrono::duration<double, std::nano>(Clock::now() - start).count());
    }
    std::printf("%7d  %-18s%10.0f\n", threads, name, least / double(turns));
    std::fflush(stdout);
}

template <class Q> size_t push_and_pop(size_t jobs) {
    Q queue(1024);
    size_t count = 0;
    for (size_t job = 0; job < jobs; ++job)
        if (queue.push(job) && queue.pop()) ++count;
    return count;
}

template <class Q> size_t exchange(size_t jobs) {
    Q queue(1024);
    std::vector<std::vector<uint64_t>> got(2);
    std::vector<std::thread> threads;
    for (int i = 0; i < 2; ++i)
        threads.emplace_back([&, i] {
            for (size_t job = 0; job < jobs / 2; ++job)
                while (!queue.push(uint64_t(i) * jobs / 2 + job)) std::this_thread::yield();
        });
    for (int i = 0; i < 2; ++i)
        threads.emplace_back([&, i] {
            while (got[size_t(i)].size() < jobs / 2)
                if (auto job = queue.pop()) got[size_t(i)].push_back(*job);
                else std::this_thread::yield();
        });
    for (auto& thread : threads) thread.join();
    return got[0].size() + got[1].size();
}

static std::string plan(const char* line, size_t jobs) {
    std::string text = "market 65 64\narena 64 0 normal 16 0\n";
    for (size_t i = 0; i < jobs; ++i) text += line;
    return text;
}

int main() {
    std::puts("nanoseconds a job, the least of 7 rounds\nthreads  job");
    row(1, "push, pop", 500'000, [] { return push_and_pop<Queue<uint64_t>>(500'000); });
    row(4, "push, pop", 500'000, [] { return exchange<Queue<uint64_t>>(500'000); });
    row(1, "push, pop, locked", 500'000, [] { return push_and_pop<LockedQueue<uint64_t>>(500'000); });
    row(4, "push, pop, locked", 500'000, [] { return exchange<LockedQueue<uint64_t>>(500'000); });
#ifdef ONETBB
    row(1, "push, pop, oneTBB", 500'000, [] { return push_and_pop<TbbQueue<uint64_t>>(500'000); });
    row(4, "push, pop, oneTBB", 500'000, [] { return exchange<TbbQueue<uint64_t>>(500'000); });
#endif
    const auto digits = plan("job 1 digits 1\n", 65'536), sums = plan("job 1 sum 1000000\n", 1'024);
    for (uint32_t workers : {1u, 2u, 4u}) row(int(workers), "digits 1", 65'536, [&] { return drive(digits, workers); });
    for (uint32_t workers : {1u, 2u, 4u}) row(int(workers), "sum 1000000", 1'024, [&] { return drive(sums, workers); });
}
