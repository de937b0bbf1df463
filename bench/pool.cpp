// The pool of examples/pool beside oneTBB, in one run. Two threads run nested loops, each in an arena of its own, of high and of low
// priority, under a limit that stays and under one that changes: how much of the work that the limit allows is done, and how much above it;
// then how long it takes after a change of the limit until as many workers are active as it allows; and what an idle pool takes of the
// processor. Build and run it so, on a quiet machine:
//   c++ -std=c++17 -O2 -pthread -Iinclude -Iexamples/pool bench/pool.cpp build/libmarket.a -ltbb -o build/programs/bench_pool
//   build/programs/bench_pool [SECONDS of each cell] [ROUNDS]
#include "pool.hpp"

#include <tbb/global_control.h>
#include <tbb/parallel_for.h>
#include <tbb/task_arena.h>
#include <tbb/task_scheduler_observer.h>

#include <chrono>
#include <cstdio>
#include <cstdlib>
#include <ctime>

namespace {
using clock_type = std::chrono::steady_clock;
using std::chrono::duration;

// ---- bodies

// So many steps of a computation that can't be left out, nor be done faster by doing several at once.
__attribute__((noinline)) uint64_t compute(uint64_t steps) {
    uint64_t x = steps;
    for (uint64_t k = 0; k < steps; k++) {
        x = x * 6364136223846793005u + 1442695040888963407u;
        asm volatile("" : "+r"(x));
    }
    return x;
}

// How many steps take a microsecond here at most, by one thread.
double steps_of_a_microsecond() {
    double most = 0;
    for (int round = 0; round < 1000; round++) {
        const uint64_t steps = 200'000;
        const auto start = clock_type::now();
        compute(steps);
        most = std::max(most, steps / duration<double, std::micro>(clock_type::now() - start).count());
    }
    return most;
}

// What a loop runs: how many microseconds it takes by one thread, and how many threads can run it at a time.
struct work {
    std::function<void()> run;
    double microseconds;
    unsigned most;
};

// One that computes.
work computing(double steps, unsigned microseconds) {
    const unsigned processors = std::max(std::thread::hardware_concurrency(), 1u);
    return {[of = uint64_t(steps * microseconds)] { compute(of); }, double(microseconds), processors};
}

// One that sleeps for about a millisecond, so that no thread waits for a processor.
work sleeping() {
    const auto sleep = [] { std::this_thread::sleep_for(std::chrono::milliseconds(1)); };
    const auto start = clock_type::now();
    for (int round = 0; round < 200; round++) sleep();
    return {sleep, duration<double, std::micro>(clock_type::now() - start).count() / 200, 64};
}

// A thread that runs bodies: how many it has run, and whether it is in one. It has a line of the cache to itself.
struct alignas(64) runner {
    std::atomic<bool> taken{false}, runs{false};
    std::atomic<uint64_t> bodies{0};
};
runner runners[64];

// The runner that a thread is while it lives.
struct own_runner {
    own_runner() {
        while (at->taken.exchange(true)) at++;
    }
    ~own_runner() { at->taken = false; }
    runner *at = runners;
};

void run(const work &body) {
    thread_local own_runner own;
    own.at->runs.store(true, std::memory_order_relaxed);
    body.run();
    own.at->bodies.store(own.at->bodies.load(std::memory_order_relaxed) + 1, std::memory_order_relaxed);
    own.at->runs.store(false, std::memory_order_relaxed);
}

// How many bodies were run, and how many threads are in one.
uint64_t bodies_run() {
    uint64_t sum = 0;
    for (const runner &each : runners) sum += each.bodies;
    return sum;
}

unsigned running() {
    unsigned sum = 0;
    for (const runner &each : runners) sum += each.runs;
    return sum;
}

// ---- the two systems, each with so many threads beside the two callers less one, and two arenas

class of_market {
public:
    static constexpr const char *name = "pool";
    explicit of_market(unsigned threads)
        : pool_(threads - 1, threads, 3), high_(pool_.open(std::max(threads - 1, 1u), 1)), low_(pool_.open(std::max(threads - 1, 1u), 3)) {}

    template <class Body> void run(bool high, std::size_t outer, std::size_t inner, const Body &body) {
        pool::arena &arena = high ? high_ : low_;
        pool_.parallel_for(arena, 0, outer, 1, [&](std::size_t, std::size_t) {
            pool_.parallel_for(arena, 0, inner, 1, [&](std::size_t from, std::size_t to) {
                for (std::size_t k = from; k < to; k++) body();
            });
        });
    }
    void limit(unsigned value) { control_ = pool_.limit(value); }
    void lift() { pool_.lift(control_); }
    int active() const { return pool_.active(); }

private:
    pool::thread_pool pool_;
    pool::arena &high_, &low_;
    uint32_t control_ = 0;
};

class of_tbb {
public:
    static constexpr const char *name = "oneTBB";
    explicit of_tbb(unsigned threads)
        : all_(tbb::global_control::max_allowed_parallelism, threads), high_(int(threads), 1, tbb::task_arena::priority::high),
          low_(int(threads), 1, tbb::task_arena::priority::low), in_high_(high_), in_low_(low_) {}

    template <class Body> void run(bool high, std::size_t outer, std::size_t inner, const Body &body) {
        (high ? high_ : low_).execute([&] {
            tbb::parallel_for(std::size_t(0), outer, [&](std::size_t) {
                tbb::parallel_for(std::size_t(0), inner, [&](std::size_t) { body(); });
            });
        });
    }
    void limit(unsigned value) { control_ = std::make_unique<tbb::global_control>(tbb::global_control::max_allowed_parallelism, value); }
    void lift() { control_.reset(); }
    int active() const { return in_high_.active + in_low_.active; }

private:
    // Counts the workers in an arena.
    struct watch : tbb::task_scheduler_observer {
        explicit watch(tbb::task_arena &arena) : task_scheduler_observer(arena) { observe(true); }
        ~watch() override { observe(false); }
        void on_scheduler_entry(bool is_worker) override { active += is_worker; }
        void on_scheduler_exit(bool is_worker) override { active -= is_worker; }
        std::atomic<int> active{0};
    };

    tbb::global_control all_;
    tbb::task_arena high_, low_;
    watch in_high_, in_low_;
    std::unique_ptr<tbb::global_control> control_;
};

// ---- what is measured

constexpr std::size_t OUTER = 16, INNER = 64;

// What is seen of a cell, on average over its time: how many bodies run at a time, which is the time that they take by one thread, over
// the time that went by; how many may run, by the two callers and by as many workers as the limit allows, where as many can; and how many
// run above that.
struct cell {
    double bodies, allowed, above;
};

template <class System> cell throughput(unsigned threads, const work &body, bool changing, double seconds) {
    System system(threads);
    const unsigned half = std::max(threads / 2, 1u);
    std::atomic<bool> done{false};
    std::atomic<unsigned> workers{threads - 1};
    const auto caller = [&](bool high) {
        while (!done) system.run(high, OUTER, INNER, [&] { run(body); });
    };
    std::thread high([&] { caller(true); }), low([&] { caller(false); }), changes([&] {
        while (changing && !done) {
            system.limit(half);
            workers = half - 1;
            std::this_thread::sleep_for(std::chrono::milliseconds(5));
            system.lift();
            workers = threads - 1;
            std::this_thread::sleep_for(std::chrono::milliseconds(5));
        }
    });
    std::this_thread::sleep_for(std::chrono::milliseconds(20));

    // What is seen at a look stands for the time since the one before.
    double took = 0, allowed = 0, above = 0;
    const uint64_t before = bodies_run();
    const auto start = clock_type::now();
    while (took < seconds) {
        std::this_thread::sleep_for(std::chrono::microseconds(250));
        const unsigned may_run = std::min(2 + workers, body.most), runs = std::min(running(), body.most);
        const double now = duration<double>(clock_type::now() - start).count();
        allowed += may_run * (now - took);
        above += (std::max(runs, may_run) - may_run) * (now - took);
        took = now;
    }
    const double bodies = double(bodies_run() - before) * body.microseconds / (took * 1e6);
    done = true;
    high.join(), low.join(), changes.join();
    return {bodies, allowed / took, above / took};
}

struct delays {
    std::vector<double> down, up;
    int late = 0;
};

// How many microseconds go by after a change of the limit until as many workers are active as it allows, two or one, beside one caller
// with bodies of ten microseconds. After 20 milliseconds it is too late.
template <class System> delays after_changes(double steps, int rounds) {
    System system(3);
    const uint64_t of_body = uint64_t(steps * 10);
    std::atomic<bool> done{false};
    delays found;
    std::thread caller([&] {
        while (!done) system.run(false, OUTER, INNER, [&] { compute(of_body); });
    });
    const auto until = [&](int workers, std::vector<double> &told) {
        const auto start = clock_type::now();
        double took = 0;
        bool right = false;
        while (!(right = system.active() == workers) && took < 20000)
            took = duration<double, std::micro>(clock_type::now() - start).count();
        if (right) told.push_back(took);
        else found.late++;
        std::this_thread::sleep_for(std::chrono::milliseconds(2));
    };
    std::vector<double> at_first;
    until(2, at_first);
    for (int round = 0; round < rounds; round++) {
        system.limit(2);
        until(1, found.down);
        system.lift();
        until(2, found.up);
    }
    done = true;
    caller.join();
    return found;
}

double processor_milliseconds() {
    timespec used{};
    clock_gettime(CLOCK_PROCESS_CPUTIME_ID, &used);
    return used.tv_sec * 1e3 + used.tv_nsec / 1e6;
}

// What so many seconds take of the processor after some work.
template <class System> double idle(double steps, int seconds) {
    System system(4);
    for (int k = 0; k < 20; k++) system.run(false, OUTER, INNER, [&] { compute(uint64_t(steps)); });
    std::this_thread::sleep_for(std::chrono::milliseconds(200));
    const double before = processor_milliseconds();
    std::this_thread::sleep_for(std::chrono::seconds(seconds));
    return processor_milliseconds() - before;
}

double quantile(std::vector<double> &of, double share) {
    if (of.empty()) return -1;
    std::sort(of.begin(), of.end());
    return of[std::min(of.size() - 1, std::size_t(share * of.size()))];
}

// The cell of the median round, by the bodies at a time.
cell median(std::vector<cell> &of) {
    std::sort(of.begin(), of.end(), [](const cell &one, const cell &other) { return one.bodies < other.bodies; });
    return of[of.size() / 2];
}

void print_cell(unsigned threads, const work &body, bool changing, double seconds, int rounds) {
    std::vector<cell> pool, tbb;
    for (int round = 0; round < rounds; round++) {
        pool.push_back(throughput<of_market>(threads, body, changing, seconds));
        tbb.push_back(throughput<of_tbb>(threads, body, changing, seconds));
    }
    const cell ours = median(pool), theirs = median(tbb);
    std::printf("%7u  %4.0f  %6.2f  %6.2f  %5.2f  %7.2f", threads, body.microseconds, ours.bodies, theirs.bodies,
        ours.bodies / theirs.bodies, ours.allowed);
    for (const cell &each : {ours, theirs})
        std::printf("  %6.2f  %5.2f  %6.2f", each.bodies / each.allowed, each.above, (each.bodies - each.above) / each.allowed);
    std::printf("\n");
    std::fflush(stdout);
}

template <class System> void print_delays(double steps, int rounds) {
    delays of = after_changes<System>(steps, rounds);
    std::printf("%-7s  %6.0f %6.0f %6.0f  %6.0f %6.0f %6.0f  %6d of %d\n", System::name, quantile(of.down, 0.5), quantile(of.down, 0.9),
        quantile(of.down, 1), quantile(of.up, 0.5), quantile(of.up, 0.9), quantile(of.up, 1), of.late, 2 * rounds);
}
} // namespace

int main(int count, char **words) {
    const double seconds = count > 1 ? std::atof(words[1]) : 1;
    const int rounds = count > 2 ? std::atoi(words[2]) : 3;
    const double steps = steps_of_a_microsecond();
    std::printf("%.0f steps take a microsecond\n\nmilliseconds of the processor that five idle seconds take\n", steps);
    std::printf("%-7s %.2f\n", of_market::name, idle<of_market>(steps, 5));
    std::printf("%-7s %.2f\n", of_tbb::name, idle<of_tbb>(steps, 5));

    const work bodies[] = {computing(steps, 1), computing(steps, 10), computing(steps, 100), sleeping()};
    for (bool changing : {false, true}) {
        std::printf("\nbodies at a time under a limit that %s, the median of %d rounds, and how many it allows; which share of that runs,\n"
                    "how many run above it, and the share without these; the longest bodies sleep, all others compute\n\n"
                    "                                              pool                  oneTBB\n"
                    "threads  body    pool  oneTBB  ratio  allowed   share  above  within   share  above  within\n",
            changing ? "changes" : "stays", rounds);
        for (unsigned threads : {1u, 2u, 4u})
            for (const work &each : bodies) print_cell(threads, each, changing, seconds, rounds);
    }

    std::printf("\nmicroseconds after a change of the limit until the workers are as many\n");
    std::printf("         lower: half  9/10   most  higher: half 9/10  most  too late\n");
    print_delays<of_market>(steps, 200);
    print_delays<of_tbb>(steps, 200);
    return 0;
}
