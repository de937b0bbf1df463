// Loops in two arenas of different priority, one of them nested, under a limit that changes while they run. It prints how many workers
// each arena had over time beside what it was allotted, and ends with 0 where all sums are right and no arena had more than it may have.
// Arguments: workers (4), microseconds of a body (10), bodies of each loop (20000), and a file for the market's journal.
#include "pool.hpp"

#include <chrono>
#include <cstdio>
#include <cstdlib>
#include <ctime>

namespace {
using clock_type = std::chrono::steady_clock;

// Works for so many microseconds.
void spin(unsigned microseconds) {
    const auto until = clock_type::now() + std::chrono::microseconds(microseconds);
    while (clock_type::now() < until) {}
}

double milliseconds(clock_type::duration time) { return std::chrono::duration<double, std::milli>(time).count(); }

double processor_milliseconds() {
    timespec used{};
    clock_gettime(CLOCK_PROCESS_CPUTIME_ID, &used);
    return used.tv_sec * 1e3 + used.tv_nsec / 1e6;
}
} // namespace

int main(int count, char **words) {
    const unsigned workers = count > 1 ? std::atoi(words[1]) : 4;
    const unsigned body = count > 2 ? std::atoi(words[2]) : 10;
    const std::size_t size = count > 3 ? std::atoi(words[3]) : 20000;
    std::FILE *const file = count > 4 ? std::fopen(words[4], "w") : nullptr;
    bool right = true;
    {
        pool::thread_pool threads(workers, workers + 1, 3, file);
        pool::arena &high = threads.open(workers, 1), &low = threads.open(workers, 3);
        std::atomic<uint64_t> high_sum{0}, low_sum{0};
        std::atomic<bool> done{false};

        // An idle pool takes no processor.
        const double before = processor_milliseconds();
        std::this_thread::sleep_for(std::chrono::milliseconds(200));
        const double idle = processor_milliseconds() - before;

        const auto start = clock_type::now();
        std::thread other([&] {
            threads.parallel_for(high, 0, size, 64, [&](std::size_t from, std::size_t to) {
                for (std::size_t k = from; k < to; k++) spin(body), high_sum += k;
            });
        });
        std::thread watch([&] {
            std::fprintf(stderr, "%8s %6s  %-22s %-22s\n", "ms", "limit", "high: has, allotted", "low: has, allotted");
            for (int round = 0; !done; round++) {
                const uint32_t control = round % 2 == 1 ? threads.limit(2) : 0;
                for (int look = 0; look < 5 && !done; look++) {
                    const market_limits limits = threads.limits();
                    const market_view views[] = {threads.show(high), threads.show(low)};
                    for (const market_view &view : views)
                        right = right && view.active - view.recall <= view.allot && view.allot <= workers;
                    std::fprintf(stderr, "%8.1f %6u  %9u %9u    %9u %9u\n", milliseconds(clock_type::now() - start), limits.effective,
                        views[0].active, views[0].allot, views[1].active, views[1].allot);
                    std::this_thread::sleep_for(std::chrono::milliseconds(10));
                }
                if (control != 0) threads.lift(control);
            }
        });
        // Nested: each piece of the low loop is a loop of its own.
        threads.parallel_for(low, 0, size / 100, 1, [&](std::size_t from, std::size_t) {
            threads.parallel_for(low, 0, 100, 10, [&](std::size_t begin, std::size_t end) {
                for (std::size_t k = begin; k < end; k++) spin(body), low_sum += from * 100 + k;
            });
        });
        other.join();
        const double took = milliseconds(clock_type::now() - start);
        done = true;
        watch.join();

        const uint64_t sum = uint64_t(size) * (size - 1) / 2;
        right = right && high_sum == sum && low_sum == sum;
        const market_view views[] = {threads.show(high), threads.show(low)};
        right = right && views[0].request == 0 && views[1].request == 0;
        std::fprintf(stderr, "%.1f ms, %.2f bodies at a time, %llu recalls, %llu sleeps\n", took, 2.0 * size * body / 1e3 / took,
            (unsigned long long)threads.recalls(), (unsigned long long)threads.sleeps());
        std::fprintf(stderr, "idle for 200 ms it took %.1f ms of the processor\n", idle);
    }
    if (file != nullptr) right = std::fclose(file) == 0 && right;
    std::printf("%s\n", right ? "the pool's sums are right, and no arena had more workers than it may have" : "WRONG");
    return right ? 0 : 1;
}
