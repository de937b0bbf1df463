// Four threads wrongly use one seat, until two of their calls have met: each overlap is told by MARKET_SEAT_IN_USE, and the totals are
// those of the calls that were made. On one processor calls meet only where a thread is interrupted in one, which takes a while.
#include "market.h"

#include <atomic>
#include <chrono>
#include <cstdio>
#include <thread>
#include <vector>

int main() {
    using clock = std::chrono::steady_clock;
    market_terms terms = {4, 64, 1, 3, 3, 1u << 20, MARKET_KEEP_NOTHING};
    market::seat seat;
    if (market_open(seat, &terms) != MARKET_OK) return 1;
    std::atomic<uint64_t> done{0}, in_use{0}, other{0};
    const auto deadline = clock::now() + std::chrono::seconds(60);
    std::vector<std::thread> threads;
    for (int k = 0; k < 4; k++)
        threads.emplace_back([&] {
            market_limits limits;
            do {
                for (int call = 0; call < 50000; call++) {
                    const int32_t code = market_limit(seat, &limits);
                    (code == MARKET_OK ? done : code == MARKET_SEAT_IN_USE ? in_use : other)++;
                }
            } while (in_use == 0 && clock::now() < deadline);
        });
    for (auto &thread : threads) thread.join();
    market_totals totals{};
    const int32_t closed = market_close(seat, &totals);
    std::fprintf(stderr, "%llu calls, %llu times in use\n", (unsigned long long)done, (unsigned long long)in_use);
    const bool right = closed == MARKET_OK && other == 0 && totals.calls == done && in_use > 0;
    std::printf("%s\n", right ? "every overlap was told by its code" : "WRONG");
    return right ? 0 : 1;
}
