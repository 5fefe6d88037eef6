// Times: how long a workload takes, how long each of its operations waits, and how long a process is busy after it.
#pragma once

#include <algorithm>
#include <chrono>
#include <cstdint>
#include <future>
#include <limits>
#include <optional>
#include <sys/resource.h>
#include <thread>
#include <vector>

namespace peers {

using Nanos = std::uint64_t;

inline Nanos now() {
    using namespace std::chrono;
    return static_cast<Nanos>(duration_cast<nanoseconds>(steady_clock::now().time_since_epoch()).count());
}

// The middle one of some waits, the one below which 99 of 100 lie, and the longest.
struct Waits {
    Nanos median;
    Nanos most;
    Nanos longest;
};

struct Figures {
    std::uint64_t operations;
    Nanos nanos;
    std::optional<Waits> waits;
};

// The place in sorted numbers below or at which so many of 100 lie.
inline std::size_t place_of(std::size_t count, std::size_t percent) {
    std::size_t upto = (count * percent + 99) / 100;
    return upto == 0 ? 0 : upto - 1;
}

inline Waits waits_of(std::vector<Nanos> waits) {
    std::sort(waits.begin(), waits.end());
    return {waits[place_of(waits.size(), 50)], waits[place_of(waits.size(), 99)], waits.back()};
}

// Some operations: when the first began, when the last ended, and the wait of each, or none where they were not taken.
struct Pass {
    std::uint64_t operations;
    Nanos start;
    Nanos end;
    std::vector<Nanos> waits;
};

inline Figures figures_of(Pass pass) {
    Figures figures{pass.operations, pass.end - pass.start, std::nullopt};
    if (!pass.waits.empty()) {
        figures.waits = waits_of(std::move(pass.waits));
    }
    return figures;
}

// Does an operation for each number below a count, one after another.
template <class Operation>
Pass pass_of_all(std::uint32_t count, Operation operation) {
    Nanos start = now();
    for (std::uint32_t number = 0; number < count; number++) {
        operation(number);
    }
    return {count, start, now(), {}};
}

// The same, with the wait of each: the clock is read once an operation, which is in the time of all.
template <class Operation>
Pass pass_of_each(std::uint32_t count, Operation operation) {
    std::vector<Nanos> waits(count);
    Nanos start = now();
    Nanos before = start;
    for (std::uint32_t number = 0; number < count; number++) {
        operation(number);
        Nanos after = now();
        waits[number] = after - before;
        before = after;
    }
    return {count, start, before, std::move(waits)};
}

// The figures of such passes.
template <class Operation>
Figures timed(std::uint32_t count, Operation operation) {
    return figures_of(pass_of_all(count, operation));
}

template <class Operation>
Figures timed_each(std::uint32_t count, Operation operation) {
    return figures_of(pass_of_each(count, operation));
}

// Passes of threads that ran at the same time, as one: from the first start to the last end, with the waits of all.
// What a thread has thrown is thrown here.
inline Pass joined(std::vector<std::future<Pass>>& threads) {
    Pass all{0, std::numeric_limits<Nanos>::max(), 0, {}};
    for (std::future<Pass>& thread : threads) {
        Pass pass = thread.get();
        all.operations += pass.operations;
        all.start = std::min(all.start, pass.start);
        all.end = std::max(all.end, pass.end);
        all.waits.insert(all.waits.end(), pass.waits.begin(), pass.waits.end());
    }
    return all;
}

// Does a pass for each number below a count, each in a thread of its own, which begin together. It returns or throws
// once all threads have ended.
template <class PassOf>
Figures timed_threads(std::uint32_t count, PassOf pass_of) {
    std::vector<std::future<Pass>> threads;
    // Declared after them, so that it ends first: if a thread can't be made, those that wait for it end too.
    std::promise<void> start;
    std::shared_future<void> started = start.get_future().share();
    for (std::uint32_t number = 0; number < count; number++) {
        threads.push_back(std::async(std::launch::async, [started, pass_of, number] {
            started.get();
            return pass_of(number);
        }));
    }
    start.set_value();
    return figures_of(joined(threads));
}

// The nanoseconds that a reading of the clock takes: the least of some times, since what else the machine does is in
// the others.
inline Nanos clock_cost() {
    constexpr std::uint32_t count = 10'000;
    Nanos least = std::numeric_limits<Nanos>::max();
    for (int time = 0; time < 20; time++) {
        least = std::min(least, timed(count, [](std::uint32_t) { now(); }).nanos / count);
    }
    return least;
}

// The microseconds of the processors that this process has had.
inline std::int64_t processor_micros() {
    rusage usage{};
    getrusage(RUSAGE_SELF, &usage);
    return 1'000'000 * (usage.ru_utime.tv_sec + usage.ru_stime.tv_sec) + usage.ru_utime.tv_usec +
           usage.ru_stime.tv_usec;
}

// Waits until the threads of this process take less than a fiftieth of a processor for half a second, at most two
// minutes. It answers how long they were busy.
inline Nanos rest() {
    using namespace std::chrono_literals;
    constexpr Nanos limit = 120'000'000'000;
    Nanos start = now();
    Nanos busy_until = start;
    std::int64_t before = processor_micros();
    for (int still = 0; still < 5 && now() - start < limit;) {
        std::this_thread::sleep_for(100ms);
        std::int64_t after = processor_micros();
        bool is_busy = after - before > 2'000;
        still = is_busy ? 0 : still + 1;
        busy_until = is_busy ? now() : busy_until;
        before = after;
    }
    return busy_until - start;
}

} // namespace peers
