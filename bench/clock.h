// Processor time in place of the wall clock, so that other programs on the machine do not show in the ratios.
// Included before anything else, it also serves a program that asks for std::chrono::steady_clock.
#pragma once
#include <chrono>
#include <ctime>

namespace std::chrono {
struct processor_clock {
    using duration = nanoseconds;
    using rep = duration::rep;
    using period = duration::period;
    using time_point = chrono::time_point<processor_clock>;
    static constexpr bool is_steady = true;
    static time_point now() {
        timespec t;
        clock_gettime(CLOCK_PROCESS_CPUTIME_ID, &t);
        return time_point(seconds(t.tv_sec) + nanoseconds(t.tv_nsec));
    }
};
}
#define steady_clock processor_clock
