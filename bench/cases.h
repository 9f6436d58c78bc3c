// The cases that every program of the benchmark reads, and the one way in which it is timed.
//
// A case is six 32-bit little-endian numbers (table length, reply length, source, terminal, reach, allowance), then the table.
// Where spans are closed, the closed set's 16 bytes are the last of the table, and the planner alone reads such cases.
// A program is called `PROGRAM REPEAT < cases`. It prints the mean nanoseconds of a case, then a line for each case:
// shared count, total metres, mains tried, and 0 settled or 1 stopped. Where no pair is apart these are 0, 0, 0, and 14 or 15.
#pragma once
#include "clock.h"
#include <cstdint>
#include <cstdio>
#include <cstdlib>
#include <vector>

struct Case {
    uint32_t source, terminal, reach, allowance;
    std::vector<uint8_t> table;
};

struct Answer {
    uint64_t shared, total, ranked, number;
};

const size_t RECORD = 16;
const size_t REPLY = 96;
const size_t CLOSED_SET = 16;

inline uint64_t number(const uint8_t *bytes, int count) {
    uint64_t n = 0;
    while (count-- > 0) n = n << 8 | bytes[count];
    return n;
}

inline void put(std::vector<uint8_t> &bytes, uint64_t n, int count) {
    for (; count > 0; count--, n >>= 8) bytes.push_back(n & 255);
}

inline void write_case(const Case &c, FILE *out) {
    std::vector<uint8_t> bytes;
    for (uint32_t n : {uint32_t(c.table.size()), uint32_t(REPLY), c.source, c.terminal, c.reach, c.allowance}) put(bytes, n, 4);
    bytes.insert(bytes.end(), c.table.begin(), c.table.end());
    if (fwrite(bytes.data(), 1, bytes.size(), out) != bytes.size()) perror("cases"), exit(1);
}

inline std::vector<Case> read_cases(FILE *in) {
    std::vector<Case> cases;
    uint8_t head[24];
    while (fread(head, 1, sizeof head, in) == sizeof head) {
        auto field = [&](int i) { return uint32_t(number(head + 4 * i, 4)); };
        Case c{field(2), field(3), field(4), field(5), std::vector<uint8_t>(field(0))};
        if (fread(c.table.data(), 1, c.table.size(), in) != c.table.size()) fputs("a case is cut short\n", stderr), exit(1);
        cases.push_back(c);
    }
    return cases;
}

// Answers all cases `repeat` times over, and prints. `ready` turns a case into what `answer` takes, before the clock starts.
template <class Ready, class Answering>
int time_all(char **words, Ready ready, Answering answer) {
    auto cases = read_cases(stdin);
    std::vector<decltype(ready(cases[0]))> inputs;
    for (auto &c : cases) inputs.push_back(ready(c));
    int repeat = words[1] ? atoi(words[1]) : 1;
    std::vector<Answer> answers(inputs.size());
    auto begin = std::chrono::processor_clock::now();
    for (int r = 0; r < repeat; r++)
        for (size_t i = 0; i < inputs.size(); i++) answers[i] = answer(inputs[i]);
    std::chrono::duration<double, std::nano> spent = std::chrono::processor_clock::now() - begin;
    printf("%.0f\n", spent.count() / repeat / inputs.size());
    for (auto &a : answers) printf("%lu %lu %lu %lu\n", a.shared, a.total, a.ranked, a.number);
    return 0;
}
