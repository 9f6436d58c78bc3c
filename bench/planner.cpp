// The planner on the benchmark's cases: the entries of release/libfeshangul.a as a host calls them, checks and reply included.
// `planner REPEAT [closed] [apart] < cases`: closed, it plans around the set that each case has behind its table; apart, it plans a
// pair that meets in no node between the ends.
#include "../release/feshangul.h"
#include "cases.h"
#include <string>

#pragma weak feshangul_plan_apart  // so that an archive from before T-05 can be measured too, for any pair

Answer read_reply(uint32_t returned, const uint8_t *reply) {
    if (returned > 1) fprintf(stderr, "the planner refused a case with %u\n", returned), exit(1);
    return {reply[1], number(reply + 12, 4) + number(reply + 16, 4), number(reply + 8, 4), returned};
}

Answer plan(const Case &c) {
    uint8_t reply[REPLY];
    uint32_t returned = feshangul_plan(c.table.data(), c.table.size(), reply, REPLY, c.source, c.terminal, c.reach, c.allowance);
    return read_reply(returned, reply);
}

// The arcs of a case and its closed set, where it has one behind them; else one that closes nothing.
struct Arcs {
    const uint8_t *table, *closed;
    size_t length;
};

Arcs with_set(const Case &c) {
    size_t length = c.table.size() - CLOSED_SET;
    return {c.table.data(), c.table.data() + length, length};
}

Arcs with_none(const Case &c) {
    static const uint8_t none[CLOSED_SET] = {};
    return {c.table.data(), none, c.table.size()};
}

Answer plan_around(const Case &c) {
    uint8_t reply[REPLY];
    Arcs a = with_set(c);
    uint32_t returned = feshangul_plan_around(a.table, a.length, a.closed, CLOSED_SET, reply, REPLY, c.source, c.terminal, c.reach, c.allowance);
    return read_reply(returned, reply);
}

template <Arcs arcs_of(const Case &)>
Answer plan_apart(const Case &c) {
    uint8_t reply[REPLY];
    Arcs a = arcs_of(c);
    uint32_t returned = feshangul_plan_apart(a.table, a.length, a.closed, CLOSED_SET, reply, REPLY, c.source, c.terminal, c.reach, c.allowance);
    if (returned == FESHANGUL_NONE_APART || returned == FESHANGUL_NONE_APART_YET) return {0, 0, 0, returned};
    return read_reply(returned, reply);
}

int main(int count, char **words) {
    bool closed = false, apart = false;
    for (int i = 2; i < count; i++) (words[i] == std::string("closed") ? closed : apart) = true;
    if (apart && !feshangul_plan_apart) return fputs("this archive plans no pairs apart\n", stderr), 1;
    auto same = [](const Case &c) { return c; };
    if (apart) return time_all(words, same, closed ? plan_apart<with_set> : plan_apart<with_none>);
    return time_all(words, same, closed ? plan_around : plan);
}
