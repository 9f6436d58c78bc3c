// Makes the benchmark's cases, the same at every run: `generate KIND.. > cases`, and the mesh file of the reference meshes on standard input.
//
//   generate reference RISKS MEAN                150 requests on a mesh of the papers, with so many risks and on average so many an arc
//   generate random NODES ARCS COUNT ALLOWANCE   a request on each of COUNT random meshes
//   generate ducts COUNT 1 | 0                   a request on each of COUNT random meshes of 16 nodes, with ducts at the door or without
//
// and the meshes of the trade, on which risks crowd: a request on each of COUNT meshes of 32 nodes, with 40 risks beside the ducts
//
//   generate crowded PLACE DUCTS COUNT           128 arcs; all but one of so many ducts on each arc at PLACE: door, before, ends
//   generate rivers RIVERS DUCTS MEAN COUNT      128 arcs; so many rivers to cross, all but one of so many ducts on each arc over one;
//                                                on average MEAN other risks an arc
//   generate ring COUNT                          126 arcs; a ring of 30 nodes, then three parallel arcs with two of three ducts each, then
//                                                three to the terminal
//   generate cables PARALLEL COUNT               31 hops one behind the other, so many parallel cables each, one of 64 risks a cable
//   generate exposed COUNT                       128 arcs; 64 risks, on average 8 an arc
//
// and meshes on which buildings, and not risks, are scarce:
//
//   generate halves GATES COUNT ALLOWANCE        128 arcs; 40 risks, 1 an arc; two halves that only so many nodes join, source in the one and
//                                                terminal in the other
//
// `generate spans KIND..` makes the same cases with span numbers: one for each pair of nodes that arcs join, whichever way these lead.
// Without that word every span number is zero.
//
// `generate closed N KIND..` closes N spans of each mesh, both directions, so that the terminal can still be reached, and puts the closed set's
// 16 bytes behind the table; `generate open N KIND..` makes the same cases without the closed arcs, for programs that know no closed set.
//
// Lengths and risks are those of document 000, section 3.4.1: an arc costs 1/b with b even, drawn from four ranges by one of three
// distributions (its Table 4); its risks are drawn uniformly. The cost is brought to whole metres, 2,000,000 divided by b.
#include "cases.h"
#include <algorithm>
#include <string>
#include <utility>

// splitmix64: the same numbers with every library
struct Dice {
    uint64_t state;
    uint64_t next() {
        uint64_t z = state += 0x9e3779b97f4a7c15;
        z = (z ^ z >> 30) * 0xbf58476d1ce4e5b9;
        z = (z ^ z >> 27) * 0x94d049bb133111eb;
        return z ^ z >> 31;
    }
    uint32_t below(uint32_t n) { return next() % n; }
};

using Spans = std::vector<std::pair<int, int>>;

const uint32_t NO_REACH_LIMIT = 62000000;
const uint32_t MOST_ALLOWANCE = 1000000;
const int DISTRIBUTIONS = 3;
const uint32_t PERCENT[DISTRIBUTIONS][4] = {{25, 25, 25, 25}, {70, 15, 10, 5}, {18, 18, 18, 46}};  // D1, D2, D3 over I0 to I3

uint32_t random_metres(Dice &dice, int distribution) {
    uint32_t percent = dice.below(100), range = 0;
    while (percent >= PERCENT[distribution][range]) percent -= PERCENT[distribution][range++];
    uint32_t k = 20 * range + dice.below(range < 3 ? 20 : 19);  // I3 ends at k = 78
    return 2000000 / (2 + 2 * k);
}

// 1 to 2 mean - 1 risks out of `risks`, which is `mean` on average
uint64_t random_risks(Dice &dice, uint32_t risks, uint32_t mean) {
    uint64_t set = 0;
    for (uint32_t left = 1 + dice.below(2 * mean - 1); left > 0;) {
        uint64_t risk = 1ull << dice.below(risks);
        if (!(set & risk)) set |= risk, left--;
    }
    return set;
}

void put_arc(std::vector<uint8_t> &table, int tail, int head, uint32_t metres, uint64_t risks) {
    put(table, tail, 1), put(table, head, 1), put(table, 0, 2), put(table, metres, 4), put(table, risks, 8);
}

// both directions of each span, each with a length and risks of its own, as document 000 has it
std::vector<uint8_t> random_table(Dice &dice, const Spans &spans, int distribution, uint32_t risks, uint32_t mean) {
    std::vector<uint8_t> table;
    for (auto [a, b] : spans)
        for (auto [tail, head] : {std::pair(a, b), std::pair(b, a)}) {
            uint32_t metres = random_metres(dice, distribution);
            put_arc(table, tail, head, metres, random_risks(dice, risks, mean));
        }
    return table;
}

bool numbered = false;  // the word `spans` was given

// The table's spans are 1, 2, 3.. in order of first appearance. Nothing is drawn for them, so that all else is as without.
void number_spans(std::vector<uint8_t> &table) {
    Spans met;
    for (size_t at = 0; at < table.size(); at += RECORD) {
        std::pair<int, int> ends = std::minmax(table[at], table[at + 1]);
        size_t place = std::find(met.begin(), met.end(), ends) - met.begin();
        if (place == met.size()) met.push_back(ends);
        table[at + 2] = place + 1;  // at most 128, so that byte 3 stays zero
    }
}

int to_close = 0;        // how many spans are closed
bool left_out = false;   // the word was `open`: closed arcs are left out of the table

// whether the terminal can be reached from the source over arcs that are not closed
bool reaches(const Case &c, const std::vector<bool> &closed) {
    uint32_t met = 1u << c.source, before = 0;
    while (met != before) {
        before = met;
        for (size_t at = 0; at < c.table.size(); at += RECORD)
            if (!closed[at / RECORD] && met >> c.table[at] & 1) met |= 1u << c.table[at + 1];
    }
    return met >> c.terminal & 1;
}

// Drawn by dice of their own, so that all else is as without.
std::vector<bool> random_closings(const Case &c, Dice &dice) {
    std::vector<bool> closed(c.table.size() / RECORD);
    for (int left = to_close; left > 0;) {
        auto tried = closed;
        size_t arc = dice.below(closed.size());
        if (closed[arc]) continue;
        std::pair<int, int> ends = std::minmax(c.table[RECORD * arc], c.table[RECORD * arc + 1]);
        for (size_t at = 0; at < c.table.size(); at += RECORD)
            if (ends == std::pair<int, int>(std::minmax(c.table[at], c.table[at + 1]))) tried[at / RECORD] = true;
        if (reaches(c, tried)) closed = tried, left--;
    }
    return closed;
}

void close_spans(Case &c) {
    static Dice dice{50000};
    auto closed = random_closings(c, dice);
    std::vector<uint8_t> open, set(CLOSED_SET);
    for (size_t arc = 0; arc < closed.size(); arc++) {
        auto record = c.table.begin() + RECORD * arc;
        if (closed[arc]) set[arc / 8] |= 1 << arc % 8;
        else open.insert(open.end(), record, record + RECORD);
    }
    if (left_out) c.table = open;
    else c.table.insert(c.table.end(), set.begin(), set.end());
}

void put_case(Case c) {
    if (numbered) number_spans(c.table);
    if (to_close > 0) close_spans(c);
    write_case(c, stdout);
}

Spans read_spans(FILE *in) {
    Spans spans;
    char line[512];
    for (int a, b; fgets(line, sizeof line, in);)
        if (line[0] != '#' && sscanf(line, "%d %d", &a, &b) == 2) spans.push_back({a, b});
    return spans;
}

// a ring, so that every node is reached, and chords between nodes that no span joins yet
Spans random_spans(Dice &dice, int nodes, size_t count) {
    Spans spans;
    for (int v = 0; v < nodes; v++) spans.push_back({v, (v + 1) % nodes});
    while (spans.size() < count) {
        int a = dice.below(nodes), b = dice.below(nodes);
        auto joins = [&](std::pair<int, int> s) { return s == std::pair(a, b) || s == std::pair(b, a); };
        if (a != b && std::none_of(spans.begin(), spans.end(), joins)) spans.push_back({a, b});
    }
    return spans;
}

void reference(uint32_t risks, uint32_t mean) {
    Spans spans = read_spans(stdin);
    int nodes = 0;
    for (auto [a, b] : spans) nodes = std::max({nodes, a + 1, b + 1});
    for (int seed = 0; seed < 10; seed++)
        for (int distribution = 0; distribution < DISTRIBUTIONS; distribution++) {
            Dice dice{uint64_t(seed * DISTRIBUTIONS + distribution)};
            auto table = random_table(dice, spans, distribution, risks, mean);
            for (int pair = 0; pair < 5; pair++) {
                uint32_t source = dice.below(nodes), terminal = (source + 1 + dice.below(nodes - 1)) % nodes;
                put_case({source, terminal, NO_REACH_LIMIT, MOST_ALLOWANCE, table});
            }
        }
}

// 15 risks and 4 an arc: hardly any two routes are free of each other, so that every main within the allowance must be tried
void random_meshes(int nodes, int arcs, int count, uint32_t allowance) {
    for (int seed = 0; seed < count; seed++) {
        Dice dice{uint64_t(1000 * nodes + seed)};
        Spans spans = random_spans(dice, nodes, arcs / 2);
        auto table = random_table(dice, spans, seed % DISTRIBUTIONS, 15, 4);
        put_case({0, uint32_t(nodes / 2), NO_REACH_LIMIT, allowance, table});
    }
}

// Three ducts at the terminal's door, two of them on each arc into it: any two of these arcs share one, none is on all.
void ducts(int count, bool at_the_door) {
    const int nodes = 16;
    const uint64_t duct[3] = {3ull << 60, 6ull << 60, 5ull << 60};
    for (int seed = 0; seed < count; seed++) {
        Dice dice{uint64_t(16000 + seed)};
        Spans spans = random_spans(dice, nodes, 40);
        auto table = random_table(dice, spans, seed % DISTRIBUTIONS, 40, 1);
        uint32_t terminal = nodes / 2;
        int into = 0;
        for (size_t at = 0; at_the_door && at < table.size(); at += RECORD)
            if (table[at + 1] == terminal) table[at + 15] |= duct[into++ % 3] >> 56;
        put_case({0, terminal, NO_REACH_LIMIT, MOST_ALLOWANCE, table});
    }
}

// ---- the meshes of the trade: 32 nodes, and as a rule 128 arcs and 1,000 mains

const int NODES = 32;
const size_t TRADE_SPANS = 64;
const uint32_t TRADE_ALLOWANCE = 1000;

// `ducts` ducts, the last of them risk `top`; arc after arc lies in all of them but one, each in turn: any two arcs share some, and none is on all
struct Ducts {
    int ducts, top, turn = 0;
    uint64_t next() {
        uint64_t all = (1ull << ducts) - 1, left_out = 1ull << turn++ % ducts;
        return (all & ~left_out) << (top - ducts + 1);
    }
};

int tail_of(const std::vector<uint8_t> &table, size_t at) { return table[at]; }
int head_of(const std::vector<uint8_t> &table, size_t at) { return table[at + 1]; }

// puts ducts on each arc that is among the chosen
template <class Chosen>
void lay_ducts(std::vector<uint8_t> &table, Ducts ducts, Chosen chosen) {
    for (size_t at = 0; at < table.size(); at += RECORD)
        if (chosen(tail_of(table, at), head_of(table, at))) {
            uint64_t risks = number(&table[at + 8], 8) | ducts.next();
            for (int i = 0; i < 8; i++) table[at + 8 + i] = risks >> 8 * i & 255;
        }
}

// Ducts into the terminal, into its neighbours, or out of the source and into the terminal.
void crowded(const std::string &place, int ducts, int count) {
    for (int seed = 0; seed < count; seed++) {
        Dice dice{uint64_t(40000 + seed)};
        auto table = random_table(dice, random_spans(dice, NODES, TRADE_SPANS), seed % DISTRIBUTIONS, 40, 1);
        const int source = 0, terminal = NODES / 2;
        bool near[NODES] = {};
        for (size_t at = 0; at < table.size(); at += RECORD) near[tail_of(table, at)] |= head_of(table, at) == terminal;
        if (place == "before") lay_ducts(table, {ducts, 63}, [&](int tail, int head) { return near[head] && tail != terminal; });
        else lay_ducts(table, {ducts, 63}, [&](int, int head) { return head == terminal; });
        if (place == "ends") lay_ducts(table, {ducts, 59}, [&](int tail, int) { return tail == source; });
        put_case({source, terminal, NO_REACH_LIMIT, TRADE_ALLOWANCE, table});
    }
}

// Strips of land, each as wide as the next, with a river between two of them: every route from the first to the last strip crosses all.
void rivers(int rivers, int ducts, uint32_t mean, int count) {
    const int strip = NODES / (rivers + 1);
    for (int seed = 0; seed < count; seed++) {
        Dice dice{uint64_t(41000 + 100 * rivers + seed)};
        Spans spans;
        for (int v = 0; v + 1 < NODES; v++) spans.push_back({v, v + 1});
        while (spans.size() < TRADE_SPANS) {
            int a = dice.below(NODES), b = dice.below(NODES);
            auto joins = [&](std::pair<int, int> s) { return s == std::pair(a, b) || s == std::pair(b, a); };
            if (a != b && abs(a / strip - b / strip) < 2 && std::none_of(spans.begin(), spans.end(), joins)) spans.push_back({a, b});
        }
        auto table = random_table(dice, spans, seed % DISTRIBUTIONS, 40, mean);
        for (int river = 0; river < rivers; river++)
            lay_ducts(table, {ducts, 63 - ducts * river}, [&](int tail, int head) { return std::min(tail, head) / strip == river && std::max(tail, head) / strip == river + 1; });
        put_case({0, NODES - 1, NO_REACH_LIMIT, TRADE_ALLOWANCE, table});
    }
}

// A ring with chords; from the node opposite the source three parallel arcs in ducts, and three more to the terminal.
void ring(int count) {
    const int ring = NODES - 2, gate = ring, terminal = ring + 1;
    for (int seed = 0; seed < count; seed++) {
        Dice dice{uint64_t(42000 + seed)};
        auto table = random_table(dice, random_spans(dice, ring, 2 * ring), seed % DISTRIBUTIONS, 40, 1);
        Ducts ducts{3, 63};
        for (int i = 0; i < 3; i++) put_arc(table, ring / 2, gate, random_metres(dice, seed % DISTRIBUTIONS), ducts.next());
        for (int i = 0; i < 3; i++) put_arc(table, gate, terminal, random_metres(dice, seed % DISTRIBUTIONS), 1ull << (40 + i));
        put_case({0, uint32_t(terminal), NO_REACH_LIMIT, 1, table});
    }
}

// A chain of buildings with parallel cables from each to the next.
void cables(int parallel, int count) {
    for (int seed = 0; seed < count; seed++) {
        Dice dice{uint64_t(43000 + seed)};
        std::vector<uint8_t> table;
        for (int v = 0; v + 1 < NODES; v++)
            for (int i = 0; i < parallel; i++) {
                uint32_t metres = random_metres(dice, seed % DISTRIBUTIONS);
                put_arc(table, v, v + 1, metres, 1ull << dice.below(64));
            }
        put_case({0, NODES - 1, NO_REACH_LIMIT, 1, table});
    }
}

void exposed(int count) {
    for (int seed = 0; seed < count; seed++) {
        Dice dice{uint64_t(44000 + seed)};
        auto table = random_table(dice, random_spans(dice, NODES, TRADE_SPANS), seed % DISTRIBUTIONS, 64, 8);
        put_case({0, NODES / 2, NO_REACH_LIMIT, TRADE_ALLOWANCE, table});
    }
}

// Two halves, each a ring with chords, and between them gates, each joined with three nodes of either half: every route meets one gate or more.
void halves(int gates, int count, uint32_t allowance) {
    const int half = (NODES - gates) / 2, first_gate = 2 * half;
    for (int seed = 0; seed < count; seed++) {
        Dice dice{uint64_t(45000 + 100 * gates + seed)};
        Spans spans, gated;
        for (int gate = first_gate; gate < first_gate + gates; gate++)
            for (int i = 0; i < 6; i++) gated.push_back({int(dice.below(half)) + (i < 3 ? 0 : half), gate});
        for (auto [a, b] : random_spans(dice, half, (TRADE_SPANS - gated.size()) / 2)) spans.push_back({a, b});
        for (auto [a, b] : random_spans(dice, half, (TRADE_SPANS - gated.size()) / 2)) spans.push_back({a + half, b + half});
        spans.insert(spans.end(), gated.begin(), gated.end());
        auto table = random_table(dice, spans, seed % DISTRIBUTIONS, 40, 1);
        put_case({0, uint32_t(half + half / 2), NO_REACH_LIMIT, allowance, table});
    }
}

int main(int, char **words) {
    if (words[1] == std::string("spans")) numbered = true, words++;
    if (words[1] == std::string("closed") || words[1] == std::string("open")) {
        left_out = words[1] == std::string("open");
        to_close = atoi(words[2]);
        words += 2;
    }
    std::string kind = words[1];
    auto word = [&](int i) { return atoi(words[i]); };
    if (kind == "reference") reference(word(2), word(3));
    if (kind == "random") random_meshes(word(2), word(3), word(4), word(5));
    if (kind == "ducts") ducts(word(2), word(3));
    if (kind == "crowded") crowded(words[2], word(3), word(4));
    if (kind == "rivers") rivers(word(2), word(3), word(4), word(5));
    if (kind == "ring") ring(word(2));
    if (kind == "cables") cables(word(2), word(3));
    if (kind == "exposed") exposed(word(2));
    if (kind == "halves") halves(word(2), word(3), word(4));
}
