// SLA of document 000, Algorithms 1 and 2, written for speed: what the planner is measured beside.
//
// As printed there: routes are ranked by length, each in turn is the main, and labels find its standby. No settling test: every main
// within the allowance is tried. Reach is not a notion of 000, so cases come with none that binds. Nor are spans: each is a further risk
// here, on all arcs that cross it. Three choices are ours:
// - Ranking (000 leaves the method open): routes no longer than a limit, grown depth first, then sorted; the limit is widened or
//   halved until it holds enough of them. On the cases without spans the whole is 1.1 to 3.9 times as fast as with a heap of partial routes.
// - A label no shorter than another with a part of its risks is dropped also where both are equally long. 000 asks for strictly shorter,
//   which keeps more labels and never a better shared count or total.
// - Line 23's question, whether the length could still win, is asked at every node and not only at the terminal.
#include "cases.h"
#include <algorithm>
#include <variant>

using u8 = uint8_t;
using u32 = uint32_t;
using u64 = uint64_t;

const int NODES = 32;
const u32 NEVER = ~0u;
const u32 NO_LIMIT = 62000000;

// A set of risks, the table's spans among them. All below is made for one, two and three words, so that a table pays for no more than it takes.
template <int WORDS>
struct Risks {
    u64 word[WORDS];

    void add(int risk) { word[risk / 64] |= 1ull << risk % 64; }
    int ones() const {
        int count = 0;
        for (u64 w : word) count += __builtin_popcountll(w);
        return count;
    }
    bool within(const Risks &all) const {
        u64 outside = 0;
        for (int i = 0; i < WORDS; i++) outside |= word[i] & ~all.word[i];
        return outside == 0;
    }
    Risks operator|(const Risks &other) const {
        Risks either;
        for (int i = 0; i < WORDS; i++) either.word[i] = word[i] | other.word[i];
        return either;
    }
    Risks operator&(const Risks &other) const {
        Risks common;
        for (int i = 0; i < WORDS; i++) common.word[i] = word[i] & other.word[i];
        return common;
    }
};

template <int WORDS>
struct Arc {
    u8 tail, head;
    u32 metres;
    Risks<WORDS> risks;
};

// Arcs sorted by tail, in their order otherwise: those that leave node v are first[v] to first[v + 1].
template <int WORDS>
struct Mesh {
    u32 source, terminal, allowance;
    std::vector<Arc<WORDS>> arcs;
    int first[NODES + 1];
};

u64 risks_of(const u8 *record) { return number(record + 8, 8); }
u32 span_of(const u8 *record) { return number(record + 2, 2); }  // 0 where it is not known

// Which further risks a table's spans are: those behind its last own one, in order of first appearance.
struct Numbering {
    int own = 0;
    std::vector<u32> spans;

    explicit Numbering(const Case &c) {
        u64 any = 0;
        for (size_t at = 0; at < c.table.size(); at += RECORD) {
            any |= risks_of(&c.table[at]);
            u32 span = span_of(&c.table[at]);
            if (span != 0 && place(span) == spans.size()) spans.push_back(span);
        }
        for (; any != 0; any >>= 1) own++;
    }
    size_t place(u32 span) const { return std::find(spans.begin(), spans.end(), span) - spans.begin(); }
    int risk(u32 span) const { return own + place(span); }
    int count() const { return own + spans.size(); }  // at most 64 and, with 128 arcs, 128
};

template <int WORDS>
Mesh<WORDS> mesh_of(const Case &c, const Numbering &numbering) {
    Mesh<WORDS> m{c.source, c.terminal, c.allowance, {}, {}};
    for (size_t at = 0; at < c.table.size(); at += RECORD) {
        const u8 *b = &c.table[at];
        Risks<WORDS> risks{{risks_of(b)}};
        if (span_of(b) != 0) risks.add(numbering.risk(span_of(b)));
        m.arcs.push_back({b[0], b[1], u32(number(b + 4, 4)), risks});
    }
    std::stable_sort(m.arcs.begin(), m.arcs.end(), [](auto &a, auto &b) { return a.tail < b.tail; });
    for (int v = 0; v <= NODES; v++)
        m.first[v] = std::count_if(m.arcs.begin(), m.arcs.end(), [v](auto &a) { return a.tail < v; });
    return m;
}

using AnyMesh = std::variant<Mesh<1>, Mesh<2>, Mesh<3>>;

AnyMesh ready(const Case &c) {
    if (c.reach < NO_LIMIT) fputs("a reach that binds: not a case for SLA\n", stderr), exit(1);
    Numbering numbering(c);
    if (numbering.count() <= 64) return mesh_of<1>(c, numbering);
    if (numbering.count() <= 128) return mesh_of<2>(c, numbering);
    return mesh_of<3>(c, numbering);
}

template <int WORDS>
struct Route {
    u32 metres, length;
    Risks<WORDS> risks;
    u8 arc[NODES - 1];
};

// The first routes by length; of equally long ones, the one that depth-first growth meets first, as 01 ranks them.
template <int WORDS>
class Ranking {
    const Mesh<WORDS> *m;
    u32 dist[NODES];  // shortest length to the terminal
    std::vector<Route<WORDS>> met;
    std::vector<u64> order;  // metres, then the place in `met`
    Route<WORDS> route;
    u32 limit;
    size_t most;
    bool cut;  // some route is longer than the limit

    void find_distances() {
        std::fill(dist, dist + NODES, NEVER);
        dist[m->terminal] = 0;
        for (bool more = true; more;) {
            more = false;
            for (auto &a : m->arcs)
                if (dist[a.head] != NEVER && dist[a.head] + a.metres < dist[a.tail]) dist[a.tail] = dist[a.head] + a.metres, more = true;
        }
    }

    bool grow(u32 v, u32 seen, Risks<WORDS> risks) {
        if (v == m->terminal) {
            if (met.size() == most) return false;
            route.risks = risks;
            met.push_back(route);
            return true;
        }
        for (int k = m->first[v]; k < m->first[v + 1]; k++) {
            const Arc<WORDS> &a = m->arcs[k];
            if (seen >> a.head & 1 || dist[a.head] == NEVER) continue;
            if (route.metres + a.metres + dist[a.head] > limit) { cut = true; continue; }
            route.arc[route.length++] = k, route.metres += a.metres;
            bool on = grow(a.head, seen | 1u << a.head, risks | a.risks);
            route.length--, route.metres -= a.metres;
            if (!on) return false;
        }
        return true;
    }

    // The routes no longer than `to`; false where there are more than `cap`.
    bool collect(u32 to, size_t cap) {
        met.clear(), limit = to, most = cap, cut = false, route = {};
        return grow(m->source, 1u << m->source, {});
    }

    void collect_first(size_t wanted) {
        if (collect(NO_LIMIT, wanted)) return;
        u32 few = dist[m->source], many = NO_LIMIT, step = few / 8 + 1;
        for (;;) {
            u32 to = few + std::min(step, (many - few + 1) / 2);
            step *= 2;
            if (!collect(to, to < many ? 2 * wanted : ~size_t(0))) many = to;
            else if (met.size() < wanted && cut) few = to;
            else return;
        }
    }

public:
    void rank(const Mesh<WORDS> &mesh) {
        m = &mesh;
        order.clear(), met.clear();
        find_distances();
        if (dist[m->source] == NEVER) return;
        collect_first(m->allowance);
        for (size_t i = 0; i < met.size(); i++) order.push_back(u64(met[i].metres) << 32 | i);
        size_t kept = std::min<size_t>(m->allowance, order.size());
        std::nth_element(order.begin(), order.begin() + kept, order.end());
        order.resize(kept);
        std::sort(order.begin(), order.end());
    }
    size_t size() const { return order.size(); }
    const Route<WORDS> &operator[](size_t k) const { return met[u32(order[k])]; }
};

template <int WORDS>
class Sla {
    struct Label {
        Risks<WORDS> risks;  // those of the main on the way here
        u32 metres, from;
        u8 node, arc;
        bool live;
    };
    Ranking<WORDS> ranking;
    std::vector<Label> labels;  // from the oldest not scanned on, this is the paper's X
    std::vector<u32> of_node[NODES];
    u32 nodes_met;
    Route<WORDS> best_main, best_standby;
    int risk_bound;
    u64 best_total;

    void add_label(const Label &l) {
        if (!(nodes_met >> l.node & 1)) nodes_met |= 1u << l.node, of_node[l.node].clear();
        of_node[l.node].push_back(labels.size());
        labels.push_back(l);
    }

    // Lines 14 and 17: false where a label of that node dominates the new one; else those that it dominates are gone.
    bool undominated(const Label &l) {
        if (!(nodes_met >> l.node & 1)) return true;
        auto &others = of_node[l.node];
        for (size_t i = 0; i < others.size();) {
            Label &o = labels[others[i]];
            if (o.risks.within(l.risks) && o.metres <= l.metres) return false;
            if (l.risks.within(o.risks) && l.metres <= o.metres) o.live = false, others[i] = others.back(), others.pop_back();
            else i++;
        }
        return true;
    }

    void keep_pair(const Mesh<WORDS> &m, const Route<WORDS> &main, u32 last) {
        best_main = main;
        best_standby = {};
        best_standby.metres = labels[last].metres;
        for (u32 x = last; x != 0; x = labels[x].from) best_standby.length++;
        for (u32 x = last, i = best_standby.length; x != 0; x = labels[x].from) {
            best_standby.arc[--i] = labels[x].arc;
            best_standby.risks = best_standby.risks | m.arcs[labels[x].arc].risks;
        }
    }

    // Algorithm 1, and lines 6 and 7 of Algorithm 2
    void try_main(const Mesh<WORDS> &m, const Route<WORDS> &main) {
        labels.clear(), nodes_met = 0;
        add_label({{}, 0, 0, u8(m.source), 0, true});
        for (u32 x = 0; x < labels.size(); x++) {
            const Label from = labels[x];
            if (!from.live || from.node == m.terminal) continue;
            for (int k = m.first[from.node]; k < m.first[from.node + 1]; k++) {
                const Arc<WORDS> &a = m.arcs[k];
                Label l{from.risks | (a.risks & main.risks), from.metres + a.metres, x, a.head, u8(k), true};
                int shared = l.risks.ones();
                u64 total = u64(main.metres) + l.metres;
                if (shared > risk_bound || (shared == risk_bound && total >= best_total) || !undominated(l)) continue;
                add_label(l);
                if (l.node == m.terminal) risk_bound = shared, best_total = total, keep_pair(m, main, labels.size() - 1);
            }
        }
    }

public:
    // Algorithm 2
    Answer plan(const Mesh<WORDS> &m) {
        risk_bound = 64 * WORDS + 1, best_total = ~0ull;
        ranking.rank(m);
        for (size_t k = 0; k < ranking.size(); k++) try_main(m, ranking[k]);
        u64 shared = (best_main.risks & best_standby.risks).ones();
        return {shared, u64(best_main.metres) + best_standby.metres, ranking.size(), ranking.size() == m.allowance};
    }
};

template <int WORDS>
Answer plan(const Mesh<WORDS> &m) {
    static Sla<WORDS> sla;
    return sla.plan(m);
}

int main(int, char **words) {
    return time_all(words, ready, [](const AnyMesh &any) { return std::visit([](auto &m) { return plan(m); }, any); });
}
