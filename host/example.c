/* A C host in small: writes a span table (mesh A of the rules, each arc in a span of its own), asks for a pair from
 * node 0 to node 3, and prints it in words; asks for one while arc 1 is closed for works; asks for one that meets in no
 * node between the ends, and once more while arc 1 is closed, when there is none, and prints where all routes meet; then
 * asks with an arc that is too long, and prints the refusal; then mends that table, prints what is lost, and plans with
 * what is left; then asks with an arc whose risks nobody listed, which is refused and not mended. Build it with the
 * release: cc -std=c99 -I release host/example.c release/libfeshangul.a */
#include "feshangul.h"

#include <stdio.h>
#include <string.h>

#define RISK(r) (UINT64_C(1) << (r))

enum { ARCS = 5, SOURCE = 0, TERMINAL = 3, REACH = 10000, ALLOWANCE = 1000 };

/* Writes the record of arc number `arc` into the table. */
static void put_arc(uint8_t *table, size_t arc, uint32_t tail, uint32_t head, uint32_t span, uint32_t metres,
                    uint64_t risks)
{
    feshangul_put_arc(table + arc * FESHANGUL_ARC_BYTES, tail, head, span, metres, risks);
}

static void print_arc(const uint8_t *table, uint32_t arc)
{
    printf(", arc %lu to node %d", (unsigned long)arc, table[arc * FESHANGUL_ARC_BYTES + FESHANGUL_ARC_HEAD]);
}

static void print_verdict(const uint8_t *reply)
{
    const char *word = feshangul_verdict(reply) == FESHANGUL_SETTLED ? "settled" : "stopped";

    printf("%s; mains tried: %lu\n", word, (unsigned long)feshangul_ranked(reply));
}

/* Whether one of these arcs lies in the span. */
static int crosses(const uint8_t *table, const uint8_t *arcs, uint32_t count, uint32_t span)
{
    for (uint32_t place = 0; place < count; place++)
        if (feshangul_span(table, arcs[place]) == span)
            return 1;
    return 0;
}

/* The reply says how many spans both routes cross, and the table which: those of the main that the standby crosses too,
 * each once, though several arcs of the main may lie in it. */
static void print_shared_spans(const uint8_t *table, const uint8_t *reply)
{
    const uint8_t *main_arcs = reply + FESHANGUL_REPLY_MAIN, *standby_arcs = reply + FESHANGUL_REPLY_STANDBY;

    for (uint32_t place = 0; place < feshangul_main_arcs(reply); place++) {
        uint32_t span = feshangul_span(table, main_arcs[place]);
        if (span != FESHANGUL_SPAN_UNKNOWN && !crosses(table, main_arcs, place, span) &&
            crosses(table, standby_arcs, feshangul_standby_arcs(reply), span))
            printf(", span %lu", (unsigned long)span);
    }
}

static void print_shared(const uint8_t *table, const uint8_t *reply)
{
    printf("shared: %lu, spans among them: %lu", (unsigned long)feshangul_shared(reply),
           (unsigned long)feshangul_shared_spans(reply));
    for (unsigned risk = 0; risk <= FESHANGUL_RISK_MAX; risk++)
        if (feshangul_shared_risks(reply) & RISK(risk))
            printf(", risk %u", risk);
    print_shared_spans(table, reply);
    printf("; on every route: %lu\n", (unsigned long)feshangul_floor(reply));
}

static void print_routes(const uint8_t *table, const uint8_t *reply)
{
    printf("main: node %d", SOURCE);
    for (uint32_t place = 0; place < feshangul_main_arcs(reply); place++)
        print_arc(table, feshangul_main_arc(reply, place));
    printf("; %lu metres\n", (unsigned long)feshangul_main_metres(reply));

    printf("standby: node %d", SOURCE);
    for (uint32_t place = 0; place < feshangul_standby_arcs(reply); place++)
        print_arc(table, feshangul_standby_arc(reply, place));
    printf("; %lu metres\n", (unsigned long)feshangul_standby_metres(reply));
}

static void print_refusal(uint32_t number)
{
    unsigned long arc = feshangul_faulty_arc(number);

    switch (feshangul_reason(number)) {
    case FESHANGUL_ARC_NODE_RANGE:
        printf("refused: arc %lu has an end over node %u\n", arc, FESHANGUL_NODE_MAX);
        break;
    case FESHANGUL_ARC_ENDS_EQUAL:
        printf("refused: arc %lu ends where it begins\n", arc);
        break;
    case FESHANGUL_ARC_METRES_RANGE:
        printf("refused: arc %lu is longer than %u metres\n", arc, FESHANGUL_ARC_METRES_MAX);
        break;
    case FESHANGUL_ARC_RISKS_BLANK:
        printf("refused: arc %lu has no risk listed; ask what it goes through\n", arc);
        break;
    case FESHANGUL_NONE_APART:
        printf("refused: any two routes meet between the ends, or are the same arc\n");
        break;
    case FESHANGUL_NONE_APART_YET:
        printf("refused: no main within the allowance has a standby that it does not meet; ask with a larger one\n");
        break;
    default:
        printf("refused %lu; feshangul.h says what to do\n", (unsigned long)number);
    }
}

static void print_answer(const uint8_t *table, const uint8_t *reply, uint32_t number)
{
    if (number != FESHANGUL_SETTLED && number != FESHANGUL_STOPPED) {
        print_refusal(number);
    } else {
        print_verdict(reply);
        print_shared(table, reply);
        print_routes(table, reply);
    }
}

/* Returns the number that the call returned. */
static uint32_t plan_and_print(const uint8_t *table, size_t table_len)
{
    uint8_t reply[FESHANGUL_REPLY_BYTES];
    uint32_t number = feshangul_plan(table, table_len, reply, sizeof reply, SOURCE, TERMINAL, REACH, ALLOWANCE);

    print_answer(table, reply, number);
    return number;
}

/* The same while an arc is closed. */
static uint32_t plan_around_and_print(const uint8_t *table, size_t table_len, uint32_t arc)
{
    uint8_t reply[FESHANGUL_REPLY_BYTES], closed[FESHANGUL_CLOSED_BYTES] = { 0 };

    feshangul_close(closed, arc);
    uint32_t number = feshangul_plan_around(table, table_len, closed, sizeof closed, reply, sizeof reply, SOURCE,
                                            TERMINAL, REACH, ALLOWANCE);
    printf("arc %lu closed\n", (unsigned long)arc);
    print_answer(table, reply, number);
    return number;
}

/* Prints the nodes between the ends that lie on every route: without the arcs into one of them there is no route. */
static void print_nodes_on_every_route(const uint8_t *table, size_t table_len, const uint8_t *closed)
{
    for (uint32_t node = 0; node <= FESHANGUL_NODE_MAX; node++) {
        uint8_t reply[FESHANGUL_REPLY_BYTES], without[FESHANGUL_CLOSED_BYTES];

        memcpy(without, closed, sizeof without);
        for (uint32_t arc = 0; arc < table_len / FESHANGUL_ARC_BYTES; arc++)
            if (table[arc * FESHANGUL_ARC_BYTES + FESHANGUL_ARC_HEAD] == node)
                feshangul_close(without, arc);
        if (node != TERMINAL && feshangul_plan_around(table, table_len, without, sizeof without, reply, sizeof reply,
                                                      SOURCE, TERMINAL, REACH, 1) == FESHANGUL_NO_ROUTE)
            printf("on every route: node %lu\n", (unsigned long)node);
    }
}

/* For a pair that meets in no node between the ends. */
static uint32_t plan_apart_and_print(const uint8_t *table, size_t table_len, const uint8_t *closed)
{
    uint8_t reply[FESHANGUL_REPLY_BYTES];
    uint32_t number = feshangul_plan_apart(table, table_len, closed, FESHANGUL_CLOSED_BYTES, reply, sizeof reply,
                                           SOURCE, TERMINAL, REACH, ALLOWANCE);

    printf("apart\n");
    print_answer(table, reply, number);
    if (number == FESHANGUL_NONE_APART)
        print_nodes_on_every_route(table, table_len, closed);
    return number;
}

static void print_change(const uint8_t *change)
{
    static const char *const reasons[] = {
        [FESHANGUL_LOST_NODE] = "has an end that is no node", [FESHANGUL_LOST_ENDS] = "ends where it begins",
        [FESHANGUL_LOST_LENGTH] = "is too long", [FESHANGUL_LOST_PAST] = "has 128 arcs before it",
        [FESHANGUL_LOST_TORN] = "is torn",
    };

    printf("arc %lu %s; it is lost\n", (unsigned long)feshangul_change_old(change),
           reasons[feshangul_change_reason(change)]);
}

/* Mends a table and plans with what is left; returns the number of the planning. */
static uint32_t mend_and_plan(const uint8_t *input, size_t input_len)
{
    uint8_t table[ARCS * FESHANGUL_ARC_BYTES], list[ARCS * FESHANGUL_CHANGE_BYTES];
    feshangul_mended mended = feshangul_mend(input, input_len, table, sizeof table, list, sizeof list);

    for (uint32_t at = 0; at < mended.list_len; at += FESHANGUL_CHANGE_BYTES)
        print_change(list + at);
    for (uint32_t arc = 0; arc < mended.table_len / FESHANGUL_ARC_BYTES; arc++)
        if (feshangul_old_arc(list, mended.list_len, arc) != arc)
            printf("arc %lu was arc %lu\n", (unsigned long)arc,
                   (unsigned long)feshangul_old_arc(list, mended.list_len, arc));
    return plan_and_print(table, mended.table_len);
}

int main(void)
{
    uint8_t table[ARCS * FESHANGUL_ARC_BYTES];

    put_arc(table, 0, 0, 1, 11, 1000, RISK(0));
    put_arc(table, 1, 1, 3, 12, 4000, RISK(1));
    put_arc(table, 2, 0, 2, 13, 4000, RISK(2));
    put_arc(table, 3, 2, 3, 14, 1000, RISK(3));
    put_arc(table, 4, 1, 2, 15, 1000, RISK(4));

    int planned = plan_and_print(table, sizeof table) == FESHANGUL_SETTLED;
    int around = plan_around_and_print(table, sizeof table, 1) == FESHANGUL_SETTLED;

    uint8_t closed[FESHANGUL_CLOSED_BYTES] = { 0 };
    int apart = plan_apart_and_print(table, sizeof table, closed) == FESHANGUL_SETTLED;
    feshangul_close(closed, 1);
    printf("arc 1 closed\n");
    int none_apart = plan_apart_and_print(table, sizeof table, closed) == FESHANGUL_NONE_APART;

    put_arc(table, 2, 0, 2, 13, FESHANGUL_ARC_METRES_MAX + 1, RISK(2));
    int refused = feshangul_reason(plan_and_print(table, sizeof table)) == FESHANGUL_ARC_METRES_RANGE;
    int mended = mend_and_plan(table, sizeof table) == FESHANGUL_SETTLED;

    put_arc(table, 2, 0, 2, 13, 4000, 0);
    int blank = feshangul_reason(plan_and_print(table, sizeof table)) == FESHANGUL_ARC_RISKS_BLANK;
    return planned && around && apart && none_apart && refused && mended && blank ? 0 : 1;
}
