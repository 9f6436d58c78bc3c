/* Tests what feshangul.h itself computes: the writers, the readers, closed sets, a number taken apart, old arc numbers read off a
 * list of changes, and that its version and its limits agree. Prints nothing and returns 0 where all is well; else it
 * names the line that does not hold. */
#include "feshangul.h"

#include <stdio.h>
#include <stdlib.h>
#include <string.h>

static void hold(int holds, int line)
{
    if (!holds) {
        printf("header.c line %d does not hold\n", line);
        exit(1);
    }
}

#define HOLD(test) hold((test), __LINE__)

static void test_arcs(void)
{
    static const uint8_t arc[FESHANGUL_ARC_BYTES] = { 31, 2, 3, 4, 0x80, 0x84, 0x1e, 0, 1, 0, 0, 0, 0, 0, 0, 0x80 };
    uint8_t record[FESHANGUL_ARC_BYTES + 1];

    memset(record, 0xAA, sizeof record);
    feshangul_put_arc(record, 31, 2, 0x0403u, FESHANGUL_ARC_METRES_MAX, (uint64_t)1 << FESHANGUL_RISK_MAX | 1);
    HOLD(memcmp(record, arc, sizeof arc) == 0);
    HOLD(record[FESHANGUL_ARC_BYTES] == 0xAA);

    /* 256 is no byte: it must not come out as node 0. */
    feshangul_put_arc(record, 256, 255, 0, 0, 0);
    HOLD(record[FESHANGUL_ARC_TAIL] == 255 && record[FESHANGUL_ARC_HEAD] == 255);
}

static void test_spans(void)
{
    uint8_t table[3 * FESHANGUL_ARC_BYTES];

    memset(table, 0xAA, sizeof table);
    feshangul_put_arc(table, 0, 1, FESHANGUL_SPAN_UNKNOWN, 5, 0);
    feshangul_put_arc(table + FESHANGUL_ARC_BYTES, 0, 1, FESHANGUL_SPAN_MAX, 5, 0);
    feshangul_put_arc(table + 2 * FESHANGUL_ARC_BYTES, 0, 1, 258, 5, 0);
    HOLD(feshangul_span(table, 0) == FESHANGUL_SPAN_UNKNOWN);
    HOLD(feshangul_span(table, 1) == FESHANGUL_SPAN_MAX && table[FESHANGUL_ARC_BYTES] == 0);
    HOLD(feshangul_span(table, 2) == 258);

    /* 65,536 is no number of a span: it must not come out as one that is not known. */
    feshangul_put_arc(table, 0, 1, FESHANGUL_SPAN_MAX + 1, 5, 0);
    HOLD(table[FESHANGUL_ARC_TAIL] == 255);
}

static void test_closed(void)
{
    uint8_t closed[FESHANGUL_CLOSED_BYTES + 1] = { 0 };

    HOLD(FESHANGUL_CLOSED_BYTES * 8 == FESHANGUL_ARCS_MAX);
    feshangul_close(closed, 0);
    feshangul_close(closed, 11);
    feshangul_close(closed, FESHANGUL_ARCS_MAX - 1);
    feshangul_close(closed, 11); /* closed already */
    HOLD(closed[0] == 1 && closed[1] == 8 && closed[FESHANGUL_CLOSED_BYTES - 1] == 0x80);
    HOLD(closed[FESHANGUL_CLOSED_BYTES] == 0);
    uint32_t count = 0;
    for (uint32_t arc = 0; arc < FESHANGUL_ARCS_MAX; arc++)
        count += feshangul_is_closed(closed, arc);
    HOLD(count == 3 && feshangul_is_closed(closed, 11) && !feshangul_is_closed(closed, 12));
}

static void test_numbers(void)
{
    HOLD(feshangul_reason(FESHANGUL_CLOSED_FAULT) == FESHANGUL_CLOSED_FAULT);
    HOLD(feshangul_reason(FESHANGUL_STOPPED) == FESHANGUL_STOPPED);
    HOLD(feshangul_reason(FESHANGUL_NO_ROUTE) == FESHANGUL_NO_ROUTE);
    HOLD(feshangul_reason(FESHANGUL_NONE_APART) == 14 && feshangul_reason(FESHANGUL_NONE_APART_YET) == 15);
    HOLD(feshangul_reason(20) == FESHANGUL_ARC_NODE_RANGE && feshangul_faulty_arc(20) == 0);
    HOLD(feshangul_reason(277) == FESHANGUL_ARC_ENDS_EQUAL && feshangul_faulty_arc(277) == 1);
    HOLD(feshangul_reason(5398) == FESHANGUL_ARC_METRES_RANGE && feshangul_faulty_arc(5398) == 21);
    HOLD(feshangul_reason(280) == FESHANGUL_ARC_RISKS_BLANK && feshangul_faulty_arc(280) == 1);
    HOLD(feshangul_reason(32534) == FESHANGUL_ARC_METRES_RANGE && feshangul_faulty_arc(32534) == FESHANGUL_ARCS_MAX - 1);
}

static void test_reply(void)
{
    uint8_t reply[FESHANGUL_REPLY_BYTES];

    for (unsigned place = 0; place < sizeof reply; place++)
        reply[place] = (uint8_t)place;
    HOLD(feshangul_verdict(reply) == 0 && feshangul_shared(reply) == 1 && feshangul_floor(reply) == 2);
    HOLD(feshangul_main_arcs(reply) == 3 && feshangul_standby_arcs(reply) == 4);
    HOLD(feshangul_shared_spans(reply) == 5);
    HOLD(feshangul_ranked(reply) == 0x0b0a0908u);
    HOLD(feshangul_main_metres(reply) == 0x0f0e0d0cu && feshangul_standby_metres(reply) == 0x13121110u);
    HOLD(feshangul_shared_risks(reply) == UINT64_C(0x1f1e1d1c1b1a1918));
    HOLD(feshangul_main_arc(reply, 0) == 32 && feshangul_main_arc(reply, 30) == 62);
    HOLD(feshangul_standby_arc(reply, 0) == 64 && feshangul_standby_arc(reply, 30) == 94);
}

static void test_changes(void)
{
    /* Of ten arcs 0, 3, 4 and 9 are lost. Arc 5 has a new number, as in lists of 0.4.0, and moves nothing. */
    static const uint8_t list[5 * FESHANGUL_CHANGE_BYTES] = {
        0, 0, FESHANGUL_LOST_NODE, 0, 255, 255, 0, 0, 0, 0, 0, 0, 0, 0, 0, 0,
        3, 0, FESHANGUL_LOST_ENDS, 0, 255, 255, 0, 0, 0, 0, 0, 0, 0, 0, 0, 0,
        4, 0, FESHANGUL_LOST_LENGTH, 0, 255, 255, 0, 0, 0, 0, 0, 0, 0, 0, 0, 0,
        5, 0, 4, 0, 2, 0, 0, 0, 0, 0, 0, 0, 0, 0, 0, 0,
        9, 0, FESHANGUL_LOST_TORN, 0, 255, 255, 0, 0, 0, 0, 0, 0, 0, 0, 0, 0,
    };
    static const uint32_t old[] = { 1, 2, 5, 6, 7, 8 };
    static const uint8_t wide[FESHANGUL_CHANGE_BYTES] = { 1, 2, 3, 9, 4, 5, 9 };

    for (uint32_t arc = 0; arc < sizeof old / sizeof old[0]; arc++)
        HOLD(feshangul_old_arc(list, sizeof list, arc) == old[arc]);
    HOLD(feshangul_old_arc(list, 0, 7) == 7);
    HOLD(feshangul_change_new(list) == FESHANGUL_LOST);
    HOLD(feshangul_change_old(wide) == 0x0201u && feshangul_change_reason(wide) == 3);
    HOLD(feshangul_change_new(wide) == 0x0504u);
}

static void test_limits(void)
{
    HOLD(FESHANGUL_ROUTE_ARCS_MAX == FESHANGUL_NODE_MAX);
    HOLD(FESHANGUL_SHARED_MAX == FESHANGUL_RISK_MAX + 1 + FESHANGUL_ROUTE_ARCS_MAX);
    HOLD(FESHANGUL_TABLE_BYTES_MAX == FESHANGUL_ARCS_MAX * FESHANGUL_ARC_BYTES);
}

static void test_version(void)
{
    unsigned first, second, third;

    HOLD(sscanf(FESHANGUL_VERSION, "%u.%u.%u", &first, &second, &third) == 3);
    HOLD(first * 10000 + second * 100 + third == FESHANGUL_VERSION_NUMBER);
}

int main(void)
{
    test_arcs();
    test_spans();
    test_closed();
    test_numbers();
    test_reply();
    test_changes();
    test_limits();
    test_version();
    return 0;
}
