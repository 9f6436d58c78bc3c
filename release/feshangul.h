/* Feshangul: two fibre routes, a main and a standby, that share as few risks and spans as possible, at the least total
 * length.
 *
 * This header is all that a C or C++ host includes. Fill a span table, call feshangul_plan, look at the number it
 * returns, and where that is 0 or 1 read the reply with the functions at the end. host/example.c does just that.
 * A table from the field that may be faulty goes through feshangul_mend first; spans that are closed for works are
 * planned around with feshangul_plan_around; two routes that meet in no building but the two ends are planned with
 * feshangul_plan_apart.
 *
 * Linux on x86-64. Link with `pkg-config --cflags --libs feshangul`, or this header's folder and libfeshangul.a; the
 * library needs memcpy and memset of its host and nothing else.
 *
 * A route is a list of arcs, each beginning where the one before ends, that meets no node twice. Routes are ranked
 * by length, equal lengths by the first arc number that differs. The main and the standby may be the same route. What
 * they share is each risk on both, and each span that both cross, as far as the table says which span an arc lies in.
 *
 * docs/FORMATS.md has the records of table and reply byte by byte, and when each number is returned.
 */
#ifndef FESHANGUL_H
#define FESHANGUL_H

#include <stddef.h>
#include <stdint.h>

#ifdef __cplusplus
extern "C" {
#endif

#define FESHANGUL_VERSION "0.9.0"
#define FESHANGUL_VERSION_NUMBER 900u    /* 10,000 times the first part, and 100 times the second, and the third */

/* ---- Sizes and limits ------------------------------------------------------------------------------------- */

#define FESHANGUL_ARC_BYTES 16u          /* one arc's record in the table */
#define FESHANGUL_ARCS_MAX 128u          /* arcs in a table; none is allowed too */
#define FESHANGUL_TABLE_BYTES_MAX 2048u  /* FESHANGUL_ARCS_MAX records */
#define FESHANGUL_CLOSED_BYTES 16u       /* a closed set: one bit for each of FESHANGUL_ARCS_MAX arcs */
#define FESHANGUL_REPLY_BYTES 96u        /* the reply record; a longer buffer keeps its bytes from 96 on */
#define FESHANGUL_NODE_MAX 31u           /* nodes are 0 to 31 */
#define FESHANGUL_RISK_MAX 63u           /* risks are 0 to 63 */
#define FESHANGUL_SPAN_MAX 65535u        /* spans are 1 to 65,535 */
#define FESHANGUL_SPAN_UNKNOWN 0u        /* stands for a span that is not known */
#define FESHANGUL_ROUTE_ARCS_MAX 31u     /* 32 nodes, none met twice */
#define FESHANGUL_SHARED_MAX 95u         /* 64 risks, and 31 spans */
#define FESHANGUL_ARC_METRES_MAX 2000000u
#define FESHANGUL_REACH_MAX 62000000u    /* 31 arcs of 2,000,000 metres: no route is longer */
#define FESHANGUL_ALLOWANCE_MAX 1000000u
#define FESHANGUL_MEND_BYTES_MAX 4096u   /* the longest table that is mended */
#define FESHANGUL_CHANGE_BYTES 16u       /* one record of the list of what is lost */
#define FESHANGUL_STACK_BYTES 24576u     /* stack to have left for a call; the most measured is 19,273 */

/* ---- The span table ---------------------------------------------------------------------------------------
 *
 * One record for each arc, arc 0 first, none between or before them. Where a field begins, from the record's first
 * byte; docs/FORMATS.md says what each holds; feshangul_put_arc writes one.
 *
 * Give both directions of a span, and all cables in one trench, the same span number: arcs of equal numbers lie in one
 * span, wherever they stand in the table. FESHANGUL_SPAN_UNKNOWN counts for no span, not even on an arc that both
 * routes take, so a pair looks safer than it is where a number is left out.
 *
 * An arc of more than 0 metres has a risk listed, whatever its span number: a blank is refused with
 * FESHANGUL_ARC_RISKS_BLANK. An arc of 0 metres, a patch inside a building, may have none. */
#define FESHANGUL_ARC_TAIL 0u
#define FESHANGUL_ARC_HEAD 1u
#define FESHANGUL_ARC_SPAN 2u
#define FESHANGUL_ARC_METRES 4u
#define FESHANGUL_ARC_RISKS 8u

/* ---- The planner ------------------------------------------------------------------------------------------ */

/* Plans a pair of routes from `source` to `terminal`, and returns one of the numbers below, with 256 times the arc's
 * number added where it is about an arc.
 *
 * table, table_len   the span table; only read. NULL with 0 is an empty table.
 * reply, reply_len   where the reply record goes, at least 96 bytes, not overlapping the table. With 0 or 1 its
 *                    first 96 bytes are written and no others; with any other number none is.
 * source, terminal   the two end nodes, 0 to 31, not equal.
 * reach              how long a route may be, in metres, 0 to 62,000,000; the latter sets no limit, since 31 arcs,
 *                    the most that a route can have, are no longer.
 * allowance          how many mains may be tried, in order of rank, 1 to 1,000,000. The standby may be any route.
 *
 * Neither pointer needs any alignment. There is no state, none is kept between calls, and nothing is allocated: any
 * number of threads may call at once, each with a reply buffer of its own and FESHANGUL_STACK_BYTES of stack left. */
uint32_t feshangul_plan(const uint8_t *table, size_t table_len, uint8_t *reply, size_t reply_len, uint32_t source,
                        uint32_t terminal, uint32_t reach, uint32_t allowance);

/* Plans as feshangul_plan does, over open arcs alone: a closed arc lies on no route and gives no distance. Arcs keep
 * their numbers, so nothing of the table is edited when a span is closed for works; close both directions of it, and
 * every cable in its trench. A set that closes nothing gives what feshangul_plan gives, number and bytes; so does one
 * that closes only arcs that lie on no route within the reach.
 *
 * closed, closed_len   FESHANGUL_CLOSED_BYTES bytes, bit k % 8 of byte k / 8 set when arc k is closed; only read, and
 *                      not overlapping the reply. feshangul_close sets a bit. Bits at or past the table's number of
 *                      arcs have to be 0.
 *
 * All else is as for feshangul_plan. Closed arcs are checked for faults and for blanks like open ones. */
uint32_t feshangul_plan_around(const uint8_t *table, size_t table_len, const uint8_t *closed, size_t closed_len,
                               uint8_t *reply, size_t reply_len, uint32_t source, uint32_t terminal, uint32_t reach,
                               uint32_t allowance);

/* Plans as feshangul_plan_around does, among pairs that are apart: main and standby have only the two end nodes in
 * common, and no arc. For buyers who want no building on both routes; a route is never its own standby here. Two cables
 * between the same two nodes are two arcs, so a pair of one cable each from `source` to `terminal` is apart, and where
 * both lie in one span that span is shared. The rest is judged among such pairs alone, but for the floor, which is that
 * of all routes: a pair apart may have to share more, and is then settled only once every route has been tried.
 *
 * Where some route is within the reach and no such pair has its main within the allowance, the number returned is
 * FESHANGUL_NONE_APART where the allowance reaches the number of routes, and FESHANGUL_NONE_APART_YET where it does not.
 * Where the pair of feshangul_plan_around is apart, both give the same number and bytes.
 *
 * All else is as for feshangul_plan_around; a closed set of zeros closes nothing. */
uint32_t feshangul_plan_apart(const uint8_t *table, size_t table_len, const uint8_t *closed, size_t closed_len,
                              uint8_t *reply, size_t reply_len, uint32_t source, uint32_t terminal, uint32_t reach,
                              uint32_t allowance);

/* ---- The mender ------------------------------------------------------------------------------------------- */

typedef struct {
    uint32_t number;    /* 0, or the number of a refusal: then both lengths are 0 and nothing was written */
    uint32_t table_len; /* bytes of the mended table, a multiple of FESHANGUL_ARC_BYTES, at most 2,048 */
    uint32_t list_len;  /* bytes of the list, a multiple of FESHANGUL_CHANGE_BYTES; 0 exactly for a clean input */
} feshangul_mended;

/* Mends a table from the field: writes the table that is left once every arc with a bad node, equal ends or a bad
 * length, every arc past 128 kept ones and a torn end are taken out, each kept record as it was; and the list of what
 * is lost. A clean table comes out as it is, with an empty list, and so does a mended one. feshangul_plan refuses a
 * mended table for none of its bytes, but for a blank: an arc with no risk listed is left as it was, for a person.
 *
 * input, input_len    the table from the field, up to FESHANGUL_MEND_BYTES_MAX; only read. NULL with 0 is an empty one.
 * table, table_size   where the mended table goes, and
 * list, list_size     where the list goes: each at least as many bytes as the input has, rounded up to 16. Bytes behind
 *                     the two lengths stay as they were. No two of the three buffers overlap.
 *
 * Numbers: 0; FESHANGUL_TABLE_LONG where the input is over FESHANGUL_MEND_BYTES_MAX; else FESHANGUL_OUTPUT_SHORT. What
 * feshangul_plan says of alignment, state and threads holds here too. */
feshangul_mended feshangul_mend(const uint8_t *input, size_t input_len, uint8_t *table, size_t table_size,
                                uint8_t *list, size_t list_size);

/* The list has one record for each arc that is lost and one for a torn end, by rising old number. Where a field of it
 * begins; the bytes between and behind them are zero. */
#define FESHANGUL_CHANGE_OLD 0u     /* the arc's number in the input; a torn end counts as the arc it would have been */
#define FESHANGUL_CHANGE_REASON 2u  /* one byte, one of those below */
#define FESHANGUL_CHANGE_NEW 4u     /* FESHANGUL_LOST in each record: a kept arc stands in none, also where it shifts */
#define FESHANGUL_LOST 65535u

/* Why, of several reasons the first: ask the operator. 4 has ended and is given to nothing else: it was for a kept arc
 * whose bytes 2 and 3 were made zero, and they are its span's number now. */
#define FESHANGUL_LOST_NODE 1u    /* its tail or head is no node */
#define FESHANGUL_LOST_ENDS 2u    /* its tail equals its head */
#define FESHANGUL_LOST_LENGTH 3u  /* it is longer than FESHANGUL_ARC_METRES_MAX */
#define FESHANGUL_LOST_PAST 5u    /* it has no such fault, and FESHANGUL_ARCS_MAX are kept before it */
#define FESHANGUL_LOST_TORN 6u    /* the input's last bytes are no whole record */

/* ---- Numbers returned, and what to do on each --------------------------------------------------------------
 *
 * With 0 and 1 a reply is written. All others are refusals: nothing was planned and the reply buffer is as it was.
 * What is wrong with an arc comes as its number, 20 to 22 or 24, plus 256 times the number of the arc: take a number
 * apart with the two functions below. Of several faults the first is told, in the order in which they stand here, so
 * mend it and ask again; of several faulty arcs the lowest, with the first of its faults; where no arc is faulty, of
 * several with no risk listed the lowest. Take what is not listed here as a refusal.
 *
 * 9, 11 and 23 have ended and are given to nothing else: 9 was for any fault of any arc, 11 for a route of over
 * 62,000,000 m, and there is none, and 23 for bytes 2 and 3 of an arc, which may hold any number now. */

/* Why: one of the numbers below, which is the number itself where it is about no arc. */
static inline uint32_t feshangul_reason(uint32_t number) { return number % 256u; }

/* Which arc, with a reason of 20 to 22 or 24: its record begins FESHANGUL_ARC_BYTES times this from the table's
 * beginning. */
static inline uint32_t feshangul_faulty_arc(uint32_t number) { return number / 256u; }

/* Settled. Use the pair: it is the first of all pairs of routes, and a larger allowance gives the same reply. Of
 * feshangul_plan_apart: the first of all that are apart. */
#define FESHANGUL_SETTLED 0u

/* Stopped. The allowance ended before the pair could be called final; it is the first of the pairs whose main was
 * tried, of feshangul_plan_apart of those that are apart. Use it as it is, or ask again with a larger allowance: that
 * never gives a worse pair. */
#define FESHANGUL_STOPPED 1u

/* The table is too long. Leave out arcs that cannot matter, so that FESHANGUL_ARCS_MAX remain. Of feshangul_mend: the
 * input is over FESHANGUL_MEND_BYTES_MAX; ask the operator what it is, since no table of ours is nearly as long. */
#define FESHANGUL_TABLE_LONG 2u

/* The table is no whole number of arcs. It was cut off or padded on its way: load it again. */
#define FESHANGUL_TABLE_TORN 3u

/* The reply buffer is too short. A fault of the host: lend FESHANGUL_REPLY_BYTES or more. */
#define FESHANGUL_REPLY_SHORT 4u

/* Source or terminal is no node. Mend the request. */
#define FESHANGUL_END_RANGE 5u

/* Source equals terminal. Ask for two different nodes. */
#define FESHANGUL_ENDS_EQUAL 6u

/* The reach is too far. Give FESHANGUL_REACH_MAX where no limit is meant. */
#define FESHANGUL_REACH_RANGE 7u

/* The allowance is none, or too large. Give FESHANGUL_ALLOWANCE_MAX where all mains are meant. */
#define FESHANGUL_ALLOWANCE_RANGE 8u

/* The arc's tail or head is no node, 0 to FESHANGUL_NODE_MAX. Give its ends numbers in that range; 255 is what
 * feshangul_put_arc writes for a node that does not fit its byte, and for the tail where the span does not fit. */
#define FESHANGUL_ARC_NODE_RANGE 20u

/* The arc's tail equals its head. Mend one of them, or leave the arc out; that shifts the numbers of those behind it. */
#define FESHANGUL_ARC_ENDS_EQUAL 21u

/* The arc is longer than FESHANGUL_ARC_METRES_MAX. See whether its length was given in metres; an arc that is truly
 * longer cannot be planned with, unless as several in a row. */
#define FESHANGUL_ARC_METRES_RANGE 22u

/* The arc is longer than 0 metres and no risk is listed for it, though no arc has a fault; planned with, it would look
 * separate from everything. Ask whoever runs the span which ducts, bridges, buildings and rivers it goes through, and
 * list them; look at all arcs at once, since only the lowest is named. Where it truly shares nothing with any other
 * span, give it a risk of its own. Do not invent one, or 0 metres, to get a pair out: what the planner does not know it
 * cannot keep apart. A span number does not stand for a risk; closing the arc does not help, and feshangul_mend leaves
 * it as it is. */
#define FESHANGUL_ARC_RISKS_BLANK 24u

/* Never returned by feshangul_plan: the closed set is not FESHANGUL_CLOSED_BYTES long, or closes an arc that the table
 * does not have. See whether it was made for another table, or before arcs were taken out of this one. */
#define FESHANGUL_CLOSED_FAULT 16u

/* No route leads from source to terminal within the reach, over open arcs. Tell the customer, or ask with a larger
 * reach. */
#define FESHANGUL_NO_ROUTE 10u

/* Only returned by feshangul_plan_apart: no two routes within the reach are apart, and the allowance reaches the number
 * of routes, so no larger one changes this. Tell the customer, who may take the pair of feshangul_plan_around, or ask
 * with a larger reach. A node on every route is one without which there is no route: close all arcs into it and ask
 * feshangul_plan_around, which then returns FESHANGUL_NO_ROUTE. */
#define FESHANGUL_NONE_APART 14u

/* Only returned by feshangul_plan_apart: none of the mains that the allowance let it try has a standby apart, and there
 * are more routes than that. Ask again with a larger allowance: that gives a pair, FESHANGUL_NONE_APART or this again;
 * from the number of routes on it is no longer this. */
#define FESHANGUL_NONE_APART_YET 15u

/* Only printed by the program `routes`, never returned by a call: its input does not begin with a request.
 * Mend whatever wrote the input. */
#define FESHANGUL_INPUT_FAULT 12u

/* Only returned by feshangul_mend: one of its two outputs is too short. A fault of the host: lend as many bytes as the
 * input has, rounded up to a multiple of 16; FESHANGUL_MEND_BYTES_MAX are always enough. */
#define FESHANGUL_OUTPUT_SHORT 13u

/* ---- The reply record -------------------------------------------------------------------------------------
 *
 * Where a field begins; docs/FORMATS.md says what each holds. The functions at the end read them. */
#define FESHANGUL_REPLY_VERDICT 0u
#define FESHANGUL_REPLY_SHARED 1u
#define FESHANGUL_REPLY_FLOOR 2u
#define FESHANGUL_REPLY_MAIN_ARCS 3u
#define FESHANGUL_REPLY_STANDBY_ARCS 4u
#define FESHANGUL_REPLY_SHARED_SPANS 5u
#define FESHANGUL_REPLY_RANKED 8u
#define FESHANGUL_REPLY_MAIN_METRES 12u
#define FESHANGUL_REPLY_STANDBY_METRES 16u
#define FESHANGUL_REPLY_SHARED_RISKS 24u
#define FESHANGUL_REPLY_MAIN 32u
#define FESHANGUL_REPLY_STANDBY 64u
#define FESHANGUL_NO_ARC 255u            /* stands behind a route's last arc number */

/* ---- Numbers in bytes, little-endian whatever the host's own order ------------------------------------------ */

static inline uint32_t feshangul_u16(const uint8_t *at) { return (uint32_t)at[0] | (uint32_t)at[1] << 8; }

static inline uint32_t feshangul_u32(const uint8_t *at)
{
    return (uint32_t)at[0] | (uint32_t)at[1] << 8 | (uint32_t)at[2] << 16 | (uint32_t)at[3] << 24;
}

static inline uint64_t feshangul_u64(const uint8_t *at)
{
    return (uint64_t)feshangul_u32(at) | (uint64_t)feshangul_u32(at + 4) << 32;
}

static inline void feshangul_put_u16(uint8_t *at, uint32_t number)
{
    at[0] = (uint8_t)number;
    at[1] = (uint8_t)(number >> 8);
}

static inline void feshangul_put_u32(uint8_t *at, uint32_t number)
{
    for (int byte = 0; byte < 4; byte++)
        at[byte] = (uint8_t)(number >> 8 * byte);
}

static inline void feshangul_put_u64(uint8_t *at, uint64_t number)
{
    feshangul_put_u32(at, (uint32_t)number);
    feshangul_put_u32(at + 4, (uint32_t)(number >> 32));
}

/* ---- A writer of arcs, and a reader of their spans ------------------------------------------------------------ */

/* Writes one arc, FESHANGUL_ARC_BYTES from `record` on: from node `tail` to node `head`, in span `span`, `metres` long,
 * with bit r of `risks` set when risk r touches it. A node that does not fit its byte is written as 255, which the
 * planner refuses. Of a span every number that fits is one, so where it is over FESHANGUL_SPAN_MAX the tail is 255. */
static inline void feshangul_put_arc(uint8_t *record, uint32_t tail, uint32_t head, uint32_t span, uint32_t metres,
                                     uint64_t risks)
{
    record[FESHANGUL_ARC_TAIL] = (uint8_t)(tail > 255 || span > FESHANGUL_SPAN_MAX ? 255 : tail);
    record[FESHANGUL_ARC_HEAD] = (uint8_t)(head > 255 ? 255 : head);
    feshangul_put_u16(record + FESHANGUL_ARC_SPAN, span);
    feshangul_put_u32(record + FESHANGUL_ARC_METRES, metres);
    feshangul_put_u64(record + FESHANGUL_ARC_RISKS, risks);
}

/* The span number of arc number `arc` of a table, or FESHANGUL_SPAN_UNKNOWN. */
static inline uint32_t feshangul_span(const uint8_t *table, uint32_t arc)
{
    return feshangul_u16(table + arc * FESHANGUL_ARC_BYTES + FESHANGUL_ARC_SPAN);
}

/* ---- A writer and a reader of closed sets --------------------------------------------------------------------
 *
 * A set begins as FESHANGUL_CLOSED_BYTES zeros, which close nothing. `arc` is at most FESHANGUL_ARCS_MAX - 1. */

static inline void feshangul_close(uint8_t *closed, uint32_t arc)
{
    closed[arc / 8] = (uint8_t)(closed[arc / 8] | 1u << arc % 8);
}

/* 1 where the set closes the arc, else 0 */
static inline uint32_t feshangul_is_closed(const uint8_t *closed, uint32_t arc)
{
    return (uint32_t)closed[arc / 8] >> arc % 8 & 1u;
}

/* ---- Readers of a reply -------------------------------------------------------------------------------------
 *
 * Each takes the buffer that feshangul_plan, feshangul_plan_around or feshangul_plan_apart has written with number 0
 * or 1. */

/* FESHANGUL_SETTLED or FESHANGUL_STOPPED */
static inline uint32_t feshangul_verdict(const uint8_t *reply) { return reply[FESHANGUL_REPLY_VERDICT]; }

/* how many risks and spans both routes share, at most FESHANGUL_SHARED_MAX */
static inline uint32_t feshangul_shared(const uint8_t *reply) { return reply[FESHANGUL_REPLY_SHARED]; }

/* how many risks and spans are on every route within the reach: no pair shares fewer */
static inline uint32_t feshangul_floor(const uint8_t *reply) { return reply[FESHANGUL_REPLY_FLOOR]; }

/* how many of those that both routes share are spans; host/example.c tells which */
static inline uint32_t feshangul_shared_spans(const uint8_t *reply) { return reply[FESHANGUL_REPLY_SHARED_SPANS]; }

static inline uint32_t feshangul_main_arcs(const uint8_t *reply) { return reply[FESHANGUL_REPLY_MAIN_ARCS]; }

static inline uint32_t feshangul_standby_arcs(const uint8_t *reply) { return reply[FESHANGUL_REPLY_STANDBY_ARCS]; }

static inline uint32_t feshangul_ranked(const uint8_t *reply) { return feshangul_u32(reply + FESHANGUL_REPLY_RANKED); }

static inline uint32_t feshangul_main_metres(const uint8_t *reply)
{
    return feshangul_u32(reply + FESHANGUL_REPLY_MAIN_METRES);
}

static inline uint32_t feshangul_standby_metres(const uint8_t *reply)
{
    return feshangul_u32(reply + FESHANGUL_REPLY_STANDBY_METRES);
}

/* bit r is set when both routes share risk r */
static inline uint64_t feshangul_shared_risks(const uint8_t *reply)
{
    return feshangul_u64(reply + FESHANGUL_REPLY_SHARED_RISKS);
}

/* The arc number at `place` of the main, from 0 at the source; `place` is below feshangul_main_arcs. */
static inline uint32_t feshangul_main_arc(const uint8_t *reply, uint32_t place)
{
    return reply[FESHANGUL_REPLY_MAIN + place];
}

/* The arc number at `place` of the standby, from 0 at the source; `place` is below feshangul_standby_arcs. */
static inline uint32_t feshangul_standby_arc(const uint8_t *reply, uint32_t place)
{
    return reply[FESHANGUL_REPLY_STANDBY + place];
}

/* ---- Readers of a list of changes ---------------------------------------------------------------------------
 *
 * `change` is one record of the list that feshangul_mend has written, the first at its beginning. */

static inline uint32_t feshangul_change_old(const uint8_t *change)
{
    return feshangul_u16(change + FESHANGUL_CHANGE_OLD);
}

static inline uint32_t feshangul_change_reason(const uint8_t *change) { return change[FESHANGUL_CHANGE_REASON]; }

/* FESHANGUL_LOST where the arc is lost */
static inline uint32_t feshangul_change_new(const uint8_t *change)
{
    return feshangul_u16(change + FESHANGUL_CHANGE_NEW);
}

/* The number that arc `arc` of the mended table had in the input: each one lost at or before it puts it one further. */
static inline uint32_t feshangul_old_arc(const uint8_t *list, uint32_t list_len, uint32_t arc)
{
    for (uint32_t at = 0; at + FESHANGUL_CHANGE_BYTES <= list_len; at += FESHANGUL_CHANGE_BYTES)
        if (feshangul_change_new(list + at) == FESHANGUL_LOST && feshangul_change_old(list + at) <= arc)
            arc++;
    return arc;
}

#ifdef __cplusplus
}
#endif

#endif
