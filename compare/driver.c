/* Calls the library on cases from standard input and writes its answers to standard output.
 *
 * A case: 32-bit little-endian numbers, then the bytes of each of its inputs. The first number is the kind: 0 is a
 * plan, and table length, reply length, source, terminal, reach and allowance follow; 1 is a mend, and input length,
 * table size and list size follow; 2 is a plan around closed arcs, and the same follows as for a plan, with the closed
 * set's length behind the table's; 3 is a plan of a pair apart, and the same follows as for 2. An answer: the numbers
 * returned, 32 bits each (one by a plan of any kind; number, table length and list length by a mend), then each whole
 * output buffer as the call left it. An answer is flushed before the next case is read, so a reader who misses one
 * knows which case ended the driver.
 *
 * Each case is called in three rounds: with each buffer ending exactly at a page without access, with each beginning
 * exactly after one, and with each at an odd address, or NULL where it is empty. One byte read or written outside them
 * then ends the driver with a message, and so does a changed byte of an input or of the guard on a buffer's open side.
 * Outputs are filled before each call, not alike in all rounds; each byte of them must come out the same in every
 * round, or untouched in every round. The driver knows nothing else of the rules: its reader judges.
 *
 * Each call runs on a stack of the size that the header tells a host to have left, with a page without access below it,
 * so one that needs more ends the driver; how much was ever used is told at the end. */
#define _DEFAULT_SOURCE
#include "feshangul.h"

#include <signal.h>
#include <stdio.h>
#include <stdlib.h>
#include <string.h>
#include <sys/mman.h>
#include <ucontext.h>
#include <unistd.h>

enum {
    EDGE = 65536,       /* bytes without access on each side: a multiple of every page size in use */
    MOST = 131072,      /* bytes that a buffer may have */
    GUARD = 4096,       /* bytes watched on a buffer's open side */
    ROOM = MOST + EDGE, /* a buffer and its guard, in whole pages */
    GUARD_BYTE = 0xC3,
    STACK = FESHANGUL_STACK_BYTES, /* bytes of stack that a call may use: what the header tells a host to have left */
    STACK_BYTE = 0x5A,
    SECONDS = 120       /* for one call; meshes that can be listed take far less than one */
};

/* The most that a case of any kind has. */
enum { BUFFERS = 3, FIELDS = 7, NUMBERS = 3 };

enum round { ENDING, BEGINNING, ODD, ROUNDS };

static const char *const round_words[ROUNDS] = {
    "buffers ending at a page without access",
    "buffers beginning after a page without access",
    "buffers at odd addresses, NULL for what is empty",
};

struct buffer {
    uint8_t *room;       /* where it is placed */
    uint8_t *at;         /* its place in this round */
    uint32_t length;
    uint8_t bytes[MOST]; /* of an input, those that were read; of an output, those that the first round left */
};

/* The case at hand. */
static struct buffer buffers[BUFFERS]; /* the inputs, then the outputs */
static uint32_t fields[FIELDS];        /* the lengths of the buffers, then what else the call is given */
static uint32_t numbers[NUMBERS];      /* what the call returned */

static void plan(void)
{
    const struct buffer *table = &buffers[0], *reply = &buffers[1];

    numbers[0] = feshangul_plan(table->at, table->length, reply->at, reply->length, fields[2], fields[3], fields[4],
                                fields[5]);
}

static void mend(void)
{
    const struct buffer *input = &buffers[0], *table = &buffers[1], *list = &buffers[2];
    feshangul_mended mended = feshangul_mend(input->at, input->length, table->at, table->length, list->at,
                                             list->length);

    numbers[0] = mended.number;
    numbers[1] = mended.table_len;
    numbers[2] = mended.list_len;
}

static void plan_around(void)
{
    const struct buffer *table = &buffers[0], *closed = &buffers[1], *reply = &buffers[2];

    numbers[0] = feshangul_plan_around(table->at, table->length, closed->at, closed->length, reply->at, reply->length,
                                       fields[3], fields[4], fields[5], fields[6]);
}

static void plan_apart(void)
{
    const struct buffer *table = &buffers[0], *closed = &buffers[1], *reply = &buffers[2];

    numbers[0] = feshangul_plan_apart(table->at, table->length, closed->at, closed->length, reply->at, reply->length,
                                      fields[3], fields[4], fields[5], fields[6]);
}

enum { PLAN, MEND, AROUND, APART, KINDS };

static const struct kind {
    size_t inputs, buffers, fields, numbers; /* how many it has; the inputs are among the buffers */
    const char *names[BUFFERS];              /* of its buffers, for messages */
    void (*call)(void);
} kinds[KINDS] = {
    [PLAN] = { 1, 2, 6, 1, { "the table", "the reply" }, plan },
    [MEND] = { 1, 3, 3, 3, { "the input", "the table", "the list" }, mend },
    [AROUND] = { 2, 3, 7, 1, { "the table", "the closed set", "the reply" }, plan_around },
    [APART] = { 2, 3, 7, 1, { "the table", "the closed set", "the reply" }, plan_apart },
};

static const struct kind *kind; /* of the case at hand */

static uint8_t *stack_room;
static unsigned long cases, of_kind[KINDS], calls, null_calls;
static enum round current; /* for messages */

static void stop(const char *which, const char *what)
{
    fprintf(stderr, "driver: case %lu, %s: %s %s\n", cases, round_words[current], which, what);
    exit(3);
}

/* Uses no stream: the signal may have come from inside one. */
static void stop_at_signal(int number)
{
    const char *what = number == SIGALRM ? "the call does not end" : "a byte outside was touched, or worse";
    char line[200];
    int length = snprintf(line, sizeof line, "driver: case %lu, %s: %s (signal %d)\n", cases, round_words[current],
                          what, number);

    _exit(write(STDERR_FILENO, line, (size_t)length) == length ? 3 : 4);
}

/* On a stack of its own, since a call may have run out of its stack. */
static void watch_signals(void)
{
    static const int signals[] = { SIGSEGV, SIGBUS, SIGILL, SIGFPE, SIGABRT, SIGALRM };
    static uint8_t room[65536];
    stack_t stack = { .ss_sp = room, .ss_size = sizeof room };
    struct sigaction action = { .sa_handler = stop_at_signal, .sa_flags = SA_ONSTACK };

    if (sigaltstack(&stack, NULL) != 0)
        stop("a stack for signals", "is not to be had");
    for (size_t i = 0; i < sizeof signals / sizeof signals[0]; i++)
        sigaction(signals[i], &action, NULL);
}

/* ROOM bytes with EDGE bytes without access before and after them. */
static uint8_t *fenced_room(void)
{
    uint8_t *all = mmap(NULL, EDGE + ROOM + 2 * EDGE, PROT_NONE, MAP_PRIVATE | MAP_ANONYMOUS, -1, 0);
    if (all == MAP_FAILED)
        stop("memory", "is not to be had");
    uint8_t *room = all + EDGE + (EDGE - (uintptr_t)all % EDGE) % EDGE;
    if (mprotect(room, ROOM, PROT_READ | PROT_WRITE) != 0)
        stop("access to memory", "is not to be had");
    return room;
}

static uint8_t *placed(const struct buffer *b, enum round round)
{
    switch (round) {
    case ENDING: return b->room + ROOM - b->length;
    case BEGINNING: return b->room;
    default: return b->length == 0 ? NULL : b->room + 1;
    }
}

/* The GUARD bytes beside a buffer where access goes on; behind it at an odd address. */
static uint8_t *guard_beside(const struct buffer *b, enum round round)
{
    switch (round) {
    case ENDING: return b->room + ROOM - b->length - GUARD;
    case BEGINNING: return b->room + b->length;
    default: return b->room + 1 + b->length;
    }
}

/* What stands at a place of an output before the call: bytes that no count, reason or spare byte of an output has, and
 * no arc number of a reply, so that one left unwritten shows; and their opposites in the second round, so that it shows
 * by that, too. */
static uint8_t filling(uint32_t place, enum round round)
{
    uint8_t byte = (uint8_t)(128 + place % 127);

    return round == BEGINNING ? (uint8_t)~byte : byte;
}

static void lend(size_t which, enum round round)
{
    struct buffer *b = &buffers[which];
    int is_input = which < kind->inputs;

    b->at = placed(b, round);
    for (uint32_t place = 0; place < b->length; place++)
        b->at[place] = is_input ? b->bytes[place] : filling(place, round);
    memset(guard_beside(b, round), GUARD_BYTE, GUARD);
}

static void hold_guard(size_t which, enum round round)
{
    const uint8_t *guard = guard_beside(&buffers[which], round);

    for (size_t i = 0; i < GUARD; i++)
        if (guard[i] != GUARD_BYTE)
            stop(kind->names[which], "has a byte beside it that was written");
}

static void hold_input(size_t which)
{
    const struct buffer *input = &buffers[which];

    if (input->length != 0 && memcmp(input->at, input->bytes, input->length) != 0)
        stop(kind->names[which], "was written to");
}

static void call_on_small_stack(void)
{
    static ucontext_t there, back;

    if (getcontext(&there) != 0)
        stop("a context for the call", "is not to be had");
    there.uc_stack.ss_sp = stack_room;
    there.uc_stack.ss_size = STACK;
    there.uc_link = &back;
    makecontext(&there, kind->call, 0);
    if (swapcontext(&back, &there) != 0)
        stop("the small stack", "is not to be reached");
}

/* How many bytes of the small stack were ever written. */
static size_t stack_used(void)
{
    size_t untouched = 0;

    while (untouched < STACK && stack_room[untouched] == STACK_BYTE)
        untouched++;
    return STACK - untouched;
}

/* Makes the call in a round; holds it to what it may write to, whatever that is to be. */
static void call_in(enum round round)
{
    current = round;
    for (size_t i = 0; i < kind->buffers; i++)
        lend(i, round);

    calls++;
    alarm(SECONDS);
    call_on_small_stack();
    alarm(0);

    for (size_t i = 0; i < kind->buffers; i++)
        hold_guard(i, round);
    for (size_t i = 0; i < kind->inputs; i++)
        hold_input(i);
}

/* Makes the first call and keeps what it left. */
static void call_first(void)
{
    call_in(ENDING);
    for (size_t i = kind->inputs; i < kind->buffers; i++)
        memcpy(buffers[i].bytes, buffers[i].at, buffers[i].length);
}

/* Makes the call in a further round and holds it to what the first round returned and left. */
static void call_again(enum round round)
{
    uint32_t first[NUMBERS];

    memcpy(first, numbers, sizeof first);
    call_in(round);
    if (memcmp(first, numbers, sizeof first) != 0)
        stop("what is returned", "is not as in the first round");
    for (size_t i = kind->inputs; i < kind->buffers; i++) {
        const struct buffer *b = &buffers[i];
        for (uint32_t place = 0; place < b->length; place++) {
            int untouched = b->bytes[place] == filling(place, ENDING) && b->at[place] == filling(place, round);
            if (!untouched && b->bytes[place] != b->at[place])
                stop(kind->names[i], "is not as in the first round");
        }
    }
}

/* Reads little-endian numbers; returns 0 where nothing is left to read. */
static int read_numbers(uint32_t *into, size_t count)
{
    uint8_t bytes[4 * FIELDS];
    size_t got = fread(bytes, 1, 4 * count, stdin);

    if (got == 0)
        return 0;
    if (got != 4 * count)
        stop("the case", "is cut off");
    for (size_t i = 0; i < count; i++)
        into[i] = feshangul_u32(bytes + 4 * i);
    return 1;
}

/* Reads one case; returns 0 where there is none left. */
static int read_case(void)
{
    uint32_t number;

    if (!read_numbers(&number, 1))
        return 0;
    if (number >= KINDS)
        stop("the case", "is of no kind");
    of_kind[number]++;
    kind = &kinds[number];
    if (!read_numbers(fields, kind->fields))
        stop("the case", "is cut off");
    for (size_t i = 0; i < kind->buffers; i++) {
        buffers[i].length = fields[i];
        if (fields[i] > MOST)
            stop(kind->names[i], "is longer than what the driver lends");
    }
    for (size_t i = 0; i < kind->inputs; i++)
        if (fread(buffers[i].bytes, 1, buffers[i].length, stdin) != buffers[i].length)
            stop("the case", "is cut off");
    return 1;
}

/* Whether NULL stands for one of the buffers in the last round. */
static int has_empty_buffer(void)
{
    for (size_t i = 0; i < kind->buffers; i++)
        if (buffers[i].length == 0)
            return 1;
    return 0;
}

static void write_answer(void)
{
    for (size_t i = 0; i < kind->numbers; i++)
        for (int byte = 0; byte < 4; byte++)
            putchar((int)(numbers[i] >> 8 * byte & 255));
    for (size_t i = kind->inputs; i < kind->buffers; i++)
        fwrite(buffers[i].bytes, 1, buffers[i].length, stdout);
    if (fflush(stdout) != 0)
        stop("the answer", "cannot be written");
}

int main(void)
{
    for (size_t i = 0; i < BUFFERS; i++)
        buffers[i].room = fenced_room();
    stack_room = fenced_room();
    memset(stack_room, STACK_BYTE, STACK);
    watch_signals();
    for (; read_case(); cases++) {
        call_first();
        call_again(BEGINNING);
        call_again(ODD);
        null_calls += (unsigned long)has_empty_buffer();
        write_answer();
    }
    fprintf(stderr, "driver: %lu plans, %lu plans around closed arcs, %lu plans of a pair apart, %lu mends, %lu calls "
            "(%lu with NULL), no byte touched outside the buffers, at most %zu of %d bytes of stack used\n",
            of_kind[PLAN], of_kind[AROUND], of_kind[APART], of_kind[MEND], calls, null_calls, stack_used(), STACK);
    return 0;
}
