/* Answers calls of the planner and the mender: cases on standard input, answers on standard output, until the input ends.
 *
 * For machines that are not x86-64: an emulator runs this program, once for any number of calls. It needs no C library,
 * neither to be linked nor to run, so it is the same file everywhere and wants nothing but the emulator.
 *
 * A case begins with its kind; all numbers are of 32 bits, little-endian, and buffers are zero before each call.
 *
 *   0, plan   table length, reply length, source, terminal, reach, allowance, then the table's bytes. The answer: the
 *             number returned, then the whole reply buffer.
 *   1, mend   input length, table size, list size, then the input's bytes. The answer: the number returned and the
 *             lengths of the mended table and of the list, then the whole table buffer and the whole list buffer.
 *   2, around table length, closed length, reply length, source, terminal, reach, allowance, then the table's bytes and
 *             the closed set's. The answer: as of a plan.
 *   3, apart  the same as of 2, for a pair apart. The answer: as of a plan.
 *
 * Exit status 0 where the input ends between two cases, 1 where it ends within one or the output is closed, 2 where the
 * kind is another or a length is over MOST. */
#include "feshangul.h"

enum { MOST = 65536 };
enum { PLAN = 0, MEND = 1, AROUND = 2, APART = 3 };

static uint8_t input[2 * MOST], answer[12 + 2 * MOST];

/* What the archive asks of a C library. Volatile, so that the compiler does not make either a call of itself. */
void *memcpy(void *to, const void *from, size_t length)
{
    volatile uint8_t *t = to;
    const uint8_t *f = from;

    for (size_t i = 0; i < length; i++)
        t[i] = f[i];
    return to;
}

void *memset(void *to, int byte, size_t length)
{
    volatile uint8_t *t = to;

    for (size_t i = 0; i < length; i++)
        t[i] = (uint8_t)byte;
    return to;
}

enum { READ = 0, WRITE = 1, EXIT = 60 }; /* Linux, x86-64 */

static long call_system(long number, long a, long b, long c)
{
    long result;

    __asm__ volatile("syscall" : "=a"(result) : "a"(number), "D"(a), "S"(b), "d"(c) : "rcx", "r11", "memory");
    return result;
}

static _Noreturn void end(int status)
{
    for (;;)
        call_system(EXIT, status, 0, 0);
}

/* Fills a buffer from standard input and returns how many bytes came; fewer than asked for where the input ends. */
static size_t read_up_to(uint8_t *to, size_t length)
{
    size_t got = 0;

    while (got < length) {
        long now = call_system(READ, 0, (long)(to + got), (long)(length - got));
        if (now <= 0)
            break;
        got += (size_t)now;
    }
    return got;
}

static void write_all(const uint8_t *from, size_t length)
{
    while (length > 0) {
        long now = call_system(WRITE, 1, (long)from, (long)length);
        if (now <= 0)
            end(1);
        from += now;
        length -= (size_t)now;
    }
}

/* Reads so many bytes, which have to come. */
static void read_all(uint8_t *to, size_t length)
{
    if (read_up_to(to, length) != length)
        end(1);
}

/* A length of a case, no longer than the buffers here. */
static uint32_t length_at(const uint8_t *at)
{
    uint32_t length = feshangul_u32(at);

    if (length > MOST)
        end(2);
    return length;
}

static void answer_plan(void)
{
    uint8_t head[24];

    read_all(head, sizeof head);
    uint32_t table_len = length_at(head), reply_len = length_at(head + 4);
    read_all(input, table_len);
    memset(answer + 4, 0, reply_len);
    uint32_t number = feshangul_plan(input, table_len, answer + 4, reply_len, feshangul_u32(head + 8),
                                     feshangul_u32(head + 12), feshangul_u32(head + 16), feshangul_u32(head + 20));
    feshangul_put_u32(answer, number);
    write_all(answer, 4 + reply_len);
}

typedef uint32_t planner(const uint8_t *, size_t, const uint8_t *, size_t, uint8_t *, size_t, uint32_t, uint32_t,
                         uint32_t, uint32_t);

/* Of an entry that takes a closed set, which stands behind the table, as it was read. */
static void answer_with_set(planner *plan)
{
    uint8_t head[28];

    read_all(head, sizeof head);
    uint32_t table_len = length_at(head), closed_len = length_at(head + 4), reply_len = length_at(head + 8);
    read_all(input, table_len + closed_len);
    memset(answer + 4, 0, reply_len);
    uint32_t number = plan(input, table_len, input + table_len, closed_len, answer + 4, reply_len,
                           feshangul_u32(head + 12), feshangul_u32(head + 16), feshangul_u32(head + 20),
                           feshangul_u32(head + 24));
    feshangul_put_u32(answer, number);
    write_all(answer, 4 + reply_len);
}

static void answer_mend(void)
{
    uint8_t head[12];

    read_all(head, sizeof head);
    uint32_t input_len = length_at(head), table_size = length_at(head + 4), list_size = length_at(head + 8);
    uint8_t *table = answer + 12, *list = table + table_size;
    read_all(input, input_len);
    memset(table, 0, table_size + list_size);
    feshangul_mended mended = feshangul_mend(input, input_len, table, table_size, list, list_size);
    feshangul_put_u32(answer, mended.number);
    feshangul_put_u32(answer + 4, mended.table_len);
    feshangul_put_u32(answer + 8, mended.list_len);
    write_all(answer, 12 + table_size + list_size);
}

static _Noreturn void serve(void)
{
    uint8_t kind[4];

    for (;;) {
        size_t got = read_up_to(kind, sizeof kind);
        if (got != sizeof kind)
            end(got == 0 ? 0 : 1);
        switch (feshangul_u32(kind)) {
        case PLAN:
            answer_plan();
            break;
        case MEND:
            answer_mend();
            break;
        case AROUND:
            answer_with_set(feshangul_plan_around);
            break;
        case APART:
            answer_with_set(feshangul_plan_apart);
            break;
        default:
            end(2);
        }
    }
}

/* The stack is aligned here as at a call, so that the code behind it finds it as the ABI says. */
__attribute__((naked)) _Noreturn void _start(void)
{
    __asm__("xor %%ebp, %%ebp\n\tand $-16, %%rsp\n\tcall %P0" : : "i"(serve));
}
