/* stack.c: the worst stack and time of each exported call at n = 16, m = 32, measured, as a Markdown table.

   Stack: the call runs on a stack of its own that is painted before it, and what is not painted after it was touched: the bytes
   below the caller's stack pointer, the return address and arguments on the stack among them. Each input runs on two paints, the
   larger count is taken, and of all inputs of a call, done and refused, the largest.
   Time: the median of up to 501 single calls on the same input, the least of three rounds, less that of reading the clock; of all
   done inputs of a line the slowest. What a call writes is put back before each. On a machine that does other work one run does
   not tell enough: take several and give their range.
   Inputs: dense networks (every arc, self-arcs too) in five languages, each with any values, with values that tie until the last
   component, and of these a ring, where a settle makes the most passes. */
#define _GNU_SOURCE
#include <stdio.h>
#include <stdlib.h>
#include <string.h>
#include <sys/mman.h>
#include <time.h>
#include <ucontext.h>

#include "tronglephu.h"

enum { N = 16, M = 32, MATRIX = TRONGLEPHU_MOST_MATRIX_WORDS, TABLE = TRONGLEPHU_MOST_TABLE_WORDS };
enum { STACK_BYTES = 1 << 18, MOST_FILE = 8731, SAMPLES = 501, FEWEST_SAMPLES = 3, ROUNDS = 3, ENTRY = TRONGLEPHU_ENTRY_WORDS };

/* All that any call takes; each call looks at its own part. */
struct input {
    uint16_t language[TRONGLEPHU_LANGUAGE_NUMBERS];
    uint32_t n, m, mode, i, j;
    uint32_t a[MATRIX], r[MATRIX], standing[MATRIX], mapping[TABLE], f[TABLE];
    size_t a_count, r_count;
    uint32_t list[TRONGLEPHU_MOST_STEPS + 1];
    size_t list_count;
    uint8_t file[MOST_FILE];
    size_t file_count;
    uint32_t told[TRONGLEPHU_REPORT_WORDS];
};

/* The input in use: a copy, so that a call finds again what another wrote. */
static struct input now;
static struct tronglephu_answer said;
static char *top;

/* ---- the calls, each with the caller's stack pointer noted right before */

#define MARK __asm__ volatile("movq %%rsp, %0" : "=m"(top) : : "memory")
#define LANGUAGE now.language, (size_t)TRONGLEPHU_LANGUAGE_NUMBERS

static void call_read(void)
{
    MARK;
    said = tronglephu_read(now.file, now.file_count, now.a, MATRIX, now.mapping, TABLE, now.told, TRONGLEPHU_PROBLEM_WORDS);
}

static void call_laws(void)
{
    MARK;
    said = tronglephu_laws(LANGUAGE, now.told, TRONGLEPHU_REPORT_WORDS);
}

static void call_fresh(void)
{
    MARK;
    said = tronglephu_fresh(LANGUAGE, now.n, now.r, now.r_count);
}

static void call_steps(void)
{
    MARK;
    said = tronglephu_steps(LANGUAGE, now.n, now.a, now.a_count, now.r, now.r_count, now.list, now.list_count);
}

static void call_equation(void)
{
    MARK;
    said = tronglephu_equation(LANGUAGE, now.n, now.a, now.a_count, now.r, now.r_count);
}

static void call_forward(void)
{
    MARK;
    said = tronglephu_forward(LANGUAGE, now.n, now.m, now.mode, now.a, now.a_count, now.r, now.r_count, now.mapping, TABLE, now.f,
                              TABLE);
}

static void call_next_hop(void)
{
    MARK;
    said = tronglephu_next_hop(LANGUAGE, now.n, now.a, now.a_count, now.r, now.r_count, now.i, now.j);
}

static void call_handover(void)
{
    MARK;
    said = tronglephu_handover(LANGUAGE, now.n, now.a, now.a_count, now.standing, MATRIX, now.r, now.r_count, now.i);
}

/* ---- stack */

static ucontext_t here, there;

static __attribute__((noinline)) void run_on(void (*call)(void), char *stack)
{
    getcontext(&there);
    there.uc_stack.ss_sp = stack;
    there.uc_stack.ss_size = STACK_BYTES;
    there.uc_link = &here;
    makecontext(&there, call, 0);
    swapcontext(&here, &there);
}

static size_t touched(void (*call)(void), const struct input *input, int paint, char *stack)
{
    now = *input;
    memset(stack, paint, STACK_BYTES);
    run_on(call, stack);
    char *lowest = stack;
    while (*lowest == (char)paint)
        lowest++;
    return (size_t)(top - lowest);
}

static size_t worst_touched(void (*call)(void), const struct input *input)
{
    static char *stack;
    if (!stack)
        stack = mmap(0, STACK_BYTES, PROT_READ | PROT_WRITE, MAP_PRIVATE | MAP_ANONYMOUS, -1, 0);
    if (stack == MAP_FAILED)
        exit(2);
    size_t one = touched(call, input, 0xA5, stack), other = touched(call, input, 0x5A, stack);
    return one > other ? one : other;
}

/* ---- time */

static double clock_now(void)
{
    struct timespec t;
    clock_gettime(CLOCK_MONOTONIC, &t);
    return (double)t.tv_sec * 1e6 + (double)t.tv_nsec / 1e3;
}

static int by_size(const void *one, const void *other)
{
    double x = *(const double *)one, y = *(const double *)other;
    return (x > y) - (x < y);
}

static void call_nothing(void)
{
}

/* Microseconds: the median of up to SAMPLES calls within a tenth of a second, of FEWEST_SAMPLES at least. */
static double median_time(void (*call)(void), const struct input *input)
{
    static double samples[SAMPLES];
    int count = 0;
    double began = clock_now();
    while (count < SAMPLES && (count < FEWEST_SAMPLES || clock_now() - began < 100e3)) {
        now = *input;
        double start = clock_now();
        call();
        samples[count++] = clock_now() - start;
    }
    qsort(samples, (size_t)count, sizeof *samples, by_size);
    return samples[count / 2];
}

/* The least median of several rounds. */
static double quiet_time(void (*call)(void), const struct input *input)
{
    double least = median_time(call, input);
    for (int round = 1; round < ROUNDS; round++) {
        double time = median_time(call, input);
        if (time < least)
            least = time;
    }
    return least;
}

/* ---- inputs */

static uint32_t any(void)
{
    static uint64_t state = 88172645463325252u;
    state ^= state << 13;
    state ^= state >> 7;
    state ^= state << 17;
    return (uint32_t)(state >> 32);
}

enum { LANGUAGES = 5 };
enum spread { ANY, TIES, RING, SPREADS };

static const uint16_t languages[LANGUAGES][TRONGLEPHU_LANGUAGE_NUMBERS] = {
    {1, TRONGLEPHU_DIST, 0, TRONGLEPHU_DIST, 0, TRONGLEPHU_DIST, 0, TRONGLEPHU_DIST, 0},
    {2, TRONGLEPHU_DIST, 0, TRONGLEPHU_WIDTH, 65535, TRONGLEPHU_DIST, 0, TRONGLEPHU_DIST, 0},
    {1, TRONGLEPHU_CLASS, 65535, TRONGLEPHU_DIST, 0, TRONGLEPHU_DIST, 0, TRONGLEPHU_DIST, 0},
    {4, TRONGLEPHU_DIST, 0, TRONGLEPHU_DIST, 0, TRONGLEPHU_DIST, 0, TRONGLEPHU_WIDTH, 65535},
    {4, TRONGLEPHU_DIST, 0, TRONGLEPHU_DIST, 0, TRONGLEPHU_DIST, 0, TRONGLEPHU_DIST, 0},
};

/* A value of the last component in a ring: the best that is no unit where the arc goes to the next node, else a bad one. */
static uint32_t ring_value(int is_width, int is_next)
{
    if (is_width)
        return is_next ? 65535 : 1 + any() % 1000;
    return is_next ? 1 : 60000 + any() % 5000;
}

/* A route of the language: any values; or, but in the last component, values that tie: 0, or a width's limit. */
static void put_route(const uint16_t *language, enum spread spread, int is_next, uint32_t *words)
{
    for (int place = 0; place < language[0]; place++) {
        int is_width = language[1 + 2 * place] == TRONGLEPHU_WIDTH;
        int is_free = spread == ANY || place == language[0] - 1;
        uint32_t lowest = is_width ? 1 : 0, tie = is_width ? language[2 + 2 * place] : 0;
        uint32_t value = spread == RING ? ring_value(is_width, is_next) : lowest + any() % 65535;
        words[place] = is_free ? value : tie;
    }
}

static void settle_all(struct input *x)
{
    x->list_count = 0;
    for (uint32_t j = 0; j < N; j++)
        x->list[x->list_count++] = TRONGLEPHU_SETTLE(j);
}

static void expect_done(const char *what)
{
    if (said.number == 0)
        return;
    fprintf(stderr, "%s: refused %u %u %u\n", what, said.number, said.which, said.place);
    exit(1);
}

/* A dense network with its best matrix, in mode 1. */
static void dense(struct input *x, const uint16_t *language, enum spread spread)
{
    memset(x, 0, sizeof *x);
    memcpy(x->language, language, sizeof x->language);
    x->n = N, x->m = M, x->mode = TRONGLEPHU_PLAIN, x->i = 0, x->j = N - 1;
    x->a_count = x->r_count = MATRIX;
    for (size_t i = 0; i < N; i++)
        for (size_t k = 0; k < N; k++)
            put_route(language, spread, k == (i + 1) % N, x->a + (i * N + k) * TRONGLEPHU_WEIGHT_WORDS);
    for (size_t at = 0; at < TABLE; at += ENTRY)
        put_route(language, spread, 0, x->mapping + at);
    settle_all(x);
    now = *x;
    call_fresh();
    expect_done("fresh");
    call_steps();
    expect_done("steps");
    memcpy(x->r, now.r, sizeof x->r);
}

static void set_mode(struct input *x, uint32_t mode)
{
    x->mode = mode;
    for (size_t at = ENTRY - 1; at < TABLE; at += ENTRY)
        x->mapping[at] = mode == TRONGLEPHU_PLAIN ? 0 : any() % 65536;
}

static void set_list(struct input *x, size_t count, uint32_t first)
{
    x->list_count = count;
    for (size_t at = 0; at < count; at++)
        x->list[at] = first + (uint32_t)(at % N);
}

/* ---- files */

static void put_byte(struct input *x, uint32_t byte)
{
    x->file[x->file_count++] = (uint8_t)byte;
}

static void put_two(struct input *x, uint32_t number)
{
    put_byte(x, number >> 8);
    put_byte(x, number & 255);
}

static void put_records(struct input *x, uint32_t columns, int with_t)
{
    put_two(x, N * columns);
    for (uint32_t record = 0; record < N * columns; record++) {
        put_byte(x, record / columns);
        put_byte(x, record % columns);
        for (int value = 0; value < 4 + with_t; value++)
            put_two(x, 1 + any() % 65535);
    }
}

/* The largest file: four components with limits, every arc, every attachment with its t. The shape has a 5 for a product. */
static void largest_file(struct input *x, const char *shape)
{
    memset(x, 0, sizeof *x);
    x->file_count = 4;
    put_byte(x, 1), put_byte(x, N), put_byte(x, M), put_byte(x, TRONGLEPHU_HOT);
    for (const char *tag = shape; *tag; tag++) {
        put_byte(x, (uint32_t)(*tag - '0'));
        if (*tag == '2' || *tag == '3')
            put_two(x, 65535);
    }
    if (strlen(shape) == 7) {
        put_records(x, N, 0);
        put_records(x, M, 1);
    }
    uint32_t count = (uint32_t)x->file_count - 4;
    for (int byte = 0; byte < 4; byte++)
        x->file[byte] = (uint8_t)(count >> (24 - 8 * byte));
}

/* The five ways to nest three products, then files that are refused in the language: a fourth product, a cut, an unknown tag. */
static const char *const shapes[] = {"5552233", "5252533", "5522533", "5255233", "5525233",
                                     "5555",    "525255",  "555",     "5556",    "552256"};
enum { SHAPES = sizeof shapes / sizeof *shapes, SOUND_SHAPES = 5 };

/* ---- lines of the table */

struct line {
    const char *name;
    void (*call)(void);
    size_t stack;
    double time;
};

static double clock_cost;

static void measure(struct line *line, const struct input *input)
{
    size_t stack = worst_touched(line->call, input);
    if (stack > line->stack)
        line->stack = stack;
    if (said.number != 0)
        return;
    double time = quiet_time(line->call, input) - clock_cost;
    if (time > line->time)
        line->time = time;
}

enum { READ, LAWS, FRESH, ROW, ROWS, SETTLES, MOST_ROWS, MOST_SETTLES, EQUATION, FORWARD, NEXT_HOP, HANDOVER, LINES };

static struct line lines[LINES] = {
    [READ] = {"`read`, the largest file (8,731 bytes)", call_read, 0, 0},
    [LAWS] = {"`laws`", call_laws, 0, 0},
    [FRESH] = {"`fresh`", call_fresh, 0, 0},
    [ROW] = {"`steps`, one row step", call_steps, 0, 0},
    [ROWS] = {"`steps`, a sweep of 16 row steps", call_steps, 0, 0},
    [SETTLES] = {"`steps`, 16 settles: the whole matrix", call_steps, 0, 0},
    [MOST_ROWS] = {"`steps`, 4,096 row steps", call_steps, 0, 0},
    [MOST_SETTLES] = {"`steps`, 4,096 settles", call_steps, 0, 0},
    [EQUATION] = {"`equation`", call_equation, 0, 0},
    [FORWARD] = {"`forward`, m = 32", call_forward, 0, 0},
    [NEXT_HOP] = {"`next_hop`", call_next_hop, 0, 0},
    [HANDOVER] = {"`handover`", call_handover, 0, 0},
};

static void measure_list(int line, struct input *x, size_t count, uint32_t first)
{
    set_list(x, count, first);
    measure(&lines[line], x);
}

static void measure_network(struct input *x)
{
    measure(&lines[LAWS], x);
    measure(&lines[FRESH], x);
    measure_list(ROW, x, 1, N - 1);
    measure_list(ROWS, x, N, 0);
    measure_list(SETTLES, x, N, TRONGLEPHU_SETTLE(0));
    measure_list(MOST_ROWS, x, TRONGLEPHU_MOST_STEPS, 0);
    measure_list(MOST_SETTLES, x, TRONGLEPHU_MOST_STEPS, TRONGLEPHU_SETTLE(0));
    measure(&lines[EQUATION], x);
    for (x->i = 0; x->i < N; x->i += 5)
        for (x->j = 0; x->j < N; x->j += 5)
            measure(&lines[NEXT_HOP], x);
    x->i = N - 1;
    measure(&lines[HANDOVER], x);
    for (uint32_t mode = TRONGLEPHU_PLAIN; mode <= TRONGLEPHU_COLD; mode++) {
        set_mode(x, mode);
        measure(&lines[FORWARD], x);
    }
    set_mode(x, TRONGLEPHU_PLAIN);
    settle_all(x);
}

/* The stack of every call on an input that some calls refuse. */
static void measure_stack(const struct input *x)
{
    for (int line = LAWS; line < LINES; line++) {
        size_t stack = worst_touched(lines[line].call, x);
        if (stack > lines[line].stack)
            lines[line].stack = stack;
    }
}

/* Each fault in turn on a sound input; the last words of a buffer, so that all before them is checked. */
static void measure_refused(const struct input *sound)
{
    static struct input x;
    for (int fault = 0; fault < 15; fault++) {
        x = *sound;
        switch (fault) {
        case 0: x.n = 17; break;
        case 1: x.m = 33; break;
        case 2: x.mode = 0; break;
        case 3: x.language[0] = 5; break;
        case 4: x.language[1] = 9; break;
        case 5: x.a_count--; break;
        case 6: x.r_count--; break;
        case 7: x.language[1] = TRONGLEPHU_GAIN; break;
        case 8: x.language[1] = TRONGLEPHU_CLASS, x.language[2] = 9; break;
        case 9: x.a[MATRIX - 1] = TRONGLEPHU_ONES; break;
        case 10: x.r[MATRIX - 1] = TRONGLEPHU_ONES; break;
        case 11: x.mapping[TABLE - 1] = TRONGLEPHU_ONES; break;
        case 12: x.list_count = TRONGLEPHU_MOST_STEPS + 1; break;
        case 13: x.list[x.list_count - 1] = N, x.i = N; break;
        default: x.r[0] = 983025, x.j = N; break;
        }
        measure_stack(&x);
    }
}

/* A row step that would store a sum above 983,025. */
static void measure_overflow(struct input *x)
{
    set_list(x, N, 0);
    for (size_t at = 0; at < MATRIX; at += TRONGLEPHU_WEIGHT_WORDS)
        x->a[at] = 65535, x->r[at] = 983025;
    measure_stack(x);
}

int main(void)
{
    static struct input x;
    clock_cost = quiet_time(call_nothing, &x);
    for (int shape = 0; shape < SHAPES; shape++) {
        largest_file(&x, shapes[shape]);
        measure(&lines[READ], &x);
        if (shape < SOUND_SHAPES)
            expect_done("read");
    }
    for (int language = 0; language < LANGUAGES; language++)
        for (int spread = ANY; spread < SPREADS; spread++) {
            dense(&x, languages[language], (enum spread)spread);
            measure_network(&x);
            measure_refused(&x);
            measure_overflow(&x);
        }
    printf("| call | worst stack, bytes | worst time, microseconds |\n|---|---:|---:|\n");
    for (int line = 0; line < LINES; line++) {
        double time = lines[line].time;
        int decimals = time < 1 ? 2 : time < 100 ? 1 : 0;
        printf("| %s | %zu | %.*f |\n", lines[line].name, lines[line].stack, decimals, time);
    }
    return 0;
}
