/* The four timers in plain C, from document 01's words: each output and each state is worked out anew from the history of
   inputs since the start or the last reset, without a count that is carried from tick to tick.
   Writes the cases of crates/timer_cases to standard output, line by line, and the number of ticks to standard error. */
#include <stdbool.h>
#include <stdint.h>
#include <stdio.h>

#define LONGEST 32 /* ticks in a run */

enum kind { SET_DELAY, HOLD, RESET_DELAY, FLIP_FLOP };
enum combination { PLAIN, OR, AND, OR_AND };

static const char *const kind_names[] = {"set delay", "hold", "reset delay", "flip-flop"};
static const char *const combination_names[] = {"plain", "or", "and", "or-and"};

struct state {
    uint32_t count;
    bool previous, latch;
};

struct inputs {
    bool start, or_input, and_input, reset;
};

/* A timer under test: the state it began with, and its inputs since; [0] is not used. */
struct bench {
    enum kind kind;
    enum combination combination;
    uint32_t d;
    struct state from;
    uint32_t ticks;
    bool input[LONGEST + 1], trip[LONGEST + 1];
};

static const struct state fresh = {0, false, false};
static unsigned long ticks_done;

/* ---- what the history says at tick t */

/* For how many ticks the input has been on; the count at the start goes on if it was never off. Stops at 60,001. */
static uint64_t ticks_on(const struct bench *b, uint32_t t)
{
    uint32_t since = t;
    while (since > 0 && b->input[since])
        since--;
    uint64_t on = t - since;
    if (since == 0)
        on += b->from.count;
    return on > 60001 ? 60001 : on;
}

/* The last tick at which Hold is on for what it has seen up to tick t. */
static uint64_t held_until(const struct bench *b, uint32_t t)
{
    uint64_t until = b->from.count;
    for (uint32_t i = 1; i <= t; i++) {
        bool before = i == 1 ? b->from.previous : b->input[i - 1];
        if (i > until && b->input[i] && !before)
            until = (uint64_t)i + b->d - 1; /* none for d 0: the tick before */
    }
    return until;
}

/* The last tick at which Reset delay is on if no input follows. */
static uint64_t reset_delayed_until(const struct bench *b, uint32_t t)
{
    for (uint32_t i = t; i > 0; i--)
        if (b->input[i])
            return (uint64_t)i + b->d;
    return b->from.count;
}

static bool has_latched(const struct bench *b, uint32_t t)
{
    if (b->from.latch)
        return true;
    for (uint32_t i = 1; i <= t; i++)
        if (b->trip[i] || ticks_on(b, i) > b->d)
            return true;
    return false;
}

static uint64_t left(uint64_t until, uint32_t t)
{
    return until > t ? until - t : 0;
}

static bool output(const struct bench *b)
{
    uint32_t t = b->ticks;
    switch (b->kind) {
    case SET_DELAY:
        return ticks_on(b, t) > b->d;
    case HOLD:
        return held_until(b, t) >= t;
    case RESET_DELAY:
        return reset_delayed_until(b, t) >= t;
    default:
        return has_latched(b, t);
    }
}

static struct state state_of(const struct bench *b)
{
    uint32_t t = b->ticks;
    struct state s = b->from;
    switch (b->kind) {
    case HOLD:
        s.count = (uint32_t)left(held_until(b, t), t);
        if (t > 0)
            s.previous = b->input[t];
        break;
    case RESET_DELAY:
        s.count = (uint32_t)left(reset_delayed_until(b, t), t);
        break;
    case FLIP_FLOP:
        s.latch = has_latched(b, t); /* and it counts as Set delay does */
        /* fall through */
    case SET_DELAY:
        if (t > 0)
            s.count = (uint32_t)ticks_on(b, t);
    }
    return s;
}

/* ---- one tick */

static bool combined(enum combination combination, struct inputs in)
{
    bool either = in.start || in.or_input;
    return combination == PLAIN ? in.start
        : combination == OR     ? either
        : combination == AND    ? in.start && in.and_input
                                : either && in.and_input;
}

/* Returns the refusal number, and tells the output. */
static int tick(struct bench *b, struct inputs in, bool *on)
{
    ticks_done++;
    *on = false;
    if (state_of(b).count > 60001)
        return 8;
    if (b->d > 60000)
        return 15;
    if (in.reset) {
        b->from = fresh;
        b->ticks = 0;
        return 0;
    }
    b->ticks++;
    b->input[b->ticks] = b->kind == FLIP_FLOP ? in.start : combined(b->combination, in);
    b->trip[b->ticks] = b->kind == FLIP_FLOP && in.or_input && !in.and_input;
    *on = output(b);
    return 0;
}

/* ---- the cases */

static void write_state(struct state s)
{
    printf("%lu,%d,%d", (unsigned long)s.count, s.previous, s.latch);
}

static void write_begin(const struct bench *b)
{
    printf("%s, d %lu, from ", kind_names[b->kind], (unsigned long)b->d);
    write_state(b->from);
}

static void write_tick(struct bench *b, struct inputs in)
{
    bool on;
    tick(b, in, &on);
    putchar(on ? '1' : '0');
}

static void table(enum kind kind, enum combination combination, uint32_t d)
{
    const struct bench given = {.kind = kind, .combination = combination, .d = d, .from = fresh};
    write_begin(&given);
    printf(", %s, all inputs: ", combination_names[combination]);
    for (int n = 0; n < 16; n++) {
        struct bench b = given;
        write_tick(&b, (struct inputs){n & 1, n & 2, n & 4, n & 8});
    }
    putchar('\n');
}

static void tables(void)
{
    for (int c = PLAIN; c <= OR_AND; c++)
        for (int k = SET_DELAY; k <= FLIP_FLOP; k++)
            table(k, c, k == HOLD ? 1 : 0);
}

static void limit(enum kind kind, uint32_t count, uint32_t d, bool reset)
{
    struct bench b = {.kind = kind, .combination = PLAIN, .d = d, .from = {count, true, true}};
    bool on;
    write_begin(&b);
    printf(", reset %d: refusal ", reset);
    int refusal = tick(&b, (struct inputs){.start = true, .reset = reset}, &on);
    printf("%d, %d; ", refusal, on);
    write_state(state_of(&b));
    putchar('\n');
}

static void limits(void)
{
    static const uint32_t cases[][2] = {
        {60001, 60000},  {60002, 60000},  {60001, 60001},           {60002, 60001},
        {0, UINT32_MAX}, {UINT32_MAX, 0}, {UINT32_MAX, UINT32_MAX},
    };
    for (int k = SET_DELAY; k <= FLIP_FLOP; k++)
        for (size_t i = 0; i < sizeof cases / sizeof *cases; i++)
            for (int reset = 0; reset <= 1; reset++)
                limit(k, cases[i][0], cases[i][1], reset);
}

static uint32_t drawn = 1; /* the generator's number */

static struct inputs draw(uint32_t density, bool resets)
{
    drawn = (drawn * 75 + 74) % 65537;
    return (struct inputs){
        .start = drawn % 16 < density,
        .or_input = drawn / 16 % 16 < 4,
        .and_input = drawn / 256 % 16 < 13,
        .reset = resets && drawn / 4096 % 16 == 7,
    };
}

static void run(enum kind kind, enum combination combination, struct state from, uint32_t d, uint32_t density, bool resets)
{
    struct bench b = {.kind = kind, .combination = combination, .d = d, .from = from};
    write_begin(&b);
    printf(", %s, on %lu/16, resets %d: ", combination_names[combination], (unsigned long)density, resets);
    for (int i = 0; i < LONGEST; i++)
        write_tick(&b, draw(density, resets));
    printf("; ");
    write_state(state_of(&b));
    putchar('\n');
}

static void each_delay_and_state(enum kind kind, enum combination combination, uint32_t density, bool resets)
{
    static const struct state from[] = {{0, false, false}, {3, true, false}, {59990, false, false}, {60001, true, true}};
    static const uint32_t delays[] = {0, 1, 2, 5, 60000};
    for (int s = 0; s < 4; s++)
        for (int d = 0; d < 5; d++)
            run(kind, combination, from[s], delays[d], density, resets);
}

static void runs(void)
{
    for (int k = SET_DELAY; k <= FLIP_FLOP; k++)
        for (int c = PLAIN; c <= (k == FLIP_FLOP ? PLAIN : OR_AND); c++) {
            each_delay_and_state(k, c, 11, false);
            each_delay_and_state(k, c, 4, true);
            each_delay_and_state(k, c, 16, false);
        }
}

int main(void)
{
    tables();
    limits();
    runs();
    fprintf(stderr, "%lu\n", ticks_done);
    return ferror(stdout) || fflush(stdout) != 0;
}
