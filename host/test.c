/*
 * Compares the archive with plain.c on random and edge cases, long and short,
 * valid and damaged, and sees that memory outside and inside the lent slices
 * is as document 01 says. Its last line is 'N cases, 0 differ', or it ends
 * with status 1.
 */
#include "overcurrent.h"
#include "plain.h"

#include <stdbool.h>
#include <stdio.h>
#include <stdlib.h>
#include <string.h>

/* ---- Names ---- */

enum setting {
    OPERATION, START_CURRENT, TIME_MULTIPLIER, MINIMUM_DELAY,
    DEFINITE_DELAY, RESET_TIME, START_ONLY, SETTINGS
};

static const struct { uint32_t lowest, highest; } ranges[SETTINGS] = {
    {0, 12}, {10, 3000}, {5, 1500}, {40, 60000}, {40, 60000}, {60, 60000}, {0, 1},
};

enum slice { L1, L2, L3, BLOCK, OUT, STATES, SLICES };

static const char *const slice_names[SLICES] = {"l1", "l2", "l3", "block", "out", "states"};

enum kind {
    WORKED, CHECKED, ENDS, RATIOS, VALIDITY, LENGTHS, BLOCKS, LONG,
    FAULTS, EMPTY, SHORT, CARRIED, DIPS, PECKING, SHARED, KINDS
};

static const char *const kind_names[KINDS] = {
    [WORKED] = "worked examples of documents 01 and 02",
    [CHECKED] = "settings checks",
    [ENDS] = "batches with settings at and past the ends of range",
    [RATIOS] = "every ratio of every curve",
    [VALIDITY] = "states at and past their limits",
    [LENGTHS] = "wrong lengths",
    [BLOCKS] = "block bytes other than 0 and 1",
    [LONG] = "60,000 ticks and 60,001",
    [FAULTS] = "several faults at once",
    [EMPTY] = "no ticks",
    [SHORT] = "random short batches",
    [CARRIED] = "batches that carry states on",
    [DIPS] = "dips around the reset time and long decays",
    [PECKING] = "faults that come and go",
    [SHARED] = "read slices that overlap or are the same memory",
};

enum { LIMIT = 60000, CAPACITY = 4 * (LIMIT + 2), REFUSALS = 16, OPERATIONS = 13 };

/* ---- What was tried ---- */

static unsigned long tried[KINDS];
static unsigned long refusals_checked[REFUSALS], refusals_batch[REFUSALS];
static unsigned long ticks_run[OPERATIONS], starts[OPERATIONS], held[OPERATIONS];
static unsigned long trips[OPERATIONS], blocked_trips[OPERATIONS], kept_trips[OPERATIONS];
static unsigned long differing;

/* ---- Chance: xorshift64*, always from the same seed ---- */

static uint64_t chance = 0x9e3779b97f4a7c15u;

static uint64_t draw(void)
{
    chance ^= chance >> 12;
    chance ^= chance << 25;
    chance ^= chance >> 27;
    return chance * 0x2545f4914f6cdd1du;
}

/* From 0 to n - 1. */
static uint64_t below(uint64_t n)
{
    return (draw() >> 11) % n;
}

static uint64_t between(uint64_t lowest, uint64_t highest)
{
    return lowest + below(highest - lowest + 1);
}

static bool one_in(uint64_t n)
{
    return below(n) == 0;
}

/* ---- A batch to try: its settings, and what each slice holds before the call ---- */

struct batch {
    uint32_t settings[SETTINGS];
    size_t length[SLICES];
    uint8_t bytes[SLICES][CAPACITY];
};

static struct batch batch;

static void put_number(uint8_t *bytes, uint64_t value, int count)
{
    for (int i = 0; i < count; i++)
        bytes[i] = (uint8_t)(value >> 8 * i);
}

static uint64_t get_number(const uint8_t *bytes, int count)
{
    uint64_t value = 0;
    for (int i = 0; i < count; i++)
        value |= (uint64_t)bytes[i] << 8 * i;
    return value;
}

static void set_current(enum slice phase, size_t tick, uint32_t g)
{
    put_number(batch.bytes[phase] + 4 * tick, g, 4);
}

static void set_state(int phase, uint64_t sum, uint32_t run, uint32_t drop, uint32_t started)
{
    uint8_t *state = batch.bytes[STATES] + OC_STATE_LENGTH * phase;
    put_number(state + OC_SUM_AT, sum, 8);
    put_number(state + OC_RUN_AT, run, 4);
    put_number(state + OC_DROP_AT, drop, 4);
    put_number(state + OC_STARTED_AT, started, 4);
}

/* Valid on every operation but Off, if the sum is: idle where it has not run. */
static void set_running(int phase, uint64_t sum, uint32_t run)
{
    set_state(phase, sum, run, 0, run > 0);
}

/* Invalid whatever the operation: started in a drop, or with a field that is neither 0 nor 1. */
static void set_invalid(int phase, uint64_t sum, uint32_t run)
{
    set_state(phase, sum, run, 1, (uint32_t)between(1, 2));
}

static void clear_states(void)
{
    for (int phase = 0; phase < 3; phase++)
        set_state(phase, 0, 0, 0, 0);
}

static uint64_t sum_of(int phase)
{
    return get_number(batch.bytes[STATES] + OC_STATE_LENGTH * phase + OC_SUM_AT, 8);
}

static uint64_t trip_level(void)
{
    return batch.settings[TIME_MULTIPLIER] * (uint64_t)1000000000;
}

/* The ticks that a phase must run to trip. */
static uint32_t trip_delay(void)
{
    return batch.settings[batch.settings[OPERATION] == 1 ? DEFINITE_DELAY : MINIMUM_DELAY];
}

static void set_ticks(size_t ticks)
{
    batch.length[L1] = batch.length[L2] = batch.length[L3] = 4 * ticks;
    batch.length[BLOCK] = batch.length[OUT] = ticks;
    batch.length[STATES] = OC_STATES_LENGTH;
}

static void set_settings(uint32_t operation, uint32_t s, uint32_t multiplier, uint32_t minimum,
                         uint32_t definite, uint32_t reset, uint32_t start_only)
{
    const uint32_t values[SETTINGS] = {operation, s, multiplier, minimum,
                                       definite, reset, start_only};
    memcpy(batch.settings, values, sizeof values);
}

/* ---- Lending: a copy of each slice for the archive, between guard bytes ---- */

enum { GUARD = 64, GUARD_BYTE = 0xa5 };

static uint8_t rooms[SLICES][GUARD + CAPACITY + GUARD + 8];
static struct { uint8_t *start, *end; } guarded[SLICES]; /* where the slice lies */
static uint8_t *lent[SLICES];
static uint8_t expected_out[CAPACITY], expected_states[CAPACITY];

/* At any address, since no slice needs to be aligned. */
static void put_between_guards(enum slice slice, const uint8_t *bytes, size_t length)
{
    uint8_t *start = rooms[slice] + below(8) + GUARD;
    memset(start - GUARD, GUARD_BYTE, GUARD);
    memcpy(start, bytes, length);
    memset(start + length, GUARD_BYTE, GUARD);
    guarded[slice].start = start;
    guarded[slice].end = start + length;
}

static void lend(void)
{
    for (enum slice i = L1; i < SLICES; i++) {
        put_between_guards(i, batch.bytes[i], batch.length[i]);
        lent[i] = guarded[i].start;
    }
}

/* The read slices lie in these bytes, each from its place on. */
static void lend_shared(const uint8_t *bytes, size_t length, const size_t *places)
{
    lend();
    put_between_guards(L1, bytes, length);
    for (enum slice i = L1; i <= BLOCK; i++) {
        guarded[i] = guarded[L1];
        lent[i] = guarded[L1].start + places[i];
    }
}

/* An empty slice may be NULL. */
static uint8_t *pointer_to(enum slice slice)
{
    return batch.length[slice] == 0 && one_in(2) ? NULL : lent[slice];
}

static bool guards_kept(enum slice slice)
{
    const uint8_t *before = guarded[slice].start - GUARD;
    const uint8_t *after = guarded[slice].end;
    for (int i = 0; i < GUARD; i++)
        if (before[i] != GUARD_BYTE || after[i] != GUARD_BYTE)
            return false;
    return true;
}

/* ---- Comparing ---- */

static void say_case(enum kind kind)
{
    printf("DIFFERS in '%s': settings", kind_names[kind]);
    for (int i = 0; i < SETTINGS; i++)
        printf(" %u", (unsigned)batch.settings[i]);
    printf("; bytes");
    for (int i = 0; i < SLICES; i++)
        printf(" %s %zu", slice_names[i], batch.length[i]);
    printf("\n");
}

/* Only the first differences are told, once for each case. */
static bool tell(enum kind kind, bool first_of_case)
{
    if (first_of_case)
        differing++;
    if (differing > 10)
        return false;
    if (first_of_case)
        say_case(kind);
    return true;
}

static size_t first_difference(const uint8_t *a, const uint8_t *b, size_t length)
{
    size_t i = 0;
    while (i < length && a[i] == b[i])
        i++;
    return i;
}

/* The slice as the archive left it must hold `wanted`, between whole guards. */
static bool same_slice(enum kind kind, enum slice slice, const uint8_t *wanted, bool same)
{
    size_t length = batch.length[slice];
    if (memcmp(lent[slice], wanted, length) != 0) {
        if (tell(kind, same)) {
            size_t at = first_difference(lent[slice], wanted, length);
            printf("    %s, byte %zu: archive %u, wanted %u\n", slice_names[slice], at,
                   lent[slice][at], wanted[at]);
        }
        same = false;
    }
    if (!guards_kept(slice)) {
        if (tell(kind, same))
            printf("    bytes beside %s were written\n", slice_names[slice]);
        same = false;
    }
    return same;
}

static void compare(enum kind kind, uint32_t got, uint32_t wanted)
{
    bool same = true;
    if (got != wanted) {
        if (tell(kind, same))
            printf("    refusal: archive %u, plain %u\n", (unsigned)got, (unsigned)wanted);
        same = false;
    }
    for (enum slice i = L1; i <= BLOCK; i++)
        same = same_slice(kind, i, batch.bytes[i], same);
    /* A refused batch is held against what was lent, not against what plain.c left. */
    bool refused = wanted != 0;
    same = same_slice(kind, OUT, refused ? batch.bytes[OUT] : expected_out, same);
    same_slice(kind, STATES, refused ? batch.bytes[STATES] : expected_states, same);
}

/* Whether a phase is started at that tick with a current that would not have started it. */
static bool is_held(size_t tick)
{
    for (enum slice phase = L1; phase <= L3; phase++)
        if ((expected_out[tick] >> phase & 1) != 0
            && get_number(batch.bytes[phase] + 4 * tick, 4) <= 100 * batch.settings[START_CURRENT])
            return true;
    return false;
}

/*
 * How often a phase trips with fewer ticks since its start than a trip takes: it
 * had kept its run. One that is started from the first tick on is not counted,
 * since its start may lie before the batch.
 */
static unsigned long trips_of_kept_runs(void)
{
    unsigned long found = 0;
    for (enum slice phase = L1; phase <= L3; phase++) {
        size_t since = LIMIT;
        for (size_t i = 0; i < batch.length[OUT]; i++) {
            since = (expected_out[i] >> phase & 1) != 0 ? since + 1 : 0;
            found += (expected_out[i] >> phase & 8) != 0 && since < trip_delay();
        }
    }
    return found;
}

static void tally(enum kind kind, uint32_t refusal)
{
    tried[kind]++;
    refusals_batch[refusal]++;
    if (refusal != 0)
        return;
    uint32_t operation = batch.settings[OPERATION];
    ticks_run[operation] += batch.length[OUT];
    kept_trips[operation] += kind == WORKED ? 0 : trips_of_kept_runs();
    for (size_t i = 0; i < batch.length[OUT]; i++) {
        starts[operation] += (expected_out[i] & 7) != 0;
        held[operation] += kind != WORKED && is_held(i);
        trips[operation] += (expected_out[i] & 56) != 0;
        blocked_trips[operation] += (expected_out[i] & 56) != 0 && batch.bytes[BLOCK][i] == 1;
    }
}

/* Returns the archive's answer on what was lent. */
static uint32_t try_lent(enum kind kind)
{
    const uint32_t *v = batch.settings;
    const size_t *n = batch.length;
    memcpy(expected_out, batch.bytes[OUT], n[OUT]);
    memcpy(expected_states, batch.bytes[STATES], n[STATES]);
    uint32_t wanted = plain_batch(v[0], v[1], v[2], v[3], v[4], v[5], v[6],
                                  batch.bytes[L1], n[L1], batch.bytes[L2], n[L2],
                                  batch.bytes[L3], n[L3], batch.bytes[BLOCK], n[BLOCK],
                                  expected_out, n[OUT], expected_states, n[STATES]);
    uint32_t got = oc_batch(v[0], v[1], v[2], v[3], v[4], v[5], v[6],
                            pointer_to(L1), n[L1], pointer_to(L2), n[L2],
                            pointer_to(L3), n[L3], pointer_to(BLOCK), n[BLOCK],
                            pointer_to(OUT), n[OUT], pointer_to(STATES), n[STATES]);
    compare(kind, got, wanted);
    tally(kind, wanted);
    return got;
}

static uint32_t try_batch(enum kind kind)
{
    lend();
    return try_lent(kind);
}

/* The states after the batch become those before the next. */
static void carry_states(void)
{
    memcpy(batch.bytes[STATES], expected_states, OC_STATES_LENGTH);
}

static void try_check(void)
{
    const uint32_t *v = batch.settings;
    uint32_t wanted = plain_check_settings(v[0], v[1], v[2], v[3], v[4], v[5], v[6]);
    uint32_t got = oc_check_settings(v[0], v[1], v[2], v[3], v[4], v[5], v[6]);
    if (got != wanted && tell(CHECKED, true))
        printf("    settings check: archive %u, plain %u\n", (unsigned)got, (unsigned)wanted);
    tried[CHECKED]++;
    refusals_checked[wanted]++;
}

/* ---- Random parts of a batch ---- */

/* The archive's look-up in the table of X is slow, so operations that use it run fewer ticks. */
static bool costly(uint32_t operation)
{
    return operation == 2 || operation == 6 || operation == 7 || operation == 10;
}

static uint32_t effort(uint32_t operation, uint32_t usual)
{
    return costly(operation) ? usual / 4 : usual;
}

static uint32_t random_setting(enum setting i)
{
    uint32_t lowest = ranges[i].lowest, highest = ranges[i].highest;
    switch (below(4)) {
    case 0:
        return lowest;
    case 1:
        return (uint32_t)between(lowest, highest);
    case 2: /* near the low end, where most happens within few ticks */
        return (uint32_t)between(lowest, lowest + (highest - lowest) / 50);
    default:
        return one_in(4) ? highest : (uint32_t)between(lowest, lowest + (highest - lowest) / 500);
    }
}

static void random_settings(uint32_t operation)
{
    for (int i = 0; i < SETTINGS; i++)
        batch.settings[i] = random_setting((enum setting)i);
    batch.settings[OPERATION] = operation;
    batch.settings[START_ONLY] = one_in(8);
}

/* Mostly near a count at which something happens. */
static uint32_t random_count(uint32_t threshold)
{
    uint64_t count;
    switch (below(5)) {
    case 0:
        return 0;
    case 1:
        return (uint32_t)between(LIMIT - 3, LIMIT);
    case 2:
        return (uint32_t)below(LIMIT + 1);
    default:
        count = threshold - between(0, 40) + below(4);
        return count > LIMIT ? LIMIT : (uint32_t)count;
    }
}

static uint64_t random_sum(void)
{
    uint64_t level = trip_level();
    switch (below(6)) {
    case 0:
        return 0;
    case 1:
        return level;
    case 2:
        return level - 1 - below(3);
    case 3:
        return below(1000000000);
    case 4: /* some ticks' gain from the level */
        return level - below(level < 2000000000 ? level : 2000000000);
    default:
        return below(level + 1);
    }
}

/*
 * On definite time an idle phase may have any run and any drop, also such as no
 * ticks leave: a run and no drop, or a run after the reset time.
 */
static void random_state(int phase)
{
    uint32_t operation = batch.settings[OPERATION];
    uint64_t sum = operation <= 1 ? 0 : random_sum();
    uint32_t run = random_count(trip_delay()), drop = random_count(batch.settings[RESET_TIME]);
    if (operation == 0)
        set_state(phase, 0, 0, 0, 0);
    else if (one_in(2))
        set_running(phase, sum, run);
    else
        set_state(phase, sum, operation == 1 ? run : 0, drop, 0);
}

static void random_states(void)
{
    for (int phase = 0; phase < 3; phase++)
        random_state(phase);
}

/* Below the drop-out. */
static uint32_t idle_current(uint32_t s)
{
    switch (below(6)) {
    case 0:
        return 0;
    case 1:
        return 95 * s - 1;
    case 2: /* where the ratio goes up */
        return (uint32_t)between(1, 94) * s - (uint32_t)below(2);
    default:
        return (uint32_t)below(95 * s);
    }
}

/* From the drop-out to the setting: a phase stays what it was. */
static uint32_t holding_current(uint32_t s)
{
    switch (below(5)) {
    case 0:
        return 95 * s;
    case 1:
        return 100 * s;
    case 2: /* where the ratio goes up */
        return (uint32_t)between(96, 100) * s - (uint32_t)below(2);
    default:
        return (uint32_t)between(95 * s, 100 * s);
    }
}

static uint32_t started_current(uint32_t s)
{
    switch (below(10)) {
    case 0:
        return 100 * s + 1;
    case 1: /* started at a ratio of 100 */
        return (uint32_t)between(100 * s + 1, 101 * s - 1);
    case 2:
        return 101 * s;
    case 3:
        return (uint32_t)between(2000 * s - 1, 2001 * s);
    case 4:
        return UINT32_MAX - (uint32_t)below(2);
    case 5:
        return (uint32_t)between(2000 * s, UINT32_MAX);
    case 6: /* where the ratio goes up */
        return (uint32_t)between(102, 2000) * s - (uint32_t)below(2);
    case 7:
        return (uint32_t)between(101 * s, 200 * s);
    default:
        return (uint32_t)between(101 * s, 2000 * s);
    }
}

static uint32_t random_current(void)
{
    uint32_t s = batch.settings[START_CURRENT];
    switch (below(6)) {
    case 0:
    case 1:
        return idle_current(s);
    case 2:
        return holding_current(s);
    default:
        return started_current(s);
    }
}

/* Stretches of one current, from a single tick to the whole batch. */
static void random_currents(size_t ticks)
{
    static const uint64_t stretches[] = {1, 3, 30, 300, 3000};
    for (enum slice phase = L1; phase <= L3; phase++) {
        uint64_t longest = stretches[below(5)];
        uint64_t left = 0;
        uint32_t g = 0;
        for (size_t tick = 0; tick < ticks; tick++, left--) {
            if (left == 0) {
                g = random_current();
                left = between(1, longest);
            }
            set_current(phase, tick, g);
        }
    }
}

static void constant_current(enum slice phase, size_t ticks, uint32_t g)
{
    for (size_t tick = 0; tick < ticks; tick++)
        set_current(phase, tick, g);
}

static void random_blocks(size_t ticks)
{
    uint64_t share = below(4); /* all off, all on, or changing */
    for (size_t tick = 0; tick < ticks; tick++)
        batch.bytes[BLOCK][tick] = share < 2 ? (uint8_t)share : (uint8_t)below(2);
}

/* What out holds before the call must show whether it was written. */
static void random_out(size_t ticks)
{
    for (size_t tick = 0; tick < ticks; tick++)
        batch.bytes[OUT][tick] = (uint8_t)draw();
}

/* From clear, without current or block. */
static void quiet_batch(size_t ticks)
{
    set_ticks(ticks);
    clear_states();
    for (enum slice i = L1; i <= BLOCK; i++)
        memset(batch.bytes[i], 0, batch.length[i]);
    random_out(ticks);
}

static void random_batch(uint32_t operation, size_t ticks)
{
    random_settings(operation);
    set_ticks(ticks);
    random_states();
    random_currents(ticks);
    random_blocks(ticks);
    random_out(ticks);
}

/* ---- Worked examples: their answers are those of documents 01 and 02, not those of plain.c ---- */

static void worked(bool as_documented, const char *what)
{
    if (!as_documented) {
        differing++;
        printf("DIFFERS from the documents: %s\n", what);
    }
}

/* Document 01's 41 rows with this current in the last. */
static void try_worked_replay(uint32_t last, uint8_t last_out)
{
    set_settings(1, 200, 100, 100, 40, 60, 0);
    quiet_batch(41);
    constant_current(L1, 40, 20001);
    set_current(L1, 40, last);
    try_batch(WORKED);
    bool good = true;
    for (int i = 0; i < 41; i++)
        good = good && lent[OUT][i] == (i < 39 ? 65 : i == 39 ? 201 : last_out);
    worked(good, last == 18999 ? "41 rows, 18999 in the last" : "41 rows");
}

/* The same, and 20001 in row 42: L1 trips at once, since it has kept its run. */
static void try_worked_restart(void)
{
    set_settings(1, 200, 100, 100, 40, 60, 0);
    quiet_batch(42);
    constant_current(L1, 42, 20001);
    set_current(L1, 40, 18999);
    try_batch(WORKED);
    worked(lent[OUT][39] == 201 && lent[OUT][40] == 0 && lent[OUT][41] == 201,
           "42 rows, 18999 in row 41 and 20001 in row 42");
}

static size_t first_trip(size_t ticks)
{
    size_t i = 0;
    while (i < ticks && (lent[OUT][i] & OC_TRIP_L1) == 0)
        i++;
    return i + 1;
}

static void try_worked_trips(void)
{
    set_settings(3, 100, 100, 40, 40, 60, 0);
    quiet_batch(13501);
    constant_current(L1, 13501, 20000);
    try_batch(WORKED);
    worked(first_trip(13501) == 13501, "operation 3 at twice the setting trips at tick 13501");
    set_settings(4, 100, 5, 40, 40, 60, 0);
    quiet_batch(50);
    constant_current(L1, 50, 200000);
    try_batch(WORKED);
    worked(first_trip(50) == 40, "operation 4 at 20 times the setting trips at tick 40");
}

static void try_worked_reset(void)
{
    for (size_t ticks = 59; ticks <= 60; ticks++) {
        set_settings(3, 100, 100, 40, 40, 60, 0);
        quiet_batch(ticks);
        set_running(0, 7407407, 1);
        try_batch(WORKED);
        worked(get_number(lent[STATES] + OC_SUM_AT, 8) == (ticks == 59 ? 7407407 : 0),
               "59 idle ticks keep the sum, the 60th clears it");
    }
}

static void try_worked_starts(void)
{
    set_settings(3, 3000, 1500, 40, 40, 60, 0);
    quiet_batch(1);
    set_current(L1, 0, 300000);
    set_current(L2, 0, 300001);
    set_current(L3, 0, 4294967295u);
    try_batch(WORKED);
    worked(lent[OUT][0] == 64 + 4 + 2, "from clear, started exactly when g is greater than 100 x s");
    /* T = 135000 x 10000 / 1900 rounded up */
    worked(get_number(lent[STATES] + 2 * OC_STATE_LENGTH + OC_SUM_AT, 8) == 100000000000000u / 710527,
           "g = 4294967295 has m 2000 at s 3000");
}

/* All three have run for 39 ticks: L1 is at 95 x s, L2 at one less, L3 just below the setting. */
static void try_worked_drop_out(uint32_t operation)
{
    set_settings(operation, 3000, 5, 40, 40, 60, 0);
    uint64_t level = operation == 1 ? 0 : trip_level();
    quiet_batch(1);
    set_current(L1, 0, 285000);
    set_current(L2, 0, 284999);
    set_current(L3, 0, 299999);
    set_running(0, level, 39);
    set_running(1, level, 39);
    set_running(2, level / 2, 39);
    try_batch(WORKED);
    uint8_t l3_trips = operation == 1 ? 32 : 0;
    worked(lent[OUT][0] == 128 + 64 + 8 + 4 + 1 + l3_trips,
           "95 x s stays started, 95 x s - 1 drops out; a full sum trips there");
    worked(get_number(lent[STATES] + 2 * OC_STATE_LENGTH + OC_SUM_AT, 8) == level / 2,
           "with m at 100 or less a started phase gains 0");
}

/* Whether the archive left this state. */
static bool state_left(int phase, uint32_t run, uint32_t drop, uint32_t started)
{
    const uint8_t *state = lent[STATES] + OC_STATE_LENGTH * phase;
    return get_number(state + OC_SUM_AT, 8) == 0 && get_number(state + OC_RUN_AT, 4) == run
        && get_number(state + OC_DROP_AT, 4) == drop
        && get_number(state + OC_STARTED_AT, 4) == started;
}

/*
 * On definite time all three had run for 39 ticks when they dropped out: now L1 is
 * at 97 % of the setting, L2 comes to the reset time, L3 is above the setting.
 */
static void try_worked_kept_run(void)
{
    set_settings(1, 3000, 5, 40, 40, 60, 0);
    quiet_batch(1);
    set_current(L1, 0, 291000);
    set_current(L3, 0, 300001);
    set_state(0, 0, 39, 58, 0);
    set_state(1, 0, 39, 59, 0);
    set_state(2, 0, 39, 59, 0);
    try_batch(WORKED);
    worked(lent[OUT][0] == 128 + 64 + 32 + 4,
           "a kept run does not start a phase at 97 %, and trips it above the setting");
    worked(state_left(0, 39, 59, 0), "the run is kept while the new drop is below the reset time");
    worked(state_left(1, 0, 60, 0), "the run becomes 0 once the new drop is the reset time");
    worked(state_left(2, 40, 0, 1), "a start goes on from the kept run");
}

/* Clear states but for L3's run and field, of which so many bytes are lent. */
static uint32_t refusal_of_states(uint32_t operation, size_t length, uint32_t run, uint32_t field)
{
    set_settings(operation, 200, 100, 100, 40, 60, 0);
    quiet_batch(1);
    memset(batch.bytes[STATES], 0, 2 * OC_STATES_LENGTH);
    set_state(2, 0, run, 0, field);
    batch.length[STATES] = length;
    return try_batch(WORKED);
}

static void try_worked_states(void)
{
    for (uint32_t operation = 0; operation < OPERATIONS; operation++) {
        worked(refusal_of_states(operation, 60, 0, 0) == 0, "60 bytes of the clear state");
        worked(refusal_of_states(operation, 48, 0, 0) == 10, "48 bytes are refused by 10");
        for (uint32_t run = 0; run < 2; run++)
            worked(refusal_of_states(operation, 60, run, 2) == 8, "a field of 2 is refused by 8");
        worked(refusal_of_states(operation, 60, 0, 1) == 8, "started without a run is 8");
        worked((refusal_of_states(operation, 60, 1, 1) == 8) == (operation == 0),
               "started with a run is 8 for Off alone");
        worked((refusal_of_states(operation, 60, 1, 0) == 8) == (operation != 1),
               "a run that is not started is accepted on definite time alone");
    }
    worked(refusal_of_states(1, 61, 0, 2) == 10, "a field of 2 in 61 bytes is not looked at");
    worked(refusal_of_states(13, 60, 0, 2) == 1, "settings go before a field of 2");
}

static void try_worked(void)
{
    try_worked_replay(20000, 201);
    try_worked_replay(18999, 0);
    try_worked_restart();
    try_worked_kept_run();
    try_worked_states();
    try_worked_trips();
    try_worked_reset();
    try_worked_starts();
    for (uint32_t operation = 1; operation < OPERATIONS; operation++)
        try_worked_drop_out(operation);
}

/* ---- Settings ---- */

static void usual_settings(uint32_t operation)
{
    set_settings(operation, 100, 100, 100, 100, 100, 0);
}

static void try_one_setting(enum setting i, uint32_t value)
{
    batch.settings[i] = value;
    try_check();
    quiet_batch(2);
    try_batch(ENDS);
}

static void try_settings(void)
{
    static const uint32_t far[] = {0, 256, 65536, 0x80000000u, UINT32_MAX};
    for (uint32_t operation = 0; operation < OPERATIONS; operation++)
        for (int i = 0; i < SETTINGS; i++) {
            for (uint32_t off = 0; off < 5; off++) {
                usual_settings(operation);
                try_one_setting((enum setting)i, ranges[i].lowest + off - 2);
                usual_settings(operation);
                try_one_setting((enum setting)i, ranges[i].highest + off - 2);
            }
            for (size_t k = 0; k < sizeof far / sizeof far[0]; k++) {
                usual_settings(operation);
                try_one_setting((enum setting)i, far[k]);
            }
        }
}

static void spoil_setting(enum setting i)
{
    uint32_t lowest = ranges[i].lowest, highest = ranges[i].highest;
    if (lowest > 0 && one_in(2))
        batch.settings[i] = one_in(2) ? lowest - 1 : (uint32_t)below(lowest);
    else
        batch.settings[i] = one_in(2) ? highest + 1 : (uint32_t)between(highest + 1, UINT32_MAX);
}

static void try_settings_together(void)
{
    for (int round = 0; round < 4000; round++) {
        random_settings((uint32_t)below(OPERATIONS));
        for (int i = 0; i < SETTINGS; i++)
            if (one_in(4))
                spoil_setting((enum setting)i);
        try_check();
    }
}

/* ---- Curves: after one tick, what the sum gained or lost is seen in the states ---- */

static void try_ratios(uint32_t operation, uint32_t s, uint32_t past, uint32_t run)
{
    for (uint32_t m = 0; m <= 2001; m += 3) {
        set_settings(operation, s, 1500, 40, 40, 60000, 0);
        quiet_batch(1);
        for (uint32_t i = 0; i < 3; i++) {
            set_current((enum slice)i, 0, (m + i) * s + past);
            set_running((int)i, 700000000000u, run);
        }
        try_batch(RATIOS);
    }
}

static void try_all_ratios(void)
{
    for (uint32_t operation = 2; operation < OPERATIONS; operation++) {
        try_ratios(operation, 10, 0, 0);
        try_ratios(operation, 3000, 2999, 0);
        try_ratios(operation, 200, 0, 1);
    }
}

/* ---- States ---- */

/* One of the phases has this state. */
static void try_state(uint64_t sum, uint32_t run, uint32_t drop, uint32_t started)
{
    set_ticks(3);
    random_states();
    set_state((int)below(3), sum, run, drop, started);
    random_currents(3);
    random_blocks(3);
    random_out(3);
    try_batch(VALIDITY);
}

/* Sums, runs, drops and fields on both sides of each limit, in every combination. */
static void try_state_limits(uint32_t operation)
{
    static const uint32_t counts[] = {0, 1, LIMIT - 1, LIMIT, LIMIT + 1, UINT32_MAX};
    static const uint32_t fields[] = {0, 1, 2, UINT32_MAX};
    random_settings(operation);
    uint64_t level = trip_level();
    const uint64_t sums[] = {0, 1, level - 1, level, level + 1, (uint64_t)1 << 63, UINT64_MAX};
    for (int sum = 0; sum < 7; sum++)
        for (int run = 0; run < 6; run++)
            for (int drop = 0; drop < 6; drop++)
                for (int field = 0; field < 4; field++)
                    try_state(sums[sum], counts[run], counts[drop], fields[field]);
}

/* A single bit of a valid state turned over: invalid, or another valid state. */
static void try_state_bits(uint32_t operation)
{
    for (int bit = 0; bit < OC_STATES_LENGTH * 8; bit++) {
        random_batch(operation, 2);
        batch.bytes[STATES][bit / 8] ^= (uint8_t)(1 << bit % 8);
        try_batch(VALIDITY);
    }
}

/* States kept under settings that then change are refused or go on, never cleared. */
static void try_changed_settings(void)
{
    for (int round = 0; round < 1000; round++) {
        random_batch((uint32_t)between(1, 12), 3);
        random_settings((uint32_t)below(OPERATIONS));
        try_batch(VALIDITY);
    }
}

static void try_states(void)
{
    for (uint32_t operation = 0; operation < OPERATIONS; operation++) {
        try_state_limits(operation);
        try_state_bits(operation);
    }
    try_changed_settings();
}

/* ---- Lengths ---- */

static void try_length(enum slice slice, size_t ticks, size_t length)
{
    random_batch((uint32_t)below(OPERATIONS), ticks);
    if (slice == STATES && length > OC_STATES_LENGTH)
        memset(batch.bytes[STATES] + OC_STATES_LENGTH, 0, length - OC_STATES_LENGTH);
    batch.length[slice] = length;
    try_batch(LENGTHS);
}

static void try_slice_lengths(enum slice slice, size_t ticks)
{
    random_batch(1, ticks);
    size_t right = batch.length[slice];
    for (size_t off = 1; off <= 4; off++) {
        try_length(slice, ticks, right + off);
        if (right >= off)
            try_length(slice, ticks, right - off);
    }
    try_length(slice, ticks, 0);
    try_length(slice, ticks, 2 * right);
    try_length(slice, ticks, right / 4);
    try_length(slice, ticks, 4 * ticks);
    try_length(slice, ticks, ticks);
}

/* Invalid states in a slice of the wrong length are never looked at. */
static void try_states_unread(void)
{
    static const size_t lengths[] = {0, 1, 16, 20, 40, 48, 56, 59, 61, 64, 120};
    for (int i = 0; i < 11; i++) {
        random_batch((uint32_t)below(OPERATIONS), 5);
        memset(batch.bytes[STATES], 0xff, 120);
        batch.length[STATES] = lengths[i];
        try_batch(LENGTHS);
    }
}

/* Two slices wrong in ways that would cancel in a sum or a product. */
static void try_two_lengths(void)
{
    for (int round = 0; round < 1000; round++) {
        random_batch((uint32_t)below(OPERATIONS), (size_t)between(1, 20));
        for (int k = 0; k < 2; k++) {
            size_t *length = &batch.length[below(SLICES)];
            size_t off = (size_t)between(1, 4);
            *length = one_in(2) || *length < off ? *length + off : *length - off;
        }
        try_batch(LENGTHS);
    }
}

/*
 * Lengths of which four times the ticks is right only if it wraps. No machine
 * has that much memory: the call is held to refuse by the numbers alone.
 */
static void try_wrapping_lengths(void)
{
    for (size_t ticks = 0; ticks < 4; ticks++) {
        size_t wide = SIZE_MAX / 4 + 1 + ticks;
        random_batch(3, ticks);
        lend();
        const uint32_t *v = batch.settings;
        size_t n = 4 * ticks;
        uint32_t got = oc_batch(v[0], v[1], v[2], v[3], v[4], v[5], v[6], lent[L1], n, lent[L2],
                                n, lent[L3], n, lent[BLOCK], wide, lent[OUT], wide,
                                lent[STATES], OC_STATES_LENGTH);
        compare(LENGTHS, got, 10);
        tried[LENGTHS]++;
        refusals_batch[10]++;
    }
}

static void try_lengths(void)
{
    static const size_t ticks[] = {0, 1, 2, 3, 4, 7, 12, 15, 48, 60, 100};
    for (int i = 0; i < 11; i++)
        for (enum slice slice = L1; slice < SLICES; slice++)
            for (int round = 0; round < 4; round++)
                try_slice_lengths(slice, ticks[i]);
    try_states_unread();
    try_two_lengths();
    try_wrapping_lengths();
}

/* ---- Blocks ---- */

static uint8_t bad_block(void)
{
    static const uint8_t bad[] = {2, 3, 128, 129, 254, 255, '0', '1'};
    return one_in(2) ? bad[below(8)] : (uint8_t)between(2, 255);
}

static void try_blocks(void)
{
    for (uint32_t operation = 0; operation < OPERATIONS; operation++)
        for (size_t ticks = 1; ticks <= 40; ticks++) {
            const size_t places[] = {0, ticks - 1, (size_t)below(ticks)};
            for (int i = 0; i < 3; i++) {
                random_batch(operation, ticks);
                batch.bytes[BLOCK][places[i]] = bad_block();
                try_batch(BLOCKS);
            }
        }
}

/* ---- The longest batch ---- */

static void try_long(uint32_t operation)
{
    random_batch(operation, LIMIT);
    try_batch(LONG);
    batch.bytes[BLOCK][LIMIT - 1] = bad_block();
    try_batch(LONG);
    random_batch(operation, LIMIT + 1);
    try_batch(LONG);
    batch.bytes[BLOCK][below(LIMIT + 1)] = bad_block();
    try_batch(LONG);
    batch.length[below(SLICES)]--;
    try_batch(LONG);
    random_batch(operation, LIMIT + 1);
    batch.length[STATES] = OC_STATES_LENGTH - 1;
    try_batch(LONG);
    random_batch(operation, LIMIT + 1);
    set_invalid(1, 0, 1);
    try_batch(LONG);
}

/* One current throughout: counts that reach 60,000, sums that reach the level, a phase that is held. */
static void try_long_constant(uint32_t operation)
{
    usual_settings(operation);
    batch.settings[DEFINITE_DELAY] = LIMIT;
    quiet_batch(LIMIT);
    constant_current(L1, LIMIT, 15000);
    constant_current(L2, LIMIT, costly(operation) ? 10001 : 50000);
    constant_current(L3, LIMIT, 9600);
    set_running(2, 0, 1);
    try_batch(LONG);
    carry_states();
    batch.length[L1] = batch.length[L2] = batch.length[L3] = 400;
    batch.length[BLOCK] = batch.length[OUT] = 100;
    try_batch(LONG);
}

/* ---- Several faults: the lowest number is told ---- */

static void spoil(enum setting unlucky, size_t ticks)
{
    if (one_in(8))
        spoil_setting(unlucky);
    if (one_in(3))
        set_invalid((int)below(3), one_in(2) ? UINT64_MAX : 0, (uint32_t)between(1, LIMIT));
    if (one_in(3))
        batch.bytes[BLOCK][one_in(2) ? ticks - 1 : below(ticks)] = bad_block();
    if (one_in(3)) {
        size_t *length = &batch.length[below(SLICES)];
        *length = one_in(2) ? *length + 1 : *length - 1;
    }
}

static void try_faults(void)
{
    for (int round = 0; round < 6000; round++) {
        size_t ticks = (size_t)between(1, 30);
        random_batch((uint32_t)below(OPERATIONS), ticks);
        spoil((enum setting)below(SETTINGS), ticks);
        try_batch(FAULTS);
    }
    random_batch(3, LIMIT + 1);
    for (int round = 0; round < 150; round++) {
        random_settings(3);
        set_ticks(LIMIT + 1);
        random_states();
        batch.bytes[BLOCK][LIMIT] = 0;
        spoil((enum setting)below(SETTINGS), LIMIT + 1);
        try_batch(FAULTS);
    }
}

/* ---- Accepted batches ---- */

static void try_empty(void)
{
    for (int round = 0; round < 500; round++) {
        random_batch((uint32_t)below(OPERATIONS), 0);
        if (one_in(4))
            spoil_setting((enum setting)below(SETTINGS));
        if (one_in(4))
            set_invalid((int)below(3), 0, 1);
        try_batch(EMPTY);
    }
}

static void try_short(uint32_t operation)
{
    for (uint32_t round = 0; round < effort(operation, 2000); round++) {
        random_batch(operation, (size_t)between(1, one_in(4) ? 400 : 60));
        try_batch(SHORT);
    }
}

static void try_carried(uint32_t operation)
{
    for (uint32_t round = 0; round < effort(operation, 60); round++) {
        random_batch(operation, 1);
        if (one_in(2))
            clear_states();
        for (int part = 0; part < 25; part++) {
            size_t ticks = (size_t)between(0, one_in(3) ? 300 : 50);
            set_ticks(ticks);
            random_currents(ticks);
            random_blocks(ticks);
            random_out(ticks);
            try_batch(CARRIED);
            carry_states();
        }
    }
}

/*
 * The sum is built up, then the current dips for about the reset time: an IEC
 * sum or a definite run is kept or cleared at one tick, an ANSI sum decays tick
 * by tick. At a current that holds the phase there is no dip: it stays started.
 */
static void try_dip(uint32_t operation, uint32_t reset_time, size_t dip)
{
    uint32_t s = (uint32_t)between(10, 3000);
    size_t ticks = 2 + dip + 2;
    set_settings(operation, s, one_in(2) ? 5 : 1500, 40, 40, reset_time, 0);
    quiet_batch(ticks);
    for (enum slice phase = L1; phase <= L3; phase++) {
        uint32_t low = one_in(4) ? holding_current(s) : idle_current(s);
        for (size_t tick = 0; tick < ticks; tick++)
            set_current(phase, tick, tick >= 2 && tick < 2 + dip ? low : started_current(s));
        set_running((int)phase, operation == 1 ? 0 : random_sum(), one_in(2) ? 0 : 500);
    }
    random_blocks(ticks);
    try_batch(DIPS);
}

static void try_dips(uint32_t operation)
{
    for (uint32_t round = 0; round < 40; round++) {
        uint32_t reset_time = round == 0 ? 20000 : (uint32_t)between(60, 600);
        for (size_t off = 0; off < 4; off++) {
            try_dip(operation, reset_time, reset_time - 2 + off);
            try_dip(operation, reset_time, (size_t)below(3 * reset_time));
        }
    }
}

/* A dip that goes over several batches, until even the slowest decay has ended. */
static void try_long_decay(uint32_t operation)
{
    set_settings(operation, 100, 100, 40, 40, 60000, 0);
    quiet_batch(LIMIT);
    constant_current(L1, LIMIT, 0);
    constant_current(L2, LIMIT, 5000);
    constant_current(L3, LIMIT, 10000);
    for (int phase = 0; phase < 3; phase++)
        set_running(phase, operation == 1 ? 0 : trip_level(), phase == 2 ? 0 : LIMIT);
    for (int part = 0; part < 2; part++) {
        try_batch(DIPS);
        carry_states();
    }
    /* On the setting exactly, an ANSI sum stands still. */
    worked(operation <= 5 || sum_of(2) == trip_level(), "at m = 100 the loss is 0");
    worked(operation <= 5 || sum_of(0) == 0, "an ANSI sum goes down to 0");
}

/* Mostly shorter than the reset time, often within two ticks of it; some are long. */
static size_t random_dip(void)
{
    uint32_t reset_time = batch.settings[RESET_TIME];
    switch (below(8)) {
    case 0:
    case 1:
        return reset_time - 2 + (size_t)below(4);
    case 2:
        return (size_t)between(reset_time, 4 * reset_time);
    default:
        return (size_t)between(1, reset_time - 1);
    }
}

/* Some of the currents after the first leave the phase as that has made it. Returns the end. */
static size_t add_stretch(enum slice phase, size_t tick, size_t end, uint32_t (*first)(uint32_t))
{
    uint32_t s = batch.settings[START_CURRENT];
    for (size_t start = tick; tick < end; tick++)
        set_current(phase, tick, tick > start && one_in(3) ? holding_current(s) : first(s));
    return tick;
}

static size_t least(size_t a, size_t b)
{
    return a < b ? a : b;
}

static void pecking_currents(enum slice phase, size_t ticks)
{
    for (size_t tick = 0; tick < ticks;) {
        size_t burst = (size_t)between(1, 60), dip = random_dip();
        tick = add_stretch(phase, tick, least(ticks, tick + burst), started_current);
        tick = add_stretch(phase, tick, least(ticks, tick + dip), idle_current);
    }
}

/* Over several batches, so that runs are kept across their ends too. */
static void try_pecking(uint32_t operation)
{
    for (uint32_t round = 0; round < effort(operation, 40); round++) {
        random_settings(operation);
        batch.settings[DEFINITE_DELAY] = (uint32_t)between(40, 400);
        batch.settings[RESET_TIME] = (uint32_t)between(60, 300);
        random_states();
        for (int part = 0; part < 5; part++) {
            size_t ticks = (size_t)between(1, 1000);
            set_ticks(ticks);
            for (enum slice phase = L1; phase <= L3; phase++)
                pecking_currents(phase, ticks);
            random_blocks(ticks);
            random_out(ticks);
            try_batch(PECKING);
            carry_states();
        }
    }
}

/*
 * The currents are one memory, or overlap, and the blocks lie in it too: the
 * bytes there are made 0 and 1, or all 0, and so are currents as well. Some are
 * left as they are, and are mostly refused.
 */
static void try_shared(uint32_t operation)
{
    enum { SLACK = 32 };
    static uint8_t bytes[CAPACITY];
    for (uint32_t round = 0; round < effort(operation, 400); round++) {
        size_t ticks = (size_t)between(1, one_in(4) ? 400 : 60);
        random_batch(operation, ticks + SLACK / 4);
        set_ticks(ticks);
        memcpy(bytes, batch.bytes[L1], 4 * ticks + SLACK);
        size_t places[] = {0, 0, 0, (size_t)below(3 * ticks + 1)};
        if (one_in(2))
            for (enum slice phase = L1; phase <= L3; phase++)
                places[phase] = (size_t)below(SLACK + 1);
        uint64_t blocks = below(5);
        for (size_t i = 0; i < ticks && blocks > 0; i++)
            bytes[places[BLOCK] + i] = blocks < 3 ? 0 : (uint8_t)below(2);
        for (enum slice i = L1; i <= BLOCK; i++)
            memcpy(batch.bytes[i], bytes + places[i], batch.length[i]);
        lend_shared(bytes, 4 * ticks + SLACK, places);
        try_lent(SHARED);
    }
}

/* ---- The report ---- */

static void say_refusals(void)
{
    printf("\n%-10s%12s%12s\n", "refusal", "checks", "batches");
    for (int i = 0; i < REFUSALS; i++)
        if (refusals_checked[i] + refusals_batch[i] > 0)
            printf("%-10d%12lu%12lu\n", i, refusals_checked[i], refusals_batch[i]);
}

static void say_operations(void)
{
    printf("\n%-10s%12s%12s%12s%12s%16s%16s\n", "operation", "ticks", "started", "held", "tripped",
           "tripped,blocked", "of a kept run");
    for (int i = 0; i < OPERATIONS; i++)
        printf("%-10d%12lu%12lu%12lu%12lu%16lu%16lu\n", i, ticks_run[i], starts[i], held[i],
               trips[i], blocked_trips[i], kept_trips[i]);
}

/* A test that never met a rule says nothing of it, so '0 differ' is then not the last line. */
static bool all_seen(void)
{
    static const int numbers[] = {0, 1, 2, 3, 4, 5, 6, 7, 8, 10, 11, 14};
    bool all = true;
    for (int i = 0; i < 12; i++) {
        int number = numbers[i];
        if (refusals_batch[number] == 0 || (number < 8 && refusals_checked[number] == 0)) {
            printf("refusal %d was never seen\n", number);
            all = false;
        }
    }
    for (int i = 1; i < OPERATIONS; i++)
        if (held[i] == 0 || trips[i] == 0 || blocked_trips[i] == 0) {
            printf("operation %d was never held, never tripped, or never while blocked\n", i);
            all = false;
        }
    if (kept_trips[1] == 0) {
        printf("definite time never tripped of a kept run\n");
        all = false;
    }
    return all;
}

static unsigned long say_kinds(void)
{
    unsigned long cases = 0;
    printf("%-56s%10s\n", "kind of case", "cases");
    for (int i = 0; i < KINDS; i++) {
        printf("%-56s%10lu\n", kind_names[i], tried[i]);
        cases += tried[i];
    }
    return cases;
}

static void try_all(void)
{
    try_worked();
    try_settings();
    try_settings_together();
    try_all_ratios();
    try_states();
    try_lengths();
    try_blocks();
    try_faults();
    try_empty();
    for (uint32_t operation = 0; operation < OPERATIONS; operation++) {
        try_short(operation);
        try_carried(operation);
        try_long(operation);
        if (operation == 0)
            continue;
        try_long_constant(operation);
        try_dips(operation);
        try_pecking(operation);
        try_long_decay(operation);
    }
    for (uint32_t operation = 0; operation < OPERATIONS; operation++)
        try_shared(operation);
}

int main(void)
{
    /* By lines, so that what was told is not lost if the archive ends the program. */
    setvbuf(stdout, NULL, _IOLBF, BUFSIZ);
    plain_fill_powers();
    try_all();
    unsigned long cases = say_kinds();
    say_refusals();
    say_operations();
    printf("\n");
    printf("%lu cases, %lu differ\n", cases, differing);
    return all_seen() && differing == 0 ? 0 : 1;
}
