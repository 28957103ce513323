/*
 * How a firmware calls the module: it checks the settings, runs batches that
 * carry the states on, and meets a change of settings that the kept states do
 * not fit.
 *
 * Ends with status 1 where anything is not as it says here.
 */
#include "overcurrent.h"

#include <stdbool.h>
#include <stdio.h>
#include <string.h>

enum { TICKS = 400 }; /* of a batch */

/* Output bytes with L1 alone. */
enum {
    STARTED = OC_START_L1 | OC_GENERAL_START,
    TRIPPED = STARTED | OC_TRIP_L1 | OC_GENERAL_TRIP
};

struct settings {
    uint32_t operation, start_current, time_multiplier;
    uint32_t minimum_delay, definite_delay, reset_time, start_only;
};

static const struct settings
    very_inverse = {.operation = OC_IEC_VERY_INV, .start_current = 200, .time_multiplier = 5,
                    .minimum_delay = 40, .definite_delay = 40, .reset_time = 60},
    definite = {.operation = OC_DEFINITE, .start_current = 200, .time_multiplier = 5,
                .minimum_delay = 40, .definite_delay = 40, .reset_time = 60};

static uint8_t l1[4 * TICKS], l2[4 * TICKS], l3[4 * TICKS];
static uint8_t block[TICKS];
static uint8_t out[TICKS];
static uint8_t states[OC_STATES_LENGTH]; /* all zero: the clear state */

static bool as_said = true;

/* ---- Calls ---- */

static uint32_t check_settings(const struct settings *s)
{
    return oc_check_settings(s->operation, s->start_current, s->time_multiplier, s->minimum_delay,
                             s->definite_delay, s->reset_time, s->start_only);
}

static uint32_t run_batch(const struct settings *s, size_t ticks)
{
    return oc_batch(s->operation, s->start_current, s->time_multiplier, s->minimum_delay,
                    s->definite_delay, s->reset_time, s->start_only,
                    l1, 4 * ticks, l2, 4 * ticks, l3, 4 * ticks, block, ticks,
                    out, ticks, states, sizeof states);
}

/* ---- Bytes: little-endian, whatever the host's own order is ---- */

static void put_current(uint8_t *slice, size_t tick, uint32_t current)
{
    for (size_t i = 0; i < 4; i++)
        slice[4 * (tick - 1) + i] = (uint8_t)(current >> 8 * i);
}

static uint64_t get_number(const uint8_t *bytes, size_t count)
{
    uint64_t number = 0;
    for (size_t i = 0; i < count; i++)
        number |= (uint64_t)bytes[i] << 8 * i;
    return number;
}

/* ---- Shown: what came, and whether it is what was to come ---- */

static void end_line(bool right)
{
    printf("%s\n", right ? "" : "   NOT AS SAID");
    as_said = as_said && right;
}

static void show_refusal(const char *call, uint32_t refusal, uint32_t due)
{
    if (refusal == OC_ACCEPTED)
        printf("%s: accepted", call);
    else
        printf("%s: refused %u", call, (unsigned)refusal);
    end_line(refusal == due);
}

static void show_output(size_t tick, uint8_t due)
{
    uint8_t byte = out[tick - 1];
    printf("    tick %3zu: output %3u, L1 %s, L1 %s, general trip %s", tick, byte,
           byte & OC_START_L1 ? "started" : "not started",
           byte & OC_TRIP_L1 ? "tripped" : "not tripped",
           byte & OC_GENERAL_TRIP ? "on" : "off");
    end_line(byte == due);
}

static void show_state(int phase, uint64_t sum_due, uint64_t run_due, uint64_t drop_due)
{
    const uint8_t *state = states + OC_STATE_LENGTH * (phase - 1);
    unsigned long long sum = get_number(state + OC_SUM_AT, 8);
    unsigned long long run = get_number(state + OC_RUN_AT, 4);
    unsigned long long drop = get_number(state + OC_DROP_AT, 4);
    unsigned long long started = get_number(state + OC_STARTED_AT, 4);
    printf("    L%d: sum %llu, run %llu, drop %llu, started %llu", phase, sum, run, drop, started);
    end_line(sum == sum_due && run == run_due && drop == drop_due && started == (drop_due == 0));
}

/* ---- The story ---- */

/*
 * At twice the setting a tick of this curve gives 7407407 of the 5 x 10^9 that a
 * trip takes, so the trip is due at tick 676: the 276th of the second batch. From
 * clear states neither batch would get there; `states` carries the sum over.
 */
static void two_batches(void)
{
    for (size_t tick = 1; tick <= TICKS; tick++)
        put_current(l1, tick, 40000);

    show_refusal("batch 1, IEC VeryInv, clear states", run_batch(&very_inverse, TICKS), OC_ACCEPTED);
    show_output(1, STARTED);
    show_output(400, STARTED);
    show_state(1, 400 * (uint64_t)7407407, 400, 0);
    show_state(2, 0, 0, 400);
    show_state(3, 0, 0, 400);

    show_refusal("batch 2, the states of batch 1", run_batch(&very_inverse, TICKS), OC_ACCEPTED);
    show_output(275, STARTED);
    show_output(276, TRIPPED);
    show_state(1, 5000000000, 800, 0);
    show_state(2, 0, 0, 800);
    show_state(3, 0, 0, 800);
}

/*
 * A change that the states fit, as one of the start current, is accepted, and the
 * phases go on from where they are. A batch of 0 ticks asks for that.
 *
 * Definite time they do not fit: its settings are good in themselves, but a sum
 * must be 0 there and L1's is not, so the batch is refused. `out` still has the
 * bytes of batch 2, which say nothing of this one.
 */
static void changed_settings(void)
{
    struct settings raised = very_inverse;
    raised.start_current = 250;
    uint8_t out_before[sizeof out], states_before[sizeof states];
    memcpy(out_before, out, sizeof out);
    memcpy(states_before, states, sizeof states);

    show_refusal("a higher start current, 0 ticks", run_batch(&raised, 0), OC_ACCEPTED);
    show_refusal("check of definite time", check_settings(&definite), OC_ACCEPTED);
    show_refusal("batch 3, definite time, kept states", run_batch(&definite, TICKS), OC_BAD_STATE);
    bool kept = memcmp(out, out_before, sizeof out) == 0
             && memcmp(states, states_before, sizeof states) == 0;
    printf("    out and states are %s", kept ? "as they were" : "changed");
    end_line(kept);
}

/*
 * One way on: the old settings, for now. Nothing was touched, so the same
 * samples are run again, no tick is lost, and L1 stays tripped.
 */
static void go_on(void)
{
    show_refusal("batch 3 again, old settings", run_batch(&very_inverse, TICKS), OC_ACCEPTED);
    show_output(1, TRIPPED);
    show_state(1, 5000000000, 1200, 0);
}

/*
 * The other way: the firmware decides to clear the states, and takes its outputs
 * as off until the next batch has run. The module never does this by itself. All
 * phases count anew: L1, which had tripped, takes its 40 ms again.
 *
 * After that it dips: at 95 % of the setting it stays started, just below that
 * it is off, and back above the setting it trips at once, since on definite time
 * a dip shorter than the reset time keeps the run.
 */
static void clear_states(void)
{
    memset(states, 0, sizeof states);
    put_current(l1, 41, 19000);
    put_current(l1, 42, 18999);

    show_refusal("batch 4, definite time, cleared states", run_batch(&definite, TICKS), OC_ACCEPTED);
    show_output(1, STARTED);
    show_output(39, STARTED);
    show_output(40, TRIPPED);
    show_output(41, TRIPPED);
    show_output(42, 0);
    show_output(43, TRIPPED);
    show_state(1, 0, 399, 0);
}

int main(void)
{
    show_refusal("check of the settings", check_settings(&very_inverse), OC_ACCEPTED);
    two_batches();
    changed_settings();
    go_on();
    clear_states();
    return as_said ? 0 : 1;
}
