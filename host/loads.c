#include "loads.h"
#include "plain.h"

#include <string.h>

const struct load
    /* Begins with a sum to lose. */
    idle = {.name = "idle", .start_current = 100, .ratio = {0, 99}, .time_multiplier = 1500,
            .definite_delay = 40, .full = true},
    /* So low that no sum gets to its level. */
    counting = {.name = "counting", .start_current = 100, .ratio = {110, 200},
                .time_multiplier = 1500, .definite_delay = 60000},
    /* Begins at the level, with its run done. */
    tripping = {.name = "tripping", .start_current = 100, .ratio = {500, 1999},
                .time_multiplier = 100, .definite_delay = 40, .full = true, .run = 60000},
    /* About half of the ticks are idle. */
    mixed = {.name = "mixed", .start_current = 100, .ratio = {0, 200}, .time_multiplier = 1500,
             .definite_delay = 60000},
    /* A ratio is 1,000 samples wide. */
    wandering = {.name = "wandering", .start_current = 1000, .ratio = {110, 200},
                 .time_multiplier = 1500, .definite_delay = 60000};

struct side archive = {.call = oc_batch}, plain = {.call = plain_batch};

static struct {
    uint32_t operation;
    const struct load *load;
    uint8_t samples[3][4 * TICKS];
    uint8_t block[TICKS];
    uint8_t states[OC_STATES_LENGTH];
} input;

static void put_number(uint8_t *bytes, uint64_t value, int count)
{
    for (int i = 0; i < count; i++)
        bytes[i] = (uint8_t)(value >> 8 * i);
}

static uint32_t next_chance(uint32_t chance)
{
    chance ^= chance << 13;
    chance ^= chance >> 17;
    chance ^= chance << 5;
    return chance;
}

/*
 * A wander goes from the lowest ratio to the highest and back in the run, each
 * phase a third of the way ahead of the one before, with noise of up to 10: the
 * sample changes at nearly each tick, by little, and the ratio seldom.
 */
static uint32_t wander(uint32_t span, int phase, int tick, uint32_t chance)
{
    enum { NOISE = 10 };
    uint32_t way = (uint32_t)(tick + phase * (TICKS / 3)) % TICKS;
    uint64_t up = way < TICKS / 2 ? way : TICKS - way;
    return (uint32_t)(up * (span - 2 * NOISE) / (TICKS / 2)) + chance % (2 * NOISE + 1);
}

static void fill_samples(const struct load *load, enum currents currents)
{
    uint32_t lowest = load->ratio.lowest * load->start_current + 1;
    uint32_t span = (load->ratio.highest - load->ratio.lowest) * load->start_current;
    uint32_t chance = 2463534242u;
    for (int phase = 0; phase < 3; phase++)
        for (int tick = 0; tick < TICKS; tick++) {
            if (currents != CONSTANT || tick == 0)
                chance = next_chance(chance);
            uint32_t above = currents == WANDERING ? wander(span, phase, tick, chance)
                                                   : chance % span;
            put_number(input.samples[phase] + 4 * tick, lowest + above, 4);
        }
}

static void fill_states(uint32_t operation, const struct load *load)
{
    uint64_t level = load->time_multiplier * (uint64_t)1000000000;
    for (int phase = 0; phase < 3; phase++) {
        uint8_t *state = input.states + OC_STATE_LENGTH * phase;
        put_number(state + OC_SUM_AT, load->full && operation > OC_DEFINITE ? level : 0, 8);
        put_number(state + OC_RUN_AT, load->run, 4);
        put_number(state + OC_DROP_AT, 0, 4);
        put_number(state + OC_STARTED_AT, load->run > 0, 4);
    }
}

void fill_input(uint32_t operation, const struct load *load, enum currents currents)
{
    input.operation = operation;
    input.load = load;
    fill_samples(load, currents);
    fill_states(operation, load);
}

bool run_batch(struct side *side)
{
    const struct load *load = input.load;
    memcpy(side->states, input.states, sizeof input.states);
    uint32_t refusal = side->call(input.operation, load->start_current, load->time_multiplier, 40,
                                  load->definite_delay, 60000, 0,
                                  input.samples[0], 4 * TICKS, input.samples[1], 4 * TICKS,
                                  input.samples[2], 4 * TICKS, input.block, TICKS,
                                  side->out, TICKS, side->states, sizeof side->states);
    return refusal == 0;
}

bool same_answers(void)
{
    return memcmp(archive.out, plain.out, sizeof plain.out) == 0
        && memcmp(archive.states, plain.states, sizeof plain.states) == 0;
}
