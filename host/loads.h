/*
 * What bench.c and count.c measure: a batch of the archive and the same batch
 * of plain.c, on one input.
 */
#ifndef LOADS_H
#define LOADS_H

#include "overcurrent.h"

#include <stdbool.h>
#include <stddef.h>
#include <stdint.h>

enum { TICKS = 60000 };

/* What the samples of the three phases do from tick to tick. */
enum currents { CONSTANT, CHANGING, WANDERING };

/* A kind of samples, with the settings and the first states that go with it. */
struct load {
    const char *name;
    uint32_t start_current;
    struct { uint32_t lowest, highest; } ratio; /* of a sample to it, in hundredths */
    uint32_t time_multiplier;
    uint32_t definite_delay;
    bool full; /* the sums are at the level, where the operation has sums */
    uint32_t run; /* of phases that are started, where it is above 0 */
};

extern const struct load idle, counting, tripping, mixed, wandering;

typedef uint32_t batch_call(uint32_t, uint32_t, uint32_t, uint32_t, uint32_t, uint32_t, uint32_t,
                            const uint8_t *, size_t, const uint8_t *, size_t,
                            const uint8_t *, size_t, const uint8_t *, size_t,
                            uint8_t *, size_t, uint8_t *, size_t);

struct side {
    batch_call *call;
    uint8_t out[TICKS];
    uint8_t states[OC_STATES_LENGTH];
};

extern struct side archive, plain;

/* Makes the input of the batches that follow. */
void fill_input(uint32_t operation, const struct load *load, enum currents currents);

/* One batch on that input. Returns whether it was accepted. */
bool run_batch(struct side *side);

/* Whether both sides gave the same outputs and states. */
bool same_answers(void);

#endif
