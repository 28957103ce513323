/*
 * Document 01, as document 02 amends it, in plain C: the settings check and the
 * batch at the byte border, with the arguments and answers of oc_check_settings
 * and oc_batch, and the one tick of three phases below them. It shares no code
 * and no table with the archive, so that the two can be compared.
 */
#ifndef PLAIN_H
#define PLAIN_H

#include <stdbool.h>
#include <stddef.h>
#include <stdint.h>

struct plain_settings {
    uint32_t operation;
    uint32_t start_current;
    uint32_t time_multiplier;
    uint32_t minimum_delay;
    uint32_t definite_delay;
    uint32_t reset_time;
    uint32_t start_only;
};

/* The clear state is all zero. */
struct plain_phase {
    uint64_t sum;
    uint32_t run;
    uint32_t drop;
    bool started; /* on its last tick */
};

/* Works out the table of X(m). To be called once, before the first batch or tick. */
void plain_fill_powers(void);

/* Whether a tick with these accepted settings looks into that table, which takes long to fill. */
bool plain_needs_powers(const struct plain_settings *set);

/* One tick: accepted settings, valid states, block 0 or 1. Returns the output byte. */
uint8_t plain_tick(const struct plain_settings *set, struct plain_phase phases[3],
                   const uint32_t g[3], uint8_t block);

uint32_t plain_check_settings(uint32_t operation, uint32_t start_current,
                              uint32_t time_multiplier, uint32_t minimum_delay,
                              uint32_t definite_delay, uint32_t reset_time,
                              uint32_t start_only);

uint32_t plain_batch(uint32_t operation, uint32_t start_current, uint32_t time_multiplier,
                     uint32_t minimum_delay, uint32_t definite_delay, uint32_t reset_time,
                     uint32_t start_only,
                     const uint8_t *l1, size_t l1_len,
                     const uint8_t *l2, size_t l2_len,
                     const uint8_t *l3, size_t l3_len,
                     const uint8_t *block, size_t block_len,
                     uint8_t *out, size_t out_len,
                     uint8_t *states, size_t states_len);

#endif
