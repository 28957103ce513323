/*
 * Phase overcurrent relay module: the two functions of libborder.a.
 *
 * Three phases L1, L2, L3, one tick per millisecond. The rules are those of
 * document 01, as document 02 amends them; this page says what a caller in C
 * needs of them.
 *
 * Both functions return a refusal number, 0 when the call is accepted. They
 * keep nothing between calls: all that goes on from one batch to the next is
 * in the caller's `states`.
 *
 * The archive is for x86-64 from the level v2 on (SSE 4.2), by the System V calling
 * convention.
 * Stack needed: under 600 bytes, whatever the operation (`host/run --count` measures
 * it), after the 112 of a call of oc_batch, for 13 arguments and the return address.
 * It wants no symbol from elsewhere, memcpy neither.
 * It divides no 64-bit number (the ratio of a sample is a 32-bit division):
 * gains and losses are worked out by shift and subtract, some 420 instructions
 * for one of them. A batch works one out where a sample of a phase has another
 * ratio to the start current than the sample before, and for the first of the
 * batch; on definite time never, and on IEC curves only above the setting. So a
 * batch of one tick takes some 750 to 2,100 instructions, on Off some 300.
 *
 * Threads and interrupts. The archive has no state of its own: no data that
 * changes, no lock, no allocation, no call of the system. So calls on different
 * memory may run at the same time, on several threads or in an interrupt; on the
 * same out or states one at a time. A batch is not atomic: while it runs nobody
 * else writes to any of its slices, and whoever reads out or states may see them
 * half done. A bare interrupt handler that calls the archive aligns the stack to
 * 16 bytes, saves xmm0 to xmm15 and leaves alone the 128 bytes below the
 * interrupted stack pointer, as before any function of this convention. The proofs
 * speak of one call by itself; `host/run` fails where the archive has data that
 * changes, locks or calls the system.
 */
#ifndef OVERCURRENT_H
#define OVERCURRENT_H

#include <stddef.h>
#include <stdint.h>

#ifdef __cplusplus
extern "C" {
#endif

/* The setting `operation`. */
enum oc_operation {
    OC_OFF = 0,
    OC_DEFINITE = 1,
    OC_IEC_INV = 2,
    OC_IEC_VERY_INV = 3,
    OC_IEC_EXT_INV = 4,
    OC_IEC_LONG_INV = 5,
    OC_ANSI_INV = 6,
    OC_ANSI_MOD_INV = 7,
    OC_ANSI_VERY_INV = 8,
    OC_ANSI_EXT_INV = 9,
    OC_ANSI_LONG_INV = 10,
    OC_ANSI_LONG_VERY_INV = 11,
    OC_ANSI_LONG_EXT_INV = 12
};

/*
 * Refusal numbers. Where several apply to a call, the lowest is given.
 *
 * oc_check_settings gives 0 to 7; oc_batch gives any of these. The other
 * numbers, 9, 13, 15, the record's 16 and 17, the configuration's 18 to 28, the
 * bench's 29 to 33, for a line of wrong shape, and the grades' 34 to 36, belong to
 * calls that the archive does not export; 12 is retired. docs/FORMATS.md has them all.
 */
enum oc_refusal {
    OC_ACCEPTED = 0,

    /* A setting is outside its range. Every setting is checked, whatever the operation. */
    OC_BAD_OPERATION = 1,       /* not 0 to 12 */
    OC_BAD_START_CURRENT = 2,   /* not 10 to 3000 (% of rated current) */
    OC_BAD_TIME_MULTIPLIER = 3, /* not 5 to 1500 (hundredths) */
    OC_BAD_MINIMUM_DELAY = 4,   /* not 40 to 60000 (ms) */
    OC_BAD_DEFINITE_DELAY = 5,  /* not 40 to 60000 (ms) */
    OC_BAD_RESET_TIME = 6,      /* not 60 to 60000 (ms) */
    OC_BAD_START_ONLY = 7,      /* not 0 or 1 */

    /*
     * `states` has its 60 bytes and one of the three states is not valid under
     * these settings: the sum is above time_multiplier x 10^9; run or drop is
     * above 60000; started is not 0 or 1; or, by the operation,
     *   Off       anything is not 0;
     *   Definite  the sum is not 0; or started is 1 where run is 0 or drop is not;
     *   a curve   run and drop are both above 0; or started is 1 where run is 0,
     *             or 0 where run is not.
     * On Definite a phase that is not started may have any run and drop to
     * 60000. States kept from before a change of settings may be refused by this
     * number; they are never cleared silently. host/example.c has what to do then.
     */
    OC_BAD_STATE = 8,

    /*
     * Lengths do not agree: l1_len, l2_len or l3_len is not 4 x block_len, or
     * out_len is not block_len, or states_len is not 60. States of 48 bytes,
     * which have no field for started, are refused by this number.
     */
    OC_BAD_LENGTH = 10,

    OC_TOO_LONG = 11, /* lengths agree and block_len is above 60000 */
    OC_BAD_BLOCK = 14 /* a block byte, the last one included, is not 0 or 1 */
};

/*
 * One tick's output byte. The eight status fields of a row of the record are these bits, in this order.
 *
 * Unless the operation is Off, a phase starts at a current above
 * 100 x start_current and stays started until one is below 95 x start_current.
 * `started` in its state tells whether it was started on its last tick; `run`
 * does not: on Definite an idle phase keeps its run while drop is below
 * reset_time, and goes on from it where it starts again. On a curve the first
 * idle tick clears the run.
 */
enum oc_output {
    OC_START_L1 = 1,
    OC_START_L2 = 2,
    OC_START_L3 = 4,
    OC_TRIP_L1 = 8,
    OC_TRIP_L2 = 16,
    OC_TRIP_L3 = 32,
    OC_GENERAL_START = 64, /* any phase started, and the tick's block byte is 0 */
    OC_GENERAL_TRIP = 128  /* any phase tripped, and the tick's block byte is 0 */
};

/* Where a phase's state has its parts, each little-endian. */
enum oc_place {
    OC_SUM_AT = 0,      /* 8 bytes */
    OC_RUN_AT = 8,      /* 4 bytes: ticks running, to 60000 */
    OC_DROP_AT = 12,    /* 4 bytes: ticks idle, to 60000 */
    OC_STARTED_AT = 16  /* 4 bytes: 1 if it was started on its last tick, else 0 */
};

#define OC_STATE_LENGTH 20     /* bytes, of one phase */
#define OC_STATES_LENGTH 60    /* bytes, of the three */
#define OC_LONGEST_BATCH 60000 /* ticks */

/* The refusal number of these settings, 0 when each is in its range. */
uint32_t oc_check_settings(uint32_t operation, uint32_t start_current, uint32_t time_multiplier,
                           uint32_t minimum_delay, uint32_t definite_delay, uint32_t reset_time,
                           uint32_t start_only);

/*
 * Runs block_len ticks of the three phases.
 *
 * Each slice is a pointer and then its length in bytes:
 *
 *   l1, l2, l3  read     the currents, 4 bytes a tick, little-endian, in units of
 *                        0.01 % of rated current; any 32-bit number is a current
 *   block       read     one byte a tick, 0 or 1
 *   out         written  one output byte a tick (enum oc_output)
 *   states      both     60 bytes, 20 for each phase, L1 first: sum in 8 bytes, run in
 *                        4, drop in 4, started in 4 (enum oc_place).
 *                        All zero is the clear state, to start from.
 *
 * Accepted (0): out holds the output of every tick, and states the states
 * after the last one, to be handed to the next batch as they are. A batch of
 * 0 ticks leaves the states as they were. Only 1 to 8 refuse it, so it tells
 * whether the states are valid under the settings.
 *
 * Refused: no byte of out or states is touched. Whatever out holds then is
 * what the caller left there; it reports nothing.
 *
 * The caller sees to it that
 *   - each pointer has as many bytes behind it as its length says;
 *   - out and states overlap neither each other nor any other slice.
 * l1, l2, l3 and block are only read: they may overlap or be the same memory.
 * A slice of length 0 may be NULL. No alignment is needed.
 */
uint32_t oc_batch(uint32_t operation, uint32_t start_current, uint32_t time_multiplier,
                  uint32_t minimum_delay, uint32_t definite_delay, uint32_t reset_time,
                  uint32_t start_only,
                  const uint8_t *l1, size_t l1_len,
                  const uint8_t *l2, size_t l2_len,
                  const uint8_t *l3, size_t l3_len,
                  const uint8_t *block, size_t block_len,
                  uint8_t *out, size_t out_len,
                  uint8_t *states, size_t states_len);

#ifdef __cplusplus
}
#endif

#endif
