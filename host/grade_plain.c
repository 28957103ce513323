/*
 * The program grade in plain C (document 02, E9), over plain.c's tick. It shares no code with the
 * proved one, so that they can be compared.
 *   grade_plain WANTED   writes the ratios at which the margin is below WANTED, and the end line
 * Standard input has upstream's settings line, then downstream's; what comes after is not read. A
 * refusal is said on standard error. Words in quotes are the documents'.
 */
#include "plain.c" /* itself: the tick of one phase and the rule of X(m) are static there */

#include <math.h>
#include <stdio.h>
#include <stdlib.h>
#include <string.h>

/* ---- The two settings lines ---- */

enum { FIELDS = 7, MOST_DIGITS = 5 };

enum refusal { ACCEPTED = 0, NO_DIGIT = 29, DIGIT_TOO_MANY = 30, STRAY_BYTE = 31, WRONG_COUNT = 32,
               WRONG_END = 33, NEVER_TRIPS = 34 };

/* A field and the byte that closes it, EOF for the end. */
static uint32_t read_field(uint32_t *value, int *close)
{
    int byte, digits = 0;
    *value = 0;
    while (byte = getchar(), '0' <= byte && byte <= '9') {
        if (digits++ == MOST_DIGITS)
            return DIGIT_TOO_MANY;
        *value = *value * 10 + (uint32_t)(byte - '0');
    }
    *close = byte;
    if (byte != ',' && byte != '\r' && byte != EOF)
        return STRAY_BYTE;
    return digits == 0 ? NO_DIGIT : ACCEPTED;
}

/*
 * Byte by byte to the first fault, since "the one at the lowest offset is told". A missing line is
 * one with no digit.
 */
static uint32_t read_settings_line(struct plain_settings *set)
{
    uint32_t v[FIELDS];
    int close = EOF;
    for (int i = 0; i < FIELDS; i++) {
        uint32_t refusal = read_field(&v[i], &close);
        if (refusal != ACCEPTED)
            return refusal;
        if ((close == ',') != (i + 1 < FIELDS))
            return WRONG_COUNT;
    }
    *set = (struct plain_settings){v[0], v[1], v[2], v[3], v[4], v[5], v[6]};
    return close == '\r' && getchar() == '\n' ? ACCEPTED : WRONG_END;
}

/* ---- Refusals ---- */

struct pair {
    struct plain_settings upstream, downstream;
};

struct refused {
    uint32_t number;
    const char *relay;
};

/* The lower number of the two that is not 0; "upstream where both fit". */
static struct refused lower(uint32_t upstream, uint32_t downstream)
{
    if (upstream != ACCEPTED && (downstream == ACCEPTED || upstream <= downstream))
        return (struct refused){upstream, "upstream"};
    return (struct refused){downstream, "downstream"};
}

/* Upstream's line first: where it is refused, downstream's is not looked at. */
static struct refused read_pair(struct pair *pair)
{
    uint32_t refusal = read_settings_line(&pair->upstream);
    if (refusal != ACCEPTED)
        return (struct refused){refusal, "upstream"};
    return (struct refused){read_settings_line(&pair->downstream), "downstream"};
}

/* "operations 0 and 1 or start only on" */
static uint32_t never_trips(const struct plain_settings *set)
{
    return !is_curve(set) || set->start_only == 1 ? NEVER_TRIPS : ACCEPTED;
}

/* "Refused in this order: settings, by the lowest of 1 to 7"; then relays that never trip */
static struct refused refusal_of(const struct pair *pair)
{
    struct refused refused = lower(settings_refusal(&pair->upstream),
                                   settings_refusal(&pair->downstream));
    if (refused.number == ACCEPTED)
        refused = lower(never_trips(&pair->upstream), never_trips(&pair->downstream));
    return refused;
}

/* ---- The first trip ---- */

enum { LOWEST_RATIO = 101, HIGHEST_RATIO = 2000 };

/*
 * plain_fill_powers would take most of the time. Here the rule is asked around a guess: from the
 * least X on it holds, so the guess decides nothing but how often it is asked.
 */
static void fill_powers_from_guesses(void)
{
    for (uint32_t m = LOWEST_RATIO; m <= HIGHEST_RATIO; m++) {
        uint64_t x = (uint64_t)ceil(1000000 / (pow(m / 100.0, 0.02) - 1));
        while (!power_rule(m, x))
            x++;
        while (power_rule(m, x - 1))
            x--;
        powers[m] = x;
    }
}

/* The phase after so many ticks from clear that all had this gain: rule 3, so often. */
static struct plain_phase phase_after(const struct plain_settings *set, uint64_t per_tick,
                                      uint64_t ticks)
{
    uint64_t sum = ticks * per_tick, level = trip_level(set);
    uint64_t run = ticks < COUNT_LIMIT ? ticks : COUNT_LIMIT;
    return (struct plain_phase){sum < level ? sum : level, (uint32_t)run, 0, ticks > 0};
}

/*
 * The last tick without a trip, by halves. Sum and run only grow, so a tick without one has none
 * before it. No trip comes as late as tick 2^28; the products stay below 2^58.
 */
static uint64_t last_without_trip(const struct plain_settings *set, uint64_t per_tick)
{
    uint64_t last = 0;
    for (uint64_t more = (uint64_t)1 << 27; more > 0; more /= 2) {
        struct plain_phase phase = phase_after(set, per_tick, last + more);
        if (!trips(set, &phase))
            last += more;
    }
    return last;
}

/*
 * So many ticks before the trip are walked by plain.c's tick, at every hundredth ratio more: from
 * clear, where there are no more. To walk them all would take seconds.
 */
enum { WALKED = 100, WALKED_AT_HUNDREDS = 20000 };

/* "the first trip tick", "from clear", "at that ratio of its own setting" */
static uint64_t first_trip(const struct plain_settings *set, uint32_t m)
{
    uint64_t walked = m % 100 == 0 ? WALKED_AT_HUNDREDS : WALKED;
    uint64_t per_tick = gain(&curves[set->operation], m);
    uint64_t last = last_without_trip(set, per_tick);
    uint64_t tick = last > walked ? last - walked : 0;
    struct plain_phase phase = phase_after(set, per_tick, tick);
    do
        tick++;
    while ((phase_tick(set, &phase, m * set->start_current) & 8) == 0);
    if (tick != last + 1) {
        fputs("grade_plain: the walked trip is not the one that was searched\n", stderr);
        abort();
    }
    return tick;
}

/* ---- The margins ---- */

static void write_margins(const struct pair *pair, int64_t wanted)
{
    int64_t smallest = INT64_MAX;
    unsigned count = 0, smallest_at = 0;
    for (uint32_t m = LOWEST_RATIO; m <= HIGHEST_RATIO; m++) {
        int64_t upstream = (int64_t)first_trip(&pair->upstream, m);
        int64_t downstream = (int64_t)first_trip(&pair->downstream, m);
        int64_t difference = upstream - downstream;
        if (difference < wanted) {
            printf("%u,%lld,%lld,%lld\n", (unsigned)m, (long long)upstream, (long long)downstream,
                   (long long)difference);
            count++;
        }
        if (difference < smallest) {
            smallest = difference;
            smallest_at = m;
        }
    }
    printf("end,%u,%lld,%u,0\n", count, (long long)smallest, smallest_at);
}

static void answer(int64_t wanted)
{
    struct pair pair;
    struct refused refused = read_pair(&pair);
    if (refused.number == ACCEPTED)
        refused = refusal_of(&pair);
    if (refused.number != ACCEPTED) {
        printf("end,0,0,0,%u\n", (unsigned)refused.number);
        fprintf(stderr, "%s: refused %u\n", refused.relay, (unsigned)refused.number);
        return;
    }
    if (plain_needs_powers(&pair.upstream) || plain_needs_powers(&pair.downstream))
        fill_powers_from_guesses();
    write_margins(&pair, wanted);
}

/* ---- The command ---- */

/* An optional '-' and 1 to 10 digits. */
static bool read_wanted(const char *word, int64_t *wanted)
{
    const char *digits = word + (*word == '-');
    size_t count = strspn(digits, "0123456789");
    *wanted = strtoll(word, NULL, 10);
    return 1 <= count && count <= 10 && digits[count] == '\0';
}

int main(int count, char **words)
{
    int64_t wanted;
    if (count != 2 || !read_wanted(words[1], &wanted)) {
        fputs("failed: grade takes one wanted margin, '-' or not and 1 to 10 digits\n", stderr);
        return 0; /* as the proved one, which has no status of its own */
    }
    answer(wanted);
    return fflush(stdout) == 0 ? 0 : 1;
}
