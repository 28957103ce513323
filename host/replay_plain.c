/*
 * The programs replay, record and explain in plain C, over plain.c's tick. They
 * share no code with the proved ones, so that they can be compared.
 *   replay_plain replay        writes the changes and the end line
 *   replay_plain replay --config FILE
 *                              the same with the recorder's configuration
 *   replay_plain record        writes a row for each row done
 *   replay_plain explain ROW   writes why each phase did or did not trip in that row, or says on
 *                              standard error that there is no such row
 * Standard input to standard output; a refusal is said on standard error. Words in quotes are the
 * documents'.
 */
#include "config_plain.h"
#include "plain.h"

#include <stdio.h>
#include <stdlib.h>
#include <string.h>
#include <unistd.h>

enum refusal { ACCEPTED = 0, WRONG_NUMBER = 13, WRONG_BLOCK = 14, FIRST_OF_CONFIG = 18,
               LAST_OF_CONFIG = 27, WRONG_LAST_SAMPLE = 28, FIRST_FAULT = 29, STRAY_BYTE = 31 };

/* ---- Input: "in portions of at most 64 KiB" ---- */

/* A row has 45 bytes at most, the settings line 43: so many without CR LF are too many. */
enum { PORTION = 64 * 1024, TOO_LONG = 46 };

/*
 * What was read and not yet used lies from `next` to `filled`, where a byte 0
 * stands that is in no line of right shape: a line that breaks off ends there.
 */
static uint8_t bytes[PORTION + 1];
static const uint8_t *next = bytes;
static uint8_t *filled = bytes;

/* Reads on until the line is there whole or is too long, or the input ends. */
static void fill(void)
{
    size_t left = (size_t)(filled - next);
    memmove(bytes, next, left);
    next = bytes;
    while (left < TOO_LONG) {
        ssize_t got = read(STDIN_FILENO, bytes + left, PORTION - left);
        if (got < 0) {
            perror("standard input");
            exit(1);
        }
        if (got == 0)
            break;
        left += (size_t)got;
    }
    filled = bytes + left;
    *filled = 0;
}

/* Whether a line begins here, which is then there whole if its shape is right. */
static bool another_line(void)
{
    if (filled - next < TOO_LONG)
        fill();
    return next < filled;
}

/* ---- Lines ---- */

/* "Digits only, at most" `most` "of them, at least one", then the byte `close`. */
static inline bool read_field(const uint8_t **at, int most, uint8_t close, uint64_t *value)
{
    const uint8_t *p = *at;
    uint64_t number = 0;
    for (; '0' <= *p && *p <= '9' && p < *at + most; p++)
        number = number * 10 + (uint64_t)(*p - '0');
    *value = number;
    bool right = p > *at && *p == close;
    *at = p + 1;
    return right;
}

/* Whether the next line has these fields, "by commas, closed by CR LF"; goes past it if so. */
static inline bool read_line(int fields, const int most[], uint64_t values[])
{
    const uint8_t *at = next;
    for (int i = 0; i < fields; i++)
        if (!read_field(&at, most[i], i + 1 < fields ? ',' : '\r', &values[i]))
            return false;
    if (*at != '\n')
        return false;
    next = at + 1;
    return true;
}

/* ---- The place of a bad row ---- */

/* A line that is due so many fields; `cr` is its first CR, or its end where it has none. */
struct line {
    const uint8_t *bytes;
    size_t length, cr;
    int fields;
    const int *most;
};

static bool byte_is(const struct line *line, size_t at, uint8_t byte)
{
    return at < line->length && line->bytes[at] == byte;
}

static bool digit_is(const struct line *line, size_t at)
{
    return at < line->length && '0' <= line->bytes[at] && line->bytes[at] <= '9';
}

/* "the field, 1 plus the commas before it" */
static int field_at(const struct line *line, size_t at)
{
    int field = 1;
    for (size_t i = 0; i < at; i++)
        field += line->bytes[i] == ',';
    return field;
}

static int digits_before(const struct line *line, size_t at)
{
    int count = 0;
    while (at > 0 && digit_is(line, --at))
        count++;
    return count;
}

/* "a field with no digit (a comma, CR or end where its first is due)" */
static bool no_digit(const struct line *line, size_t at)
{
    bool due = at == 0 || byte_is(line, at - 1, ',');
    return due && (byte_is(line, at, ',') || byte_is(line, at, '\r') || at == line->length);
}

/* "a digit too many" */
static bool digit_too_many(const struct line *line, size_t at)
{
    int field = field_at(line, at);
    return digit_is(line, at) && field <= line->fields &&
           digits_before(line, at) >= line->most[field - 1];
}

/* "a byte before the CR that isn't digit or comma" */
static bool stray_byte(const struct line *line, size_t at)
{
    return at < line->cr && !digit_is(line, at) && !byte_is(line, at, ',');
}

/* "too few or too many fields (at the CR or end; at the comma)" */
static bool wrong_count(const struct line *line, size_t at)
{
    if (at == line->cr)
        return field_at(line, at) < line->fields;
    return at < line->cr && byte_is(line, at, ',') && field_at(line, at) >= line->fields;
}

/* "a missing CR LF or bytes after it (at the first wrong byte, or the end)" */
static bool wrong_end(const struct line *line, size_t at)
{
    if (line->cr == line->length)
        return at == line->length;
    if (!byte_is(line, line->cr + 1, '\n'))
        return at == line->cr + 1;
    return at == line->cr + 2 && at < line->length;
}

/* "at one offset the order just given decides" */
static bool (*const faults[])(const struct line *, size_t) = {no_digit, digit_too_many, stray_byte,
                                                              wrong_count, wrong_end};

static const char *const fault_words[] = {"no digit in the field", "a digit too many",
                                          "neither a digit nor a comma",
                                          "too few or too many fields",
                                          "CR LF is missing, or bytes follow it"};

enum { FAULTS = sizeof faults / sizeof faults[0] };

/* What is told of the line that was refused for its shape. */
static struct {
    size_t byte;
    int field;
    const char *words, *hint;
} place;

/* "a line feed where CR LF was due": right after a digit */
static bool lf_for_cr_lf(const struct line *line, size_t at)
{
    return byte_is(line, at, '\n') && digits_before(line, at) > 0;
}

static const char *hint_of(const struct line *line, size_t at)
{
    static const uint8_t mark[] = {0xef, 0xbb, 0xbf};
    if (lf_for_cr_lf(line, at))
        return "; the file seems to have LF line ends, where CR LF is due";
    if (line->length >= sizeof mark && memcmp(line->bytes, mark, sizeof mark) == 0)
        return "; the line begins with a byte order mark";
    if (byte_is(line, at, ';'))
        return "; a semicolon stands here, where fields are parted by commas";
    return "";
}

/* "Where several faults are in a row, the one at the lowest offset is told" */
static uint32_t first_fault(const struct line *line)
{
    for (size_t at = 0; at <= line->length; at++)
        for (uint32_t i = 0; i < FAULTS; i++)
            if (faults[i](line, at)) {
                place.byte = at;
                place.field = field_at(line, at);
                place.words = fault_words[i];
                place.hint = FIRST_FAULT + i == STRAY_BYTE ? hint_of(line, at) : "";
                return FIRST_FAULT + i;
            }
    fputs("replay_plain: a line that cannot be read has no fault\n", stderr);
    abort();
}

/*
 * Bytes to and with the next CR LF. Of a line that is too long, as many as were read: its fault
 * stands among the first TOO_LONG, so what comes after them cannot matter.
 */
static size_t line_length(void)
{
    for (const uint8_t *at = next; at + 1 < filled; at++)
        if (at[0] == '\r' && at[1] == '\n')
            return (size_t)(at + 2 - next);
    return (size_t)(filled - next);
}

/* The refusal of the next line, which read_line could not read. */
static uint32_t wrong_shape(int fields, const int most[])
{
    struct line line = {next, line_length(), 0, fields, most};
    while (line.cr < line.length && line.bytes[line.cr] != '\r')
        line.cr++;
    return first_fault(&line);
}

/* ---- The settings line and the rows ---- */

static const int row_most[6] = {6, 10, 7, 7, 7, 1};

/* The refusal of the next line where the settings line is due, with a hint where it is data row 1. */
static uint32_t wrong_settings(const int most[])
{
    uint32_t refusal = wrong_shape(7, most);
    uint64_t v[6];
    if (next < filled && read_line(6, row_most, v) && v[0] == 1)
        place.hint = "; this looks like data row 1: is the settings line missing?";
    return refusal;
}

/* "The settings line holds the seven settings the same way, 1 to 5 digits each." */
static uint32_t read_settings(struct plain_settings *set)
{
    static const int most[7] = {5, 5, 5, 5, 5, 5, 5};
    uint64_t v[7];
    if (!another_line() || !read_line(7, most, v)) /* "an empty input is one with no digit" */
        return wrong_settings(most);
    *set = (struct plain_settings){(uint32_t)v[0], (uint32_t)v[1], (uint32_t)v[2], (uint32_t)v[3],
                                   (uint32_t)v[4], (uint32_t)v[5], (uint32_t)v[6]};
    return plain_check_settings(set->operation, set->start_current, set->time_multiplier,
                                set->minimum_delay, set->definite_delay, set->reset_time,
                                set->start_only);
}

struct row {
    uint32_t g[3];
    uint8_t block;
};

/* "number, timestamp, L1, L2, L3, block"; "The timestamp is read and ignored." */
static uint32_t read_row(uint32_t last_number, struct row *row)
{
    uint64_t v[6];
    if (!read_line(6, row_most, v))
        return wrong_shape(6, row_most);
    if (v[0] != last_number + 1)
        return WRONG_NUMBER;
    if (v[5] > 1)
        return WRONG_BLOCK;
    *row = (struct row){{(uint32_t)v[2], (uint32_t)v[3], (uint32_t)v[4]}, (uint8_t)v[5]};
    return ACCEPTED;
}

/* ---- Why a phase did or did not trip ---- */

/*
 * "the first reason that holds in this order", by document 01's rules from the
 * phase after the tick, whose field tells whether it was started on that tick.
 */
static void write_reason(const struct plain_settings *set, const struct plain_phase *phase,
                         uint64_t trip_level, uint8_t block)
{
    bool definite = set->operation == 1;
    uint32_t delay = definite ? set->definite_delay : set->minimum_delay;
    if (set->operation == 0)
        printf("operation off");
    else if (!phase->started)
        printf("not started");
    else if (set->start_only == 1)
        printf("start only");
    else if (phase->run < delay)
        printf("too few ticks running, %u lacking", (unsigned)(delay - phase->run));
    else if (!definite && phase->sum < trip_level)
        printf("sum below the level, %llu lacking", (unsigned long long)(trip_level - phase->sum));
    else if (block == 1)
        printf("phase trip on, general trip blocked");
    else
        printf("tripped");
}

/* A line for each phase; its numbers are "those after the tick". */
static void write_explanation(const struct plain_settings *set, const struct plain_phase phases[3],
                              const struct row *row)
{
    uint64_t trip_level = (uint64_t)set->time_multiplier * 1000000000u;
    for (int i = 0; i < 3; i++) {
        printf("L%d: ", i + 1);
        write_reason(set, &phases[i], trip_level, row->block);
        printf("\tsample %u, run %u, drop %u, sum %llu, trip level %llu\n", (unsigned)row->g[i],
               (unsigned)phases[i].run, (unsigned)phases[i].drop,
               (unsigned long long)phases[i].sum, (unsigned long long)trip_level);
    }
}

/* ---- The replay, the record and the explanation ---- */

/*
 * "Row number, timestamp 1000 x (number - 1), the three currents, then eight status
 * fields, one for each bit of the output byte from bit 1 upward"
 */
static void write_record_row(unsigned number, const uint32_t g[3], uint8_t out)
{
    printf("%u,%u,%u,%u,%u", number, 1000 * (number - 1), (unsigned)g[0], (unsigned)g[1],
           (unsigned)g[2]);
    for (int bit = 0; bit < 8; bit++)
        printf(",%d", out >> bit & 1);
    printf("\r\n");
}

enum form { REPLAY, RECORD, EXPLAIN, EXPLAIN_ALL };

/*
 * What is written, and of the rows up to which; of the last one alone for EXPLAIN.
 * The configuration is a file, or NULL for none.
 */
struct asked {
    enum form form;
    uint32_t last_row;
    const char *config;
};

/*
 * Goes through the rows to the last one asked for, to the end of the input or to
 * the first refusal, which it returns.
 */
static uint32_t replay_rows(const struct plain_settings *set, struct asked asked,
                            uint32_t *rows_done)
{
    struct plain_phase phases[3] = {{0, 0, 0, false}, {0, 0, 0, false}, {0, 0, 0, false}};
    uint8_t before = 0;
    while (*rows_done < asked.last_row && another_line()) {
        struct row row;
        uint32_t refusal = read_row(*rows_done, &row);
        if (refusal != ACCEPTED)
            return refusal;
        ++*rows_done;
        uint8_t out = plain_tick(set, phases, row.g, row.block);
        if (asked.form == RECORD)
            write_record_row(*rows_done, row.g, out);
        else if (asked.form == REPLAY && out != before)
            printf("%u,%u\n", (unsigned)*rows_done, (unsigned)out);
        else if (asked.form == EXPLAIN_ALL || (asked.form == EXPLAIN && *rows_done == asked.last_row))
            write_explanation(set, phases, &row);
        before = out;
    }
    return ACCEPTED;
}

/* What the replay did, and what it ended with. */
struct ended {
    uint32_t refusal;
    uint32_t rows_done;
    bool settings_right;
    uint32_t config_line; /* that is refused */
};

/* Which line is refused, or the recording as a whole. */
static void say_what(const struct ended *ended)
{
    if (!ended->settings_right)
        fputs("settings line", stderr);
    else if (FIRST_OF_CONFIG <= ended->refusal && ended->refusal <= LAST_OF_CONFIG)
        fprintf(stderr, "line %u of the configuration", (unsigned)ended->config_line);
    else if (ended->refusal == WRONG_LAST_SAMPLE)
        fputs("recording", stderr);
    else
        fprintf(stderr, "row %u", (unsigned)ended->rows_done + 1);
}

/* The proved one's line, but without the words of a refusal that has no place. */
static void say_refusal(const struct ended *ended)
{
    say_what(ended);
    fprintf(stderr, ": refused %u: ", (unsigned)ended->refusal);
    if (ended->refusal >= FIRST_FAULT)
        fprintf(stderr, "byte %zu, field %d: %s%s", place.byte, place.field, place.words,
                place.hint);
    fputs("\n", stderr);
}

/* The record has no end line on standard output: it begins what is said. */
static void write_end(struct asked asked, const struct ended *ended)
{
    unsigned rows_done = (unsigned)ended->rows_done, refusal = (unsigned)ended->refusal;
    if (asked.form == REPLAY)
        printf("end,%u,%u\n", rows_done, refusal);
    if (asked.form == RECORD && refusal != ACCEPTED)
        fprintf(stderr, "end,%u,%u: ", rows_done, refusal);
    if (refusal != ACCEPTED)
        say_refusal(ended);
    else if (asked.form == EXPLAIN && rows_done < asked.last_row)
        fprintf(stderr, "the recording has no row %u; rows done: %u\n", (unsigned)asked.last_row,
                rows_done);
}

/* The rows, to the refusal of one or to their end, where their number must be the configuration's. */
static void answer_rows(const struct plain_settings *set, struct asked asked, uint64_t last_sample,
                        struct ended *ended)
{
    if (plain_needs_powers(set))
        plain_fill_powers();
    ended->refusal = replay_rows(set, asked, &ended->rows_done);
    if (ended->refusal == ACCEPTED && asked.config != NULL && ended->rows_done != last_sample)
        ended->refusal = WRONG_LAST_SAMPLE;
}

/* "the settings line first"; "then the configuration (18 to 27)"; "then the rows" */
static void answer(struct asked asked)
{
    struct plain_settings set;
    struct plain_config config = {ACCEPTED, 0, 0};
    struct ended ended = {read_settings(&set), 0, false, 0};
    ended.settings_right = ended.refusal == ACCEPTED;
    if (ended.settings_right && asked.config != NULL) {
        config = plain_read_config_file(asked.config);
        ended.refusal = config.refusal;
        ended.config_line = config.line;
    }
    if (ended.refusal == ACCEPTED)
        answer_rows(&set, asked, config.last_sample, &ended);
    write_end(asked, &ended);
}

/* ---- The command ---- */

/* Row 1 to 999999, in 1 to 6 digits; 0 for any other word. */
static uint32_t row_number(const char *word)
{
    const uint8_t *at = (const uint8_t *)word;
    uint64_t number;
    return read_field(&at, 6, '\0', &number) ? (uint32_t)number : 0;
}

int main(int count, char **words)
{
    const char *form = count > 1 ? words[1] : "";
    struct asked asked = {REPLAY, UINT32_MAX, NULL};
    if (strcmp(form, "explain") == 0 && count == 3 && strcmp(words[2], "--all") == 0) {
        asked.form = EXPLAIN_ALL;
    } else if (strcmp(form, "explain") == 0) {
        asked = (struct asked){EXPLAIN, count == 3 ? row_number(words[2]) : 0, NULL};
        if (asked.last_row == 0) {
            fputs("failed: explain takes one row number, 1 to 999999, or --all\n", stderr);
            return 0; /* as the proved one, which has no status of its own */
        }
    } else if (count == 2 && strcmp(form, "record") == 0) {
        asked.form = RECORD;
    } else if (count == 4 && strcmp(form, "replay") == 0 && strcmp(words[2], "--config") == 0) {
        asked.config = words[3];
    } else if (count != 2 || strcmp(form, "replay") != 0) {
        fputs("usage: replay_plain replay [--config FILE]|record|explain ROW|--all\n", stderr);
        return 2;
    }
    answer(asked);
    return fflush(stdout) == 0 ? 0 : 1;
}
