/*
 * Inputs for host/replay_check.
 *   replay_inputs small FOLDER              writes the small inputs there, a file each, and the list
 *                                           `known`: where it follows from how an input was made, the
 *                                           end line of its replay and what is said of the refusal
 *   replay_inputs rows LOAD OPERATION ROWS  writes one long recording to standard output
 *   replay_inputs feed BYTES                copies standard input to a pipe, BYTES at a time
 * Always the same inputs: chances come from a fixed seed.
 */
#define _DEFAULT_SOURCE
#include "inputs.h"

#include <poll.h>
#include <signal.h>
#include <stdbool.h>
#include <stdio.h>
#include <stdlib.h>
#include <string.h>
#include <sys/ioctl.h>
#include <unistd.h>

enum { PORTION = 64 * 1024 };

static const char *folder;
static FILE *known;
static char name[64];

/* ---- Faults of shape ---- */

enum { NO_DIGIT = 29, DIGIT_TOO_MANY = 30, STRAY_BYTE = 31, WRONG_COUNT = 32, WRONG_END = 33 };

static const char *const fault_words[] = {"no digit in the field", "a digit too many",
                                          "neither a digit nor a comma",
                                          "too few or too many fields",
                                          "CR LF is missing, or bytes follow it"};

/* The fault that is told of the input being added, if it is known; row 0 is the settings line. */
static struct {
    unsigned refusal; /* 0: not known */
    unsigned row, field;
    size_t line, byte;
} fault;

/*
 * The next byte, or the end, is a fault. All before it is right, but for an earlier fault, which is
 * then told: so each LF before it closes a line.
 */
static void fault_here(unsigned refusal)
{
    if (fault.refusal != 0)
        return;
    fault.refusal = refusal;
    fault.row = 0;
    fault.field = 1;
    fault.line = 0;
    for (size_t i = 0; i < used; i++)
        if (text[i] == '\n') {
            fault.row++;
            fault.field = 1;
            fault.line = i + 1;
        } else if (text[i] == ',') {
            fault.field++;
        }
    fault.byte = used - fault.line;
}

static bool is_digit(char byte)
{
    return '0' <= byte && byte <= '9';
}

/* Whether the first line is data row 1: its number is 1, and its other fields are right. */
static bool is_row_1(void)
{
    static const size_t most[] = {6, 10, 7, 7, 7, 1};
    size_t at = 0, number = 0;
    for (size_t field = 0; field < 6; field++) {
        size_t from = at;
        for (; at < used && is_digit(text[at]); at++)
            if (field == 0)
                number = 10 * number + (size_t)(text[at] - '0');
        if (at == from || at - from > most[field] || at == used || text[at] != (field < 5 ? ',' : '\r'))
            return false;
        at++;
    }
    return number == 1 && at < used && text[at] == '\n';
}

static const char *fault_hint(void)
{
    const char *line = text + fault.line;
    if (fault.row == 0 && is_row_1())
        return "; this looks like data row 1: is the settings line missing?";
    if (fault.refusal != STRAY_BYTE)
        return "";
    if (line[fault.byte] == '\n' && fault.byte > 0 && is_digit(line[fault.byte - 1]))
        return "; the file seems to have LF line ends, where CR LF is due";
    if (used - fault.line >= 3 && memcmp(line, "\xef\xbb\xbf", 3) == 0)
        return "; the line begins with a byte order mark";
    if (line[fault.byte] == ';')
        return "; a semicolon stands here, where fields are parted by commas";
    return "";
}

static void know_fault(void)
{
    fprintf(known, "%s.replay:end,%u,%u\n", name, fault.row - (fault.row > 0), fault.refusal);
    fprintf(known, "%s.replay.said:", name);
    if (fault.row == 0)
        fputs("settings line", known);
    else
        fprintf(known, "row %u", fault.row);
    fprintf(known, ": refused %u: byte %zu, field %u: %s%s\n", fault.refusal, fault.byte,
            fault.field, fault_words[fault.refusal - NO_DIGIT], fault_hint());
}

/* Files what was added as an input of its own, with its fault, and starts the next. */
static void keep(const char *label)
{
    static int kept;
    char path[4096];
    snprintf(name, sizeof name, "%05d_%s", ++kept, label);
    snprintf(path, sizeof path, "%s/%s", folder, name);
    if (fault.refusal != 0)
        know_fault();
    fault.refusal = 0;
    write_input(path);
}

/* Bytes with a fault at one of them or right after them; refusal 0 where none is known. */
struct hurt {
    const char *bytes;
    unsigned refusal;
    size_t at;
};

static void add_hurt(struct hurt hurt)
{
    add_bytes(hurt.bytes, hurt.at);
    if (hurt.refusal != 0)
        fault_here(hurt.refusal);
    add(hurt.bytes + hurt.at);
}

/* ---- A short recording, whole and hurt ---- */

static const char settings_line[] = "1,200,100,40,40,60,0\r\n";

/* Outputs change in every row, so a row too many or too few always shows. */
static const char short_recording[] = "1,200,100,40,40,60,0\r\n"
                                      "1,0,20001,0,0,0\r\n"
                                      "2,1,0,0,30000,1\r\n"
                                      "3,2,0,0,0,0\r\n";

enum { SHORT = sizeof short_recording - 1 };

static bool after(char byte)
{
    return used > 0 && text[used - 1] == byte;
}

/* A recording that is right so far ends here; at the end of a line that is no fault. */
static void cut_here(void)
{
    if (after('\n'))
        return;
    if (used == 0 || after(',')) {
        fault_here(NO_DIGIT);
        return;
    }
    fault_here(WRONG_END);
    if (!after('\r') && fault.field < (fault.row == 0 ? 7 : 6))
        fault.refusal = WRONG_COUNT;
}

static void prefixes(void)
{
    for (size_t i = 0; i <= SHORT; i++) {
        add_bytes(short_recording, i);
        cut_here();
        keep("prefix");
    }
}

/*
 * A digit, the bytes that end fields and lines, the neighbours of the digits, a byte that is no
 * letter, and the one that ends a string.
 */
static const char strange[] = {'0', ',', '\r', '\n', '/', ':', (char)0xb1, '\0'};

/* Adds a byte to a recording that is right so far: a fault, unless it may be right there. */
static void add_strange(char byte)
{
    bool digit = is_digit(byte), lf_due = byte == '\n' && after('\r');
    if (!digit && byte != ',' && byte != '\r' && !lf_due)
        fault_here(after('\r') ? WRONG_END : STRAY_BYTE);
    add_bytes(&byte, 1);
}

static void one_byte_hurt(void)
{
    for (size_t i = 0; i < SHORT; i++) {
        add_bytes(short_recording, i);
        if (short_recording[i] == '\r' || short_recording[i] == '\n')
            fault_here(short_recording[i] == '\r' ? STRAY_BYTE : WRONG_END);
        add_bytes(short_recording + i + 1, SHORT - i - 1);
        keep("deleted");
        for (size_t j = 0; j < sizeof strange; j++) {
            add_bytes(short_recording, i);
            add_strange(strange[j]);
            add_bytes(short_recording + i, SHORT - i);
            keep("inserted");
            add_bytes(short_recording, i);
            add_strange(strange[j]);
            add_bytes(short_recording + i + 1, SHORT - i - 1);
            keep("replaced");
        }
    }
}

/* ---- Settings ---- */

static const struct range {
    uint32_t low, high, good;
} ranges[7] = {{0, 12, 1},       {10, 3000, 200},  {5, 1500, 100}, {40, 60000, 40},
               {40, 60000, 40}, {60, 60000, 60}, {0, 1, 0}};

static const char starting_row[] = "1,0,9999999,0,0,0\r\n";

/* The settings line with these fields, one of which may be hurt, and a row that starts L1. */
static void settings_case(char fields[7][16], const struct hurt *hurt, int field, const char *label)
{
    for (int i = 0; i < 7; i++) {
        if (hurt != NULL && i == field)
            add_hurt(*hurt);
        else
            add(fields[i]);
        add(i < 6 ? "," : "\r\n");
    }
    add(starting_row);
    keep(label);
}

static void good_fields(char fields[7][16])
{
    for (int i = 0; i < 7; i++)
        snprintf(fields[i], 16, "%u", (unsigned)ranges[i].good);
}

static void settings_at_their_limits(void)
{
    static const struct hurt shapes[] = {
        {"", NO_DIGIT, 0},    {"000000", DIGIT_TOO_MANY, 5}, {"100000", DIGIT_TOO_MANY, 5},
        {"99999", 0, 0},      {"00000", 0, 0},               {"65536", 0, 0},
        {"-1", STRAY_BYTE, 0}, {"+1", STRAY_BYTE, 0},        {" 1", STRAY_BYTE, 0},
        {"1 ", STRAY_BYTE, 1}, {"1a", STRAY_BYTE, 1},        {"0x1", STRAY_BYTE, 1},
        {"1.0", STRAY_BYTE, 1}};
    char fields[7][16];
    for (int i = 0; i < 7; i++) {
        good_fields(fields);
        const uint32_t values[] = {ranges[i].low - 1, ranges[i].low, ranges[i].high,
                                   ranges[i].high + 1};
        for (int j = ranges[i].low == 0 ? 1 : 0; j < 4; j++) {
            snprintf(fields[i], 16, "%u", (unsigned)values[j]);
            settings_case(fields, NULL, 0, "limit");
            snprintf(fields[i], 16, "%05u", (unsigned)values[j]);
            settings_case(fields, NULL, 0, "limit_zeros");
        }
        for (size_t j = 0; j < sizeof shapes / sizeof shapes[0]; j++)
            settings_case(fields, &shapes[j], i, "setting_shape");
    }
}

/* Which of the wrong settings is told, and that a wrong shape goes before them all. */
static void settings_wrong_together(void)
{
    static const struct hurt letter = {"x", STRAY_BYTE, 0};
    char fields[7][16];
    for (unsigned wrong = 0; wrong < 128; wrong++) {
        good_fields(fields);
        for (int i = 0; i < 7; i++)
            if (wrong >> i & 1)
                strcpy(fields[i], "60001");
        settings_case(fields, NULL, 0, "settings_wrong");
        if (wrong != 0)
            settings_case(fields, &letter, 6, "settings_wrong_shape");
    }
}

static void settings_line_alone(void)
{
    static const struct hurt lines[] = {
        {"1,200,100,40,40,60,0\r\n", 0, 0},
        {"1,200,100,40,40,60,0", WRONG_END, 20},
        {"1,200,100,40,40,60,0\r", WRONG_END, 21},
        {"1,200,100,40,40,60,0\n", STRAY_BYTE, 20},
        {"1,200,100,40,40,60\r\n", WRONG_COUNT, 18},
        {"1,200,100,40,40,60,0,0\r\n", WRONG_COUNT, 20},
        {"13,200,100,40,40,60,0", WRONG_END, 21},
        {"1,200,100,40,40,60,2\r\n", 0, 0},
        {"\r\n", NO_DIGIT, 0},
        {"\n", STRAY_BYTE, 0},
        {"\r", NO_DIGIT, 0},
        {",", NO_DIGIT, 0},
        {"0", WRONG_COUNT, 1},
        {",,,,,,\r\n", NO_DIGIT, 0},
        {"0,10,5,40,40,60,0\r\n", 0, 0},
        {"\r\n1,200,100,40,40,60,0\r\n", NO_DIGIT, 0}};
    for (size_t i = 0; i < sizeof lines / sizeof lines[0]; i++) {
        add_hurt(lines[i]);
        keep("settings_alone");
    }
}

/* ---- Rows ---- */

static const int widths[6] = {6, 10, 7, 7, 7, 1};

static const char *const good_row[6] = {"2", "1000", "20001", "30000", "0", "0"};

static const char row_before[] = "1,0,20001,0,0,0\r\n", row_after[] = "3,2000,0,0,0,0\r\n";

static struct hurt unhurt(const char *bytes)
{
    return (struct hurt){bytes, 0, 0};
}

/* Row 2 of 3 with one field replaced, and `behind` in place of the comma or CR LF behind it. */
static void row_case(int field, struct hurt replaced, struct hurt behind, const char *label)
{
    add(settings_line);
    add(row_before);
    for (int i = 0; i < 6; i++) {
        struct hurt end = unhurt(i < 5 ? "," : "\r\n");
        add_hurt(i == field ? replaced : unhurt(good_row[i]));
        add_hurt(i == field ? behind : end);
    }
    add(row_after);
    keep(label);
}

static void digits(char *to, char digit, int count)
{
    memset(to, digit, (size_t)count);
    to[count] = '\0';
}

/* In place of a field. */
static const struct hurt odd_fields[] = {
    {"", NO_DIGIT, 0},      {"A", STRAY_BYTE, 0},   {"2A", STRAY_BYTE, 1},
    {"A2", STRAY_BYTE, 0},  {"1 ", STRAY_BYTE, 1},  {" 1", STRAY_BYTE, 0},
    {"-1", STRAY_BYTE, 0},  {"+1", STRAY_BYTE, 0},  {"1.5", STRAY_BYTE, 1},
    {"0x1", STRAY_BYTE, 1}, {"\xef\xbb\xbf" "1", STRAY_BYTE, 0}, {"\xd9\xa1", STRAY_BYTE, 0}};

/* In place of what closes a field: in the last one the fault is another. */
static const struct {
    struct hurt early, last;
} behinds[] = {
    {{"", 0, 0}, {"", DIGIT_TOO_MANY, 0}}, /* the next row's number follows */
    {{",,", NO_DIGIT, 1}, {",,", WRONG_COUNT, 0}},
    {{";", STRAY_BYTE, 0}, {";", STRAY_BYTE, 0}},
    {{" ,", STRAY_BYTE, 0}, {" ,", STRAY_BYTE, 0}},
    {{", ", STRAY_BYTE, 1}, {", ", WRONG_COUNT, 0}},
    {{"\t", STRAY_BYTE, 0}, {"\t", STRAY_BYTE, 0}},
    {{"\r\n", WRONG_COUNT, 0}, {"\r\n", 0, 0}},
    {{"\n", STRAY_BYTE, 0}, {"\n", STRAY_BYTE, 0}},
    {{"\r", WRONG_COUNT, 0}, {"\r", WRONG_END, 1}},
    {{"\n\r", STRAY_BYTE, 0}, {"\n\r", STRAY_BYTE, 0}},
    {{"\r\r\n", WRONG_COUNT, 0}, {"\r\r\n", WRONG_END, 1}},
    {{"\r\n\n", WRONG_COUNT, 0}, {"\r\n\n", STRAY_BYTE, 2}},
    {{"\r\n\r\n", WRONG_COUNT, 0}, {"\r\n\r\n", NO_DIGIT, 2}},
    {{" \r\n", STRAY_BYTE, 0}, {" \r\n", STRAY_BYTE, 0}},
    {{"\r\nx", WRONG_COUNT, 0}, {"\r\nx", STRAY_BYTE, 2}},
    {{"\r\n\x1a", WRONG_COUNT, 0}, {"\r\n\x1a", STRAY_BYTE, 2}},
    {{"\r\n ", WRONG_COUNT, 0}, {"\r\n ", STRAY_BYTE, 2}},
};

/* A field of so many digits, which it may or may not have. */
static struct hurt of_digits(const char *field, int most)
{
    size_t count = strlen(field), width = (size_t)most;
    if (count == 0)
        return (struct hurt){field, NO_DIGIT, 0};
    return count > width ? (struct hurt){field, DIGIT_TOO_MANY, width} : unhurt(field);
}

static void fields_of_many_widths(int field, struct hurt end)
{
    char wide[16];
    for (int count = widths[field] - 1; count <= widths[field] + 2; count++)
        for (char digit = '0'; digit <= '9'; digit += 9) {
            digits(wide, digit, count);
            row_case(field, of_digits(wide, widths[field]), end, "width");
            if (digit == '0' && count > 0) {
                strcpy(wide + count - 1, good_row[field] + strlen(good_row[field]) - 1);
                row_case(field, of_digits(wide, widths[field]), end, "zeros");
            }
        }
}

static void rows_with_a_hurt_field(void)
{
    for (int i = 0; i < 6; i++) {
        struct hurt end = unhurt(i < 5 ? "," : "\r\n");
        for (size_t j = 0; j < sizeof odd_fields / sizeof odd_fields[0]; j++)
            row_case(i, odd_fields[j], end, "field");
        for (size_t j = 0; j < sizeof behinds / sizeof behinds[0]; j++)
            row_case(i, unhurt(good_row[i]), i < 5 ? behinds[j].early : behinds[j].last,
                     "after_field");
        fields_of_many_widths(i, end);
    }
}

/* ---- Every fault in every field, and with another behind it ---- */

/* The settings line, or row 2 of 3: what stands before it, its fields, what comes after it. */
static const struct form {
    const char *before[2];
    int fields;
    const int *widths;
    const char *const *good;
    const char *after;
} forms[] = {
    {{"", ""},
     7,
     (const int[]){5, 5, 5, 5, 5, 5, 5},
     (const char *const[]){"1", "200", "100", "40", "40", "60", "0"},
     starting_row},
    {{settings_line, row_before}, 6, widths, good_row, row_after},
};

enum { FORMS = sizeof forms / sizeof forms[0] };

/* What stands of a field before its fault; CLOSED is its digits and CR. */
enum part { NOTHING, DIGITS, FULL, CLOSED };

/* In which fields: the early ones are all but the last. */
enum where { ANY = 3, EARLY = 1, LAST = 2 };

/* Instead of a byte: the input ends. */
enum { END = -1 };

static const struct fault_kind {
    unsigned refusal;
    enum part part;
    int byte;
    enum where where;
} fault_kinds[] = {
    {NO_DIGIT, NOTHING, ',', ANY},      {NO_DIGIT, NOTHING, '\r', ANY},
    {NO_DIGIT, NOTHING, END, ANY},      {DIGIT_TOO_MANY, FULL, '0', ANY},
    {DIGIT_TOO_MANY, FULL, '9', ANY},   {STRAY_BYTE, NOTHING, '\n', ANY},
    {STRAY_BYTE, NOTHING, '\0', ANY},   {STRAY_BYTE, NOTHING, 0xef, ANY},
    {STRAY_BYTE, DIGITS, '\n', ANY},    {STRAY_BYTE, DIGITS, '\0', ANY},
    {STRAY_BYTE, DIGITS, 0x80, ANY},    {STRAY_BYTE, FULL, '\n', ANY},
    {STRAY_BYTE, FULL, ' ', ANY},       {STRAY_BYTE, FULL, 0xff, ANY},
    {WRONG_COUNT, DIGITS, '\r', EARLY}, {WRONG_COUNT, DIGITS, END, EARLY},
    {WRONG_COUNT, FULL, '\r', EARLY},   {WRONG_COUNT, FULL, END, EARLY},
    {WRONG_COUNT, DIGITS, ',', LAST},   {WRONG_COUNT, FULL, ',', LAST},
    {WRONG_END, DIGITS, END, LAST},     {WRONG_END, FULL, END, LAST},
    {WRONG_END, CLOSED, END, LAST},     {WRONG_END, CLOSED, '\r', LAST},
    {WRONG_END, CLOSED, '0', LAST},     {WRONG_END, CLOSED, ',', LAST},
    {WRONG_END, CLOSED, '\0', LAST},
};

/* What follows the faulty byte: later faults of each kind, which must not be told. */
static const char *const rests[] = {"", "\r\n", ",,\r\n", ",0\r\n", "x\r\n", "\n", "\r\r\n",
                                    ",99999999999\r\n", ",0,0,0,0,0,0,0\r\n",
                                    "0000000000000000000000000000000000000000000000000\r\n"};

enum { RESTS = sizeof rests / sizeof rests[0] };

static void add_full(const struct form *form, int field)
{
    fill('0', (size_t)form->widths[field] - strlen(form->good[field]));
    add(form->good[field]);
}

/* The line up to a place in a field. */
static void add_line_to(const struct form *form, int field, enum part part)
{
    add(form->before[0]);
    add(form->before[1]);
    for (int i = 0; i < field; i++) {
        add(form->good[i]);
        add(",");
    }
    if (part == FULL)
        add_full(form, field);
    else if (part != NOTHING)
        add(form->good[field]);
    if (part == CLOSED)
        add("\r");
}

static void fault_case(const struct form *form, int field, struct fault_kind kind, const char *rest)
{
    char byte = (char)kind.byte;
    add_line_to(form, field, kind.part);
    fault_here(kind.refusal);
    if (kind.byte != END) {
        add_bytes(&byte, 1);
        add(rest);
        add(form->after);
    }
    keep("fault");
}

/* Three of the rests each, in turn. No line at all is among the prefixes. */
static void fault_in_field(const struct form *form, int field, enum where where)
{
    static size_t turn;
    for (size_t i = 0; i < sizeof fault_kinds / sizeof fault_kinds[0]; i++) {
        struct fault_kind kind = fault_kinds[i];
        bool no_line = field == 0 && kind.part == NOTHING && kind.byte == END;
        if ((kind.where & where) == 0 || no_line)
            continue;
        for (int j = 0; j < (kind.byte == END ? 1 : 3); j++)
            fault_case(form, field, kind, rests[turn++ % RESTS]);
    }
}

static void faults_in_every_field(void)
{
    for (int i = 0; i < FORMS; i++)
        for (int j = 0; j < forms[i].fields; j++)
            fault_in_field(&forms[i], j, j + 1 < forms[i].fields ? EARLY : LAST);
}

/* ---- Lines around the longest ---- */

/* After as many digits as a line may have, one byte again and again: the fault is at that one of them. */
static const struct hurt fillers[] = {{"0", DIGIT_TOO_MANY, 0}, {",", WRONG_COUNT, 0},
                                      {"x", STRAY_BYTE, 0},     {"\n", STRAY_BYTE, 0},
                                      {"\r", WRONG_END, 1}};

/* As many bytes as a line may have before its CR LF; returns how many. */
static size_t add_longest(const struct form *form)
{
    add(form->before[0]);
    add(form->before[1]);
    size_t line = used;
    for (int i = 0; i < form->fields; i++) {
        if (i > 0)
            add(",");
        add_full(form, i);
    }
    return used - line;
}

/* Named by the length of the line. */
static void keep_line(size_t length)
{
    char label[32];
    snprintf(label, sizeof label, "line_of_%d", (int)length);
    keep(label);
}

/* Without its CR LF, and whole; returns its length without. */
static size_t longest_line(const struct form *form)
{
    size_t length = add_longest(form);
    fault_here(WRONG_END);
    keep_line(length);
    add_longest(form);
    add("\r\n");
    add(form->after);
    keep_line(length + 2);
    return length;
}

/* The longest line, then one byte so many times, then CR LF or the end. */
static void long_line(const struct form *form, struct hurt filler, size_t times, bool closed)
{
    size_t length = add_longest(form) + times;
    fill(filler.bytes[0], filler.at);
    fault_here(filler.refusal);
    fill(filler.bytes[0], times - filler.at);
    if (closed) {
        add("\r\n");
        add(form->after);
        length += 2;
    }
    keep_line(length);
}

/* Lines of so many bytes, with CR LF where they are closed. */
static void long_lines(void)
{
    static const size_t lengths[] = {45, 46, 47, 300};
    for (int i = 0; i < FORMS; i++) {
        size_t longest = longest_line(&forms[i]);
        for (size_t j = 0; j < sizeof lengths / sizeof lengths[0]; j++)
            for (size_t k = 0; k < sizeof fillers / sizeof fillers[0]; k++) {
                long_line(&forms[i], fillers[k], lengths[j] - longest, false);
                if (lengths[j] > longest + 2)
                    long_line(&forms[i], fillers[k], lengths[j] - longest - 2, true);
            }
    }
}

/* ---- Other line ends ---- */

/* In every line, or in the rows alone. */
static void line_ends(void)
{
    static const struct hurt ends[] = {{"\n", STRAY_BYTE, 0},   {"\r", WRONG_END, 1},
                                       {"\n\r", STRAY_BYTE, 0}, {"\r\r\n", WRONG_END, 1},
                                       {" \r\n", STRAY_BYTE, 0}, {",\r\n", WRONG_COUNT, 0}};
    static const char *const lines[] = {"1,200,100,40,40,60,0", "1,0,20001,0,0,0", "2,0,0,0,0,1"};
    for (size_t i = 0; i < sizeof ends / sizeof ends[0]; i++)
        for (int from = 0; from < 2; from++) {
            for (int j = 0; j < 3; j++) {
                add(lines[j]);
                add_hurt(j < from ? unhurt("\r\n") : ends[i]);
            }
            keep("line_ends");
        }
}

/* ---- Rows that are wrong in a number ---- */

static void numbers_and_blocks(void)
{
    static const struct hurt numbers[] = {
        {"0", 0, 0},      {"1", 0, 0},      {"2", 0, 0},
        {"3", 0, 0},      {"4", 0, 0},      {"000002", 0, 0},
        {"0000002", DIGIT_TOO_MANY, 6},     {"20", 0, 0},
        {"258", 0, 0},    {"65538", 0, 0},  {"999999", 0, 0},
        {"1000002", DIGIT_TOO_MANY, 6},     {"", NO_DIGIT, 0}};
    static const char blocks[] = "0123456789";
    for (size_t i = 0; i < sizeof numbers / sizeof numbers[0]; i++)
        for (int j = 0; blocks[j] != '\0'; j++) {
            add(settings_line);
            add(row_before);
            add_hurt(numbers[i]);
            add(",9999999999,0,20001,0,");
            add_bytes(&blocks[j], 1);
            add("\r\n3,0,0,0,0,0\r\n");
            keep("number_and_block");
        }
    for (int first = 0; first < 3; first++) {
        add(settings_line);
        add_number((uint64_t)first, 1);
        add(",0,20001,0,0,2\r\n");
        keep("first_row");
    }
}

/* What may stand before, between and after the lines without being seen. */
static void strangers_between_lines(void)
{
    static const struct hurt strangers[] = {
        {"\xef\xbb\xbf", STRAY_BYTE, 0}, {"\x1a", STRAY_BYTE, 0},
        {"\r\n", NO_DIGIT, 0},           {"\n", STRAY_BYTE, 0},
        {"\r", NO_DIGIT, 0},             {" ", STRAY_BYTE, 0},
        {"\t", STRAY_BYTE, 0},           {"#\r\n", STRAY_BYTE, 0},
        {"\xff\xfe", STRAY_BYTE, 0},     {"end,0,0\r\n", STRAY_BYTE, 0},
        {",", NO_DIGIT, 0},              {"\xef\xbb\xbf\xef\xbb\xbf", STRAY_BYTE, 0},
        {"\xef\xbb", STRAY_BYTE, 0},     {"\xef\xbb\xbe", STRAY_BYTE, 0}};
    static const char *const lines[] = {"1,200,100,40,40,60,0\r\n", "1,0,20001,0,0,0\r\n",
                                        "2,0,0,0,0,1\r\n", ""};
    for (size_t i = 0; i < sizeof strangers / sizeof strangers[0]; i++)
        for (int place = 0; place < 4; place++) {
            for (int j = 0; j < 4; j++) {
                if (j == place)
                    add_hurt(strangers[i]);
                add(lines[j]);
            }
            keep("stranger");
        }
}

/* One byte again and again: what its first fault is where a line begins, and where the last field may end. */
static const struct {
    char byte;
    unsigned first, last;
} garbage[] = {{'\0', STRAY_BYTE, STRAY_BYTE},      {'0', DIGIT_TOO_MANY, DIGIT_TOO_MANY},
               {'7', DIGIT_TOO_MANY, DIGIT_TOO_MANY}, {',', NO_DIGIT, WRONG_COUNT},
               {'\r', NO_DIGIT, WRONG_END},          {'\n', STRAY_BYTE, STRAY_BYTE},
               {'A', STRAY_BYTE, STRAY_BYTE},        {'\x1a', STRAY_BYTE, STRAY_BYTE},
               {(char)0xff, STRAY_BYTE, STRAY_BYTE}};

/* How many of them go before it. */
static size_t right_garbage(int place, unsigned refusal)
{
    if (place == 2)
        return refusal == WRONG_END;
    return refusal == DIGIT_TOO_MANY ? place == 0 ? 5 : 6 : 0;
}

static void long_garbage(void)
{
    for (size_t i = 0; i < sizeof garbage / sizeof garbage[0]; i++)
        for (int place = 0; place < 3; place++) {
            unsigned refusal = place < 2 ? garbage[i].first : garbage[i].last;
            size_t right = right_garbage(place, refusal);
            if (place > 0)
                add(settings_line);
            if (place > 1)
                add("1,0,20001,0,0,0\r\n2,0,0,0,0,0");
            fill(garbage[i].byte, right);
            fault_here(refusal);
            fill(garbage[i].byte, 3 * PORTION + 1 - right);
            add("\r\n");
            keep("garbage");
        }
}

/* ---- Around the end of a portion ---- */

/*
 * Rows of the longest shape, each of which changes the output. The first
 * `shift` rows are a byte shorter: what follows moves back by that much.
 */
static void shifted_recording(uint32_t shift, uint32_t rows)
{
    add(settings_line);
    for (uint32_t n = 1; n <= rows; n++) {
        add_number(n, 6);
        add(n <= shift ? ",999999999," : ",9999999999,");
        add(n % 2 == 1 ? "0020001" : "0018999");
        add(",0000000,0000000,0\r\n");
    }
}

enum { LONGEST_ROW = 45, ROWS_OVER_A_PORTION = PORTION / LONGEST_ROW + 50 };

static void portion_ends_anywhere(void)
{
    for (uint32_t shift = 0; shift <= LONGEST_ROW; shift++) {
        shifted_recording(shift, ROWS_OVER_A_PORTION);
        keep("portion_end");
    }
}

static void hurt_around_a_portion_end(void)
{
    for (size_t place = PORTION - LONGEST_ROW - 5; place < PORTION + LONGEST_ROW + 5; place++) {
        shifted_recording(0, ROWS_OVER_A_PORTION);
        used = place;
        cut_here();
        keep("cut");
        shifted_recording(0, ROWS_OVER_A_PORTION);
        size_t whole = used;
        used = place;
        add_strange(text[place] == '0' ? '3' : 'x');
        used = whole;
        keep("hurt");
    }
}

/* ---- Recordings by chance ---- */

enum load { QUIET, SWELL, JUMPS };

/*
 * QUIET: always the same, below the start current. SWELL: another value in
 * every tick, under and over the start current in turn for hundreds of ticks:
 * starts and trips, but few changes. JUMPS: anything, so most ticks are changes.
 */
static uint32_t current(enum load load, uint32_t s, uint32_t n, uint32_t phase)
{
    uint32_t level = 100 * s;
    if (load == QUIET)
        return level / 4 * 3;
    if (load == SWELL) {
        bool over = n / (300 + 100 * phase) % 2 == 1;
        return over ? level + 1 + n * 7919 % (4 * level) : n * 7919 % level;
    }
    if (chance(20) == 0) {
        uint32_t near = chance(2) == 0 ? 95 * s : level;
        return near + chance(3) - 1;
    }
    return chance(chance(2) == 0 ? 2 * level : 25 * level) % 10000000;
}

static void row_start(uint32_t n, uint64_t timestamp, bool zeros)
{
    add_number(n, zeros ? 1 + (int)chance(6) : 1);
    add(",");
    add_number(timestamp, zeros ? 1 + (int)chance(10) : 1);
}

static void add_settings(const uint32_t values[7])
{
    for (int i = 0; i < 7; i++) {
        add_number(values[i], 1 + (int)chance(5));
        add(i < 6 ? "," : "\r\n");
    }
}

static void add_row(uint32_t n, const uint32_t g[3], uint32_t block)
{
    row_start(n, 1000 * (uint64_t)n, true);
    for (int i = 0; i < 3; i++) {
        add(",");
        add_number(g[i], 1 + (int)chance(7));
    }
    add(",");
    add_number(block, 1);
    add("\r\n");
}

/* Currents stay as they are for up to `hold` ticks. */
static void recording_by_chance(uint32_t operation, uint32_t rows, uint32_t hold)
{
    uint32_t s = 10 + chance(200);
    uint32_t values[7] = {operation,        s,                5 + chance(20), 40 + chance(60),
                          40 + chance(100), 60 + chance(100), chance(4) == 0};
    add_settings(values);
    uint32_t g[3] = {0, 0, 0}, left = 0, block = 0;
    for (uint32_t n = 1; n <= rows; n++) {
        if (left-- == 0) {
            for (uint32_t i = 0; i < 3; i++)
                g[i] = current(JUMPS, s, n, i);
            block = chance(4) == 0;
            left = chance(hold);
        }
        add_row(n, g, block);
    }
}

static void good_by_chance(void)
{
    static const uint32_t holds[] = {1, 8, 80, 400};
    for (uint32_t operation = 0; operation <= 12; operation++)
        for (size_t i = 0; i < sizeof holds / sizeof holds[0]; i++) {
            recording_by_chance(operation, 3000, holds[i]);
            keep("by_chance");
        }
}

static void hurt_by_chance(void)
{
    for (int i = 0; i < 150; i++) {
        recording_by_chance(1 + 2 * chance(2), 30, 5);
        for (uint32_t hurts = 1 + chance(3); hurts > 0; hurts--)
            text[chance((uint32_t)used)] = strange[chance(sizeof strange)];
        keep("hurt_by_chance");
    }
}

/* What a phase of a pecking fault does: a burst, or a dip, for some ticks more. */
struct peck {
    bool burst;
    uint32_t left;
};

/* The next current: after the first tick of a burst or a dip some would hold a started phase. */
static uint32_t next_current(struct peck *peck, uint32_t s, uint32_t reset_time)
{
    bool first = peck->left == 0;
    if (first) {
        peck->burst = !peck->burst;
        peck->left = peck->burst ? 1 + chance(60)
            : chance(3) == 0 ? reset_time - 2 + chance(4) : 1 + chance(reset_time);
    }
    peck->left--;
    if (!first && chance(3) == 0)
        return 95 * s + chance(5 * s + 1);
    return peck->burst ? 100 * s + 1 + chance(100 * s) : chance(95 * s);
}

/* Faults that come and go on definite time, with dips around the reset time. */
static void pecking_by_chance(void)
{
    for (int i = 0; i < 12; i++) {
        uint32_t s = 10 + chance(200), reset_time = 60 + chance(100), g[3];
        uint32_t values[7] = {1, s, 5, 40, 40 + chance(300), reset_time, 0};
        struct peck pecks[3] = {{false, 0}, {false, 0}, {false, 0}};
        add_settings(values);
        for (uint32_t n = 1; n <= 3000; n++) {
            for (int phase = 0; phase < 3; phase++)
                g[phase] = next_current(&pecks[phase], s, reset_time);
            add_row(n, g, chance(4) == 0);
        }
        keep("pecking");
    }
}

static void small(const char *into)
{
    char path[4096];
    folder = into;
    snprintf(path, sizeof path, "%s/known", folder);
    if ((known = fopen(path, "w")) == NULL)
        fail(path);
    prefixes();
    one_byte_hurt();
    settings_at_their_limits();
    settings_wrong_together();
    settings_line_alone();
    rows_with_a_hurt_field();
    faults_in_every_field();
    long_lines();
    line_ends();
    numbers_and_blocks();
    strangers_between_lines();
    long_garbage();
    portion_ends_anywhere();
    hurt_around_a_portion_end();
    good_by_chance();
    hurt_by_chance();
    pecking_by_chance();
    if (fclose(known) != 0)
        fail("known");
}

/* ---- One long recording ---- */

static void write_all(const char *bytes, size_t count)
{
    while (count > 0) {
        ssize_t done = write(STDOUT_FILENO, bytes, count);
        if (done < 0)
            exit(0); /* the reader has stopped, as it does after a refusal */
        bytes += done;
        count -= (size_t)done;
    }
}

static void long_recording(enum load load, uint32_t operation, uint32_t rows)
{
    enum { S = 200 };
    add_number(operation, 1);
    add(",200,5,40,40,60,0\r\n");
    for (uint32_t n = 1; n <= rows; n++) {
        row_start(n, 1000 * (uint64_t)n, false);
        for (uint32_t phase = 0; phase < 3; phase++) {
            add(",");
            add_number(current(load, S, n, phase), 1);
        }
        add(load != QUIET && n / 1000 % 4 == 3 ? ",1\r\n" : ",0\r\n");
        if (used > LONGEST / 2 || n == rows) {
            write_all(text, used);
            used = 0;
        }
    }
}

/* ---- A slow pipe ---- */

/* Waits until the pipe is empty, so that no read can get more than one portion. */
static void wait_for_reader(void)
{
    struct pollfd out = {STDOUT_FILENO, POLLOUT, 0};
    int left = 1;
    while (left > 0) {
        if (ioctl(STDOUT_FILENO, FIONREAD, &left) < 0)
            fail("standard output is not a pipe");
        if (poll(&out, 1, 0) > 0 && (out.revents & POLLERR) != 0)
            exit(0);
        if (left > 0)
            usleep(1);
    }
}

static void feed(size_t portion)
{
    size_t got;
    while ((got = fread(text, 1, portion, stdin)) > 0) {
        write_all(text, got);
        wait_for_reader();
    }
}

/* ---- The command ---- */

static int usage(void)
{
    fputs("usage: replay_inputs small FOLDER\n"
          "       replay_inputs rows quiet|swell|jumps OPERATION ROWS\n"
          "       replay_inputs feed BYTES\n",
          stderr);
    return 2;
}

static int load_named(const char *name)
{
    static const char *const names[] = {"quiet", "swell", "jumps"};
    for (int i = 0; i < 3; i++)
        if (strcmp(name, names[i]) == 0)
            return i;
    return -1;
}

int main(int count, char **words)
{
    signal(SIGPIPE, SIG_IGN); /* a write then says that the reader has stopped */
    if (count == 3 && strcmp(words[1], "small") == 0) {
        small(words[2]);
    } else if (count == 5 && strcmp(words[1], "rows") == 0 && load_named(words[2]) >= 0) {
        long_recording((enum load)load_named(words[2]), (uint32_t)strtoul(words[3], NULL, 10),
                       (uint32_t)strtoul(words[4], NULL, 10));
    } else if (count == 3 && strcmp(words[1], "feed") == 0) {
        size_t portion = strtoul(words[2], NULL, 10);
        if (portion == 0 || portion > LONGEST)
            return usage();
        feed(portion);
    } else {
        return usage();
    }
    return 0;
}
