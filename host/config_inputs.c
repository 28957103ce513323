/*
 * Recorders' configurations for host/replay_check.
 *   config_inputs FOLDER
 * writes there NUMBER_LABEL.cfg for each; the recording to replay with it, NUMBER_LABEL.csv, or
 * recording.csv where it has none of its own; and the list `known`: of the answers that follow from
 * how an input was made, without a reader, the end line and what is said of a refusal. Always the
 * same inputs: chances come from a fixed seed.
 */
#include "inputs.h"

#include <stdbool.h>
#include <stdio.h>
#include <stdlib.h>
#include <string.h>

/* ---- The inputs ---- */

static const char *folder;
static FILE *known;
static char name[64];

static void input_path(char path[4096], const char *ending)
{
    snprintf(path, 4096, "%s/%s.%s", folder, name, ending);
}

/* Files what was added as a configuration of its own, and starts the next. */
static void keep(const char *label)
{
    static int kept;
    char path[4096];
    snprintf(name, sizeof name, "%05d_%s", ++kept, label);
    input_path(path, "cfg");
    write_input(path);
}

/* Files what was added as the recording of the configuration that was kept last. */
static void keep_recording(void)
{
    char path[4096];
    input_path(path, "csv");
    write_input(path);
}

static void know_end(int rows, int refusal)
{
    fprintf(known, "%s.config:end,%d,%d\n", name, rows, refusal);
}

static const int refusals[] = {18, 19, 20, 20, 20, 21, 22, 23, 24, 25, 25, 26, 27, 27};

/* Its line from 1 on, 14 for bytes after the last, is refused. */
static void know_refused(int line)
{
    know_end(0, refusals[line - 1]);
    fprintf(known, "%s.config.said:line %d of the configuration: refused %d: \n", name, line,
            refusals[line - 1]);
}

/* Its last sample number is, or is not, the rows done. */
static void know_done(int rows, bool right)
{
    know_end(rows, right ? 0 : 28);
    if (!right)
        fprintf(known, "%s.config.said:recording: refused 28: \n", name);
}

/* The rows of recording.csv. */
enum { ROWS = 3 };

/* What its replay ends with, if its configuration has this last sample number. */
static void know_accepted(uint64_t last)
{
    know_done(ROWS, last == ROWS);
}

/* ---- A right configuration ---- */

enum { LINES = 13, MOST_FIELDS = 13, LONGEST_LINE = 256 };

/* A letter is a kind of field, of which `kinds` has right and wrong spellings. */
static const char *const shapes[LINES] = {"tty", "TAD", "1tqtuabnxxnnP", "2tqtuabnxxnnP",
                                          "3tqtuabnxxnnP", "1tqts", "f", "R", "rl", "dh", "dh",
                                          "F", "n"};

typedef const char *fields_of_lines[LINES][MOST_FIELDS];

static const fields_of_lines usual = {
    {"Station 1", "Feeder 7", "1999"},
    {"4", "3A", "1D"},
    {"1", "IL1", "A", "Line 1", "A", "1.0", "0.0", "0.0", "-99999", "99999", "400", "1", "P"},
    {"2", "IL2", "B", "Line 1", "A", "1", "0", "0", "0", "9999999", "400.0", "1.0", "p"},
    {"3", "IL3", "C", "Line 1", "kA", "+1.000", "-0", "1e-3", "0", "99999", "4E2", "1", "S"},
    {"1", "Block", "", "Line 1", "0"},
    {"50"},
    {"1"},
    {"1000", "3"},
    {"14/03/2003", "16:20:04.102000"},
    {"14/03/2003", "16:20:04.202000"},
    {"ASCII"},
    {"1.0"},
};

/* As few bytes as it can have. */
static const fields_of_lines shortest = {
    {"", "", "1999"},
    {"4", "3A", "1D"},
    {"1", "", "", "", "A", "1", "0", "0", "0", "0", "1", "1", "P"},
    {"2", "", "", "", "A", "1", "0", "0", "0", "0", "1", "1", "P"},
    {"3", "", "", "", "A", "1", "0", "0", "0", "0", "1", "1", "P"},
    {"1", "", "", "", "0"},
    {""},
    {"1"},
    {"1000", "3"},
    {"1/1/1900", "00:00:00.000000"},
    {"1/1/1900", "00:00:00.000000"},
    {"ASCII"},
    {"1"},
};

/* The one that is about to be added: its fields, and how each line ends. */
static fields_of_lines fields;
static const char *ends[LINES];

static void start_from(const fields_of_lines from)
{
    memcpy(fields, from, sizeof fields);
    for (int i = 0; i < LINES; i++)
        ends[i] = "\r\n";
}

static void add_line(int line)
{
    for (int i = 0; shapes[line][i] != '\0'; i++) {
        if (i > 0)
            add(",");
        add(fields[line][i]);
    }
    add(ends[line]);
}

static void add_lines(int from, int to)
{
    for (int i = from; i < to; i++)
        add_line(i);
}

static void keep_lines(const char *label)
{
    add_lines(0, LINES);
    keep(label);
}

/* ---- Spellings ---- */

#define ZEROS "0000000000"
/* 64 bytes */
#define LETTERS "abcdefghijklmnopqrstuvwxyz!\"#$%&'()*+-./:;<=>?@[\\]^_`{|}~ A0Z 19"

typedef const char *const spellings[];

/* A # is the index. */
static spellings index_right = {"#", "0#", "00000#", " #", "   #", "   00000#", NULL};
static spellings index_wrong = {"", " ", "000000#", "#0", "1#", "#1", "0", "9", "000000", "# ", "+#", "-#",
                                "#.0", "#e0", "a", "#a", "0x#", "# #", "#A", "25#", "65537", NULL};

static spellings text_right = {"", " ", "    ", "x", " x ", "0", "IL1/A (new) \"~\"", LETTERS, NULL};
static spellings text_wrong = {LETTERS "x", " " LETTERS, LETTERS " ", NULL};
static spellings phase_right = {"", " ", "A", "AB", " A", "A ", "  ", "~!", NULL};
static spellings phase_wrong = {"ABC", "  A", "A  ", "   ", "L12", NULL};
static spellings unit_right = {"A", " ", "kA", "0.01%", "abcdefghijklmnopqrstuvwxyz 12345", NULL};
static spellings unit_wrong = {"", "abcdefghijklmnopqrstuvwxyz 123456", " abcdefghijklmnopqrstuvwxyz 12345", NULL};

static spellings year_right = {"1999", " 1999", "     1999", NULL};
static spellings year_wrong = {"", " ", "999", "01999", "1998", "2000", "2013", "1991", "199", "19990", "1999 ",
                               "+1999", "-1999", "1999.", "1999.0", "199a", "19 99", "99", "0999", "9999", NULL};
static spellings total_right = {"4", "04", "0000004", " 4", "   0000004", NULL};
static spellings total_wrong = {"", " ", "00000004", "3", "5", "40", "14", "4 ", "4A", "+4", "-4", "4.0", "0",
                                "0000000", "a", "4e0", "65540", "260", NULL};
static spellings analogue_right = {"3A", "03A", "000003A", " 3A", "   000003A", NULL};
static spellings analogue_wrong = {"", " ", "A", "3", "3a", "3B", "3D", "2A", "4A", "13A", "30A", "0000003A", "3AA",
                                   "3 A", "3A ", "A3", "+3A", "3A1", "0A", "000000A", "259A", "3A3A", "-3A", NULL};
static spellings status_right = {"1D", "01D", "000001D", " 1D", "   000001D", NULL};
static spellings status_wrong = {"", " ", "D", "1", "1d", "1A", "1E", "0D", "2D", "11D", "10D", "0000001D", "1DD",
                                 "1 D", "1D ", "D1", "+1D", "1D1", "000000D", "257D", "1C", "-1D", NULL};

/* 2^64 + v, and digits that are v's modulo 2^64 once the point is left out, are other values. */
static spellings one_right = {"1", "1.0", "+1", "01.000", "+1.0", "001", "+0001.00", "1." ZEROS ZEROS ZEROS,
                              ZEROS ZEROS ZEROS "01", "+" ZEROS ZEROS "01.0000000", " 1", "   +1.0",
                              "    1." ZEROS ZEROS ZEROS, "1." ZEROS ZEROS, NULL};
static spellings one_wrong = {
    "", " ", "10", "0", "2", "11", "1.", "1.1", "1.01", ".1", "1.0.0", "1..0", "-1", "-1.0", "-01", "++1", "+-1", "+",
    "-", ".", "+.1", "1e0", "1E0", "1.0e0", "10e-1", "0.1", "0.9999999999", "1." ZEROS ZEROS ZEROS "0",
    ZEROS ZEROS ZEROS "001", "+1." ZEROS ZEROS ZEROS, "1 ", "1.0 ", "1 0", "+ 1", "1.0x", "0x1", "100.0", "1.+0", "1+",
    "1." ZEROS ZEROS "0000000001", "257", "4294967297", "18446744073709551617", "0.07766279631452241920",
    "0.7766279631452241920", "99999999999999999999999999999999", "1/1", "one", NULL};
static spellings zero_right = {"0", "0.0", "-0", "+0", "-0.000", "00", "000.000", "+00.0", ZEROS ZEROS ZEROS "00",
                               "-" ZEROS ZEROS ZEROS "0", "0." ZEROS ZEROS ZEROS, " 0", "   -0.0", NULL};
static spellings zero_wrong = {
    "", " ", "1", "-1", "0.1", "-0.1", "0." ZEROS ZEROS "000000001", "-", "+", "--0", "+-0", "0.", "-0.", ".", ".0",
    "-.0", "0e0", "0E5", "-0e0", "0 ", "0.0 ", "0.0.0", ZEROS ZEROS ZEROS "000", "-0." ZEROS ZEROS ZEROS, "O", "0x0",
    "- 0", "0 0", "10", "256", "4294967296", "18446744073709551616", "1.8446744073709551616", "0a", NULL};
static spellings rate_right = {"1000", "1000.0", "+1000", "01000", "1000.000000", "+001000.00",
                               "1000." ZEROS ZEROS "0000000", ZEROS ZEROS "000000001000", " 1000", "   1000.0", NULL};
static spellings rate_wrong = {
    "", " ", "999", "1001", "100", "10000", "1e3", "1E3", "1.0e3", "1000e0", "1000.5", "1000.1", "-1000", "1000.",
    "999.9999", "0", "1 000", "1000 ", "1000Hz", "2000", ".1000", "1000.0.0", "++1000", "1000." ZEROS ZEROS "00000000",
    ZEROS ZEROS "0000000001000", "1", "4294968296", "18446744073709552616", "66536", "1000.01", "+", NULL};
static spellings number_right = {
    "0", "1", "-1", "+1", "0.5", "-0.0", "00.50", "1e3", "1E3", "1e+3", "1E-3", "-1.5e-07", "+2.25E+10", "0e0", " 1",
    "   -1.5e-07", "1e" ZEROS ZEROS ZEROS, "9.9999999e99999999", "99999999999999999999999999999999",
    "   99999999999999999999999999999999", "-" ZEROS ZEROS ZEROS "1", NULL};
static spellings number_wrong = {
    " -", "-", "+", "e5", "1e", "1E", "1e+", "1e-", "1.", "1.e5", ".5", "-.5", "1e5.0", "1e5e5", "1ee5", "1 ", "1e5 ",
    "1e 5", "1 e5", "1.0.0", "+-1", "--1", "1+1", "1-", "0x1", "1f", "inf", "nan", "NaN", "1d5", "1e++5", "1e+-5",
    "- 1", "999999999999999999999999999999999", "1e" ZEROS ZEROS ZEROS "0", "-" ZEROS ZEROS ZEROS "01", ".", "e", "E",
    "1..5", "1.5.e3", "1e.5", "1;5", "1:5", "a", NULL};
static spellings extreme_right = {"0", "-0", "1", "-1", "99999", "-99999", "9999999", "-9999999", "0000000", "-0000001",
                                  " 5", "   -9999999", NULL};
static spellings extreme_wrong = {"", " ", "-", "+1", "10000000", "-10000000", "00000000", "-00000000", "1.0", "1e3",
                                  "--1", "1-", "1 ", "-1 ", "- 1", "a", "1a", "+", "-+1", "0x1", "1.", NULL};
static spellings side_right = {"P", "S", "p", "s", " P", "    s", NULL};
static spellings side_wrong = {"", " ", "X", "PS", "PP", "ss", "P ", "s ", "0", "1", "O", "Q", "R", "T", "o", "q", "r",
                               "t", "3", "0P", "@", "`", NULL};
static spellings state_right = {"0", "1", " 0", "    1", NULL};
static spellings state_wrong = {"", " ", "2", "00", "01", "10", "11", "-0", "+1", "0 ", "1 ", "a", "9", "/", ":", "0.0",
                                "0D", NULL};
static spellings rates_right = {"1", "01", "001", " 1", "    001", NULL};
static spellings rates_wrong = {"", " ", "0", "2", "3", "0001", "000", "10", "11", "1 ", "+1", "-1", "1.0", "a", "1e0",
                                "100", "257", "1a", NULL};
static spellings last_right = {"3", "03", "0000000003", " 3", "     0000000003", NULL};
static spellings last_wrong = {"", " ", "0", "00", "0000000000", "00000000003", "3 ", "+3", "-3", "3.0", "3e0", "a",
                               "3a", "10000000003", "12884901891", "0x3", "3 3", " 0", "18446744073709551619", NULL};
static spellings date_right = {"1/1/1900", "01/01/1900", "31/12/9999", "9/09/2003", "09/9/2003", "30/02/2001",
                               "31/11/2003", "31/1/2000", "1/12/1999", " 1/1/2000", "    31/12/1999", NULL};
static spellings date_wrong = {
    "", " ", "0/1/2000", "00/01/2000", "32/01/2000", "1/0/2000", "1/00/2000", "1/13/2000", "1/1/1899", "1/1/0000",
    "1/1/999", "1/1/99", "1/1/02000", "001/1/2000", "1/001/2000", "1/1/20000", "100/1/2000", "1/100/2000", "1/1/2000 ",
    "1-1-2000", "1.1.2000", "1:1:2000", "1/1", "1/2000", "1/1/2000/", "/1/2000", "1//2000", "1/1/", "1 /1/2000",
    "1/ 1/2000", "1/1/ 2000", "+1/1/2000", "-1/1/2000", "1/1/200a", "a/1/2000", "1/a/2000", "2000/01/01", "12/31/1999",
    "1/1/2000/1", "1/1/1/2000", "99/1/2000", "1/99/2000", "40/1/2000", "1/20/2000", "1/1/+200", "01012000", NULL};
static spellings time_right = {"00:00:00.000000", "23:59:59.999999", "12:34:56.789012", "19:09:09.000001",
                               " 00:00:00.000000", "    23:00:00.000000", NULL};
static spellings time_wrong = {
    "", " ", "24:00:00.000000", "00:60:00.000000", "00:00:60.000000", "99:00:00.000000", "30:00:00.000000",
    "00:99:00.000000", "00:00:99.000000", "0:00:00.000000", "00:0:00.000000", "00:00:0.000000", "00:00:00.00000",
    "00:00:00.0000000", "00:00:00.000", "00:00:00", "00:00:00.", "00:00:00:000000", "00.00.00.000000", "00:00",
    "000:00:00.000000", "00:000:00.000000", "00:00:000.000000", "00:00:00.000000 ", "00 :00:00.000000",
    "00: 0:00.000000", "-1:00:00.000000", "+0:00:00.000000", "00:00:00.00000a", "a0:00:00.000000", "00:0a:00.000000",
    "00:00:a0.000000", ":00:00.000000", "00::00.000000", "00:00:.000000", "00/00/00.000000", "00:00:00.000000.",
    "000000.000000", "00:00:00.-00001", "00:00:00 000000", NULL};
static spellings type_right = {"ASCII", "ascii", "Ascii", "aScIi", "ASCIi", " ASCII", "     ascii", NULL};
static spellings type_wrong = {"", " ", "ASCI", "SCII", "ASCIII", "BINARY", "binary", "ASCII ", "ascii ", "A SCII",
                               "ASCIJ", "ASCIH", "ASC11", "BSCII", "@SCII", "ASCII0", "ASSII", "ATCII", "0ASCII", "A",
                               "ASCIIASCII", "BINARY32", NULL};

static const struct kind {
    char letter;
    const char *const *right, *const *wrong;
} kinds[] = {
    {'t', text_right, text_wrong},         {'q', phase_right, phase_wrong}, {'u', unit_right, unit_wrong},
    {'y', year_right, year_wrong},         {'T', total_right, total_wrong}, {'A', analogue_right, analogue_wrong},
    {'D', status_right, status_wrong},     {'1', index_right, index_wrong}, {'2', index_right, index_wrong},
    {'3', index_right, index_wrong},       {'a', one_right, one_wrong},     {'b', zero_right, zero_wrong},
    {'n', number_right, number_wrong},     {'x', extreme_right, extreme_wrong}, {'P', side_right, side_wrong},
    {'s', state_right, state_wrong},       {'f', number_right, number_wrong},   {'R', rates_right, rates_wrong},
    {'r', rate_right, rate_wrong},         {'l', last_right, last_wrong},   {'d', date_right, date_wrong},
    {'h', time_right, time_wrong},         {'F', type_right, type_wrong},
};

static const struct kind *kind_of(int line, int field)
{
    const struct kind *kind = kinds;
    while (kind->letter != shapes[line][field])
        kind++;
    return kind;
}

static bool is_text(int line, int field)
{
    return strchr("tqu", shapes[line][field]) != NULL;
}

static bool is_index(int line, int field)
{
    return strchr("123", shapes[line][field]) != NULL;
}

/* The spelling, with its index where it has one; it stays until that field is spelled anew. */
static void spell(int line, int field, const char *spelling)
{
    static char room[LINES][32];
    fields[line][field] = spelling;
    if (!is_index(line, field))
        return;
    snprintf(room[line], sizeof room[line], "%s", spelling);
    for (char *at = room[line]; (at = strchr(at, '#')) != NULL;)
        *at = shapes[line][field];
    fields[line][field] = room[line];
}

/* each: what is done to every field of every line, from a usual configuration */
static void in_every_field(void (*each)(int line, int field))
{
    for (int i = 0; i < LINES; i++)
        for (int j = 0; shapes[i][j] != '\0'; j++)
            each(i, j);
}

static void right_spellings(int line, int field)
{
    const char *const *right = kind_of(line, field)->right;
    for (int i = 0; right[i] != NULL; i++) {
        start_from(usual);
        spell(line, field, right[i]);
        keep_lines("right_spelling");
        know_accepted(ROWS);
    }
}

static void wrong_spellings(int line, int field)
{
    const char *const *wrong = kind_of(line, field)->wrong;
    for (int i = 0; wrong[i] != NULL; i++) {
        start_from(usual);
        spell(line, field, wrong[i]);
        keep_lines("wrong_spelling");
        know_refused(line + 1);
    }
}

/* The indices of the other lines. */
static void wrong_indices(int line, int field)
{
    static spellings all = {"1", "2", "3", "4"};
    for (int i = 0; is_index(line, field) && i < 4; i++)
        if (all[i][0] != shapes[line][field]) {
            start_from(usual);
            spell(line, field, all[i]);
            keep_lines("wrong_index");
            know_refused(line + 1);
        }
}

/* "the frequency may be empty, the others not", and "a frequency of spaces alone is an empty one" */
static void empty_number(int line, int field)
{
    static spellings empty = {"", " ", "      "};
    for (int i = 0; strchr("nf", shapes[line][field]) != NULL && i < 3; i++) {
        start_from(usual);
        spell(line, field, empty[i]);
        keep_lines("empty_number");
        if (shapes[line][field] == 'f')
            know_accepted(ROWS);
        else
            know_refused(line + 1);
    }
}

static void other_last_samples(void)
{
    static const uint64_t last[] = {1,     2,     4,      13,     30,         33,         259,       65539,
                                    99999, 999999, 1000000, 16777219, 4294967295, 4294967299, 9999999999};
    char digits[32];
    for (size_t i = 0; i < sizeof last / sizeof last[0]; i++)
        for (int width = 1; width <= 10; width += 9) {
            start_from(usual);
            snprintf(digits, sizeof digits, "%0*llu", width, (unsigned long long)last[i]);
            fields[8][1] = digits;
            keep_lines("other_last_sample");
            know_accepted(last[i]);
        }
}

/* ---- A field damaged whatever it is ---- */

/* The usual configuration with `gone` bytes of a field, from a place on, replaced by these. */
static void add_with_bytes(int line, int field, size_t place, size_t gone, const char *bytes, size_t count)
{
    start_from(usual);
    add_lines(0, line);
    for (int i = 0; shapes[line][i] != '\0'; i++) {
        const char *whole = fields[line][i];
        if (i > 0)
            add(",");
        if (i == field) {
            add_bytes(whole, place);
            add_bytes(bytes, count);
            whole += place + gone;
        }
        add(whole);
    }
    add("\r\n");
    add_lines(line + 1, LINES);
}

/* "a lone CR or LF, a control byte or a byte over 126 in a line is malformed", and a comma is one field more. */
static void bad_bytes(int line, int field)
{
    static const char bytes[] = {'\0', '\t', '\n', '\r', 31, 127, (char)128, (char)0xe6, (char)255, ','};
    size_t length = strlen(usual[line][field]);
    for (size_t i = 0; i < sizeof bytes; i++) {
        add_with_bytes(line, field, 0, 0, &bytes[i], 1);
        keep("bad_byte_before");
        know_refused(line + 1);
        add_with_bytes(line, field, length, 0, &bytes[i], 1);
        keep("bad_byte_after");
        know_refused(line + 1);
    }
}

/* A space may be at the end of a text alone; what other bytes do is for the reader to say. */
static void other_bytes(int line, int field)
{
    static const char bytes[] = "0 x.-e";
    size_t length = strlen(usual[line][field]);
    for (const char *byte = bytes; *byte != '\0'; byte++) {
        add_with_bytes(line, field, 0, 0, byte, 1);
        keep("byte_before");
        add_with_bytes(line, field, length, 0, byte, 1);
        keep("byte_after");
        if (*byte == ' ' && !is_text(line, field))
            know_refused(line + 1);
    }
    add_with_bytes(line, field, length, 0, "\r\n", 2);
    keep("cr_lf_after");
    if (length > 0) {
        add_with_bytes(line, field, 0, 1, "", 0);
        keep("byte_removed_before");
        add_with_bytes(line, field, length - 1, 1, "", 0);
        keep("byte_removed_after");
    }
}

/* A field less, with its comma. */
static void field_missing(int line, int field)
{
    start_from(usual);
    add_lines(0, line);
    bool first = true;
    for (int i = 0; shapes[line][i] != '\0'; i++)
        if (i != field) {
            add(first ? "" : ",");
            add(fields[line][i]);
            first = false;
        }
    add("\r\n");
    add_lines(line + 1, LINES);
    keep("field_missing");
    if (line != 6) /* a frequency that is missing is an empty one */
        know_refused(line + 1);
    else
        know_accepted(ROWS);
}

/* ---- Lines ---- */

/* Pads a field that is no text with spaces in front, until its line has so many bytes. */
static void padded_line(int line, int field, size_t length)
{
    static char room[LONGEST_LINE + 64];
    char label[32];
    start_from(usual);
    add_line(line);
    size_t spaces = length - used;
    used = 0;
    memset(room, ' ', spaces);
    strcpy(room + spaces, usual[line][field]);
    fields[line][field] = room;
    snprintf(label, sizeof label, "line_%d_of_%d", line + 1, (int)length);
    keep_lines(label);
    if (length <= LONGEST_LINE)
        know_accepted(ROWS);
    else
        know_refused(line + 1);
}

static void line_lengths(int line, int field)
{
    for (size_t length = LONGEST_LINE - 1; length <= LONGEST_LINE + 2; length++)
        if (!is_text(line, field))
            padded_line(line, field, length);
}

/* Long fields, each within its own width, together come to a line that is too long. */
static void longest_fields(void)
{
    static char name_of[65];
    for (size_t left = 0; left <= 64; left++) {
        start_from(usual);
        fields[2][0] = "000001";
        fields[2][1] = LETTERS;
        fields[2][2] = "L1";
        fields[2][4] = "abcdefghijklmnopqrstuvwxyz 12345";
        fields[2][5] = "1." ZEROS ZEROS ZEROS;
        fields[2][6] = "0." ZEROS ZEROS ZEROS;
        memcpy(name_of, LETTERS, left);
        name_of[left] = '\0';
        fields[2][3] = name_of;
        add_line(2);
        size_t length = used;
        used = 0;
        keep_lines("longest_fields");
        if (length <= LONGEST_LINE)
            know_accepted(ROWS);
        else
            know_refused(3);
    }
}

static void wrong_line_ends(void)
{
    static spellings wrong = {"\n", "\r", "", "\n\r", "\r\r\n", "\n\r\n", " \n", "\r\n ", "\r \n", "\t\r\n",
                              "\x1a\r\n", ",\r\n"};
    for (int i = 0; i < LINES; i++)
        for (size_t j = 0; j < sizeof wrong / sizeof wrong[0]; j++) {
            start_from(usual);
            ends[i] = wrong[j];
            keep_lines("line_end");
            if (i == 6 && *wrong[j] == '\0') /* a frequency of 501, and no line of the rates */
                know_refused(8);
            else if (strcmp(wrong[j], "\r\n ") != 0) /* which is a space before the next line */
                know_refused(i + 1);
        }
}

/* A line is missing, or there twice: the line that is refused for it. */
static const int if_missing[LINES] = {1, 2, 3, 4, 5, 6, 8, 8, 9, 11, 11, 12, 13};
static const int if_twice[LINES] = {2, 3, 4, 5, 6, 7, 8, 9, 10, 12, 12, 13, 14};

static void lines_missing_and_twice(void)
{
    start_from(usual);
    for (int i = 0; i < LINES; i++) {
        add_lines(0, i);
        add_lines(i + 1, LINES);
        keep("line_missing");
        know_refused(if_missing[i]);
        add_lines(0, i + 1);
        add_lines(i, LINES);
        keep("line_twice");
        know_refused(if_twice[i]);
        add_lines(0, i);
        add("\r\n");
        add_lines(i, LINES);
        keep("empty_line");
        know_refused(i == 6 ? 8 : i + 1); /* the frequency may be empty */
    }
    for (int i = 0; i + 1 < LINES; i++) {
        add_lines(0, i);
        add_line(i + 1);
        add_line(i);
        add_lines(i + 2, LINES);
        keep("lines_swapped");
        if (i == 9) /* "no order of the two" */
            know_accepted(ROWS);
        else
            know_refused(i == 6 ? 8 : i + 1); /* the number of rates is a frequency, too */
    }
}

/* "The earliest line .. decides" */
static void two_wrong_lines(void)
{
    for (int i = 0; i < LINES; i++)
        for (int j = i + 1; j < LINES; j++) {
            start_from(usual);
            for (int field = 0; shapes[j][field] != '\0'; field++)
                spell(j, field, kind_of(j, field)->wrong[0]);
            for (int field = 0; shapes[i][field] != '\0'; field++)
                spell(i, field, kind_of(i, field)->wrong[0]);
            keep_lines("two_wrong_lines");
            know_refused(i + 1);
        }
}

/* Cut anywhere: "missing means the number of the line due and the line number it would have". */
static void cuts(const fields_of_lines whole)
{
    start_from(whole);
    for (int line = 0; line < LINES; line++) {
        add_line(line);
        size_t length = used;
        used = 0;
        for (size_t i = 0; i < length; i++) {
            add_lines(0, line);
            size_t start = used;
            add_line(line);
            used = start + i;
            keep("cut");
            know_refused(line + 1);
        }
    }
    add_lines(0, LINES);
    keep("not_cut");
    know_accepted(ROWS);
}

static void bytes_after_the_last_line(void)
{
    static spellings after = {"x", " ", "\n", "\r", "\r\n", "\x1a", "1\r\n", ",", "1.0\r\n\r\n", "0"};
    start_from(usual);
    for (size_t i = 0; i < sizeof after / sizeof after[0]; i++) {
        add_lines(0, LINES);
        add(after[i]);
        keep("after_last_line");
        know_refused(LINES + 1);
    }
    add_lines(0, LINES);
    fill('\0', 1);
    keep("after_last_line");
    know_refused(LINES + 1);
    add_lines(0, LINES);
    add_lines(0, LINES);
    keep("whole_twice");
    know_refused(LINES + 1);
}

static void bytes_before_the_first_line(void)
{
    static spellings before = {"\xef\xbb\xbf", "\xff\xfe", "\r\n", "\n", "\x1a", "\t", ","};
    start_from(usual);
    for (size_t i = 0; i < sizeof before / sizeof before[0]; i++) {
        add(before[i]);
        add_lines(0, LINES);
        keep("before_first_line");
        know_refused(1);
    }
}

/* Several rates, as the standard has them: a line each. */
static void more_rates(void)
{
    for (int rates = 2; rates <= 3; rates++) {
        start_from(usual);
        fields[7][0] = rates == 2 ? "2" : "3";
        add_lines(0, 9);
        for (int i = 1; i < rates; i++)
            add_line(8);
        add_lines(9, LINES);
        keep("more_rates");
        know_refused(8);
    }
}

/* More than a reader takes at once. */
static void long_garbage(void)
{
    static const char garbage[] = {'\0', ' ', '0', ',', '\r', '\n', 'A', (char)0xff};
    static const int places[] = {0, 5, 6, LINES};
    start_from(usual);
    for (size_t i = 0; i < sizeof garbage; i++)
        for (size_t j = 0; j < sizeof places / sizeof places[0]; j++) {
            add_lines(0, places[j]);
            fill(garbage[i], 150000);
            add("\r\n");
            add_lines(places[j], LINES);
            keep("garbage");
            know_refused(places[j] + 1);
        }
}

/* ---- By bytes, and by chance ---- */

static const char strange[] = {'0', ',', ' ', '\r', '\n', '1', '.', '-', 'E', 127};

static void one_byte_hurt(void)
{
    static char whole[1024];
    start_from(shortest);
    add_lines(0, LINES);
    size_t length = used;
    memcpy(whole, text, length);
    used = 0;
    for (size_t i = 0; i < length; i++) {
        add_bytes(whole, i);
        add_bytes(whole + i + 1, length - i - 1);
        keep("deleted");
        for (size_t j = 0; j < sizeof strange; j++) {
            size_t gone = j % 2;
            add_bytes(whole, i);
            add_bytes(&strange[(i + j) % sizeof strange], 1);
            add_bytes(whole + i + gone, length - i - gone);
            keep(gone == 0 ? "inserted" : "replaced");
        }
    }
}

/* A right field: a spelling of its kind, often with spaces before it, or a text of any printable bytes but commas. */
static const char *right_field(int line, int field)
{
    static char room[LINES][MOST_FIELDS][128];
    char *at = room[line][field];
    const char *const *right = kind_of(line, field)->right;
    uint32_t count = 0;
    while (right[count] != NULL)
        count++;
    spell(line, field, right[chance(count)]);
    if (!is_text(line, field)) {
        uint32_t spaces = chance(3) == 0 ? chance(9) : 0;
        snprintf(at, 128, "%*s%s", (int)spaces, "", fields[line][field]);
        return at;
    }
    size_t length = strlen(fields[line][field]);
    for (size_t i = 0; i < length; i++)
        while ((at[i] = (char)(32 + chance(95))) == ',')
            continue;
    at[length] = '\0';
    return at;
}

/* Returns the first line that is too long, 0 where there is none. */
static int add_by_chance(void)
{
    int too_long = 0;
    start_from(usual);
    for (int i = 0; i < LINES; i++) {
        for (int j = 0; shapes[i][j] != '\0'; j++)
            if (chance(5) != 0)
                fields[i][j] = right_field(i, j);
        size_t before = used;
        add_line(i);
        if (used - before > LONGEST_LINE && too_long == 0)
            too_long = i + 1;
    }
    return too_long;
}

static void right_by_chance(void)
{
    for (int i = 0; i < 400; i++) {
        int too_long = add_by_chance();
        keep("by_chance");
        if (too_long == 0)
            know_accepted(ROWS);
        else
            know_refused(too_long);
    }
}

static void hurt_by_chance(void)
{
    for (int i = 0; i < 400; i++) {
        add_by_chance();
        for (uint32_t hurts = 1 + chance(2); hurts > 0; hurts--)
            text[chance((uint32_t)used)] = strange[chance(sizeof strange)];
        keep("hurt_by_chance");
    }
}

/* ---- With other recordings ---- */

/* Outputs change in every row, so that a row too many or too few always shows. */
static const char *const rows[] = {"1,0,20001,0,0,0\r\n", "2,1000,0,0,30000,1\r\n", "3,2000,0,0,0,0\r\n",
                                   "4,3000,0,20001,0,0\r\n"};

static void add_recording(const char *settings, int count, const char *after)
{
    add(settings);
    for (int i = 0; i < count; i++)
        add(rows[i]);
    add(after);
}

#define STRAY "neither a digit nor a comma"
#define LF_ENDS "; the file seems to have LF line ends, where CR LF is due"

/*
 * Rows done and the refusal that they end with; of the settings line, where no row was looked at.
 * What is said of it, if it has a place.
 */
static const struct recording {
    const char *settings;
    int rows;
    const char *after;
    bool settings_right;
    int refusal;
    const char *place;
} recordings[] = {
    {"1,200,100,40,40,60,0\r\n", 3, "", true, 0, ""},
    {"1,200,100,40,40,60,0\r\n", 0, "", true, 0, ""},
    {"1,200,100,40,40,60,0\r\n", 2, "", true, 0, ""},
    {"1,200,100,40,40,60,0\r\n", 4, "", true, 0, ""},
    {"1,200,100,40,40,60,0\r\n", 0, "x", true, 31, "byte 0, field 1: " STRAY},
    {"1,200,100,40,40,60,0\r\n", 3, "x", true, 31, "byte 0, field 1: " STRAY},
    {"1,200,100,40,40,60,0\r\n", 3, "\r\n", true, 29, "byte 0, field 1: no digit in the field"},
    {"1,200,100,40,40,60,0\r\n", 2, "3,0,0,0,0,0\n", true, 31, "byte 11, field 6: " STRAY LF_ENDS},
    {"1,200,100,40,40,60,0\r\n", 3, "3,0,0,0,0,0\r\n", true, 13, ""},
    {"1,200,100,40,40,60,0\r\n", 2, "4,0,0,0,0,2\r\n", true, 13, ""},
    {"1,200,100,40,40,60,0\r\n", 3, "4,0,0,0,0,2\r\n", true, 14, ""},
    {"1,200,100,40,40,60,0\r\n", 2, "3,0,0,0,0,9\r\n4,0,0,0,0,0\r\n", true, 14, ""},
    {"", 0, "", false, 29, "byte 0, field 1: no digit in the field"},
    {"1,200,100,40,40,60,0\n", 3, "", false, 31, "byte 20, field 7: " STRAY LF_ENDS},
    {"1,200,100,40,40,60,0", 0, "", false, 33, "byte 20, field 7: CR LF is missing, or bytes follow it"},
    {"", 3, "", false, 32, "byte 15, field 6: too few or too many fields"
     "; this looks like data row 1: is the settings line missing?"},
    {"13,200,100,40,40,60,0\r\n", 3, "", false, 1, ""},
    {"1,9,100,40,40,60,0\r\n", 3, "", false, 2, ""},
    {"1,200,4,40,40,60,0\r\n", 3, "", false, 3, ""},
    {"1,200,100,39,40,60,0\r\n", 3, "", false, 4, ""},
    {"1,200,100,40,39,60,0\r\n", 3, "", false, 5, ""},
    {"1,200,100,40,40,59,0\r\n", 3, "", false, 6, ""},
    {"1,200,100,40,40,60,2\r\n", 3, "x", false, 7, ""},
};

static void know_refused_recording(const struct recording *recording)
{
    int done = recording->settings_right ? recording->rows : 0;
    know_end(done, recording->refusal);
    fprintf(known, "%s.config.said:", name);
    if (recording->settings_right)
        fprintf(known, "row %d", done + 1);
    else
        fputs("settings line", known);
    fprintf(known, ": refused %d: %s\n", recording->refusal, recording->place);
}

/* The settings line goes first, then the configuration, then the rows, and 28 comes last of all. */
static void know_in_order(const struct recording *recording, int wrong_line, uint64_t last)
{
    if (!recording->settings_right)
        know_refused_recording(recording);
    else if (wrong_line > 0)
        know_refused(wrong_line);
    else if (recording->refusal != 0)
        know_refused_recording(recording);
    else
        know_done(recording->rows, (uint64_t)recording->rows == last);
}

static void with_recordings(int wrong_line, uint64_t last)
{
    char digits[32];
    snprintf(digits, sizeof digits, "%llu", (unsigned long long)last);
    for (size_t i = 0; i < sizeof recordings / sizeof recordings[0]; i++) {
        start_from(usual);
        fields[8][1] = digits;
        if (wrong_line > 0 && wrong_line <= LINES)
            fields[wrong_line - 1][0] = kind_of(wrong_line - 1, 0)->wrong[0];
        add_lines(0, LINES);
        add(wrong_line > LINES ? "x" : "");
        keep("with_recording");
        know_in_order(&recordings[i], wrong_line, last);
        add_recording(recordings[i].settings, recordings[i].rows, recordings[i].after);
        keep_recording();
    }
}

static void configurations_and_recordings(void)
{
    for (uint64_t last = 1; last <= 4; last++)
        with_recordings(0, last);
    with_recordings(0, 4294967299);
    for (int line = 1; line <= LINES + 1; line++)
        with_recordings(line, ROWS);
    for (size_t i = 0; i < sizeof recordings / sizeof recordings[0]; i++) {
        keep("empty_with_recording");
        know_in_order(&recordings[i], 1, 0);
        add_recording(recordings[i].settings, recordings[i].rows, recordings[i].after);
        keep_recording();
    }
}

/* A last sample number of several digits, and its neighbours. */
static void longer_recordings(void)
{
    static const int counts[] = {10, 25, 99, 100, 1234, 10000};
    char digits[32];
    for (size_t i = 0; i < sizeof counts / sizeof counts[0]; i++)
        for (int off = -1; off <= 1; off++)
            for (int width = 1; width <= 10; width += 9) {
                start_from(usual);
                snprintf(digits, sizeof digits, "%0*d", width, counts[i] + off);
                fields[8][1] = digits;
                keep_lines("longer_recording");
                know_done(counts[i], off == 0);
                add(recordings[0].settings);
                for (int row = 1; row <= counts[i]; row++) {
                    add_number((uint64_t)row, 1);
                    add(row % 10 == 1 ? ",0,20001,0,0,0\r\n" : ",0,0,0,0,0\r\n");
                }
                keep_recording();
            }
}

/* ---- The command ---- */

int main(int count, char **words)
{
    if (count != 2) {
        fputs("usage: config_inputs FOLDER\n", stderr);
        return 2;
    }
    folder = words[1];
    char path[4096];
    snprintf(path, sizeof path, "%s/known", folder);
    if ((known = fopen(path, "w")) == NULL)
        fail(path);
    snprintf(path, sizeof path, "%s/recording.csv", folder);
    add_recording(recordings[0].settings, ROWS, "");
    write_input(path);
    in_every_field(right_spellings);
    in_every_field(wrong_spellings);
    in_every_field(wrong_indices);
    in_every_field(empty_number);
    other_last_samples();
    in_every_field(bad_bytes);
    in_every_field(other_bytes);
    in_every_field(field_missing);
    in_every_field(line_lengths);
    longest_fields();
    wrong_line_ends();
    lines_missing_and_twice();
    two_wrong_lines();
    cuts(usual);
    cuts(shortest);
    bytes_after_the_last_line();
    bytes_before_the_first_line();
    more_rates();
    long_garbage();
    one_byte_hurt();
    right_by_chance();
    hurt_by_chance();
    configurations_and_recordings();
    longer_recordings();
    if (fclose(known) != 0)
        fail("known");
    return 0;
}
