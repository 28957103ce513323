/*
 * Reads a recorder's configuration: the whole file lies in memory, a line is a
 * string, and what its fields must be is a word of letters. Words in quotes are
 * those of docs/DECISIONS.md, 77 to 90.
 */
#include "config_plain.h"

#include <stdbool.h>
#include <stdio.h>
#include <stdlib.h>
#include <string.h>
#include <strings.h>

enum { LINES = 13, RATE_LINE = 9, MOST_FIELDS = 13, LONGEST_LINE = 256, LONGEST_NUMBER = 32 };

enum { MULTIPLIER = 27 };

/* A letter is a field: field_is says which. */
static const struct {
    uint32_t refusal;
    const char *fields;
} lines[LINES] = {
    {18, "tty"},           /* station */
    {19, "TAD"},           /* counts */
    {20, "1tqtuabnxxnnP"}, /* analogue */
    {20, "2tqtuabnxxnnP"}, {20, "3tqtuabnxxnnP"},
    {21, "1tqts"},         /* status */
    {22, "f"},             /* frequency */
    {23, "R"},             /* number of rates */
    {24, "rl"},            /* rate */
    {25, "dh"},            /* first sample */
    {25, "dh"},            /* trigger */
    {26, "F"},             /* file type */
    {MULTIPLIER, "n"},
};

/* ---- Numbers; a NULL is where something was not as it must be ---- */

static const char digit[] = "0123456789";

/* Past one or more digits. */
static const char *past_digits(const char *at)
{
    size_t count = strspn(at, digit);
    return count > 0 ? at + count : NULL;
}

static const char *past_sign(const char *at)
{
    return *at == '+' || *at == '-' ? at + 1 : at;
}

/* "an optional sign, one or more digits, optionally a point and one or more digits" */
static const char *past_decimal(const char *at)
{
    at = past_digits(past_sign(at));
    return at != NULL && *at == '.' ? past_digits(at + 1) : at;
}

/* "with an optional exponent (`e` or `E`, optional sign, digits)" */
static bool is_number(const char *field)
{
    const char *at = past_decimal(field);
    if (at != NULL && (*at == 'e' || *at == 'E'))
        at = past_digits(past_sign(at + 1));
    return at != NULL && *at == '\0' && strlen(field) <= LONGEST_NUMBER;
}

/*
 * A decimal of a value, which is given in digits without leading zeros (so 0 is no digit at all):
 * those stand between leading zeros and the end, or a point with zeros alone behind it.
 */
static bool is_decimal(const char *field, const char *value)
{
    const char *end = past_decimal(field);
    if (end == NULL || *end != '\0' || strlen(field) > LONGEST_NUMBER)
        return false;
    if (*field == '-' && *value != '\0')
        return false;
    const char *at = past_sign(field);
    at += strspn(at, "0");
    if (strncmp(at, value, strlen(value)) != 0)
        return false;
    at += strlen(value);
    return *at == '\0' || (*at == '.' && at[1 + strspn(at + 1, "0")] == '\0');
}

/* So many digits, of a value from `low` to `high`, and then `after`. */
static bool is_whole(const char *field, size_t least, size_t most, uint64_t low, uint64_t high,
                     const char *after)
{
    size_t count = strspn(field, digit);
    if (count < least || count > most || strcmp(field + count, after) != 0)
        return false;
    uint64_t value = strtoull(field, NULL, 10);
    return low <= value && value <= high;
}

/* ---- Dates ---- */

/* Each # of the picture is a digit, all else is as it stands. */
static bool looks_like(const char *field, const char *picture)
{
    for (; *field != '\0' && *picture != '\0'; field++, picture++)
        if (*picture == '#' ? strchr(digit, *field) == NULL : *field != *picture)
            return false;
    return *field == *picture;
}

/* "day 1 to 31 and month 1 to 12 in one or two digits each, year four digits from 1900" */
static bool is_date(const char *field)
{
    static const char *const pictures[] = {"#/#/####", "##/#/####", "#/##/####", "##/##/####"};
    for (int i = 0; i < 4; i++)
        if (looks_like(field, pictures[i])) {
            char *at;
            long day = strtol(field, &at, 10);
            long month = strtol(at + 1, &at, 10);
            long year = strtol(at + 1, &at, 10);
            return 1 <= day && day <= 31 && 1 <= month && month <= 12 && 1900 <= year;
        }
    return false;
}

/* "hours, minutes, seconds two digits each to 23, 59, 59, six decimals" */
static bool is_time(const char *field)
{
    return looks_like(field, "##:##:##.######") && strncmp(field, "23", 2) <= 0 &&
           field[3] <= '5' && field[6] <= '5';
}

/* ---- Fields and lines ---- */

static bool is_text(const char *field, size_t least, size_t most)
{
    return least <= strlen(field) && strlen(field) <= most;
}

static const char *without_spaces(const char *field)
{
    return field + strspn(field, " ");
}

/* "every field but a text field may begin with spaces (they do not count toward its width .." */
static bool field_is(char letter, const char *field)
{
    const char *at = without_spaces(field);
    switch (letter) {
    case 't': return is_text(field, 0, 64);                     /* station, device, name, component */
    case 'q': return is_text(field, 0, 2);                      /* phase */
    case 'u': return is_text(field, 1, 32);                     /* unit */
    case 'y': return strcmp(at, "1999") == 0;                   /* year of the standard */
    case 'T': return is_whole(at, 1, 7, 4, 4, "");              /* channels */
    case 'A': return is_whole(at, 1, 6, 3, 3, "A");             /* analogue channels */
    case 'D': return is_whole(at, 1, 6, 1, 1, "D");             /* status channels */
    case '1': return is_whole(at, 1, 6, 1, 1, "");              /* index */
    case '2': return is_whole(at, 1, 6, 2, 2, "");
    case '3': return is_whole(at, 1, 6, 3, 3, "");
    case 'a': return is_decimal(at, "1");                       /* conversion factors */
    case 'b': return is_decimal(at, "");
    case 'n': return is_number(at);                             /* skew, primary, secondary, multiplier */
    case 'x': return is_whole(at + (*at == '-'), 1, 7, 0, 9999999, ""); /* min, max */
    case 'P': return strcasecmp(at, "P") == 0 || strcasecmp(at, "S") == 0;
    case 's': return strcmp(at, "0") == 0 || strcmp(at, "1") == 0; /* normal state */
    case 'f': return *at == '\0' || is_number(at);              /* frequency */
    case 'R': return is_whole(at, 1, 3, 1, 1, "");              /* number of rates */
    case 'r': return is_decimal(at, "1000");
    case 'l': return is_whole(at, 1, 10, 1, 9999999999, "");    /* last sample number */
    case 'd': return is_date(at);
    case 'h': return is_time(at);
    case 'F': return strcasecmp(at, "ASCII") == 0;
    default: return false;
    }
}

/* The line from here, to and with the next CR LF or to the end of the file. */
static size_t line_length(const char *bytes, size_t count)
{
    for (size_t i = 1; i < count; i++)
        if (bytes[i - 1] == '\r' && bytes[i] == '\n')
            return i + 1;
    return count;
}

/* The line without its CR LF as a string; false where it is "malformed" whatever its fields are. */
static bool read_line(const char *bytes, size_t length, char line[LONGEST_LINE])
{
    if (length < 2 || length > LONGEST_LINE || bytes[length - 2] != '\r' || bytes[length - 1] != '\n')
        return false;
    for (size_t i = 0; i < length - 2; i++)
        if (bytes[i] < 32 || bytes[i] > 126) /* a byte over 127 is below 0 where a char has a sign */
            return false;
    memcpy(line, bytes, length - 2);
    line[length - 2] = '\0';
    return true;
}

/* Cuts the line at its commas, and says whether its fields are those of the letters. */
static bool fields_are(const char *letters, char *line, char *fields[MOST_FIELDS])
{
    for (size_t i = 0; letters[i] != '\0'; i++) {
        char *comma = strchr(line, ',');
        bool last = letters[i + 1] == '\0';
        if ((comma == NULL) != last)
            return false;
        if (comma != NULL)
            *comma = '\0';
        if (!field_is(letters[i], line))
            return false;
        fields[i] = line;
        line += strlen(line) + 1;
    }
    return true;
}

/* "The earliest line that is missing, malformed or outside what we take decides" */
struct plain_config plain_read_config(const char *bytes, size_t count)
{
    struct plain_config answer = {0, 1, 0};
    for (; answer.line <= LINES; answer.line++) {
        char line[LONGEST_LINE], *fields[MOST_FIELDS];
        size_t length = line_length(bytes, count);
        if (!read_line(bytes, length, line) || !fields_are(lines[answer.line - 1].fields, line, fields)) {
            answer.refusal = lines[answer.line - 1].refusal;
            return answer;
        }
        if (answer.line == RATE_LINE)
            answer.last_sample = strtoull(fields[1], NULL, 10);
        bytes += length;
        count -= length;
    }
    if (count > 0)
        answer.refusal = MULTIPLIER; /* "Bytes after line 13 are 27 with line number 14." */
    return answer;
}

/* ---- The file ---- */

/* All bytes of a file, however many; NULL where it cannot be read. */
static char *read_all(FILE *file, size_t *count)
{
    size_t room = 4096, got;
    char *bytes = malloc(room);
    *count = 0;
    while (bytes != NULL && (got = fread(bytes + *count, 1, room - *count, file)) > 0) {
        *count += got;
        if (*count == room)
            bytes = realloc(bytes, room *= 2);
    }
    if (bytes == NULL)
        abort();
    if (!ferror(file))
        return bytes;
    free(bytes);
    return NULL;
}

struct plain_config plain_read_config_file(const char *path)
{
    FILE *file = fopen(path, "rb");
    size_t count = 0;
    char *bytes = file != NULL ? read_all(file, &count) : NULL;
    if (bytes == NULL) {
        perror(path);
        count = 0;
    }
    struct plain_config answer = plain_read_config(bytes != NULL ? bytes : "", count);
    free(bytes);
    if (file != NULL)
        fclose(file);
    return answer;
}
