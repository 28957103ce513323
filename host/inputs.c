#include "inputs.h"

#include <stdio.h>
#include <stdlib.h>
#include <string.h>

char text[LONGEST];
size_t used;

void fail(const char *what)
{
    perror(what);
    exit(1);
}

void add_bytes(const char *bytes, size_t count)
{
    if (count > LONGEST - used)
        fail("an input is too long");
    memcpy(text + used, bytes, count);
    used += count;
}

void add(const char *words)
{
    add_bytes(words, strlen(words));
}

void fill(char byte, size_t count)
{
    while (count-- > 0)
        add_bytes(&byte, 1);
}

void add_number(uint64_t value, int width)
{
    char digits[32];
    add_bytes(digits, (size_t)snprintf(digits, sizeof digits, "%0*llu", width,
                                       (unsigned long long)value));
}

void write_input(const char *path)
{
    FILE *file = fopen(path, "wb");
    if (file == NULL || fwrite(text, 1, used, file) != used || fclose(file) != 0)
        fail(path);
    used = 0;
}

static uint64_t seed = 1;

uint32_t chance(uint32_t below)
{
    seed = seed * 6364136223846793005u + 1442695040888963407u;
    return (uint32_t)(seed >> 33) % below;
}
