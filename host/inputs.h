/* What the writers of test inputs share: the input being written, and chance from a fixed seed. */
#ifndef INPUTS_H
#define INPUTS_H

#include <stddef.h>
#include <stdint.h>

enum { LONGEST = 512 * 1024 };

extern char text[LONGEST];
extern size_t used;

/* Says why, and ends. */
void fail(const char *what);

void add_bytes(const char *bytes, size_t count);
void add(const char *words);
void fill(char byte, size_t count);
void add_number(uint64_t value, int width);

/* Files what was added, and starts the next input. */
void write_input(const char *path);

uint32_t chance(uint32_t below);

#endif
