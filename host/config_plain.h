/*
 * A recorder's configuration (COMTRADE 1999, ASCII) in plain C, from the words of
 * document 02, E4, and docs/DECISIONS.md; it shares no code with the proved reader.
 */
#ifndef CONFIG_PLAIN_H
#define CONFIG_PLAIN_H

#include <stddef.h>
#include <stdint.h>

/* Refusal 0 is accepted: then there is a last sample number, else the line that is refused. */
struct plain_config {
    uint32_t refusal;
    uint32_t line;
    uint64_t last_sample;
};

struct plain_config plain_read_config(const char *bytes, size_t count);

/* Of a file; one that cannot be opened or read is told on standard error, and is an empty one. */
struct plain_config plain_read_config_file(const char *path);

#endif
