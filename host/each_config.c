/*
 * Runs a command on each configuration of a folder that config_inputs has filled; the shell
 * would take several times as long.
 *   each_config FOLDER TO PART PARTS COMMAND..
 * COMMAND.. --config NAME.cfg, with the recording on standard input, for every PARTS-th
 * configuration from PART on; what it writes goes to TO/NAME.config, what it says to
 * TO/NAME.config.said.
 */
#define _POSIX_C_SOURCE 200809L
#include <dirent.h>
#include <errno.h>
#include <fcntl.h>
#include <spawn.h>
#include <stdio.h>
#include <stdlib.h>
#include <string.h>
#include <sys/wait.h>
#include <unistd.h>

extern char **environ;

enum { LONGEST_PATH = 4096 };

static void fail(const char *what)
{
    perror(what);
    exit(1);
}

static int is_config(const struct dirent *entry)
{
    const char *ending = strrchr(entry->d_name, '.');
    return ending != NULL && strcmp(ending, ".cfg") == 0;
}

/* Its status; what it reads, writes and says are files. */
static int run(char **command, const char *input, const char *wrote, const char *said)
{
    posix_spawn_file_actions_t files;
    pid_t child;
    int status;
    posix_spawn_file_actions_init(&files);
    posix_spawn_file_actions_addopen(&files, 0, input, O_RDONLY, 0);
    posix_spawn_file_actions_addopen(&files, 1, wrote, O_WRONLY | O_CREAT | O_TRUNC, 0666);
    posix_spawn_file_actions_addopen(&files, 2, said, O_WRONLY | O_CREAT | O_TRUNC, 0666);
    errno = posix_spawn(&child, command[0], &files, NULL, command, environ);
    if (errno != 0)
        fail(command[0]);
    posix_spawn_file_actions_destroy(&files);
    if (waitpid(child, &status, 0) < 0)
        fail("waiting");
    return status;
}

/* An end other than 0 is part of the answer. */
static void tell_status(const char *wrote, int status)
{
    FILE *file = fopen(wrote, "ab");
    if (file == NULL || fprintf(file, "ended with %d\n", status) < 0 || fclose(file) != 0)
        fail(wrote);
}

/* `config` is the command's last word. */
static void answer(const char *folder, const char *to, const char *file, char **command, char *config)
{
    char recording[LONGEST_PATH], wrote[LONGEST_PATH], said[LONGEST_PATH];
    int length = (int)(strlen(file) - strlen(".cfg"));
    snprintf(config, LONGEST_PATH, "%s/%s", folder, file);
    snprintf(recording, sizeof recording, "%s/%.*s.csv", folder, length, file);
    if (access(recording, R_OK) != 0)
        snprintf(recording, sizeof recording, "%s/recording.csv", folder);
    snprintf(wrote, sizeof wrote, "%s/%.*s.config", to, length, file);
    snprintf(said, sizeof said, "%s/%.*s.config.said", to, length, file);
    int status = run(command, recording, wrote, said);
    if (status != 0)
        tell_status(wrote, status);
}

int main(int count, char **words)
{
    if (count < 6) {
        fputs("usage: each_config FOLDER TO PART PARTS COMMAND..\n", stderr);
        return 2;
    }
    static char config[LONGEST_PATH];
    char **command = calloc((size_t)count, sizeof *command);
    if (command == NULL)
        fail("no room");
    memcpy(command, words + 5, (size_t)(count - 5) * sizeof *command);
    command[count - 5] = "--config";
    command[count - 4] = config;
    struct dirent **files;
    int found = scandir(words[1], &files, is_config, alphasort);
    if (found < 0)
        fail(words[1]);
    for (int i = atoi(words[3]); i < found; i += atoi(words[4]))
        answer(words[1], words[2], files[i]->d_name, command, config);
    return 0;
}
