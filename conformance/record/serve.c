#include "serve.h"

#include <errno.h>
#include <fcntl.h>
#include <stdbool.h>
#include <stdio.h>
#include <stdlib.h>
#include <string.h>
#include <sys/wait.h>
#include <termios.h>
#include <unistd.h>

#include "fail.h"

/* A serial line gives each byte as it came, and says nothing back. */
static FILE *open_line(const char *path)
{
    struct termios mode;
    int line = open(path, O_RDONLY | O_NOCTTY | O_CLOEXEC);
    FILE *file = line < 0 ? NULL : fdopen(line, "r");

    if (!file)
        fail_errno("%s", path);
    if (!tcgetattr(line, &mode)) {
        cfmakeraw(&mode);
        cfsetspeed(&mode, B115200);
        tcsetattr(line, TCSANOW, &mode);
    }
    return file;
}

/* Keeps what comes up to a line `go`. Whether there was one. */
static bool keep_scripts(FILE *from)
{
    FILE *to = fopen(SERVED, "w");
    char line[512];
    bool is_whole = false;

    if (!to)
        fail_errno(SERVED);
    while (!is_whole && fgets(line, sizeof line, from)) {
        is_whole = !strcmp(line, "go\n");
        if (!is_whole)
            fputs(line, to);
    }
    if (fclose(to))
        fail_errno(SERVED);
    return is_whole;
}

static int record_kept(char **words)
{
    pid_t process = fork();
    int ended;

    if (process < 0)
        fail_errno("no process for the scripts");
    if (!process) {
        execv("/proc/self/exe", words);
        fail_errno("/proc/self/exe");
    }
    if (waitpid(process, &ended, 0) < 0)
        fail_errno("waiting for the scripts");
    return WIFEXITED(ended) ? WEXITSTATUS(ended) : 128 + WTERMSIG(ended);
}

_Noreturn void serve(const char *path, char **words)
{
    FILE *line = open_line(path);

    tell("serves %s", path);
    while (keep_scripts(line)) {
        int status = record_kept(words);
        printf("served %d\n", status);
        if (fflush(stdout))
            fail_errno("writing what the kernel answered");
    }
    exit(STATUS_DONE);
}
