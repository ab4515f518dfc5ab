#define _POSIX_C_SOURCE 200809L
#include "outside.h"

#include <fcntl.h>
#include <stdio.h>
#include <stdlib.h>
#include <sys/wait.h>
#include <unistd.h>

void must(bool ok, const char *what)
{
    if (ok)
        return;
    perror(what);
    exit(2);
}

size_t load(const char *name, void *at, size_t most)
{
    FILE *f = fopen(name, "rb");
    if (f == NULL)
        return 0;
    size_t got = fread(at, 1, most, f);
    fclose(f);
    return got;
}

void store(const char *name, const void *bytes, size_t len)
{
    FILE *f = fopen(name, "wb");
    must(f != NULL && fwrite(bytes, 1, len, f) == len && fclose(f) == 0, name);
}

static void become(char *const words[], const char *said, bool errors_too)
{
    int in = open("/dev/null", O_RDONLY);
    int out = open(said, O_WRONLY | O_CREAT | O_TRUNC, 0666);
    if (in < 0 || out < 0 || dup2(in, 0) < 0 || dup2(out, 1) < 0 || (errors_too && dup2(out, 2) < 0))
        _exit(126);
    execv(words[0], words);
    _exit(127);
}

int run_said(char *const words[], const char *said, bool errors_too)
{
    int status;
    fflush(stdout);
    pid_t child = fork();
    if (child == 0)
        become(words, said, errors_too);
    must(child > 0 && waitpid(child, &status, 0) == child, "no process");
    return WIFEXITED(status) ? WEXITSTATUS(status) : -1;
}
