/* What a test needs of the system: files, and programs run in the working folder. */
#ifndef OUTSIDE_H
#define OUTSIDE_H

#include <stdbool.h>
#include <stddef.h>

/* Ends the test program where the system does not do what is asked. */
void must(bool ok, const char *what);

/* A file's bytes, up to so many; 0 where it can't be opened. */
size_t load(const char *name, void *at, size_t most);

/* Writes a file anew. */
void store(const char *name, const void *bytes, size_t len);

/* Runs a program without input; what it says goes to the file said, its errors too if asked. Its status, -1 for an end by a signal. */
int run_said(char *const words[], const char *said, bool errors_too);

#endif
