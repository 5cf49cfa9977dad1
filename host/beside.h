/* beside.h - a file that goes with a program, found whatever the current folder is. */
#ifndef BESIDE_H
#define BESIDE_H

#include <stddef.h>

/* Looks for a file in the program's own folder and, for a program of target/host, in the host folder of its checkout.
 * `program` is argv[0]; one without a slash is looked for in the PATH. Writes the file's path, or gives 0. */
int beside(const char *program, const char *name, char *path, size_t room);

#endif
