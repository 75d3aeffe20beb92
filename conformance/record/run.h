/* Running scripts on the kernel's own hugetlbfs, and telling what it answers. */
#ifndef RUN_H
#define RUN_H

#include <stddef.h>

#include "script.h"

/* Runs the scripts from number `from` on, and writes what the kernel answers to standard output. `mount_point` is a folder
 * to mount on. Ends the process where it can't go on. */
void run_scripts(const struct scripts *scripts, size_t from, const char *mount_point);

#endif
