/* Denying a call some of its allocations of kernel memory. */
#ifndef DENY_H
#define DENY_H

#include <stdbool.h>
#include <stddef.h>

#include "script.h"

/* Readies the kernel for a call that is denied memory. Whether it can do so (CONFIG_FAILSLAB, or CONFIG_MEMCG of what is charged). */
bool ready_denial(struct denial denial);

/* Takes back what was readied, where all calls have ended. */
void end_denials(void);

/* In a task's process: has its allocations fail from the first of a denial to the last, if it is one. `shared` is what the process
 * has in common with others, and works on meanwhile. */
void begin_denial(struct denial denial, const void *shared, size_t size);

/* Has none fail any more. */
void end_denial(void);

#endif
