/* Holding a task's call where it enters a function of the kernel, while others make calls. */
#ifndef HOLD_H
#define HOLD_H

#include <stdbool.h>
#include <sys/types.h>

#include "task.h"

/* How a call that is to be held went on. */
enum held {
    /* it stands where it enters the function */
    HELD,
    /* it has ended, and hasn't come there */
    PASSED,
    /* this kernel has no such function, or can't have a call be held */
    NOT_HELD,
};

/* Asks a task for a call, and waits until that is held. `functions` has the function's names, of which kernels have one
 * each, with a bar between. The call of one task at a time can be held. */
enum held ask_held(struct task *task, const struct call *call, const char *functions);

/* How a call went on beside the one that is held. */
enum beside {
    /* it is held itself, or waited for the one that is; or none is held */
    WAITED,
    /* it has ended meanwhile */
    OVERTOOK,
    /* the hold ended before either: the script shows nothing of the two calls */
    RAN_OUT,
};

/* Has a call that is held go on, if this task is to answer: it is held itself, or it waits for the one that is. */
enum beside let_go_for(struct task *task);

/* In a task's process: leaves the probe to the recorder. It stays where it is as long as any process has it open, so a call would be held
 * where one of the script before was. */
void forget_holds(void);

/* Has this process, and those that it forks from now on, run beside the processor on which calls are held, or on all. */
void run_beside_holds(bool is_beside);

#endif
