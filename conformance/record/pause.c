#include "pause.h"

#include <stdbool.h>
#ifdef __x86_64__
#include <sys/io.h>
#endif

#include "fail.h"

static bool may_pause;

void allow_pauses(void)
{
    may_pause = true;
}

#ifdef __x86_64__
/* The port of pvpanic, and the bit by which a kernel says that it has panicked. */
enum { PVPANIC_PORT = 0x505, PVPANIC_PANICKED = 1 };

void pause_machine(void)
{
    if (!may_pause)
        return;
    if (ioperm(PVPANIC_PORT, 1, 1))
        fail_errno("stopping the emulated machine");
    outb(PVPANIC_PANICKED, PVPANIC_PORT);
}
#else
void pause_machine(void)
{
    if (may_pause)
        fail(STATUS_FAILED, "only a machine of x86-64 can be stopped");
}
#endif
