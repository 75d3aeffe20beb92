/* Stopping an emulated machine, so that it can be looked at from outside. */
#ifndef PAUSE_H
#define PAUSE_H

/* Has pause_machine() stop the machine; without this it does nothing. */
void allow_pauses(void);

/* Stops an emulated machine by QEMU's pvpanic, until somebody has it go on. Ends the process where that can't be done. */
void pause_machine(void);

#endif
