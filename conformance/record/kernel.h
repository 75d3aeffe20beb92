/* What the kernel tells of its huge pages, and how many it is to have. */
#ifndef KERNEL_H
#define KERNEL_H

/* The kernel's own counts, of pages of 2 MiB. A reserve count that went below zero is told as that. */
struct counts {
    long total, free, reserved, surplus;
};

/* What the recorder changes of the kernel, and puts back. */
struct settings {
    long frames, overcommit;
};

struct counts counts_of_kernel(void);
struct settings settings_of_kernel(void);

/* Asks the kernel for so many huge pages. How many it has then, its counts tell. */
void ask_for_frames(long frames);

/* Asks the kernel to give so many surplus pages at most to who finds the pool empty. */
void ask_for_overcommit(long frames);

/* Ends the process where this isn't a machine on which scripts can be recorded. */
void check_machine(void);

#endif
