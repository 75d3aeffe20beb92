/* A task: a process that maps the files of a pool, and makes the calls that it is asked for. */
#ifndef TASK_H
#define TASK_H

#include <stdbool.h>
#include <stdint.h>
#include <sys/types.h>

#include "script.h"

/* The size of the pages, which a build may say. */
#ifndef HUGE_PAGE_KIB
#define HUGE_PAGE_KIB 2048
#endif
#define HUGE_PAGE (UINT64_C(1024) * HUGE_PAGE_KIB)

enum {
    /* the pages that a file may have, and those that a task may map */
    FILE_LIMIT = 4096,
    TASK_PAGES = 16384,
    /* the virtual pages that a script may name: nothing else of the process lies there (of 1 GiB, so many have an address) */
    WINDOW = HUGE_PAGE_KIB < 1048576 ? 1048576 : 65536,
    ANSWER_SIZE = 256,
};

/* Where page 0 of a task lies. */
#define WINDOW_ADDRESS UINT64_C(0x100000000000)

/* Pages of a file that are mapped: from which virtual page on, from which index, and how many; and whether what is stored there is the
 * task's own. */
struct mapping {
    uint64_t base, first, pages;
    unsigned file;
    bool is_private;
};

/* What a task and the recorder have in common: what was asked, what was answered, and what is mapped. */
struct desk {
    struct call call;
    char answer[ANSWER_SIZE];
    unsigned mappings;
    struct mapping mapping[TASK_PAGES];
};

/* A task, as the recorder sees it. */
struct task {
    pid_t process;
    /* one byte there asks, and one answers */
    int line;
    /* the process's pages, as the kernel tells them */
    int pagemap;
    bool is_alive;
    /* it was asked, and its answer wasn't waited for yet */
    bool is_at_work;
    struct desk *desk;
};

/* How many truncations that take a page off its file have begun and ended, by file and index: the tasks of a race write there. */
struct board {
    _Atomic uint64_t begun[MOST_FILES][FILE_LIMIT], ended[MOST_FILES][FILE_LIMIT];
};

/* What a task has of the pool. */
struct files {
    const int *open;
    unsigned count;
    struct board *board;
};

/* Makes a process that answers until it is let go. `number` is for messages; `others` are the tasks made before. */
struct task begin_task(unsigned number, struct files files, const struct task *others);

/* Asks a task for a call. It is at work until its answer is waited for. */
void ask(struct task *task, const struct call *call);

/* Waits for a task's answer, which is in its desk then. */
void wait_for(struct task *task, unsigned number);

/* Lets a task go, and waits for its end. */
void end_task(struct task *task, unsigned number);

/* In a task's process: makes the call that is on its desk, and writes the answer there. */
void make_call(struct desk *desk, struct files files);

/* The same of the call of a race. */
void race(struct desk *desk, struct files files);

/* The mapping in which a page lies, or NULL. */
const struct mapping *mapping_of(const struct desk *desk, uint64_t page);

/* The least virtual page from which on so many are free, or -1. */
int64_t room_for(const struct desk *desk, uint64_t pages);

#endif
