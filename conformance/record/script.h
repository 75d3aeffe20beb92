/* Scripts: the calls that tasks make on a pool, one after another, as `README.md` tells their lines. */
#ifndef SCRIPT_H
#define SCRIPT_H

#include <stdbool.h>
#include <stddef.h>
#include <stdint.h>

enum {
    MOST_FRAMES = 4096,
    MOST_FILES = 16,
    MOST_SLOTS = 64,
    MOST_TASKS = 64,
    MOST_QUOTA = 65536,
    /* the allocations of a call of which one may be denied */
    MOST_DENIED = 1000,
    /* the numbers that an operation has */
    MOST_NUMBERS = 4,
};

/* What a task can be asked. Those up to OP_TRUNC are what a race draws from, in the order of RACE_LETTERS. */
enum operation {
    OP_MAP,
    OP_MAPN,
    OP_UNMAP,
    OP_LOAD,
    OP_STORE,
    OP_ALLOC,
    OP_ALLOCK,
    OP_PUNCH,
    OP_TRUNC,
    OP_EXIT,
    /* calls in bytes, of which the kernel alone says what is wrong */
    OP_X_MAP,
    /* mappings of one's own, and what else the machine doesn't have */
    OP_X_PRIVATE,
    OP_X_PRIVATEN,
    OP_X_DONTNEED,
    OP_X_FORK,
    OP_X_UNMAP,
    OP_X_LOAD,
    OP_X_FALLOCATE,
    OP_X_FTRUNCATE,
    /* many calls by chance; a line of its own asks all tasks at once */
    OP_RACE,
};

#define RACE_LETTERS "mnulsakpt"

/* Allocations of kernel memory that a call is denied: the first, counted from 1, and the last; or those that are charged to its
 * task's memory cgroup, first = last = 1 then; 0 and 0 where none is. */
struct denial {
    unsigned first, last;
    bool is_charged;
};

/* An operation with its numbers, in the order of the line, and what it is denied. */
struct call {
    enum operation operation;
    uint64_t numbers[MOST_NUMBERS];
    struct denial denial;
};

/* A race's numbers: the seed, how many calls each task makes, how many pages of a file they are about, and a bit for
 * each operation that may be drawn. */
enum { RACE_SEED, RACE_CALLS, RACE_SPAN, RACE_KINDS };

/* A call that is begun runs to its end, and so does one that is denied memory. One that is started goes on beside the lines that
 * follow, up to its task's wait; and one that is held stands in the kernel meanwhile, where it enters a function. */
enum line_kind { LINE_BEGIN, LINE_DENY, LINE_START, LINE_HOLD, LINE_WAIT, LINE_RESIZE, LINE_OVERCOMMIT, LINE_RACE };

struct line {
    enum line_kind kind;
    /* the line as it is told, without an answer that stood behind it */
    char *text;
    /* of all but LINE_RESIZE, LINE_OVERCOMMIT and LINE_RACE, counted from 1 */
    unsigned task;
    /* of all but LINE_WAIT, LINE_RESIZE and LINE_OVERCOMMIT */
    struct call call;
    /* of LINE_HOLD: the names that the function has, with a bar between */
    char *functions;
    /* of LINE_WAIT: the call can't end before the one that is held */
    bool is_blocked;
    /* of LINE_RESIZE and LINE_OVERCOMMIT */
    unsigned frames;
};

struct script {
    char *name;
    /* the line of the pool, as it is told */
    char *header;
    unsigned frames, files, tasks;
    /* the maximum of pages that all files may have, or -1 where there is none */
    long quota;
    struct line *lines;
    size_t count;
};

struct scripts {
    struct script *all;
    size_t count;
};

/* Adds the scripts of a file. The first line that can't be read ends the process with its number, and STATUS_USAGE. */
void read_scripts(const char *path, struct scripts *into);

/* The word of an operation. */
const char *word_of(enum operation operation);

#endif
