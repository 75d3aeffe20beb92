/* One number that a process has says which of its allocations fails first (fail-nth); a mark that it has (make-it-fail) has
 * later ones fail, too, as many as the kernel is told (times). What is charged to a memory cgroup fails in one that may have
 * nothing: page tables, mappings, and the nodes of a page cache; the descriptors of a reserve map aren't charged. */
#include "deny.h"

#include <errno.h>
#include <fcntl.h>
#include <signal.h>
#include <stdio.h>
#include <string.h>
#include <sys/mount.h>
#include <sys/stat.h>
#include <unistd.h>

#include "fail.h"

#define DEBUG "/sys/kernel/debug"
#define FOLDER DEBUG "/failslab/"
#define GROUPS "/sys/fs/cgroup"
#define POOR GROUPS "/kirvessa-poor"

/* so many seconds a process may stay in the group */
enum { PATIENCE = 5 };
/* what a process touches of its stack before, page by page */
enum { STACK_TOUCHED = 65536, BASE_PAGE = 4096 };

static bool write_word(const char *path, const char *word)
{
    int file = open(path, O_WRONLY | O_CLOEXEC);
    bool is_written = file >= 0 && write(file, word, strlen(word)) == (ssize_t)strlen(word);

    if (file >= 0)
        close(file);
    return is_written;
}

/* (a kernel spares allocations that may wait, unless it is told otherwise; and it tells of each that it denies) */
static bool prepare(void)
{
    bool is_there = !access("/proc/self/fail-nth", W_OK);

    if (is_there && access(FOLDER, F_OK))
        is_there = !mount("none", DEBUG, "debugfs", 0, NULL);
    return is_there && write_word(FOLDER "ignore-gfp-wait", "N") && write_word(FOLDER "verbose", "0") &&
           write_word(FOLDER "task-filter", "Y") && write_word(FOLDER "interval", "1") &&
           write_word(FOLDER "probability", "100");
}

/* A memory cgroup that may have nothing. (A kernel would kill for it, if any process in it could be killed.) */
static bool prepare_group(void)
{
    if (access(GROUPS "/cgroup.controllers", F_OK) && mount("none", GROUPS, "cgroup2", 0, NULL))
        return false;
    return write_word(GROUPS "/cgroup.subtree_control", "+memory") && (!mkdir(POOR, 0755) || errno == EEXIST) &&
           write_word(POOR "/memory.max", "0");
}

bool ready_denial(struct denial denial)
{
    static enum { UNKNOWN, CAN, CANNOT } state, charged;
    char times[16];

    if (denial.is_charged) {
        if (charged == UNKNOWN)
            charged = prepare_group() ? CAN : CANNOT;
        return charged == CAN;
    }
    if (state == UNKNOWN)
        state = prepare() ? CAN : CANNOT;
    snprintf(times, sizeof times, "%u", denial.last - denial.first + 1);
    return state == CAN && write_word(FOLDER "times", times);
}

void end_denials(void)
{
    rmdir(POOR);
}

/* What a process says of its own allocations. Opening a file allocates memory: so all are open before one is denied. */
static struct {
    int first, mark, poor, group;
    bool is_open, is_denying, is_poor, may_be_poor;
} own;

static int open_own(const char *path)
{
    int file = open(path, O_WRONLY | O_CLOEXEC);

    if (file < 0)
        fail_errno("%s", path);
    return file;
}

static void write_own(int file, unsigned number)
{
    char word[16];
    int length = snprintf(word, sizeof word, "%u", number);

    if (write(file, word, length) != length)
        fail_errno("having an allocation fail");
}

/* A touch that can't have a page table is tried again and again: it ends when the process leaves the group. */
static void leave_group(int number)
{
    (void)number;
    if (write(own.group, "0", 1) != 1)
        fail_errno("leaving a control group");
}

/* In the group a process can't have a page of its own either: not for a signal's frame, nor for what it shares with its parent. */
static void touch_own(const volatile char *shared, size_t size)
{
    extern char __data_start[], _end[];
    volatile char stack[STACK_TOUCHED];

    for (size_t k = 0; k < sizeof stack; k += BASE_PAGE)
        stack[k] = 0;
    for (uintptr_t at = (uintptr_t)__data_start; at < (uintptr_t)_end; at = (at / BASE_PAGE + 1) * BASE_PAGE)
        *(volatile char *)at = *(volatile char *)at;
    for (size_t k = 0; k < size; k += BASE_PAGE)
        (void)shared[k];
    errno = 0;
}

static void enter_group(void)
{
    if (!own.may_be_poor) {
        own.poor = open_own(POOR "/cgroup.procs");
        own.group = open_own(GROUPS "/cgroup.procs");
        signal(SIGALRM, leave_group);
        own.may_be_poor = write_word("/proc/self/oom_score_adj", "-1000");
    }
    if (!own.may_be_poor || write(own.poor, "0", 1) != 1)
        fail_errno("entering a control group");
    own.is_poor = true;
    alarm(PATIENCE);
}

void begin_denial(struct denial denial, const void *shared, size_t size)
{
    own.is_denying = denial.first && !denial.is_charged;
    if (denial.is_charged) {
        touch_own(shared, size);
        enter_group();
    }
    if (!own.is_denying)
        return;
    if (!own.is_open) {
        own.first = open_own("/proc/self/fail-nth");
        own.mark = open_own("/proc/self/make-it-fail");
        own.is_open = true;
    }
    write_own(own.first, denial.first);
    if (denial.last > denial.first)
        write_own(own.mark, 1);
}

void end_denial(void)
{
    if (own.is_poor) {
        alarm(0);
        leave_group(0);
        own.is_poor = false;
    }
    if (!own.is_denying)
        return;
    write_own(own.first, 0);
    write_own(own.mark, 0);
}
