/* A call is held by a program of the kernel's own machine (BPF) that runs where the function is entered (kprobe). It does
 * nothing but to pass the time, and ends where it is told to or its time has run out, which it says: so it can't stop a kernel
 * for good, and a hold that was too short for what was to happen meanwhile isn't taken for one that was long enough. */
#include "hold.h"

#include <errno.h>
#include <linux/bpf.h>
#include <linux/perf_event.h>
#include <poll.h>
#include <sched.h>
#include <stddef.h>
#include <stdint.h>
#include <stdio.h>
#include <stdlib.h>
#include <string.h>
#include <sys/ioctl.h>
#include <sys/syscall.h>
#include <unistd.h>

#include "fail.h"

enum {
    /* the program looks so often at most whether it may go on (a kernel loads no program without such a bound), and copies so much
     * between two looks: a second on a fast processor, more than any hold may last on an emulated one */
    LOOKS = 12000,
    COPIED_BYTES = 1 << 20,
    /* a task is looked at so often; one that sleeps in the kernel at so many looks, and never woke between them, waits for a call that
     * is held */
    LOOK_MILLISECONDS = 2,
    LOOKS_ASLEEP = 10,
    /* the processor on which a call is held, and the one on which all else runs meanwhile: a task that would spin for a lock as long
     * as its holder runs is turned out there by the recorder, and sleeps */
    HOLDING_PROCESSOR = 0,
    OTHER_PROCESSOR = 1,
    /* a hold lasts no longer: less than after what a kernel complains of a processor that is stuck */
    MOST_MILLISECONDS = 4000,
    NAME_SIZE = 128,
    /* no process has this number */
    NOBODY = -1,
};

/* What the program and the recorder have in common: whose call is held, for how long at most, and how that goes. */
struct hold {
    uint64_t process, nanoseconds, is_held, may_go, ran_out;
};

static struct {
    int map, copied, program, probe;
    struct task *task;
} now = {-1, -1, -1, -1, NULL};

static long bpf(enum bpf_cmd command, union bpf_attr *words)
{
    return syscall(SYS_bpf, command, words, sizeof *words);
}

static void put(const struct hold *hold)
{
    uint32_t key = 0;
    union bpf_attr words = {.map_fd = now.map, .key = (uintptr_t)&key, .value = (uintptr_t)hold};

    if (bpf(BPF_MAP_UPDATE_ELEM, &words))
        fail_errno("telling a call that is held");
}

static struct hold get(void)
{
    uint32_t key = 0;
    struct hold hold = {0};
    union bpf_attr words = {.map_fd = now.map, .key = (uintptr_t)&key, .value = (uintptr_t)&hold};

    if (bpf(BPF_MAP_LOOKUP_ELEM, &words))
        fail_errno("looking at a call that is held");
    return hold;
}

#define INSTRUCTION(CODE, TO, FROM, OFFSET, VALUE) \
    {.code = (CODE), .dst_reg = (TO), .src_reg = (FROM), .off = (OFFSET), .imm = (VALUE)}
#define MOVE(TO, FROM) INSTRUCTION(BPF_ALU64 | BPF_MOV | BPF_X, TO, FROM, 0, 0)
#define SET(TO, VALUE) INSTRUCTION(BPF_ALU64 | BPF_MOV | BPF_K, TO, 0, 0, VALUE)
#define ADD(TO, VALUE) INSTRUCTION(BPF_ALU64 | BPF_ADD | BPF_K, TO, 0, 0, VALUE)
#define SHIFT_RIGHT(TO, VALUE) INSTRUCTION(BPF_ALU64 | BPF_RSH | BPF_K, TO, 0, 0, VALUE)
#define LOAD(TO, FROM, FIELD) INSTRUCTION(BPF_LDX | BPF_MEM | BPF_DW, TO, FROM, offsetof(struct hold, FIELD), 0)
#define STORE(TO, FIELD, VALUE) INSTRUCTION(BPF_ST | BPF_MEM | BPF_DW, TO, 0, offsetof(struct hold, FIELD), VALUE)
#define STORE_WORD(TO, OFFSET, VALUE) INSTRUCTION(BPF_ST | BPF_MEM | BPF_W, TO, 0, OFFSET, VALUE)
#define SUM(TO, FROM) INSTRUCTION(BPF_ALU64 | BPF_ADD | BPF_X, TO, FROM, 0, 0)
#define JUMP(TEST, LEFT, VALUE, OFFSET) INSTRUCTION(BPF_JMP | (TEST) | BPF_K, LEFT, 0, OFFSET, VALUE)
#define JUMP_UNLIKE(LEFT, RIGHT, OFFSET) INSTRUCTION(BPF_JMP | BPF_JNE | BPF_X, LEFT, RIGHT, OFFSET, 0)
#define JUMP_BELOW(LEFT, RIGHT, OFFSET) INSTRUCTION(BPF_JMP | BPF_JLT | BPF_X, LEFT, RIGHT, OFFSET, 0)
#define CALL(FUNCTION) INSTRUCTION(BPF_JMP | BPF_CALL, 0, 0, 0, FUNCTION)
#define MAP(TO, FILE) INSTRUCTION(BPF_LD | BPF_IMM | BPF_DW, TO, BPF_PSEUDO_MAP_FD, 0, FILE), INSTRUCTION(0, 0, 0, 0, 0)
#define EXIT INSTRUCTION(BPF_JMP | BPF_EXIT, 0, 0, 0, 0)

/* Finds the only value of a map; a program that finds none ends. */
#define FIND(FILE) MOVE(2, 10), ADD(2, -4), MAP(1, FILE), CALL(BPF_FUNC_map_lookup_elem), JUMP(BPF_JNE, 0, 0, 2), SET(0, 0), EXIT

/* Loads the program. Registers: 6 has the hold, 7 how many looks are left, 8 when it runs out, 9 what is copied to pass the time. */
static int load_program(void)
{
    const struct bpf_insn all[] = {
        STORE_WORD(10, -4, 0),
        FIND(now.map),
        MOVE(6, 0),
        FIND(now.copied),
        MOVE(9, 0),
        CALL(BPF_FUNC_get_current_pid_tgid),
        SHIFT_RIGHT(0, 32),
        LOAD(1, 6, process),
        JUMP_UNLIKE(0, 1, 23),
        LOAD(1, 6, is_held),
        JUMP(BPF_JNE, 1, 0, 21),
        STORE(6, is_held, 1),
        CALL(BPF_FUNC_ktime_get_ns),
        LOAD(8, 6, nanoseconds),
        SUM(8, 0),
        SET(7, LOOKS),
        /* (each way out comes first: the verifier follows that before the next turn, of which it keeps one alone) */
        LOAD(1, 6, may_go),
        JUMP(BPF_JEQ, 1, 0, 2),
        SET(0, 0),
        EXIT,
        CALL(BPF_FUNC_ktime_get_ns),
        JUMP_BELOW(0, 8, 3),
        STORE(6, ran_out, 1),
        SET(0, 0),
        EXIT,
        MOVE(1, 9),
        SET(2, COPIED_BYTES),
        MOVE(3, 9),
        CALL(BPF_FUNC_probe_read_kernel),
        ADD(7, -1),
        JUMP(BPF_JNE, 7, 0, -15),
        STORE(6, ran_out, 1),
        SET(0, 0),
        EXIT,
    };
    union bpf_attr words = {
        .prog_type = BPF_PROG_TYPE_KPROBE,
        .insns = (uintptr_t)all,
        .insn_cnt = sizeof all / sizeof *all,
        .license = (uintptr_t)"GPL",
    };

    return bpf(BPF_PROG_LOAD, &words);
}

/* A map with one value of a size. */
static int new_map(uint32_t size)
{
    union bpf_attr words = {.map_type = BPF_MAP_TYPE_ARRAY, .key_size = 4, .value_size = size, .max_entries = 1};

    return bpf(BPF_MAP_CREATE, &words);
}

/* Makes the maps and the program, once. Whether they are there: not every kernel is built with what they need. */
static bool prepare(void)
{
    static bool is_tried;

    if (is_tried)
        return now.program >= 0;
    is_tried = true;
    now.map = new_map(sizeof(struct hold));
    now.copied = new_map(COPIED_BYTES);
    now.program = now.map < 0 || now.copied < 0 ? -1 : load_program();
    return now.program >= 0;
}

/* Whether the kernel has a function of a name, or of that name with what compilers append: that is found then. */
static bool find_function(const char *name, char *found)
{
    FILE *file = fopen("/proc/kallsyms", "r");
    size_t length = strlen(name);
    char line[512], word[NAME_SIZE], kind;
    bool is_found = false;

    while (file && !is_found && fgets(line, sizeof line, file))
        is_found = sscanf(line, "%*s %c %127s", &kind, word) == 2 && (kind == 't' || kind == 'T') &&
                   !strncmp(word, name, length) &&
                   (!word[length] || (word[length] == '.' && !strstr(word, ".cold")));
    if (file)
        fclose(file);
    if (is_found)
        snprintf(found, NAME_SIZE, "%s", word);
    return is_found;
}

static int kind_of_probes(void)
{
    FILE *file = fopen("/sys/bus/event_source/devices/kprobe/type", "r");
    int kind = -1;

    if (file && fscanf(file, "%d", &kind) != 1)
        kind = -1;
    if (file)
        fclose(file);
    return kind;
}

/* A probe that has the program run where one of the functions is entered, or -1. */
static int open_probe(const char *functions)
{
    struct perf_event_attr words = {
        .type = kind_of_probes(),
        .size = sizeof words,
        .sample_period = 1,
        .wakeup_events = 1,
    };
    char names[NAME_SIZE], found[NAME_SIZE], *rest = names;
    bool is_found = false;
    int probe;

    snprintf(names, sizeof names, "%s", functions);
    for (char *name; !is_found && (name = strsep(&rest, "|"));)
        is_found = find_function(name, found);
    if (!is_found || (int)words.type < 0)
        return -1;
    words.kprobe_func = (uintptr_t)found;
    probe = syscall(SYS_perf_event_open, &words, -1, HOLDING_PROCESSOR, -1, PERF_FLAG_FD_CLOEXEC);
    if (probe < 0 || (!ioctl(probe, PERF_EVENT_IOC_SET_BPF, now.program) && !ioctl(probe, PERF_EVENT_IOC_ENABLE, 0)))
        return probe;
    close(probe);
    return -1;
}

static void detach(void)
{
    if (now.probe >= 0)
        close(now.probe);
    now.probe = -1;
}

void forget_holds(void)
{
    detach();
}

/* Has the program run where one of the functions is entered, and nowhere else. Scripts that are alike follow each other,
 * and a probe takes its time: so it stays where it is as long as the function is the same. */
static bool attach(const char *functions)
{
    static char attached[NAME_SIZE];

    if (strcmp(functions, attached)) {
        snprintf(attached, sizeof attached, "%s", functions);
        detach();
        now.probe = open_probe(functions);
    }
    return now.probe >= 0;
}

/* Has a process run on one processor. */
static void place(pid_t process, int processor)
{
    cpu_set_t set;

    CPU_ZERO(&set);
    CPU_SET(processor, &set);
    if (sched_setaffinity(process, sizeof set, &set))
        fail_errno("having process %d run on processor %d", (int)process, processor);
}

void run_beside_holds(bool is_beside)
{
    static cpu_set_t all;
    static bool is_known;

    if (!is_known && sched_getaffinity(0, sizeof all, &all))
        fail_errno("asking for one's processors");
    is_known = true;
    if (is_beside)
        place(0, OTHER_PROCESSOR);
    else if (sched_setaffinity(0, sizeof all, &all))
        fail_errno("running on all of one's processors");
}

/* How often a task has gone to sleep, if it sleeps in the kernel now and no signal wakes it; else -1. (It sleeps otherwise where it
 * waits for its next call.) */
static long sleeps_of(const struct task *task)
{
    char path[64], line[256];
    long count = -1;
    bool is_asleep = false;
    FILE *file;

    snprintf(path, sizeof path, "/proc/%d/status", (int)task->process);
    file = fopen(path, "r");
    while (file && fgets(line, sizeof line, file)) {
        is_asleep |= !strncmp(line, "State:\tD", 8);
        sscanf(line, "voluntary_ctxt_switches: %ld", &count);
    }
    if (file)
        fclose(file);
    return is_asleep ? count : -1;
}

/* Looks once more at a task that was asleep at `looks` looks, and had gone to sleep `before` times. At how many it is now. */
static int looks_asleep(const struct task *task, int looks, long *before)
{
    long count = sleeps_of(task);
    bool is_same = count >= 0 && count == *before;

    *before = count;
    return is_same ? looks + 1 : 0;
}

static bool has_answered(const struct task *task)
{
    struct pollfd answer = {.fd = task->line, .events = POLLIN};

    return poll(&answer, 1, LOOK_MILLISECONDS) > 0;
}

/* Waits until a call is held, has ended, or waits for another one elsewhere. */
static enum held await_hold(const struct task *task)
{
    long before = -1;

    for (int looks = 0; looks < LOOKS_ASLEEP; looks = looks_asleep(task, looks, &before)) {
        bool is_ended = has_answered(task);
        if (get().is_held)
            return HELD;
        if (is_ended)
            return PASSED;
    }
    return NOT_HELD;
}

enum held ask_held(struct task *task, const struct call *call, const char *functions)
{
    const char *milliseconds = getenv("HOLD_MILLISECONDS");
    struct hold hold = {.process = task->process, .nanoseconds = (milliseconds ? atoll(milliseconds) : MOST_MILLISECONDS) * 1000000};

    if (!prepare() || !attach(functions)) {
        ask(task, call);
        return NOT_HELD;
    }
    put(&hold);
    now.task = task;
    place(task->process, HOLDING_PROCESSOR);
    ask(task, call);
    return await_hold(task);
}

static void let_go(void)
{
    const struct hold hold = {.process = NOBODY, .may_go = 1};

    put(&hold);
    place(now.task->process, OTHER_PROCESSOR);
    now.task = NULL;
}

/* Waits until a call has ended, which is answered true, or sleeps for one that is held, or that is held no more. */
static bool await_end(const struct task *task)
{
    long before = -1;

    for (int looks = 0; looks < LOOKS_ASLEEP && !get().ran_out; looks = looks_asleep(task, looks, &before))
        if (has_answered(task))
            return true;
    return false;
}

enum beside let_go_for(struct task *task)
{
    struct hold hold;
    bool is_ended;

    if (!now.task)
        return WAITED;
    is_ended = now.task != task && await_end(task);
    hold = get();
    if (!is_ended || hold.ran_out)
        let_go();
    return hold.ran_out ? RAN_OUT : is_ended && hold.is_held ? OVERTOOK : WAITED;
}
