#include "run.h"

#include <errno.h>
#include <fcntl.h>
#include <inttypes.h>
#include <sched.h>
#include <stdbool.h>
#include <stdio.h>
#include <stdlib.h>
#include <string.h>
#include <sys/mman.h>
#include <sys/mount.h>
#include <sys/stat.h>
#include <sys/statfs.h>
#include <sys/utsname.h>
#include <unistd.h>

#include "deny.h"
#include "fail.h"
#include "hold.h"
#include "kernel.h"
#include "pause.h"
#include "task.h"

/* A page that a task's table shows: of which file and index, and in which frame of the machine's memory. */
struct entry {
    unsigned file;
    uint64_t index, frame;
};

/* The entries that were seen of one state. */
struct entries {
    struct entry *all;
    size_t count, room;
    /* two entries that can't both be right were among them */
    bool disagree;
};

/* A script's pool while it runs. */
struct pool {
    const struct script *script;
    const char *mount_point;
    int open[MOST_FILES];
    struct task tasks[MOST_TASKS];
    struct board *board;
    bool is_resized;
    /* a hold ended before what was to happen meanwhile had happened */
    bool ran_out;
    struct entries entries;
};

/* A script whose hold runs out is made so often at most. */
enum { MOST_TRIES = 4 };

/* What a script leaves: the kernel's counts are right, or not; or it is to be made again. */
enum left { RIGHT, WRONG, AGAIN };

static size_t lines_written;

static void end_line(void)
{
    putchar('\n');
    lines_written++;
}

static struct files files_of(const struct pool *pool)
{
    return (struct files){pool->open, pool->script->files, pool->board};
}

static void path_of(const struct pool *pool, unsigned file, char *path, size_t size)
{
    if ((size_t)snprintf(path, size, "%s/%u", pool->mount_point, file) >= size)
        fail(STATUS_FAILED, "%s is too long a path", pool->mount_point);
}

static void mount_pool(const struct pool *pool)
{
    char options[64];
    int length = snprintf(options, sizeof options, "pagesize=%uK", HUGE_PAGE_KIB);

    if (pool->script->quota >= 0)
        snprintf(options + length, sizeof options - length, ",size=%" PRIu64, pool->script->quota * HUGE_PAGE);
    if (mount("none", pool->mount_point, "hugetlbfs", 0, options))
        fail_errno("mounting a hugetlbfs (%s)", options);
}

/* Has the kernel have the script's frames, all of them free. */
static void fill_pool(const struct script *script)
{
    struct counts now;

    ask_for_frames(0);
    now = counts_of_kernel();
    if (now.total)
        fail(STATUS_FAILED, "before script %s the kernel keeps %ld huge pages that nobody should use", script->name, now.total);
    ask_for_frames(script->frames);
    now = counts_of_kernel();
    if (now.total != (long)script->frames)
        fail(STATUS_FAILED, "script %s wants %u huge pages, and the kernel has memory for %ld", script->name, script->frames,
             now.total);
}

static void open_files(struct pool *pool)
{
    for (unsigned k = 0; k < pool->script->files; k++) {
        char path[4096];
        path_of(pool, k, path, sizeof path);
        pool->open[k] = open(path, O_RDWR | O_CREAT | O_EXCL | O_CLOEXEC, 0600);
        if (pool->open[k] < 0)
            fail_errno("%s", path);
    }
}

static void remove_files(const struct pool *pool)
{
    for (unsigned k = 0; k < pool->script->files; k++) {
        char path[4096];
        path_of(pool, k, path, sizeof path);
        close(pool->open[k]);
        if (unlink(path))
            fail_errno("%s", path);
    }
}

static struct board *new_board(void)
{
    struct board *board = mmap(NULL, sizeof *board, PROT_READ | PROT_WRITE, MAP_SHARED | MAP_ANONYMOUS, -1, 0);

    if (board == MAP_FAILED)
        fail_errno("no memory for a script");
    return board;
}

static bool has_holds(const struct script *script)
{
    for (size_t k = 0; k < script->count; k++)
        if (script->lines[k].kind == LINE_HOLD)
            return true;
    return false;
}

static void begin_pool(struct pool *pool)
{
    mount_pool(pool);
    fill_pool(pool->script);
    open_files(pool);
    pool->board = new_board();
    run_beside_holds(has_holds(pool->script));
    /* (what is buffered here would be written by each task, too) */
    fflush(stdout);
    for (unsigned k = 0; k < pool->script->tasks; k++)
        pool->tasks[k] = begin_task(k + 1, files_of(pool), pool->tasks);
}

static void end_pool(struct pool *pool)
{
    for (unsigned k = 0; k < pool->script->tasks; k++)
        if (pool->tasks[k].is_alive)
            end_task(&pool->tasks[k], k + 1);
    munmap(pool->board, sizeof *pool->board);
    remove_files(pool);
    ask_for_overcommit(0);
    free(pool->entries.all);
}

/* Keeps an entry, and notes whether it is at odds with one before: one index is in one frame, and one frame has one index. */
static void keep_entry(struct entries *entries, struct entry entry)
{
    for (size_t k = 0; k < entries->count; k++) {
        const struct entry *other = &entries->all[k];
        bool is_same = other->file == entry.file && other->index == entry.index;
        entries->disagree |= is_same != (other->frame == entry.frame);
    }
    if (entries->count == entries->room) {
        entries->room = entries->room ? 2 * entries->room : 64;
        entries->all = realloc(entries->all, entries->room * sizeof *entries->all);
        if (!entries->all)
            fail_errno("no memory for the entries");
    }
    entries->all[entries->count++] = entry;
}

/* The frame that a task's table shows at a virtual page, or 0 where it shows none. */
static uint64_t frame_at(const struct task *task, uint64_t page)
{
    const uint64_t present = UINT64_C(1) << 63, number = (UINT64_C(1) << 55) - 1;
    uint64_t told, address = WINDOW_ADDRESS + page * HUGE_PAGE;
    off_t place = address / sysconf(_SC_PAGESIZE) * sizeof told;

    if (pread(task->pagemap, &told, sizeof told, place) != sizeof told)
        fail_errno("reading the pages of process %d", (int)task->process);
    if (told & present && !(told & number))
        fail(STATUS_FAILED, "the kernel doesn't tell frames (CAP_SYS_ADMIN is wanted)");
    return told & present ? told & number : 0;
}

static size_t keep_mapping(struct entries *entries, const struct task *task, const struct mapping *mapping)
{
    size_t count = 0;

    for (uint64_t k = 0; k < mapping->pages; k++) {
        uint64_t frame = frame_at(task, mapping->base + k);
        count += frame != 0;
        /* (a page of one's own may be in another frame than the file's) */
        if (frame && !mapping->is_private)
            keep_entry(entries, (struct entry){mapping->file, mapping->first + k, frame});
    }
    return count;
}

static size_t keep_task(struct entries *entries, const struct task *task)
{
    size_t count = 0;

    if (!task->is_alive)
        return 0;
    for (unsigned k = 0; k < task->desk->mappings; k++)
        count += keep_mapping(entries, task, &task->desk->mapping[k]);
    return count;
}

static void tell_files(const struct pool *pool)
{
    for (unsigned k = 0; k < pool->script->files; k++) {
        struct stat told;
        uint64_t over;
        if (fstat(pool->open[k], &told))
            fail_errno("asking for the size of file %u", k);
        over = told.st_size % HUGE_PAGE;
        printf("%s %" PRIu64, k ? "," : "", told.st_size / HUGE_PAGE);
        if (over)
            printf("+%" PRIu64, over);
        printf(" %" PRIu64, told.st_blocks / (HUGE_PAGE / 512));
    }
}

static void tell_entries(struct pool *pool)
{
    pool->entries.count = 0;
    pool->entries.disagree = false;
    for (unsigned k = 0; k < pool->script->tasks; k++)
        printf(" %zu", keep_task(&pool->entries, &pool->tasks[k]));
}

static void tell_used(const struct pool *pool)
{
    struct statfs told;

    if (statfs(pool->mount_point, &told))
        fail_errno("asking for the used pages");
    printf(" | used %ld", (long)(told.f_blocks - told.f_bfree));
}

/* Tells what can be seen of the pool, and ends the line. */
static void tell_state(struct pool *pool)
{
    struct counts now = counts_of_kernel();

    printf(" | %ld %ld |", now.free, now.reserved);
    tell_files(pool);
    printf(" |");
    tell_entries(pool);
    if (pool->script->quota >= 0)
        tell_used(pool);
    if (pool->is_resized)
        printf(" | total %ld surplus %ld", now.total, now.surplus);
    if (pool->entries.disagree)
        printf(" DISAGREE");
    end_line();
}

static const char *answer_of(struct task *task, const struct line *line)
{
    if (!task->is_alive)
        return "refused notalive";
    if (line->call.operation == OP_EXIT) {
        end_task(task, line->task);
        return "done";
    }
    ask(task, &line->call);
    wait_for(task, line->task);
    return task->desk->answer;
}

static void run_begin(struct pool *pool, const struct line *line)
{
    printf("%s = %s", line->text, answer_of(&pool->tasks[line->task - 1], line));
}

/* Asks a task for its call, and goes on. */
static void run_start(struct pool *pool, const struct line *line)
{
    struct task *task = &pool->tasks[line->task - 1];

    if (task->is_alive)
        ask(task, &line->call);
    printf("%s = %s", line->text, task->is_alive ? "started" : "refused notalive");
}

/* Asks a task for its call, and goes on when that is held. */
static void run_hold(struct pool *pool, const struct line *line)
{
    static const char *const words[] = {[HELD] = "held", [PASSED] = "passed", [NOT_HELD] = "started"};
    struct task *task = &pool->tasks[line->task - 1];

    if (line->call.denial.first && !ready_denial(line->call.denial))
        fail(STATUS_FAILED, "'%s': this kernel can't deny memory", line->text);
    printf("%s = %s", line->text, task->is_alive ? words[ask_held(task, &line->call, line->functions)] : "refused notalive");
}

static void run_deny(struct pool *pool, const struct line *line)
{
    printf("%s = %s", line->text, ready_denial(line->call.denial) ? answer_of(&pool->tasks[line->task - 1], line) : "refused nodenial");
}

static void run_wait(struct pool *pool, const struct line *line)
{
    struct task *task = &pool->tasks[line->task - 1];
    enum beside beside = let_go_for(task);
    const char *answer = beside == RAN_OUT ? "ranout" : line->is_blocked && beside == OVERTOOK ? "unblocked" : NULL;

    pool->ran_out |= beside == RAN_OUT;
    if (task->is_alive)
        wait_for(task, line->task);
    printf("%s = %s", line->text, !task->is_alive ? "refused notalive" : answer ? answer : task->desk->answer);
}

static void run_resize(struct pool *pool, const struct line *line)
{
    long total;

    ask_for_frames(line->frames);
    pool->is_resized = true;
    total = counts_of_kernel().total;
    if (total < (long)line->frames)
        fail(STATUS_FAILED, "script %s wants %u huge pages, and the kernel has memory for %ld", pool->script->name, line->frames,
             total);
    printf("%s = resized %ld", line->text, total);
}

/* Lets the kernel give so many surplus pages to who finds no free one, until the script's end. */
static void run_overcommit(struct pool *pool, const struct line *line)
{
    ask_for_overcommit(line->frames);
    pool->is_resized = true;
    printf("%s = overcommits", line->text);
}

static void ask_all(struct pool *pool, const struct line *line)
{
    for (unsigned k = 0; k < pool->script->tasks; k++) {
        struct call call = line->call;
        call.numbers[RACE_SEED] = call.numbers[RACE_SEED] * MOST_TASKS + k;
        if (pool->tasks[k].is_alive)
            ask(&pool->tasks[k], &call);
    }
}

/* Tells what a task made in a race, and returns how many reservations Linux may lose by it. */
static uint64_t tell_race_of(struct task *task, unsigned number, const struct line *line)
{
    uint64_t beside;

    wait_for(task, number);
    if (sscanf(task->desk->answer, "raced beside %" SCNu64, &beside) != 1)
        fail(STATUS_FAILED, "'%s': task %u: %s", line->text, number, task->desk->answer);
    printf("# task %u %s", number, task->desk->answer);
    end_line();
    return beside;
}

static void run_race(struct pool *pool, const struct line *line)
{
    uint64_t beside = 0;

    ask_all(pool, line);
    for (unsigned k = 0; k < pool->script->tasks; k++)
        if (pool->tasks[k].is_alive)
            beside += tell_race_of(&pool->tasks[k], k + 1, line);
    printf("%s = rest beside %" PRIu64, line->text, beside);
}

/* Whether no task is at work: while one is, the state is by chance, and isn't told. */
static bool is_at_rest(const struct pool *pool)
{
    for (unsigned k = 0; k < pool->script->tasks; k++)
        if (pool->tasks[k].is_at_work)
            return false;
    return true;
}

static void run_line(struct pool *pool, const struct line *line)
{
    switch (line->kind) {
    case LINE_BEGIN:
        run_begin(pool, line);
        break;
    case LINE_DENY:
        run_deny(pool, line);
        break;
    case LINE_START:
        run_start(pool, line);
        break;
    case LINE_HOLD:
        run_hold(pool, line);
        break;
    case LINE_WAIT:
        run_wait(pool, line);
        break;
    case LINE_RESIZE:
        run_resize(pool, line);
        break;
    case LINE_OVERCOMMIT:
        run_overcommit(pool, line);
        break;
    case LINE_RACE:
        run_race(pool, line);
        break;
    }
    if (is_at_rest(pool))
        tell_state(pool);
    else
        end_line();
    if (line->kind == LINE_RACE)
        pause_machine();
}

/* Runs a script. One whose hold ran out, and that left no wrong count, may be made again. */
static enum left run_script(const struct script *script, const char *mount_point, bool may_repeat)
{
    struct pool pool = {.script = script, .mount_point = mount_point};
    struct counts total, now;
    bool is_right;

    begin_pool(&pool);
    printf("script %s", script->name);
    end_line();
    printf("%s", script->header);
    end_line();
    for (size_t k = 0; k < script->count; k++)
        run_line(&pool, &script->lines[k]);
    total = counts_of_kernel();
    end_pool(&pool);
    now = counts_of_kernel();
    is_right = !now.reserved && now.free == now.total;
    may_repeat &= pool.ran_out && is_right;
    if (may_repeat)
        printf("again");
    else
        printf("end total %ld free %ld resv %ld surp %ld", total.total, now.free, now.reserved, now.surplus);
    end_line();
    if (umount(mount_point))
        fail_errno("unmounting the hugetlbfs");
    return may_repeat ? AGAIN : is_right ? RIGHT : WRONG;
}

/* Runs a script as often as its hold runs out, and returns whether the counts are right where nothing is left of it. */
static bool run_to_its_end(const struct script *script, const char *mount_point)
{
    enum left left = AGAIN;

    for (int tries = 1; left == AGAIN; tries++)
        left = run_script(script, mount_point, tries < MOST_TRIES);
    return left == RIGHT;
}

/* Gives the mounts that are to come to this process and its tasks alone: they go when those do. */
static void leave_mounts_of_others(void)
{
    if (unshare(CLONE_NEWNS) || mount("none", "/", NULL, MS_REC | MS_PRIVATE, NULL))
        fail_errno("having mounts of one's own");
}

static void tell_kernel(void)
{
    struct utsname told;

    uname(&told);
    printf("# %s %s", told.release, told.version);
    end_line();
}

static void check_written(void)
{
    if (fflush(stdout) || ferror(stdout))
        fail_errno("writing what the kernel answered");
}

void run_scripts(const struct scripts *scripts, size_t from, const char *mount_point)
{
    bool is_right = true;
    size_t k = from;

    leave_mounts_of_others();
    ask_for_overcommit(0);
    tell_kernel();
    for (; k < scripts->count && is_right; k++) {
        is_right = run_to_its_end(&scripts->all[k], mount_point);
        check_written();
    }
    end_denials();
    tell("%zu scripts recorded, %zu lines", k - from, lines_written);
    if (is_right)
        return;
    tell("after script %s, of which nothing is left, the kernel's reserve count is %ld", scripts->all[k - 1].name,
         counts_of_kernel().reserved);
    if (k < scripts->count)
        fail(STATUS_COUNT_LOST, "a kernel that was booted anew has to go on: '--from %zu'", k);
}
