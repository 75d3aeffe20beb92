/* The calls that a task makes, each by the kernel's own call, and their answers. */
#include <errno.h>
#include <fcntl.h>
#include <inttypes.h>
#include <setjmp.h>
#include <signal.h>
#include <stdarg.h>
#include <stdio.h>
#include <string.h>
#include <sys/mman.h>
#include <sys/stat.h>
#include <sys/wait.h>
#include <unistd.h>

#include "task.h"

/* Where a touch goes on whose page the kernel doesn't give. */
static sigjmp_buf turned_back;
static volatile sig_atomic_t is_touching;

static void turn_back(int signal_number)
{
    if (is_touching)
        siglongjmp(turned_back, signal_number);
    signal(signal_number, SIG_DFL);
    raise(signal_number);
}

static void answer(struct desk *desk, const char *format, ...) __attribute__((format(printf, 2, 3)));

static void answer(struct desk *desk, const char *format, ...)
{
    va_list words;

    va_start(words, format);
    vsnprintf(desk->answer, sizeof desk->answer, format, words);
    va_end(words);
}

/* What the kernel's error says. Want of frames and want of quota are one to it. */
static void answer_error(struct desk *desk, int error)
{
    const char *name = strerrorname_np(error);

    if (error == ENOSPC || error == ENOMEM)
        answer(desk, "noframe");
    else if (name)
        answer(desk, "errno %s", name);
    else
        answer(desk, "errno %d", error);
}

static void answer_result(struct desk *desk, int result)
{
    if (result)
        answer_error(desk, errno);
    else
        answer(desk, "done");
}

static char *address_of(uint64_t page)
{
    return (char *)(WINDOW_ADDRESS + page * HUGE_PAGE);
}

/* Whether the pool has the file and a file may have the pages; answers what is wrong. */
static bool is_in_limits(struct desk *desk, struct files files, uint64_t file, uint64_t from, uint64_t pages)
{
    if (file >= files.count)
        answer(desk, "badfile");
    else if (from + pages > FILE_LIMIT)
        answer(desk, "badrange");
    else
        return true;
    return false;
}

static bool is_range(struct desk *desk, struct files files, const uint64_t *numbers)
{
    if (!is_in_limits(desk, files, numbers[0], numbers[1], numbers[2]))
        return false;
    if (!numbers[2])
        answer(desk, "badrange");
    return numbers[2];
}

/* The end of the first mapping that lies in the way of so many pages from a base on, or the base where none does. */
static uint64_t past_what_lies_at(const struct desk *desk, uint64_t base, uint64_t pages)
{
    for (unsigned k = 0; k < desk->mappings; k++) {
        const struct mapping *it = &desk->mapping[k];
        if (base < it->base + it->pages && it->base < base + pages)
            return it->base + it->pages;
    }
    return base;
}

int64_t room_for(const struct desk *desk, uint64_t pages)
{
    uint64_t base = 0, next;

    while ((next = past_what_lies_at(desk, base, pages)) != base)
        base = next;
    return pages <= TASK_PAGES && base + pages <= TASK_PAGES ? (int64_t)base : -1;
}

/* Maps so many bytes of a file where there is room for them. */
static void map(struct desk *desk, int file, struct mapping mapping, uint64_t offset, uint64_t length, int flags)
{
    int64_t base = room_for(desk, mapping.pages ? mapping.pages : 1);
    void *got;

    if (base < 0) {
        answer(desk, "noaddress");
        return;
    }
    flags |= (mapping.is_private ? MAP_PRIVATE : MAP_SHARED) | MAP_FIXED_NOREPLACE;
    got = mmap(address_of(base), length, PROT_READ | PROT_WRITE, flags, file, (off_t)offset);
    if (got == MAP_FAILED) {
        answer_error(desk, errno);
        return;
    }
    mapping.base = base;
    desk->mapping[desk->mappings++] = mapping;
    answer(desk, "mapped %" PRId64, base);
}

static void map_pages(struct desk *desk, struct files files, const uint64_t *numbers, int flags)
{
    struct mapping mapping = {.file = numbers[0], .first = numbers[1], .pages = numbers[2]};

    if (is_range(desk, files, numbers))
        map(desk, files.open[mapping.file], mapping, numbers[1] * HUGE_PAGE, numbers[2] * HUGE_PAGE, flags);
}

static void map_bytes(struct desk *desk, struct files files, const uint64_t *numbers, bool is_private, int flags)
{
    uint64_t offset = numbers[1], length = numbers[2];
    uint64_t pages = length / HUGE_PAGE + (length % HUGE_PAGE != 0);
    struct mapping mapping = {.file = numbers[0], .first = offset / HUGE_PAGE, .pages = pages, .is_private = is_private};

    map(desk, files.open[mapping.file], mapping, offset, length, flags);
}

/* The mapping that begins at a page, or NULL. */
static struct mapping *beginning_at(struct desk *desk, uint64_t base)
{
    for (unsigned k = 0; k < desk->mappings; k++)
        if (desk->mapping[k].base == base)
            return &desk->mapping[k];
    return NULL;
}

const struct mapping *mapping_of(const struct desk *desk, uint64_t page)
{
    for (unsigned k = 0; k < desk->mappings; k++)
        if (page >= desk->mapping[k].base && page - desk->mapping[k].base < desk->mapping[k].pages)
            return &desk->mapping[k];
    return NULL;
}

static void unmap(struct desk *desk, uint64_t base, uint64_t length)
{
    struct mapping *mapping = beginning_at(desk, base);
    int result = munmap(address_of(base), length);

    if (!result && mapping)
        *mapping = desk->mapping[--desk->mappings];
    answer_result(desk, result);
}

static void unmap_pages(struct desk *desk, uint64_t base)
{
    const struct mapping *mapping = beginning_at(desk, base);

    if (mapping)
        unmap(desk, base, mapping->pages * HUGE_PAGE);
    else
        answer(desk, "notmapped");
}

/* Of a touch that ended in SIGBUS: whether the page lies past the end of its file, or no frame was to be had. */
static void answer_bus_error(struct desk *desk, struct files files, uint64_t page)
{
    const struct mapping *mapping = mapping_of(desk, page);
    struct stat told;

    if (!mapping)
        answer(desk, "bus error where nothing is mapped");
    else if (fstat(files.open[mapping->file], &told))
        answer_error(desk, errno);
    else if (mapping->first + (page - mapping->base) >= (uint64_t)told.st_size / HUGE_PAGE)
        answer(desk, "beyond");
    else
        answer(desk, "noframe");
}

/* Reads or writes a page's word. */
static void touch(struct desk *desk, struct files files, uint64_t page, const uint64_t *word)
{
    volatile uint64_t *place = (volatile uint64_t *)address_of(page);
    int signal_number = sigsetjmp(turned_back, 1);

    if (signal_number) {
        is_touching = 0;
        if (signal_number == SIGSEGV)
            answer(desk, "segv");
        else
            answer_bus_error(desk, files, page);
        return;
    }
    is_touching = 1;
    if (word) {
        *place = *word;
        answer(desk, "done");
    } else {
        answer(desk, "word %" PRIu64, *place);
    }
    is_touching = 0;
}

/* Has a child of the task write a page's word, and end. (It writes the answer, too: the desk is shared.) */
static void store_by_child(struct desk *desk, struct files files, uint64_t page, const uint64_t *word)
{
    pid_t child = fork();
    int ended = 0;

    if (child < 0) {
        answer_error(desk, errno);
        return;
    }
    if (!child) {
        touch(desk, files, page, word);
        _exit(0);
    }
    if (waitpid(child, &ended, 0) != child || ended)
        answer(desk, "child %d", ended);
}

static void load_byte(struct desk *desk, uint64_t offset)
{
    volatile uint8_t *place = (volatile uint8_t *)(WINDOW_ADDRESS + offset);
    int signal_number = sigsetjmp(turned_back, 1);

    if (signal_number) {
        is_touching = 0;
        answer(desk, signal_number == SIGBUS ? "sigbus" : "sigsegv");
        return;
    }
    is_touching = 1;
    answer(desk, "byte %d", *place);
    is_touching = 0;
}

static void allocate_pages(struct desk *desk, struct files files, const uint64_t *numbers, int mode)
{
    if (is_range(desk, files, numbers))
        answer_result(desk, fallocate(files.open[numbers[0]], mode, numbers[1] * HUGE_PAGE, numbers[2] * HUGE_PAGE));
}

static void truncate_pages(struct desk *desk, struct files files, const uint64_t *numbers)
{
    if (is_in_limits(desk, files, numbers[0], numbers[1], 0))
        answer_result(desk, ftruncate(files.open[numbers[0]], numbers[1] * HUGE_PAGE));
}

static void prepare(void)
{
    static bool is_ready;
    struct sigaction action = {.sa_handler = turn_back};

    if (is_ready)
        return;
    sigaction(SIGBUS, &action, NULL);
    sigaction(SIGSEGV, &action, NULL);
    is_ready = true;
}

void make_call(struct desk *desk, struct files files)
{
    const uint64_t *numbers = desk->call.numbers;

    prepare();
    switch (desk->call.operation) {
    case OP_MAP:
        return map_pages(desk, files, numbers, 0);
    case OP_MAPN:
        return map_pages(desk, files, numbers, MAP_NORESERVE);
    case OP_UNMAP:
        return unmap_pages(desk, numbers[0]);
    case OP_LOAD:
        return touch(desk, files, numbers[0], NULL);
    case OP_STORE:
        return touch(desk, files, numbers[0], &numbers[1]);
    case OP_ALLOC:
        return allocate_pages(desk, files, numbers, 0);
    case OP_ALLOCK:
        return allocate_pages(desk, files, numbers, FALLOC_FL_KEEP_SIZE);
    case OP_PUNCH:
        return allocate_pages(desk, files, numbers, FALLOC_FL_PUNCH_HOLE | FALLOC_FL_KEEP_SIZE);
    case OP_TRUNC:
        return truncate_pages(desk, files, numbers);
    case OP_X_MAP:
        return map_bytes(desk, files, numbers, false, 0);
    case OP_X_PRIVATE:
        return map_bytes(desk, files, numbers, true, 0);
    case OP_X_PRIVATEN:
        return map_bytes(desk, files, numbers, true, MAP_NORESERVE);
    case OP_X_DONTNEED:
        return answer_result(desk, madvise(address_of(numbers[0]), numbers[1], MADV_DONTNEED));
    case OP_X_FORK:
        return store_by_child(desk, files, numbers[0], &numbers[1]);
    case OP_X_UNMAP:
        return unmap(desk, numbers[0], numbers[1]);
    case OP_X_LOAD:
        return load_byte(desk, numbers[0]);
    case OP_X_FALLOCATE:
        return answer_result(desk, fallocate(files.open[numbers[0]], numbers[1], numbers[2], numbers[3]));
    case OP_X_FTRUNCATE:
        return answer_result(desk, ftruncate(files.open[numbers[0]], numbers[1]));
    case OP_RACE:
        return race(desk, files);
    case OP_EXIT:
        /* (the recorder lets the task go instead) */
        return answer(desk, "done");
    }
}
