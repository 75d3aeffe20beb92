#include "kernel.h"

#include <errno.h>
#include <stdbool.h>
#include <stdio.h>
#include <stdlib.h>
#include <string.h>
#include <unistd.h>

#include "fail.h"
#include "task.h"

#define TEXT_OF(number) #number
#define SIZE_TEXT(kib) TEXT_OF(kib) "kB"
#define FOLDER "/sys/kernel/mm/hugepages/hugepages-" SIZE_TEXT(HUGE_PAGE_KIB) "/"

static long read_count(const char *path)
{
    FILE *file = fopen(path, "r");
    char text[32];
    long count;

    if (!file)
        fail_errno("%s", path);
    if (!fgets(text, sizeof text, file))
        fail_errno("%s tells nothing", path);
    fclose(file);
    /* (the kernel's counts are unsigned: one that fell below zero is read as what it stands for) */
    count = (long)strtoull(text, NULL, 10);
    return count;
}

static void write_count(const char *path, long count)
{
    FILE *file = fopen(path, "w");

    if (!file)
        fail_errno("%s", path);
    fprintf(file, "%ld\n", count);
    if (fclose(file))
        fail_errno("%s, asked for %ld", path, count);
}

struct counts counts_of_kernel(void)
{
    return (struct counts){
        .total = read_count(FOLDER "nr_hugepages"),
        .free = read_count(FOLDER "free_hugepages"),
        .reserved = read_count(FOLDER "resv_hugepages"),
        .surplus = read_count(FOLDER "surplus_hugepages"),
    };
}

struct settings settings_of_kernel(void)
{
    struct counts now = counts_of_kernel();

    return (struct settings){
        .frames = now.total - now.surplus,
        .overcommit = read_count(FOLDER "nr_overcommit_hugepages"),
    };
}

void ask_for_frames(long frames)
{
    write_count(FOLDER "nr_hugepages", frames);
}

void ask_for_overcommit(long frames)
{
    /* (of pages of 1 GiB the kernel has none, and refuses to be asked) */
    if (read_count(FOLDER "nr_overcommit_hugepages") != frames)
        write_count(FOLDER "nr_overcommit_hugepages", frames);
}

static bool has_hugetlbfs(void)
{
    FILE *file = fopen("/proc/filesystems", "r");
    char line[128];
    bool found = false;

    if (!file)
        fail_errno("/proc/filesystems");
    while (fgets(line, sizeof line, file))
        found |= !strcmp(line, "nodev\thugetlbfs\n");
    fclose(file);
    return found;
}

void check_machine(void)
{
    struct counts now;

    if (geteuid())
        fail(STATUS_FAILED, "only root may mount a hugetlbfs and say how many huge pages there are");
    if (!has_hugetlbfs())
        fail(STATUS_FAILED, "this kernel has no hugetlbfs");
    if (access(FOLDER, F_OK))
        fail(STATUS_FAILED, "this kernel has no huge pages of " SIZE_TEXT(HUGE_PAGE_KIB) " (%s is not there)", FOLDER);
    now = counts_of_kernel();
    if (now.free != now.total || now.reserved || now.surplus)
        fail(STATUS_FAILED, "huge pages are in use: of %ld are %ld free, %ld reserved and %ld surplus", now.total, now.free,
             now.reserved, now.surplus);
}
