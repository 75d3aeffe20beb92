#define _GNU_SOURCE
#include <errno.h>
#include <fcntl.h>
#include <setjmp.h>
#include <signal.h>
#include <stdio.h>
#include <stdlib.h>
#include <string.h>
#include <sys/mman.h>
#include <sys/mount.h>
#include <sys/stat.h>
#include <sys/statfs.h>
#include <unistd.h>

#define FOLDER "/sys/kernel/mm/hugepages/hugepages-2048kB/"
#define PAGE (2L << 20)
/* where page 0 of a task lies: the tasks of the script are one process, whose mappings lie apart */
#define ADDRESS(TASK, AT) ((char *)(0x100000000000L + ((TASK) * 16384L + (AT)) * PAGE))

static char mount_point[] = "/tmp/reproducer-XXXXXX";
static int file[16];
static long before;
static int is_wrong;
static sigjmp_buf turned_back;

static long count(const char *name)
{
	char path[128], text[32] = "";
	FILE *told;

	snprintf(path, sizeof(path), FOLDER "%s", name);
	told = fopen(path, "r");
	if (told && !fgets(text, sizeof(text), told))
		text[0] = 0;
	if (told)
		fclose(told);
	return (long)strtoull(text, NULL, 10);
}

static void resize(long frames)
{
	FILE *told = fopen(FOLDER "nr_hugepages", "w");

	if (told) {
		fprintf(told, "%ld\n", frames);
		fclose(told);
	}
}

static void need(int is_so, const char *what)
{
	if (is_so)
		return;
	fprintf(stderr, "reproducer: could not run: %s: %s\n", what, strerror(errno));
	resize(before);
	exit(2);
}

static void turn_back(int number)
{
	siglongjmp(turned_back, number);
}

static void open_pool(long frames, int files, long quota)
{
	char options[64] = "pagesize=2M", name[64];

	fprintf(stderr, "reproducer: begins\n");
	before = count("nr_hugepages");
	need(count("free_hugepages") == before && !count("resv_hugepages"), "huge pages are in use");
	resize(0);
	resize(frames);
	need(count("nr_hugepages") == frames, "there is no memory for the huge pages, or no root");
	need(mkdtemp(mount_point) != NULL, mount_point);
	if (quota >= 0)
		snprintf(options, sizeof(options), "pagesize=2M,size=%ld", quota * PAGE);
	need(!mount("none", mount_point, "hugetlbfs", 0, options), "mounting a hugetlbfs");
	for (int k = 0; k < files; k++) {
		snprintf(name, sizeof(name), "%s/%d", mount_point, k);
		file[k] = open(name, O_RDWR | O_CREAT | O_EXCL, 0600);
		need(file[k] >= 0, name);
	}
	signal(SIGBUS, turn_back);
	signal(SIGSEGV, turn_back);
}

static int close_pool(int files)
{
	char name[64];

	for (int k = 0; k < files; k++) {
		snprintf(name, sizeof(name), "%s/%d", mount_point, k);
		unlink(name);
		close(file[k]);
	}
	umount2(mount_point, MNT_DETACH);
	rmdir(mount_point);
	resize(before);
	printf("%s\n", is_wrong ? "WRONG" : "right");
	return is_wrong;
}

static const char *done(int result)
{
	return !result ? "done" : errno == ENOSPC || errno == ENOMEM ? "noframe" : strerror(errno);
}

static const char *map(int task, long at, int of, long first, long pages, int flags)
{
	static char answer[32];
	void *got = mmap(ADDRESS(task, at), pages * PAGE, PROT_READ | PROT_WRITE, MAP_SHARED | MAP_FIXED_NOREPLACE | flags, file[of],
			 first * PAGE);

	snprintf(answer, sizeof(answer), "mapped %ld", at);
	return got == MAP_FAILED ? done(-1) : answer;
}

static const char *unmap(int task, long at, long pages)
{
	return done(munmap(ADDRESS(task, at), pages * PAGE));
}

/* A touch past the end of its file gets the same signal as one for which there is no page: `is_beyond` says which the script has. */
static const char *touch(int task, long at, int is_store, unsigned long word, int is_beyond)
{
	static char answer[32];
	volatile unsigned long *place = (unsigned long *)ADDRESS(task, at);
	int number = sigsetjmp(turned_back, 1);

	if (number)
		return number == SIGSEGV ? "segv" : is_beyond ? "beyond" : "noframe";
	if (is_store) {
		*place = word;
		return "done";
	}
	snprintf(answer, sizeof(answer), "word %lu", *place);
	return answer;
}

static const char *allocate(int of, int mode, long first, long pages)
{
	return done(fallocate(file[of], mode, first * PAGE, pages * PAGE));
}

static const char *truncate_to(int of, long pages)
{
	return done(ftruncate(file[of], pages * PAGE));
}

/* Prints what a call was answered, and the numbers behind it. */
static char *tell(const char *call, const char *answer, int files, int has_quota)
{
	static char told[1024];
	int at = snprintf(told, sizeof(told), "%s | %ld %ld |", answer, count("free_hugepages"), count("resv_hugepages"));
	struct statfs all;
	struct stat one;

	for (int k = 0; k < files; k++)
		if (!fstat(file[k], &one))
			at += snprintf(told + at, sizeof(told) - at, "%s %ld %ld", k ? "," : "", (long)(one.st_size / PAGE), (long)(one.st_blocks / (PAGE / 512)));
	if (has_quota && !statfs(mount_point, &all))
		snprintf(told + at, sizeof(told) - at, " | used %ld", (long)(all.f_blocks - all.f_bfree));
	printf("%s = %s\n", call, told);
	return told;
}

static void expect(const char *told, const char *right)
{
	is_wrong = strcmp(told, right) != 0;
	if (is_wrong)
		printf("right: %s\n", right);
}

