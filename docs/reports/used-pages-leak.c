/* Shows whether a refused fallocate or mmap leaves used pages behind on a hugetlbfs mount with size=.
 *
 *   cc -static -o used-pages-leak used-pages-leak.c && sudo ./used-pages-leak
 *
 * Wants a machine on which no huge page of 2 MiB is in use. It changes nr_hugepages, and puts it back at the end.
 * Status: 0 the counts are right; 1 pages leaked; 2 it could not run.
 */
#define _GNU_SOURCE
#include <errno.h>
#include <fcntl.h>
#include <sched.h>
#include <stdio.h>
#include <stdlib.h>
#include <string.h>
#include <sys/mman.h>
#include <sys/mount.h>
#include <sys/statfs.h>
#include <sys/utsname.h>
#include <unistd.h>

#define FOLDER "/sys/kernel/mm/hugepages/hugepages-2048kB/"
#define PAGE (2L << 20)
#define MOUNT "/tmp"

static long before;

static long count(const char *name)
{
	char path[128];
	long value = -1;
	FILE *file;

	snprintf(path, sizeof(path), FOLDER "%s", name);
	file = fopen(path, "r");
	if (file && fscanf(file, "%ld", &value) != 1)
		value = -1;
	if (file)
		fclose(file);
	return value;
}

static int ask_for_pages(long pages)
{
	FILE *file = fopen(FOLDER "nr_hugepages", "w");

	if (!file)
		return -1;
	fprintf(file, "%ld\n", pages);
	fclose(file);
	return count("nr_hugepages") == pages ? 0 : -1;
}

/* Ends the process. The mount belongs to it alone, and goes with it. */
static void finish(int status)
{
	umount2(MOUNT, MNT_DETACH);
	ask_for_pages(before);
	exit(status);
}

static void need(int is_so, const char *what)
{
	if (is_so)
		return;
	fprintf(stderr, "reproducer: could not run: %s: %s\n", what, strerror(errno));
	finish(2);
}

static long used(void)
{
	struct statfs told;

	need(!statfs(MOUNT, &told), "statfs");
	return told.f_blocks - told.f_bfree;
}

/* Prints what is expected beside what is seen, and returns 1 where they differ. */
static int differs(const char *what, long expected, long seen)
{
	printf("%s: expected %ld, seen %ld%s\n", what, expected, seen, expected == seen ? "" : "   <-- wrong");
	return expected != seen;
}

int main(void)
{
	struct utsname kernel;
	int file, other, wrong = 0;
	long at_map;

	uname(&kernel);
	fprintf(stderr, "reproducer: used-pages-leak on Linux %s, %s\n", kernel.release, kernel.version);
	before = count("nr_hugepages");
	if (geteuid() || before < 0 || count("free_hugepages") != before) {
		fprintf(stderr, "reproducer: could not run: it wants root, and that no huge page of 2 MiB is in use\n");
		return 2;
	}
	need(!unshare(CLONE_NEWNS) && !mount("none", "/", NULL, MS_REC | MS_PRIVATE, NULL), "a mount of its own");
	/* a mount for eight pages, and a pool of one page */
	need(!mount("none", MOUNT, "hugetlbfs", 0, "pagesize=2M,size=16M"), "mount");
	need(!ask_for_pages(0) && !ask_for_pages(1), "a pool of one page");
	file = open(MOUNT "/a", O_RDWR | O_CREAT, 0600);
	other = open(MOUNT "/b", O_RDWR | O_CREAT, 0600);
	need(file >= 0 && other >= 0, "open");

	need(!fallocate(file, 0, 0, PAGE), "fallocate of the only page");
	wrong += differs("used pages after one page was allocated", 1, used());
	for (int k = 0; k < 3; k++)
		need(fallocate(file, 0, PAGE, PAGE) && errno == ENOSPC, "a fallocate without a free page wasn't refused");
	wrong += differs("used pages after three refused fallocates", 1, used());
	at_map = used();
	need(mmap(NULL, 2 * PAGE, PROT_READ, MAP_SHARED, other, 0) == MAP_FAILED, "an mmap without free pages wasn't refused");
	wrong += differs("used pages after a refused mmap, more than before", 0, used() - at_map);

	/* the mount has room for seven more pages, and now the pool has them */
	need(!ask_for_pages(8), "a pool of eight pages");
	wrong += differs("error of a fallocate of seven more pages", 0, fallocate(file, 0, PAGE, 7 * PAGE) ? errno : 0);
	/* nothing is left, so nothing may be used */
	need(!ftruncate(file, 0) && !unlink(MOUNT "/a") && !unlink(MOUNT "/b") && !close(file) && !close(other), "removing the files");
	wrong += differs("used pages of the empty mount", 0, used());
	printf("%s\n", wrong ? "used pages leaked" : "no used page leaked");
	fflush(stdout);
	finish(wrong ? 1 : 0);
}
