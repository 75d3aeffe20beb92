/* Has a touch race with a truncation until the reserve count (HugePages_Rsvd) is wrong while nothing is mapped and no file has a page.
 *
 *   cc -static -pthread -o reserve-count-race reserve-count-race.c && sudo ./reserve-count-race commit|raise [SECONDS]
 *
 *   commit  The truncation comes between region_chg and region_add of the touch (alloc_hugetlb_folio). The pool has free pages.
 *   raise   It comes while the touch clears its page. The page is then punched in a pool without a free page, where the raise of
 *           the count that would repair it is refused (hugetlb_unreserve_pages).
 *
 * Wants two processors, and that no huge page of 2 MiB is in use. A count that is wrong stays so until the next boot.
 * Status: 0 the count was right for so many seconds (60); 1 it went wrong; 2 it could not run.
 */
#define _GNU_SOURCE
#include <errno.h>
#include <fcntl.h>
#include <pthread.h>
#include <sched.h>
#include <stdio.h>
#include <stdlib.h>
#include <string.h>
#include <sys/mman.h>
#include <sys/mount.h>
#include <sys/utsname.h>
#include <time.h>
#include <unistd.h>

#define FOLDER "/sys/kernel/mm/hugepages/hugepages-2048kB/"
#define PAGE (2L << 20)
#define MOUNT "/tmp"

static long before;
static int file, zero;
static char *mapped;
/* where both threads meet before and behind the touch of a round */
static pthread_barrier_t meeting;

static long count(const char *name)
{
	char path[128];
	unsigned long value = -1UL;
	FILE *told;

	snprintf(path, sizeof(path), FOLDER "%s", name);
	told = fopen(path, "r");
	if (told && fscanf(told, "%lu", &value) != 1)
		value = -1UL;
	if (told)
		fclose(told);
	return (long)value;
}

static int ask_for_pages(long pages)
{
	FILE *asked = fopen(FOLDER "nr_hugepages", "w");

	if (!asked)
		return -1;
	fprintf(asked, "%ld\n", pages);
	fclose(asked);
	return count("nr_hugepages") == pages ? 0 : -1;
}

/* Ends the process. The mount belongs to it alone, and goes with it. */
static void finish(int status)
{
	umount2(MOUNT, MNT_DETACH);
	ask_for_pages(before);
	exit(status);
}

static void need(int is_so, const char *what)
{
	if (is_so)
		return;
	fprintf(stderr, "reproducer: could not run: %s: %s\n", what, strerror(errno));
	finish(2);
}

static long nanoseconds(void)
{
	struct timespec now;

	clock_gettime(CLOCK_MONOTONIC, &now);
	return now.tv_sec * 1000000000L + now.tv_nsec;
}

/* Touches the page in each round. A read into it faults as a store does, and returns EFAULT where a store would get SIGBUS. */
static void *touch(void *unused)
{
	for (;;) {
		pthread_barrier_wait(&meeting);
		if (read(zero, mapped, 1) != 1 && errno != EFAULT)
			perror("reproducer: read");
		pthread_barrier_wait(&meeting);
	}
	return unused;
}

/* One round: maps a page of the file, truncates it some time after the touch began, and removes all. Returns how long the touch took. */
static long race(long delay, int is_punched)
{
	long start, took;

	need(!ftruncate(file, PAGE), "ftruncate");
	mapped = mmap(NULL, PAGE, PROT_READ | PROT_WRITE, MAP_SHARED, file, 0);
	need(mapped != MAP_FAILED, "mmap");
	pthread_barrier_wait(&meeting);
	start = nanoseconds();
	while (nanoseconds() - start < delay)
		;
	need(!ftruncate(file, 0), "ftruncate to nothing");
	pthread_barrier_wait(&meeting);
	took = nanoseconds() - start;
	if (is_punched)
		need(!fallocate(file, FALLOC_FL_PUNCH_HOLE | FALLOC_FL_KEEP_SIZE, 0, PAGE), "punching the hole");
	munmap(mapped, PAGE);
	need(!ftruncate(file, 0), "ftruncate to nothing");
	return took;
}

/* Races until the count is wrong or the time is over, and returns the number of rounds. */
static long race_all(long seconds, int is_punched)
{
	long end = nanoseconds() + seconds * 1000000000L, usual = 2000000, round = 0, took;

	do {
		took = race(random() % usual, is_punched);
		round++;
		usual = (7 * usual + took) / 8 + 1000;
	} while (!count("resv_hugepages") && nanoseconds() < end);
	return round;
}

int main(int words, char **word)
{
	int is_punched = words > 1 && !strcmp(word[1], "raise");
	long seconds = words > 2 ? atol(word[2]) : 60, pages = is_punched ? 1 : 4, rounds;
	struct utsname kernel;
	pthread_t thread;

	if (words < 2 || words > 3 || (!is_punched && strcmp(word[1], "commit")) || seconds < 1) {
		fprintf(stderr, "usage: reserve-count-race commit|raise [SECONDS]\n");
		return 2;
	}
	uname(&kernel);
	fprintf(stderr, "reproducer: reserve-count-race %s on Linux %s, %s\n", word[1], kernel.release, kernel.version);
	before = count("nr_hugepages");
	if (geteuid() || before < 0 || count("free_hugepages") != before || count("resv_hugepages")) {
		fprintf(stderr, "reproducer: could not run: it wants root, and that no huge page of 2 MiB is in use\n");
		return 2;
	}
	need(sysconf(_SC_NPROCESSORS_ONLN) > 1, "one processor, and a race wants two");
	need(!unshare(CLONE_NEWNS) && !mount("none", "/", NULL, MS_REC | MS_PRIVATE, NULL), "a mount of its own");
	zero = open("/dev/zero", O_RDONLY);
	need(zero >= 0, "/dev/zero");
	need(!mount("none", MOUNT, "hugetlbfs", 0, "pagesize=2M"), "mount");
	need(!ask_for_pages(0) && !ask_for_pages(pages), "pages for the pool");
	file = open(MOUNT "/a", O_RDWR | O_CREAT, 0600);
	need(file >= 0, "open");
	need(!pthread_barrier_init(&meeting, NULL, 2) && !pthread_create(&thread, NULL, touch, NULL), "a thread");
	rounds = race_all(seconds, is_punched);
	printf("after %ld rounds, with no mapping and an empty file: expected reserve count 0, seen %ld%s\n", rounds,
	       count("resv_hugepages"), count("resv_hugepages") ? "   <-- wrong" : "");
	printf("free pages: expected %ld, seen %ld\n", pages, count("free_hugepages"));
	fflush(stdout);
	finish(count("resv_hugepages") ? 1 : 0);
}
