/* Has a touch be refused memory while another process maps the same page, until the reserve count (HugePages_Rsvd) is wrong. No
 * truncation races with them.
 *
 *   cc -static -o reserve-count-back-out reserve-count-back-out.c && sudo ./reserve-count-back-out [SECONDS]
 *
 * One process is in a memory cgroup without memory, and touches a page without a reservation: the page cache's tree wants a node, which is
 * charged to that cgroup, so the page can't be placed, and the touch is backed out. Another process, which has memory, maps the page with
 * a reservation meanwhile, and many others, for which surplus pages have to be allocated: so it takes its time between region_chg, which
 * finds the touched index reserved, and region_add. Behind each round the file is truncated, with no other call in flight.
 *
 * Wants cgroup v2, two processors, 256 MiB of free memory, and that no huge page of 2 MiB is in use. A count that is wrong stays so until
 * the next boot. Status: 0 the count was right for so many seconds (60); 1 it went wrong; 2 it could not run.
 */
#define _GNU_SOURCE
#include <errno.h>
#include <fcntl.h>
#include <sched.h>
#include <signal.h>
#include <stdio.h>
#include <stdlib.h>
#include <string.h>
#include <sys/mman.h>
#include <sys/mount.h>
#include <sys/prctl.h>
#include <sys/stat.h>
#include <sys/utsname.h>
#include <sys/wait.h>
#include <time.h>
#include <unistd.h>

#define FOLDER "/sys/kernel/mm/hugepages/hugepages-2048kB/"
#define PAGE (2L << 20)
#define MOUNT "/tmp"
#define GROUPS "/dev/shm/reserve-count-back-out"
#define GROUP GROUPS "/reserve-count-back-out"
#define ADDRESS ((char *)0x100000000000)
/* the page that is touched, how many are mapped from there on, and the file's pages (one GiB has one page of translations) */
#define TOUCHED 100
#define MAPPED 64
#define ALL 256

/* where both processes meet: how far the one in the cgroup is, the round that may begin, the round whose touch has ended, how long that
 * took, and whether it was refused */
enum { STARTED, MAPPED_ALL, HAS_NO_MEMORY };
struct meeting {
	volatile long state, begun, ended, took, refused;
};

static long before, before_surplus;
static int file;
static pid_t child;
static struct meeting *meeting;

static long count(const char *name)
{
	char path[128];
	unsigned long value = -1UL;
	FILE *told;

	snprintf(path, sizeof(path), FOLDER "%s", name);
	told = fopen(path, "r");
	if (told && fscanf(told, "%lu", &value) != 1)
		value = -1UL;
	if (told)
		fclose(told);
	return (long)value;
}

static int put(const char *path, const char *text)
{
	int to = open(path, O_WRONLY);
	int is_done = to >= 0 && write(to, text, strlen(text)) == (ssize_t)strlen(text);

	if (to >= 0)
		close(to);
	return is_done ? 0 : -1;
}

static int put_number(const char *path, long number)
{
	char text[32];

	snprintf(text, sizeof(text), "%ld\n", number);
	return put(path, text);
}

/* Ends the process, and the one in the cgroup. The mounts belong to them alone, and go with them. */
static void finish(int status)
{
	if (child > 0) {
		kill(child, SIGKILL);
		waitpid(child, NULL, 0);
	}
	rmdir(GROUP);
	umount2(GROUPS, MNT_DETACH);
	rmdir(GROUPS);
	umount2(MOUNT, MNT_DETACH);
	put_number(FOLDER "nr_overcommit_hugepages", before_surplus);
	put_number(FOLDER "nr_hugepages", before);
	exit(status);
}

static void need(int is_so, const char *what)
{
	if (is_so)
		return;
	fprintf(stderr, "reproducer: could not run: %s: %s\n", what, strerror(errno));
	finish(2);
}

static long nanoseconds(void)
{
	struct timespec now;

	clock_gettime(CLOCK_MONOTONIC, &now);
	return now.tv_sec * 1000000000L + now.tv_nsec;
}

static void stay_on(int processor)
{
	cpu_set_t set;

	CPU_ZERO(&set);
	CPU_SET(processor, &set);
	sched_setaffinity(0, sizeof(set), &set);
}

/* A processor keeps some of a cgroup's memory for small objects: open files use that up. */
static void use_up(void)
{
	while (open("/dev/zero", O_RDONLY) >= 0)
		;
}

/* The process in the cgroup: touches the page in each round. A read into it faults as a store does, and returns EFAULT where a store would
 * get SIGBUS. */
static void touch_all(int zero)
{
	/* all that the loop below needs has to be in memory; a touch of the first page allocates the page of the translations */
	int is_locked = !mlockall(MCL_CURRENT);
	char *mapped = mmap(ADDRESS, ALL * PAGE, PROT_READ | PROT_WRITE, MAP_SHARED | MAP_NORESERVE | MAP_FIXED_NOREPLACE, file, 0);

	stay_on(1);
	if (!is_locked || mapped == MAP_FAILED || read(zero, mapped, 1) != 1)
		_exit(1);
	meeting->state = MAPPED_ALL;
	while (meeting->state != HAS_NO_MEMORY)
		;
	for (long round = 1, start;; round++) {
		use_up();
		meeting->ended = round - 1;
		while (meeting->begun < round)
			;
		start = nanoseconds();
		meeting->refused = read(zero, mapped + TOUCHED * PAGE, 1) != 1;
		meeting->took = nanoseconds() - start;
	}
}

static void await_round(long round)
{
	while (meeting->ended < round)
		need(waitpid(child, NULL, WNOHANG) == 0, "the process in the cgroup ended");
}

/* Begins that process, in a cgroup that gets no memory once it is ready. */
static void begin_touching(void)
{
	char text[32];
	int zero = open("/dev/zero", O_RDONLY);

	need(zero >= 0, "/dev/zero");
	meeting->ended = -1;
	child = fork();
	need(child >= 0, "fork");
	if (!child) {
		prctl(PR_SET_PDEATHSIG, SIGKILL);
		/* (nobody is killed for want of memory: the allocation fails) */
		if (put("/proc/self/oom_score_adj", "-1000"))
			_exit(1);
		snprintf(text, sizeof(text), "%d", getpid());
		if (put(GROUP "/cgroup.procs", text))
			_exit(1);
		touch_all(zero);
	}
	while (meeting->state != MAPPED_ALL)
		need(waitpid(child, NULL, WNOHANG) == 0, "the process in the cgroup ended");
	need(!put(GROUP "/memory.max", "0"), "a cgroup without memory");
	meeting->state = HAS_NO_MEMORY;
	await_round(0);
}

/* One round. Returns how long the touch took. */
static long race(long round, long delay)
{
	long start, seen, after;
	char *mapped;

	meeting->begun = round;
	start = nanoseconds();
	while (nanoseconds() - start < delay)
		;
	mapped = mmap(NULL, MAPPED * PAGE, PROT_READ | PROT_WRITE, MAP_SHARED, file, TOUCHED * PAGE);
	await_round(round);
	seen = count("resv_hugepages");
	if (mapped != MAP_FAILED)
		munmap(mapped, MAPPED * PAGE);
	/* gives all reservations back */
	need(!ftruncate(file, TOUCHED * PAGE) && !ftruncate(file, ALL * PAGE), "ftruncate");
	after = count("resv_hugepages");
	if (after) {
		printf("after %ld rounds, with %d pages mapped and reserved, none of them there: expected reserve count %d, seen %ld   <-- wrong\n",
		       round, MAPPED, MAPPED, seen);
		printf("behind a truncation that gives all of these back: expected reserve count 0, seen %ld   <-- wrong\n", after);
		fflush(stdout);
		finish(1);
	}
	return meeting->took;
}

static void set_up(void)
{
	need(!unshare(CLONE_NEWNS) && !mount("none", "/", NULL, MS_REC | MS_PRIVATE, NULL), "a mount of its own");
	mkdir("/dev/shm", 0755);
	need(!mkdir(GROUPS, 0700) || errno == EEXIST, GROUPS);
	need(!mount("none", GROUPS, "cgroup2", 0, ""), "cgroup v2");
	put(GROUPS "/cgroup.subtree_control", "+memory");
	need((!mkdir(GROUP, 0700) || errno == EEXIST) && !access(GROUP "/memory.max", W_OK), "a memory cgroup");
	need(!mount("none", MOUNT, "hugetlbfs", 0, "pagesize=2M"), "mount");
	need(!put_number(FOLDER "nr_hugepages", 0) && !put_number(FOLDER "nr_hugepages", 4) && count("nr_hugepages") == 4, "pages for the pool");
	need(!put_number(FOLDER "nr_overcommit_hugepages", 2 * MAPPED), "surplus pages");
	file = open(MOUNT "/a", O_RDWR | O_CREAT, 0600);
	need(file >= 0 && !ftruncate(file, ALL * PAGE), "a file");
	meeting = mmap(NULL, 4096, PROT_READ | PROT_WRITE, MAP_SHARED | MAP_ANONYMOUS, -1, 0);
	need(meeting != MAP_FAILED, "shared memory");
	stay_on(0);
}

int main(int words, char **word)
{
	long seconds = words > 1 ? atol(word[1]) : 60, end, usual = 5000000, round = 0, refused = 0;
	struct utsname kernel;

	if (words > 2 || seconds < 1) {
		fprintf(stderr, "usage: reserve-count-back-out [SECONDS]\n");
		return 2;
	}
	uname(&kernel);
	fprintf(stderr, "reproducer: reserve-count-back-out on Linux %s, %s\n", kernel.release, kernel.version);
	before = count("nr_hugepages");
	before_surplus = count("nr_overcommit_hugepages");
	if (geteuid() || before < 0 || count("free_hugepages") != before || count("resv_hugepages")) {
		fprintf(stderr, "reproducer: could not run: it wants root, and that no huge page of 2 MiB is in use\n");
		return 2;
	}
	need(sysconf(_SC_NPROCESSORS_ONLN) > 1, "one processor, and a race wants two");
	set_up();
	begin_touching();
	end = nanoseconds() + seconds * 1000000000L;
	do {
		usual = (7 * usual + race(++round, random() % usual)) / 8 + 1000;
		refused += meeting->refused;
	} while (nanoseconds() < end);
	printf("after %ld rounds, in %ld of which the touch was refused: expected reserve count 0, seen %ld\n", round, refused,
	       count("resv_hugepages"));
	fflush(stdout);
	finish(0);
}
