/* Uses huge pages of 2 MiB in all ways, says "scene: ready" and stays. The words name steps that are done in order, by processes of their
 * own where memory is kept:
 *
 *   plain       three mounts, five files, private memory, a memfd, System V memory; several processes
 *   cut         truncates one file, and punches another one
 *   refused     three fallocates that find no free page, on a mount with size= (used pages leak from 6.16 to 7.3)
 *   busy        faults and truncations for good, so that a dump finds calls in flight
 *   outside     a page whose index isn't in the reserve map, by a race
 *   surplus     lends four pages above the pool's size, and reserves two of them
 *   groups      two processes of different control groups reserve ranges of a file that touch
 *   poison      pages of a file and of private memory that are bad, and one that is taken away, where the kernel knows of bad memory
 *   split       a hole is unmapped in the middle of private memory
 *   giant       a file and private memory with pages of 1 GiB (hugepagesz=1G hugepages=2)
 *   pages N     that many pages in the pool
 *   many N      N files of 64 pages, of which 60 are there, all mapped by four processes
 */
#define _GNU_SOURCE
#include <errno.h>
#include <fcntl.h>
#include <pthread.h>
#include <signal.h>
#include <stdio.h>
#include <stdlib.h>
#include <string.h>
#include <sys/mman.h>
#include <sys/mount.h>
#include <sys/prctl.h>
#include <sys/shm.h>
#include <sys/stat.h>
#include <unistd.h>

#ifndef MADV_SOFT_OFFLINE
#define MADV_SOFT_OFFLINE 101 /* include/uapi/asm-generic/mman-common.h */
#endif
#define PAGE (2L << 20)
#define POOL "/sys/kernel/mm/hugepages/hugepages-2048kB/"

static void need(int is_so, const char *what)
{
	if (is_so)
		return;
	printf("scene: %s: %s\n", what, strerror(errno));
	fflush(stdout);
	exit(2);
}

static long count(const char *name)
{
	char path[128];
	unsigned long value = 0;
	FILE *told;

	snprintf(path, sizeof(path), POOL "%s", name);
	told = fopen(path, "r");
	need(told && fscanf(told, "%lu", &value) == 1, path);
	fclose(told);
	return (long)value;
}

static void set_pages(long pages)
{
	FILE *asked = fopen(POOL "nr_hugepages", "w");

	need(asked != NULL, "nr_hugepages");
	fprintf(asked, "%ld\n", pages);
	fclose(asked);
	need(count("nr_hugepages") == pages, "pages for the pool");
}

static int file_of(const char *path, long pages)
{
	int file = open(path, O_RDWR | O_CREAT, 0600);

	need(file >= 0, path);
	if (pages)
		need(!ftruncate(file, pages * PAGE), path);
	return file;
}

static char *map(int file, long from, long pages, int flags)
{
	char *at = mmap(NULL, pages * PAGE, PROT_READ | PROT_WRITE, flags, file, from * PAGE);

	need(at != MAP_FAILED, "mmap");
	return at;
}

static void touch(char *at, long pages)
{
	for (long k = 0; k < pages; k++)
		at[k * PAGE] = 1;
}

/* Has a child with a name do something, and waits until it has. If it stays, it keeps its memory. */
static void have(const char *name, int stays, void (*act)(void))
{
	int pipes[2];
	char byte;
	pid_t child;

	need(!pipe(pipes), "pipe");
	child = fork();
	need(child >= 0, "fork");
	if (!child) {
		prctl(PR_SET_NAME, name);
		close(pipes[0]);
		act();
		need(write(pipes[1], "", 1) == 1, "write");
		while (stays)
			pause();
		_exit(0);
	}
	close(pipes[1]);
	need(read(pipes[0], &byte, 1) == 1, name);
	close(pipes[0]);
}

/* maps eight pages, and has three; and a part of another process's file */
static void shared(void)
{
	touch(map(file_of("/a/one", 8), 0, 8, MAP_SHARED), 3);
	map(file_of("/c/two", 6), 2, 4, MAP_SHARED);
}

static void without_reserve(void)
{
	touch(map(file_of("/c/two", 6), 0, 6, MAP_SHARED | MAP_NORESERVE), 1);
	int gone = file_of("/a/three", 3);
	need(!fallocate(gone, 0, 0, 3 * PAGE) && !unlink("/a/three"), "an unlinked file");
}

/* four private pages of a file, of which two are there; a child that has copied one of them */
static void private(void)
{
	char *of_file = map(file_of("/c/two", 6), 0, 4, MAP_PRIVATE), *own = map(-1, 0, 4, MAP_PRIVATE | MAP_ANONYMOUS | MAP_HUGETLB);

	of_file[0 * PAGE] = of_file[3 * PAGE] = 2;
	touch(own, 2);
	(void)*(volatile char *)of_file;
	if (!fork()) {
		prctl(PR_SET_NAME, "forked");
		of_file[3 * PAGE] = 3;
		for (;;)
			pause();
	}
	usleep(300000);
}

static void memory(void)
{
	int file = memfd_create("video", MFD_HUGETLB), segment = shmget(IPC_PRIVATE, 3 * PAGE, SHM_HUGETLB | IPC_CREAT | 0600);
	char *at;

	need(file >= 0 && !ftruncate(file, 5 * PAGE), "memfd");
	touch(map(file, 0, 5, MAP_SHARED), 2);
	need(segment >= 0, "shmget");
	at = shmat(segment, NULL, 0);
	need(at != (char *)-1, "shmat");
	touch(at, 1);
	/* another one that nobody attaches */
	need(shmget(IPC_PRIVATE, 2 * PAGE, SHM_HUGETLB | IPC_CREAT | 0600) >= 0, "shmget");
	/* an entry that isn't present */
	at = map(file, 0, 1, MAP_SHARED);
	touch(at, 1);
	need(!mprotect(at, PAGE, PROT_NONE), "mprotect");
}

static void minimum(void)
{
	touch(map(file_of("/b/four", 2), 0, 2, MAP_SHARED), 1);
}

/* leaves a file behind that has reserved four pages, and that nobody maps */
static void left(void)
{
	map(file_of("/c/left", 4), 0, 4, MAP_SHARED);
}

static void plain(void)
{
	mkdir("/a", 0755), mkdir("/b", 0755), mkdir("/c", 0755);
	need(!mount("none", "/a", "hugetlbfs", 0, "pagesize=2M,size=32M"), "/a");
	need(!mount("none", "/b", "hugetlbfs", 0, "pagesize=2M,size=64M,min_size=8M"), "/b");
	need(!mount("none", "/c", "hugetlbfs", 0, "pagesize=2M"), "/c");
	have("shared", 1, shared);
	have("noreserve", 1, without_reserve);
	have("private", 1, private);
	have("memory", 1, memory);
	have("minimum", 1, minimum);
	have("left", 0, left);
}

static void cut(void)
{
	int one = file_of("/a/one", 0), two = file_of("/c/two", 0);

	need(!ftruncate(one, 4 * PAGE), "ftruncate");
	need(!fallocate(two, FALLOC_FL_PUNCH_HOLE | FALLOC_FL_KEEP_SIZE, 0, PAGE), "punch");
	need(!fallocate(one, FALLOC_FL_PUNCH_HOLE | FALLOC_FL_KEEP_SIZE, PAGE, PAGE), "punch");
}

static void refused(void)
{
	int file;

	mkdir("/q", 0755);
	need(!mount("none", "/q", "hugetlbfs", 0, "pagesize=2M,size=16M"), "/q");
	file = file_of("/q/full", 0);
	set_pages(count("nr_hugepages") - count("free_hugepages") + count("resv_hugepages") + 1);
	need(!fallocate(file, 0, 0, PAGE), "fallocate");
	for (int k = 0; k < 3; k++)
		need(fallocate(file, 0, PAGE, PAGE) && errno == ENOSPC, "an allocation without a free page wasn't refused");
}

/* maps all that is free and not reserved, and four pages more */
static void surplus_pages(void)
{
	long pages = count("free_hugepages") - count("resv_hugepages") + 4;

	touch(map(file_of("/s/surplus", pages), 0, pages, MAP_SHARED), pages - 2);
}

static void surplus(void)
{
	FILE *asked = fopen(POOL "nr_overcommit_hugepages", "w");

	need(asked != NULL, "nr_overcommit_hugepages");
	fprintf(asked, "8\n");
	fclose(asked);
	mkdir("/s", 0755);
	need(!mount("none", "/s", "hugetlbfs", 0, "pagesize=2M"), "/s");
	have("surplus", 1, surplus_pages);
	need(count("surplus_hugepages") == 4, "surplus pages");
}

static void tell(const char *path, const char *text)
{
	FILE *to = fopen(path, "w");

	need(to && fputs(text, to) >= 0 && !fclose(to), path);
}

static void first_of_file(void)
{
	tell("/cgroup/one/cgroup.procs", "0");
	map(file_of("/h/groups", 4), 0, 2, MAP_SHARED);
}

static void rest_of_file(void)
{
	tell("/cgroup/two/cgroup.procs", "0");
	map(file_of("/h/groups", 4), 2, 2, MAP_SHARED);
}

static void groups(void)
{
	mkdir("/h", 0755), mkdir("/cgroup", 0755);
	need(!mount("none", "/h", "hugetlbfs", 0, "pagesize=2M"), "/h");
	need(!mount("none", "/cgroup", "cgroup2", 0, NULL), "/cgroup");
	tell("/cgroup/cgroup.subtree_control", "+hugetlb");
	need(!mkdir("/cgroup/one", 0755) && !mkdir("/cgroup/two", 0755), "control groups");
	have("first", 1, first_of_file);
	have("rest", 1, rest_of_file);
}

static void split_memory(void)
{
	char *at = map(-1, 0, 6, MAP_PRIVATE | MAP_ANONYMOUS | MAP_HUGETLB);

	at[0] = at[2 * PAGE] = at[5 * PAGE] = 1;
	need(!munmap(at + 2 * PAGE, 2 * PAGE), "munmap");
}

static void split(void)
{
	have("split", 1, split_memory);
}

static void is_told(int unused)
{
	(void)unused;
}

/* (a kernel without CONFIG_MEMORY_FAILURE knows no such advice) */
static void advise(char *at, int advice)
{
	need(!madvise(at, 4096, advice) || errno == EINVAL, "madvise");
}

static void bad_pages(void)
{
	char *shared = map(file_of("/i/bad", 4), 0, 4, MAP_SHARED), *own = map(-1, 0, 3, MAP_PRIVATE | MAP_ANONYMOUS | MAP_HUGETLB);

	signal(SIGBUS, is_told);
	touch(shared, 3);
	touch(own, 2);
	advise(shared, MADV_HWPOISON);
	advise(shared + PAGE, MADV_SOFT_OFFLINE);
	advise(own, MADV_HWPOISON);
}

static void poison(void)
{
	mkdir("/i", 0755);
	need(!mount("none", "/i", "hugetlbfs", 0, "pagesize=2M"), "/i");
	have("bad", 1, bad_pages);
}

static void faults_for_good(void)
{
	char *at = map(file_of("/d/busy", 16), 0, 16, MAP_SHARED);
	int zero = open("/dev/zero", O_RDONLY);

	if (fork())
		return;
	prctl(PR_SET_NAME, "faults");
	for (long k = 0;; k++)
		if (read(zero, at + k % 16 * PAGE, 1) < 0 && errno != EFAULT)
			_exit(1);
}

static void truncates_for_good(void)
{
	int file = file_of("/d/busy", 16);

	if (fork())
		return;
	prctl(PR_SET_NAME, "truncates");
	for (;;)
		need(!ftruncate(file, 0) && !ftruncate(file, 16 * PAGE), "ftruncate");
}

static void busy(void)
{
	mkdir("/d", 0755);
	need(!mount("none", "/d", "hugetlbfs", 0, "pagesize=2M"), "/d");
	have("busy", 1, faults_for_good);
	have("busy", 1, truncates_for_good);
}

/* Races a touch with a truncation, until a page is cached whose index isn't in the reserve map, and leaves it there. */
static char *raced;
static volatile long begun, ended;

static void *touches(void *unused)
{
	int zero = open("/dev/zero", O_RDONLY);

	for (long round = 1;; round++) {
		while (begun < round)
			;
		if (read(zero, raced, 1) != 1 && errno != EFAULT)
			perror("scene: read");
		ended = round;
	}
	return unused;
}

static void outside(void)
{
	int file;
	long round = 0, before;
	struct stat told;
	pthread_t thread;

	mkdir("/e", 0755);
	need(!mount("none", "/e", "hugetlbfs", 0, "pagesize=2M"), "/e");
	file = file_of("/e/outside", 0);
	need(!pthread_create(&thread, NULL, touches, NULL), "a thread");
	for (;;) {
		before = count("resv_hugepages");
		need(!ftruncate(file, PAGE), "ftruncate");
		raced = map(file, 0, 1, MAP_SHARED);
		begun = ++round;
		for (volatile long k = random() % 2000000; k > 0; k--)
			;
		need(!ftruncate(file, 0), "ftruncate");
		while (ended < round)
			;
		need(!fstat(file, &told), "fstat");
		if (told.st_blocks && count("resv_hugepages") < before)
			break;
		munmap(raced, PAGE);
		need(!ftruncate(file, 0), "ftruncate");
	}
	printf("scene: outside after %ld rounds\n", round);
}

static void giant_pages(void)
{
	char *at = map(file_of("/g/giant", 512), 0, 512, MAP_SHARED);

	*at = 1;
	map(-1, 0, 512, MAP_PRIVATE | MAP_ANONYMOUS | MAP_HUGETLB | 30 << 26);
}

static void giant(void)
{
	mkdir("/g", 0755);
	need(!mount("none", "/g", "hugetlbfs", 0, "pagesize=1G"), "/g");
	have("giant", 1, giant_pages);
}

static long files;

static void maps_all(void)
{
	char path[32];

	for (long k = 0; k < files; k++) {
		snprintf(path, sizeof(path), "/m/%ld", k);
		int file = file_of(path, 64);
		touch(map(file, 0, 64, MAP_SHARED), 60);
		close(file);
	}
}

static void many(long number)
{
	files = number;
	mkdir("/m", 0755);
	need(!mount("none", "/m", "hugetlbfs", 0, "pagesize=2M"), "/m");
	for (int k = 0; k < 4; k++)
		have("many", 1, maps_all);
}

int main(int words, char **word)
{
	for (int k = 1; k < words; k++) {
		if (!strcmp(word[k], "plain"))
			plain();
		else if (!strcmp(word[k], "cut"))
			cut();
		else if (!strcmp(word[k], "refused"))
			refused();
		else if (!strcmp(word[k], "busy"))
			busy();
		else if (!strcmp(word[k], "outside"))
			outside();
		else if (!strcmp(word[k], "surplus"))
			surplus();
		else if (!strcmp(word[k], "groups"))
			groups();
		else if (!strcmp(word[k], "split"))
			split();
		else if (!strcmp(word[k], "poison"))
			poison();
		else if (!strcmp(word[k], "giant"))
			giant();
		else if (!strcmp(word[k], "pages") && k + 1 < words)
			set_pages(atol(word[++k]));
		else if (!strcmp(word[k], "many") && k + 1 < words)
			many(atol(word[++k]));
		else
			need(0, word[k]);
	}
	printf("scene: pages %ld free %ld reserved %ld surplus %ld\nscene: ready\n", count("nr_hugepages"), count("free_hugepages"),
	       count("resv_hugepages"), count("surplus_hugepages"));
	fflush(stdout);
	for (;;)
		pause();
}
