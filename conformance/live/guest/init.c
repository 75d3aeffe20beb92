/*
 * init.c: the first process of the emulated machine. It has tasks race on hugetlbfs files, and tells the kernel's log what they do.
 *
 * /workload has lines
 *   rec NAME SEED COUNT POOL FILES TASKS CALLS SPAN KINDS PROB MAXUS INJECT
 * for COUNT recordings with the seeds SEED, SEED + 1, ..: TASKS processes make CALLS random calls each at once, of the KINDS (m map,
 * n mapn, u unmap, l load, s store, a alloc, k allock, p punch, t trunc, x exit), on the first SPAN pages of FILES files of a pool of POOL
 * pages. Of the points at which the kernel may pause, PROB percent do, up to MAXUS microseconds. INJECT is a + 1024 b + 1048576 c: of 1000
 * changes a are refused memory, of 1000 pages b aren't placed for want of memory, and of 1000 deletions that split a region c are refused.
 *   script NAME SEED COUNT POOL FILES TASKS PROB MAXUS [INJECT]
 * then lines `T OP ARGS`, a call of task T each, up to `end`: the tasks make just these, at once.
 * Either line may end with some of
 *   quota N      the files may have N pages in all: a mount with size=
 *   resizes N    meanwhile the pool is resized N times, to 1 to twice as many pages as it had
 *   kills N      meanwhile N of the tasks are killed
 * Any other line is passed over (`rules LETTERS` is for results.py).
 * What happens is in the kernel's log. The serial line gets a line a recording.
 */
#define _GNU_SOURCE
#include <errno.h>
#include <fcntl.h>
#include <sched.h>
#include <setjmp.h>
#include <signal.h>
#include <stdint.h>
#include <stdio.h>
#include <stdlib.h>
#include <string.h>
#include <sys/ioctl.h>
#include <sys/mman.h>
#include <sys/mount.h>
#include <sys/reboot.h>
#include <sys/stat.h>
#include <sys/wait.h>
#include <unistd.h>

#define PAGE 2097152ull
#define BASE ((char *)0x100000000000ull)
#define ADDRESSES 16384
#define MOST_MAPPINGS 64
#define MOST_CALLS 4096
#define MOST_FILES 16
#define MOST_TASKS 64

/* what the log's device takes (kernel/hplive.c): what is told, its numbers, and what comes back */
struct request {
	uint64_t what, a, b, c, d, out;
};

struct mapping {
	unsigned base, length;
};

struct scripted {
	int task, kind;
	unsigned a, b, c;
};

/* one line of the workload */
struct workload {
	char name[64], kinds[128];
	unsigned long seed, count, inject;
	int pool, files, tasks, calls, span, prob, most_us;
	int quota, resizes, kills;
};

/* where the tasks meet: how many are ready, whether they may go, which have done their calls, whether they may end */
struct barrier {
	volatile int ready, go, leave;
	volatile char done[MOST_TASKS + 1];
};

static struct mapping mappings[MOST_MAPPINGS];
static int mapping_count;
static int files[MOST_FILES];
static int device, processors;
static struct barrier *barrier;
static struct scripted script[MOST_CALLS];
static int script_length;
static sigjmp_buf back;
static int pool_now = -1, quota_now = -1;

static int tell(int what, uint64_t a, uint64_t b, uint64_t c, uint64_t d, uint64_t *out)
{
	struct request it = { what, a, b, c, d, 0 };
	int result = ioctl(device, 0x48500001, &it);

	if (out)
		*out = it.out;
	return result;
}

static void answer(int kind, uint64_t number)
{
	tell('E', kind, number, 0, 0, NULL);
}

static void on_signal(int number)
{
	siglongjmp(back, number);
}

/* The first address, in pages, at which so many pages are free; the machine's rule. */
static long room_for(unsigned length)
{
	unsigned base = 0;

	for (int k = 0; k < mapping_count; k++) {
		if (base < mappings[k].base + mappings[k].length && mappings[k].base < base + length) {
			base = mappings[k].base + mappings[k].length;
			k = -1;
		}
	}
	return base + length <= ADDRESSES ? (long)base : -1;
}

static void map(int kind, int file, unsigned first, unsigned length)
{
	long base = room_for(length);
	int flags = MAP_SHARED | MAP_FIXED_NOREPLACE | (kind == 'n' ? MAP_NORESERVE : 0);
	void *got = mmap(BASE + base * PAGE, length * PAGE, PROT_READ | PROT_WRITE, flags, file, first * PAGE);

	if (got == MAP_FAILED) {
		answer('e', errno);
		return;
	}
	mappings[mapping_count++] = (struct mapping){ base, length };
	answer('m', base);
}

static void unmap(unsigned base)
{
	for (int k = 0; k < mapping_count; k++) {
		if (mappings[k].base == base) {
			int result = munmap(BASE + base * PAGE, mappings[k].length * PAGE);

			mappings[k] = mappings[--mapping_count];
			answer(result ? 'e' : 'd', result ? errno : 0);
			return;
		}
	}
	answer('x', 0);
}

/* The access is made by the device, under a lock of the log's, where no fault is needed; else the processor's own access faults, which
 * changes no word, and the access is tried again. */
static void touch(int kind, unsigned page, uint64_t word)
{
	volatile uint64_t *at = (volatile uint64_t *)(BASE + page * PAGE);
	uint64_t read = 0;
	int signal;

	while (tell(kind == 'l' ? 'L' : 'W', (uint64_t)at, word, 0, 0, &read) != 0) {
		signal = sigsetjmp(back, 1);
		if (signal) {
			answer(signal == SIGBUS ? 's' : 'g', 0);
			return;
		}
		if (kind == 'l')
			(void)*at;
		else
			__asm__ volatile("lock; orq $0, (%0)" : : "r"(at) : "memory");
	}
	answer('w', read);
}

static void allocate(int mode, int file, unsigned first, unsigned length)
{
	int result = fallocate(file, mode, first * PAGE, length * PAGE);

	answer(result ? 'e' : 'd', result ? errno : 0);
}

static void truncate_to(int file, unsigned size)
{
	int result = ftruncate(file, size * PAGE);

	answer(result ? 'e' : 'd', result ? errno : 0);
}

static void call(int kind, uint64_t a, uint64_t b, uint64_t c)
{
	tell('B', kind, a, b, c, NULL);
	switch (kind) {
	case 'm':
	case 'n':
		map(kind, files[a], b, c);
		break;
	case 'u':
		unmap(a);
		break;
	case 'l':
	case 's':
		touch(kind, a, b);
		break;
	case 'a':
		allocate(0, files[a], b, c);
		break;
	case 'k':
		allocate(FALLOC_FL_KEEP_SIZE, files[a], b, c);
		break;
	case 'p':
		allocate(FALLOC_FL_PUNCH_HOLE | FALLOC_FL_KEEP_SIZE, files[a], b, c);
		break;
	case 't':
		truncate_to(files[a], b);
		break;
	case 'x':
		_exit(0);
	}
}

static unsigned next_random(uint64_t *seed)
{
	*seed = *seed * 6364136223846793005ull + 1442695040888963407ull;
	return *seed >> 33;
}

static void make_random_calls(int task, uint64_t seed, const struct workload *load)
{
	seed = seed * 1000003ull + task;
	for (int k = 0; k < load->calls; k++) {
		unsigned file = next_random(&seed) % load->files;
		unsigned any = next_random(&seed), length = 1 + any % load->span;
		unsigned first = next_random(&seed) % (load->span - length + 1);
		int kind = load->kinds[next_random(&seed) % strlen(load->kinds)];
		unsigned which = next_random(&seed);
		struct mapping *mapping = mapping_count ? &mappings[which % mapping_count] : NULL;

		/* (a touch or an unmap wants a mapping, and few at a time are enough) */
		if (strchr("uls", kind) && !mapping)
			kind = !strchr(load->kinds, 'm') && strchr(load->kinds, 'n') ? 'n' : 'm';
		if (strchr("mn", kind) && mapping_count >= 6)
			kind = 'u';
		if (kind == 'u')
			call('u', mapping->base, 0, 0);
		else if (kind == 'l' || kind == 's')
			call(kind, mapping->base + any % mapping->length, 1 + (uint64_t)task * 100000 + k, 0);
		else if (kind == 't')
			call('t', file, first, 0);
		else
			call(kind, file, first, length);
	}
}

static void make_scripted_calls(int task)
{
	for (int k = 0; k < script_length; k++)
		if (script[k].task == task)
			call(script[k].kind, script[k].a, script[k].b, script[k].c);
}

static void run_task(int task, uint64_t seed, const struct workload *load)
{
	struct sigaction action = { .sa_handler = on_signal, .sa_flags = SA_NODEFER };
	cpu_set_t set;

	sigaction(SIGBUS, &action, NULL);
	sigaction(SIGSEGV, &action, NULL);
	CPU_ZERO(&set);
	CPU_SET((task - 1) % processors, &set);
	sched_setaffinity(0, sizeof set, &set);
	mapping_count = 0;
	tell('T', task, 0, 0, 0, NULL);
	__sync_fetch_and_add(&barrier->ready, 1);
	while (!barrier->go)
		if (processors < 2)
			sched_yield();
	if (script_length)
		make_scripted_calls(task);
	else
		make_random_calls(task, seed, load);
	barrier->done[task] = 1;
	while (!barrier->leave)
		usleep(500);
	_exit(0);
}

static void put(const char *path, long number)
{
	int descriptor = open(path, O_WRONLY);
	char text[32];
	int length = sprintf(text, "%ld\n", number);

	if (descriptor < 0 || write(descriptor, text, length) != length)
		printf("HARNESS cannot write %s\n", path);
	close(descriptor);
}

static void size_pool(int pages)
{
	if (pool_now == pages)
		return;
	put("/proc/sys/vm/nr_hugepages", 0);
	put("/proc/sys/vm/nr_hugepages", pages);
	pool_now = pages;
}

/* Mounts the files' place with this maximum (0: none). With one it is mounted anew each time: what a mount has used may be wrong for good. */
static void set_quota(int pages)
{
	char options[64];

	if (!pages && !quota_now)
		return;
	if (quota_now >= 0 && umount("/h"))
		printf("HARNESS cannot unmount: %d\n", errno);
	sprintf(options, pages ? "pagesize=2M,size=%dM" : "pagesize=2M", 2 * pages);
	if (mount("none", "/h", "hugetlbfs", 0, options))
		printf("HARNESS no hugetlbfs: %d\n", errno);
	quota_now = pages;
}

static void path_of(char *path, int file)
{
	sprintf(path, "/h/f%d", file);
}

static void open_files(int count)
{
	char path[32];

	for (int k = 0; k < count; k++) {
		path_of(path, k);
		files[k] = open(path, O_RDWR | O_CREAT | O_EXCL, 0600);
		if (files[k] < 0)
			printf("HARNESS open %s: %d\n", path, errno);
		tell('F', k, files[k], 0, 0, NULL);
	}
}

static void close_files(int count)
{
	char path[32];

	for (int k = 0; k < count; k++) {
		path_of(path, k);
		close(files[k]);
		unlink(path);
	}
}

/* Reaps the tasks that have ended, and says so to the log. */
static void reap(pid_t *children, int tasks)
{
	int status;
	pid_t pid = waitpid(-1, &status, WNOHANG);

	for (int task = 1; pid > 0 && task <= tasks; task++) {
		if (children[task] != pid)
			continue;
		tell('X', task, 0, 0, 0, NULL);
		children[task] = 0;
		if (status && !(WIFSIGNALED(status) && WTERMSIG(status) == SIGKILL))
			printf("HARNESS child died %x\n", status);
	}
}

static int is_over(const pid_t *children, int tasks)
{
	for (int task = 1; task <= tasks; task++)
		if (children[task] && !barrier->done[task])
			return 0;
	return 1;
}

/* One resize or one kill of those that are left to be made. */
static void meddle(const struct workload *load, const pid_t *children, uint64_t *chance, int *resizes, int *kills)
{
	int which = next_random(chance) % (*resizes + *kills), task = 1 + next_random(chance) % load->tasks;

	if (which < *resizes) {
		--*resizes;
		put("/proc/sys/vm/nr_hugepages", 1 + next_random(chance) % (2 * load->pool));
		pool_now = -1;
		return;
	}
	--*kills;
	if (children[task])
		kill(children[task], SIGKILL);
}

/* Waits until all tasks have made their calls or ended, at most some 20 seconds, and says whether they did. */
static int await_tasks(const struct workload *load, uint64_t seed, pid_t *children)
{
	uint64_t chance = seed * 7919 + 13;
	int resizes = load->resizes, kills = load->kills;

	for (int turns = 0; !is_over(children, load->tasks); turns++) {
		usleep(300 + (resizes + kills ? next_random(&chance) % 1500 : 0));
		if (resizes + kills)
			meddle(load, children, &chance, &resizes, &kills);
		reap(children, load->tasks);
		if (turns > 60000) {
			printf("HARNESS hangs\n");
			for (int task = 1; task <= load->tasks; task++)
				if (children[task])
					kill(children[task], SIGKILL);
			return 0;
		}
	}
	return 1;
}

static void record(const struct workload *load, uint64_t seed)
{
	pid_t children[MOST_TASKS + 1];
	uint64_t before = 0, at_rest = 0, after = 0;
	int status, is_good;

	set_quota(load->quota);
	size_pool(load->pool);
	tell('P', 0, 0, 0, 0, &before);
	if (before != (uint64_t)load->pool << 32)
		printf("HARNESS begins with free %d resv %d\n", (int)(before >> 32), (int)before);
	memset(barrier, 0, sizeof *barrier);
	tell('R', seed, load->prob, load->most_us, load->inject, NULL);
	/* what the recording is of, in the log itself */
	tell('B', '!', (uint64_t)load->pool | (uint64_t)load->files << 16 | (uint64_t)load->tasks << 32 | (uint64_t)load->quota << 48,
	     load->calls, load->span, NULL);
	open_files(load->files);
	for (int task = 1; task <= load->tasks; task++) {
		children[task] = fork();
		if (children[task] == 0)
			run_task(task, seed, load);
	}
	while (barrier->ready < load->tasks)
		usleep(200);
	barrier->go = 1;
	is_good = await_tasks(load, seed, children);
	usleep(1000); /* for what is freed late */
	for (int k = 0; k < load->files; k++)
		tell('Q', k, files[k], 0, 0, NULL);
	tell('P', 0, 0, 0, 0, &at_rest);
	tell('S', seed, 0, 0, 0, NULL);
	barrier->leave = 1;
	for (int task = 1; task <= load->tasks; task++)
		if (children[task])
			waitpid(children[task], &status, 0);
	close_files(load->files);
	tell('P', 0, 0, 0, 0, &after);
	printf("rec %s seed %lu free %d resv %d, emptied free %d resv %d%s\n", load->name, (unsigned long)seed, (int)(at_rest >> 32),
	       (int)at_rest, (int)(after >> 32), (int)after, is_good ? "" : " BAD");
	/* (a count that this kernel has lost would spoil the next recording) */
	if ((int)after != 0) {
		tell('Z', 0, 0, 0, 0, &after);
		printf("count set back from %d\n", (int)after);
	}
}

static void read_script(FILE *in)
{
	char line[512], kind;

	for (script_length = 0; fgets(line, sizeof line, in) && strncmp(line, "end", 3) != 0;) {
		struct scripted *it = &script[script_length];

		it->b = it->c = 0;
		if (sscanf(line, "%d %c %u %u %u", &it->task, &kind, &it->a, &it->b, &it->c) >= 3) {
			it->kind = kind;
			script_length++;
		}
	}
}

/* The number behind a word at the line's end, or 0. */
static int option(const char *line, const char *word)
{
	const char *found = strstr(line, word);

	return found ? atoi(found + strlen(word)) : 0;
}

static void run_line(const char *line, FILE *in)
{
	struct workload it = { .span = 8, .kinds = "-" };

	script_length = 0;
	it.quota = option(line, " quota ");
	it.resizes = option(line, " resizes ");
	it.kills = option(line, " kills ");
	if (sscanf(line, "rec %63s %lu %lu %d %d %d %d %d %127s %d %d %lu", it.name, &it.seed, &it.count, &it.pool, &it.files, &it.tasks,
		   &it.calls, &it.span, it.kinds, &it.prob, &it.most_us, &it.inject) != 12) {
		it.inject = 0;
		if (sscanf(line, "script %63s %lu %lu %d %d %d %d %d %lu", it.name, &it.seed, &it.count, &it.pool, &it.files, &it.tasks,
			   &it.prob, &it.most_us, &it.inject) < 8)
			return;
		read_script(in);
		it.calls = script_length;
	}
	for (unsigned long k = 0; k < it.count; k++)
		record(&it, it.seed + k);
}

static void set_up(void)
{
	int console;

	mkdir("/proc", 0755);
	mkdir("/dev", 0755);
	mkdir("/h", 0755);
	mount("proc", "/proc", "proc", 0, "");
	mount("devtmpfs", "/dev", "devtmpfs", 0, "");
	console = open("/dev/ttyS0", O_RDWR | O_NOCTTY);
	if (console >= 0)
		for (int k = 0; k < 3; k++)
			dup2(console, k);
	setvbuf(stdout, NULL, _IOLBF, 0);
	processors = sysconf(_SC_NPROCESSORS_ONLN);
	device = open("/proc/hplive", O_RDWR);
	if (device < 0)
		printf("HARNESS the kernel has no log: %d\n", errno);
	set_quota(0);
	put("/proc/sys/vm/nr_overcommit_hugepages", 0);
	barrier = mmap(NULL, 4096, PROT_READ | PROT_WRITE, MAP_SHARED | MAP_ANONYMOUS, -1, 0);
}

int main(void)
{
	char line[512];
	FILE *in;

	set_up();
	printf("begun\n");
	in = fopen("/workload", "r");
	while (in && fgets(line, sizeof line, in))
		run_line(line, in);
	printf("done\n");
	fflush(stdout);
	usleep(100000);
	reboot(RB_POWER_OFF);
	for (;;)
		pause();
}
