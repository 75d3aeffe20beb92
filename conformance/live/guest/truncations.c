/*
 * truncations.c: how long a truncation to nothing takes, of files with so many reserved indices and so many pages.
 *
 * Run as root in an emulated machine: record/emulate.sh --kernel BZIMAGE --memory 6000 --run PROGRAM. A line a kind of file has the median of
 * TRIES truncations, in microseconds.
 */
#define _GNU_SOURCE
#include <fcntl.h>
#include <stdio.h>
#include <stdlib.h>
#include <sys/mman.h>
#include <sys/mount.h>
#include <sys/stat.h>
#include <time.h>
#include <unistd.h>

#define PAGE 2097152ul
#define TRIES 31

static const struct kind {
	unsigned long reserved, pages;
} kinds[] = { { 1, 0 }, { 64, 0 }, { 512, 0 }, { 2048, 0 }, { 64, 64 }, { 512, 64 } };

static void fail(const char *what)
{
	perror(what);
	exit(2);
}

static double now(void)
{
	struct timespec it;

	clock_gettime(CLOCK_MONOTONIC, &it);
	return it.tv_sec * 1e6 + it.tv_nsec / 1e3;
}

static int by_size(const void *one, const void *other)
{
	double a = *(const double *)one, b = *(const double *)other;

	return (a > b) - (a < b);
}

/* Maps a file's first pages with a reservation, touches some, and truncates it. */
static double truncation(int file, struct kind it)
{
	char *at = mmap(NULL, it.reserved * PAGE, PROT_READ | PROT_WRITE, MAP_SHARED, file, 0);
	double began, took;

	if (at == MAP_FAILED)
		fail("mmap");
	for (unsigned long k = 0; k < it.pages; k++)
		at[k * PAGE] = 1;
	if (munmap(at, it.reserved * PAGE))
		fail("munmap");
	began = now();
	if (ftruncate(file, 0))
		fail("ftruncate");
	took = now() - began;
	return took;
}

static void set_pool(int pages)
{
	int found = 0;
	FILE *it = fopen("/proc/sys/vm/nr_hugepages", "w+");

	if (!it || fprintf(it, "%d", pages) < 0 || fflush(it))
		fail("nr_hugepages");
	rewind(it);
	if (fscanf(it, "%d", &found) != 1 || found != pages) {
		fprintf(stderr, "truncations: the pool has %d pages, and not %d: is there memory for them?\n", found, pages);
		exit(2);
	}
	fclose(it);
}

int main(void)
{
	double took[TRIES];
	int file;

	/* (the word that emulate.sh waits for) */
	fprintf(stderr, "reproducer: truncations\n");
	mkdir("/huge", 0700);
	if (mount("none", "/huge", "hugetlbfs", 0, NULL))
		fail("mount");
	set_pool(2100);
	file = open("/huge/file", O_RDWR | O_CREAT, 0600);
	if (file < 0)
		fail("open");
	for (unsigned long k = 0; k < sizeof kinds / sizeof *kinds; k++) {
		for (int n = 0; n < TRIES; n++)
			took[n] = truncation(file, kinds[k]);
		qsort(took, TRIES, sizeof *took, by_size);
		printf("reserved %lu pages %lu: %.0f us\n", kinds[k].reserved, kinds[k].pages, took[TRIES / 2]);
	}
	return 0;
}
