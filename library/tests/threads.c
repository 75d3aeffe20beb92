/* Pools that go from thread to thread: each of several threads takes one, makes an event of its trace, and puts it back for another to take.
 * At the end each pool has had the outcomes of its trace, and nothing that it tells is another's. Prints how often pools changed threads.
 *
 *   threads TRACE OUTCOMES
 */
#include <hugepool.h>

#include <assert.h>
#include <pthread.h>
#include <stdio.h>
#include <stdlib.h>
#include <string.h>

enum { THREADS = 4, POOLS = 16, LINES = 400 };

/* a pool, how many of the events it has had, and the thread that had it last */
typedef struct {
    hugepool_pool pool;
    size_t done;
    int last;
    bool is_taken;
} member;

static pthread_mutex_t lock = PTHREAD_MUTEX_INITIALIZER;
static member members[POOLS];
static hugepool_event_words events[LINES];
static char wanted[LINES][HUGEPOOL_LINE_ROOM + 2];
static size_t count;
static long changes;

/* A pool that nobody has and that isn't done. NULL where there is none; *are_done says whether all are. */
static member *take(int thread, bool *are_done)
{
    member *found = NULL;
    pthread_mutex_lock(&lock);
    *are_done = true;
    for (size_t at = 0; at < POOLS && found == NULL; at++) {
        bool is_done = !members[at].is_taken && members[at].done == count; /* (who has it may write to it) */
        *are_done = *are_done && is_done;
        if (!members[at].is_taken && !is_done && members[at].last != thread)
            found = &members[at];
    }
    if (found != NULL) {
        found->is_taken = true;
        changes++;
    }
    pthread_mutex_unlock(&lock);
    return found;
}

static void put(member *it, int thread)
{
    pthread_mutex_lock(&lock);
    it->is_taken = false;
    it->last = thread;
    pthread_mutex_unlock(&lock);
}

/* The next event of its trace, in a handle that has moved, and what it tells then. */
static void make(member *it)
{
    hugepool_pool moved = it->pool;
    hugepool_outcome_words outcome;
    hugepool_pool_words numbers;
    char line[HUGEPOOL_LINE_ROOM];
    size_t length;
    uint32_t finding = 9;
    assert(hugepool_event(&moved, &events[it->done], &outcome) == HUGEPOOL_OK);
    assert(hugepool_write_outcome(&outcome, line, sizeof line, &length) == HUGEPOOL_OK);
    assert(length + 1 == strlen(wanted[it->done]) && memcmp(line, wanted[it->done], length) == 0);
    assert(hugepool_pool_numbers(&moved, &numbers) == HUGEPOOL_OK);
    assert(hugepool_audit(&moved, &finding) == HUGEPOOL_OK && finding == HUGEPOOL_FOUND_NOTHING);
    it->pool = moved;
    it->done++;
}

static void *work(void *number)
{
    int thread = (int)(size_t)number;
    bool are_done = false;
    while (!are_done) {
        member *it = take(thread, &are_done);
        if (it == NULL)
            continue;
        make(it);
        put(it, thread);
    }
    return NULL;
}

static void read_all(const char *trace, const char *outcomes)
{
    static char line[80];
    hugepool_config_words config;
    FILE *lines = fopen(trace, "r"), *all = fopen(outcomes, "r");
    assert(lines != NULL && all != NULL && fgets(line, sizeof line, lines) != NULL);
    assert(hugepool_read_config(line, strlen(line) - 1, &config) == HUGEPOOL_OK);
    while (count < LINES && fgets(line, sizeof line, lines) != NULL) {
        assert(hugepool_read_event(line, strlen(line) - 1, &events[count]) == HUGEPOOL_OK);
        assert(fgets(wanted[count], sizeof wanted[count], all) != NULL);
        count++;
    }
    for (size_t at = 0; at < POOLS; at++) {
        members[at] = (member) { .pool = HUGEPOOL_CLOSED, .last = -1 };
        assert(hugepool_open(&members[at].pool, &config) == HUGEPOOL_OK);
    }
    fclose(lines);
    fclose(all);
}

int main(int count_of_words, char **words)
{
    pthread_t threads[THREADS];
    assert(count_of_words == 3);
    read_all(words[1], words[2]);
    for (size_t at = 0; at < THREADS; at++)
        assert(pthread_create(&threads[at], NULL, work, (void *)at) == 0);
    for (size_t at = 0; at < THREADS; at++)
        assert(pthread_join(threads[at], NULL) == 0);
    for (size_t at = 0; at < POOLS; at++)
        hugepool_close(&members[at].pool);
    printf("%ld changes of threads\n", changes);
    return 0;
}
