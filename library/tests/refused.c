/* Runs a trace on a heap that refuses one growth, each in turn: the call that meets it answers HUGEPOOL_NO_MEMORY, nothing that the pool
 * tells has changed, the same call then goes well, and the outcomes are the trace's. Nothing is left on the heap. Prints how many growths
 * were refused.
 *
 *   refused TRACE OUTCOMES
 */
#include <hugepool.h>

#include "refusing.h"

#include <assert.h>
#include <stdio.h>
#include <stdlib.h>
#include <string.h>

/* All that a pool tells. */
typedef struct {
    hugepool_pool_words pool;
    hugepool_file_words files[16];
    hugepool_task_words tasks[64];
} told;

static told *tell(hugepool_pool *pool, told *all)
{
    memset(all, 0, sizeof *all);
    assert(hugepool_pool_numbers(pool, &all->pool) == HUGEPOOL_OK);
    for (uint32_t file = 0; file < all->pool.files; file++)
        assert(hugepool_file_numbers(pool, file, &all->files[file]) == HUGEPOOL_OK);
    for (uint32_t task = 1; task <= all->pool.tasks; task++)
        assert(hugepool_task_numbers(pool, task, &all->tasks[task - 1]) == HUGEPOOL_OK);
    return all;
}

static void open_pool(hugepool_pool *pool, const hugepool_config_words *config)
{
    uint32_t code = hugepool_open(pool, config);
    if (code != HUGEPOOL_OK) {
        assert(code == HUGEPOOL_NO_MEMORY && !pool->is_open && live == 0);
        code = hugepool_open(pool, config);
    }
    assert(code == HUGEPOOL_OK);
}

/* An event, once more where memory was refused. */
static void make(hugepool_pool *pool, const hugepool_event_words *event, hugepool_outcome_words *outcome)
{
    static told before, after;
    static const hugepool_outcome_words unwritten = { 7, 7, 7, 7, 7, 7, 7, 7 };
    *outcome = unwritten;
    bool may_be_refused = left >= 0;
    if (may_be_refused)
        tell(pool, &before);
    uint32_t code = hugepool_event(pool, event, outcome);
    if (code == HUGEPOOL_OK)
        return;
    assert(code == HUGEPOOL_NO_MEMORY && may_be_refused);
    assert(memcmp(outcome, &unwritten, sizeof unwritten) == 0);
    assert(memcmp(tell(pool, &after), &before, sizeof before) == 0);
    assert(hugepool_event(pool, event, outcome) == HUGEPOOL_OK);
}

/* A copy at the end, where no call is in flight; it tells what the pool does. A second one takes its place, and it is closed. */
static void copy(hugepool_pool *pool)
{
    static told all, copied;
    hugepool_pool other = HUGEPOOL_CLOSED;
    uint32_t code = hugepool_copy(pool, &other);
    if (code == HUGEPOOL_NO_MEMORY) {
        assert(!other.is_open);
        code = hugepool_copy(pool, &other);
    }
    assert(code == HUGEPOOL_OK || code == HUGEPOOL_IN_FLIGHT);
    if (code == HUGEPOOL_OK) {
        assert(memcmp(tell(pool, &all), tell(&other, &copied), sizeof all) == 0);
        code = hugepool_copy(pool, &other);
        assert(other.is_open && (code == HUGEPOOL_OK || code == HUGEPOOL_NO_MEMORY));
    }
    hugepool_close(&other);
}

/* The line of an outcome, written once more where memory was refused, is that one. */
static void compare(const hugepool_outcome_words *outcome, const char *wanted)
{
    char got[HUGEPOOL_LINE_ROOM];
    size_t length;
    uint32_t code = hugepool_write_outcome(outcome, got, sizeof got, &length);
    if (code == HUGEPOOL_NO_MEMORY) {
        assert(length == 0);
        code = hugepool_write_outcome(outcome, got, sizeof got, &length);
    }
    assert(code == HUGEPOOL_OK && length + 1 == strlen(wanted) && memcmp(got, wanted, length) == 0);
}

static void run(const char *trace, const char *outcomes)
{
    static char line[80], wanted[80];
    FILE *events = fopen(trace, "r"), *all = fopen(outcomes, "r");
    assert(events != NULL && all != NULL && fgets(line, sizeof line, events) != NULL);
    hugepool_pool pool = HUGEPOOL_CLOSED;
    hugepool_config_words config;
    assert(hugepool_read_config(line, strlen(line) - 1, &config) == HUGEPOOL_OK);
    open_pool(&pool, &config);
    while (fgets(line, sizeof line, events) != NULL) {
        hugepool_event_words event;
        hugepool_outcome_words outcome;
        assert(hugepool_read_event(line, strlen(line) - 1, &event) == HUGEPOOL_OK);
        make(&pool, &event, &outcome);
        assert(fgets(wanted, sizeof wanted, all) != NULL);
        compare(&outcome, wanted);
    }
    copy(&pool);
    hugepool_close(&pool);
    fclose(events);
    fclose(all);
    assert(live == 0);
}

int main(int count, char **words)
{
    assert(count == 3);
    for (long at = 0, before = -1; refusals != before; at++) {
        before = refusals;
        left = at;
        run(words[1], words[2]);
    }
    printf("%ld growths refused\n", refusals);
    return 0;
}
