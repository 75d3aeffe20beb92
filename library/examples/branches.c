/* Runs a trace through libhugepool, and branches at each moment at rest: a copy of the pool goes on, and the pool that it was made of is
 * closed. Prints what came of each event, as `hugepool replay` does.
 *
 *   cc -o branches branches.c $(pkg-config --cflags --libs hugepool)
 *   ./branches < run.trace
 */
#include <hugepool.h>

#include <stdio.h>
#include <stdlib.h>
#include <string.h>

static void fail(const char *what, uint32_t code)
{
    fprintf(stderr, "branches: %s: %s\n", what, hugepool_strerror(code));
    exit(1);
}

/* Where no call is in flight, a copy takes the pool's place. */
static void branch(hugepool_pool *pool)
{
    hugepool_pool copy = HUGEPOOL_CLOSED;
    uint32_t code = hugepool_copy(pool, &copy);
    if (code == HUGEPOOL_IN_FLIGHT)
        return;
    if (code != HUGEPOOL_OK)
        fail("no copy", code);
    hugepool_close(pool);
    *pool = copy; /* (the handle moves: copy isn't used any more) */
}

/* A line of a trace happens, and what came of it is printed. */
static void run(hugepool_pool *pool, const char *line)
{
    hugepool_event_words event;
    hugepool_outcome_words outcome;
    char told[HUGEPOOL_LINE_ROOM];
    size_t length;
    uint32_t code = hugepool_read_event(line, strlen(line), &event);
    if (code == HUGEPOOL_OK)
        code = hugepool_event(pool, &event, &outcome);
    if (code == HUGEPOOL_OK)
        code = hugepool_write_outcome(&outcome, told, sizeof told, &length);
    if (code != HUGEPOOL_OK)
        fail(line, code);
    printf("%.*s\n", (int)length, told);
}

/* The next line, without its end, if there is one. */
static bool next(char *line, int room)
{
    if (fgets(line, room, stdin) == NULL)
        return false;
    line[strcspn(line, "\n")] = 0;
    return true;
}

int main(void)
{
    hugepool_pool pool = HUGEPOOL_CLOSED;
    hugepool_config_words config;
    char line[HUGEPOOL_LINE_ROOM + 2];
    if (!next(line, sizeof line) || hugepool_read_config(line, strlen(line), &config) != HUGEPOOL_OK)
        fail("the header", HUGEPOOL_BAD_HEADER);
    uint32_t code = hugepool_open(&pool, &config);
    if (code != HUGEPOOL_OK)
        fail("no pool", code);
    while (next(line, sizeof line)) {
        run(&pool, line);
        branch(&pool);
    }
    hugepool_close(&pool);
    return 0;
}
