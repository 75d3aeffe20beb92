/* Searches by conditions of random words, of odd scripts, and within odd limits. Each answers with a code that its call may, and tells only
 * what goes with that; what is found is a trace that meets the conditions, as hugepool_minimize says. Prints how many of each code there were.
 *
 *   odd_searches COUNT SEED
 */
#include <hugepool.h>

#include <assert.h>
#include <stdio.h>
#include <stdlib.h>
#include <string.h>

static uint64_t seed;

static uint32_t random_below(uint32_t end)
{
    seed ^= seed << 13;
    seed ^= seed >> 7;
    seed ^= seed << 17;
    return (uint32_t)(seed >> 16) % end;
}

#define ONE_OF(list) ((list)[random_below(sizeof(list) / sizeof *(list))])

static const char *const scripts[] = { "pool 2 1 2 2\nbegin 1 map 0 0 1\nbegin 1 load 0\nbegin 2 alloc 0 0 2\n",
    "script 2 1 2 2\nbegin 1 map 0 0 2\nafter 1\nbegin 2 trunc 0 0\n", "pool 1 1 1 1\nbegin 1 load 0\n", "pool 1 1 1 1\n", "",
    "pool 1 1 1 1\nstep 1\n", "pool 1 1 1 1\nbegin 9 exit\n", "pool 4294967296 1 1 1\n", "begin 1 exit\n" };
static const char *const lines[] = { "answer 1:1=mapped", "answer *:*=SIGSEGV|*:*=word", "answer not 2:alloc=done", "at *:*=done free<4294967295", "blocked *",
    "blocked not 1", "meet 1:start,2:start", "meet 4294967295:drop,1:want", "final not free=0", "final resv>=0", "rest", "anywhere" };
static const char *const words[] = { "answer", "at", "blocked", "meet", "final", "rest", "anywhere", "not", " ", " ", ":", "=", "|", ",", "*", "0", "1",
    "4294967296", "18446744073709551616", "free", "resv>", "pages:1", "map", "done", "want", "\r", "\t", "#", "--", "\xff", "\n" };
static const uint32_t numbers[] = { 0, 1, 2, 500, 1000, 1001, UINT32_MAX };

/* Conditions: some lines, of which at times one is of random words. */
static size_t ask(char *to)
{
    *to = '\0';
    for (uint32_t count = random_below(8) == 0 ? 0 : 1 + random_below(2); count > 0; count--) {
        if (random_below(6) != 0)
            strcat(to, ONE_OF(lines));
        else
            for (uint32_t more = random_below(7); more > 0; more--)
                strcat(to, ONE_OF(words));
        if (count > 1 || random_below(2) == 0)
            strcat(to, "\n");
    }
    return strlen(to);
}

/* What is found meets the conditions, so it can be made small; and what is made small stays as it is. */
static void is_met(const uint8_t *trace, size_t length, const char *asked, size_t size)
{
    static uint8_t small[4096], again[4096];
    size_t needed = 0, same = 0;
    uint32_t line = 7;
    assert(hugepool_minimize(trace, length, (const uint8_t *)asked, size, small, sizeof small, &needed, &line) == HUGEPOOL_OK);
    assert(needed <= length && line == 0);
    assert(hugepool_minimize(small, needed, (const uint8_t *)asked, size, again, sizeof again, &same, &line) == HUGEPOOL_OK);
    assert(same == needed && memcmp(small, again, same) == 0);
}

/* One search; `more` is the run or the turns. */
static uint32_t search(void)
{
    static uint8_t out[4096];
    static const uint64_t seeds[] = { 0, 1, UINT64_MAX, UINT64_MAX - 9 };
    char asked[512];
    size_t size = ask(asked), needed = 7, room = random_below(4) == 0 ? random_below(60) : sizeof out;
    const char *script = random_below(3) == 0 ? ONE_OF(scripts) : scripts[random_below(2)]; /* (the first two are larger) */
    const uint8_t *given = (const uint8_t *)script, *conditions = (const uint8_t *)asked;
    hugepool_hunt_words hunt = { ONE_OF(seeds), random_below(30), ONE_OF(numbers), ONE_OF(numbers) };
    hugepool_bounds_words bounds = { ONE_OF(numbers), ONE_OF(numbers), random_below(3) == 0 ? random_below(3) : 300 };
    uint32_t line = 7, more = 7, is_every = random_below(2);
    memset(out, 0xA5, sizeof out);
    uint32_t code = is_every ? hugepool_find_every(given, strlen(script), conditions, size, &bounds, out, room, &needed, &line, &more)
                             : hugepool_find(given, strlen(script), conditions, size, &hunt, out, room, &needed, &line, &more);
    bool is_told = code == HUGEPOOL_OK || code == HUGEPOOL_TOO_SMALL;
    assert(is_told || code == HUGEPOOL_BAD_CONDITION || code == HUGEPOOL_BAD_LINE || code == HUGEPOOL_BAD_HEADER || code == HUGEPOOL_NONE_MEETS ||
           (code == HUGEPOOL_LIMIT_REACHED && is_every));
    assert(is_told ? needed > 0 && (code == HUGEPOOL_OK) == (needed <= room) : needed == 0);
    assert(out[code == HUGEPOOL_OK ? needed : 0] == 0xA5);
    assert((line != 0) == (code == HUGEPOOL_BAD_LINE || code == HUGEPOOL_BAD_HEADER) || (code == HUGEPOOL_BAD_CONDITION && line <= 4));
    assert(is_every ? (more != 0) == (code == HUGEPOOL_LIMIT_REACHED) : is_told ? more < hunt.limit : more == 0);
    if (code == HUGEPOOL_OK)
        is_met(out, needed, asked, size);
    return code;
}

int main(int count, char **given)
{
    assert(count == 3);
    seed = strtoull(given[2], NULL, 10) * 2654435761u + 1;
    long codes[11] = { 0 };
    for (long left = strtol(given[1], NULL, 10); left > 0; left--)
        codes[search()]++;
    printf("%ld found, %ld in too small a room, %ld none, %ld beyond a limit, %ld bad conditions, %ld bad scripts\n", codes[HUGEPOOL_OK],
           codes[HUGEPOOL_TOO_SMALL], codes[HUGEPOOL_NONE_MEETS], codes[HUGEPOOL_LIMIT_REACHED], codes[HUGEPOOL_BAD_CONDITION],
           codes[HUGEPOOL_BAD_LINE] + codes[HUGEPOOL_BAD_HEADER]);
    return 0;
}
