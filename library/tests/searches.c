/* Searches as the program's command line asks for them, and prints what was found:
 *
 *   searches minimize|find|find-every TEXT CONDITIONS [NUMBER..]
 *
 * TEXT is a file: a trace or a script; CONDITIONS is a text itself. The numbers are those of a hugepool_hunt_words or of a
 * hugepool_bounds_words, in order. The status is the program's: 1 if nothing meets the conditions, 3 if the limits were reached, 2 after
 * any other code, which standard error has with its line. The search is made with no room, then with room enough, and then on heaps that
 * refuse one growth, each in turn (the first 500): what is told stays the same, and nothing is left on the heap.
 */
#include <hugepool.h>

#include "refusing.h"

#include <assert.h>
#include <inttypes.h>
#include <stdio.h>
#include <stdlib.h>
#include <string.h>

/* What is searched, and what is told. */
static const char *search;
static uint8_t *text;
static size_t length;
static const char *conditions;
static hugepool_hunt_words hunt;
static hugepool_bounds_words bounds;

typedef struct {
    size_t needed;
    uint32_t code, line, more;
} told;

static told make(uint8_t *out, size_t room)
{
    told all = { 77, 77, 77, 0 };
    const uint8_t *asked = (const uint8_t *)conditions;
    size_t size = strlen(conditions);
    if (strcmp(search, "minimize") == 0)
        all.code = hugepool_minimize(text, length, asked, size, out, room, &all.needed, &all.line);
    else if (strcmp(search, "find") == 0)
        all.code = hugepool_find(text, length, asked, size, &hunt, out, room, &all.needed, &all.line, &all.more);
    else
        all.code = hugepool_find_every(text, length, asked, size, &bounds, out, room, &all.needed, &all.line, &all.more);
    assert(live == 0);
    return all;
}

static void read_all(const char *path)
{
    FILE *file = fopen(path, "rb");
    assert(file != NULL && fseek(file, 0, SEEK_END) == 0);
    length = (size_t)ftell(file);
    rewind(file);
    text = malloc(length + 1);
    assert(fread(text, 1, length, file) == length);
    fclose(file);
}

/* With one growth refused, the search finds the same, or says that there was no memory and tells nothing. */
static void refuse(told wanted, const uint8_t *found)
{
    uint8_t *out = malloc(wanted.needed + 1);
    for (long at = 0, before = -1; at < 500 && refusals != before; at++) {
        before = refusals;
        left = at;
        memset(out, 0xA5, wanted.needed + 1);
        told all = make(out, wanted.needed);
        left = -1;
        if (all.code == HUGEPOOL_NO_MEMORY) {
            assert(refusals > before && all.needed == 0 && all.line == 0 && all.more == 0 && (wanted.needed == 0 || out[0] == 0xA5));
            continue;
        }
        assert(all.code == wanted.code && all.needed == wanted.needed && all.line == wanted.line && all.more == wanted.more);
        assert(all.code != HUGEPOOL_OK || memcmp(out, found, wanted.needed) == 0);
    }
    free(out);
}

static uint32_t number(char **words, int count, int at)
{
    return at < count ? (uint32_t)strtoul(words[at], NULL, 10) : 0;
}

int main(int count, char **words)
{
    assert(count >= 4);
    search = words[1];
    read_all(words[2]);
    conditions = words[3];
    hunt = (hugepool_hunt_words){ count > 4 ? strtoull(words[4], NULL, 10) : 0, number(words, count, 5), number(words, count, 6),
        number(words, count, 7) };
    bounds = (hugepool_bounds_words){ number(words, count, 4), number(words, count, 5), number(words, count, 6) };
    uint8_t *out = malloc(1);
    told all = make(out, 0), short_of = all;
    if (all.code == HUGEPOOL_TOO_SMALL) {
        out = realloc(out, all.needed + 1);
        out[all.needed] = 0xA5;
        all = make(out, all.needed + 1);
        assert(all.code == HUGEPOOL_OK && all.needed == short_of.needed && all.more == short_of.more && out[all.needed] == 0xA5);
        fwrite(out, 1, all.needed, stdout);
    }
    refuse(all, out);
    if (all.code != HUGEPOOL_OK || all.more != 0)
        fprintf(stderr, "%s line %" PRIu32 " more %" PRIu32 "\n", hugepool_strerror(all.code), all.line, all.more);
    free(out);
    free(text);
    return all.code == HUGEPOOL_OK ? 0 : all.code == HUGEPOOL_NONE_MEETS ? 1 : all.code == HUGEPOOL_LIMIT_REACHED ? 3 : 2;
}
