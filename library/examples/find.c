/* Prints a small run of a script that meets conditions: a random run that does, or else a shortest of all schedules, made small. The status
 * is 1 if no schedule meets them.
 *
 *   cc -o find find.c $(pkg-config --cflags --libs hugepool)
 *   ./find 'blocked 2' 'answer 1:2=beyond' < truncate-against-fault.script
 */
#include <hugepool.h>

#include <stdio.h>
#include <stdlib.h>
#include <string.h>

/* No trace or script that is read or found here may have more bytes. */
enum { ROOM = 1 << 20 };

typedef struct {
    uint8_t bytes[ROOM];
    size_t length;
} text;

static text script, conditions, found, small;

static void add_line(text *to, const char *line)
{
    size_t length = strlen(line);
    if (length >= ROOM - to->length) {
        fprintf(stderr, "find: the conditions are too long\n");
        exit(2);
    }
    memcpy(to->bytes + to->length, line, length);
    to->length += length;
    to->bytes[to->length++] = '\n';
}

/* A random run that meets the conditions, or else a shortest schedule. */
static uint32_t find(uint32_t *line)
{
    hugepool_hunt_words hunt = { .seed = 1, .limit = 1000 };
    hugepool_bounds_words bounds = { .states = 100000 };
    uint32_t run, turns;
    uint32_t code = hugepool_find(script.bytes, script.length, conditions.bytes, conditions.length, &hunt, found.bytes, ROOM, &found.length, line,
                                  &run);
    if (code == HUGEPOOL_NONE_MEETS)
        code = hugepool_find_every(script.bytes, script.length, conditions.bytes, conditions.length, &bounds, found.bytes, ROOM, &found.length, line,
                                   &turns);
    return code;
}

int main(int count, char **words)
{
    for (int at = 1; at < count; at++)
        add_line(&conditions, words[at]);
    script.length = fread(script.bytes, 1, ROOM, stdin);
    uint32_t line = 0, code = find(&line);
    if (code == HUGEPOOL_OK)
        code = hugepool_minimize(found.bytes, found.length, conditions.bytes, conditions.length, small.bytes, ROOM, &small.length, &line);
    if (code == HUGEPOOL_OK)
        fwrite(small.bytes, 1, small.length, stdout);
    else
        fprintf(stderr, "find: %s (line %u)\n", hugepool_strerror(code), (unsigned)line);
    return code == HUGEPOOL_OK ? 0 : code == HUGEPOOL_NONE_MEETS ? 1 : 2;
}
