/* Reads a trace from a file, and prints what an export makes of it: replay, explain, draw or check.
 *
 *   texts WORD TRACE
 */
#include <hugepool.h>

#include <assert.h>
#include <inttypes.h>
#include <stdio.h>
#include <stdlib.h>
#include <string.h>

typedef uint32_t text(const uint8_t *, size_t, uint8_t *, size_t, size_t *, uint32_t *);

static uint8_t *read_all(const char *path, size_t *length)
{
    FILE *file = fopen(path, "rb");
    assert(file != NULL && fseek(file, 0, SEEK_END) == 0);
    *length = (size_t)ftell(file);
    rewind(file);
    uint8_t *bytes = malloc(*length + 1);
    assert(fread(bytes, 1, *length, file) == *length);
    fclose(file);
    return bytes;
}

/* The reason of a fault, as the program tells it. */
static uint32_t fault(const uint8_t *trace, size_t length, uint32_t code, uint32_t line)
{
    uint8_t why[200];
    size_t needed;
    fprintf(stderr, "code %" PRIu32 " line %" PRIu32 "\n", code, line);
    if (hugepool_reason(trace, length, line, why, sizeof why, &needed) == HUGEPOOL_OK)
        fprintf(stderr, "hugepool: %.*s\n", (int)needed, (char *)why);
    return 1;
}

int main(int count, char **words)
{
    assert(count == 3);
    text *make = strcmp(words[1], "replay") == 0 ? hugepool_replay : strcmp(words[1], "explain") == 0 ? hugepool_explain : hugepool_draw;
    size_t length, needed = 0;
    uint8_t *trace = read_all(words[2], &length), *out = malloc(1);
    uint32_t line = 0, events = 0, code;
    if (strcmp(words[1], "check") == 0) {
        code = hugepool_check(trace, length, &events, &line);
        if (code == HUGEPOOL_OK)
            printf("events %" PRIu32 "\n", events);
    } else {
        code = make(trace, length, out, 0, &needed, &line);
        if (code == HUGEPOOL_TOO_SMALL) {
            out = realloc(out, needed);
            code = make(trace, length, out, needed, &needed, &line);
        }
        if (code == HUGEPOOL_OK)
            fwrite(out, 1, needed, stdout);
    }
    int status = code == HUGEPOOL_OK ? 0 : (int)fault(trace, length, code, line);
    free(trace);
    free(out);
    return status;
}
