/* A heap for the library that refuses one growth, where it is told to. */
#include <stdbool.h>
#include <stddef.h>
#include <stdlib.h>

typedef struct {
    size_t is_there;
    void *at;
} tried;

static char nothing[16];
/* growths until one is refused (none is where it is below 0), and blocks on the heap */
static long left = -1, live = 0, refusals = 0;

static bool is_refused(void)
{
    if (left < 0 || left-- > 0)
        return false;
    refusals++;
    return true;
}

tried rattle_alloc(size_t size, size_t align)
{
    void *at = is_refused() ? NULL : malloc(size != 0 ? size : align);
    live += at != NULL;
    return (tried){ at != NULL, at != NULL ? at : nothing };
}

tried rattle_realloc(void *old, size_t used, size_t size, size_t align)
{
    (void)used;
    void *at = is_refused() ? NULL : realloc(old, size != 0 ? size : align);
    return (tried){ at != NULL, at != NULL ? at : nothing };
}

void rattle_dealloc(void *block)
{
    live--;
    free(block);
}
