/* The heap of libhugepool.a, over malloc: the three functions of C that its proof takes as written. A program may bring its own. */
#include <stdlib.h>
#include <string.h>

typedef struct {
    size_t is_there;
    void *at;
} tried;

/* what is told where there is no memory: nothing is read or written there */
static char nothing[16] __attribute__((aligned(16)));

static tried told(void *at)
{
    tried answer = { at != NULL, at != NULL ? at : nothing };
    return answer;
}

/* (a size of 0 has a block of its own, too; each alignment divides 16, which malloc keeps) */
tried rattle_alloc(size_t size, size_t align) { return told(malloc(size != 0 ? size : align)); }

tried rattle_realloc(void *old, size_t used, size_t size, size_t align)
{
    (void)used;
    return told(realloc(old, size != 0 ? size : align));
}

void rattle_dealloc(void *block) { free(block); }
