/* What the page's module has of C. The heap of the page, in place of library/heap.c: the three functions of C that the proof takes as
 * written, and room for what JavaScript hands over; and a product of large numbers. A block has a power of two of bytes, and its exponent stands in front of it; freed blocks are kept by exponent, to be used
 * again. */
typedef __SIZE_TYPE__ size_t;

typedef struct {
    size_t is_there;
    void *at;
} tried;

typedef union block {
    size_t exponent;
    union block *next; /* of a block that is free */
    char front[16];    /* what stands before each block, so that all are aligned to 16 bytes */
} block;

enum { SMALLEST = 5, EXPONENTS = 40, PAGE_BITS = 16 };

extern unsigned char __heap_base;
static size_t end; /* of what was ever used */
static block *freed[EXPONENTS];

/* what is told where there is no memory: nothing is read or written there */
static char nothing[16] __attribute__((aligned(16)));

/* A new block behind all others. */
static block *grow(size_t exponent)
{
    if (end == 0)
        end = ((size_t)&__heap_base + 15) & ~(size_t)15;
    size_t wanted = end + ((size_t)1 << exponent), have = __builtin_wasm_memory_size(0) << PAGE_BITS;
    if (wanted > have && __builtin_wasm_memory_grow(0, ((wanted - have - 1) >> PAGE_BITS) + 1) == (size_t)-1)
        return 0;
    block *at = (block *)end;
    end = wanted;
    return at;
}

void *page_take(size_t size)
{
    size_t exponent = SMALLEST;
    while (exponent < EXPONENTS && ((size_t)1 << exponent) - sizeof(block) < size)
        exponent++;
    if (exponent == EXPONENTS)
        return 0;
    block *at = freed[exponent];
    if (at)
        freed[exponent] = at->next;
    else if (!(at = grow(exponent)))
        return 0;
    at->exponent = exponent;
    return at + 1;
}

void page_give(void *given)
{
    block *at = (block *)given - 1;
    size_t exponent = at->exponent;
    at->next = freed[exponent];
    freed[exponent] = at;
}

static tried told(void *at)
{
    tried answer = { at != 0, at ? at : nothing };
    return answer;
}

/* (a size of 0 has a block of its own, too; each alignment divides 16) */
tried rattle_alloc(size_t size, size_t align)
{
    (void)align;
    return told(page_take(size));
}

tried rattle_realloc(void *old, size_t used, size_t size, size_t align)
{
    (void)align;
    if (((size_t)1 << ((block *)old - 1)->exponent) - sizeof(block) >= size)
        return told(old);
    void *at = page_take(size);
    if (at) {
        __builtin_memcpy(at, old, used);
        page_give(old);
    }
    return told(at);
}

void rattle_dealloc(void *given) { page_give(given); }

/* The product of two numbers of 128 bits, by halves of 32: WebAssembly has no instruction for it, so the compiler calls this by its name. */
__int128 __multi3(__int128 one, __int128 other)
{
    typedef unsigned long long half;
    half a = (half)one, b = (half)other, low = (a & 0xffffffff) * (b & 0xffffffff);
    half middle = (a >> 32) * (b & 0xffffffff) + (low >> 32), more = (a & 0xffffffff) * (b >> 32) + (middle & 0xffffffff);
    half high = (a >> 32) * (b >> 32) + (middle >> 32) + (more >> 32) + (half)(one >> 64) * b + a * (half)(other >> 64);
    return (__int128)((unsigned __int128)high << 64 | (more << 32 | (low & 0xffffffff)));
}
