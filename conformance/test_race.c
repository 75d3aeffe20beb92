/* Tests what a race's recorder counts as lost by Linux's rules: its calls are made up here, each with the page faults that it makes and
 * the truncations that other tasks begin and end meanwhile. The last line is 'race: N passed, M failed'. */
#include "record/race.c"

#include <stdlib.h>
#include <sys/mman.h>
#include <unistd.h>

enum { SPAN = 4, PAGE = 4096, PAGES = 64, LONG_FILE = 1, BEHIND = 9 };

/* What happens while a call is made: so many page faults; truncations of a file to an index that begin, and that end. */
struct made_up {
    unsigned faults, file;
    uint64_t index;
    unsigned begun, ended;
};

static struct made_up now;
static char *fresh;

void make_call(struct desk *desk, struct files files)
{
    (void)desk;
    for (unsigned k = 0; k < now.faults; k++, fresh += PAGE)
        *(volatile char *)fresh = 1;
    for (uint64_t index = now.index; index < SPAN; index++) {
        files.board->begun[now.file][index] += now.begun;
        files.board->ended[now.file][index] += now.ended;
    }
}

/* File 0 is mapped from page 0 on, file 1 from page 10 on, further than a race's span. */
const struct mapping *mapping_of(const struct desk *desk, uint64_t page)
{
    static const struct mapping first = {.pages = SPAN}, second = {.base = 10, .pages = 10, .file = LONG_FILE};

    (void)desk;
    return page < SPAN ? &first : page >= 10 && page < 20 ? &second : NULL;
}

const char *word_of(enum operation operation)
{
    return operation == OP_TRUNC ? "trunc" : "call";
}

void fail_errno(const char *format, ...)
{
    puts(format);
    exit(1);
}

/* A call, what happens meanwhile, how many truncations to index 0 of file 0 are at work when it begins, and what may be lost by it. */
static const struct expected {
    const char *what;
    struct call call;
    struct made_up meanwhile;
    unsigned at_work;
    uint64_t lost;
} all[] = {
    {"a touch with a fault, and a truncation", {OP_STORE, {2, 5}, {0}}, {1, 0, 0, 1, 1}, 0, 1},
    {"a load", {OP_LOAD, {2}, {0}}, {1, 0, 2, 1, 1}, 0, 1},
    {"a touch with a fault alone", {OP_STORE, {2, 5}, {0}}, {1, 0, 0, 0, 0}, 0, 0},
    {"a touch without a fault", {OP_STORE, {2, 5}, {0}}, {0, 0, 0, 1, 1}, 0, 0},
    {"a truncation that began before", {OP_STORE, {2, 5}, {0}}, {1, 0, 0, 0, 1}, 1, 1},
    {"one that goes on", {OP_STORE, {2, 5}, {0}}, {1, 0, 0, 1, 0}, 0, 1},
    {"a truncation to a larger size", {OP_STORE, {2, 5}, {0}}, {1, 0, 3, 1, 1}, 0, 0},
    {"a truncation of another file", {OP_STORE, {2, 5}, {0}}, {1, 1, 0, 1, 1}, 0, 0},
    {"three truncations meet a fault", {OP_STORE, {2, 5}, {0}}, {1, 0, 0, 3, 3}, 0, 2},
    {"three truncations meet two faults", {OP_STORE, {2, 5}, {0}}, {2, 0, 0, 3, 3}, 0, 3},
    {"a touch behind the span", {OP_STORE, {10 + BEHIND, 5}, {0}}, {1, LONG_FILE, SPAN - 1, 1, 1}, 0, 1},
    {"a touch of nothing", {OP_STORE, {7, 5}, {0}}, {1, 0, 0, 1, 1}, 0, 0},
    {"an allocation of all", {OP_ALLOC, {0, 0, SPAN}, {0}}, {4, 0, 0, 1, 1}, 1, 0},
    {"one that keeps the size", {OP_ALLOCK, {0, 0, SPAN}, {0}}, {4, 0, 0, 1, 1}, 0, 0},
    {"a punch", {OP_PUNCH, {0, 0, SPAN}, {0}}, {1, 0, 0, 1, 1}, 0, 0},
    {"a map", {OP_MAP, {0, 0, SPAN}, {0}}, {1, 0, 0, 1, 1}, 0, 0},
    {"a truncation", {OP_TRUNC, {0, 0}, {0}}, {1, 0, 0, 1, 1}, 0, 0},
};

static unsigned failed, passed;

static void expect(const char *what, bool is_so)
{
    passed += is_so;
    failed += !is_so;
    if (!is_so)
        printf("  race: %s\n", what);
}

static uint64_t lost_by(const struct expected *it, struct desk *desk, struct board *board)
{
    memset(board, 0, sizeof *board);
    for (uint64_t index = 0; index < SPAN; index++)
        board->begun[0][index] = it->at_work;
    desk->call = it->call;
    now = it->meanwhile;
    return make_beside(desk, (struct files){.count = 2, .board = board}, SPAN);
}

/* A truncation of one's own is counted, from its new size on. */
static void expect_counted(struct desk *desk, struct board *board)
{
    const struct expected own = {.call = {OP_TRUNC, {0, 1}, {0}}};

    lost_by(&own, desk, board);
    expect("a truncation is counted", board->begun[0][1] == 1 && board->ended[0][SPAN - 1] == 1);
    expect("but not below its new size", !board->begun[0][0] && !board->ended[0][0]);
}

int main(void)
{
    struct desk *desk = calloc(1, sizeof *desk);
    struct board *board = calloc(1, sizeof *board);

    fresh = mmap(NULL, PAGES * PAGE, PROT_READ | PROT_WRITE, MAP_PRIVATE | MAP_ANONYMOUS, -1, 0);
    if (!desk || !board || fresh == MAP_FAILED)
        return 2;
    madvise(fresh, PAGES * PAGE, MADV_NOHUGEPAGE);
    /* (the first call faults for what all of them need) */
    lost_by(&all[2], desk, board);
    for (size_t k = 0; k < sizeof all / sizeof *all; k++)
        expect(all[k].what, lost_by(&all[k], desk, board) == all[k].lost);
    expect_counted(desk, board);
    printf("race: %u passed, %u failed\n", passed, failed);
    return failed != 0;
}
