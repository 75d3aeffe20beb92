/* Races: a task makes many calls by chance, while the others do the same. */
#include <inttypes.h>
#include <stdio.h>
#include <string.h>
#include <sys/resource.h>

#include "fail.h"
#include "task.h"

enum {
    /* the mappings that a task has at most in a race */
    RACE_MAPPINGS = 12,
    RACE_OPERATIONS = sizeof RACE_LETTERS - 1,
};

/* How often each operation is drawn, beside the others. */
static const unsigned weights[RACE_OPERATIONS] = {
    [OP_MAP] = 10,  [OP_MAPN] = 6,   [OP_UNMAP] = 8,  [OP_LOAD] = 16,  [OP_STORE] = 26,
    [OP_ALLOC] = 8, [OP_ALLOCK] = 4, [OP_PUNCH] = 14, [OP_TRUNC] = 8,
};

/* The answers that calls of a race may have. */
static const char *const known_answers[] = {"mapped", "word", "done", "segv", "beyond", "noframe", "notmapped"};

enum { ANSWERS = sizeof known_answers / sizeof *known_answers };

/* The next number of a generator (SplitMix64), below a limit. */
static uint64_t draw(uint64_t *seed, uint64_t below)
{
    uint64_t mixed = *seed += UINT64_C(0x9e3779b97f4a7c15);

    mixed = (mixed ^ (mixed >> 30)) * UINT64_C(0xbf58476d1ce4e5b9);
    mixed = (mixed ^ (mixed >> 27)) * UINT64_C(0x94d049bb133111eb);
    return (mixed ^ (mixed >> 31)) % below;
}

/* Whether a task can make the call now: it has a mapping to touch, or may have one more. */
static bool is_possible(const struct desk *desk, enum operation operation)
{
    switch (operation) {
    case OP_MAP:
    case OP_MAPN:
        return desk->mappings < RACE_MAPPINGS;
    case OP_UNMAP:
    case OP_LOAD:
    case OP_STORE:
        return desk->mappings > 0;
    default:
        return true;
    }
}

static unsigned weight_of(const struct desk *desk, uint64_t kinds, enum operation operation)
{
    return kinds >> operation & 1 && is_possible(desk, operation) ? weights[operation] : 0;
}

static unsigned weight_of_all(const struct desk *desk, uint64_t kinds)
{
    unsigned all = 0;

    for (unsigned k = 0; k < RACE_OPERATIONS; k++)
        all += weight_of(desk, kinds, k);
    return all;
}

/* Draws one of the operations that are possible, of which there is one. */
static enum operation draw_operation(const struct desk *desk, uint64_t kinds, uint64_t *seed)
{
    uint64_t drawn = draw(seed, weight_of_all(desk, kinds));
    unsigned operation = 0;

    for (; drawn >= weight_of(desk, kinds, operation); operation++)
        drawn -= weight_of(desk, kinds, operation);
    return operation;
}

/* Draws the numbers of an operation on the first pages of the files. */
static struct call draw_call(const struct desk *desk, enum operation operation, unsigned files, uint64_t span, uint64_t *seed)
{
    uint64_t file = draw(seed, files), pages = 1 + draw(seed, span), from = draw(seed, span - pages + 1), word = draw(seed, 1000);
    const struct mapping *mapping = &desk->mapping[desk->mappings ? draw(seed, desk->mappings) : 0];

    switch (operation) {
    case OP_UNMAP:
        return (struct call){operation, {mapping->base}, {0}};
    case OP_LOAD:
    case OP_STORE:
        return (struct call){operation, {mapping->base + draw(seed, mapping->pages), word}, {0}};
    case OP_TRUNC:
        return (struct call){operation, {file, from}, {0}};
    default:
        return (struct call){operation, {file, from, pages}, {0}};
    }
}

/* Counts an answer, if it is one that a race may have. */
static bool count_answer(const char *answer, uint64_t *counts)
{
    size_t length = strcspn(answer, " ");

    for (unsigned k = 0; k < ANSWERS; k++)
        if (strlen(known_answers[k]) == length && !strncmp(answer, known_answers[k], length)) {
            counts[k]++;
            return true;
        }
    return false;
}

static void tell_counts(struct desk *desk, const uint64_t *counts, uint64_t beside)
{
    char *to = desk->answer, *end = desk->answer + sizeof desk->answer;

    to += snprintf(to, end - to, "raced beside %" PRIu64, beside);
    for (unsigned k = 0; k < ANSWERS && to < end; k++)
        to += snprintf(to, end - to, " %s %" PRIu64, known_answers[k], counts[k]);
}

/* Where a touch goes: which page of which file. */
struct place {
    unsigned file;
    uint64_t index;
};

static uint64_t least(uint64_t one, uint64_t other)
{
    return one < other ? one : other;
}

/* The place that the call on the desk touches, a page behind the race's span as the span's last: each truncation of a race takes off
 * both. False where the call is no touch, or of nothing that is mapped. */
static bool is_touch(const struct desk *desk, uint64_t span, struct place *place)
{
    uint64_t page = desk->call.numbers[0];
    const struct mapping *mapping;

    if (desk->call.operation != OP_LOAD && desk->call.operation != OP_STORE)
        return false;
    mapping = mapping_of(desk, page);
    if (mapping)
        *place = (struct place){mapping->file, least(mapping->first + (page - mapping->base), span - 1)};
    return mapping != NULL;
}

/* The page faults of this task that were served so far. */
static uint64_t served_faults(void)
{
    struct rusage told;

    if (getrusage(RUSAGE_THREAD, &told))
        fail_errno("counting page faults");
    return told.ru_minflt + told.ru_majflt;
}

/* Makes a touch, and returns how many reservations Linux may lose by it. A truncation takes an index out of the reserve map once. That
 * loses one at two moments of a fault that places the page of this index: between its region_chg and its region_add, and after that. */
static uint64_t touch_beside(struct desk *desk, struct files files, struct place place)
{
    uint64_t faults = served_faults(), ended = files.board->ended[place.file][place.index], begun;

    make_call(desk, files);
    begun = files.board->begun[place.file][place.index];
    faults = served_faults() - faults;
    return least(begun - ended, 2 * faults);
}

/* Counts a truncation for each page of a race that it takes off its file. */
static void count_truncation(_Atomic uint64_t *pages, const struct desk *desk, uint64_t span)
{
    for (uint64_t index = desk->call.numbers[1]; index < span; index++)
        pages[index]++;
}

static void truncate_beside(struct desk *desk, struct files files, uint64_t span)
{
    uint64_t file = desk->call.numbers[0];

    count_truncation(files.board->begun[file], desk, span);
    make_call(desk, files);
    count_truncation(files.board->ended[file], desk, span);
}

/* Makes the call on the desk, and returns how many reservations Linux may lose by it. It loses some by touches alone: an allocation, a
 * punch and a map hold the inode's lock, as a truncation does, so none runs beside one. */
static uint64_t make_beside(struct desk *desk, struct files files, uint64_t span)
{
    struct place place;

    if (is_touch(desk, span, &place))
        return touch_beside(desk, files, place);
    if (desk->call.operation == OP_TRUNC)
        truncate_beside(desk, files, span);
    else
        make_call(desk, files);
    return 0;
}

/* Makes one call of a race, and counts its answer. Where there is none to make, or the answer is odd, it tells so instead. */
static bool race_once(struct desk *desk, struct files files, const struct call *asked, uint64_t *seed, uint64_t *counts, uint64_t *beside)
{
    enum operation operation;
    char odd[64];

    if (!weight_of_all(desk, asked->numbers[RACE_KINDS])) {
        snprintf(desk->answer, sizeof desk->answer, "there is nothing left that it may do");
        return false;
    }
    operation = draw_operation(desk, asked->numbers[RACE_KINDS], seed);
    desk->call = draw_call(desk, operation, files.count, asked->numbers[RACE_SPAN], seed);
    *beside += make_beside(desk, files, asked->numbers[RACE_SPAN]);
    if (count_answer(desk->answer, counts))
        return true;
    snprintf(odd, sizeof odd, "%.60s", desk->answer);
    snprintf(desk->answer, sizeof desk->answer, "its %s was answered '%s'", word_of(operation), odd);
    return false;
}

void race(struct desk *desk, struct files files)
{
    const struct call asked = desk->call;
    uint64_t seed = asked.numbers[RACE_SEED], counts[ANSWERS] = {0}, beside = 0;

    for (uint64_t k = 0; k < asked.numbers[RACE_CALLS]; k++)
        if (!race_once(desk, files, &asked, &seed, counts, &beside))
            return;
    tell_counts(desk, counts, beside);
}
