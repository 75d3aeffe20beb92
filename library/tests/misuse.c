/* Calls that name nothing, closed pools, the largest pool, rooms that are too small, and events of random numbers: each is answered, nothing
 * that should stay changes, and an audit finds nothing, or what was damaged. Prints what was tried.
 *
 *   misuse EVENTS SEED
 */
#include <hugepool.h>

#include <assert.h>
#include <malloc.h>
#include <stdio.h>
#include <stdlib.h>
#include <string.h>

static uint64_t seed;

static uint32_t random_number(void)
{
    seed ^= seed << 13;
    seed ^= seed >> 7;
    seed ^= seed << 17;
    return (uint32_t)(seed >> 16);
}

/* mostly a small number, at times any */
static uint32_t some(uint32_t most) { return random_number() % 16 == 0 ? random_number() : random_number() % (most + 1); }

static void closed_pools(void)
{
    hugepool_pool pool = HUGEPOOL_CLOSED, other = HUGEPOOL_CLOSED;
    hugepool_event_words event = { 0 };
    hugepool_outcome_words outcome;
    hugepool_pool_words numbers;
    hugepool_file_words file;
    hugepool_task_words task;
    hugepool_acquired_words acquired;
    hugepool_frame_words frame;
    uint32_t finding;
    size_t done = 9;
    bool is_held_back;
    assert(hugepool_event(&pool, &event, &outcome) == HUGEPOOL_IS_CLOSED);
    assert(hugepool_events(&pool, &event, 1, &outcome, 1, &done) == HUGEPOOL_IS_CLOSED && done == 0);
    assert(hugepool_held_back(&pool, &event, &is_held_back, &outcome) == HUGEPOOL_IS_CLOSED);
    assert(hugepool_pool_numbers(&pool, &numbers) == HUGEPOOL_IS_CLOSED);
    assert(hugepool_file_numbers(&pool, 0, &file) == HUGEPOOL_IS_CLOSED);
    assert(hugepool_task_numbers(&pool, 1, &task) == HUGEPOOL_IS_CLOSED);
    assert(hugepool_acquires(&pool, 1, &acquired) == HUGEPOOL_IS_CLOSED);
    assert(hugepool_translate(&pool, 1, 0, &frame) == HUGEPOOL_IS_CLOSED);
    assert(hugepool_audit(&pool, &finding) == HUGEPOOL_IS_CLOSED);
    assert(hugepool_copy(&pool, &other) == HUGEPOOL_IS_CLOSED && !other.is_open);
    hugepool_close(&pool);
    hugepool_close(&pool);
    other = HUGEPOOL_CLOSED;
    assert(!other.is_open && hugepool_version() == HUGEPOOL_VERSION_NUMBER);
}

static void no_such(void)
{
    static const hugepool_config_words bad[] = { { 0, 1, 1, 1, 0, false }, { 4097, 1, 1, 1, 0, false }, { 4, 0, 1, 1, 0, false },
        { 4, 17, 1, 1, 0, false }, { 4, 1, 0, 1, 0, false }, { 4, 1, 65, 1, 0, false }, { 4, 1, 1, 0, 0, false }, { 4, 1, 1, 65, 0, false },
        { 4, 1, 1, 1, 65537, true } };
    hugepool_pool pool = HUGEPOOL_CLOSED;
    hugepool_config_words config = { 4, 2, 2, 2, 65537, false };
    hugepool_file_words file;
    hugepool_task_words task;
    hugepool_outcome_words outcome;
    for (size_t at = 0; at < sizeof bad / sizeof *bad; at++)
        assert(hugepool_open(&pool, &bad[at]) == HUGEPOOL_NO_SUCH && !pool.is_open);
    /* (twice: the first pool's memory is given back) */
    assert(hugepool_open(&pool, &config) == HUGEPOOL_OK && hugepool_open(&pool, &config) == HUGEPOOL_OK);
    assert(hugepool_open(&pool, &bad[0]) == HUGEPOOL_NO_SUCH && pool.is_open);
    assert(hugepool_file_numbers(&pool, 2, &file) == HUGEPOOL_NO_SUCH && hugepool_file_numbers(&pool, 1, &file) == HUGEPOOL_OK);
    assert(hugepool_task_numbers(&pool, 0, &task) == HUGEPOOL_NO_SUCH && hugepool_task_numbers(&pool, 3, &task) == HUGEPOOL_NO_SUCH);
    assert(hugepool_task_numbers(&pool, 2, &task) == HUGEPOOL_OK && task.phase == HUGEPOOL_PHASE_NONE);
    hugepool_event_words none = { 0, 5, 1, 0, 0, 0, 0, 0 };
    assert(hugepool_event(&pool, &none, &outcome) == HUGEPOOL_NO_SUCH);
    none.kind = HUGEPOOL_BEGIN;
    none.op = 10;
    assert(hugepool_event(&pool, &none, &outcome) == HUGEPOOL_NO_SUCH);
    hugepool_close(&pool);
}

/* The largest pool is opened, and so is a copy of it. */
static void largest(void)
{
    hugepool_pool pool = HUGEPOOL_CLOSED, copy = HUGEPOOL_CLOSED;
    hugepool_config_words config = { 4096, 16, 64, 64, 65536, true };
    hugepool_pool_words numbers;
    assert(hugepool_open(&pool, &config) == HUGEPOOL_OK && hugepool_copy(&pool, &copy) == HUGEPOOL_OK);
    assert(hugepool_pool_numbers(&copy, &numbers) == HUGEPOOL_OK && numbers.free == 4096 && numbers.files == 16 && numbers.tasks == 64);
    hugepool_close(&pool);
    hugepool_close(&copy);
}

/* A slice stops where an event can't happen, and where its room ends. */
static void slices(void)
{
    hugepool_pool pool = HUGEPOOL_CLOSED;
    hugepool_config_words config = { 4, 1, 1, 1, 0, false };
    hugepool_event_words events[4] = { 0 };
    hugepool_outcome_words outcomes[4] = { 0 };
    size_t done = 9;
    events[0].task = events[1].task = events[2].task = 1;
    events[0].len = 1;
    events[1].kind = events[2].kind = HUGEPOOL_STEP;
    events[3].kind = 77;
    assert(hugepool_open(&pool, &config) == HUGEPOOL_OK);
    assert(hugepool_events(&pool, events, 4, outcomes, 2, &done) == HUGEPOOL_TOO_SMALL && done == 2 && outcomes[2].kind == 0);
    assert(outcomes[0].kind == HUGEPOOL_BEGUN && outcomes[1].kind == HUGEPOOL_MOVED);
    assert(hugepool_events(&pool, events + 2, 2, outcomes, 4, &done) == HUGEPOOL_NO_SUCH && done == 1);
    assert(hugepool_events(&pool, events, 0, outcomes, 0, &done) == HUGEPOOL_OK && done == 0);
    hugepool_close(&pool);
}

/* An audit finds that a pool's reserve count was damaged. Where in the pool's memory it stands is found by what the pool tells of it. */
static void damaged(void)
{
    hugepool_pool pool = HUGEPOOL_CLOSED;
    hugepool_config_words config = { 4096, 1, 1, 1, 0, false };
    hugepool_event_words events[8] = { 0 };
    hugepool_outcome_words outcomes[8];
    hugepool_pool_words numbers;
    size_t done, found = 0;
    uint32_t finding;
    for (size_t at = 0; at < 8; at++) {
        events[at].task = 1;
        events[at].kind = at == 0 ? HUGEPOOL_BEGIN : HUGEPOOL_STEP;
    }
    events[0].op = HUGEPOOL_MAP;
    events[0].from = 100;
    events[0].len = 1237;
    assert(hugepool_open(&pool, &config) == HUGEPOOL_OK && hugepool_events(&pool, events, 8, outcomes, 8, &done) == HUGEPOOL_OK);
    assert(hugepool_pool_numbers(&pool, &numbers) == HUGEPOOL_OK && numbers.resv == 1237 && numbers.calls == 0);
    uint32_t *cells = pool.core;
    for (size_t at = 0; at < malloc_usable_size(pool.core) / sizeof *cells; at++) {
        if (cells[at] != 1237)
            continue;
        cells[at] = 1236;
        if (hugepool_pool_numbers(&pool, &numbers) == HUGEPOOL_OK && numbers.resv == 1236) {
            found++;
            assert(hugepool_audit(&pool, &finding) == HUGEPOOL_OK && finding == HUGEPOOL_FOUND_COUNT);
        }
        cells[at] = 1237;
    }
    assert(found == 1 && hugepool_audit(&pool, &finding) == HUGEPOOL_OK && finding == HUGEPOOL_FOUND_NOTHING);
    hugepool_close(&pool);
}

/* A text wants just the room that it says; a byte less is too small, and then nothing is written. */
static void texts(void)
{
    static const char trace[] = "pool 4 1 2 2\nbegin 1 map 0 0 4\nstep 1\n";
    static const char bad[] = "pool 4 1 2 2\nstep 1\nstop 1\n";
    uint32_t (*const all[])(const uint8_t *, size_t, uint8_t *, size_t, size_t *, uint32_t *) = { hugepool_replay, hugepool_explain,
        hugepool_draw };
    uint8_t none = 0;
    size_t needed, again;
    uint32_t line, events;
    for (size_t at = 0; at < 3; at++) {
        assert(all[at]((const uint8_t *)trace, sizeof trace - 1, &none, 0, &needed, &line) == HUGEPOOL_TOO_SMALL && line == 0);
        uint8_t *out = calloc(needed, 1), *short_by_one = calloc(needed, 1);
        assert(all[at]((const uint8_t *)trace, sizeof trace - 1, short_by_one, needed - 1, &again, &line) == HUGEPOOL_TOO_SMALL);
        assert(again == needed && memcmp(out, short_by_one, needed) == 0);
        assert(all[at]((const uint8_t *)trace, sizeof trace - 1, out, needed, &again, &line) == HUGEPOOL_OK && again == needed);
        assert(out[needed - 1] == '\n');
        free(out);
        free(short_by_one);
        assert(all[at]((const uint8_t *)bad, sizeof bad - 1, &none, 0, &needed, &line) == HUGEPOOL_BAD_LINE && line == 3 && needed == 0);
        assert(all[at]((const uint8_t *)trace + 13, 10, &none, 0, &needed, &line) == HUGEPOOL_BAD_HEADER && line == 1);
    }
    assert(hugepool_check((const uint8_t *)trace, sizeof trace - 1, &events, &line) == HUGEPOOL_OK && events == 2);
    static const char wrong[] = "stop is not an event: did you mean step? \"stop 1\"";
    uint8_t why[80];
    assert(hugepool_reason((const uint8_t *)bad, sizeof bad - 1, 3, why, sizeof why, &needed) == HUGEPOOL_OK);
    assert(needed == sizeof wrong - 1 && memcmp(why, wrong, needed) == 0);
    assert(hugepool_reason((const uint8_t *)bad, sizeof bad - 1, 3, why, needed - 1, &again) == HUGEPOOL_TOO_SMALL && again == needed);
    assert(hugepool_reason((const uint8_t *)bad, sizeof bad - 1, 9, why, sizeof why, &needed) == HUGEPOOL_NO_SUCH);
}

/* Rows and objects of some lines are so many, and a text in the loose form is a trace; each wants just the room that it says. */
static void parts(void)
{
    static const char trace[] = "pool 4 1 2 2\nbegin 1 map 0 0 4\nstep 1\nstep 1\n";
    static const char loose[] = "# loose\npool 4 1 2 2\nbegin 1 map 0 0 4\n\nstep 1 *2";
    static const char wrong[] = "pool 4 1 2 2\n# no event\nstop 1\n";
    uint8_t out[4096], none = 0;
    size_t needed, again, bad, feeds = 0;
    uint32_t line;
    assert(hugepool_explain_json((const uint8_t *)trace, sizeof trace - 1, 3, 3, out, sizeof out, &needed, &line) == HUGEPOOL_OK && line == 0);
    for (size_t at = 0; at < needed; at++)
        feeds += out[at] == '\n';
    assert(feeds == 3 && memcmp(out, "{\"pool\":", 8) == 0); /* the pool's, that of line 3, and the state's */
    assert(hugepool_explain_json((const uint8_t *)trace, sizeof trace - 1, 3, 3, out, needed - 1, &again, &line) == HUGEPOOL_TOO_SMALL && again == needed);
    assert(hugepool_explain_rows((const uint8_t *)trace, sizeof trace - 1, 4, UINT32_MAX, out, sizeof out, &needed, &line) == HUGEPOOL_OK);
    assert(hugepool_explain_rows((const uint8_t *)wrong, sizeof wrong - 1, 2, 9, out, sizeof out, &needed, &line) == HUGEPOOL_BAD_LINE && line == 2);
    assert(hugepool_format((const uint8_t *)loose, sizeof loose - 1, &none, 0, &needed, &bad) == HUGEPOOL_TOO_SMALL && bad == 0);
    assert(hugepool_format((const uint8_t *)loose, sizeof loose - 1, out, needed, &again, &bad) == HUGEPOOL_OK && again == needed);
    assert(needed == sizeof trace - 1 && memcmp(out, trace, needed) == 0);
    assert(hugepool_format_reason((const uint8_t *)loose, sizeof loose - 1, out, sizeof out, &needed) == HUGEPOOL_NO_SUCH);
    assert(hugepool_format((const uint8_t *)wrong, sizeof wrong - 1, out, sizeof out, &needed, &bad) == HUGEPOOL_BAD_LINE && bad == 3 && needed == 0);
    assert(hugepool_format_reason((const uint8_t *)wrong, sizeof wrong - 1, &none, 0, &needed) == HUGEPOOL_TOO_SMALL);
    assert(hugepool_format_reason((const uint8_t *)wrong, sizeof wrong - 1, out, needed, &needed) == HUGEPOOL_OK);
    assert(needed == 15 && memcmp(out, "is not an event", needed) == 0);
}

/* What is no line is refused, and then nothing is read; a line that is read is written once more. */
static void lines(void)
{
    static const char *const bad[] = { "", "step", "step 1 ", " step 1", "step  1", "step +1", "step 01", "step 4294967296", "step 1\n",
        "begin 1 map 0 0", "begin 1 grow 0", "pool 4 1 2 2", "resize -1" };
    static const char *const good[] = { "begin 1 map 0 1 4", "begin 64 mapn 15 0 4294967295", "begin 1 unmap 0", "begin 2 load 7",
        "begin 4294967295 store 4294967295 18446744073709551615", "begin 1 alloc 0 0 1", "begin 1 allock 0 0 1", "begin 1 punch 0 2 3",
        "begin 1 trunc 0 0", "begin 3 exit", "step 1", "deny 0", "kill 12", "resize 4096" };
    hugepool_event_words event = { 7, 7, 7, 7, 7, 7, 7, 7 };
    hugepool_config_words config = { 7, 7, 7, 7, 7, true };
    char out[HUGEPOOL_LINE_ROOM] = { 0 };
    size_t needed;
    for (size_t at = 0; at < sizeof bad / sizeof *bad; at++)
        assert(hugepool_read_event(bad[at], strlen(bad[at]), &event) == HUGEPOOL_NO_SUCH && event.word == 7 && event.page == 7);
    for (size_t at = 0; at < sizeof good / sizeof *good; at++) {
        assert(hugepool_read_event(good[at], strlen(good[at]), &event) == HUGEPOOL_OK);
        assert(hugepool_write_event(&event, out, strlen(good[at]) - 1, &needed) == HUGEPOOL_TOO_SMALL && needed == strlen(good[at]));
        assert(hugepool_write_event(&event, out, sizeof out, &needed) == HUGEPOOL_OK && needed == strlen(good[at]));
        assert(memcmp(out, good[at], needed) == 0);
    }
    assert(hugepool_read_config("pool 0 1 1 1", 12, &config) == HUGEPOOL_NO_SUCH && config.frames == 7 && config.has_quota);
    assert(hugepool_read_config("pool 4 1 2 3", 12, &config) == HUGEPOOL_OK && config.frames == 4 && config.tasks == 3 && !config.has_quota);
    assert(hugepool_read_config("pool 4 1 2 3 0", 14, &config) == HUGEPOOL_OK && config.quota == 0 && config.has_quota);
    event.kind = 5;
    assert(hugepool_write_event(&event, out, sizeof out, &needed) == HUGEPOOL_NO_SUCH && needed == 0);
}

/* An outcome of these numbers, and of the largest word, is written so; NULL where they name none. */
static void is_written(uint32_t kind, uint32_t number, const char *line)
{
    hugepool_outcome_words outcome = { UINT64_MAX, kind, number, number, number, number, number, number };
    char out[HUGEPOOL_LINE_ROOM];
    size_t needed;
    uint32_t code = hugepool_write_outcome(&outcome, out, sizeof out, &needed);
    assert(code == (line != NULL ? HUGEPOOL_OK : HUGEPOOL_NO_SUCH) && needed == (line != NULL ? strlen(line) : 0));
    assert(line == NULL || memcmp(out, line, needed) == 0);
}

static void outcomes(void)
{
    is_written(HUGEPOOL_BEGUN, 99, "begun");
    is_written(HUGEPOOL_MOVED, 1, "moved start");
    is_written(HUGEPOOL_MOVED, 27, "moved drop");
    is_written(HUGEPOOL_MOVED, 0, NULL);
    is_written(HUGEPOOL_MOVED, 28, NULL);
    is_written(HUGEPOOL_BLOCKED, 4294967295, "blocked 4294967295");
    is_written(HUGEPOOL_ENDED, 1, "ended mapped 1");
    is_written(HUGEPOOL_ENDED, 2, "ended word 18446744073709551615");
    is_written(HUGEPOOL_ENDED, 14, "ended noaddress");
    is_written(HUGEPOOL_ENDED, 0, NULL);
    is_written(HUGEPOOL_ENDED, 15, NULL);
    is_written(HUGEPOOL_MARKED, 99, "marked");
    is_written(HUGEPOOL_RESIZED, 12, "resized 12");
    is_written(HUGEPOOL_REFUSED, 4, "refused badsize");
    is_written(HUGEPOOL_REFUSED, 5, NULL);
    is_written(7, 1, NULL);
}

/* A trace, conditions, and what hugepool_minimize makes of them, with the line. */
typedef struct {
    const char *trace, *conditions;
    uint32_t code, line;
} asked;

/* The first bad line of conditions is told, and that of the trace only where they have none. */
static void conditions(void)
{
    static const char load[] = "pool 1 1 1 2\nbegin 1 load 0\nstep 1\n", cut[] = "pool 1 1 1 2\nbegin 1 load 0\nstop 1\n";
    static const asked all[] = { { load, "final free=1\n", HUGEPOOL_OK, 0 }, { load, "final free=1", HUGEPOOL_OK, 0 },
        { load, "rest\nanywhere\nfinal free=1|resv=7\n", HUGEPOOL_OK, 0 }, { load, "answer +1:01=SIGSEGV", HUGEPOOL_OK, 0 },
        { load, "blocked *", HUGEPOOL_NONE_MEETS, 0 }, { load, "final free=1\nfinal fre=1\n", HUGEPOOL_BAD_CONDITION, 2 },
        { load, "final free=1\n\nrest\n", HUGEPOOL_BAD_CONDITION, 2 }, { load, "final", HUGEPOOL_BAD_CONDITION, 1 },
        { load, "final free=1|", HUGEPOOL_BAD_CONDITION, 1 }, { load, "final free=4294967296", HUGEPOOL_BAD_CONDITION, 1 },
        { load, "answer not not 1:1=segv", HUGEPOOL_BAD_CONDITION, 1 }, { load, "--rest", HUGEPOOL_BAD_CONDITION, 1 },
        { load, "", HUGEPOOL_BAD_CONDITION, 0 }, { load, "anywhere\n", HUGEPOOL_BAD_CONDITION, 0 },
        { cut, "rest", HUGEPOOL_BAD_LINE, 3 }, { cut, "rest \n", HUGEPOOL_BAD_CONDITION, 1 }, { "", "rest", HUGEPOOL_BAD_HEADER, 1 } };
    uint8_t out[64];
    for (size_t at = 0; at < sizeof all / sizeof *all; at++) {
        const asked *it = &all[at];
        size_t needed = 7;
        uint32_t line = 7;
        assert(hugepool_minimize((const uint8_t *)it->trace, strlen(it->trace), (const uint8_t *)it->conditions, strlen(it->conditions), out,
                   sizeof out, &needed, &line) == it->code);
        assert(line == it->line && (needed == 0) == (it->code != HUGEPOOL_OK));
    }
}

static hugepool_event_words random_event(void)
{
    hugepool_event_words event = { 0 };
    event.word = ((uint64_t)random_number() << 32) | random_number();
    event.kind = random_number() % 4 != 0 ? HUGEPOOL_STEP : some(4);
    event.task = some(4);
    event.op = some(9);
    event.file = some(2);
    event.from = some(12);
    event.len = some(9);
    event.page = some(20);
    return event;
}

/* Events of random numbers; what is held back says so before, and at times all is looked at. */
static void random_events(long count)
{
    hugepool_pool pool = HUGEPOOL_CLOSED;
    long happened = 0, refused = 0;
    for (long at = 0; at < count; at++) {
        if (at % 4096 == 0) {
            hugepool_config_words config = { some(9), some(3), some(4), some(5), some(20), random_number() % 2 == 0 };
            if (hugepool_open(&pool, &config) != HUGEPOOL_OK)
                assert(at > 0 || !pool.is_open);
        }
        hugepool_event_words event = random_event();
        hugepool_outcome_words outcome = { 0 }, seen = { 0 };
        bool is_held_back = false;
        uint32_t looked = hugepool_held_back(&pool, &event, &is_held_back, &seen);
        uint32_t code = hugepool_event(&pool, &event, &outcome);
        assert(code == looked);
        if (code != HUGEPOOL_OK) {
            refused++;
            continue;
        }
        happened++;
        assert(is_held_back == (outcome.kind == HUGEPOOL_BLOCKED || outcome.kind == HUGEPOOL_REFUSED));
        assert(!is_held_back || memcmp(&seen, &outcome, sizeof seen) == 0);
        uint32_t finding = 9;
        if (at % 512 == 0)
            assert(hugepool_audit(&pool, &finding) == HUGEPOOL_OK && finding == HUGEPOOL_FOUND_NOTHING);
    }
    hugepool_close(&pool);
    printf("%ld events, %ld that named nothing or met a closed pool\n", happened, refused);
}

int main(int count, char **words)
{
    assert(count == 3);
    seed = strtoull(words[2], NULL, 10) * 2654435761u + 1;
    closed_pools();
    no_such();
    largest();
    slices();
    damaged();
    texts();
    parts();
    lines();
    outcomes();
    conditions();
    random_events(strtol(words[1], NULL, 10));
    return 0;
}
