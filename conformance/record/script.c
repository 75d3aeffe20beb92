#include "script.h"

#include <errno.h>
#include <stdarg.h>
#include <stdbool.h>
#include <stdio.h>
#include <stdlib.h>
#include <string.h>

#include "fail.h"
#include "task.h"

/* What a number of an operation stands for, which says how large it may be. */
enum field {
    FIELD_NONE,
    /* a file, which the pool may lack */
    FIELD_FILE,
    /* a file of the pool: who calls in bytes checks nothing */
    FIELD_OWN_FILE,
    FIELD_PAGES,
    /* a virtual page, mapped or not */
    FIELD_PAGE,
    FIELD_WORD,
    /* an offset or a length, as the kernel's off_t has it */
    FIELD_BYTES,
    /* a byte's address within the virtual pages, or a length there */
    FIELD_ADDRESS,
    FIELD_MODE,
};

static const uint64_t most_of[] = {
    [FIELD_FILE] = UINT32_MAX, [FIELD_OWN_FILE] = MOST_FILES - 1,          [FIELD_PAGES] = UINT32_MAX,
    [FIELD_PAGE] = WINDOW - 1, [FIELD_WORD] = UINT64_MAX,                  [FIELD_BYTES] = INT64_MAX,
    [FIELD_MODE] = INT32_MAX,  [FIELD_ADDRESS] = WINDOW * HUGE_PAGE - 1,
};

static const struct form {
    const char *word;
    enum field fields[MOST_NUMBERS];
} forms[] = {
    [OP_MAP] = {"map", {FIELD_FILE, FIELD_PAGES, FIELD_PAGES}},
    [OP_MAPN] = {"mapn", {FIELD_FILE, FIELD_PAGES, FIELD_PAGES}},
    [OP_UNMAP] = {"unmap", {FIELD_PAGE}},
    [OP_LOAD] = {"load", {FIELD_PAGE}},
    [OP_STORE] = {"store", {FIELD_PAGE, FIELD_WORD}},
    [OP_ALLOC] = {"alloc", {FIELD_FILE, FIELD_PAGES, FIELD_PAGES}},
    [OP_ALLOCK] = {"allock", {FIELD_FILE, FIELD_PAGES, FIELD_PAGES}},
    [OP_PUNCH] = {"punch", {FIELD_FILE, FIELD_PAGES, FIELD_PAGES}},
    [OP_TRUNC] = {"trunc", {FIELD_FILE, FIELD_PAGES}},
    [OP_EXIT] = {"exit", {FIELD_NONE}},
    [OP_X_MAP] = {"xmap", {FIELD_OWN_FILE, FIELD_BYTES, FIELD_BYTES}},
    [OP_X_PRIVATE] = {"xprivate", {FIELD_OWN_FILE, FIELD_BYTES, FIELD_BYTES}},
    [OP_X_PRIVATEN] = {"xprivaten", {FIELD_OWN_FILE, FIELD_BYTES, FIELD_BYTES}},
    [OP_X_DONTNEED] = {"xdontneed", {FIELD_PAGE, FIELD_ADDRESS}},
    [OP_X_FORK] = {"xfork", {FIELD_PAGE, FIELD_WORD}},
    [OP_X_UNMAP] = {"xunmap", {FIELD_PAGE, FIELD_ADDRESS}},
    [OP_X_LOAD] = {"xload", {FIELD_ADDRESS}},
    [OP_X_FALLOCATE] = {"xfallocate", {FIELD_OWN_FILE, FIELD_MODE, FIELD_BYTES, FIELD_BYTES}},
    [OP_X_FTRUNCATE] = {"xftruncate", {FIELD_OWN_FILE, FIELD_BYTES}},
};

enum { FORMS = sizeof forms / sizeof *forms, MOST_WORDS = 10 };

/* A file that is read: where, and the script that isn't ended yet. */
struct reader {
    const char *path;
    size_t line;
    struct scripts *into;
    struct script *open;
    /* the tasks of the open script that were started, and not waited for yet; they are counted from 1 */
    bool is_at_work[MOST_TASKS + 1];
};

/* A line's words. */
struct words {
    char *all[MOST_WORDS];
    size_t count;
};

const char *word_of(enum operation operation)
{
    return forms[operation].word;
}

/* Ends the process: the line that was read last is none that a script may have there. */
static _Noreturn void bad(const struct reader *reader, const char *format, ...) __attribute__((format(printf, 2, 3)));

static _Noreturn void bad(const struct reader *reader, const char *format, ...)
{
    char why[256];
    va_list words;

    va_start(words, format);
    vsnprintf(why, sizeof why, format, words);
    va_end(words);
    fail(STATUS_USAGE, "%s:%zu: %s", reader->path, reader->line, why);
}

static void *grown(void *list, size_t count, size_t size)
{
    void *more = realloc(list, (count + 1) * size);

    if (!more)
        fail_errno("no memory for the scripts");
    return more;
}

static char *copy(const char *text)
{
    char *made = strdup(text);

    if (!made)
        fail_errno("no memory for the scripts");
    return made;
}

/* A number without leading zeros, of at most so much. */
static uint64_t number(const struct reader *reader, const char *word, uint64_t most)
{
    char *end;
    unsigned long long read;

    errno = 0;
    read = strtoull(word, &end, 10);
    if (*word < '0' || *word > '9' || *end || (*word == '0' && word[1]))
        bad(reader, "'%s' is not a number", word);
    if (errno || read > most)
        bad(reader, "%s is too large: at most %llu may stand there", word, (unsigned long long)most);
    return read;
}

static uint64_t number_from(const struct reader *reader, const char *word, uint64_t least, uint64_t most)
{
    uint64_t read = number(reader, word, most);

    if (read < least)
        bad(reader, "%s is too small: at least %llu has to stand there", word, (unsigned long long)least);
    return read;
}

/* Cuts a line into its words, which are parted by one space each. */
static struct words split(const struct reader *reader, char *line)
{
    struct words words = {.count = 0};

    while (line) {
        if (words.count == MOST_WORDS)
            bad(reader, "there are too many words");
        words.all[words.count++] = strsep(&line, " ");
        if (!*words.all[words.count - 1])
            bad(reader, "words are parted by one space, and none stands before or behind them");
    }
    return words;
}

static enum operation operation_of(const struct reader *reader, const char *word)
{
    for (size_t k = 0; k < FORMS; k++)
        if (forms[k].word && !strcmp(forms[k].word, word))
            return k;
    bad(reader, "'%s' is no call", word);
}

static size_t numbers_of(const struct form *form)
{
    size_t count = 0;

    while (count < MOST_NUMBERS && form->fields[count] != FIELD_NONE)
        count++;
    return count;
}

/* The call whose word is the first of these. */
static struct call call_of(const struct reader *reader, char *const *words, size_t count)
{
    struct call call = {.operation = operation_of(reader, words[0])};
    const struct form *form = &forms[call.operation];

    if (count - 1 != numbers_of(form))
        bad(reader, "'%s' has %zu numbers, and here %zu", form->word, numbers_of(form), count - 1);
    for (size_t k = 0; k + 1 < count; k++)
        call.numbers[k] = number(reader, words[k + 1], most_of[form->fields[k]]);
    if (form->fields[0] == FIELD_OWN_FILE && call.numbers[0] >= reader->open->files)
        bad(reader, "the pool has no file %s", words[1]);
    return call;
}

/* Of a call that is begun, and runs to its end, or of one that is started. */
static void read_call_of_task(const struct reader *reader, const struct words *words, struct line *line)
{
    if (words->count < 3)
        bad(reader, "a call is '%s TASK CALL ..'", words->all[0]);
    line->task = number_from(reader, words->all[1], 1, reader->open->tasks);
    if (reader->is_at_work[line->task])
        bad(reader, "task %u is at work: 'wait %u' has to come first", line->task, line->task);
    line->call = call_of(reader, words->all + 2, words->count - 2);
}

static void read_begin(const struct reader *reader, const struct words *words, struct line *line)
{
    line->kind = LINE_BEGIN;
    read_call_of_task(reader, words, line);
}

static void read_start(struct reader *reader, const struct words *words, struct line *line)
{
    line->kind = LINE_START;
    read_call_of_task(reader, words, line);
    if (line->call.operation == OP_EXIT)
        bad(reader, "an exit can be begun, and not started");
    reader->is_at_work[line->task] = true;
}

/* The words without the second. */
static struct words without_second(const struct words *words)
{
    struct words rest = {.all = {words->all[0]}, .count = words->count - 1};

    memcpy(rest.all + 1, words->all + 2, (words->count - 2) * sizeof *rest.all);
    return rest;
}

static struct denial denial_of(const struct reader *reader, char *word)
{
    char *last = word, *first = strsep(&last, "-");
    unsigned from;

    if (!strcmp(first, "charged") && !last)
        return (struct denial){1, 1, .is_charged = true};
    from = number_from(reader, first, 1, MOST_DENIED);
    return (struct denial){.first = from, .last = last ? number_from(reader, last, from, MOST_DENIED) : from};
}

static void read_hold(struct reader *reader, const struct words *words, struct line *line)
{
    bool is_denied = words->count > 4 && !strcmp(words->all[2], "deny");
    struct words rest;

    if (words->count < 4)
        bad(reader, "a call that is held is 'hold FUNCTION [deny FIRST-LAST|charged] TASK CALL ..'");
    rest = without_second(words);
    if (is_denied) {
        rest = without_second(&rest);
        rest = without_second(&rest);
    }
    read_start(reader, &rest, line);
    line->kind = LINE_HOLD;
    line->functions = copy(words->all[1]);
    if (is_denied)
        line->call.denial = denial_of(reader, words->all[3]);
}

static void read_deny(const struct reader *reader, const struct words *words, struct line *line)
{
    struct words rest;

    if (words->count < 4)
        bad(reader, "a call that is denied memory is 'deny FIRST[-LAST]|charged TASK CALL ..'");
    rest = without_second(words);
    read_begin(reader, &rest, line);
    line->kind = LINE_DENY;
    line->call.denial = denial_of(reader, words->all[1]);
}

static void read_wait(struct reader *reader, const struct words *words, struct line *line)
{
    line->is_blocked = words->count == 3 && !strcmp(words->all[2], "blocked");
    if (words->count != 2 && !line->is_blocked)
        bad(reader, "a wait is 'wait TASK' or 'wait TASK blocked'");
    line->kind = LINE_WAIT;
    line->task = number_from(reader, words->all[1], 1, reader->open->tasks);
    if (!reader->is_at_work[line->task])
        bad(reader, "task %u isn't at work: 'start %u CALL ..' has to come first", line->task, line->task);
    reader->is_at_work[line->task] = false;
}

/* Nobody may be at work at a race, or at the end of a script. */
static void need_rest(const struct reader *reader)
{
    for (unsigned task = 1; task <= MOST_TASKS; task++)
        if (reader->is_at_work[task])
            bad(reader, "task %u is at work still: 'wait %u' has to come first", task, task);
}

static void read_resize(const struct reader *reader, const struct words *words, struct line *line)
{
    if (words->count != 2)
        bad(reader, "a resize is 'resize FRAMES'");
    line->kind = LINE_RESIZE;
    line->frames = number(reader, words->all[1], MOST_FRAMES);
}

static void read_overcommit(const struct reader *reader, const struct words *words, struct line *line)
{
    if (words->count != 2)
        bad(reader, "an overcommit is 'overcommit FRAMES'");
    line->kind = LINE_OVERCOMMIT;
    line->frames = number(reader, words->all[1], MOST_FRAMES);
}

/* The operations of a race's letters, a bit for each. */
static uint64_t kinds_of(const struct reader *reader, const char *letters)
{
    uint64_t kinds = 0;

    for (; *letters; letters++) {
        const char *known = strchr(RACE_LETTERS, *letters);
        if (!known)
            bad(reader, "'%c' is no kind of call: those are the letters '%s'", *letters, RACE_LETTERS);
        kinds |= 1u << (known - RACE_LETTERS);
    }
    return kinds;
}

static void read_race(const struct reader *reader, const struct words *words, struct line *line)
{
    const char *letters = words->count == 5 ? words->all[4] : RACE_LETTERS;

    if (words->count != 4 && words->count != 5)
        bad(reader, "a race is 'race SEED CALLS SPAN [KINDS]'");
    need_rest(reader);
    line->kind = LINE_RACE;
    line->call.operation = OP_RACE;
    line->call.numbers[RACE_SEED] = number(reader, words->all[1], UINT32_MAX);
    line->call.numbers[RACE_CALLS] = number_from(reader, words->all[2], 1, UINT32_MAX);
    line->call.numbers[RACE_SPAN] = number_from(reader, words->all[3], 1, FILE_LIMIT);
    line->call.numbers[RACE_KINDS] = kinds_of(reader, letters);
}

static void read_script(struct reader *reader, const struct words *words)
{
    struct scripts *into = reader->into;

    if (reader->open)
        bad(reader, "script %s has no 'end'", reader->open->name);
    if (words->count != 2)
        bad(reader, "a script begins with 'script NAME'");
    into->all = grown(into->all, into->count, sizeof *into->all);
    reader->open = &into->all[into->count++];
    *reader->open = (struct script){.name = copy(words->all[1]), .quota = -1};
}

static void read_pool(const struct reader *reader, const struct words *words, const char *text)
{
    struct script *script = reader->open;

    if (script->header)
        bad(reader, "script %s has its pool already", script->name);
    if (words->count != 5 && words->count != 6)
        bad(reader, "a pool is 'pool FRAMES FILES SLOTS TASKS [QUOTA]'");
    script->frames = number_from(reader, words->all[1], 1, MOST_FRAMES);
    script->files = number_from(reader, words->all[2], 1, MOST_FILES);
    number_from(reader, words->all[3], 1, MOST_SLOTS);
    script->tasks = number_from(reader, words->all[4], 1, MOST_TASKS);
    if (words->count == 6)
        script->quota = number(reader, words->all[5], MOST_QUOTA);
    script->header = copy(text);
}

static void read_end(struct reader *reader, const struct words *words)
{
    /* (what may stand behind it is what a kernel told) */
    if (words->count > 1 && strcmp(words->all[1], "total"))
        bad(reader, "a script ends with 'end'");
    if (!reader->open->header)
        bad(reader, "script %s has no pool", reader->open->name);
    need_rest(reader);
    reader->open = NULL;
}

static void read_call(struct reader *reader, const struct words *words, const char *text)
{
    struct script *script = reader->open;
    struct line line = {.kind = LINE_BEGIN};

    if (!script->header)
        bad(reader, "script %s has no pool yet", script->name);
    if (!strcmp(words->all[0], "begin"))
        read_begin(reader, words, &line);
    else if (!strcmp(words->all[0], "start"))
        read_start(reader, words, &line);
    else if (!strcmp(words->all[0], "hold"))
        read_hold(reader, words, &line);
    else if (!strcmp(words->all[0], "deny"))
        read_deny(reader, words, &line);
    else if (!strcmp(words->all[0], "wait"))
        read_wait(reader, words, &line);
    else if (!strcmp(words->all[0], "resize"))
        read_resize(reader, words, &line);
    else if (!strcmp(words->all[0], "overcommit"))
        read_overcommit(reader, words, &line);
    else if (!strcmp(words->all[0], "race"))
        read_race(reader, words, &line);
    else
        bad(reader, "no line of a script begins with '%s'", words->all[0]);
    line.text = copy(text);
    script->lines = grown(script->lines, script->count, sizeof *script->lines);
    script->lines[script->count++] = line;
}

/* Cuts off the answer that a call of a recorded script has. */
static void cut_answer(char *text)
{
    char *answer = strstr(text, " = ");

    if (answer && strncmp(text, "script ", 7) && strncmp(text, "pool ", 5))
        *answer = 0;
}

static void read_line(struct reader *reader, char *text)
{
    char *cut;
    struct words words;

    cut_answer(text);
    cut = copy(text);
    words = split(reader, cut);
    if (!strcmp(words.all[0], "script"))
        read_script(reader, &words);
    else if (!reader->open)
        bad(reader, "a script begins with 'script NAME'");
    else if (!strcmp(words.all[0], "pool"))
        read_pool(reader, &words, text);
    else if (!strcmp(words.all[0], "end"))
        read_end(reader, &words);
    else
        read_call(reader, &words, text);
    free(cut);
}

/* A line is told again as it is, so nothing stands there that no word has. */
static void check_bytes(const struct reader *reader, const char *text, size_t length)
{
    for (size_t k = 0; k < length; k++)
        if (text[k] < ' ' || text[k] > '~')
            bad(reader, "a byte %d stands there", (unsigned char)text[k]);
}

void read_scripts(const char *path, struct scripts *into)
{
    struct reader reader = {.path = path, .into = into};
    FILE *file = fopen(path, "r");
    char *text = NULL;
    size_t room = 0;
    ssize_t length;

    if (!file)
        fail_errno("%s", path);
    while ((length = getline(&text, &room, file)) > 0) {
        reader.line++;
        length -= text[length - 1] == '\n';
        text[length] = 0;
        if (*text == '#')
            continue;
        check_bytes(&reader, text, length);
        read_line(&reader, text);
    }
    if (ferror(file))
        fail_errno("%s", path);
    if (reader.open)
        bad(&reader, "script %s has no 'end'", reader.open->name);
    free(text);
    fclose(file);
}
