/**
 * @file hugepool.h
 * A pool of huge pages as Linux's hugetlbfs keeps it, a proved state machine.
 *
 * A pool is a hugepool_pool, which you keep and never look into: begin with HUGEPOOL_CLOSED, and end with hugepool_close. Its bytes may be
 * moved, but not used in two places: hugepool_copy makes a second pool.
 *
 * Threads: give a pool to one call at a time, readers included. It may go from one thread to another between two calls, where these are
 * ordered (by a lock, say): a call uses what the handle points to, the heap, and nothing that belongs to a thread. Different pools may be
 * used at the same time. (This is argued, not proved; malloc and free have to be such, too.)
 *
 * Codes: each call returns HUGEPOOL_OK or another code. If it returns another code, the pool and your buffers are unchanged, but for
 * *needed, *line, *run, *turns and *done, and for the events that hugepool_events made before it stopped. Numbers that name nothing are
 * rejected.
 *
 * const: a call leaves a pool that it takes as const unchanged. While it runs it uses the handle's bytes, so don't define the object that
 * you keep as const.
 *
 * You have to see to what C's types can't express: pointers aren't null, and point to what they are declared to, or to as many as the count
 * beside them says (also if that is 0); two of them don't overlap; a bool is 0 or 1.
 *
 * What each call promises is proved, with these exceptions (docs/LIBRARY.md says of what it is proved, and what is trusted):
 * - what hugepool_reason and hugepool_format_reason write, and for which lines hugepool_reason knows a reason;
 * - that there is no memory if a call other than hugepool_event and hugepool_events says so;
 * - that memory is given back: by hugepool_close, by a call that opens or copies into a pool that was open, and by any call that fails.
 *   That is tested, with sanitizers.
 * The names below "---- names" are text of this header, no calls of the library.
 *
 * The ABI: the soname libhugepool.so.1 stands for it. While it stays, no call, number or field that is here changes or goes; a new
 * version may add calls, constants, and codes of calls that are new. A struct never grows: a call that tells more has another name.
 */
#ifndef HUGEPOOL_H
#define HUGEPOOL_H

#include <stdbool.h>
#include <stddef.h>
#include <stdint.h>

#ifdef __cplusplus
extern "C" {
#endif

/** The version of this header; hugepool_version() tells that of the library. */
#define HUGEPOOL_VERSION_MAJOR 0
#define HUGEPOOL_VERSION_MINOR 1 /**< its second number */
#define HUGEPOOL_VERSION_PATCH 0 /**< its third */
#define HUGEPOOL_VERSION "0.1.0" /**< all of it as text */
/** All of it as a number. */
#define HUGEPOOL_VERSION_NUMBER (HUGEPOOL_VERSION_MAJOR * 1000000 + HUGEPOOL_VERSION_MINOR * 1000 + HUGEPOOL_VERSION_PATCH)

/** What a call answers. */
enum hugepool_code {
    HUGEPOOL_OK = 0,         /**< it was done, and told */
    HUGEPOOL_IS_CLOSED = 1,  /**< the pool is closed */
    HUGEPOOL_NO_MEMORY = 2,  /**< there was no memory */
    HUGEPOOL_NO_SUCH = 3,    /**< no config, event, file, task or line has these numbers */
    HUGEPOOL_IN_FLIGHT = 4,  /**< a call of a task is in flight */
    HUGEPOOL_BAD_LINE = 5,   /**< line *line isn't allowed in the trace */
    HUGEPOOL_BAD_HEADER = 6, /**< the first line is no header */
    HUGEPOOL_TOO_SMALL = 7,  /**< there is more to tell than there is room for */
    HUGEPOOL_BAD_CONDITION = 8, /**< line *line of the conditions says none; if *line is 0, no line does */
    HUGEPOOL_NONE_MEETS = 9,    /**< the trace, or all that was searched, misses a condition */
    HUGEPOOL_LIMIT_REACHED = 10 /**< the limits were reached first */
};

/** An open pool, or a closed one. All of zeroes it is closed. */
typedef struct hugepool_pool {
    void *core;         /**< not to be looked at, as the others */
    bool is_open;       /**< whether there is a pool */
    bool was_held_back; /**< whether its last event changed nothing */
} hugepool_pool;

/** A closed pool: a value, to begin with or to assign. (At file scope strict ISO C wants { 0 }, which is the same.) */
#ifdef __cplusplus
#define HUGEPOOL_CLOSED (hugepool_pool { nullptr, false, false })
#else
#define HUGEPOOL_CLOSED ((hugepool_pool) { NULL, false, false })
#endif

/** How large a pool is. Indices of a file and pages of a task are numbered from 0; lengths are in huge pages. */
typedef struct hugepool_config_words {
    uint32_t frames; /**< 1 to 4096 */
    uint32_t files;  /**< 1 to 16, which are numbered from 0 */
    uint32_t slots;  /**< slots of the fault mutex table: 1 to 64 */
    uint32_t tasks;  /**< 1 to 64, which are numbered from 1 */
    uint32_t quota;  /**< where has_quota: how many pages all files may have, at most 65536 */
    bool has_quota;  /**< whether that is limited */
} hugepool_config_words;

/** What happens to a pool in one hold of its lock. */
enum hugepool_event_kind {
    HUGEPOOL_BEGIN = 0, /**< task begins the call op */
    HUGEPOOL_STEP = 1,  /**< its call makes one step, and gets what memory it wants */
    HUGEPOOL_DENY = 2,  /**< the same, but what memory the step wants is refused */
    HUGEPOOL_KILL = 3,  /**< task is killed */
    HUGEPOOL_RESIZE = 4 /**< the pool is to have len frames */
};

/** What a task calls, and what it names of an event. */
enum hugepool_op {
    HUGEPOOL_MAP = 0,            /**< mmap: file, from, len */
    HUGEPOOL_MAP_NO_RESERVE = 1, /**< mmap with MAP_NORESERVE: file, from, len */
    HUGEPOOL_UNMAP = 2,          /**< munmap of the mapping that begins at page */
    HUGEPOOL_LOAD = 3,           /**< a read of page */
    HUGEPOOL_STORE = 4,          /**< a write of word to page */
    HUGEPOOL_ALLOC = 5,          /**< fallocate: file, from, len */
    HUGEPOOL_ALLOC_KEEP = 6,     /**< fallocate with FALLOC_FL_KEEP_SIZE: file, from, len */
    HUGEPOOL_PUNCH = 7,          /**< fallocate with FALLOC_FL_PUNCH_HOLE: file, from, len */
    HUGEPOOL_TRUNCATE = 8,       /**< ftruncate of file to len pages */
    HUGEPOOL_EXIT = 9            /**< the end of the task */
};

/** An event. What its kind and its call don't name isn't looked at. */
typedef struct hugepool_event_words {
    uint64_t word; /**< what a store writes */
    uint32_t kind; /**< an enum hugepool_event_kind */
    uint32_t task; /**< whose event it is */
    uint32_t op;   /**< an enum hugepool_op */
    uint32_t file; /**< a file's number */
    uint32_t from; /**< an index of the file */
    uint32_t len;  /**< pages from there on; the new size, or the pool's new number of frames */
    uint32_t page; /**< a page of the task, where its mappings are */
} hugepool_event_words;

/** What comes of an event. */
enum hugepool_outcome_kind {
    HUGEPOOL_BEGUN = 0,   /**< the call is in flight */
    HUGEPOOL_MOVED = 1,   /**< the call stands in phase now */
    HUGEPOOL_BLOCKED = 2, /**< nothing changed: task holds what the step wants */
    HUGEPOOL_ENDED = 3,   /**< the call is over, with answer */
    HUGEPOOL_MARKED = 4,  /**< the task is killed */
    HUGEPOOL_RESIZED = 5, /**< frames aren't retired now */
    HUGEPOOL_REFUSED = 6  /**< nothing changed, because of refusal */
};

/** Where a call stands. */
enum hugepool_phase {
    HUGEPOOL_PHASE_NONE = 0, /**< no call is in flight */
    HUGEPOOL_PHASE_START = 1,
    HUGEPOOL_PHASE_LOOK = 2,
    HUGEPOOL_PHASE_WANT = 3,
    HUGEPOOL_PHASE_LOCKED = 4,
    HUGEPOOL_PHASE_MISSING = 5,
    HUGEPOOL_PHASE_CHANGED = 6,
    HUGEPOOL_PHASE_ABORT = 7,
    HUGEPOOL_PHASE_TAKEN = 8,
    HUGEPOOL_PHASE_SETTLE = 9,
    HUGEPOOL_PHASE_COMMITTED = 10,
    HUGEPOOL_PHASE_RESTORE = 11,
    HUGEPOOL_PHASE_FOUND = 12,
    HUGEPOOL_PHASE_LEAVE = 13,
    HUGEPOOL_PHASE_ROOM = 14,
    HUGEPOOL_PHASE_ACCOUNTED = 15,
    HUGEPOOL_PHASE_ENTER = 16,
    HUGEPOOL_PHASE_HEAD = 17,
    HUGEPOOL_PHASE_UNSLOT = 18,
    HUGEPOOL_PHASE_EXTEND = 19,
    HUGEPOOL_PHASE_UNMAP = 20,
    HUGEPOOL_PHASE_EVICT = 21,
    HUGEPOOL_PHASE_DELETE = 22,
    HUGEPOOL_PHASE_FREE = 23,
    HUGEPOOL_PHASE_SIZE = 24,
    HUGEPOOL_PHASE_TAIL = 25,
    HUGEPOOL_PHASE_CLEAR = 26,
    HUGEPOOL_PHASE_DROP = 27
};

/** What a call ends with. */
enum hugepool_answer {
    HUGEPOOL_ANSWER_MAPPED = 1, /**< the new mapping begins at page */
    HUGEPOOL_ANSWER_WORD = 2,   /**< a load read word */
    HUGEPOOL_ANSWER_DONE = 3, /**< it was done */
    HUGEPOOL_ANSWER_SEGV = 4,         /**< no mapping has that page (SIGSEGV) */
    HUGEPOOL_ANSWER_BEYOND = 5,       /**< the page lies at or above the file's size (SIGBUS) */
    HUGEPOOL_ANSWER_NO_FRAME = 6,     /**< no frame is free, or too few are free and unreserved (ENOSPC, in a fault SIGBUS) */
    HUGEPOOL_ANSWER_NO_QUOTA = 7,     /**< the files would have more pages than the quota (ENOSPC, in a fault SIGBUS) */
    HUGEPOOL_ANSWER_NO_MEMORY = 8,    /**< memory that the call wanted was refused (ENOMEM) */
    HUGEPOOL_ANSWER_INTERRUPTED = 9,  /**< an allocation noticed that its task was killed (EINTR) */
    HUGEPOOL_ANSWER_KILLED = 10, /**< another call noticed that its task was killed */
    HUGEPOOL_ANSWER_BAD_FILE = 11,    /**< no file has that number */
    HUGEPOOL_ANSWER_BAD_RANGE = 12,   /**< the range is empty, or ends above a file's limit */
    HUGEPOOL_ANSWER_NOT_MAPPED = 13,  /**< no mapping begins there */
    HUGEPOOL_ANSWER_NO_ADDRESS = 14   /**< there is no room for a mapping of that length (ENOMEM) */
};

/** Why an event was refused. */
enum hugepool_refusal {
    HUGEPOOL_REFUSAL_NOT_ALIVE = 1, /**< no such task, or it is dead, or killed where only a living one goes on */
    HUGEPOOL_REFUSAL_IN_CALL = 2,   /**< the task has a call in flight */
    HUGEPOOL_REFUSAL_IDLE = 3,      /**< it has none */
    HUGEPOOL_REFUSAL_BAD_SIZE = 4   /**< a pool has 1 to 4096 frames */
};

/** An outcome. What doesn't belong to its kind, or to its answer, is 0. */
typedef struct hugepool_outcome_words {
    uint64_t word;    /**< what a load read */
    uint32_t kind;    /**< an enum hugepool_outcome_kind */
    uint32_t phase;   /**< an enum hugepool_phase */
    uint32_t task;    /**< who holds what a step wants */
    uint32_t answer;  /**< an enum hugepool_answer */
    uint32_t page;    /**< where a new mapping begins */
    uint32_t frames;  /**< how many aren't retired */
    uint32_t refusal; /**< an enum hugepool_refusal */
} hugepool_outcome_words;

/** What a pool holds. */
typedef struct hugepool_pool_words {
    int64_t owed;      /**< what calls in flight owe to the reserve count */
    int64_t used_owed; /**< what they owe to the used count */
    uint32_t frames;   /**< frames that aren't retired */
    uint32_t free;     /**< free ones */
    uint32_t resv;     /**< the reserve count */
    uint32_t used;     /**< the used count, which a quota bounds */
    uint32_t quota;    /**< the quota, where has_quota */
    uint32_t calls;    /**< calls in flight */
    uint32_t files;    /**< files */
    uint32_t tasks;    /**< tasks */
    bool has_quota;    /**< whether there is a quota */
} hugepool_pool_words;

/** What a file holds. */
typedef struct hugepool_file_words {
    size_t regions;    /**< regions of its reserve map */
    size_t changes;    /**< pending changes of that */
    size_t spare;      /**< spare descriptors for these */
    uint32_t size;     /**< its size */
    uint32_t reserved; /**< its reserved indices */
    uint32_t pages;    /**< its pages */
} hugepool_file_words;

/** How a task lives. One that is killed goes on until its call notices. */
enum hugepool_life { HUGEPOOL_LIFE_ALIVE = 0, HUGEPOOL_LIFE_KILLED = 1, HUGEPOOL_LIFE_DEAD = 2 };

/** What a task holds. */
typedef struct hugepool_task_words {
    size_t mappings; /**< its mappings */
    size_t entries;  /**< its translated pages */
    uint32_t life;   /**< an enum hugepool_life */
    uint32_t phase;  /**< an enum hugepool_phase: where its call stands */
    uint32_t holder; /**< where is_blocked: who holds what the call's next step wants */
    bool is_blocked; /**< whether somebody does */
} hugepool_task_words;

/** What the next step of a call has to take: nothing, the lock of file, or the slot of index of file. */
enum hugepool_acquired_kind { HUGEPOOL_ACQUIRES_NOTHING = 0, HUGEPOOL_ACQUIRES_LOCK = 1, HUGEPOOL_ACQUIRES_SLOT = 2 };

/** What that is, with the numbers that count for its kind. */
typedef struct hugepool_acquired_words {
    uint32_t kind;  /**< an enum hugepool_acquired_kind */
    uint32_t file;  /**< the file of the lock or the slot */
    uint32_t index; /**< the index of the slot */
} hugepool_acquired_words;

/** The frame that a page is translated to, where is_there. */
typedef struct hugepool_frame_words {
    uint32_t frame; /**< the frame, where is_there */
    bool is_there;  /**< whether the page is translated */
} hugepool_frame_words;

/** What an audit finds. Of a pool that events led to it finds nothing: anything else says that the pool's memory was damaged. */
enum hugepool_finding {
    HUGEPOOL_FOUND_NOTHING = 0,
    HUGEPOOL_FOUND_SHAPE = 1,
    HUGEPOOL_FOUND_AGREE = 2,
    HUGEPOOL_FOUND_PLACE = 3,
    HUGEPOOL_FOUND_SIZE = 4,
    HUGEPOOL_FOUND_COUNT = 5,
    HUGEPOOL_FOUND_USED = 6
};

/** Which runs of a script are searched: run k goes by the generator that is seeded with seed + k, wrapping. */
typedef struct hugepool_hunt_words {
    uint64_t seed;  /**< the seed of run 0 */
    uint32_t limit; /**< so many runs, from run 0 on */
    uint32_t deny;  /**< the chance in 1000 that a step's allocation fails */
    uint32_t kill;  /**< the chance in 1000 that a turn kills its task */
} hugepool_hunt_words;

/** Which schedules of a script are searched, and how far. */
typedef struct hugepool_bounds_words {
    uint32_t denials; /**< so many allocations fail in a schedule, at most */
    uint32_t kills;   /**< so many tasks are killed in it, at most */
    uint32_t states;  /**< so many states are kept at once, at most; some 500 bytes each */
} hugepool_bounds_words;

/* ---- a pool */

/** Opens a pool of these sizes, to which nothing has happened. One that was open there is closed. NO_MEMORY; NO_SUCH if and only if a size
 * isn't within its limits. */
uint32_t hugepool_open(hugepool_pool *pool, const hugepool_config_words *config);

/** Makes a copy of a pool in which no call is in flight: from here on neither sees what happens to the other. One that was open there is
 * closed. IS_CLOSED, NO_MEMORY, IN_FLIGHT. */
uint32_t hugepool_copy(const hugepool_pool *pool, hugepool_pool *copy);

/** Gives the pool's memory back. To close a pool that is closed does nothing. */
void hugepool_close(hugepool_pool *pool);

/* ---- events */

/** One event: a row of the machine, whose outcome is told. IS_CLOSED; NO_MEMORY if the event wants memory that there isn't; NO_SUCH if and
 * only if kind or op names nothing. A task or a file that isn't there is no fault: the outcome says so. */
uint32_t hugepool_event(hugepool_pool *pool, const hugepool_event_words *event, hugepool_outcome_words *outcome);

/** Events, one after the other, with their outcomes, until one can't happen, as alone it couldn't, or there is no room for its outcome
 * (TOO_SMALL). *done is how many happened, whatever is answered; outcomes behind these are as they were. */
uint32_t hugepool_events(
    hugepool_pool *pool, const hugepool_event_words *events, size_t count, hugepool_outcome_words *outcomes, size_t room, size_t *done);

/** Whether an event would change nothing: whether it would be refused, or its step is blocked. Where it is held back, its outcome is told.
 * IS_CLOSED, NO_SUCH. */
uint32_t hugepool_held_back(
    const hugepool_pool *pool, const hugepool_event_words *event, bool *is_held_back, hugepool_outcome_words *outcome);

/* ---- what a pool holds (IS_CLOSED; NO_SUCH if and only if the file or the task isn't there) */

/** The numbers of the pool. */
uint32_t hugepool_pool_numbers(const hugepool_pool *pool, hugepool_pool_words *numbers);

/** The numbers of a file. */
uint32_t hugepool_file_numbers(const hugepool_pool *pool, uint32_t file, hugepool_file_words *numbers);

/** The numbers of a task. */
uint32_t hugepool_task_numbers(const hugepool_pool *pool, uint32_t task, hugepool_task_words *numbers);

/** What the next step of the task's call has to take. */
uint32_t hugepool_acquires(const hugepool_pool *pool, uint32_t task, hugepool_acquired_words *acquired);

/** The frame that the task's page is translated to. */
uint32_t hugepool_translate(const hugepool_pool *pool, uint32_t task, uint32_t page, hugepool_frame_words *translated);

/** Looks at all of the pool. *finding is HUGEPOOL_FOUND_NOTHING. IS_CLOSED, NO_MEMORY. */
uint32_t hugepool_audit(const hugepool_pool *pool, uint32_t *finding);

/* ---- traces as texts: what the program hugepool writes of them */

/** A line for each outcome of the trace, and then the state. On OK the first *needed bytes of out are the text, and those behind are as
 * they were. TOO_SMALL: *needed bytes of room are wanted. BAD_LINE and BAD_HEADER: *line is the first bad line. NO_MEMORY. */
uint32_t hugepool_replay(const uint8_t *trace, size_t length, uint8_t *out, size_t room, size_t *needed, uint32_t *line);

/** A row of words for each event of the trace, and then the state; else as hugepool_replay. */
uint32_t hugepool_explain(const uint8_t *trace, size_t length, uint8_t *out, size_t room, size_t *needed, uint32_t *line);

/** The rows of the trace's lines from first to last, all in one column and with Linux's functions, and then the state behind the last; else
 * as hugepool_replay. Line 1 is the header. */
uint32_t hugepool_explain_rows(const uint8_t *trace, size_t length, uint32_t first, uint32_t last, uint8_t *out, size_t room, size_t *needed,
                               uint32_t *line);

/** Rows as lines of JSON: an object of the pool, one of each event of these lines, and one of the state behind the last. */
uint32_t hugepool_explain_json(const uint8_t *trace, size_t length, uint32_t first, uint32_t last, uint8_t *out, size_t room, size_t *needed,
                               uint32_t *line);

/** A picture of the trace, an SVG; else as hugepool_replay. */
uint32_t hugepool_draw(const uint8_t *trace, size_t length, uint8_t *out, size_t room, size_t *needed, uint32_t *line);

/** The trace that a text in the loose form asks for, which has comments, blank lines, and steps that are repeated; else as hugepool_replay.
 * BAD_LINE: *line is the first wrong line of the text, the one without a header among them. */
uint32_t hugepool_format(const uint8_t *text, size_t length, uint8_t *out, size_t room, size_t *needed, size_t *line);

/** What is wrong with the line that hugepool_format refused, in words for people to read. NO_SUCH if no line is wrong. NO_MEMORY, TOO_SMALL:
 * *needed bytes of room are wanted. */
uint32_t hugepool_format_reason(const uint8_t *text, size_t length, uint8_t *out, size_t room, size_t *needed);

/** How many events the trace has. It takes no memory. BAD_LINE, BAD_HEADER. */
uint32_t hugepool_check(const uint8_t *trace, size_t length, uint32_t *events, uint32_t *line);

/** What is wrong with a line of the trace that another call refused, in words for people to read. NO_SUCH if the trace has no such line,
 * or nothing is known to be wrong with it; NO_MEMORY. TOO_SMALL: *needed bytes of room are wanted, and else *needed is 0. */
uint32_t hugepool_reason(const uint8_t *trace, size_t length, uint32_t line, uint8_t *out, size_t room, size_t *needed);

/* ---- searches: what the program hugepool finds

 * Conditions are a text: each line is an option of `hugepool find` without its dashes, as

 *     answer 1:2=beyond|1:3=SIGBUS
 *     at 1:2=noframe free>0
 *     blocked 2
 *     meet 1:want,2:evict
 *     final not resv=0
 *     rest

 * or `anywhere`, which says that calls may be in flight at the end where a line `final` asks for a count there. A line break may end the
 * last line; there are at most 65,536, and the next one is told as a bad line. Each call stops at the first bad line of the conditions
 * (BAD_CONDITION, *line), and only then reads the other text. It makes no thread; it returns when it is done, so bound what it may do.
 */

/** A small trace of those that the trace can be cut to, by dropping events and lowering numbers, and that still meet the conditions:
 * without any one of its events, or with any of its numbers one less, it doesn't. NONE_MEETS if the trace itself doesn't. On OK the first
 * *needed bytes of out are its text, and those behind are as they were. TOO_SMALL: *needed bytes of room are wanted. BAD_CONDITION;
 * BAD_LINE and BAD_HEADER: *line is the trace's first bad line. NO_MEMORY. */
uint32_t hugepool_minimize(const uint8_t *trace, size_t length, const uint8_t *conditions, size_t size, uint8_t *out, size_t room, size_t *needed,
                           uint32_t *line);

/** The trace of the first of these runs of the script that meets the conditions. On OK and TOO_SMALL *run is its number; else it is 0.
 * NONE_MEETS if none of them does: to search on, add limit to seed. Else as hugepool_minimize, of a script in place of a trace. */
uint32_t hugepool_find(const uint8_t *script, size_t length, const uint8_t *conditions, size_t size, const hugepool_hunt_words *hunt,
                       uint8_t *out, size_t room, size_t *needed, uint32_t *line, uint32_t *run);

/** The trace of a shortest of all schedules of the script that meet the conditions. NONE_MEETS if none does. LIMIT_REACHED: none of fewer
 * than *turns turns does; *turns is 0 on any other code. Else as hugepool_find. */
uint32_t hugepool_find_every(const uint8_t *script, size_t length, const uint8_t *conditions, size_t size, const hugepool_bounds_words *bounds,
                             uint8_t *out, size_t room, size_t *needed, uint32_t *line, uint32_t *turns);

/* ---- one line of a trace (hugepool-trace(5)), without its end */

/** No line of a trace, an event or an outcome has more bytes. */
#define HUGEPOOL_LINE_ROOM 56

/** The sizes that a trace's first line spells, as "pool 4 1 2 2". NO_SUCH if and only if it spells none. */
uint32_t hugepool_read_config(const char *line, size_t length, hugepool_config_words *config);

/** The event that another line spells, as "begin 1 map 0 0 4". NO_SUCH if and only if it spells none. */
uint32_t hugepool_read_event(const char *line, size_t length, hugepool_event_words *event);

/** The line of an event. On OK the first *needed bytes of out are the line (no 0 ends them), and
 * those behind are as they were. TOO_SMALL: *needed bytes of room are wanted. NO_SUCH if and only if the numbers name none; NO_MEMORY. */
uint32_t hugepool_write_event(const hugepool_event_words *event, char *out, size_t room, size_t *needed);

/** The line of an outcome, as a replay writes it; else as hugepool_write_event. */
uint32_t hugepool_write_outcome(const hugepool_outcome_words *outcome, char *out, size_t room, size_t *needed);

/* ---- the library */

/** Its version, as HUGEPOOL_VERSION_NUMBER is that of this header. */
uint32_t hugepool_version(void);

/* ---- names */

/** What a code says, for people to read. */
static inline const char *hugepool_strerror(uint32_t code)
{
    static const char *const said[] = { "done", "the pool is closed", "there was no memory", "the numbers or the line name nothing",
        "a call is in flight", "a line isn't allowed in the trace", "the first line is no header", "there is too little room",
        "a line of the conditions says none", "nothing meets the conditions", "the limits were reached first" };
    return code < sizeof said / sizeof *said ? said[code] : "?";
}

/** The word that traces have for a call, an enum hugepool_op. A number that names none is "?", here and below. */
static inline const char *hugepool_op_name(uint32_t op)
{
    static const char *const words[] = { "map", "mapn", "unmap", "load", "store", "alloc", "allock", "punch", "trunc", "exit" };
    return op < sizeof words / sizeof *words ? words[op] : "?";
}

/** The word that replays have for a phase. */
static inline const char *hugepool_phase_name(uint32_t phase)
{
    static const char *const words[] = { "none", "start", "look", "want", "locked", "missing", "changed", "abort", "taken", "settle",
        "committed", "restore", "found", "leave", "room", "accounted", "enter", "head", "unslot", "extend", "unmap", "evict", "delete",
        "free", "size", "tail", "clear", "drop" };
    return phase < sizeof words / sizeof *words ? words[phase] : "?";
}

/** The word that they have for an answer. */
static inline const char *hugepool_answer_name(uint32_t answer)
{
    static const char *const words[] = { "?", "mapped", "word", "done", "segv", "beyond", "noframe", "noquota", "nomemory", "interrupted",
        "killed", "badfile", "badrange", "notmapped", "noaddress" };
    return answer < sizeof words / sizeof *words ? words[answer] : "?";
}

/** The word that they have for a refusal. */
static inline const char *hugepool_refusal_name(uint32_t refusal)
{
    static const char *const words[] = { "?", "notalive", "incall", "idle", "badsize" };
    return refusal < sizeof words / sizeof *words ? words[refusal] : "?";
}

/** The word that they have for how a task lives. */
static inline const char *hugepool_life_name(uint32_t life)
{
    static const char *const words[] = { "alive", "killed", "dead" };
    return life < sizeof words / sizeof *words ? words[life] : "?";
}

#ifdef __cplusplus
}
#endif
#endif
