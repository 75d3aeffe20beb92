/* Records what a Linux kernel answers to the calls of scripts, made on its own hugetlbfs by real processes. */
#include <errno.h>
#include <getopt.h>
#include <limits.h>
#include <signal.h>
#include <stdbool.h>
#include <stdio.h>
#include <stdlib.h>
#include <string.h>
#include <sys/prctl.h>
#include <sys/wait.h>
#include <unistd.h>

#include "fail.h"
#include "kernel.h"
#include "pause.h"
#include "run.h"
#include "script.h"
#include "serve.h"

static const char usage[] =
    "usage: record [--check] [--race] [--pause] [--from N] SCRIPTS ..\n"
    "       record --serve FILE\n"
    "\n"
    "Makes the calls of the scripts on this kernel's hugetlbfs, and writes what it answers.\n"
    "Root alone can do so. The number of huge pages is changed meanwhile, and put back at the end.\n"
    "\n"
    "  --check   only reads the scripts\n"
    "  --race    lets tasks race, holds calls, denies them memory, and starts truncations beside other calls; after that the\n"
    "            kernel's reserve count may be wrong until the next boot\n"
    "  --pause   stops an emulated machine behind each race, until somebody has it go on (QEMU's pvpanic)\n"
    "  --from N  leaves out the first N scripts\n"
    "  --serve FILE  reads scripts from this file, again and again, each time up to a line 'go', records them as --race has it, and\n"
    "            writes 'served STATUS' behind them\n"
    "\n"
    "A file that was recorded is one of scripts, too: the answers in it aren't read.\n"
    "Status: 0 all is recorded; 1 the machine lacks something, or a call failed; 2 a wrong word or script;\n"
    "3 the kernel lost count, and there are scripts left.\n";

struct words {
    bool is_check, may_race, may_pause;
    size_t from;
    /* where scripts come from again and again, or NULL */
    const char *served;
};

/* Tries to put things back so often, and waits so long between. */
enum { ATTEMPTS = 20, PAUSE_MICROSECONDS = 50000 };

static volatile sig_atomic_t worker;

static void pass_on(int signal_number)
{
    if (worker > 0)
        kill(worker, signal_number);
}

static _Noreturn void misuse(const char *why)
{
    fprintf(stderr, "record: %s\n%s", why, usage);
    exit(STATUS_USAGE);
}

static size_t read_from(const char *word)
{
    char *end;
    unsigned long read = strtoul(word, &end, 10);

    if (*word < '0' || *word > '9' || *end)
        misuse("--from wants a number");
    return read;
}

static struct words read_words(int count, char **all)
{
    static const struct option options[] = {
        {"check", no_argument, NULL, 'c'}, {"race", no_argument, NULL, 'r'}, {"pause", no_argument, NULL, 'p'},
        {"from", required_argument, NULL, 'f'}, {"serve", required_argument, NULL, 's'},
        {"help", no_argument, NULL, 'h'},  {NULL, 0, NULL, 0},
    };
    struct words words = {0};

    for (int found; (found = getopt_long(count, all, "h", options, NULL)) != -1;) {
        if (found == 'h') {
            fputs(usage, stdout);
            exit(STATUS_DONE);
        }
        if (found == '?')
            misuse("no such option");
        if (found == 'f')
            words.from = read_from(optarg);
        if (found == 's')
            words.served = optarg;
        words.is_check |= found == 'c';
        words.may_race |= found == 'r';
        words.may_pause |= found == 'p';
    }
    return words;
}

/* Whether the kernel's reserve count may be wrong behind a line: tasks race, a call is held or denied memory, or a truncation runs
 * beside other calls. */
static bool may_lose_count(const struct line *line)
{
    enum operation operation = line->call.operation;

    return line->kind == LINE_RACE || line->kind == LINE_HOLD || line->kind == LINE_DENY || (line->kind == LINE_START && (operation == OP_TRUNC || operation == OP_X_FTRUNCATE));
}

/* The first line of a script behind which the count may be wrong, or NULL. */
static const struct line *race_of(const struct script *script)
{
    for (size_t k = 0; k < script->count; k++)
        if (may_lose_count(&script->lines[k]))
            return &script->lines[k];
    return NULL;
}

static void check_races(const struct scripts *scripts, bool may_race)
{
    for (size_t k = 0; k < scripts->count; k++) {
        const struct line *race = race_of(&scripts->all[k]);
        if (race && !may_race)
            fail(STATUS_USAGE, "script %s has '%s', which --race allows", scripts->all[k].name, race->text);
        if (race && sysconf(_SC_NPROCESSORS_ONLN) < 2)
            fail(STATUS_FAILED, "script %s has '%s', and this machine has one processor", scripts->all[k].name, race->text);
    }
}

static size_t lines_of(const struct scripts *scripts)
{
    size_t lines = 0;

    for (size_t k = 0; k < scripts->count; k++)
        lines += scripts->all[k].count;
    return lines;
}

static long most_frames(const struct scripts *scripts)
{
    long most = 0;

    for (size_t k = 0; k < scripts->count; k++)
        if (scripts->all[k].frames > most)
            most = scripts->all[k].frames;
    return most;
}

static void make_mount_point(char *path, size_t size)
{
    const char *folder = getenv("TMPDIR");

    if ((size_t)snprintf(path, size, "%s/record-XXXXXX", folder && *folder ? folder : "/tmp") >= size)
        fail(STATUS_FAILED, "TMPDIR is too long");
    if (!mkdtemp(path))
        fail_errno("%s", path);
}

/* Waits until the worker and the tasks that it may have left have ended, and returns how the worker did. */
static int wait_for_all(pid_t process)
{
    int ended = 0, other;
    pid_t found;

    while ((found = wait(&other)) > 0 || errno == EINTR)
        if (found == process)
            ended = other;
    return ended;
}

static bool is_as_before(struct settings before)
{
    struct counts now = counts_of_kernel();

    return now.total == before.frames && now.free == now.total && !now.reserved && !now.surplus;
}

/* Has the kernel have as many huge pages as before. Pages of a mount that is being taken down may still come back. */
static bool put_back(struct settings before)
{
    ask_for_overcommit(before.overcommit);
    for (int k = 0; k < ATTEMPTS; k++) {
        ask_for_frames(before.frames);
        if (is_as_before(before))
            return true;
        usleep(PAUSE_MICROSECONDS);
    }
    return false;
}

static void tell_what_is_left(struct settings before)
{
    struct counts now = counts_of_kernel();

    tell("there were %ld huge pages, and now are %ld: %ld free, %ld reserved, %ld surplus; this kernel wants to be booted anew",
         before.frames, now.total, now.free, now.reserved, now.surplus);
}

static void pass_signals_on(void)
{
    struct sigaction action = {.sa_handler = pass_on, .sa_flags = SA_RESTART};

    sigaction(SIGINT, &action, NULL);
    sigaction(SIGTERM, &action, NULL);
    sigaction(SIGHUP, &action, NULL);
}

/* In the worker's process. */
static _Noreturn void work(const struct scripts *scripts, size_t from, const char *mount_point)
{
    signal(SIGINT, SIG_DFL);
    signal(SIGTERM, SIG_DFL);
    signal(SIGHUP, SIG_DFL);
    prctl(PR_SET_PDEATHSIG, SIGKILL);
    run_scripts(scripts, from, mount_point);
    exit(STATUS_DONE);
}

static int status_of(int ended)
{
    if (!WIFSIGNALED(ended))
        return WEXITSTATUS(ended);
    tell("stopped by signal %d (%s)", WTERMSIG(ended), strsignal(WTERMSIG(ended)));
    return STATUS_FAILED;
}

/* Runs the scripts in a process of its own, so that whatever becomes of that, things are put back. */
static int record(const struct scripts *scripts, size_t from)
{
    struct settings before = settings_of_kernel();
    char mount_point[PATH_MAX];
    pid_t process;
    int status;

    tell("this kernel has %ld huge pages of 2 MiB, none in use; the scripts change that number (first to at most %ld),"
         " and it is put back at the end", before.frames, most_frames(scripts));
    make_mount_point(mount_point, sizeof mount_point);
    prctl(PR_SET_CHILD_SUBREAPER, 1);
    pass_signals_on();
    process = fork();
    if (process < 0)
        fail_errno("no process for the scripts");
    if (!process)
        work(scripts, from, mount_point);
    worker = process;
    status = status_of(wait_for_all(process));
    rmdir(mount_point);
    if (!put_back(before))
        tell_what_is_left(before);
    return status;
}

int main(int count, char **all)
{
    struct words words = read_words(count, all);
    struct scripts scripts = {0};

    if (words.served)
        serve(words.served, (char *[]){all[0], "--race", SERVED, NULL});
    if (optind == count)
        misuse("which scripts?");
    for (int k = optind; k < count; k++)
        read_scripts(all[k], &scripts);
    if (!scripts.count)
        fail(STATUS_USAGE, "there is no script");
    if (words.from >= scripts.count)
        fail(STATUS_USAGE, "there are %zu scripts, of which %zu are to be left out", scripts.count, words.from);
    if (words.is_check) {
        printf("%zu scripts, %zu calls\n", scripts.count, lines_of(&scripts));
        return STATUS_DONE;
    }
    check_races(&scripts, words.may_race);
    check_machine();
    if (words.may_pause)
        allow_pauses();
    return record(&scripts, words.from);
}
