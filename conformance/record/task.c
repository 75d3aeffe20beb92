/* The processes of tasks: how they begin, are asked and end. */
#include "task.h"

#include <signal.h>
#include <stdio.h>
#include <stdlib.h>
#include <string.h>
#include <fcntl.h>
#include <sys/mman.h>
#include <sys/prctl.h>
#include <sys/socket.h>
#include <sys/wait.h>
#include <unistd.h>

#include "deny.h"
#include "fail.h"
#include "hold.h"

/* What a task's process does: answers as long as the other end is there. */
static _Noreturn void answer_all(struct desk *desk, struct files files, int line)
{
    char byte;

    while (read(line, &byte, 1) == 1) {
        begin_denial(desk->call.denial, desk, sizeof *desk);
        make_call(desk, files);
        end_denial();
        if (write(line, &byte, 1) != 1)
            break;
    }
    _exit(0);
}

static struct desk *new_desk(void)
{
    struct desk *desk = mmap(NULL, sizeof *desk, PROT_READ | PROT_WRITE, MAP_SHARED | MAP_ANONYMOUS, -1, 0);

    if (desk == MAP_FAILED)
        fail_errno("no memory for a task");
    return desk;
}

static int open_pagemap(pid_t process)
{
    char path[64];
    int open_file;

    snprintf(path, sizeof path, "/proc/%d/pagemap", (int)process);
    open_file = open(path, O_RDONLY | O_CLOEXEC);
    if (open_file < 0)
        fail_errno("%s", path);
    return open_file;
}

struct task begin_task(unsigned number, struct files files, const struct task *others)
{
    struct task task = {.is_alive = true, .desk = new_desk()};
    int ends[2];

    if (socketpair(AF_UNIX, SOCK_STREAM | SOCK_CLOEXEC, 0, ends))
        fail_errno("no line to task %u", number);
    task.process = fork();
    if (task.process < 0)
        fail_errno("no process for task %u", number);
    if (!task.process) {
        prctl(PR_SET_PDEATHSIG, SIGKILL);
        for (unsigned k = 0; k + 1 < number; k++)
            close(others[k].line);
        close(ends[0]);
        forget_holds();
        answer_all(task.desk, files, ends[1]);
    }
    close(ends[1]);
    task.line = ends[0];
    task.pagemap = open_pagemap(task.process);
    return task;
}

/* Waits for the end of a task's process, and returns how it ended. */
static int end_of(struct task *task)
{
    int ended = 0;

    if (waitpid(task->process, &ended, 0) < 0)
        fail_errno("waiting for process %d", (int)task->process);
    task->is_alive = false;
    close(task->line);
    close(task->pagemap);
    munmap(task->desk, sizeof *task->desk);
    return ended;
}

static void check_end(unsigned number, int ended)
{
    if (WIFSIGNALED(ended))
        fail(STATUS_FAILED, "task %u died of signal %d (%s)", number, WTERMSIG(ended), strsignal(WTERMSIG(ended)));
    if (!WIFEXITED(ended) || WEXITSTATUS(ended))
        fail(STATUS_FAILED, "task %u died with status %d", number, WEXITSTATUS(ended));
}

void ask(struct task *task, const struct call *call)
{
    task->desk->call = *call;
    task->is_at_work = true;
    /* (where nobody reads any more, the wait for the answer tells why) */
    if (send(task->line, "?", 1, MSG_NOSIGNAL) != 1)
        return;
}

void wait_for(struct task *task, unsigned number)
{
    char byte;

    task->is_at_work = false;
    if (read(task->line, &byte, 1) == 1)
        return;
    check_end(number, end_of(task));
    fail(STATUS_FAILED, "task %u ended by itself", number);
}

void end_task(struct task *task, unsigned number)
{
    shutdown(task->line, SHUT_RDWR);
    check_end(number, end_of(task));
}
