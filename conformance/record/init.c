/* The first process of an emulated machine: runs the recorder with the words behind `--` of the kernel's command line, tells
 * how it ended, and switches the machine off. The console has the kernel's own messages; what is recorded goes to the second
 * serial line, what is told beside it to the third. */
#include <errno.h>
#include <fcntl.h>
#include <stdio.h>
#include <string.h>
#include <sys/mount.h>
#include <sys/reboot.h>
#include <sys/stat.h>
#include <sys/wait.h>
#include <termios.h>
#include <unistd.h>

static _Noreturn void switch_off(void)
{
    tcdrain(STDOUT_FILENO);
    tcdrain(STDERR_FILENO);
    reboot(RB_POWER_OFF);
    for (;;)
        pause();
}

static void need(int result, const char *what)
{
    if (!result)
        return;
    fprintf(stderr, "init: %s: %s\n", what, strerror(errno));
    switch_off();
}

/* Has a serial line for a descriptor, on which each byte goes out as it is. */
static void open_line(const char *path, int descriptor)
{
    struct termios mode;
    int line = open(path, O_RDWR | O_NOCTTY);

    need(line < 0 || tcgetattr(line, &mode), path);
    cfmakeraw(&mode);
    need(tcsetattr(line, TCSANOW, &mode), path);
    need(dup2(line, descriptor) < 0, path);
    if (line != descriptor)
        close(line);
}

static void mount_all(void)
{
    need(mount("devtmpfs", "/dev", "devtmpfs", 0, ""), "/dev");
    need(dup2(open("/dev/null", O_RDONLY), STDIN_FILENO) < 0, "/dev/null");
    open_line("/dev/ttyS1", STDOUT_FILENO);
    open_line("/dev/ttyS2", STDERR_FILENO);
    need(mount("proc", "/proc", "proc", 0, ""), "/proc");
    need(mount("sysfs", "/sys", "sysfs", 0, ""), "/sys");
    need(mount("tmpfs", "/tmp", "tmpfs", 0, ""), "/tmp");
}

/* Waits for the recorder, and for whatever else ends before it. */
static int end_of(pid_t process)
{
    int ended;

    while (wait(&ended) != process)
        ;
    return ended;
}

int main(int count, char **words)
{
    pid_t process;
    int ended;

    (void)count;
    mount_all();
    process = fork();
    need(process < 0, "fork");
    if (!process) {
        execv("/record", words);
        need(-1, "/record");
    }
    ended = end_of(process);
    dprintf(STDERR_FILENO, "status %d\n", WIFEXITED(ended) ? WEXITSTATUS(ended) : 128 + WTERMSIG(ended));
    switch_off();
}
