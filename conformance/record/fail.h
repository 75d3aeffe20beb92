/* How the recorder ends where it can't go on: one line to standard error, and a status. */
#ifndef FAIL_H
#define FAIL_H

enum status {
    STATUS_DONE = 0,
    /* the machine lacks something, or a call of the recorder's own failed */
    STATUS_FAILED = 1,
    /* a wrong word, or a script that can't be read */
    STATUS_USAGE = 2,
    /* the kernel's reserve count is wrong, and scripts are left that would begin with it */
    STATUS_COUNT_LOST = 3,
};

/* Writes "record: ", the text and a line feed to standard error. */
void tell(const char *format, ...) __attribute__((format(printf, 1, 2)));

/* Tells the text, and ends the process. */
_Noreturn void fail(enum status status, const char *format, ...) __attribute__((format(printf, 2, 3)));

/* The same with status STATUS_FAILED, and what errno says behind the text. */
_Noreturn void fail_errno(const char *format, ...) __attribute__((format(printf, 1, 2)));

#endif
