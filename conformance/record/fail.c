#include "fail.h"

#include <errno.h>
#include <stdarg.h>
#include <stdio.h>
#include <stdlib.h>
#include <string.h>

static void tell_list(const char *format, va_list words, const char *behind)
{
    fputs("record: ", stderr);
    vfprintf(stderr, format, words);
    if (behind)
        fprintf(stderr, ": %s", behind);
    fputc('\n', stderr);
}

void tell(const char *format, ...)
{
    va_list words;

    va_start(words, format);
    tell_list(format, words, NULL);
    va_end(words);
}

_Noreturn void fail(enum status status, const char *format, ...)
{
    va_list words;

    va_start(words, format);
    tell_list(format, words, NULL);
    va_end(words);
    exit(status);
}

_Noreturn void fail_errno(const char *format, ...)
{
    const char *behind = strerror(errno);
    va_list words;

    va_start(words, format);
    tell_list(format, words, behind);
    va_end(words);
    exit(STATUS_FAILED);
}
