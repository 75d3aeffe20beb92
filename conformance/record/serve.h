/* Recording scripts that come one file after another, by a line that somebody writes to. */
#ifndef SERVE_H
#define SERVE_H

#define SERVED "/tmp/asked"

/* Reads scripts from a file, each time up to a line `go`, and keeps them in SERVED; has another process of this program
 * record them, with these words; and writes a line `served STATUS` behind what that wrote. Ends the process where nothing
 * comes any more. */
_Noreturn void serve(const char *path, char **words);

#endif
