/* wagbirelu_pipe.h: the program behind a pipe, from C99 on POSIX.
 *
 * A client starts the program, sends lines and reads what they are answered with, of any length.
 * Nothing is printed, and no call ends the process. SIGPIPE is to be ignored by who calls (see
 * wb_start). One thread at a time uses a client.
 */
#ifndef WAGBIRELU_PIPE_H
#define WAGBIRELU_PIPE_H

#include <stddef.h>

#ifdef __cplusplus
extern "C" {
#endif

typedef struct wb_client wb_client;

/* What a call came to. */
typedef enum {
    WB_OK,      /* done, and answered */
    WB_REFUSED, /* a line came that refuses, or that says why the program ends: wb_line tells it */
    WB_ENDED,   /* the program has ended, or the pipe broke: wb_stop tells the status */
    WB_MEMORY   /* there is no memory here */
} wb_result;

/* Starts `program run TESS KIND`, with `--rules RULES` where rules is not NULL. NULL where no process
 * could be started. Whether the files are good shows at the first line that is sent: it is refused by the
 * line that the program says, or comes to WB_ENDED.
 * A program that has ended is noticed only where SIGPIPE is ignored: signal(SIGPIPE, SIG_IGN). */
wb_client *wb_start(const char *program, const char *tess, unsigned kind, const char *rules);

/* Sends one line, without its line feed, and reads its reply. The line has at least one byte and no
 * line feed. */
wb_result wb_ask(wb_client *client, const char *line);

/* The same, with the line as printf writes it. */
wb_result wb_askf(wb_client *client, const char *format, ...);

/* The last reply line, without its line feed and with a zero behind it; "" where there was none. It
 * stays until the next call. */
const char *wb_line(const wb_client *client);

/* How many bytes the last reply line has: a text may hold zeros. */
size_t wb_length(const wb_client *client);

/* Reads one line more of a reply that has several: one of the N names behind `tiles N`. */
wb_result wb_more(wb_client *client);

/* Ends the program and frees the client. The exit status of the program, or -1 where it was ended by
 * a signal. Client may be NULL. */
int wb_stop(wb_client *client);

/* The walk that goes along a name of a tile from the root, whose bytes belong to the caller; NULL
 * where there is no memory or the text is no name. It is empty for the root. */
char *wb_walk_of_name(const char *name);

/* The walk that takes a walk back: its letters from the last on, with L and R changed. NULL where
 * there is no memory. */
char *wb_walk_back(const char *walk);

#ifdef __cplusplus
}
#endif
#endif
