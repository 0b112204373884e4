/* wagbirelu.h: sessions of Wagbirelu, from C and C++.
 *
 * Link libwalker_c.a and the kit's libc/c/heap.c, which hands malloc, realloc and free to it.
 * Nothing else of the C library is called but memcpy, memmove, memset and memcmp: no file, no
 * stream, no thread, no signal.
 *
 * What a caller owes, and nothing checks:
 * - a handle comes from wagbirelu_open or wagbirelu_learn, and is not used after wagbirelu_close;
 * - one call at a time uses a handle, and a handle stays on one thread; different handles are
 *   independent of each other;
 * - a pointer with a length points to so many bytes, is not NULL even where the length is 0, and
 *   what one call reads does not overlap what it writes;
 * - malloc and realloc align as C asks, and no call is made from a signal handler.
 *
 * Every call is total for what is handed over so: any bytes, any lengths, any numbers.
 */
#ifndef WAGBIRELU_H
#define WAGBIRELU_H

#include <stddef.h>
#include <stdint.h>

#ifdef __cplusplus
extern "C" {
#endif

/* A session: walkers and texts in the tree of a tessellation, and the answers that wait. */
typedef struct wagbirelu_session wagbirelu_session;

/* The exit statuses of the program, as docs/FORMATS.md lists them. */
enum {
    WAGBIRELU_DONE = 0,          /* there is a session, or the line is answered */
    WAGBIRELU_USAGE = 2,         /* no such kind or number of cells; or a line that holds two lines */
    WAGBIRELU_TOO_LONG = 4,      /* a file has more bytes than it may */
    WAGBIRELU_TESS_REFUSED = 5,  /* no tessellation file */
    WAGBIRELU_RULES_TEXT = 6,    /* no rules file */
    WAGBIRELU_NOT_ACCEPTED = 7,  /* the rules break a condition */
    WAGBIRELU_SPHERICAL = 8,     /* a regular tessellation with finitely many tiles */
    WAGBIRELU_CLOSED = 9,        /* another one with finitely many tiles */
    WAGBIRELU_GAVE_UP = 10,      /* no rules were learnt with so many cells */
    WAGBIRELU_MEMORY = 11        /* there is no memory */
};

/* So many bytes hold the longest line that says why there is no session, and a zero behind it. */
#define WAGBIRELU_LINE 64

/* Opens a session over the bytes of a tessellation file and of a rules file, whose root is a tile of
 * this kind. On WAGBIRELU_DONE *session is its handle. On any other status *session is as it was,
 * and no session is open. The bytes are not needed afterwards.
 *
 * What the program would print is put into `line`, as much as fits, with its line feed, and zeros
 * behind it: zeros alone where there is a session. On WAGBIRELU_MEMORY `line` may be as it was. */
uint32_t wagbirelu_open(const uint8_t *tess, size_t tess_length,
                        const uint8_t *rules, size_t rules_length, uint32_t kind,
                        uint8_t *line, size_t line_room, wagbirelu_session **session);

/* The same without a rules file: for a regular tessellation rules are made at once, for any other
 * one they are learnt from at most so many cells, 1 to 1,000,000. The program takes 50,000. */
uint32_t wagbirelu_learn(const uint8_t *tess, size_t tess_length, uint32_t cells, uint32_t kind,
                         uint8_t *line, size_t line_room, wagbirelu_session **session);

/* Answers one line, as the program's `run` answers a line of its input. It may end in a line feed.
 * The answer, with its line feeds, waits behind what waited before; then the first bytes of what
 * waits are moved to `room`, as many as fit. Returns how many waited: where that is more than
 * `room_length`, an empty line moves on, which has no answer of its own, and nothing is lost.
 *
 * Where no line was answered, the result is 2^64 less a status, and the session, what waits and the
 * room are as they were: WAGBIRELU_USAGE where a line feed stands elsewhere than at the end, and
 * WAGBIRELU_MEMORY where there is no memory, or 4,294,967,295 tiles have a text. The next call may
 * succeed. */
uint64_t wagbirelu_answer(wagbirelu_session *session, const uint8_t *line, size_t line_length,
                          uint8_t *room, size_t room_length);

/* The status of a result of wagbirelu_answer. */
static inline uint32_t wagbirelu_status(uint64_t answered)
{
    return answered > UINT64_MAX - 64 ? (uint32_t)(0 - answered) : 0;
}

/* Closes a session, and frees all that it held, its rules too. */
void wagbirelu_close(wagbirelu_session *session);

#ifdef __cplusplus
}
#endif
#endif
