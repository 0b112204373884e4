/* Answers the lines of its input as answer.c does, and lets memory run out on the way: at each line the
 * first allocation fails, then the second, and so on, until the line is answered. So its output is that
 * of the program only where a line that found no memory left the session as it was.
 * usage: memory TESS; linked with -Wl,--wrap=malloc -Wl,--wrap=realloc. How many calls found no memory is
 * told on the other stream; the exit status is 0 where each line was answered in the end. */
#include "wagbirelu.h"

#include <stdio.h>
#include <stdlib.h>
#include <string.h>

enum { LONGEST = 10000 };

/* Counts down to the allocation that fails; at 0 none does. */
static unsigned long left;

void *__real_malloc(size_t size);
void *__real_realloc(void *block, size_t size);
void *__wrap_malloc(size_t size);
void *__wrap_realloc(void *block, size_t size);

static int fails(void)
{
    return left > 0 && --left == 0;
}

void *__wrap_malloc(size_t size)
{
    return fails() ? NULL : __real_malloc(size);
}

void *__wrap_realloc(void *block, size_t size)
{
    return fails() ? NULL : __real_realloc(block, size);
}

static uint8_t tess[1 << 20], line[LONGEST], room[1 << 16];
static unsigned long refused;

/* Opens a session, with each allocation failing in turn before. */
static wagbirelu_session *open_at_last(size_t length)
{
    wagbirelu_session *session = NULL;
    uint8_t why[WAGBIRELU_LINE];
    uint32_t status = WAGBIRELU_MEMORY;
    for (unsigned long turn = 1; status == WAGBIRELU_MEMORY; turn++) {
        left = turn;
        status = wagbirelu_learn(tess, length, 50000, 0, why, sizeof why, &session);
        refused += status == WAGBIRELU_MEMORY;
    }
    left = 0;
    return status == WAGBIRELU_DONE ? session : NULL;
}

static int answer_at_last(wagbirelu_session *session, size_t length)
{
    uint64_t waited = 0 - (uint64_t)WAGBIRELU_MEMORY;
    for (unsigned long turn = 1; wagbirelu_status(waited) == WAGBIRELU_MEMORY; turn++) {
        left = turn;
        waited = wagbirelu_answer(session, line, length, room, sizeof room);
        refused += wagbirelu_status(waited) == WAGBIRELU_MEMORY;
    }
    left = 0;
    if (wagbirelu_status(waited) != WAGBIRELU_DONE || waited > sizeof room)
        return 0;
    fwrite(room, 1, (size_t)waited, stdout);
    return 1;
}

int main(int count, char **words)
{
    FILE *file = count == 2 ? fopen(words[1], "rb") : NULL;
    if (file == NULL)
        return 2;
    size_t length = fread(tess, 1, sizeof tess, file);
    fclose(file);
    wagbirelu_session *session = open_at_last(length);
    if (session == NULL)
        return 1;
    size_t end = 0;
    int byte, good = 1;
    while (good && (byte = getchar()) != EOF) {
        if (end == LONGEST)
            return 2;
        line[end++] = (uint8_t)byte;
        if (byte == '\n') {
            good = answer_at_last(session, end);
            end = 0;
        }
    }
    fprintf(stderr, "%lu calls found no memory\n", refused);
    wagbirelu_close(session);
    return good ? 0 : 1;
}
