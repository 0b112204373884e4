/* Answers the lines of its input by the library, one call a line: as the program's `run TESS KIND`
 * does, or with RULES as `run TESS KIND --rules RULES`.
 * usage: answer TESS KIND ROOM [RULES]; ROOM is the size of the room that answers are moved to.
 * The exit status is the program's. How long the calls took is told on the other stream. */
#include "wagbirelu.h"

#include <stdio.h>
#include <stdlib.h>
#include <string.h>
#include <time.h>

typedef struct {
    uint8_t *bytes;
    size_t length;
} text;

/* All that stands in a stream, or no bytes where there is no memory. */
static text read_all(FILE *from)
{
    text all = {malloc(1), 0};
    size_t room = 1;
    while (all.bytes != NULL) {
        all.length += fread(all.bytes + all.length, 1, room - all.length, from);
        if (all.length < room)
            return all;
        uint8_t *more = realloc(all.bytes, room *= 2);
        if (more == NULL)
            free(all.bytes);
        all.bytes = more;
    }
    return all;
}

static text read_file(const char *name)
{
    FILE *file = fopen(name, "rb");
    if (file == NULL) {
        fprintf(stderr, "%s: it cannot be read\n", name);
        exit(3);
    }
    text all = read_all(file);
    fclose(file);
    return all;
}

/* The status with which a session is opened. Where there is none its line is printed. */
static uint32_t open_session(char **words, wagbirelu_session **session)
{
    uint8_t line[WAGBIRELU_LINE];
    text tess = read_file(words[1]);
    uint32_t kind = (uint32_t)strtoul(words[2], NULL, 10);
    uint32_t status;
    if (words[4] != NULL) {
        text rules = read_file(words[4]);
        status = wagbirelu_open(tess.bytes, tess.length, rules.bytes, rules.length, kind, line,
                                sizeof line, session);
        free(rules.bytes);
    } else {
        status = wagbirelu_learn(tess.bytes, tess.length, 50000, kind, line, sizeof line, session);
    }
    free(tess.bytes);
    if (status != WAGBIRELU_DONE && status != WAGBIRELU_MEMORY)
        fputs((const char *)line, stdout);
    return status;
}

/* Answers one line, and moves all that waits to the output. */
static uint32_t answer_line(wagbirelu_session *session, const uint8_t *line, size_t length,
                            uint8_t *room, size_t size)
{
    uint64_t waited = wagbirelu_answer(session, line, length, room, size);
    while (wagbirelu_status(waited) == WAGBIRELU_DONE) {
        fwrite(room, 1, waited < size ? (size_t)waited : size, stdout);
        if (waited <= size)
            return WAGBIRELU_DONE;
        waited = wagbirelu_answer(session, line, 0, room, size);
    }
    return wagbirelu_status(waited);
}

int main(int count, char **words)
{
    if (count != 4 && count != 5)
        return 2;
    wagbirelu_session *session;
    uint32_t status = open_session(words, &session);
    if (status != WAGBIRELU_DONE)
        return (int)status;
    text input = read_all(stdin);
    size_t size = strtoul(words[3], NULL, 10);
    uint8_t *room = malloc(size + 1);
    if (input.bytes == NULL || room == NULL)
        return WAGBIRELU_MEMORY;

    size_t lines = 0;
    clock_t start = clock();
    for (size_t at = 0; at < input.length && status == WAGBIRELU_DONE; lines++) {
        const uint8_t *feed = memchr(input.bytes + at, '\n', input.length - at);
        size_t end = feed == NULL ? input.length : (size_t)(feed - input.bytes) + 1;
        status = answer_line(session, input.bytes + at, end - at, room, size);
        at = end;
    }
    double seconds = (double)(clock() - start) / CLOCKS_PER_SEC;
    fprintf(stderr, "%zu lines in %.3f s\n", lines, seconds);
    wagbirelu_close(session);
    free(room);
    free(input.bytes);
    return (int)status;
}
