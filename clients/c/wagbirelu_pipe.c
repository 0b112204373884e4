#define _POSIX_C_SOURCE 200809L
#include "wagbirelu_pipe.h"

#include <errno.h>
#include <fcntl.h>
#include <stdarg.h>
#include <stdio.h>
#include <stdlib.h>
#include <string.h>
#include <sys/wait.h>
#include <unistd.h>

/* Bytes that were read, of which the first were used already, and the last reply line among them. */
struct wb_client {
    pid_t process;
    int to, from;
    char *bytes;        /* what was read */
    size_t used, read, room;
    char *line;         /* the last reply line, with a zero behind it */
    size_t length, line_room;
    char *sent;         /* the line that is sent */
    size_t sent_room;
};

/* Makes room for so many bytes. */
static int grow(char **bytes, size_t *room, size_t wanted)
{
    if (wanted <= *room)
        return 1;
    size_t more = *room < 64 ? 64 : *room;
    while (more < wanted) {
        if (more > (size_t)-1 / 2)
            return 0;
        more *= 2;
    }
    char *moved = realloc(*bytes, more);
    if (moved == NULL)
        return 0;
    *bytes = moved;
    *room = more;
    return 1;
}

/* A pipe whose ends are closed in programs that are started. */
static int make_pipe(int ends[2])
{
    if (pipe(ends) != 0)
        return 0;
    fcntl(ends[0], F_SETFD, FD_CLOEXEC);
    fcntl(ends[1], F_SETFD, FD_CLOEXEC);
    return 1;
}

static void close_both(const int ends[2])
{
    close(ends[0]);
    close(ends[1]);
}

/* In the new process: becomes the program. Only calls that a forked process may make stand here. */
static void become(const char *const *words, int in, int out)
{
    if (dup2(in, 0) >= 0 && dup2(out, 1) >= 0)
        execvp(words[0], (char *const *)words);
    _exit(127);
}

wb_client *wb_start(const char *program, const char *tess, unsigned kind, const char *rules)
{
    char digits[3 * sizeof kind + 2];
    snprintf(digits, sizeof digits, "%u", kind);
    const char *words[] = {program, "run", tess, digits, rules == NULL ? NULL : "--rules", rules, NULL};
    int to[2], from[2];
    wb_client *client = calloc(1, sizeof *client);
    if (client == NULL)
        return NULL;
    if (!make_pipe(to)) {
        free(client);
        return NULL;
    }
    if (!make_pipe(from)) {
        close_both(to);
        free(client);
        return NULL;
    }
    client->process = fork();
    if (client->process == 0)
        become(words, to[0], from[1]);
    close(to[0]);
    close(from[1]);
    client->to = to[1];
    client->from = from[0];
    if (client->process < 0) {
        close(client->to);
        close(client->from);
        free(client);
        return NULL;
    }
    return client;
}

/* Writes all of it. */
static int send_all(int to, const char *bytes, size_t length)
{
    while (length > 0) {
        ssize_t count = write(to, bytes, length);
        if (count < 0 && errno == EINTR)
            continue;
        if (count <= 0)
            return 0;
        bytes += count;
        length -= (size_t)count;
    }
    return 1;
}

/* Reads until a line feed stands behind what was used; tells where. */
static wb_result find_feed(wb_client *client, size_t *end)
{
    size_t seen = client->used;
    for (;;) {
        char *feed = client->read == seen ? NULL
            : memchr(client->bytes + seen, '\n', client->read - seen);
        if (feed != NULL) {
            *end = (size_t)(feed - client->bytes);
            return WB_OK;
        }
        seen = client->read;
        if (!grow(&client->bytes, &client->room, client->read + 4096))
            return WB_MEMORY;
        ssize_t count = read(client->from, client->bytes + client->read, client->room - client->read);
        if (count < 0 && errno == EINTR)
            continue;
        if (count <= 0)
            return WB_ENDED;
        client->read += (size_t)count;
    }
}

/* Whether a line answers what was asked. Any other refuses it, or tells why the program ends. */
static int answers(const char *line)
{
    static const char *const whole[] = {"ok", "yes", "no", "none"};
    static const char *const front[] = {"at ", "level ", "dist ", "path ", "text ", "tiles ", "count "};
    for (size_t i = 0; i < sizeof whole / sizeof *whole; i++)
        if (strcmp(line, whole[i]) == 0)
            return 1;
    for (size_t i = 0; i < sizeof front / sizeof *front; i++)
        if (strncmp(line, front[i], strlen(front[i])) == 0)
            return 1;
    return 0;
}

wb_result wb_more(wb_client *client)
{
    size_t end = 0;
    wb_result found = find_feed(client, &end);
    if (found != WB_OK)
        return found;
    size_t length = end - client->used;
    if (!grow(&client->line, &client->line_room, length + 1))
        return WB_MEMORY;
    memcpy(client->line, client->bytes + client->used, length);
    client->line[length] = 0;
    client->length = length;
    client->used = end + 1;
    if (client->used == client->read)
        client->used = client->read = 0;
    return WB_OK;
}

wb_result wb_ask(wb_client *client, const char *line)
{
    size_t length = strlen(line);
    if (!grow(&client->sent, &client->sent_room, length + 1))
        return WB_MEMORY;
    if (line != client->sent)
        memcpy(client->sent, line, length);
    client->sent[length] = '\n';
    if (!send_all(client->to, client->sent, length + 1))
        return WB_ENDED;
    wb_result read = wb_more(client);
    return read == WB_OK && !answers(client->line) ? WB_REFUSED : read;
}

wb_result wb_askf(wb_client *client, const char *format, ...)
{
    va_list values;
    va_start(values, format);
    int length = vsnprintf(NULL, 0, format, values);
    va_end(values);
    if (length < 0 || !grow(&client->sent, &client->sent_room, (size_t)length + 2))
        return WB_MEMORY;
    va_start(values, format);
    vsnprintf(client->sent, client->sent_room, format, values);
    va_end(values);
    return wb_ask(client, client->sent);
}

const char *wb_line(const wb_client *client)
{
    return client->line == NULL ? "" : client->line;
}

size_t wb_length(const wb_client *client)
{
    return client->length;
}

int wb_stop(wb_client *client)
{
    if (client == NULL)
        return -1;
    int status = 0;
    close(client->to);
    close(client->from);
    while (waitpid(client->process, &status, 0) < 0 && errno == EINTR)
        continue;
    free(client->bytes);
    free(client->line);
    free(client->sent);
    free(client);
    return WIFEXITED(status) ? WEXITSTATUS(status) : -1;
}

char *wb_walk_of_name(const char *name)
{
    size_t room = 0, length = 0;
    char *walk = NULL;
    if (!grow(&walk, &room, 1))
        return NULL;
    const char *at = strcmp(name, "-") == 0 ? name + 1 : name;
    while (*at != 0) {
        char *end;
        unsigned long side = strtoul(at, &end, 10);
        if (end == at || side > 63 || (*end != '.' && *end != 0) || !grow(&walk, &room, length + side + 2)) {
            free(walk);
            return NULL;
        }
        memset(walk + length, 'L', side);
        length += side;
        walk[length++] = 'X';
        at = *end == '.' ? end + 1 : end;
    }
    walk[length] = 0;
    return walk;
}

char *wb_walk_back(const char *walk)
{
    size_t length = strlen(walk);
    char *back = malloc(length + 1);
    if (back == NULL)
        return NULL;
    for (size_t i = 0; i < length; i++) {
        char letter = walk[length - 1 - i];
        back[i] = letter == 'L' ? 'R' : letter == 'R' ? 'L' : letter;
    }
    back[length] = 0;
    return back;
}
