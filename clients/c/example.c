/* A walk on heptagons and hexagons: texts are written, read again from elsewhere, and the way back to
 * the start is found.
 * usage: example PROGRAM TESS. Ends with 0 where all came out as it must. */
#define _POSIX_C_SOURCE 200809L
#include "wagbirelu_pipe.h"

#include <signal.h>
#include <stdio.h>
#include <stdlib.h>
#include <string.h>

static wb_client *client;

/* Prints a line and its reply. Where it is refused, or the program ends, this one does. */
static const char *ask(const char *line)
{
    wb_result result = wb_ask(client, line);
    printf("%-14s %s\n", line, wb_line(client));
    if (result != WB_OK) {
        fprintf(stderr, "%s: %s\n", line, result == WB_REFUSED ? "refused" : "no answer");
        int status = wb_stop(client);
        exit(status > 0 ? status : 1);
    }
    return wb_line(client);
}

/* Writes a text on every tile next to the start, going to it by its name and back. */
static int write_around(void)
{
    if (wb_ask(client, "ring 1") != WB_OK)
        return 0;
    size_t count = strtoul(wb_line(client) + strlen("tiles "), NULL, 10);
    char (*names)[16] = malloc(count * sizeof *names);
    for (size_t i = 0; names != NULL && i < count; i++)
        if (wb_more(client) != WB_OK || snprintf(names[i], sizeof *names, "%s", wb_line(client)) < 1)
            return 0;
    int good = names != NULL;
    for (size_t i = 0; good && i < count; i++) {
        char *there = wb_walk_of_name(names[i]), *back = there == NULL ? NULL : wb_walk_back(there);
        good = back != NULL && wb_askf(client, "go 0 %s", there) == WB_OK
            && wb_askf(client, "put 0 tile %s", names[i]) == WB_OK
            && wb_askf(client, "go 0 %s", back) == WB_OK;
        free(there);
        free(back);
    }
    printf("%zu tiles around have their names as texts\n", count);
    free(names);
    return good;
}

int main(int count, char **words)
{
    if (count != 3) {
        fprintf(stderr, "usage: example PROGRAM TESS\n");
        return 2;
    }
    signal(SIGPIPE, SIG_IGN);
    client = wb_start(words[1], words[2], 0, NULL);
    if (client == NULL)
        return 1;
    ask("new 0");
    ask("put 0 home");
    if (!write_around())
        return 1;
    ask("go 0 LLX");
    ask("get 0");
    ask("go 0 LXRRXLX");
    ask("at 0");
    ask("new 1");

    /* The way back: a shortest walk to the tile of walker 1, who stayed at the start. */
    char *way = strdup(ask("path 0 1") + strlen("path "));
    if (way == NULL || wb_askf(client, "go 0 %s", way) != WB_OK)
        return 1;
    free(way);
    int home = strcmp(ask("same 0 1"), "yes") == 0 && strcmp(ask("get 0"), "text home") == 0;
    return wb_stop(client) == 0 && home ? 0 : 1;
}
