/* What the client does with replies of any length, refusals, and a program that ends.
 * usage: tests PROGRAM TESS NO_TESS. Ends with 0 where all holds. */
#define _POSIX_C_SOURCE 200809L
#include "wagbirelu_pipe.h"

#include <signal.h>
#include <stdio.h>
#include <stdlib.h>
#include <string.h>

static int failed;

static void holds(int truth, const char *what)
{
    if (!truth) {
        fprintf(stderr, "it does not hold that %s\n", what);
        failed = 1;
    }
}

static void walks(void)
{
    char *walk = wb_walk_of_name("0.4"), *root = wb_walk_of_name("-"), *back = wb_walk_back("LLRX");
    holds(walk != NULL && strcmp(walk, "XLLLLX") == 0, "0.4 is XLLLLX");
    holds(root != NULL && *root == 0, "the root's walk is empty");
    holds(back != NULL && strcmp(back, "XLRR") == 0, "LLRX goes back as XLRR");
    holds(wb_walk_of_name("0..1") == NULL && wb_walk_of_name("64") == NULL, "0..1 and 64 are no names");
    free(walk);
    free(root);
    free(back);
}

/* A tile far out, whose name is longer than what is read at once, and a ring of many lines. */
static void long_replies(wb_client *client)
{
    holds(wb_ask(client, "new 0") == WB_OK, "there is walker 0");
    for (int i = 0; i < 1900; i++)
        holds(wb_ask(client, "go 0 XLLL") == WB_OK, "walker 0 goes on");
    holds(wb_ask(client, "at 0") == WB_OK && wb_length(client) > 3000, "its name is long");
    holds(wb_ask(client, "ring 6") == WB_OK, "there is ring 6");
    size_t count = strtoul(wb_line(client) + strlen("tiles "), NULL, 10);
    for (size_t i = 0; i < count; i++)
        holds(wb_more(client) == WB_OK, "each name of the ring comes");
    holds(wb_ask(client, "level 0") == WB_OK && strncmp(wb_line(client), "level ", 6) == 0,
          "the next reply stands behind the names");
}

static void refusals(wb_client *client)
{
    holds(wb_ask(client, "new 0") == WB_REFUSED && strcmp(wb_line(client), "taken") == 0, "0 is taken");
    holds(wb_askf(client, "at %d", 63) == WB_REFUSED, "there is no walker 63");
    holds(wb_ask(client, "hop") == WB_REFUSED, "hop is bad");
}

int main(int count, char **words)
{
    if (count != 4)
        return 2;
    signal(SIGPIPE, SIG_IGN);
    walks();
    wb_client *client = wb_start(words[1], words[2], 0, NULL);
    if (client == NULL)
        return 1;
    long_replies(client);
    refusals(client);
    holds(wb_stop(client) == 0, "the program ends with 0");

    wb_client *none = wb_start(words[1], words[3], 0, NULL);
    if (none == NULL)
        return 1;
    wb_result first = wb_ask(none, "new 0");
    holds(first == WB_REFUSED ? strcmp(wb_line(none), "tess line 1") == 0 : first == WB_ENDED,
          "a program without a tessellation says why");
    while (first == WB_REFUSED)
        first = wb_ask(none, "new 0");
    holds(first == WB_ENDED, "and ends");
    holds(wb_stop(none) == 5, "and its status is 5");
    return failed;
}
