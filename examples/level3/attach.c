/* A program of level 3 (docs/level3.md): sends the messages of its standard input, a line each in hexadecimal, in order
   within each selection. Messages for level 3 go to standard output, other reports to standard error. At the end of its
   input it sends what it has, and ends.

   usage: attach ORDERS REPORTS             (cc -O2 -o attach attach.c) */
#include <fcntl.h>
#include <poll.h>
#include <signal.h>
#include <stdio.h>
#include <string.h>
#include <unistd.h>

/* Of each selection the message that isn't taken yet, and the number of its order; 0 if it is to be given (again). */
static struct { char message[600]; unsigned long order; } held[16];
static int refused;

/* Gives what is to be given. Returns whether a message isn't taken yet. */
static int give(int orders) {
    static unsigned long order;
    char line[700];
    int some = 0;
    for (int it = 0; it < 16; some |= *held[it++].message)
        if (*held[it].message && !held[it].order) {
            order += 16;
            int size = snprintf(line, sizeof line, "=%d.%lu send %s\n", getpid(), order + it, held[it].message);
            held[it].order = write(orders, line, size) == size ? order + it : 0;
        }
    return some;
}

static void told(const char *line) {
    char word[600], code[4];
    int process;
    unsigned long order;
    if (sscanf(line, "%*u %*u message %599s", word) == 1) {
        puts(word);
    } else if (sscanf(line, "%*u =%d.%lu %9s %3s", &process, &order, word, code) == 4 && process == getpid()
               && order == held[order % 16].order) {
        held[order % 16].order = 0;
        if (strstr("E1 K1 K2 K6", code)) {
            refused = 1;
        } else {
            *held[order % 16].message = 0;
            fputs(strcmp(word, "ok") ? line : "", stderr);
        }
    } else {
        fputs(line, stderr);
        for (int it = 0; it < 16 && strstr(line, " begins "); it++)
            if (held[it].order) { /* Nobody knows whether the set before took it. */
                fprintf(stderr, "unknown %s\n", held[it].message);
                *held[it].message = held[it].order = 0;
            }
    }
}

int main(int count, char **paths) {
    char line[1024], next[600] = "";
    int orders = -1, ends = 0;
    unsigned selection;
    FILE *reports = NULL;
    signal(SIGPIPE, SIG_IGN);
    setvbuf(stdin, NULL, _IONBF, 0);
    setvbuf(stdout, NULL, _IOLBF, 0);
    while (count == 3 && (give(orders) || *next || !ends)) {
        if (!reports) { /* Opening waits until a set has the FIFOs open. If it has just begun, it says so first. */
            reports = fopen(paths[2], "r");
            orders = open(paths[1], O_WRONLY);
            if (!reports || orders < 0)
                return 4;
            setvbuf(reports, NULL, _IONBF, 0); /* What isn't read waits for the next process. */
            poll(&(struct pollfd){fileno(reports), POLLIN, 0}, 1, 1000);
        }
        struct pollfd ready[] = {{fileno(reports), POLLIN, 0}, {*next || ends ? -1 : 0, POLLIN, 0}};
        poll(ready, refused ? 0 : 2, 100);
        refused = 0;
        if (ready[0].revents && fgets(line, sizeof line, reports)) {
            told(line);
        } else if (ready[0].revents) {
            fclose(reports), close(orders);
            reports = NULL;
        }
        if (ready[1].revents)
            ends = !fgets(next, sizeof next, stdin);
        if (sscanf(next, "%*8c%1x", &selection) != 1)
            *next = 0;
        else if (!*held[selection].message)
            *next = sscanf(next, "%599s", held[selection].message) != 1;
    }
    return count == 3 ? 0 : 3;
}
