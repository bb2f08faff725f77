/* Carries octets from FIFO to FIFO as lines of 64 kbit/s do: each millisecond 8 of them on each way, as many as are there.
   usage: pace IN OUT [IN OUT ..]          until it is ended */
#include <fcntl.h>
#include <stdio.h>
#include <stdlib.h>
#include <time.h>
#include <unistd.h>

enum { PACE = 8, MOST = 64 };

int main(int count, char **paths) {
    int in[MOST], out[MOST], ways = (count - 1) / 2;
    struct timespec due;
    if (ways < 1 || ways > MOST)
        return 3;
    for (int it = 0; it < ways; it++) {
        in[it] = open(paths[2 * it + 1], O_RDWR | O_NONBLOCK);
        out[it] = open(paths[2 * it + 2], O_RDWR | O_NONBLOCK);
        if (in[it] < 0 || out[it] < 0) {
            perror(paths[2 * it + 1]);
            return 4;
        }
    }
    clock_gettime(CLOCK_MONOTONIC, &due);
    for (;;) {
        due.tv_nsec += 1000000;
        if (due.tv_nsec >= 1000000000) {
            due.tv_nsec -= 1000000000;
            due.tv_sec++;
        }
        clock_nanosleep(CLOCK_MONOTONIC, TIMER_ABSTIME, &due, NULL);
        for (int it = 0; it < ways; it++) {
            char octets[PACE];
            ssize_t came = read(in[it], octets, PACE);
            if (came > 0 && write(out[it], octets, came) != came)
                fprintf(stderr, "octets lost on way %d\n", it);
        }
    }
}
