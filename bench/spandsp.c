/* The HDLC sender and receiver of spandsp on the same units as bench/plain.c, for comparison. They count only frames with right
 * check bits; nothing here looks at a length indicator. */
#include <stdint.h>
#include <stdio.h>
#include <stdlib.h>
#include <string.h>
#include <time.h>
#include <spandsp.h>

#define UNITS 2000
#define FISU_TIMES 25

static uint32_t state = 2463534242u;
static uint32_t draw(void) {
    state ^= state << 13;
    state ^= state >> 17;
    state ^= state << 5;
    return state;
}

static uint8_t contents[UNITS][276];
static size_t lengths[UNITS];
static int next, last;
static size_t units;
static hdlc_tx_state_t *sender;

static void more(void *user) {
    if (next < last) {
        hdlc_tx_frame(sender, contents[next], lengths[next]);
        next++;
    } else next = last + 1;
}

static void frame(void *user, const uint8_t *octets, int length, int ok) {
    if (ok && length > 0) units++;
}

static double now(void) {
    struct timespec t;
    clock_gettime(CLOCK_MONOTONIC, &t);
    return t.tv_sec + t.tv_nsec * 1e-9;
}

static void measure(const char *name, int count, int rounds) {
    size_t content_octets = 0, length = 0, most = UNITS * 360;
    uint8_t *line = malloc(most + 1024);
    for (int u = 0; u < count; u++) content_octets += lengths[u] + 2;
    last = count;
    double start = now();
    for (int r = 0; r < rounds; r++) {
        length = 0;
        next = 0;
        sender = hdlc_tx_init(NULL, 0, 1, 0, more, NULL);
        more(NULL);
        while (next <= last && length < most) length += hdlc_tx_get(sender, line + length, 256);
        length += hdlc_tx_get(sender, line + length, 4);
        free(sender);
    }
    double sent = now();
    for (int r = 0; r < rounds; r++) {
        hdlc_rx_state_t *receiver = hdlc_rx_init(NULL, 0, 0, 1, frame, NULL);
        units = 0;
        for (size_t i = 0; i < length; i += 1024) hdlc_rx_put(receiver, line + i, length - i < 1024 ? length - i : 1024);
        free(receiver);
    }
    double received = now();
    printf("%sunits %zu line octets %zu\n", name, units, length);
    printf("%sout %.0f\n", name, (double)content_octets * rounds / (sent - start));
    printf("%sin %.0f\n", name, (double)length * rounds / (received - sent));
    free(line);
}

int main(int argc, char **argv) {
    int rounds = argc > 1 ? atoi(argv[1]) : 1;
    for (int u = 0; u < UNITS; u++) {
        uint8_t *c = contents[u];
        size_t sif = 2 + draw() % 271;
        c[0] = draw() % 256;
        c[1] = draw() % 256;
        c[2] = sif + 1 < 63 ? sif + 1 : 63;
        c[3] = draw() % 256;
        for (size_t i = 0; i < sif; i++) c[4 + i] = draw() % 256;
        lengths[u] = 4 + sif;
    }
    measure("", UNITS, rounds);
    for (int u = 0; u < UNITS; u++) {
        uint8_t *c = contents[u];
        c[0] = draw() % 256;
        c[1] = draw() % 256;
        c[2] = 0;
        lengths[u] = 3;
    }
    measure("fisu_", UNITS, rounds * FISU_TIMES);
    return 0;
}
