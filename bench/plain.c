/* A plain loop for signal units on a line, for comparison: check bits by a table, stuffing and unstuffing by tables of
 * octets, and bit by bit only where six 1s come in a row. It sends and receives the same units as the program `trials` (its round `line`):
 * random messages, and a line of fill-in units, few of them gone through many times. */
#include <stdint.h>
#include <stdio.h>
#include <stdlib.h>
#include <string.h>
#include <time.h>

#define UNITS 2000
#define FISU_TIMES 25

static uint16_t table[256];

static uint32_t state = 2463534242u;
static uint32_t draw(void) {
    state ^= state << 13;
    state ^= state >> 17;
    state ^= state << 5;
    return state;
}

static uint16_t check_bits(const uint8_t *p, size_t n) {
    uint16_t r = 0xffff;
    for (size_t i = 0; i < n; i++) r = (r >> 8) ^ table[(r ^ p[i]) & 0xff];
    return ~r;
}

struct line { uint8_t *octets; size_t length; uint32_t part; unsigned filled, ones; };

struct stuffed { uint16_t bits; uint8_t count, ones; };
static struct stuffed stuffing[5][256];

/* The rest of an octet after this many 1s, unless six 1s come in a row. */
struct unstuffed { uint8_t bits, count, ones, six; };
static struct unstuffed unstuffing[6][256];

static void make_tables(void) {
    for (int b = 0; b < 256; b++) {
        uint16_t r = b;
        for (int i = 0; i < 8; i++) r = r & 1 ? (r >> 1) ^ 0x8408 : r >> 1;
        table[b] = r;
        for (int ones = 0; ones < 5; ones++) {
            struct stuffed s = {0, 0, ones};
            for (int i = 0; i < 8; i++) {
                int bit = b >> i & 1;
                s.bits |= bit << s.count++;
                s.ones = bit ? s.ones + 1 : 0;
                if (s.ones == 5) { s.count++; s.ones = 0; }
            }
            stuffing[ones][b] = s;
        }
        for (int ones = 0; ones < 6; ones++) {
            struct unstuffed u = {0, 0, ones, 0};
            for (int i = 0; i < 8; i++) {
                int bit = b >> i & 1;
                if (bit || u.ones != 5) u.bits |= bit << u.count++;
                u.ones = bit ? u.ones + 1 : 0;
                if (u.ones == 6) u.six = 1;
            }
            unstuffing[ones][b] = u;
        }
    }
}

static void put_bits(struct line *l, uint32_t bits, unsigned count) {
    l->part |= bits << l->filled;
    l->filled += count;
    while (l->filled >= 8) {
        l->octets[l->length++] = l->part;
        l->part >>= 8;
        l->filled -= 8;
    }
}

static void put_unit(struct line *l, const uint8_t *content, size_t n) {
    uint8_t unit[278];
    memcpy(unit, content, n);
    uint16_t c = check_bits(content, n);
    unit[n] = c & 0xff;
    unit[n + 1] = c >> 8;
    unsigned ones = 0;
    for (size_t i = 0; i < n + 2; i++) {
        struct stuffed s = stuffing[ones][unit[i]];
        put_bits(l, s.bits, s.count);
        ones = s.ones;
    }
    put_bits(l, 0x7e, 8);
}

struct receiver { uint8_t unit[300]; size_t units, length; unsigned ones, part, filled, open; };

/* Takes up to eight data bits. */
static inline void take_data(struct receiver *r, unsigned bits, unsigned count) {
    r->part |= bits << r->filled;
    r->filled += count;
    if (r->filled >= 8) {
        if (r->length < 290) r->unit[r->length++] = r->part;
        r->part >>= 8;
        r->filled -= 8;
    }
}

static void end_flag(struct receiver *r) {
    uint8_t *unit = r->unit;
    size_t length = r->length;
    if (r->open && r->filled == 7 && length >= 5 && length <= 278
        && check_bits(unit, length - 2) == (unit[length - 2] | unit[length - 1] << 8)) {
        unsigned after = length - 5;
        if ((unit[2] & 63) == (after < 63 ? after : 63)) r->units++;
    }
    r->open = 1;
    r->ones = r->length = r->part = r->filled = 0;
}

static void take_bit(struct receiver *r, unsigned bit) {
    if (bit) {
        if (++r->ones > 6) r->open = 0;
        if (r->ones > 7) r->ones = 7;
    } else {
        unsigned ones = r->ones;
        r->ones = 0;
        if (ones == 6) { end_flag(r); return; }
        if (ones == 5) return;
    }
    take_data(r, bit, 1);
}

/* Not inlined, so that each round is made. */
__attribute__((noinline)) static size_t receive(const uint8_t *line, size_t n) {
    __asm__ volatile("" ::: "memory");
    struct receiver r = {.units = 0};
    for (size_t i = 0; i < n; i++) {
        if (r.ones < 6) {
            struct unstuffed u = unstuffing[r.ones][line[i]];
            if (!u.six) {
                take_data(&r, u.bits, u.count);
                r.ones = u.ones;
                continue;
            }
        }
        for (int k = 0; k < 8; k++) take_bit(&r, line[i] >> k & 1);
    }
    return r.units;
}

static double now(void) {
    struct timespec t;
    clock_gettime(CLOCK_MONOTONIC, &t);
    return t.tv_sec + t.tv_nsec * 1e-9;
}

static uint8_t contents[UNITS][276];
static size_t lengths[UNITS];

/* Sends and receives the first so many contents, and prints octets a second both ways. */
static void measure(const char *name, int count, int rounds, int told) {
    size_t content_octets = 0;
    for (int u = 0; u < count; u++) content_octets += lengths[u] + 2;
    struct line l = {malloc(UNITS * 360), 0, 0, 0, 0};
    double start = now();
    for (int r = 0; r < rounds; r++) {
        l.length = 0; l.part = 0; l.filled = 0;
        put_bits(&l, 0x7e, 8);
        for (int u = 0; u < count; u++) put_unit(&l, contents[u], lengths[u]);
        put_bits(&l, 0x7e, 8);
    }
    double sent = now();
    size_t units = 0;
    for (int r = 0; r < rounds; r++) units = receive(l.octets, l.length);
    double received = now();
    printf("%sunits %zu line octets %zu\n", name, units, l.length);
    if (told) {
        printf("%sout %.0f\n", name, (double)content_octets * rounds / (sent - start));
        printf("%sin %.0f\n", name, (double)l.length * rounds / (received - sent));
    }
    free(l.octets);
}

int main(int argc, char **argv) {
    int rounds = argc > 1 ? atoi(argv[1]) : 1;
    make_tables();
    for (int u = 0; u < UNITS; u++) {
        uint8_t *c = contents[u];
        size_t sif = 2 + draw() % 271;
        c[0] = draw() % 256;
        c[1] = draw() % 256;
        c[2] = sif + 1 < 63 ? sif + 1 : 63;
        c[3] = draw() % 256;
        for (size_t i = 0; i < sif; i++) c[4 + i] = draw() % 256;
        lengths[u] = 4 + sif;
    }
    measure("", UNITS, rounds, argc > 1);
    for (int u = 0; u < UNITS; u++) {
        uint8_t *c = contents[u];
        c[0] = draw() % 256;
        c[1] = draw() % 256;
        c[2] = 0;
        lengths[u] = 3;
    }
    measure("fisu_", UNITS, rounds * FISU_TIMES, argc > 1);
    return 0;
}
