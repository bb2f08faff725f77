/* Names that the tables' hash puts into one group: so many names of seven letters, whose hashes agree in these lowest bits (the group) and in these bits
   below the highest eight (which a group keeps of each name). Prints one a line. The hash is that of the kit's hash maps, whose seed is fixed.

   usage: collide COUNT GROUP_BITS TAG_BITS */
#include <stdint.h>
#include <stdio.h>
#include <stdlib.h>

#define MULTIPLIER 0x9e3779b97f4a7c15ull
#define INITIAL 0x243f6a8885a308d3ull
#define LENGTH 7

static uint64_t folded_multiply(uint64_t a, uint64_t b) {
    unsigned __int128 product = (unsigned __int128)a * b;
    return (uint64_t)product ^ (uint64_t)(product >> 64);
}

/* A name of seven bytes is read as two words of four, which share a byte, and an octet 255 follows it. */
static uint32_t hash(const unsigned char *name) {
    uint64_t low = name[0] | name[1] << 8 | name[2] << 16 | (uint64_t)name[3] << 24;
    uint64_t high = name[3] | name[4] << 8 | name[5] << 16 | (uint64_t)name[6] << 24;
    uint64_t state = folded_multiply(INITIAL ^ (low | high << 32), MULTIPLIER ^ (2 * LENGTH));
    state = folded_multiply(state ^ 0xffffff, MULTIPLIER ^ 2);
    return (uint32_t)(state ^ state >> 32);
}

int main(int count, char **words) {
    static const char letters[] = "abcdefghijklmnopqrstuvwxyz0123456789_";
    if (count != 4) return 2;
    long wanted = atol(words[1]);
    uint32_t mask = (1u << atoi(words[2])) - 1;
    mask |= ((1u << atoi(words[3])) - 1) << 24;
    uint32_t goal = 0x5a000000 & mask;
    unsigned char name[LENGTH + 1] = "";
    for (uint64_t number = 0; wanted > 0; number++) {
        uint64_t rest = number / 26;
        name[0] = letters[number % 26];
        for (int place = 1; place < LENGTH - 1; place++, rest /= 37) name[place] = letters[rest % 37];
        if (rest) return 1;
        for (const char *last = letters; *last && wanted > 0; last++) {
            name[LENGTH - 1] = (unsigned char)*last;
            if ((hash(name) & mask) == goal) {
                puts((char *)name);
                wanted--;
            }
        }
    }
    return 0;
}
