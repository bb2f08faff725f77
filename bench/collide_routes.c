/* Routes that a table of them puts into one group, where the table's key is a digest of only the declared names (two words of 64 bits, in hexadecimal):
   of all paths FROM pI TO pJ WITH sK among so many processes and signals those whose hashes agree in these lowest bits (the group) and in these bits of the
   highest eight (which a group keeps of each). Prints I, J and K one path a line. The hash is the keyed one of the kit's maps, SipHash-1-3.

   usage: collide_routes KEY0 KEY1 PROCESSES SIGNALS GROUP_BITS TAG_BITS */
#include <stdint.h>
#include <stdio.h>
#include <stdlib.h>
#include <string.h>

static uint64_t key0, key1;

static uint64_t turned(uint64_t word, int by) {
    return word << by | word >> (64 - by);
}

static uint32_t hash(const unsigned char *octets, size_t length) {
    uint64_t v0 = key0 ^ 0x736f6d6570736575, v1 = key1 ^ 0x646f72616e646f6d, v2 = key0 ^ 0x6c7967656e657261, v3 = key1 ^ 0x7465646279746573;
#define ROUND() \
    (v0 += v1, v2 += v3, v1 = turned(v1, 13) ^ v0, v3 = turned(v3, 16) ^ v2, v0 = turned(v0, 32), \
     v2 += v1, v0 += v3, v1 = turned(v1, 17) ^ v2, v3 = turned(v3, 21) ^ v0, v2 = turned(v2, 32))
    size_t at = 0;
    for (uint64_t word; at + 8 <= length; at += 8) {
        memcpy(&word, octets + at, 8);
        v3 ^= word, ROUND(), v0 ^= word;
    }
    uint64_t last = (uint64_t)length << 56;
    for (int place = 0; at < length; at++, place += 8) last |= (uint64_t)octets[at] << place;
    v3 ^= last, ROUND(), v0 ^= last, v2 ^= 0xff;
    ROUND(), ROUND(), ROUND();
    uint64_t state = v0 ^ v1 ^ v2 ^ v3;
    return (uint32_t)(state ^ state >> 32);
}

/* Hash input: of a process the number of its variant and its name followed by an octet 255, of a signal the name and that octet. */
struct part {
    unsigned char octets[24];
    size_t length;
};

static struct part named(char letter, long number, int variant) {
    struct part it = {{(unsigned char)variant}, variant ? 8 : 0};
    it.length += (size_t)sprintf((char *)it.octets + it.length, "%c%ld", letter, number);
    it.octets[it.length++] = 255;
    return it;
}

static size_t put(unsigned char *to, struct part *it) {
    memcpy(to, it->octets, sizeof it->octets);
    return it->length;
}

int main(int count, char **words) {
    if (count != 7) return 2;
    key0 = strtoull(words[1], NULL, 16), key1 = strtoull(words[2], NULL, 16);
    long processes = atol(words[3]), signals = atol(words[4]);
    uint32_t mask = (1u << atoi(words[5])) - 1;
    mask |= ((1u << atoi(words[6])) - 1) << 24;
    uint32_t goal = 0x5a000000 & mask;
    struct part *parties = malloc(sizeof *parties * (size_t)(processes + signals)), *sent = parties + processes;
    if (!parties) return 1;
    for (long it = 0; it < processes; it++) parties[it] = named('p', it, 1);
    for (long it = 0; it < signals; it++) sent[it] = named('s', it, 0);
    unsigned char octets[128];
    for (long from = 0; from < processes; from++)
        for (long to = 0; to < processes; to++) {
            size_t before = put(octets, parties + from);
            before += put(octets + before, parties + to);
            for (long signal = 0; signal < signals; signal++)
                if ((hash(octets, before + put(octets + before, sent + signal)) & mask) == goal) printf("%ld %ld %ld\n", from, to, signal);
        }
    return 0;
}
