/* The same jobs as pfc_bench's, in plain C, to compare with: gcc -O2 -o baseline baseline.c && ./baseline */
#include <stdint.h>
#include <stdio.h>
#include <stdlib.h>
#include <string.h>
#include <time.h>

static uint32_t table[8][256];

static void make_tables(void) {
    for (uint32_t b = 0; b < 256; b++) {
        uint32_t c = b;
        for (int i = 0; i < 8; i++) c = (c >> 1) ^ ((c & 1) ? 0x82F63B78u : 0);
        table[0][b] = c;
    }
    for (int t = 1; t < 8; t++)
        for (int b = 0; b < 256; b++) {
            uint32_t c = table[t - 1][b];
            table[t][b] = table[0][c & 255] ^ (c >> 8);
        }
}

static uint32_t crc32c(const uint8_t *p, size_t n) {
    uint32_t c = 0xFFFFFFFFu;
    while (n >= 8) {
        uint64_t w;
        memcpy(&w, p, 8);
        w ^= c;
        c = table[7][w & 255] ^ table[6][(w >> 8) & 255] ^ table[5][(w >> 16) & 255] ^ table[4][(w >> 24) & 255] ^
            table[3][(w >> 32) & 255] ^ table[2][(w >> 40) & 255] ^ table[1][(w >> 48) & 255] ^ table[0][w >> 56];
        p += 8;
        n -= 8;
    }
    while (n--) c = table[0][(c ^ *p++) & 255] ^ (c >> 8);
    return c ^ 0xFFFFFFFFu;
}

static double now(void) {
    struct timespec t;
    clock_gettime(CLOCK_MONOTONIC, &t);
    return t.tv_sec * 1e9 + t.tv_nsec;
}

static void line(const char *name, double start, int rounds, uint64_t sum) {
    printf("%s: %.0f ns, sum %llu\n", name, (now() - start) / rounds, (unsigned long long)sum);
}

int main(void) {
    enum { BYTES = 1 << 24, WORDS = 1 << 18 };
    const int rounds = 16;
    uint8_t *bytes = calloc(BYTES, 1);
    uint64_t *words = malloc(WORDS * sizeof *words);
    uint64_t sum = 0;
    make_tables();
    double start = now();
    for (int i = 0; i < rounds; i++) {
        bytes[0] = (uint8_t)i;
        sum += crc32c(bytes, BYTES);
    }
    line("checksum of a buffer", start, rounds, sum);
    memset(words, 0xFF, WORDS * sizeof *words);
    sum = 0;
    start = now();
    for (int i = 0; i < rounds; i++) {
        words[i] = ~(1ull << i);
        for (int w = 0; w < WORDS; w++) sum += (uint64_t)__builtin_popcountll(words[w]);
    }
    line("members of a set", start, rounds, sum);
    memset(words, 0xFF, WORDS * sizeof *words);
    sum = 0;
    start = now();
    for (int i = 0; i < rounds; i++) {
        words[WORDS - 1] = ~(1ull << (63 - i));
        int w = 0;
        while (w < WORDS && words[w] == UINT64_MAX) w++;
        if (w < WORDS) sum += (uint64_t)w * 64 + (uint64_t)__builtin_ctzll(~words[w]);
    }
    line("first absent of a set", start, rounds, sum);
    free(bytes);
    free(words);
    return 0;
}
