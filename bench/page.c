// Checking a page and finding a key in it, beside the CRC32C of a page sliced by eight, in one run.
#include <stdint.h>
#include <stdio.h>
#include <stdlib.h>
#include <string.h>
#include <time.h>

uint32_t page_check(const uint8_t *bytes, size_t length);
uint64_t page_finds(const uint8_t *bytes, size_t length, const uint8_t *keys, size_t keys_length, uint32_t turns);

static uint32_t table[8][256];

static uint32_t steps(uint32_t c, int n) {
    while (n--) {
        c = c >> 1 ^ (c & 1) * 0x82F63B78u;
    }
    return c;
}

static uint32_t load(const uint8_t *p) {
    uint32_t x;
    memcpy(&x, p, 4);
    return x;
}

static uint32_t sliced(const uint8_t *b, size_t n) {
    uint32_t c = ~0u;
    for (; n >= 8; b += 8, n -= 8) {
        uint32_t x = c ^ load(b), y = load(b + 4);
        c = table[7][x & 255] ^ table[6][x >> 8 & 255] ^ table[5][x >> 16 & 255] ^ table[4][x >> 24]
            ^ table[3][y & 255] ^ table[2][y >> 8 & 255] ^ table[1][y >> 16 & 255] ^ table[0][y >> 24];
    }
    while (n--) {
        c = table[0][(c ^ *b++) & 255] ^ c >> 8;
    }
    return ~c;
}

// A leaf of `count` entries with keys of eight bytes that differ in the last two, and values of sixteen.
static void leaf(uint8_t *b, int count, uint8_t *keys) {
    memset(b, 0, 512);
    int at = 508;
    b[4] = 1;
    b[10] = count;
    b[37] = 255;
    for (int i = 0; i < count; i++) {
        uint8_t *key = keys + 8 * i;
        memcpy(key, "label-", 6);
        key[6] = '0' + i / 10;
        key[7] = '0' + i % 10;
        at -= 26;
        b[at] = 8;
        memcpy(b + at + 1, key, 8);
        b[at + 9] = 16;
        for (int j = 0; j < 16; j++) {
            b[at + 10 + j] = i * 16 + j;
        }
        b[72 + 2 * i] = at & 255;
        b[73 + 2 * i] = at >> 8;
    }
    b[16] = at & 255;
    b[17] = at >> 8;
    uint32_t seal = sliced(b, 508);
    memcpy(b + 508, &seal, 4);
}

static double seconds(void) {
    struct timespec t;
    clock_gettime(CLOCK_MONOTONIC, &t);
    return t.tv_sec + t.tv_nsec * 1e-9;
}

static volatile uint64_t sink;

int main(void) {
    for (int k = 0; k < 8; k++) {
        for (uint32_t x = 0; x < 256; x++) {
            table[k][x] = steps(x, 8 * (k + 1));
        }
    }
    enum { COUNT = 15, PAGES = 64, TURNS = 2000, SOUGHT = 4096 };
    static uint8_t pages[PAGES][512], keys[8 * COUNT], sought[8 * SOUGHT];
    for (int i = 0; i < PAGES; i++) {
        leaf(pages[i], COUNT, keys);
        if (page_check(pages[i], 512) != 1) {
            fprintf(stderr, "a good page was refused\n");
            return 1;
        }
    }
    pages[1][200] ^= 1;
    if (page_check(pages[1], 512) != 0) {
        fprintf(stderr, "a harmed page was taken\n");
        return 1;
    }
    pages[1][200] ^= 1;
    // keys that are there and keys between them, in no order
    uint32_t seed = 7;
    for (int i = 0; i < SOUGHT; i++) {
        seed = seed * 1664525u + 1013904223u;
        memcpy(sought + 8 * i, keys + 8 * ((seed >> 16) % COUNT), 8);
        sought[8 * i + 7] += seed >> 30 & 1;
    }
    uint64_t slots = 0;
    for (int i = 0; i < SOUGHT; i++) {
        int slot = 0;
        while (slot < COUNT && memcmp(keys + 8 * slot, sought + 8 * i, 8) < 0) {
            slot++;
        }
        slots += slot;
    }
    if (page_finds(pages[0], 512, sought, sizeof sought, 3) != 3 * slots) {
        fprintf(stderr, "keys were found in other slots\n");
        return 1;
    }
    double best[3] = {1e9, 1e9, 1e9};
    for (int round = 0; round < 9; round++) {
        uint64_t sum = 0;
        double t0 = seconds();
        for (int i = 0; i < PAGES * TURNS; i++) {
            sum += sliced(pages[i % PAGES], 508);
        }
        double t1 = seconds();
        for (int i = 0; i < PAGES * TURNS; i++) {
            sum += page_check(pages[i % PAGES], 512);
        }
        double t2 = seconds();
        sum += page_finds(pages[round % PAGES], 512, sought, sizeof sought, 20);
        double t3 = seconds();
        sink = sum;
        double taken[3] = {(t1 - t0) / (PAGES * TURNS), (t2 - t1) / (PAGES * TURNS), (t3 - t2) / (20.0 * SOUGHT)};
        for (int k = 0; k < 3; k++) {
            best[k] = taken[k] < best[k] ? taken[k] : best[k];
        }
    }
    printf("ns, the best of nine rounds, a leaf of 15 entries with keys of 8 and values of 16 bytes\n");
    printf("%-42s %8.1f\n", "its seal alone, C sliced by eight", best[0] * 1e9);
    printf("%-42s %8.1f  (%.2f of it)\n", "the whole page checked, proved code", best[1] * 1e9, best[1] / best[0]);
    printf("%-42s %8.1f\n", "a key found in a checked page, proved code", best[2] * 1e9);
    return 0;
}
